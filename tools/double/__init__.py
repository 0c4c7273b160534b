"""The double of perf_event_open(2): unmodified profilers count on simulated processors.

    command      the command line of tools/double.py
    testing      Double, for tests of profilers
    run          starts a command and serves its calls
    notify, sockets, calls    the two ways by which calls come, and a call
    broker       what is known, and what waits; handlers says which module answers which call:
    opening      perf_event_open, read, ioctl, mmap
    descriptors  duplicates, closes, and what an event's descriptor does not do
    sleeping     sleeps, polls, marks          threads   forks, threads, execs, exits
    session      the events on one machine     journal   its script         backend   who answers
    attributes, errnos        what a client's attribute and a report's reason become
    rings, waits, clock, tree the mapped rings, polls, virtual time, processes and their descriptors
    scenario     what happens on the machine, and when
    certificate  compares every answer with one replay of the journal; shares no code with the broker
    truth, differences        what occurred beside what was counted, and where Linux may differ
"""


def __getattr__(name: str) -> object:
    """`from double import Double`, without loading what only a run needs before it is asked for."""
    if name in ("Double", "Uncertified", "Result"):
        from double import testing

        return getattr(testing, name)
    raise AttributeError(name)
