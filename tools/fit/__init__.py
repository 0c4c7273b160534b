"""Whether the events of a `perf stat -e` list fit on the counters of a machine.

One module has one matter: `events` reads the list, `default_events` has perf's own, `machines` the counters, and
`codes` the rows of a machine's file. `meanings` says what an event needs there, and asks `perf_tables` for names that
only perf knows. `plan` puts all together, `script` writes the script that asks, `answers` reads what perf_run answered,
`findings` what that means for each group, and `answering` asks again where perf takes a group apart. `sentences` says
why, `hints` what a mask can't say, `linux_search` whether Linux would find what the program found. `table` prints,
`listing` prints the machines, `runs` spreads the groups over several runs, `drawing` draws, `outputs` writes files, and
`command` reads the words of the command line.

`with_perf` runs the user's own perf on a machine, in the double: `perf_words` reads perf's words, `stand_in` writes the
files in which perf finds the machine, `core_events` says what an attribute asks for, `perf_session` opens the events
and has time pass, and `perf_opens` says what perf wanted, by its names, and what it got.

Nothing here decides which group is on: each verdict, share, counter and cause is the program's answer. What Linux
refuses by an event's code alone is the machine's file's.
"""
