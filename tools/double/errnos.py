"""The errno that a client gets for each reason of a report."""

import errno

from perfscript.names import REFUSALS

# the reasons for which docs/REPORT.md names no errno of Linux
OWN = {
    "ESOFTPERIOD": errno.EINVAL,
    "EEXIST": errno.EMFILE,
    "EGROUP": errno.E2BIG,
    "EBUSY": errno.EBUSY,
    "EIDLE": errno.EAGAIN,
    "EAGAIN": errno.EAGAIN,
}


def errno_of(reason: str, head: str) -> int:
    """The errno of a reason against a line with this first word."""
    if (head, reason) == ("map", "EMAPPED"):
        return errno.EBUSY
    name = REFUSALS[reason]
    return OWN[reason] if name is None else int(getattr(errno, name))
