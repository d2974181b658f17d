"""What may befall each call, and which calls are tried."""
from __future__ import annotations

import errno
from collections.abc import Sequence

from tools.faults.playing import Fault
from tools.faults.tracing import Call

ERRORS = {name: Fault(name, answer=-getattr(errno, name)) for name in ("EIO", "ENOSPC", "EINTR", "ENOMEM")}
FAILED, INTERRUPTED, NO_MEMORY = ERRORS["EIO"], ERRORS["EINTR"], ERRORS["ENOMEM"]
NOTHING_TAKEN = Fault("no byte taken", answer=0)
KILLED = Fault("killed before it", kills=True)
# The calls of a write after whose failure the new file is removed.
OF_A_WRITE = {"write", "fsync", "fdatasync", "fchmod", "rename", "renameat", "renameat2", "link", "linkat"}
# Of more equal calls than this, one after the other, the first, the last and the one in the middle are tried.
MOST_EQUAL = 6


def shortened(call: Call, kills: bool = False) -> list[Fault]:
    """The call with one byte, and with half as many as it read or wrote."""
    counts = {1, call.result // 2} if call.name in ("read", "write") and 1 < call.result else set()
    return [Fault(f"{'killed after ' * kills}{count} bytes", count=count, kills=kills) for count in sorted(counts)]


def failures(call: Call) -> list[Fault]:
    """A read that gives nothing isn't among them: by that a file ends."""
    return [*ERRORS.values(), *shortened(call), *[NOTHING_TAKEN] * (call.name == "write")]


def ends(call: Call) -> list[Fault]:
    """The program is killed before the call, or in the middle of what it writes."""
    return [KILLED, *shortened(call, kills=True)] if call.name == "write" else [KILLED]


def tried(calls: Sequence[Call]) -> list[int]:
    """The numbers of the calls that are tried."""
    found: list[int] = []
    first = 0
    for at in range(1, len(calls) + 1):
        if at == len(calls) or (calls[at].name, calls[at].stream) != (calls[first].name, calls[first].stream):
            equal = range(first, at)
            found += equal if len(equal) <= MOST_EQUAL else [*equal[:2], equal[len(equal) // 2], *equal[-2:]]
            first = at
    return found
