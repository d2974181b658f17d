"""Back-off: what goes wrong again and again is done again ever later. Edits that don't count any more are rebased at once, and
what others made with a key that is here only when they had time to do it themselves; a log that keeps losing what it is given
gets it ever more rarely."""
import math
import random
import time
from collections.abc import Sequence

from share.store.own import Client
from share.text.errors import counted

# The least time that others have who wrote under a key that is here, too, to rebase what was lost, and who made a copy to hide
# it; they have up to twice as much.
OTHERS_SECONDS = 3.0
# The pause after a rebase, which doubles up to a most, and how long nothing has to be lost for it to be short again.
FIRST_SECONDS, MOST_REBASE_SECONDS, CALM_SECONDS = 2.0, 300.0, 900.0
# The pause before a log is given again what it has lost more than once, which doubles up to a most. After that long it is short
# again.
GIVE_SECONDS, MOST_GIVE_SECONDS = 1, 600


class Losses:
    """When a log is given again what it has lost. The fetcher's thread says what was lost, and the giver's asks whether it
    is time."""

    def __init__(self) -> None:
        self._again, self._last, self._pauses = math.inf, -math.inf, 0

    def lost(self) -> bool:
        """Notes that something was lost now; whether that is the first time in a while."""
        now = time.monotonic()
        is_first = now > self._last + MOST_GIVE_SECONDS
        if is_first:
            self._pauses = 0
        self._last, self._again = now, now + min(GIVE_SECONDS * self._pauses, MOST_GIVE_SECONDS)
        self._pauses = 2 * self._pauses or 1
        return is_first

    def is_due(self) -> bool:
        """Whether it is time to give again what was lost; once for each time."""
        if time.monotonic() < self._again:
            return False
        self._again = math.inf
        return True


class Turns:
    """When what was made here is rebased, and when what others made. The editor's thread alone calls it."""

    def __init__(self) -> None:
        self._wait, self._free, self._last = FIRST_SECONDS, 0.0, -CALM_SECONDS
        # When their turn comes, where something of them was lost.
        self._own: float | None = None
        self._others: float | None = None

    def found(self, own: bool, others: bool) -> None:
        """Says what was lost. What waits already has its turn."""
        now = time.monotonic()
        self._own = None if not own else self._own or max(now, self._free)
        self._others = None if not others else self._others or max(now + seconds_for_others(), self._free)

    def is_due(self) -> bool:
        """Whether something has its turn now."""
        return self.is_own_due() or self._others is not None and time.monotonic() >= self._others

    def is_own_due(self) -> bool:
        """Whether what was made here has its turn now."""
        return self._own is not None and time.monotonic() >= self._own

    def failed(self) -> None:
        """Says that it couldn't be rebased now: its turn comes later, each time ever later."""
        self._wait = min(2 * self._wait, MOST_REBASE_SECONDS)
        self._free = time.monotonic() + self._wait
        self._own, self._others = (turn and max(turn, self._free) for turn in (self._own, self._others))

    def seconds(self) -> int:
        """The seconds until what was lost is rebased; 0 where nothing was."""
        ends = [end for end in (self._own, self._others) if end is not None]
        return max(1, round(min(ends) - time.monotonic())) if ends else 0

    def made(self, own: bool) -> None:
        """Says that all of it was rebased now."""
        now = time.monotonic()
        self._wait = FIRST_SECONDS if now - self._last > CALM_SECONDS else min(2 * self._wait, MOST_REBASE_SECONDS)
        self._last, self._free = now, now + self._wait
        if own:
            self._own = None
        else:
            self._others = None


def seconds_for_others() -> float:
    """How many seconds others have to do something themselves."""
    return OTHERS_SECONDS * (1 + random.random())


def told_of_numbers(site: int | None, broken: Sequence[Client], shared: Sequence[Client]) -> str:
    """What the user is told of numbers that were given up, where this is the editor's now, if it has one already, and others write under
    some."""
    goes_on = "as soon as another number was found" if site is None else f"as site {site}"
    if sites := ", ".join(str(one.site) for one in shared):
        return f"Another client writes as site {sites} too, or this disk has lost what was written there, so you go on {goes_on}. "
    return (f"You typed after something that doesn't count any more, since two clients wrote it under one number. So you go "
            f"on {goes_on}. ") if broken else ""


def told_of_edits(own: int, others: int) -> str:
    """What the user is told of edits that were rebased."""
    if own:
        return f"Made anew: {counted(own, 'edit')} that nobody else has."
    if others:
        return f"Made anew: {counted(others, 'edit')} that were left out for others, of which this disk has the key."
    return ""
