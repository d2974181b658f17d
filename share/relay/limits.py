"""What a relay takes of people: how many bytes of a note, how many entries a second, how many new notes an hour from an address."""
import ipaddress
import time
from collections import OrderedDict
from collections.abc import Callable
from dataclasses import dataclass

# What isn't taken in so many seconds may be taken at once; and the longest that an append waits for its turn.
BURST_SECONDS, LONGEST_WAIT = 10.0, 5.0
HOUR = 3_600.0
# The most addresses of which it is remembered what they made; the one that made something longest ago is forgotten first.
MOST_ADDRESSES = 10_000
# Of IPv6 whoever has one address has all that begin so.
IPV6_OF_ONE = 64


@dataclass(frozen=True)
class Limits:
    """The limits, each of which is an option."""

    note_bytes: int = 500_000_000
    entries_a_second: int = 1_000
    new_notes_an_hour: int = 60
    connections: int = 1_000


class Allowance:
    """A token bucket: so many a second may be done, and some at once after a rest; what is more waits."""

    def __init__(self, a_second: float, now: Callable[[], float] = time.monotonic):
        self._a_second, self._now = a_second, now
        self._left, self._since = a_second * BURST_SECONDS, now()

    def wait(self, many: int, longest: float = LONGEST_WAIT) -> float | None:
        """How many seconds these have to wait for their turn; None where that would be longer, and they have none."""
        now = self._now()
        self._left = min(self._left + (now - self._since) * self._a_second, self._a_second * BURST_SECONDS)
        self._since = now
        wait = max(0.0, (many - self._left) / self._a_second)
        # Many at once have their turn once those before them had theirs.
        if max(0.0, -self._left / self._a_second) > longest:
            return None
        self._left -= many
        return min(wait, longest)

    def has_rested(self) -> bool:
        """Whether as much may be done at once as ever."""
        self.wait(0)
        return self._left >= self._a_second * BURST_SECONDS


class Paces:
    """How many entries a second each note takes. Who leaves one, and comes again, finds it as it was."""

    def __init__(self, a_second: float, now: Callable[[], float] = time.monotonic):
        self._a_second, self._now = a_second, now
        # Those of notes at which nobody is.
        self._left = dict[bytes, Allowance]()

    def enter(self, note: bytes) -> Allowance:
        """That of a note, as somebody comes to it."""
        return self._left.pop(note) if note in self._left else Allowance(self._a_second, self._now)

    def leave(self, note: bytes, pace: Allowance) -> None:
        """Keeps that of a note that everybody has left, until it has rested."""
        self._left = {one: kept for one, kept in [*self._left.items(), (note, pace)] if not kept.has_rested()}


class NewNotes:
    """How many notes each address made in the last hour."""

    def __init__(self, an_hour: int, now: Callable[[], float] = time.monotonic):
        self._an_hour, self._now = an_hour, now
        self._made: OrderedDict[str, list[float]] = OrderedDict()

    def take(self, address: str) -> bool:
        """Counts one more of an address; whether it may make it."""
        one, now = _one_of(address), self._now()
        made = [at for at in self._made.get(one, ()) if now - at < HOUR]
        if len(made) >= self._an_hour:
            return False
        self._made[one] = [*made, now]
        self._made.move_to_end(one)
        while len(self._made) > MOST_ADDRESSES:
            self._made.popitem(last=False)
        return True


def _one_of(address: str) -> str:
    """What stands for whoever has an address."""
    try:
        found = ipaddress.ip_address(address.partition("%")[0])
    except ValueError:
        return address
    if isinstance(found, ipaddress.IPv4Address):
        return str(found)
    if found.ipv4_mapped:
        return str(found.ipv4_mapped)
    return str(ipaddress.ip_network((found, IPV6_OF_ONE), strict=False))
