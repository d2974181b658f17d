"""Sites that write in one text, drawn at random. Each knows some of what the others made, and names characters of that."""
from __future__ import annotations

import itertools
import random
from collections.abc import Callable, Iterable, Iterator, Sequence
from dataclasses import dataclass
from typing import NamedTuple

from tools.packed.chunks import inserted
from tools.packed.messages import Cause, ChangeLooks, Delete, Insert, Kind, Name, Operation, Range, Ranges, Restore
from tools.packed.packed import DEFAULT_LOOKS

TEXT = 1
LETTERS = b"abcdefghijklmnopqrstuvwxyz" * 4 + b"      \r\\\x01\x08\x0f\xe9"
OTHER_LOOKS = (b"\x01A\x00\x00", b"\x08Mono.Fnt\x07\x7f", b"\x01A\x01\x80")
# Selections with their values.
VALUES = (b"\x01\x01A", b"\x01\x08Mono.Fnt", b"\x02\x0f", b"\x02\x02", b"\x04\xff", b"\x06\x01\x01", b"\x07\x01B\x03\x00")
# How far behind the newest character of a site another is that is named, as a mean; often it is one that others like to name, too.
NEAR, LIKED = (50, 50, 200, 1000, 100_000), (1, 16, 64, 64)
# How many letters are typed in a row, as a rule; and, one time in this many.
IN_A_ROW, SELDOM, LONG = (1, 2, 3, 5, 10, 30), 10_000, (5_000, 5_000, 5_000, 70_000)
# How far behind the newest character of a site another types into what that types.
INTO = 12
# Before one burst in this many there is a meeting; for how many bursts that stays so, as a mean.
APART, STAYS = (3, 20, 100, 400), 2000


class Known(NamedTuple):
    """What is known of a site: how many of its operations, and of its characters."""

    seq: int = 0
    length: int = 0


@dataclass(frozen=True)
class Burst:
    """Operations that a site makes one after the other, and the fronts that it had of the other sites before."""

    site: int
    fronts: dict[int, int]
    operations: Sequence[Operation]


class Writer:
    """A site that writes."""

    def __init__(self, site: int, sites: Sequence[int], rng: random.Random) -> None:
        self.site, self.rng = site, rng
        self.known = dict.fromkeys(sites, Known())
        self.stamp = 0
        self.caret: Cause = None
        self.deleted: list[Range] = []
        # Whom it met since it wrote last; what it had of its own, and its stamp, since then and after each operation of its last burst.
        self.met: int | None = None
        self.steps = [(Known(), 0)]

    def fronts(self) -> dict[int, int]:
        return {site: known.seq for site, known in self.known.items() if site != self.site and known.seq}

    def meet(self, other: Writer) -> None:
        """Takes in all that another one has, or had in the midst of its last burst."""
        last, stamp = self.rng.choice([other.steps[-1], self.rng.choice(other.steps)])
        has = {**other.known, other.site: last}
        self.known = {site: max(known, has[site]) for site, known in self.known.items()}
        self.stamp = max(self.stamp, stamp)
        self.met = other.site
        self.steps = [(self.known[self.site], self.stamp)]

    # What it names.

    def name(self, sites: Sequence[int] = ()) -> Cause:
        """A character that it knows, one of the newest of its site as a rule; none where it knows none."""
        there = [site for site in sites or self.known if self.known[site].length]
        if not there:
            return None
        site = self.rng.choice(there)
        newest = self.known[site].length - 1
        if self.rng.random() < 0.3:
            return Name(site, newest)
        at = max(0, newest - int(self.rng.expovariate(1 / self.rng.choice(NEAR))))
        return Name(site, at - at % self.rng.choice(LIKED))

    def stretch(self, sites: Sequence[int] = ()) -> Range | None:
        """Some characters that were inserted one after the other."""
        name = self.name(sites)
        if name is None:
            return None
        return Range(*name, min(self.rng.choice([1, 1, 2, 3, 5, 12, 40]), self.known[name.site].length - name.offset))

    def stretches(self) -> Ranges:
        """One stretch as a rule, and at most one of a site."""
        sites = sorted(self.rng.sample([*self.known], self.rng.choice([1, 1, 1, 1, 2, 3])))
        return tuple(each for each in (self.stretch([site]) for site in sites) if each)

    # What it makes.

    def insert(self, length: int, looks: bytes = DEFAULT_LOOKS) -> Kind:
        """Bytes at the caret, which goes on after them."""
        at = self.known[self.site].length
        cause, self.caret = self.caret, Name(self.site, at + length - 1)
        return Insert(cause, at, looks, bytes(self.rng.choices(LETTERS, k=length)))

    def place_caret(self) -> None:
        """It stays, or is set among characters that someone typed in a row."""
        if self.rng.random() < 0.7:
            self.caret = self.name() if self.rng.random() < 0.99 else None

    def typed_on(self) -> Iterator[Kind]:
        for _ in range(self.rng.choice(IN_A_ROW if self.rng.randrange(SELDOM) else LONG)):
            yield self.insert(1)

    def typed(self) -> Iterator[Kind]:
        self.place_caret()
        yield from self.typed_on()

    def typed_into(self) -> Iterator[Kind]:
        """A letter or a few among the newest characters that it knows of a site, which may go on there; then its caret goes back."""
        site = self.met or self.rng.choice([*self.known])
        before, newest = self.caret, self.known[site].length - 1
        if newest >= 0:
            self.caret = Name(site, max(0, newest - self.rng.choice([0, 0, 0, self.rng.randrange(INTO)])))
            for _ in range(self.rng.choice([1, 1, 2, 3])):
                yield self.insert(1)
            self.caret = before

    def mistyped(self) -> Iterator[Kind]:
        """Letters that are taken back, from the last one on."""
        length = self.rng.randint(1, 5)
        before = self.caret
        for _ in range(length):
            yield self.insert(1)
        for at in range(self.known[self.site].length, self.known[self.site].length - length, -1):
            yield Delete((Range(self.site, at - 1, 1),))
        self.caret = before

    def pasted(self) -> Iterator[Kind]:
        self.place_caret()
        yield self.insert(self.rng.randint(2, 60), self.rng.choice([DEFAULT_LOOKS, *OTHER_LOOKS]))

    def removed(self) -> Iterator[Kind]:
        if ranges := self.stretches():
            self.deleted = [*self.deleted[-20:], *ranges]
            yield Delete(ranges)

    def restored(self) -> Iterator[Kind]:
        """Part of what it deleted, or of what another one may have."""
        ranges = self.stretches()
        if self.deleted and self.rng.random() < 0.7:
            site, at, length = self.rng.choice(self.deleted)
            begin = self.rng.randrange(length)
            ranges = (Range(site, at + begin, self.rng.randint(1, length - begin)),)
        if ranges:
            yield Restore(ranges)

    def changed(self) -> Iterator[Kind]:
        if ranges := self.stretches():
            yield ChangeLooks(self.rng.choice(VALUES), ranges)

    def operation(self, kind: Kind) -> Operation:
        """The next operation, which is known then."""
        seq, length = self.known[self.site]
        self.stamp += 1
        operation = Operation(TEXT, self.site, seq + 1, self.stamp, kind)
        self.known[self.site] = Known(seq + 1, length + inserted(operation))
        self.steps.append((self.known[self.site], self.stamp))
        return operation

    def burst(self) -> Burst:
        ways: dict[Callable[[], Iterator[Kind]], int] = {
            self.typed: 4,
            self.typed_on: 4,
            self.typed_into: 3,
            self.mistyped: 1,
            self.pasted: 1,
            self.removed: 3,
            self.restored: 2,
            self.changed: 2,
        }
        self.steps = self.steps[-1:]
        way = self.typed_into if self.met and self.rng.randrange(2) else self.rng.choices([*ways], [*ways.values()])[0]
        burst = Burst(self.site, self.fronts(), [self.operation(kind) for kind in way()])
        self.met = None
        return burst


def written(count: int, sites: int, seed: str) -> Iterator[Burst]:
    """Operations of some sites, which meet often for a while, and seldom for another while."""
    rng = random.Random(f"converging {seed}")
    numbers = range(1, 1 + sites)
    writers = [Writer(site, numbers, rng) for site in numbers]
    apart = APART[0]
    while count > 0:
        if rng.randrange(STAYS) == 0:
            apart = rng.choice(APART)
        writer = rng.choice(writers)
        if rng.randrange(apart) == 0:
            writer.meet(rng.choice(writers))
        burst = writer.burst()
        yield Burst(burst.site, burst.fronts, burst.operations[:count])
        count -= len(burst.operations)


def are_apart(one: tuple[Operation, Burst], other: tuple[Operation, Burst]) -> bool:
    """Whether neither site had the other's operation."""
    had = (burst.site == of.site or burst.fronts.get(of.site, 0) >= of.seq for (_, burst), (of, _) in ((one, other), (other, one)))
    return not any(had)


def meeting_places(bursts: Iterable[Burst]) -> int:
    """After how many characters sites typed that didn't know of each other's typing."""
    below: dict[Cause, list[tuple[Operation, Burst]]] = {}
    for burst in bursts:
        for operation in burst.operations:
            if isinstance(operation.kind, Insert):
                below.setdefault(operation.kind.cause, []).append((operation, burst))
    return sum(any(are_apart(*pair) for pair in itertools.combinations(some, 2)) for some in below.values())
