"""Sites that are handed chunks and messages, by the program and by lists."""
from __future__ import annotations

import random
from collections import Counter
from collections.abc import Callable, Iterable, Iterator, Sequence
from dataclasses import replace
from functools import partial

from tools.packed.chunks import MAX_CHUNK, Placed, chunk_of, chunks, head, pack, placed
from tools.packed.cursor import Refused
from tools.packed.drawing import changed
from tools.packed.events import TEXTS
from tools.packed.messages import MAX_TEXT, Insert, Operation, Range, read_message, spelled_message
from tools.packed.replica import Replica
from tools.packed.runs import SITES, Fault, Kept, Program, Tally
from tools.rows import difference

MOST_STEPS = 4
SELDOM = 0.003
# More than can wait.
MANY = 70
# Where there is no hex.
NO_EVENT = "refused 20"


def spelled_front(replica: Replica) -> list[str]:
    fronts = [f"front {site} {len(its)}" for site, its in sorted(replica.sites.items())]
    return [*fronts, f"waiting {len(replica.room)}"]


class Site:
    """A site's text, in which nothing was done yet, with what it is handed, and what that is answered."""

    def __init__(self, site: int, text: int) -> None:
        self.site, self.text, self.replica = site, text, Replica(text)
        self.lines: list[str] = []
        self.wanted: list[str] = []
        self.answers: Counter[str] = Counter()

    def add(self, verb: str, wanted: Sequence[str], more: str = "") -> None:
        self.lines.append(f"{self.site} {verb} {self.text}{more}")
        self.wanted += wanted

    def take(self, operation: Operation) -> None:
        message = spelled_message(operation)
        self.add("take", [self.replica.take(message)], f" {message.hex()}")

    def unpack(self, data: bytes) -> None:
        answer = self.replica.unpack(data) if data else NO_EVENT
        self.add("unpack", [answer], f" {data.hex()}")
        self.answers[f"chunks answered {answer if answer.startswith('refused') else answer.split()[0]}"] += 1

    def ask(self, shown: str | None) -> None:
        """What it holds now, and what waits; and its text, where that is known."""
        held = self.replica.held
        self.add("front", spelled_front(self.replica))
        self.add("since", [*(f"message {spelled_message(each).hex()}" for each in held), "ok"])
        self.add("pack", [*(f"chunk {each.hex()}" for each in pack(self.text, held)), "ok"])
        if shown is not None:
            self.add("text", [shown])


class Handing:
    """What is handed to one site of the operations that another one has."""

    def __init__(self, site: Site, operations: Sequence[Operation], rng: random.Random) -> None:
        self.site, self.operations, self.rng = site, operations, rng
        self.placed = [*placed(operations)]

    def stretch(self) -> list[Placed]:
        """Some of them, one after the other."""
        begin = self.rng.randrange(len(self.placed))
        return self.placed[begin : begin + self.rng.choice([1, 2, 5, 20, len(self.placed)])]

    def beyond(self) -> list[Placed]:
        sites = {each.site for each in self.operations}
        return [*placed(self.operations, {site: self.rng.randint(0, 4) for site in sites})]

    def one_site(self) -> list[Placed]:
        site = self.rng.choice(self.operations).site
        return [each for each in self.beyond() if each.operation.site == site]

    def shuffled(self) -> list[Placed]:
        """Those of a site as before, and their turns as it happens."""
        turns = self.stretch()
        sites = [each.operation.site for each in turns]
        its = {site: iter([each for each in turns if each.operation.site == site]) for site in {*sites}}
        self.rng.shuffle(sites)
        return [next(its[site]) for site in sites]

    def other(self, operation: Operation) -> Operation:
        """An operation that differs from this one in something."""
        kind, more = operation.kind, self.rng.choice([-1, 1, 1, 300])
        way = self.rng.randrange(4)
        if way == 0:
            return operation._replace(stamp=max(1, operation.stamp + more))
        if way == 1:
            return operation._replace(seq=max(1, operation.seq + more))
        if not isinstance(kind, Insert):
            return operation._replace(kind=replace(kind, ranges=(Range(self.rng.choice(self.operations).site, self.rng.randrange(30), 1),)))
        if way == 2:
            return operation._replace(kind=replace(kind, data=kind.data[:-1] + bytes([kind.data[-1] ^ 1])))
        return operation._replace(kind=replace(kind, at=max(0, kind.at + more)))

    def with_another(self) -> list[Placed]:
        """Some, of which the last is another operation than the one that is to come."""
        some = self.stretch()
        last, its = self.other(some[-1].operation), some[-1].operation.site
        at = last.kind.at if isinstance(last.kind, Insert) else some[-1].at
        before = some[:-1] if self.rng.random() < 0.5 else [each for each in some[:-1] if each.operation.site != its]
        return [*before, Placed(last, at)]

    # What is handed in.

    def messages(self) -> None:
        for operation in self.rng.sample(self.operations, self.rng.randint(1, min(9, len(self.operations)))):
            self.site.take(operation)

    def whole(self, draw: Callable[[], list[Placed]]) -> None:
        for each in chunks(self.site.text, draw()):
            self.site.unpack(each)

    def wrong(self) -> None:
        """A chunk whose bytes are changed, or that is another text's, or that is followed by letters, or is too long."""
        drawn = self.rng.random()
        one = self.rng.choice([*chunks(self.site.text, self.rng.choice([self.stretch, self.shuffled])())])
        if drawn < SELDOM:
            one = one.ljust(MAX_CHUNK + self.rng.choice([0, 1]), b"a")
        elif drawn < 0.05:
            one = (one + b"a" * MANY)[:MAX_CHUNK]
        elif drawn < 0.1:
            one = head(self.rng.choice([1 + self.site.text % TEXTS, MAX_TEXT])) + one[len(head(1)) :]
        else:
            one = changed(one, self.rng)
        self.site.unpack(one)

    def another(self) -> None:
        """Whatever else the sites could have made."""
        try:
            self.site.unpack(chunk_of(self.site.text, self.with_another()))
        except Refused:
            self.wrong()

    def step(self) -> None:
        draw = self.rng.choice([self.stretch, self.beyond, self.one_site, self.shuffled])
        steps: list[Callable[[], None]] = [self.messages, self.wrong, self.another, partial(self.whole, draw)]
        self.rng.choices(steps, [1, 3, 1, 4])[0]()

    def hand_in(self, shown: str) -> None:
        """Some of all this, and then as a rule all operations; the site shows then what the other one does."""
        for _ in range(self.rng.randint(1, MOST_STEPS)):
            self.step()
        if self.rng.random() < 0.6:
            self.whole(self.beyond)
            self.whole(lambda: self.placed)
        replica = self.site.replica
        same = set(replica.held) == set(self.operations)
        self.site.ask(shown if same else None)
        self.site.answers["texts that are the same"] += same


def handed(kept: Kept, most: int, rng: random.Random) -> Iterator[Site]:
    """The texts of some sites that are handed what a site has, at most as many as one script has."""
    slots = [(site, text) for site in range(1, 1 + SITES) for text in range(1, 1 + TEXTS)]
    for number, text in rng.sample(slots, min(most, len(slots)) if kept.messages else 0):
        site = Site(number, text)
        operations = [read_message(message)._replace(text=text) for message in kept.messages]
        Handing(site, operations, rng).hand_in(kept.shown)
        yield site


def hold(sites: Iterable[Site], runs: Program, tally: Tally) -> None:
    """Holds the program to what sites are to answer."""
    lines, wanted = [], []
    for site in sites:
        lines += site.lines
        wanted += site.wanted
        tally.answers += site.answers
    wrote, _ = runs.play(lines, {})
    if found := difference("the output", wrote, "".join(f"{line}\n" for line in wanted).encode()):
        raise Fault("\n".join([*found, *lines]))


def unpack(kept: Kept, most: int, runs: Program, rng: random.Random, tally: Tally) -> None:
    """Hands what a site has to some others."""
    hold(handed(kept, most, rng), runs, tally)


def unpack_all(kept: Kept, runs: Program, tally: Tally) -> None:
    """Hands a site's chunks to another one, which shows the same then."""
    site = Site(SITES, kept.text)
    for chunk in kept.chunks:
        site.unpack(chunk)
    site.ask(kept.shown)
    hold([site], runs, tally)
