"""Two runs in one folder, each held anywhere while the other goes on."""
from __future__ import annotations

from collections.abc import Iterator
from contextlib import contextmanager
from itertools import islice, product
from pathlib import Path

from tools.faults.judging import sizes
from tools.faults.playing import Mode, Player, Run, is_of_file
from tools.refusals.scripts import Script, events
from tools.refusals.tally import Difference
from tools.running import Files

# What both wrote, and the files.
Outcome = tuple[bytes, bytes, Files]

WRITER = events("writer", "1 type 1 0 abc; 1 keep 1 s; 1 cut 1 0 1; 1 keep 1 s")
READER = events("reader", "1 reopen 1 s; 1 text 1; 1 keep 1 t; 1 keep 1 s")
STORER = events("storer", "1 type 1 0 Edit.Store s; 1 open user 1; 1 click 0 1; 1 key !; 1 type 1 4 x; 1 click 0 1")
LOADER = events("loader", "1 type 1 0 Edit.Load s; 1 open user 1; 1 point 0 1; 1 click 0 1; 1 text 1; 1 keep 1 s")
PAIRS = [(WRITER, READER), (READER, WRITER), (WRITER, WRITER), (LOADER, STORER)]


class Held:
    """A run that counts how many lines it asked for."""

    def __init__(self, run: Run) -> None:
        self.run, self.asked = run, 0
        self._count()

    @property
    def asks(self) -> bool:
        at = self.run.traced.at
        return at is not None and at.stream == 0 and at.name == "read"

    def _count(self) -> None:
        self.asked += self.asks

    def go_on(self) -> bool:
        goes = self.run.traced.next()
        self._count()
        return goes

    def to(self, number: int) -> None:
        while self.run.traced.number < number and self.go_on():
            pass

    def to_line(self, count: int) -> None:
        while self.asked < count and self.go_on():
            pass

    def places(self) -> list[int]:
        """The lines before which the event that it is held in may seem to be done, or not yet."""
        last = len(self.run.script.lines) + 1
        asked = max(1, self.asked)
        return [asked] if self.asks or self.asked in (0, last) else [asked, asked + 1]


class Pair:
    """Two scripts that are played at the same time: the first to some call, the second to some call, and both to their ends."""

    def __init__(self, player: Player, first: Script, second: Script) -> None:
        self.player, self.first, self.second = player, first, second
        self._known: dict[tuple[int, int], Outcome] = {}

    @contextmanager
    def begun(self, script: Script, folder: Path) -> Iterator[Held]:
        with self.player.begun(script, Mode.TYPED, folder) as run:
            yield Held(run)

    def outcome(self, first: Held, second: Held) -> Outcome:
        """Brings both to their ends, the first one first."""
        ended = [first.run.ended(), second.run.ended()]
        for it in ended:
            if it.status != 0 or it.complained:
                raise Difference(f"one ended with {it.status}: {it.complained[:200]!r}")
        return ended[0].wrote, ended[1].wrote, ended[1].files

    def between_lines(self, one: int, other: int) -> Outcome:
        """What comes of both where each is held when it asks for a line."""
        if (one, other) not in self._known:
            with self.player.folder({}) as folder, self.begun(self.first, folder) as first:
                first.to_line(one)
                with self.begun(self.second, folder) as second:
                    second.to_line(other)
                    self._known[one, other] = self.outcome(first, second)
        return self._known[one, other]

    def hold(self, one: int, other: int) -> None:
        """Held at any calls, both come to what they come to where each event is done at once, before the other's or after."""
        with self.player.folder({}) as folder, self.begun(self.first, folder) as first:
            first.to(one)
            with self.begun(self.second, folder) as second:
                second.to(other)
                wanted = [self.between_lines(*it) for it in product(first.places(), second.places())]
                found = self.outcome(first, second)
        if found not in wanted:
            raise Difference(
                f"held at calls {one} and {other} they leave {sizes(found[2])}, and answer {found[0][-80:]!r} and {found[1][-80:]!r}"
            )

    def places(self, script: Script) -> list[int]:
        """Where a run is held: before each call of a file, and before it asks for a line. What else it calls changes no file."""
        calls = enumerate(self.player.plain(script).calls)
        return [number for number, call in calls if is_of_file(call) or call.name == "read"]

    def hold_everywhere(self, step: int) -> list[str]:
        found = []
        for one, other in islice(product(self.places(self.first), self.places(self.second)), 0, None, step):
            try:
                self.hold(one, other)
            except Difference as why:
                found.append(str(why))
        return found
