"""Tries each call of a script."""
from __future__ import annotations

from collections import Counter
from collections.abc import Callable, Iterable, Iterator
from dataclasses import dataclass, field

from tools.faults.faults import FAILED, KILLED, OF_A_WRITE, ends, failures, tried
from tools.faults.judging import Judge, Outcome
from tools.faults.playing import Fault, Plain, Player, is_of_file, text_of
from tools.faults.tracing import Call
from tools.refusals.asking import Played
from tools.refusals.scripts import Script
from tools.refusals.tally import Difference

# What befalls a call, and the removal after it.
Faults = tuple[Fault, "Fault | None"]
# Scripts with more bytes, those of their files among them, aren't asked for their texts, nor typed.
MOST_ASKED = 1 << 16


@dataclass
class Tally:
    """How many calls were tried, and what came of the runs."""

    calls: int = 0
    outcomes: Counter[Outcome] = field(default_factory=Counter)
    differences: list[str] = field(default_factory=list)

    def add(self, other: Tally) -> None:
        self.calls += other.calls
        self.outcomes += other.outcomes
        self.differences += other.differences

    def __str__(self) -> str:
        counts = ", ".join(f"{self.outcomes[it]} {it.value}" for it in Outcome if self.outcomes[it])
        return f", {self.calls} calls: {counts}" if self.calls else ""


class Trial:
    """A script whose calls are tried, and what came of that."""

    def __init__(self, script: Script, player: Player) -> None:
        self.script, self.player, self.tally = script, player, Tally()

    @property
    def is_long(self) -> bool:
        return MOST_ASKED < sum(map(len, [text_of(self.script), *self.script.files.values()]))

    def with_queries(self) -> Script:
        """The script with queries around its events, so that what a failed one leaves is seen."""
        if self.is_long:
            return self.script
        return Script(self.script.name, Played(self.script.lines).lines, self.script.words, self.script.files)

    def try_all(self) -> Tally:
        try:
            asked = self.player.at_hand(self.player.plain(self.with_queries()))
            typed = self.player.plain(self.script)
            at_hand = self.player.at_hand(typed)
        except Difference as why:
            self.tally.differences.append(str(why))
            return self.tally
        self.tally.differences += unsynced(asked)
        self.try_calls(asked, of_files)
        for plain in [at_hand] if self.is_long else [typed, at_hand]:
            self.try_calls(plain, of_streams_and_ends)
        return self.tally

    def try_calls(self, plain: Plain, faults: Callable[[Call], Iterable[Faults]]) -> None:
        judge = Judge(self.player, plain)
        for number in tried(plain.calls):
            which = [it for it in faults(plain.calls[number]) if plain.can_befall(number, it[0])]
            self.tally.calls += bool(which)
            for fault, removal in which:
                self.try_one(judge, number, fault, removal)

    def try_one(self, judge: Judge, number: int, fault: Fault, removal: Fault | None) -> None:
        try:
            self.tally.outcomes[judge.run(number, fault, removal)] += 1
        except Difference as why:
            after = f", its removal {removal.name}" if removal else ""
            where = f"{judge.plain.mode.value}, call {number} ({judge.plain.describe(number)}) {fault.name}{after}"
            self.tally.differences.append(f"{where}: {why}")


def of_files(call: Call) -> Iterator[Faults]:
    """What may befall a call of a file."""
    if is_of_file(call):
        yield from ((fault, None) for fault in failures(call))
        if call.name in OF_A_WRITE:
            yield from ((FAILED, removal) for removal in (FAILED, KILLED))


def of_streams_and_ends(call: Call) -> Iterator[Faults]:
    """What may befall a call of standard input or output; and any call may be the last."""
    if call.stream is not None:
        yield from ((fault, None) for fault in failures(call))
    yield from ((fault, None) for fault in ends(call))


def unsynced(plain: Plain) -> list[str]:
    """The lines in whose course a file takes its name before the disk has its bytes, or that end before it has the name."""
    found = []
    for number, line in enumerate(plain.script.lines):
        names = "".join(f"{call.name} " for call in plain.calls_of(number) if 0 <= call.result)
        before, renames, after = names.partition("rename ")
        if renames and "fsync " not in before.rpartition("write ")[2]:
            found.append(f"`{line[:60]}` gives a file its name before the disk has its bytes")
        if renames and "fsync " not in after:
            found.append(f"`{line[:60]}` ends before the disk has the file's name")
    return found
