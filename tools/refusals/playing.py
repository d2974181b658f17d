"""Plays a script with each allocation refused in turn."""
from __future__ import annotations

import re
from collections.abc import Sequence
from concurrent.futures import ThreadPoolExecutor
from pathlib import Path

from tools.refusals.asking import Answer, Played, answers_in
from tools.refusals.building import MARK
from tools.refusals.judging import Judge
from tools.refusals.program import Program, Programs
from tools.refusals.scripts import Script
from tools.refusals.tally import Difference, Outcome, Tally
from tools.running import Ended, Files

MOST_ALLOCATIONS = 50_000
FIRST_GUESS = 64


class Player:
    """Runs the lines of a script, and remembers what they are answered with ample memory."""

    def __init__(self, script: Script, programs: Programs, folder: Path) -> None:
        self.script, self.programs, self.folder = script, programs, folder
        self._known: dict[tuple[tuple[str, ...], tuple[str, ...]], tuple[list[Answer], Files]] = {}

    def run(
        self, program: Program, lines: Sequence[str], count: int, stops: bool = False, words: tuple[str, ...] | None = None
    ) -> Ended:
        program.set(count, stops)
        text = "".join(f"{line}\n" for line in lines).encode()
        return program.run(self.script.words if words is None else words, text, self.script.files, self.folder)

    def answers(self, lines: Sequence[str], wrote: bytes) -> list[Answer] | None:
        return answers_in(lines, self.script.height, wrote)

    def ample(self, lines: Sequence[str], words: tuple[str, ...] | None = None) -> tuple[list[Answer], Files]:
        """What these lines are answered with ample memory, and the files that are left."""
        key = tuple(lines), self.script.words if words is None else words
        if key not in self._known:
            with self.programs.one() as program:
                ended = self.run(program, lines, MARK, words=words)
            answers = self.answers(lines, ended.wrote)
            if ended.status != 0 or ended.complained or answers is None:
                raise Difference(f"with ample memory it ended with {ended.status}: {ended.complained[-300:]!r}")
            self._known[key] = answers, ended.files
        return self._known[key]

    def count_allocations(self, lines: Sequence[str]) -> int:
        """How many allocations there are with ample memory: the program stops at each up to that."""
        low, high = 0, FIRST_GUESS
        with self.programs.one() as program:
            while high <= MOST_ALLOCATIONS and self.run(program, lines, high, True).status != 0:
                low, high = high, high * 2
            while low + 1 < high:
                mid = (low + high) // 2
                low, high = (low, mid) if self.run(program, lines, mid, True).status == 0 else (mid, high)
        if MOST_ALLOCATIONS < low:
            raise Difference(f"it makes more than {MOST_ALLOCATIONS} allocations")
        return low


def with_what_makes_up(player: Player) -> tuple[list[str], dict[int, int]]:
    """The script with a settling after each draining, and a second merge after a merge: of both memory may leave a part.
    By the number of such a line also the count that both come to."""
    lines: list[str] = []
    mended: dict[int, int] = {}
    given = player.script.lines
    for line, answer in zip(given, player.ample(given)[0]):
        lines.append(line)
        part = re.fullmatch(r"(?:taken|settled|merged) ([1-9]\d*)(?: 0)?|unpacked ([1-9]\d*) \d+ \d+", answer[-1])
        if part:
            mended[len(lines) - 1] = int(part[1] or part[2])
            site, verb, text, *_ = line.split()
            lines.append(line if verb == "merge" else f"{site} settle {text}")
    return lines, mended


class Play:
    """A script, played with any allocation refused."""

    def __init__(self, script: Script, programs: Programs, folder: Path) -> None:
        self.script, self.programs, self.tally = script, programs, Tally()
        self.player = Player(script, programs, folder)
        lines, mended = with_what_makes_up(self.player)
        self.played = Played(lines)
        self.judge = Judge(self.player.ample, self.played, mended, self.tally)

    def try_one(self, count: int) -> Outcome:
        """What comes of one refused allocation."""
        with self.programs.one() as program:
            ended = self.player.run(program, self.played.lines, count)
        if ended.status == 2 and not ended.wrote and ended.complained == b"error: out of memory\n":
            return Outcome.OPTIONS_NOT_READ
        if ended.status == 1 and not ended.wrote and ended.complained in (b"", b"Error: Kind(OutOfMemory)\n"):
            return Outcome.RUN_REFUSED
        if ended.status != 0 or ended.complained:
            raise Difference(f"it ended with {ended.status}, after {ended.wrote[-200:]!r}: {ended.complained[:2000]!r}")
        answers = self.player.answers(self.played.lines, ended.wrote)
        if answers is None:
            raise Difference(f"what was written isn't the script's answers: {ended.wrote[-300:]!r}")
        return self.judge.outcome(answers, ended.files)

    def hold_to_ample(self) -> None:
        """Compares the answers that some lines must have with ample memory."""
        bare = self.player.ample(self.script.lines)[0]
        for which, want in self.script.ample.items():
            if bare[which] != [want]:
                line = self.script.lines[which][:60]
                raise Difference(f"with ample memory `{line}` is answered {str(bare[which])[:200]}, and not {want}")

    def try_all(self, jobs: int) -> Tally:
        self.hold_to_ample()
        last = self.tally.allocations = self.player.count_allocations(self.played.lines)
        if self.try_one(last + 1) is not Outcome.NO_EFFECT:
            raise Difference("an allocation after the last one was refused")
        with ThreadPoolExecutor(jobs) as pool:
            for count, found in enumerate(pool.map(self.outcome_or_why, range(1, last + 1)), 1):
                if isinstance(found, Outcome):
                    self.tally.counts[found] += 1
                else:
                    self.tally.differences.append(f"allocation {count}: {found}")
        return self.tally

    def outcome_or_why(self, count: int) -> Outcome | str:
        try:
            return self.try_one(count)
        except Difference as why:
            return str(why)
