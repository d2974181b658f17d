"""Plays scripts in which sites type letter by letter, cut what they and others typed, and meet: the program has to answer each event as
the definition does.

`python3 -B -m tools.converging.scripts [SEED]..` plays the scripts of these seeds through the program that was built last."""
from __future__ import annotations

import random
import sys
from collections.abc import Callable, Sequence
from pathlib import Path

from tools.converging.answering import Answering
from tools.packed.messages import read_message
from tools.packed.runs import Program
from tools.play_rows import NOTHING_BUILT, program
from tools.rows import difference
from tools.running import folder_in_memory

SEEDS = range(1, 101)
# Sites, and how often each does something: as a rule the last one has the greatest stamps, and others type into what it types.
SITES = {1: 1, 2: 2, 3: 4}
STEPS = 60
TEXT = 1
LETTERS = "abcdefghijklmnopqrstuvwxyz"
LOOKS = ("colour=2", "colour=7", "font=A", "offset=-3", "font=A colour=2 offset=4")


class Draw:
    """A script as it is drawn, and what it is to be answered."""

    def __init__(self, seed: int) -> None:
        self.rng = random.Random(f"scripts {seed}")
        self.answering = Answering()
        self.lines: list[str] = []
        self.wanted: list[str] = []
        # Where each site goes on typing; and the numbers of messages, by the identities of their operations.
        self.carets = dict.fromkeys(SITES, 0)
        self.numbers: dict[tuple[int, int], int] = {}
        for _ in range(STEPS):
            self.step(self.rng.choices([*SITES], [*SITES.values()])[0])
        for site in SITES:
            for number in range(1, 1 + len(self.answering.sent)):
                self.do(site, "take", f"m{number}")
            self.ask(site)

    def do(self, site: int, verb: str, *words: object) -> None:
        self.lines.append(" ".join(map(str, (site, verb, TEXT, *words))))
        self.wanted += self.answering.answers(self.lines[-1])
        for number in range(len(self.numbers), len(self.answering.sent)):
            operation = read_message(self.answering.sent[number])
            self.numbers[operation.site, operation.seq] = 1 + number

    def step(self, site: int) -> None:
        often: list[Callable[[int], None]] = [self.types, self.types, self.types_after, self.types_after, self.cuts, self.meets]
        self.rng.choice([*often, *often, self.changes, self.takes_back, self.pastes, self.copies, self.restores])(site)
        if self.rng.randrange(3) == 0:
            self.ask(site)

    def length(self, site: int) -> int:
        return len(self.answering.copies[site, TEXT].shown())

    def stretch(self, site: int) -> tuple[int, int]:
        """One character or a few, often at the end of what someone typed in a row."""
        length = self.length(site)
        begin = self.rng.choice([self.rng.randint(0, length), max(0, self.carets[site] - 1), self.carets[site]])
        begin = min(begin, length)
        return begin, min(length, begin + self.rng.choice([1, 1, 1, 2, 5]))

    def types(self, site: int) -> None:
        """Letter by letter, where it typed last or elsewhere."""
        pos = min(self.carets[site], self.length(site))
        if self.rng.randrange(2):
            pos = self.rng.randint(0, self.length(site))
        self.types_at(site, pos, self.rng.choice([1, 1, 2, 3, 6, 12]))

    def types_at(self, site: int, begin: int, length: int) -> None:
        for pos in range(begin, begin + length):
            self.do(site, "type", pos, self.rng.choice(LETTERS))
            self.carets[site] = pos + 1

    def types_after(self, site: int) -> None:
        """It takes some of what another site made since, and types after a letter of that, which may be in the midst of a run."""
        of, copy = self.rng.choice([each for each in SITES if each != site]), self.answering.copies[site, TEXT]
        made, known = len(self.answering.copies[of, TEXT].sites.get(of, [])), len(copy.sites.get(of, []))
        for seq in range(known + 1, self.rng.randint(known, made) + 1):
            self.do(site, "take", f"m{self.numbers[of, seq]}")
        newest = len(copy.characters.get(of, [])) - 1 - self.rng.choice([0, 0, 0, 1, 2, 5])
        for pos, each in enumerate(copy.shown()):
            if each.name == (of, newest):
                self.types_at(site, pos + 1, self.rng.choice([1, 1, 2, 3]))

    def takes_back(self, site: int) -> None:
        for end in range(min(self.carets[site], self.length(site)), 0, -1)[: self.rng.randint(1, 3)]:
            self.do(site, "cut", end - 1, end)
            self.carets[site] = end - 1

    def pastes(self, site: int) -> None:
        self.do(site, "type", min(self.carets[site], self.length(site)), "".join(self.rng.choices(LETTERS, k=self.rng.randint(2, 4))))

    def copies(self, site: int) -> None:
        pos = self.rng.randint(0, self.length(site))
        if self.rng.randrange(2):
            self.do(site, "recall", pos)
        else:
            self.do(site, "save", *self.stretch(site), TEXT, pos)

    def cuts(self, site: int) -> None:
        self.do(site, "cut", *self.stretch(site))

    def changes(self, site: int) -> None:
        self.do(site, "looks", *self.stretch(site), self.rng.choice(LOOKS))

    def restores(self, site: int) -> None:
        """What it cut last, or some characters of a site, which may be shown."""
        of, copy = self.rng.choice([*SITES]), self.answering.copies[site, TEXT]
        length = len(copy.characters.get(of, []))
        if length and self.rng.randrange(3):
            at = self.rng.randrange(length)
            self.do(site, self.rng.choice(["restore", "restore", "delete"]), of, at, self.rng.randint(1, min(4, length - at)))
        else:
            self.do(site, "restore")

    def meets(self, site: int) -> None:
        """It takes what was sent, in any order or in part; or what another site has."""
        numbers = list(range(1, 1 + len(self.answering.sent)))
        way = self.rng.randrange(4)
        if way == 0:
            self.do(site, "merge", self.rng.choice([*SITES]))
            self.do(site, "settle")
        elif way == 1:
            self.rng.shuffle(numbers)
        for number in numbers[-self.rng.choice([1, 5, 20, 60]) :]:
            if way:
                self.do(site, "take", f"m{number}")

    def ask(self, site: int) -> None:
        for verb in ("front", "text", "runs"):
            self.do(site, verb)
        self.do(site, "names", 0, self.length(site))
        copy = self.answering.copies[site, TEXT]
        for of, characters in sorted(copy.characters.items()):
            self.do(site, "where", of, 0, len(characters))
            self.do(site, "past", of, self.rng.randint(0, len(copy.sites[of])))


def play(runs: Program, seed: int) -> Sequence[str]:
    """What is wrong with a seed's answers, and its script up to there; nothing where all is well."""
    draw = Draw(seed)
    wrote, _ = runs.play(draw.lines, {})
    return difference("the answers", wrote, "".join(f"{line}\n" for line in draw.wanted).encode())


def main(words: Sequence[str]) -> int:
    command = program()
    if command is None:
        print(f"scripts: {NOTHING_BUILT}", file=sys.stderr)
        return 2
    seeds, failed = [int(word) for word in words] or SEEDS, 0
    with folder_in_memory("scripts-") as room:
        runs = Program(command, Path(room))
        for seed in seeds:
            if found := play(runs, seed):
                failed += 1
                print("\n".join([f"seed {seed}:", *found]))
    print(f"{len(seeds) - failed} passed, {failed} failed")
    return 1 if failed else 0


if __name__ == "__main__":
    sys.exit(main(sys.argv[1:]))
