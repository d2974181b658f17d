"""The program over scripts, and what sites come to have in it."""
from __future__ import annotations

import itertools
import tempfile
from collections import Counter
from collections.abc import Iterator, Sequence
from dataclasses import dataclass, field
from pathlib import Path
from typing import NamedTuple

from tools.packed.events import Script
from tools.refusals.asking import Answer, answers_in
from tools.refusals.scripts import DEFAULT_HEIGHT
from tools.running import Files, lay, run

SITES = 8


class Fault(Exception):
    """Something that isn't as it has to be."""


@dataclass
class Tally:
    """What was compared."""

    operations: Counter[str] = field(default_factory=Counter)
    answers: Counter[str] = field(default_factory=Counter)

    def __str__(self) -> str:
        return ", ".join(f"{count} {name}" for counts in (self.operations, self.answers) for name, count in sorted(counts.items()))


class Kept(NamedTuple):
    """What a site kept in both forms and shows, its messages, and its chunks: of all, and of what is beyond these fronts."""

    text: int
    site: int
    packed: bytes
    plain: bytes
    shown: str
    messages: list[bytes]
    chunks: list[bytes]
    fronts: dict[int, int]
    beyond: list[bytes]


class Program:
    """The program, in a folder of its own for each script."""

    def __init__(self, command: str, room: Path) -> None:
        self.command, self.room = command, room

    def play(self, lines: Sequence[str], files: Files) -> tuple[bytes, Files]:
        script = "".join(f"{line}\n" for line in lines).encode()
        with tempfile.TemporaryDirectory(dir=self.room) as folder:
            lay(files, Path(folder))
            ended = run([self.command, "--count", str(SITES)], script, Path(folder))
        if ended.status != 0 or ended.complained:
            raise Fault(f"it ended with {ended.status}: {ended.complained.decode(errors='replace')}")
        return ended.wrote, ended.files

    def answers(self, lines: Sequence[str]) -> tuple[list[Answer], Files]:
        wrote, files = self.play(lines, {})
        answers = answers_in(lines, DEFAULT_HEIGHT, wrote)
        if answers is None:
            raise Fault("what was written isn't the script's answers")
        return answers, files


def printed(answer: Answer, word: str) -> list[bytes]:
    """What the lines of an answer have in hex after a word."""
    return [bytes.fromhex(line.removeprefix(word)) for line in answer[:-1]]


def asked_of(script: Script, site: int) -> list[str]:
    """What is asked of a site at the end of a script."""
    fronts = "".join(f" {of} {seq}" for of, seq in script.fronts[site].items())
    verbs = ("keep", "keep", "text", "since", "pack", "pack")
    more = (f" p{site} packed", f" s{site}", "", "", "", fronts)
    return [f"{site} {verb} {script.text}{words}" for verb, words in zip(verbs, more)]


def kept_by(runs: Program, script: Script) -> Iterator[Kept]:
    """What each site has at the end of a script."""
    asked = [line for site in script.sites for line in asked_of(script, site)]
    answers, files = runs.answers([*script.lines, *asked])
    told = iter(answers[len(script.lines) :])
    for site in script.sites:
        _, _, shown, messages, chunks, beyond = itertools.islice(told, 6)
        yield Kept(
            script.text,
            site,
            files[f"p{site}"],
            files[f"s{site}"],
            shown[0],
            printed(messages, "message "),
            printed(chunks, "chunk "),
            script.fronts[site],
            printed(beyond, "chunk "),
        )
