"""A program that is asked line by line, and edits that are drawn at random."""
from __future__ import annotations

import random
import subprocess
from collections.abc import Iterator, Sequence
from contextlib import contextmanager
from dataclasses import dataclass, field

# How the last line of an answer begins.
LAST = ("ok", "refused", "partial", "text", "waiting", "taken", "unpacked", "repeat", "waits", "settled", "merged", "selection")


class Fault(Exception):
    """What isn't as it has to be, after the lines that led to it."""


@dataclass
class Run:
    """A program that answers line by line."""

    process: subprocess.Popen[str]
    asked: list[str] = field(default_factory=list)
    # The messages that were sent, in hex.
    sent: list[str] = field(default_factory=list)
    # The names that each site deleted, as words of an event.
    deleted: dict[int, list[str]] = field(default_factory=dict)

    def fault(self, wrong: str) -> Fault:
        return Fault("\n".join([*self.asked, wrong]))

    def told(self) -> str:
        """The next line."""
        assert self.process.stdout
        line = self.process.stdout.readline()
        if not line:
            raise self.fault("the program ended")
        return line.rstrip("\n")

    def ask(self, line: str, lines: int | None = None) -> list[str]:
        """What a line is answered: a number of lines, or all up to one that can only be the last."""
        self.asked.append(line)
        assert self.process.stdin
        self.process.stdin.write(line + "\n")
        self.process.stdin.flush()
        answer: list[str] = []
        while len(answer) < lines if lines else not answer or not answer[-1].startswith(LAST):
            answer.append(self.told())
        self.sent += [told.split()[2] for told in answer if told.startswith("send ")]
        return answer

    def wants(self, line: str, *answer: str) -> None:
        """Asks what is to be answered so."""
        if (told := self.ask(line, len(answer))) != [*answer]:
            raise self.fault(f"{line!r} is answered {told}, and not {answer}")

    def text(self, site: int, event: str = "text 1") -> str:
        return self.ask(f"{site} {event}")[0]

    def length(self, site: int) -> int:
        return int(self.text(site).split(" ", 2)[1])

    def names(self, site: int, beg: int, end: int) -> list[str]:
        """The names of what a site shows there, as words of an event."""
        return [line.split(" ", 2)[2] for line in self.ask(f"{site} names 1 {beg} {end}")[:-1]]

    def fronts(self, site: int) -> str:
        """A site's fronts, as words of a query."""
        return "".join(f" {line.removeprefix('front ')}" for line in self.ask(f"{site} front 1")[:-1])


@contextmanager
def running(command: str, sites: int, words: Sequence[str] = ()) -> Iterator[Run]:
    """The program, with this many sites from 1 on."""
    call = [command, "--first", "1", "--count", str(sites), *words]
    with subprocess.Popen(call, stdin=subprocess.PIPE, stdout=subprocess.PIPE, text=True) as process:
        try:
            yield Run(process)
        finally:
            process.kill()


def shown(run: Run, site: int) -> list[str]:
    """All that a site shows of the text, with its looks and names."""
    return [line for event in ("text 1", "runs 1", f"names 1 0 {run.length(site)}") for line in run.ask(f"{site} {event}")]


def edit(run: Run, site: int, draw: random.Random) -> None:
    length = run.length(site)
    beg, end = sorted(draw.randint(0, length) for _ in range(2))
    line = draw.choice(
        [f"type 1 {beg} {draw.choice('abcdefgh') * draw.randint(1, 3)}"] * 3
        + [f"cut 1 {beg} {min(end, beg + 4)}", f"looks 1 {beg} {end} colour={draw.randint(1, 15)}", f"recall 1 {beg}", "restore 1"]
    )
    if line.startswith("cut"):
        run.deleted.setdefault(site, []).extend(run.names(site, beg, min(end, beg + 4)))
    answer = run.ask(f"{site} {line}")
    if answer[-1] != "ok":
        raise run.fault(f"{line!r} is answered {answer[-1]!r}")


def edit_by_names(run: Run, site: int, draw: random.Random) -> None:
    """Takes characters out of what is shown, or shows some again that were deleted, wherever they stand now."""
    length = run.length(site)
    beg = draw.randint(0, length)
    verb, among = draw.choice([("delete", run.names(site, beg, min(length, beg + 6))), ("restore", run.deleted.get(site, []))])
    names = draw.choices(among, k=min(len(among), 3))
    if not names:
        return
    if verb == "delete":
        run.deleted.setdefault(site, []).extend(names)
    if (answer := run.ask(f"{site} {verb} 1 {' '.join(names)}"))[-1] != "ok":
        raise run.fault(f"{verb} is answered {answer[-1]!r}")
    for name in names:
        found = sum(int(line.split(" ", 4)[3]) for line in run.ask(f"{site} where 1 {name}")[:-1])
        if found != (0 if verb == "delete" else int(name.rsplit(" ", 1)[1])):
            raise run.fault(f"{found} of {name} are shown after {verb}")
