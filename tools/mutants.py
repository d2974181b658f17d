"""Wrong bodies: changes of the code that some clause of a contract must refuse.

  bin/mutants [NAME ..]                tries those of the crates named, or of all crates, on a copy of the repository.
                                       Ends with 1 where one was let through or couldn't be tried
  bin/mutants --list [NAME ..]         prints each with the clause that refuses it, and proves nothing
  bin/mutants --cut FOLDER [NAME ..]   writes each as a file of its own, as the prover's tool reads them

A file crates/NAME/mutants/MODULE.edits has the wrong bodies of src/MODULE.rt. Each begins with a line '== ITS-NAME', and
an empty line parts it from the next. The gate tries those in must-fail/ alone.

The prover also refuses a body where a stored proof doesn't fit it any more, where one names what the body took away, and at a limit of the
prover's own. Then no clause was seen to refuse it: such bodies are counted apart, and listed.
"""
from __future__ import annotations

import re
import shutil
import signal
import subprocess
import sys
import tempfile
from collections.abc import Iterable, Iterator
from dataclasses import dataclass
from enum import Enum
from pathlib import Path

from tools import TOP

HEAD = re.compile(r"== ([A-Za-z0-9_-][A-Za-z0-9_.-]*)")
CLAUSE = re.compile(r"^refused by: (.*)$", re.MULTILINE)
SOURCE = re.compile(r"^file: (.*)$", re.MULTILINE)
UNNAMED = "(no clause named)"


class Verdict(Enum):
    """What a try came to, by the words of the prover's tool behind the body's name; in their order the first that fits."""

    BY_A_NAME = re.compile(r": refused, as it must be \(only because a proof file names")
    BY_A_LIMIT = re.compile(r": refused, as it must be \(only by a limit")
    BY_A_PROOF = re.compile(r": refused, as it must be: (?:note: )?(?:\./)?proofs/")
    BY_A_CLAUSE = re.compile(r": refused, as it must be")
    NOT_REFUSED = re.compile("")


class Malformed(Exception):
    """A file of wrong bodies that can't be read, or a crate that has none."""


@dataclass(frozen=True)
class WrongBody:
    """One change of a crate's code. Its text is what the prover's tool reads."""

    crate: str
    name: str
    text: str

    @property
    def clause(self) -> str:
        """The clause that refuses it, in the words of its first line."""
        found = CLAUSE.search(self.text)
        return found[1] if found else UNNAMED


def cut(crate: str, path: Path, source: str) -> Iterator[WrongBody]:
    """Cuts a module's file apart, and holds each body to the module."""
    lines = path.read_text(encoding="utf-8").splitlines(keepends=True)
    heads = [at for at, line in enumerate(lines) if line.startswith("== ")]
    if heads[:1] != [0]:
        raise Malformed(f"{path} begins with no line '== NAME'")
    for beg, end in zip(heads, [*heads[1:], len(lines)]):
        head = HEAD.fullmatch(lines[beg].rstrip("\n"))
        if head is None:
            raise Malformed(f"{path}, line {beg + 1}: this can't be the name of a wrong body")
        body = lines[beg + 1 : end]
        if end < len(lines):
            if body[-1:] != ["\n"]:
                raise Malformed(f"{path}, line {end + 1}: an empty line is missing before it")
            body.pop()
        text = "".join(body)
        if set(SOURCE.findall(text)) != {source}:
            raise Malformed(f"{path}: {head[1]} doesn't change {source} alone")
        yield WrongBody(crate, head[1], text)


def bodies_of(crate: str) -> list[WrongBody]:
    """All wrong bodies of a crate, by name."""
    folder = TOP / "crates" / crate / "mutants"
    if not folder.is_dir():
        raise Malformed(f"no crates/{crate}/mutants")
    found: dict[str, WrongBody] = {}
    for path in sorted(folder.rglob("*.edits")):
        module = path.relative_to(folder).with_suffix(".rt")
        for body in cut(crate, path, f"src/{module.as_posix()}"):
            if body.name in found:
                raise Malformed(f"{crate} has two wrong bodies {body.name}")
            found[body.name] = body
    return [found[name] for name in sorted(found)]


def write_apart(bodies: list[WrongBody], folder: Path) -> None:
    """Writes each body as a file of its own."""
    folder.mkdir(parents=True)
    for body in bodies:
        (folder / f"{body.name}.edit").write_text(body.text, encoding="utf-8")


def told_by_tool(top: Path, crates: list[str]) -> list[str]:
    """Has the prover's tool try what lies in must-fail/ of the crates, and returns the lines that it printed. Its gate does
    that over what an earlier gate on this machine proved; that of `rattle-kit-13b` takes no names of crates, and prints nothing."""
    return printed(["rt", "ci", *crates], top) or printed(["rt", "must-fail", *crates], top)


def printed(command: list[str], top: Path) -> list[str]:
    """The lines that a command prints, which are shown as they come."""
    lines: list[str] = []
    with subprocess.Popen(command, cwd=top, stdin=subprocess.DEVNULL, stdout=subprocess.PIPE, text=True) as tool:
        for line in tool.stdout or ():
            print(line, end="", flush=True)
            lines.append(line.rstrip("\n"))
    return lines


def verdicts(lines: list[str], crates: Iterable[str]) -> dict[Verdict, list[str]]:
    """The tool's lines on bodies of these crates, by what they say. The gate tries what lies in must-fail/ of the crates below, too."""
    heads = tuple(f"rt: must-fail {crate}/" for crate in crates)
    found: dict[Verdict, list[str]] = {verdict: [] for verdict in Verdict}
    for line in lines:
        if line.startswith(heads):
            found[next(verdict for verdict in Verdict if verdict.value.search(line))].append(line)
    return found


def counted(found: dict[Verdict, list[str]], tried: int) -> tuple[int, list[str]]:
    """How many of the bodies tried weren't refused, and what is printed: the counts, and each that no clause was seen to refuse."""
    clause, proof, name, limit = (len(found[it]) for it in (Verdict.BY_A_CLAUSE, Verdict.BY_A_PROOF, Verdict.BY_A_NAME, Verdict.BY_A_LIMIT))
    missed = tried - clause - proof - name - limit
    others = [line[:120] for verdict, lines in found.items() if verdict is not Verdict.BY_A_CLAUSE for line in lines]
    counts = f"{clause} refused by a clause, {proof} by a stored proof, {name} by a name in one, {limit} at a limit of the prover"
    return missed, [f"mutants: {tried} tried, {counts}, {missed} let through or not tried", *others]


def try_all(bodies: dict[str, list[WrongBody]]) -> bool:
    """Tries the bodies on a copy of the repository, and returns whether each was refused."""
    with tempfile.TemporaryDirectory() as room:
        copy = Path(room)
        for name in ("crates.txt", "HANDLES"):
            shutil.copy(TOP / name, copy)
        shutil.copytree(TOP / "crates", copy / "crates", symlinks=True, ignore=shutil.ignore_patterns("out"))
        for crate, of_crate in bodies.items():
            tried = copy / "crates" / crate / "must-fail"
            shutil.rmtree(tried, ignore_errors=True)
            write_apart(of_crate, tried)
        lines = told_by_tool(copy, list(bodies))
    missed, report = counted(verdicts(lines, bodies), sum(map(len, bodies.values())))
    print(*report, sep="\n")
    return missed == 0


def run(words: list[str]) -> int:
    if words[:1] in (["-h"], ["--help"]):
        print(__doc__)
        return 0
    apart = words[:1] == ["--cut"] and len(words) > 1
    names = words[2:] if apart else words[1:] if words[:1] == ["--list"] else words
    names = names or sorted(path.parent.name for path in TOP.glob("crates/*/mutants"))
    bodies = {name: bodies_of(name) for name in names}
    if apart:
        for name, of_crate in bodies.items():
            write_apart(of_crate, Path(words[1]) / name)
    elif words[:1] == ["--list"]:
        for body in (body for of_crate in bodies.values() for body in of_crate):
            print(f"{body.crate} {body.name}: {body.clause}")
    else:
        return 0 if try_all(bodies) else 1
    return 0


def main(words: list[str]) -> int:
    signal.signal(signal.SIGTERM, lambda *_: sys.exit(2))
    try:
        return run(words)
    except (Malformed, OSError) as error:
        print(f"mutants: {error}", file=sys.stderr)
    except KeyboardInterrupt:
        pass
    return 2
