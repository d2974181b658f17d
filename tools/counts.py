"""Prints counts of the proved code, by which two versions of it can be compared:

- the crates, and their lines of code (.rt) and of definitions and proofs (.antt);
- the words of specs/ that two or more crates define, which --words lists, with what the comments before them say;
- the frames of the stack where the event `1 type 1 0 A` is deepest in calls: functions of the crates, without closures, in ordinary Rust
  that isn't optimized, by callgrind; --frames lists them;
- the places of a new query and of a new edit: the steps of their recipes in docs/ARCHITECTURE.md, and the files that these name.
"""
from __future__ import annotations

import argparse
import os
import re
import shutil
import subprocess
import tempfile
from collections import defaultdict
from collections.abc import Sequence
from pathlib import Path

from tools import TOP
from tools.builds import PROGRAM

CRATES = TOP / "crates"
RECIPES = {"query": "A new event", "edit": "A new edit"}
EVENT = b"1 type 1 0 A\n"
# More callers than any stack of a script has.
CALLERS = 200
# (What follows a bare `pub` is a record's field.)
DEFINED = re.compile(r"((?:^ *--[^\n]*\n)*)^ *(?:(?:abbrev|unfoldable) pub|pub (?:record|data)) (\S+)", re.MULTILINE)
STACK = re.compile(r"^c?fn=\(\d+\) (.+)$", re.MULTILINE)
OF_CRATE = re.compile(r"<?&?(?:mut )?(\w+)::")
STEP = re.compile(r"^\d+\. ", re.MULTILINE)
FILE = re.compile(r"`([\w/]+\.(?:rt|antt))`")


def crates() -> list[str]:
    """The crates that are listed, from bottom to top."""
    lines = (TOP / "crates.txt").read_text().splitlines()
    return [line.split(":")[0].split()[0] for line in lines if line and not line.startswith("#")]


def lines_of(ending: str) -> int:
    return sum(len(path.read_text().splitlines()) for path in CRATES.rglob(f"*.{ending}") if "out" not in path.parts)


def repeated_words() -> dict[str, dict[str, str]]:
    """The words that two or more crates define, with what each of these says of it."""
    found: dict[str, dict[str, str]] = defaultdict(dict)
    for path in sorted(CRATES.glob("*/specs/**/*.antt")):
        for comment, word in DEFINED.findall(path.read_text()):
            said = " ".join(re.sub(r"^ *--", "", comment, flags=re.MULTILINE).split())
            found[word][path.relative_to(CRATES).parts[0]] = said
    return {word: homes for word, homes in sorted(found.items()) if len(homes) > 1}


def own_frames(stack: str) -> list[str]:
    """The functions of the crates in a stack as callgrind names it, from the deepest up."""
    frames = [frame for frame in stack.split("'") if "{closure" not in frame and "{{closure" not in frame]
    return [frame for frame in frames if (of := OF_CRATE.match(frame)) and (CRATES / of[1]).is_dir()]


def deepest(counted: str) -> list[str]:
    """The longest stack of functions of the crates."""
    return max((own_frames(stack) for stack in STACK.findall(counted)), key=len)


def stack_of_an_edit() -> list[str] | None:
    """The stack of the event where it is deepest; none where cargo or valgrind isn't here."""
    if not shutil.which("cargo") or not shutil.which("valgrind"):
        return None
    target = TOP / "rust" / "target" / "counted"
    environment = {**os.environ, "CARGO_PROFILE_DEV_OPT_LEVEL": "0"}
    words = ["cargo", "build", "--offline", "--locked", "--quiet", "--manifest-path", str(TOP / "rust" / "Cargo.toml")]
    subprocess.run([*words, "--target-dir", str(target), "-p", PROGRAM], env=environment, check=True)
    with tempfile.TemporaryDirectory() as folder:
        out = Path(folder) / "counted"
        count = ["valgrind", "-q", "--tool=callgrind", f"--callgrind-out-file={out}", f"--separate-callers={CALLERS}"]
        subprocess.run([*count, str(target / "debug" / PROGRAM)], input=EVENT, stdout=subprocess.DEVNULL, check=True)
        return deepest(out.read_text())


def places(heading: str) -> tuple[int, int]:
    """How many steps a recipe has, and how many files these name."""
    page = (TOP / "docs" / "ARCHITECTURE.md").read_text()
    section = page.split(f"\n## {heading}\n")[1].split("\n## ")[0]
    steps = STEP.split(section)[1:]
    steps[-1] = steps[-1].split("\n\n")[0]
    return len(steps), sum(len(set(FILE.findall(step))) for step in steps)


def main(words: Sequence[str]) -> int:
    parser = argparse.ArgumentParser(prog="counts", description=__doc__, formatter_class=argparse.RawDescriptionHelpFormatter)
    parser.add_argument("--words", action="store_true", help="list the words that are defined twice")
    parser.add_argument("--frames", action="store_true", help="list the frames of the stack")
    given = parser.parse_args(words)
    repeated, stack = repeated_words(), stack_of_an_edit()
    print(f"{len(crates()):>7,} crates")
    for ending in "rt", "antt":
        print(f"{lines_of(ending):>7,} lines of .{ending}")
    print(f"{len(repeated):>7,} words of specs/ that two or more crates define")
    if given.words:
        for word, homes in repeated.items():
            print(f"        {word}", *(f"            {home}: {said}" for home, said in homes.items()), sep="\n")
    if stack is None:
        print("        there is no cargo or no valgrind, so no stack is measured")
    else:
        print(f"{len(stack):>7,} frames of the stack of {EVENT.decode().strip()}")
        if given.frames:
            print(*(f"        {frame}" for frame in stack), sep="\n")
    for what, heading in RECIPES.items():
        steps, files = places(heading)
        print(f"{steps:>7,} steps of a new {what}, which name {files} files")
    return 0
