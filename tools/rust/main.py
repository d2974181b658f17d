"""bin/rust: writes rust/ from the sources, or says where it isn't what they make; tests and compares what Rust builds of it."""
from __future__ import annotations

import argparse
import re
import shutil
import subprocess
import sys
from collections.abc import Sequence
from pathlib import Path

from tools.rust.comparing import compare
from tools.rust.tokens import Unknown
from tools.rust.workspace import RUST, made

# What is made as a whole: what lies there and isn't made is taken away.
MADE = RUST / "crates"
# What a test's last line counts.
COUNTED = re.compile(r"^test result: .*?(\d+) passed; (\d+) failed", re.MULTILINE)


def lying() -> set[str]:
    """The files that lie where all is made."""
    found = (path for path in MADE.rglob("*") if path.is_file())
    return {str(path.relative_to(RUST)) for path in found}


def differences(files: dict[str, str]) -> list[str]:
    """Where what lies in rust/ isn't what is made."""
    found = [f"{file} isn't made any more" for file in sorted(lying() - files.keys())]
    for file, text in sorted(files.items()):
        path = RUST / file
        if not path.is_file():
            found.append(f"{file} is missing")
        elif path.read_bytes() != text.encode():
            found.append(f"{file} is another")
    return found


def write(path: Path, text: str) -> None:
    path.parent.mkdir(parents=True, exist_ok=True)
    path.write_bytes(text.encode())


def test() -> int:
    """Runs cargo's tests, where cargo is."""
    if shutil.which("cargo") is None:
        print("rust: there is no cargo, so nothing is tested")
        print("0 passed, 0 failed")
        return 0
    words = ["cargo", "test", "--offline", "--quiet", "--no-fail-fast", "--manifest-path", str(RUST / "Cargo.toml")]
    ran = subprocess.run(words, stdout=subprocess.PIPE, stderr=subprocess.STDOUT, text=True)
    counts = [(int(one), int(other)) for one, other in COUNTED.findall(ran.stdout)]
    passed, failed = sum(one for one, _ in counts), sum(other for _, other in counts)
    if ran.returncode:
        print(ran.stdout)
        failed = failed or 1
    print(f"{passed} passed, {failed} failed")
    return 1 if failed else 0


def main(words: Sequence[str]) -> int:
    parser = argparse.ArgumentParser(prog="rust", description=__doc__)
    parser.add_argument(
        "--check", action="store_true", help="write nothing; say where rust/ isn't what the sources make"
    )
    parser.add_argument(
        "--compare", action="store_true", help="compare the program that Rust builds with the proved one"
    )
    parser.add_argument("--events", type=int, default=0, metavar="N", help="with --compare: play N random events")
    parser.add_argument(
        "--seed", type=int, default=1, metavar="N", help="with --compare: the number of the first script of them"
    )
    parser.add_argument("--test", action="store_true", help="run cargo's tests, where cargo is")
    given = parser.parse_args(words)
    if given.compare:
        return compare(given.events, given.seed)
    return test() if given.test else make(given.check)


def make(check: bool) -> int:
    """Writes what the sources make, or says where it is another."""
    try:
        files = dict(made())
    except Unknown as why:
        print(f"rust: {why}", file=sys.stderr)
        return 2
    found = differences(files)
    if check:
        print(*(f"rust/{it}; bin/rust makes it anew" for it in found), sep="\n", end="\n" if found else "")
        print(f"{len(files) - len(found)} passed, {len(found)} failed")
        return 1 if found else 0
    for file in lying() - files.keys():
        (RUST / file).unlink()
    for file, text in files.items():
        if f"{file} is another" in found or f"{file} is missing" in found:
            write(RUST / file, text)
    print(f"rust: {len(files)} files, of which {len(found)} changed")
    return 0
