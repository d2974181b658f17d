"""Breaks rules of the translation on purpose, one after the other: the comparison has to see each.

`python3 -B -m tools.rust.broken [NUMBER..]` builds a program for each of these, or for all, in a folder of its own."""
from __future__ import annotations

import re
import shutil
import subprocess
import sys
import tempfile
from collections.abc import Iterator, Sequence
from contextlib import contextmanager, redirect_stdout
from io import StringIO
from pathlib import Path

from tools.play_rows import NOTHING_PROVED, proved_program
from tools.running import folder_in_memory
from tools.rust.comparing import CARGO, Comparison, compare_edges, compare_events, compare_scripts
from tools.rust.workspace import RUST, made

EVENTS = 20_000
# What is broken, and how: a form of what was made, and what stands for it.
BROKEN = (
    (
        "an `if` goes with the contract before it",
        r"(?m)^( *)if [^{};]+\{\n\1    return Err\(Refusal::(?:NoRoom|BadStamp|OutOfRange|FileSpent)\);\n\1\}\n",
        "",
    ),
    ("a `checked_add` is dropped", r"([\w.]+)\.checked_add\(([^()]*)\)(?:\.ok_or\([^()]*\))?\?", r"(\1 + \2)"),
    ("a `checked_sub` is dropped", r"([\w.]+(?:\(\w*\)\??)?)\.checked_sub\(((?:[^()]|\(\w+\))*)\)\?", r"(\1 - \2)"),
    ("a sum that stops at the greatest number wraps", r"\.saturating_(add|sub|mul)\(", r".wrapping_\1("),
    ("the guard of an arm is lost", r"(?m)^( +\w+\([^=\n]*\)) if [^=\n]*(?:==)?[^=\n]* =>", r"\1 =>"),
    ("a range loses its end", r"(?<=[\w)'])\.\.=(?=[\w'])", r".."),
    ("a byte's sign is lost", r"\b([\w.]+) as i8", r"(\1 & 127) as i8"),
    ("what is negated isn't", r"if !(?=self\.|can_|is_|has_)", "if "),
)


@contextmanager
def workspace(form: str, instead: str, room: Path) -> Iterator[Path]:
    """rust/ with a rule broken, in this folder."""
    shutil.copytree(RUST, room, ignore=shutil.ignore_patterns("target"))
    count = 0
    for file, text in made():
        if file.endswith(".rs"):
            text, more = re.subn(form, instead, text)
            count += more
        (room / file).write_text(text)
    if not count:
        raise ValueError(f"nothing has the form {form}")
    yield room


def seen(proved: str, room: Path, target: Path) -> str:
    """What sees that a program is another."""
    words = [it.replace(str(RUST), str(room)) for it in CARGO]
    ran = subprocess.run([*words, "-p", "site_cli", "--target-dir", str(target)], stderr=subprocess.PIPE, text=True)
    if ran.returncode:
        return "the compiler"
    with folder_in_memory("broken-") as folder, redirect_stdout(StringIO()):
        both = Comparison(proved, str(target / "release" / "site_cli"), Path(folder))
        compare_scripts(both)
        compare_edges(both)
        of_scripts = both.failed
        compare_events(both, EVENTS, 1)
    return f"{of_scripts} rows and scripts, {both.failed - of_scripts} scripts of random events" if both.failed else ""


def main(numbers: Sequence[str]) -> int:
    proved = proved_program()
    if proved is None:
        print(f"broken: {NOTHING_PROVED}", file=sys.stderr)
        return 2
    wanted = [BROKEN[int(number)] for number in numbers] or BROKEN
    failed = 0
    with tempfile.TemporaryDirectory(prefix="broken-") as target:
        for what, form, instead in wanted:
            with tempfile.TemporaryDirectory(prefix="broken-") as folder, workspace(
                form, instead, Path(folder) / "rust"
            ) as room:
                by = seen(proved, room, Path(target))
            print(f"{what}: seen by {by or 'nothing'}", flush=True)
            failed += not by
    print(f"{len(wanted) - failed} passed, {failed} failed")
    return 1 if failed else 0


if __name__ == "__main__":
    sys.exit(main(sys.argv[1:]))
