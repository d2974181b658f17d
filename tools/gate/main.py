"""bin/test: runs a set of tests, counts what passed and failed, and writes down the commit that passed the whole gate."""
from __future__ import annotations

import argparse
import os
import subprocess
import sys
from collections.abc import Iterable, Sequence
from pathlib import Path

from tools import TOP, cache_folder
from tools.builds import VARIABLE, first_line
from tools.gate import steps
from tools.gate.packages import EVERYTHING, INSTALL, be_ready
from tools.gate.running import Ran, Step, run

ABOUT = """Runs the tests that decide whether this commit is right: linters, proofs, rows, ordinary Rust, bars, sharing, editors, packages.
They decide by construction. A failed test is run once more, alone; if it passes then, the last lines name it as UNSTEADY."""
LONG = "run the long tests instead: random runs of all editors, storms, kills at random moments"
LIBRARY = "also make and test the proved library, with the packages of Python and Node"
INSTALLS = "as root, install the Debian packages that are missing, without asking"
WITHOUT_TOOLCHAIN = "test: the toolchain isn't here (there is no command rt), so nothing is proved; everything else is tested"
WITHOUT_LIBRARY = ", except the proved library"


def passed_file() -> Path:
    """Return the file that has the commit that passed the gate last."""
    return cache_folder() / "passed"


def commit() -> str:
    """Return the commit of this checkout; nothing if a file differs from it, or if this is no git checkout."""
    git = ["git", "-C", str(TOP)]
    try:
        changed = subprocess.run([*git, "status", "--porcelain"], stdout=subprocess.PIPE, text=True, check=True).stdout
        return "" if changed else first_line([*git, "rev-parse", "HEAD"])
    except (OSError, subprocess.CalledProcessError):
        return ""


def note_passed(begun: str, unsteady: Sequence[str]) -> None:
    """Write down the commit that passed as a whole, if it is still the one with which the run began, and below it the unsteady tests."""
    if not begun or begun != commit():
        print("test: no commit is written down as passed, because files differ from it or nothing was proved")
        return
    path = passed_file()
    try:
        path.parent.mkdir(parents=True, exist_ok=True)
        path.write_text("".join(f"{line}\n" for line in [begun, *unsteady]))
        print(f"test: commit {begun} passed as a whole, as {path} says")
    except OSError as why:
        print(f"test: the commit that passed can't be written down: {why}")


def run_all(wanted: Iterable[Step]) -> list[tuple[Step, Ran]]:
    """Run steps one after the other. If one fails that the others need, they aren't run."""
    results = list[tuple[Step, Ran]]()
    for step in wanted:
        ran = run(step)
        results.append((step, ran))
        if step.needed and not ran.is_good():
            break
    return results


def named(results: Sequence[tuple[Step, Ran]]) -> list[str]:
    """Return the lines of failed and of unsteady tests."""
    return [line for _, ran in results for line in ran.named]


def last_lines(results: Sequence[tuple[Step, Ran]]) -> list[str]:
    """Return the last lines of a run: failed and unsteady tests, failed steps, and the counts."""
    lines = named(results)
    lines += [f"FAILED: {step.name()}" for step, ran in results if not ran.is_good()]
    lines += [f"of these, by {step.name()}: {ran.passed} passed, {ran.failed} failed" for step, ran in results if step.apart]
    return [*lines, f"{sum(ran.passed for _, ran in results)} passed, {sum(ran.failed for _, ran in results)} failed"]


def main(words: Sequence[str]) -> int:
    parser = argparse.ArgumentParser("bin/test", description=ABOUT)
    parser.add_argument(INSTALL, action="store_true", help=INSTALLS)
    parser.add_argument("--long", action="store_true", help=LONG)
    parser.add_argument("--library", action="store_true", help=LIBRARY)
    given = parser.parse_args(words)
    os.chdir(TOP)
    be_ready("test", EVERYTHING, given.install)
    # The tests use the builds of this checkout, never a program that the environment names.
    for name in VARIABLE, "VIALSHOAL_PROGRAM":
        os.environ.pop(name, None)
    begun = "" if given.long or not steps.has_toolchain() else commit()
    if not steps.has_toolchain():
        print(f"{WITHOUT_TOOLCHAIN}{WITHOUT_LIBRARY if given.library else ''}", flush=True)
    results = run_all(steps.long() if given.long else steps.gate(given.library))
    is_good = all(ran.is_good() for _, ran in results)
    if is_good and not given.long:
        note_passed(begun, named(results))
    print("\n".join(last_lines(results)), flush=True)
    return 0 if is_good else 1


if __name__ == "__main__":
    sys.exit(main(sys.argv[1:]))
