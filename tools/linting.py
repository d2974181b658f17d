"""Runs the linters, each over the files that are its own."""
from __future__ import annotations

import hashlib
import subprocess
import sys
from collections.abc import Callable, Iterator
from pathlib import Path
from typing import NamedTuple

from tools import TOP, cache_folder
from tools.gate.packages import INSTALL, LINT, be_ready

# The package's own file, and those that belong to it.
EMACS_PACKAGE, EMACS_FILES = "editors/emacs/vialshoal.el", "editors/emacs/vialshoal-*.el"
PACKAGE_LINT = Path("/usr/share/emacs/site-lisp/elpa-src")
# The folders that have Python, each with the tests in it.
PYTHON = ("share", "tools", "editors", "bench", "bin")
# Scripts whose names aren't each other's, so that one run of mypy can read them.
SCRIPTS = (("bin",), ("bench",), ("editors",))
PACKAGES = ("share", "tools")


class Step(NamedTuple):
    """What is looked at, and how."""

    what: str
    words: list[str]


def package_lint() -> Path | None:
    """The folder of Emacs's package-lint."""
    return next(iter(sorted(PACKAGE_LINT.glob("package-lint-*"))), None)


def scripts(folders: tuple[str, ...]) -> list[str]:
    """The Python files of some folders whose names don't say that they are, and that are no modules of a package."""
    paths = (path for folder in folders for path in sorted((TOP / folder).rglob("*")) if path.is_file() and "out" not in path.parts)
    return [str(path.relative_to(TOP)) for path in paths if path.suffix == ".py" or not path.suffix and is_python(path)]


def is_python(path: Path) -> bool:
    """Whether a file's first line names Python."""
    with path.open("rb") as file:
        first = file.readline()
    return first.startswith(b"#!") and b"python" in first


def cache() -> Path:
    """Return the folder of mypy's cache, outside the tree: each copy of the repository has its own."""
    return cache_folder() / f"mypy-{hashlib.sha256(bytes(TOP)).hexdigest()[:8]}"


def steps() -> Iterator[Step]:
    """What is looked at, one after the other."""
    mypy = ["mypy", "--config-file", "pyproject.toml", f"--cache-dir={cache()}"]
    yield Step("the types of share/ and tools/", [*mypy, *PACKAGES])
    for folders in SCRIPTS:
        yield Step(f"the types of {', '.join(folders)}/", [*mypy, *scripts(folders)])
    yield Step("flake8", ["flake8", *PACKAGES, *scripts(PYTHON[2:])])
    for name in "page", "node":
        yield Step(f"the types of the {name}'s JavaScript", ["tsc", "--project", f"tools/types/{name}.json"])
    yield Step("Lua", ["luacheck", "--quiet", "--no-cache", "editors/neovim"])
    yield Step("Emacs Lisp", ["emacs", "-Q", "--batch", "-L", str(package_lint()), "-l", "tools/lint.el", EMACS_PACKAGE,
                              *(str(path.relative_to(TOP)) for path in sorted(TOP.glob(EMACS_FILES)))])


def passes(step: Step, run: Callable[..., subprocess.CompletedProcess[str]] = subprocess.run) -> bool:
    """Whether nothing is wrong; prints what is."""
    done = run(step.words, cwd=TOP, stdin=subprocess.DEVNULL, stdout=subprocess.PIPE, stderr=subprocess.STDOUT, text=True, check=False)
    if done.returncode:
        print(f"lint: {step.what}:\n{done.stdout}", flush=True)
    return done.returncode == 0


def main() -> int:
    """Run the linters. Return 1 if something is wrong."""
    be_ready("lint", [LINT], INSTALL in sys.argv)
    results = [passes(step) for step in steps()]
    print(f"{sum(results)} passed, {len(results) - sum(results)} failed")
    return 0 if all(results) else 1
