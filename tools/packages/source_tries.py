"""The source archive is tried by cargo, as who has Rust alone uses it."""
from __future__ import annotations

import os
import re
import shutil
from collections.abc import Callable
from pathlib import Path
from typing import TYPE_CHECKING

from tools import TOP
from tools.packages import making
from tools.packages.calling import Words, call
from tools.packages.lacking import Lacking
from tools.packages.scripts import plain_rows

if TYPE_CHECKING:
    from tools.packages.trying import Trial

FEW, MANY = 20_000, 1_000_000
RUNS = ("cargo", "run", "--quiet", "--release", "--offline")
CRATE = TOP / "rust" / "vialshoal" / "src" / "lib.rs"


def sources(trial: Trial, name: str) -> Path:
    """A fresh folder with what is in the archive."""
    folder = trial.folder(name)
    call(["tar", "-xzf", trial.of(".tar.gz"), "-C", folder, "--strip-components=1"])
    return folder


def alike(is_short: bool) -> Callable[[Trial], None]:
    """Has the packaged program and the one that cargo makes of the sources answer rows, scripts and random events by the same bytes."""

    def does(trial: Trial) -> None:
        if shutil.which("cargo") is None:
            raise Lacking("there is no cargo")
        folder, wish = sources(trial, "alike"), trial.wish
        program = making.builds(wish, wish.processors[0], trial.folder("program")).program()
        words: Words = [folder / "bin" / "rust", "--compare", "--events", str(FEW if is_short else MANY)]
        print(call(words, folder, {**os.environ, "VIALSHOAL_PROGRAM": str(program)}).splitlines()[-1])

    return does


def by_cargo(trial: Trial) -> None:
    """Builds and tests the program as the page says, and asks it scripts."""
    folder = sources(trial, "sources")
    words: Words = [*RUNS, "--manifest-path", "rust/Cargo.toml", "--"]
    for row in list(plain_rows())[:5]:
        assert call(words, folder, given=row.script.decode()) == row.expected.decode(), row.name
    call(["cargo", "test", "--quiet", "--offline", "--manifest-path", "rust/Cargo.toml"], folder)


def embedded(trial: Trial) -> None:
    """Runs the lines with which the crate's page begins, in a package that uses it."""
    archive, folder = sources(trial, "archive"), trial.folder("embedded")
    call(["cargo", "init", "--quiet", "--vcs", "none", "--name", "embedded"], folder)
    call(["cargo", "add", "--quiet", "--offline", "--path", archive / "rust" / "vialshoal"], folder)
    (lines,) = re.findall(r"//! ```\n((?://!.*\n)+?)//! ```\n", CRATE.read_text())
    (folder / "src" / "main.rs").write_text(re.sub(r"(?m)^//! ?(?:# )?", "", lines))
    call([*RUNS], folder)
