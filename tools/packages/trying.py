"""Tries packages as those use them who are given them: bin/package --test. The last line is 'N passed, M failed'."""
from __future__ import annotations

import os
import resource
import shutil
import tempfile
import traceback
from collections.abc import Callable, Iterator
from contextlib import contextmanager
from dataclasses import dataclass, field, replace
from pathlib import Path
from unittest import mock

from tools.packages import debian_tries, emulated_tries, lacking, library_tries, source_tries, verifying
from tools.packages.archives import PYTHON
from tools.packages.calling import call
from tools.packages.lacking import Lacking
from tools.packages.making import SUMS, Wish, make
from tools.packages.release import CHANGED, Release, current


SORTS = """
import sys
from pip._vendor.packaging.version import Version
assert sorted(sys.argv[1:], key=Version) == sys.argv[1:], sys.argv[1:]
"""


@dataclass
class Trial:
    """Packages that were made, and what was found of them."""

    wish: Wish
    release: Release
    room: Path
    made: list[Path] = field(default_factory=list)
    passed: int = 0
    failed: int = 0

    def of(self, end: str) -> Path:
        """The package whose name ends so."""
        (found,) = (path for path in self.made if path.name.endswith(end))
        return found

    def folder(self, name: str) -> Path:
        """A fresh folder."""
        folder = self.room / name
        folder.mkdir()
        return folder

    def step(self, about: str, does: Callable[[Trial], None]) -> None:
        """Tries something, and counts it."""
        try:
            does(self)
        except Lacking as why:
            print(f"{about}: left out, since {why}", flush=True)
        except Exception:
            self.failed += 1
            print(f"{about}: failed\n{traceback.format_exc()}", end="", flush=True)
        else:
            self.passed += 1
            print(f"{about}: ok", flush=True)


def main(wish: Wish, is_short: bool) -> int:
    """Tries all packages that a wish names; the short form those that can be made here, without root and network."""
    if is_short:
        wish = replace(wish, kinds=lacking.of_these(wish))
    if not wish.kinds:
        print("0 passed, 0 failed")
        return 0
    # What Rust compiles of its standard library is compiled once.
    with tempfile.TemporaryDirectory(prefix="package-test-") as room, mock.patch.dict(os.environ, WASM_TARGET_DIR=f"{room}/wasm"):
        trial = Trial(wish, current(wish.unproved is None), Path(room))
        trial.made = make(wish, trial.folder("made"))
        for about, does in steps(wish, is_short):
            trial.step(about, does)
    print(f"packages, which no proof covers: {processor_seconds():.0f} processor seconds")
    print(f"{trial.passed} passed, {trial.failed} failed")
    return 1 if trial.failed else 0


def processor_seconds() -> float:
    """What this process and those that it began took."""
    used = (resource.getrusage(whose) for whose in (resource.RUSAGE_SELF, resource.RUSAGE_CHILDREN))
    return sum(it.ru_utime + it.ru_stime for it in used)


def steps(wish: Wish, is_short: bool) -> Iterator[tuple[str, Callable[[Trial], None]]]:
    """What is tried."""
    yield "versions sort as their commits follow one another", versions_sort
    yield "made again, elsewhere: the same bytes", made_again
    yield "a package that is right, and one with a byte changed", told_apart
    if "deb" in wish.kinds:
        yield "lintian finds no error", debian_tries.no_errors
        yield "the Debian package's program answers, unpacked", debian_tries.unpacked
    is_emulated = bool(wish.processors[0].runs)
    if is_emulated and not is_short:
        yield from steps_emulated(wish)
    if not is_emulated:
        yield from steps_here(wish, is_short)


def steps_emulated(wish: Wish) -> Iterator[tuple[str, Callable[[Trial], None]]]:
    """What is tried of packages for another processor."""
    if "deb" in wish.kinds:
        yield "all rows, by the emulator", emulated_tries.all_rows
    if "wheel" in wish.kinds:
        yield "each call of the library, by the emulator", emulated_tries.calls
        yield "the wheel, by Python for that processor", emulated_tries.in_python


def steps_here(wish: Wish, is_short: bool) -> Iterator[tuple[str, Callable[[Trial], None]]]:
    """What is tried of packages for the processor that is here."""
    if "wheel" in wish.kinds:
        yield "the wheel, in a bare environment of Python", library_tries.in_python
    if "npm" in wish.kinds:
        yield "npm's archive, in a bare folder", library_tries.in_node
        yield "npm's archive, by the library's tests, in Chromium too", library_tries.by_tests
    if "source" in wish.kinds:
        yield f"random events, {source_tries.FEW if is_short else source_tries.MANY:,}", source_tries.alike(is_short)
    if "source" in wish.kinds and not is_short:
        yield "the sources' lines, with cargo and no network", source_tries.by_cargo
        yield "the sources' crate in a package of one's own", source_tries.embedded
    if "deb" in wish.kinds and not is_short:
        yield "the Debian package, in a fresh Debian", debian_tries.installed


def versions_sort(trial: Trial) -> None:
    """Compares versions as Debian and Python do: by time, then what was changed, and all before the number that they have."""
    commit = replace(trial.release, marks=())
    later = replace(commit, seconds=commit.seconds + 1, commit="0" * 40)
    releases = [commit, replace(commit, marks=(CHANGED,)), later]
    debian = [*(it.version for it in releases), commit.number]
    for first, second in zip(debian, debian[1:]):
        call(["dpkg", "--compare-versions", first, "lt", second])
    python = [*(it.python_version for it in releases), commit.number]
    call([PYTHON, "-c", SORTS, *python])


def made_again(trial: Trial) -> None:
    """Makes all again, with other settings of time, language and rights."""
    with settings(TZ="Asia/Kathmandu", LC_ALL="C", LANGUAGE="de", TMPDIR=str(trial.folder("elsewhere"))):
        made = make(trial.wish, trial.folder("again"))
    for one, other in zip(trial.made, made):
        assert one.name == other.name and one.read_bytes() == other.read_bytes(), f"{one.name} has other bytes"
    assert len(made) == len(trial.made)
    first, second = ((path.parent / SUMS).read_text() for path in (trial.made[0], made[0]))
    assert first == second and trial.release.commit in first
    call(["sha256sum", "--check", "--strict", SUMS], trial.made[0].parent)


@contextmanager
def settings(**environment: str) -> Iterator[None]:
    """Has other variables and rights of new files meanwhile."""
    before = os.umask(0o077)
    try:
        with mock.patch.dict(os.environ, environment), mock.patch.object(tempfile, "tempdir", None):
            yield
    finally:
        os.umask(before)


def told_apart(trial: Trial) -> None:
    """Verifies a package, and again with one byte of it changed; and one of another commit."""
    right = min(trial.made, key=lambda path: path.stat().st_size)
    wrong = trial.folder("wrong") / right.name
    data = bytearray(right.read_bytes())
    data[len(data) // 2] ^= 1
    wrong.write_bytes(data)
    assert verifying.verify(right, trial.wish.unproved)
    assert not verifying.verify(wrong, trial.wish.unproved)
    other = wrong.with_name(wrong.name.replace(trial.release.commit[:12], "0" * 12))
    shutil.copy(right, other)
    try:
        verifying.verify(other, trial.wish.unproved)
    except verifying.Unknown:
        return
    raise AssertionError(f"{other.name} isn't refused")
