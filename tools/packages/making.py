"""Makes packages of this checkout, each from its source archive and from what was built."""
from __future__ import annotations

import hashlib
import os
import shutil
import subprocess
import tempfile
from collections.abc import Callable, Iterator, Sequence
from contextlib import contextmanager
from dataclasses import dataclass
from pathlib import Path

from tools.packages import archives, binaries, deb, source
from tools.packages.binaries import Binaries
from tools.packages.processors import FIRST, Processor
from tools.packages.release import Release, current, toolchain

SUMS = "SHA256SUMS"
SOURCE = "source"
MAKES: dict[str, Callable[[Release, Path, Binaries, Path, Path], Path]] = {
    "deb": deb.make,
    "wheel": archives.wheel,
    "npm": archives.npm,
}
KINDS = (SOURCE, *MAKES)
# Debian's packages on whose versions the bytes may depend.
TOOLS = ("dpkg-dev", "debhelper", "dh-python", "gcc", "binutils", "gzip", "tar", "python3-wheel", "python3-setuptools", "nodejs")


@dataclass(frozen=True)
class Wish:
    """What is to be made: kinds of packages for processors; not of proved builds where a folder has others."""

    kinds: Sequence[str] = KINDS
    processors: Sequence[Processor] = (FIRST,)
    unproved: Path | None = None


def make(wish: Wish, to: Path) -> list[Path]:
    """Makes packages in a folder, beside a list of their sums."""
    release = current(wish.unproved is None)
    to.mkdir(parents=True, exist_ok=True)
    with _usual_rights(), _room() as room:
        packed = source.pack(release, room)
        sources = source.unpack(packed, room)
        made = [Path(shutil.copy(packed, to))] if SOURCE in wish.kinds else []
        for processor in wish.processors if set(wish.kinds) - {SOURCE} else ():
            with _room() as build:
                built = builds(wish, processor, build)
                for kind in MAKES:
                    if kind in wish.kinds:
                        with _room() as folder:
                            made.append(MAKES[kind](release, sources, built, folder, to))
    _write_sums(to / SUMS, [release.about, toolchain(wish.unproved is None), _tools()], made)
    return made


@contextmanager
def _usual_rights() -> Iterator[None]:
    """Has new files have the usual rights, which archives keep."""
    before = os.umask(0o022)
    try:
        yield
    finally:
        os.umask(before)


@contextmanager
def _room() -> Iterator[Path]:
    with tempfile.TemporaryDirectory(prefix="packages-") as room:
        yield Path(room)


def builds(wish: Wish, processor: Processor, room: Path) -> Binaries:
    tools = binaries.tools_for(processor)
    if wish.unproved is None:
        return binaries.proved(processor, room, tools)
    return binaries.unproved(wish.unproved, processor, room, tools)


def _tools() -> str:
    words = ["dpkg-query", "--show", "--showformat=${Package} ${Version}, ", *TOOLS]
    told = subprocess.run(words, stdout=subprocess.PIPE, stderr=subprocess.DEVNULL, text=True).stdout
    return f"made with {told.removesuffix(', ')}"


def sum_of(path: Path) -> str:
    return hashlib.sha256(path.read_bytes()).hexdigest()


def _write_sums(path: Path, about: Sequence[str], made: Sequence[Path]) -> None:
    """Writes a list that sha256sum checks."""
    lines = [*(f"# {line}" for line in about), *(f"{sum_of(one)}  {one.name}" for one in sorted(made))]
    path.write_text("".join(f"{line}\n" for line in lines))
