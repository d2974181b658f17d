"""The library's files: in the folder where they are made, and under a prefix."""
from __future__ import annotations

import os
import re
import secrets
import shutil
from collections.abc import Iterator
from pathlib import Path

from tools.packages.binaries import HEADER, SHARED, Binaries, soname, version

SOURCES = HEADER.parent
ARCHIVE, ABOUT = "libvialshoal.a", "vialshoal.pc"
# Where the loader looks by itself, so that programs needn't have the path.
SYSTEM = "/usr"
PATH_IN_PROGRAMS = " -Wl,-rpath,${libdir}"


class NotMade(Exception):
    """There is no library to be installed."""


def headers() -> list[str]:
    return sorted(path.name for path in SOURCES.glob("*.h"))


def shared() -> list[str]:
    """The shared library by its version, the link by which programs find it, and the one by which linkers do."""
    return [f"{SHARED}.{version()}", soname(), SHARED]


def make(built: Binaries, commit: str, about: str, room: Path, to: Path) -> None:
    """Makes the library in a folder, beside what says which it is."""
    shutil.copy(built.archive(), to / ARCHIVE)
    file, *links = shared()
    shutil.move(built.shared(room), to / file)
    for before, link in zip([file, *links], links):
        (to / link).symlink_to(before)
    for name in headers():
        shutil.copy(SOURCES / name, to)
    lines = (SOURCES / f"{ABOUT}.in").read_text()
    for word, value in {"commit": commit, "about": about, "version": version()}.items():
        lines = lines.replace(f"@{word}@", value)
    (to / ABOUT).write_text(lines)


def places(libdir: str) -> Iterator[tuple[str, str]]:
    """The files of the library, and where they are under a prefix."""
    yield from ((name, f"include/{name}") for name in headers())
    yield from ((name, f"{libdir}/{name}") for name in (ARCHIVE, *shared()))
    yield ABOUT, f"{libdir}/pkgconfig/{ABOUT}"


def install(made: Path, prefix: str, libdir: str) -> Path:
    """Installs what was made in a folder, in place of what was installed before; where to."""
    root = Path(os.environ.get("DESTDIR", "") + os.path.abspath(prefix))
    for name, place in places(libdir):
        if not (made / name).exists():
            raise NotMade(f"{made} has no {name}: bin/library makes it")
        if name == ABOUT:
            _lay(_located((made / name).read_text(), prefix, libdir), root / place)
        else:
            _lay(made / name, root / place)
    return root


def _located(about: str, prefix: str, libdir: str) -> str:
    """What pkg-config is told, once the library is under a prefix; it may be moved from there with all of it."""
    up = os.path.relpath(".", f"{libdir}/pkgconfig")
    folders = {"prefix": "${pcfiledir}/" + up, "includedir": "${prefix}/include", "libdir": "${prefix}/" + libdir}
    for name, folder in folders.items():
        about = re.sub(rf"(?m)^{name}=.*", f"{name}={folder}", about)
    return about.replace(PATH_IN_PROGRAMS, "") if os.path.abspath(prefix) == SYSTEM else about


def _lay(what: Path | str, place: Path) -> None:
    """Lays a file, a link or a text in a place. Programs that run with what was there keep that."""
    place.parent.mkdir(parents=True, exist_ok=True)
    room = place.with_name(f".{place.name}.{secrets.token_hex(4)}")
    if isinstance(what, str):
        room.write_text(what)
    else:
        shutil.copyfile(what, room, follow_symlinks=False)
    if not room.is_symlink():
        room.chmod(0o644)
    room.replace(place)
