"""Makes the C library in library/out: libvialshoal.a, libvialshoal.so, vialshoal.h and vialshoal.pc; and installs it. What is made says
which commit it is of, and whether it is proved."""
from __future__ import annotations

import argparse
import os
import shlex
import shutil
import subprocess
import sys
import tempfile
from collections.abc import Sequence
from pathlib import Path

from tools import TOP, npm
from tools.building import kit
from tools.builds import Unbuilt, end_by_signals, first_line, say_why_not
from tools.compiling import LIBRARY, build_of
from tools.ordinary import WORKSPACE, rustc
from tools.packages import archives, binaries, installing
from tools.packages.binaries import SHARED, Binaries, Tools, tools_for
from tools.packages.calling import Failed
from tools.packages.installing import NotMade
from tools.packages.processors import FIRST

SOURCES = TOP / "library"
OUT = SOURCES / "out"
MORE = """The crates are proved first, where no gate on this machine did that, in half an hour; then its own, in some minutes. Without
--unproved it is never made of what isn't proved."""
UNPROVED = "make it as ordinary Rust, by cargo, in half a minute"
INSTALLS = """install what library/out has under PREFIX, once it is made where another word asks for that; a packager sets DESTDIR, the
folder below which the files are to be"""
WASM = """a package for Node, and for pages, that has the library as WebAssembly, which stock Rust compiles from rust/ and which isn't
proved; alone it makes nothing else, and needs no toolchain"""


def commit() -> str:
    """The commit, with a word where the library's sources differ from it."""
    git = ["git", "-C", str(TOP)]
    parts = ["crates", "library", "crates.txt", "rust"]
    changed = subprocess.run([*git, "status", "--porcelain", "--", *parts], stdout=subprocess.PIPE, text=True, check=True).stdout
    return first_line([*git, "rev-parse", "HEAD"]) + (", with changes" if changed else "")


def ordinary(room: Path, compiler: Sequence[str]) -> Binaries:
    """The library as ordinary Rust."""
    words = ["cargo", "build", "--quiet", "--release", "--offline", "--locked", "-p", LIBRARY]
    subprocess.run(words, cwd=WORKSPACE, stdout=2, check=True)
    return binaries.unproved(WORKSPACE / "target" / "release", FIRST, room, Tools(compiler))


def proved(room: Path, compiler: Sequence[str]) -> Binaries:
    return binaries.proved(FIRST, room, Tools(compiler, tools_for(FIRST).begin))


def make(built: Binaries, about: str, room: Path) -> None:
    """Makes the library anew."""
    built.archive()
    shutil.rmtree(OUT, ignore_errors=True)
    OUT.mkdir(parents=True)
    installing.make(built, commit(), about, room, OUT)


def install(prefix: str, libdir: str) -> int:
    """Installs the library as it was made last; says what it is of."""
    root = installing.install(OUT, prefix, libdir)
    lines = [line.removeprefix("# ") for line in (OUT / installing.ABOUT).read_text().splitlines() if line.startswith("#")]
    print(f"{root}: {'; '.join(lines)}")
    return 0


def make_wheel(room: Path) -> None:
    folder = room / "python"
    shutil.copytree(SOURCES / "python", folder)
    shutil.copy(OUT / SHARED, folder / "vialshoal")
    archives.built_wheel(folder, OUT)


def make_all(given: argparse.Namespace, room: Path) -> int:
    """Makes the library, and of it what was asked for."""
    compiler = shlex.split(os.environ.get("CC", "cc"))
    if given.unproved:
        built, about = ordinary(room, compiler), f"not proved: ordinary Rust, by {rustc()}"
    else:
        built, about = proved(room, compiler), f"proved, by {kit()}"
    make(built, about, room)
    if given.wasm or given.node:
        if status := npm.main([str(OUT / "node"), *["--wasm"] * given.wasm]):
            return status
    if given.node:
        shutil.move(built.addon(SOURCES, room), OUT / "node")
        npm.limit(OUT / "node", FIRST.node)
    if given.wheel:
        make_wheel(room)
    print(f"library/out: of commit {commit()}; {about}")
    return 0


def main(words: Sequence[str]) -> int:
    parser = argparse.ArgumentParser("bin/library", description=f"{__doc__} {MORE}")
    parser.add_argument("--wheel", action="store_true", help="also the Python package")
    parser.add_argument("--node", action="store_true", help="also a package for Node")
    parser.add_argument("--wasm", action="store_true", help=WASM)
    parser.add_argument("--unproved", action="store_true", help=UNPROVED)
    parser.add_argument("--install", metavar="PREFIX", help=INSTALLS)
    parser.add_argument("--libdir", metavar="FOLDER", default="lib", help="where libraries go under PREFIX, instead of %(default)s")
    given = parser.parse_args(words)
    end_by_signals()
    try:
        with tempfile.TemporaryDirectory(prefix="library-") as room:
            return does(given, Path(room))
    except KeyboardInterrupt:
        return 2
    except (Unbuilt, Failed, NotMade, OSError, subprocess.CalledProcessError) as why:
        say_why_not(why, "library", "it")
        return 2


def does(given: argparse.Namespace, room: Path) -> int:
    """What the words say."""
    more = given.wheel or given.node or given.unproved
    if given.wasm and not more:
        if status := npm.main([str(OUT / "node"), "--wasm"]):
            return status
        print(f"library/out/node: WebAssembly, of commit {commit()}")
    elif more or not given.install:
        if not (given.unproved or build_of(LIBRARY, FIRST.target).can_be_made()):
            raise Unbuilt("there is no command rt, by which it is proved; --unproved makes it as ordinary Rust")
        if status := make_all(given, room):
            return status
    return install(given.install, given.libdir) if given.install else 0


if __name__ == "__main__":
    sys.exit(main(sys.argv[1:]))
