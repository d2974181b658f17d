"""bin/site_cli: runs the program as it is proved of these sources, else a build that proves nothing, which is made where that is needed.

The proved one comes first, then the one with a test in place of each proof, by the toolchain, then ordinary Rust, by cargo."""
from __future__ import annotations

import os
import signal
import subprocess
import tempfile
from collections.abc import Callable
from pathlib import Path

from tools import TOP, ordinary, trying
from tools.building import PROVED
from tools.builds import VARIABLE, Build, Progress, Unbuilt, commit, end_by_signals, say, say_why_not
from tools.ordinary import RUST
from tools.trying import TRIED

BUILDS = {build.name: build for build in (PROVED, TRIED, RUST)}
MAKES: dict[str, Callable[[Path], Path]] = {TRIED.name: trying.make, RUST.name: ordinary.make}
TAKES = {TRIED.name: "two minutes", RUST.name: "half a minute"}


def asked() -> Build | None:
    """The build that the variable names, if it names one."""
    name = os.environ.get(VARIABLE)
    if name and name not in BUILDS:
        raise Unbuilt(f"{VARIABLE} is {', '.join([*BUILDS][:-1])} or {[*BUILDS][-1]}, and not {name}")
    return BUILDS[name] if name else None


def make(build: Build) -> None:
    """Makes a build of the sources as they are, once where several begin at the same time."""
    with build.alone():
        if build.is_current():
            return
        say(f"no program is built of these sources yet. One is built first, in about {TAKES[build.name]}; {build.about}")
        build.log.write_bytes(b"")
        sources = build.sum_of_sources()
        with tempfile.TemporaryDirectory(prefix="build-") as room, Progress(build):
            build.keep(MAKES[build.name](Path(room)), sources)


def make_ready(build: Build) -> None:
    """Sees that the build is there that was asked for."""
    if build.is_current():
        return
    if build is PROVED:
        raise Unbuilt("these sources aren't proved here; bin/prove proves them")
    if not build.can_be_made():
        raise Unbuilt(f"there is no command {build.command}")
    make(build)


def chosen() -> Build:
    """The best build that is here of these sources, or can be made soon."""
    if PROVED.is_current():
        return PROVED
    for build in TRIED, RUST:
        if build.is_current():
            return build
        if build.can_be_made():
            make(build)
            return build
    raise Unbuilt("neither Rust's cargo is here nor the toolchain's rt, of which one is needed")


def current() -> Build | None:
    """The build that would be run, if it is there."""
    build = asked()
    return next((it for it in ([build] if build else BUILDS.values()) if it.is_current()), None)


def run(build: Build, words: list[str]) -> None:
    # What Python ignores, the program is to end by.
    signal.signal(signal.SIGPIPE, signal.SIG_DFL)
    os.execve(TOP / "bin" / "built", ["built", *words], {**os.environ, VARIABLE: build.name})


def main(words: list[str]) -> int:
    end_by_signals()
    build = None
    try:
        if words == ["--version"]:
            if build := current():
                run(build, words)
            print(f"Vialshoal, commit {commit()}\nno program is built of these sources")
            return 0
        if build := asked():
            make_ready(build)
        else:
            build = chosen()
            build.take()
        if build is not PROVED:
            say(f"{build.about}{'; bin/prove proves the program' if PROVED.can_be_made() else ''}")
        run(build, words)
    except KeyboardInterrupt:
        return 2
    except (Unbuilt, OSError, subprocess.CalledProcessError) as why:
        say_why_not(why)
    return 2
