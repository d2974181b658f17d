"""Builds of the program and of the library, of which several may be kept: each in a folder of its own, beside a file that says what it
was made of."""
from __future__ import annotations

import fcntl
import hashlib
import os
import shutil
import signal
import subprocess
import sys
import threading
import time
from collections.abc import Callable, Iterable, Iterator
from contextlib import contextmanager, suppress
from dataclasses import dataclass
from pathlib import Path
from typing import Any

from tools import TOP

PROGRAM = "site_cli"
OUT = TOP / "out"
# Where the toolchain leaves the program that it proved.
PROVED_FOLDER = TOP / "crates" / PROGRAM / "out"
# The name of the build that bin/site_cli or bin/prove took last, and bin/built runs; the variable that names another.
LAST = OUT / "last"
VARIABLE = "VIALSHOAL_BUILD"
BUILT_FROM = "built-from"
END_SECONDS = 5
# A build that takes longer than this is reported, so often.
QUIET_SECONDS = 5
REPORT_SECONDS = 2


class Unbuilt(Exception):
    """What was to be built isn't, for this reason; perhaps a log has more."""

    def __init__(self, why: str, log: Path | None = None) -> None:
        super().__init__(why)
        self.log = log


def say(line: str, crate: str = PROGRAM) -> None:
    print(f"{crate}: {line}", file=sys.stderr, flush=True)


def say_why_not(why: Exception, crate: str = PROGRAM, what: str = "the program") -> None:
    say(f"{what} isn't built: {why}", crate)
    if isinstance(why, Unbuilt) and why.log:
        say(f"{why.log.relative_to(TOP)} ends so:", crate)
        print(*why.log.read_text(errors="replace").splitlines()[-20:], sep="\n", file=sys.stderr)


@dataclass(frozen=True)
class Build:
    """A way in which a crate is built, and the folder that keeps what was built so last."""

    name: str
    folder: Path
    # What is said of it, the command that makes it, and what that calls itself.
    about: str
    command: str
    tool: Callable[[], str]
    sum_of_sources: Callable[[], str]
    crate: str = PROGRAM
    # The name of the file that is built.
    makes: str = PROGRAM

    @property
    def file(self) -> Path:
        return self.folder / self.makes

    @property
    def record(self) -> Path:
        return self.folder / BUILT_FROM

    @property
    def log(self) -> Path:
        """What the tools said when it was built last."""
        return OUT / f"{self.name}.log"

    def can_be_made(self) -> bool:
        return shutil.which(self.command) is not None

    def told(self) -> str:
        return f"{self.about}, by {self.tool()}"

    def sums(self, sources: str) -> str:
        return f"{sources} {hashlib.sha256(self.file.read_bytes()).hexdigest()}"

    def is_current(self) -> bool:
        """Whether what is kept was made of the sources as they are, and by the tool that is here, if one is."""
        try:
            _, told, sums = self.record.read_text().splitlines()
            return (not self.can_be_made() or told == self.told()) and sums == self.sums(self.sum_of_sources())
        except (OSError, ValueError):
            return False

    def note(self, sources: str) -> None:
        """Writes down what the file that is kept was made of, unless that was changed meanwhile."""
        if sources == self.sum_of_sources():
            fresh = self.folder / f"{BUILT_FROM}.new"
            fresh.write_text(f"Vialshoal, commit {commit()}\n{self.told()}\n{self.sums(sources)}\n")
            os.replace(fresh, self.record)

    def keep(self, made: Path, sources: str) -> None:
        """Puts a file that was made of these sources in the place of the one that is kept. A program that runs can't be written,
        but it can be replaced."""
        self.folder.mkdir(parents=True, exist_ok=True)
        self.record.unlink(missing_ok=True)
        fresh = self.folder / f"{self.makes}.new"
        shutil.copy(made, fresh)
        os.replace(fresh, self.file)
        self.note(sources)

    def take(self) -> None:
        """Makes this build the one that bin/built runs."""
        if last() != self.name:
            OUT.mkdir(exist_ok=True)
            fresh = OUT / f"{LAST.name}.{os.getpid()}"
            fresh.write_text(f"{self.name}\n")
            os.replace(fresh, LAST)

    @contextmanager
    def alone(self) -> Iterator[None]:
        """Lets one process at a time make it."""
        OUT.mkdir(exist_ok=True)
        with open(OUT / f"{self.name}.lock", "w") as lock:
            try:
                fcntl.flock(lock, fcntl.LOCK_EX | fcntl.LOCK_NB)
            except BlockingIOError:
                say("it is being built already, which is waited for", self.crate)
                fcntl.flock(lock, fcntl.LOCK_EX)
            yield

    def call(self, words: Iterable[object], folder: Path, **environment: str) -> None:
        """Runs a command that makes it, whose words go to the log."""
        command, env = [str(word) for word in words], {**os.environ, **environment}
        with open(self.log, "ab") as log, signals_held_back() as let_go:
            tool = subprocess.Popen(
                command, cwd=folder, env=env, stdin=subprocess.DEVNULL, stdout=log, stderr=log, start_new_session=True
            )
            with tool, ended_with_this(tool):
                let_go()
                status = tool.wait()
        if status:
            raise Unbuilt(f"{' '.join(command[:2])} ended with {status}", self.log)


def end_by_signals() -> None:
    """Has this process end what it began, where it is told to end or its terminal is closed."""
    for number in (signal.SIGTERM, signal.SIGHUP):
        signal.signal(number, lambda *_: sys.exit(2))


@contextmanager
def signals_held_back() -> Iterator[Callable[[], None]]:
    """Has the signals that end this process come once they are let go, and so not while a command is begun that is to end with it."""
    came: list[int] = []
    handlers: dict[int, Any] = {}

    def let_go() -> None:
        while handlers:
            signal.signal(*handlers.popitem())
        while came:
            signal.raise_signal(came.pop())

    for number in (signal.SIGTERM, signal.SIGHUP, signal.SIGINT):
        handlers[number] = signal.signal(number, lambda it, _: came.append(it))
    try:
        yield let_go
    finally:
        let_go()


@contextmanager
def ended_with_this(tool: subprocess.Popen[bytes]) -> Iterator[None]:
    """Ends a command that leads a session, and all that it began, where this process is told to end."""
    try:
        yield
    except BaseException:
        with suppress(ProcessLookupError, subprocess.TimeoutExpired):
            os.killpg(tool.pid, signal.SIGTERM)
            tool.wait(END_SECONDS)
        with suppress(ProcessLookupError):
            os.killpg(tool.pid, signal.SIGKILL)
        raise


class Progress:
    """How far a build is, on standard error: one line that grows on a terminal, and elsewhere a line for each step."""

    def __init__(self, build: Build, step: Callable[[str], str] = lambda said: "") -> None:
        self.build, self.step = build, step
        self.began, self.is_terminal = time.monotonic(), sys.stderr.isatty()
        self.has_begun, self.ended = False, threading.Event()
        self.thread = threading.Thread(target=self.report, daemon=True)

    def __enter__(self) -> Progress:
        self.thread.start()
        return self

    def __exit__(self, *_: object) -> None:
        self.ended.set()
        self.thread.join()
        if self.has_begun and self.is_terminal:
            print(file=sys.stderr)

    def report(self) -> None:
        if self.ended.wait(QUIET_SECONDS):
            return
        self.has_begun, before = True, ""
        say(f"what the tool says is in {self.build.log.relative_to(TOP)}", self.build.crate)
        while True:
            step = self.step(self.build.log.read_text(errors="replace"))
            minutes, seconds = divmod(int(time.monotonic() - self.began), 60)
            line = f"{self.build.crate}: {step}{', ' if step else ''}{minutes}:{seconds:02} minutes so far"
            if self.is_terminal:
                print(f"\r{line}", end="", file=sys.stderr, flush=True)
            elif step != before:
                print(line, file=sys.stderr, flush=True)
            before = step
            if self.ended.wait(REPORT_SECONDS):
                return


def last() -> str:
    """The name of the build that was taken last, if one was."""
    with suppress(FileNotFoundError):
        return LAST.read_text().strip()
    return ""


def kept() -> Path:
    """The program that bin/built runs, where it is there."""
    name = os.environ.get(VARIABLE) or last()
    return (PROVED_FOLDER if name in ("", "proved") else OUT / name) / PROGRAM


def sum_of_files(files: Iterable[Path], *more: object) -> str:
    """The sum of files, by their paths in the repository, and of what else counts."""
    found = hashlib.sha256(repr(more).encode())
    for path in files:
        found.update(repr((str(path.relative_to(TOP)), path.read_bytes())).encode())
    return found.hexdigest()


def first_line(words: list[str]) -> str:
    """What a command says of itself."""
    return subprocess.run(words, stdout=subprocess.PIPE, text=True, check=True).stdout.partition("\n")[0].strip()


def commit() -> str:
    """The commit of this checkout, with a word where files differ from it."""
    words = ["git", "-C", str(TOP), "describe", "--always", "--abbrev=12", "--exclude=*", "--dirty=, with changes"]
    unknown = "unknown, since this is no git checkout"
    try:
        ran = subprocess.run(words, stdout=subprocess.PIPE, stderr=subprocess.DEVNULL, text=True)
    except FileNotFoundError:
        return unknown
    return ran.stdout.strip() if ran.returncode == 0 else unknown
