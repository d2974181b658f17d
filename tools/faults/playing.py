"""Plays scripts in folders of their own, with one call that fails."""
from __future__ import annotations

import fcntl
import os
import shutil
import signal
import tempfile
from collections.abc import Iterator
from contextlib import contextmanager
from dataclasses import dataclass, replace
from enum import Enum
from functools import cached_property
from itertools import accumulate
from pathlib import Path

from tools.faults.tracing import EXIT, Call, Traced
from tools.refusals.asking import answers_in
from tools.refusals.scripts import Script
from tools.refusals.tally import Difference
from tools.running import SECONDS, Ended, Files, files_below, lay

# As much as a pipe takes, and in how many pieces: it keeps each piece on a page of its own.
PIPE, PIECES, PIECE = 1 << 20, 256, 4096
MOST_OUTPUT = 1 << 28
REMOVALS = {"unlink", "unlinkat"}


class Mode(Enum):
    """How the program is given its script: in a file, or line by line as by a person who waits for each answer."""

    AT_HAND = "at hand"
    TYPED = "typed"


@dataclass(frozen=True)
class Fault:
    """What happens to a call."""

    name: str
    # Its result, where it isn't made.
    answer: int | None = None
    # How many bytes it is made with, where those are fewer.
    count: int | None = None
    # Whether the program is killed then.
    kills: bool = False

    def befall(self, traced: Traced) -> None:
        if self.answer is not None:
            traced.answer(self.answer)
        if self.count is not None:
            traced.shorten(self.count)
        if self.kills:
            traced.kill()


def text_of(script: Script) -> bytes:
    return "".join(f"{line}\n" for line in script.lines).encode("latin-1")


def pipe_of(script: bytes) -> int:
    """A pipe of which one read gives one line, unless that is longer than a page."""
    reader, writer = os.pipe2(os.O_DIRECT | os.O_CLOEXEC)
    fcntl.fcntl(writer, fcntl.F_SETPIPE_SZ, PIPE)
    lines = script.splitlines(keepends=True)
    assert sum(-(-len(line) // PIECE) for line in lines) <= PIECES, "the script is too long to be typed"
    for line in lines:
        os.write(writer, line)
    os.close(writer)
    return reader


def file_of(script: bytes) -> int:
    found = os.memfd_create("script")
    os.write(found, script)
    os.lseek(found, 0, os.SEEK_SET)
    return found


class Run:
    """A run of a script in a folder."""

    def __init__(self, program: str, script: Script, mode: Mode, folder: Path) -> None:
        self.script, self.folder = script, folder
        given = (pipe_of if mode is Mode.TYPED else file_of)(text_of(script))
        self._streams = [given, os.memfd_create("output"), os.memfd_create("errors")]
        self.traced = Traced([program, *script.words], folder, self._streams)

    def ended(self) -> Ended:
        """How it ended, to which it is brought."""
        self.traced.end()
        wrote, complained = (os.pread(stream, MOST_OUTPUT, 0) for stream in self._streams[1:])
        return Ended(self.traced.status, wrote, complained, files_below(self.folder))

    def close(self) -> None:
        self.traced.kill()
        for stream in self._streams:
            os.close(stream)


def _hangs(*_: object) -> None:
    raise Difference(f"it hadn't ended after {SECONDS} seconds")


@contextmanager
def in_time() -> Iterator[None]:
    signal.signal(signal.SIGALRM, _hangs)
    left, _ = signal.setitimer(signal.ITIMER_REAL, SECONDS)
    try:
        yield
    finally:
        signal.setitimer(signal.ITIMER_REAL, left)


@dataclass(frozen=True)
class Plain:
    """A run in which nothing fails: its calls, what each line is answered, and the files after each count of lines."""

    script: Script
    mode: Mode
    calls: list[Call]
    # How many lines had been read whole before each call.
    lines: list[int]
    answers: list[bytes]
    states: list[Files]

    @cached_property
    def wrote(self) -> bytes:
        return b"".join(self.answers)

    def calls_of(self, line: int) -> list[Call]:
        """The calls of files that are made for a line."""
        return [call for call, count in zip(self.calls, self.lines) if count - 1 == line and is_of_file(call)]

    def written_before(self, number: int) -> int:
        """How many bytes of answers had been written before a call."""
        return sum(max(0, call.result) for call in self.calls[:number] if call.name == "write" and call.stream == 1)

    def whole_answers(self, wrote: bytes) -> int:
        """How many lines have their answers in this."""
        ends = accumulate(map(len, self.answers))
        return sum(end <= len(wrote) for end in ends)

    def can_befall(self, number: int, fault: Fault) -> bool:
        """What is typed is given line by line already, and what a read leaves of a line would be lost."""
        return self.mode is not Mode.TYPED or fault.count is None or self.calls[number].stream != 0

    def describe(self, number: int) -> str:
        """A call, with the line in whose course it is made."""
        call, line = self.calls[number], self.lines[number] - 1
        about = "a file" if call.stream is None else ("input", "output", "errors")[call.stream]
        return f"{call.name} of {about}, of {call.result}, in `{self.script.lines[line][:60] if 0 <= line else ''}`"


def is_of_file(call: Call) -> bool:
    return call.stream is None and call.name != EXIT


def lines_read(script: Script, calls: list[Call]) -> list[int]:
    """How many lines had been read whole before each call."""
    text, given, found = text_of(script), 0, []
    for call in calls:
        found.append(text.count(b"\n", 0, given))
        given += max(0, call.result) if call.name == "read" and call.stream == 0 else 0
    return found


class Player:
    """Plays scripts, and remembers what they come to where nothing fails."""

    def __init__(self, program: str, room: Path) -> None:
        self.program, self.room, self.runs = program, room, 0
        self._ended: dict[tuple[object, ...], Ended] = {}

    def forget(self) -> None:
        """Lets go of the files that runs have left: a large process takes long to start another one."""
        self._ended.clear()

    @contextmanager
    def folder(self, files: Files) -> Iterator[Path]:
        made = Path(tempfile.mkdtemp(dir=self.room))
        try:
            lay(files, made)
            yield made
        finally:
            shutil.rmtree(made)

    @contextmanager
    def begun(self, script: Script, mode: Mode, folder: Path) -> Iterator[Run]:
        """A run that is held at its first call."""
        self.runs += 1
        with in_time():
            run = Run(self.program, script, mode, folder)
            try:
                yield run
            finally:
                run.close()

    def answers(self, script: Script, ended: Ended) -> list[bytes]:
        """What each line is answered in a run that ended as it is to."""
        found = answers_in(script.lines, script.height, ended.wrote)
        if ended.status != 0 or ended.complained or found is None:
            raise Difference(f"where nothing fails it ended with {ended.status}, after {ended.wrote[-200:]!r}")
        return ["".join(f"{line}\n" for line in answer).encode("latin-1") for answer in found]

    def plain(self, script: Script) -> Plain:
        """The script, typed, where nothing fails. Whenever a line is asked for the files are looked at."""
        states: dict[int, Files] = {}
        with self.folder(script.files) as folder, self.begun(script, Mode.TYPED, folder) as run:
            while run.traced.at:
                if run.traced.at.stream == 0 and run.traced.at.name == "read":
                    states[run.traced.number] = files_below(folder)
                run.traced.note()
            ended = run.ended()
        lines = lines_read(script, run.traced.made)
        by_lines = {lines[number]: state for number, state in states.items()}
        after = [by_lines[count] for count in range(len(script.lines) + 1)]
        return Plain(script, Mode.TYPED, run.traced.made, lines, self.answers(script, ended), after)

    def noted(self, script: Script) -> tuple[list[Call], Ended]:
        """The calls of a script that is given in a file, and how it ends."""
        with self.folder(script.files) as folder, self.begun(script, Mode.AT_HAND, folder) as run:
            while run.traced.note():
                pass
            return run.traced.made, run.ended()

    def at_hand(self, typed: Plain) -> Plain:
        """The same script in a file. Which line a call of a file is made for is known from the script as it was typed."""
        script = typed.script
        calls, ended = self.noted(script)
        of_files = [(call, count) for call, count in zip(typed.calls, typed.lines) if is_of_file(call)]
        if [call for call in calls if is_of_file(call)] != [call for call, _ in of_files]:
            raise Difference("given in a file it makes other calls of its files than typed")
        if (ended.wrote, ended.files, ended.status) != (typed.wrote, typed.states[-1], 0):
            raise Difference("given in a file it is answered in another way than typed")
        counts = iter(count for _, count in of_files)
        lines = [next(counts) if is_of_file(call) else read for call, read in zip(calls, lines_read(script, calls))]
        return replace(typed, mode=Mode.AT_HAND, calls=calls, lines=lines)

    def disturbed(self, plain: Plain, number: int, fault: Fault, removal: Fault | None = None) -> Ended:
        """A run in which one fault befalls a call, and another the removal that follows, if one does."""
        with self.folder(plain.script.files) as folder, self.begun(plain.script, plain.mode, folder) as run:
            run.traced.to(number)
            fault.befall(run.traced)
            while removal and run.traced.next():
                if run.traced.at and run.traced.at.name in REMOVALS:
                    removal.befall(run.traced)
                    break
            return run.ended()

    def ended(self, script: Script, lines: list[str], files: Files) -> Ended:
        """How such lines of a script end over such files, where nothing fails."""
        key = script.words, tuple(lines), tuple(sorted(files.items()))
        if key not in self._ended:
            part = Script(script.name, lines, script.words, files)
            with self.folder(files) as folder, self.begun(part, Mode.AT_HAND, folder) as run:
                self._ended[key] = run.ended()
        return self._ended[key]
