"""One run of a program: what it is given, and what it leaves."""
from __future__ import annotations

import os
import subprocess
import tempfile
from collections.abc import Mapping, Sequence
from contextlib import AbstractContextManager, nullcontext
from dataclasses import dataclass
from enum import Enum
from pathlib import Path
from typing import Any, Union

# After this long a run is ended, on however busy a machine.
SECONDS = 600
# Here a sync costs nothing.
IN_MEMORY = Path("/dev/shm")

# The bytes of files, by their paths below a folder.
Files = dict[str, bytes]
Word = Union[str, bytes]


class Stream(Enum):
    """What becomes of a stream that the program writes to."""

    READ = "read"
    CLOSED = "closed"
    UNREAD = "unread"


@dataclass(frozen=True)
class Ended:
    """How a run ended, what it wrote to standard output and standard error, and which files it left."""

    status: int | None
    wrote: bytes
    complained: bytes
    files: Files


def read(path: Path, absent: bytes = b"") -> bytes:
    return path.read_bytes() if path.is_file() else absent


def files_below(folder: Path) -> Files:
    return {str(path.relative_to(folder)): path.read_bytes() for path in sorted(folder.rglob("*")) if path.is_file()}


def lay(files: Files, folder: Path) -> None:
    """Writes files into a folder, which is made where it isn't there."""
    folder.mkdir(exist_ok=True)
    for name, content in files.items():
        path = folder / name
        path.parent.mkdir(parents=True, exist_ok=True)
        path.write_bytes(content)


def folder_in_memory(prefix: str) -> tempfile.TemporaryDirectory[str]:
    """A folder in memory where that can be had, else on disk."""
    return tempfile.TemporaryDirectory(prefix=prefix, dir=IN_MEMORY if os.access(IN_MEMORY, os.W_OK) else None)


def unread_pipe() -> int:
    """A pipe's end to write to, of which the other end is closed."""
    reader, writer = os.pipe()
    os.close(reader)
    return writer


def closing(words: Sequence[Word], output: Stream, errors: Stream) -> list[Word]:
    """The words of a command by which the program begins with these streams closed."""
    closed = " >&-" * (output is Stream.CLOSED) + " 2>&-" * (errors is Stream.CLOSED)
    return ["sh", "-c", f'exec "$@"{closed}', "sh", *words] if closed else list(words)


def run(
    words: Sequence[Word],
    script: bytes,
    folder: Path,
    *,
    output: Stream = Stream.READ,
    errors: Stream = Stream.READ,
    env: Mapping[str, str] | None = None,
    starting: AbstractContextManager[Any] = nullcontext(),
    seconds: float = SECONDS,
) -> Ended:
    """Runs a program in a folder. It has no status where it was stopped after some time."""
    pipes = [unread_pipe() if it is Stream.UNREAD else subprocess.PIPE for it in (output, errors)]
    try:
        with starting:
            program = subprocess.Popen(
                closing(words, output, errors), cwd=folder, env=env, stdin=subprocess.PIPE, stdout=pipes[0], stderr=pipes[1]
            )
    finally:
        for pipe in pipes:
            if pipe != subprocess.PIPE:
                os.close(pipe)
    with program:
        try:
            wrote, complained = program.communicate(script, seconds)
        except subprocess.TimeoutExpired:
            program.kill()
            return Ended(None, b"", b"", {})
    return Ended(program.returncode, wrote or b"", complained or b"", files_below(folder))
