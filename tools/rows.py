"""The rows of rows/: scripts with their arguments and files, and with what they are to be answered."""
from __future__ import annotations

import hashlib
from dataclasses import dataclass

from tools import ROWS
from tools.running import SECONDS, Ended, Files, Stream, files_below, read


@dataclass(frozen=True)
class Row:
    """A case: what the program is given, and what it is to do."""

    name: str
    script: bytes
    words: tuple[bytes, ...]
    files: Files
    output: Stream
    errors: Stream
    status: int
    expected: bytes
    # The sum of the output, where that is too long to be kept; else empty.
    digest: str
    complaint: bytes
    files_after: Files


def names() -> list[str]:
    return sorted(path.name for path in ROWS.iterdir() if path.is_dir())


def files_made(listed: bytes) -> Files:
    """The files that a row has as one byte many times over."""
    made = {}
    for line in listed.decode().splitlines():
        name, byte, count = line.split()
        made[name] = bytes.fromhex(byte) * int(count)
    return made


def load(name: str) -> Row:
    folder = ROWS / name
    files = {**files_below(folder / "files"), **files_made(read(folder / "files-made"))}
    after = folder / "files-after"
    return Row(
        name=name,
        script=read(folder / "script"),
        words=tuple(read(folder / "args").splitlines()),
        files=files,
        output=Stream(read(folder / "output", b"read").decode().strip()),
        errors=Stream(read(folder / "error-output", b"read").decode().strip()),
        status=int(read(folder / "status", b"0")),
        expected=read(folder / "expected"),
        digest=read(folder / "expected-sha256").decode().strip(),
        complaint=read(folder / "complaint"),
        files_after=files_below(after) if after.is_dir() else files,
    )


def difference(what: str, wrote: bytes, wanted: bytes) -> list[str]:
    """Where two texts differ first, if they do."""
    if wrote == wanted:
        return []
    ours, theirs = wrote.split(b"\n"), wanted.split(b"\n")
    at = next((i for i, (a, b) in enumerate(zip(ours, theirs)) if a != b), min(len(ours), len(theirs)))
    here, there = (repr(lines[at][:100])[1:] if at < len(lines) else "nothing" for lines in (ours, theirs))
    return [f"line {at + 1} of {what} is {here}, and not {there}"]


def faults(row: Row, ended: Ended) -> list[str]:
    """What a run did in another way than the row has it."""
    if ended.status is None:
        return [f"it hadn't ended after {SECONDS} seconds"]
    found = [] if ended.status == row.status else [f"it ended with {ended.status}"]
    if not row.digest:
        found += difference("the output", ended.wrote, row.expected)
    elif hashlib.sha256(ended.wrote).hexdigest() != row.digest:
        found.append("the output has another sum")
    found += difference("standard error", ended.complained, row.complaint)
    if ended.files != row.files_after:
        found.append("other files are left")
    return found
