"""Messages in which one byte is another, in all ways, and what messages begin with: the program refuses those that spell no operation,
and no others."""
from __future__ import annotations

from collections.abc import Iterator

from tools.packed.cursor import Refused
from tools.packed.messages import (
    ChangeLooks,
    Delete,
    Insert,
    Kind,
    Name,
    Operation,
    Range,
    Restore,
    read_message,
    spelled_message,
)
from tools.packed.packed import DEFAULT_LOOKS
from tools.packed.runs import Fault, Program, Tally

MALFORMED = "refused 1"
TEXT, SITE = 1, 9
# The kinds of operations, at their least, at their greatest numbers, and in between.
KINDS: tuple[Kind, ...] = (
    Insert(None, 0, DEFAULT_LOOKS, b"Oberon"),
    Insert(Name(1, 0), 0, b"\x1fA23456789.123456789.123456789.1\x0f\x80", b"X"),
    Insert(Name(65535, 2**24 - 1), 2**24 - 2, b"\x01a\x00\x7f", b"\x00\xff"),
    Delete((Range(1, 0, 1),)),
    Delete((Range(1, 3, 2), Range(1, 6, 1), Range(2, 0, 2**24))),
    Restore((Range(1, 1, 1), Range(65535, 2**24 - 1, 1))),
    ChangeLooks(b"\x02\x07", (Range(1, 0, 1),)),
    ChangeLooks(b"\x07\x10Syntax12.Scn.Fnt\x0f\xfd", (Range(1, 3, 2), Range(2, 0, 1))),
    ChangeLooks(b"\x05\x01Z\x7f", (Range(3, 0, 1),)),
)


def others(message: bytes) -> Iterator[bytes]:
    """The message, what it begins with, more than it, and it with one byte that is another."""
    yield message
    yield from (message[:length] for length in range(1, len(message)))
    yield from (message + bytes([byte]) for byte in (0, 1, 255))
    for at in range(len(message)):
        yield from (message[:at] + bytes([byte]) + message[at + 1 :] for byte in range(256) if byte != message[at])


def is_message(data: bytes) -> bool:
    try:
        return spelled_message(read_message(data)) == data
    except Refused:
        return False


def compare(runs: Program, tally: Tally) -> None:
    for number, kind in enumerate(KINDS, 1):
        given = [*others(spelled_message(Operation(TEXT, SITE, number, 2**40 + number, kind)))]
        wrote, _ = runs.play([f"1 take {TEXT} {data.hex()}" for data in given], {})
        answers = wrote.decode().splitlines()
        for data, answer in zip(given, answers, strict=True):
            if is_message(data) != (answer != MALFORMED):
                raise Fault(f"the message {data.hex()} is answered {answer!r}")
        tally.answers["changed messages"] += len(given)
        tally.answers["changed messages that are none"] += answers.count(MALFORMED)


def play(runs: Program, tally: Tally) -> str:
    """What is wrong; nothing where all is well."""
    try:
        compare(runs, tally)
    except Fault as fault:
        return str(fault)
    return ""
