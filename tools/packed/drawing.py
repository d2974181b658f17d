"""Lists of messages drawn at random, each the next of its site, with the values that are hard to read among them."""
from __future__ import annotations

import random
from collections.abc import Iterator

from tools.packed.messages import (
    MAX_FILE,
    MAX_INSERT,
    MAX_RANGES,
    MAX_SITE,
    MAX_STAMP,
    Cause,
    ChangeLooks,
    Delete,
    Insert,
    Kind,
    Name,
    Operation,
    Range,
    Ranges,
    Restore,
    spelled_message,
)
from tools.packed.packed import CODES, DEFAULT_LOOKS, Expected, Known

SITES = (1, 2, 127, 128, 129, 255, 256, 16383, 16384, MAX_SITE)
LOOKS = (DEFAULT_LOOKS, b"\x01A\x00\x00", b"\x1f" + b"z." * 15 + b"9" + b"\x0f\x80", b"\x08Mono.Fnt\x07\x7f")
# Selections with their values.
LONGEST = b"\x07\x1f" + b"M" * 31 + b"\x00\x00"
VALUES = (b"\x01\x01A", b"\x02\x0f", b"\x03\x02B.\x00", b"\x04\xff", b"\x05\x01c\x80", b"\x06\x01\x01", LONGEST)
STRETCHES = (0, 1, 2, 3, 126, 127, 128, 129, 16383, 16384)
TEXTS = (1, 2, 256, 65535)


class Draw:
    """What is drawn, for operations that are expected so."""

    def __init__(self, seed: str) -> None:
        self.rng = random.Random(seed)
        self.known = Known()

    def offset(self) -> int:
        return self.rng.choice([*STRETCHES, self.rng.randrange(MAX_FILE), MAX_FILE - 1, MAX_FILE - 2])

    def name(self, expected: Expected) -> Name:
        """A name, often one close to the caret."""
        if expected.caret is None or self.rng.random() < 0.4:
            return Name(self.rng.choice(SITES), self.offset())
        near = expected.caret.offset + self.rng.choice([0, 0, 0, 1, -1, 63, 64, -64, -65, 8191, -8193])
        return Name(expected.caret.site, min(max(near, 0), MAX_FILE - 1))

    def cause(self, site: int, expected: Expected) -> Cause:
        drawn = self.rng.choice([expected.caret, expected.caret, None, self.name(expected)])
        if drawn is None or drawn.site != site or drawn.offset < expected.at:
            return drawn
        return Name(site, expected.at - 1) if expected.at else None

    def data(self) -> bytes:
        length = self.rng.choice([1] * 8 + [2, 3, 128, 129, 130, 131, MAX_INSERT - 1, MAX_INSERT])
        return bytes(self.rng.choice([*CODES, 0, 9, 10, 13, 15, 97, 128, 255]) for _ in range(length))

    def ranges(self) -> Ranges:
        """Few ranges as a rule; some that leave one character between them, and some that end a file."""
        count = self.rng.choice([1] * 12 + [2, 3] * 6 + [127, 128, 129, MAX_RANGES - 1, MAX_RANGES])
        drawn: list[Range] = []
        for site in sorted(self.rng.sample(range(1, MAX_SITE + 1), self.rng.randint(1, min(count, 5)))):
            end = -1
            for _ in range(count):
                at = end + 1 + self.rng.choice(STRETCHES)
                length = 1 + self.rng.choice(STRETCHES)
                if at + length > MAX_FILE:
                    break
                drawn.append(Range(site, at, length))
                end = at + length
        return tuple(drawn[-count:]) if self.rng.random() < 0.9 else (*drawn[: count - 1], Range(MAX_SITE, MAX_FILE - 1, 1))

    def one(self, expected: Expected) -> Ranges:
        return (Range(*self.name(expected), 1),)

    def kind(self, site: int, expected: Expected) -> Kind:
        drawn = self.rng.randrange(10)
        if drawn < 5:
            looks = expected.looks if self.rng.random() < 0.7 else self.rng.choice(LOOKS)
            return Insert(self.cause(site, expected), expected.at, looks, self.data())
        if drawn < 8:
            return Delete(self.one(expected) if self.rng.random() < 0.7 else self.ranges())
        ranges = self.ranges() if self.rng.random() < 0.5 else self.one(expected)
        return Restore(ranges) if drawn == 8 else ChangeLooks(self.rng.choice(VALUES), ranges)

    def operation(self, text: int) -> Operation | None:
        """The next operation, of the site before it as a rule; none where the site drawn has made its last."""
        site = self.known.last if self.known.last and self.rng.random() < 0.6 else self.rng.choice(SITES)
        expected = self.known.expected(site)
        more = self.rng.choice([0] * 12 + [1, 127, 128, 2**32, 2**47, MAX_STAMP - expected.stamp])
        stamp = min(expected.stamp + max(more, 0), MAX_STAMP)
        if stamp < expected.stamp:
            return None
        return Operation(text, site, expected.seq, stamp, self.kind(site, expected))

    def operations(self, text: int, count: int) -> Iterator[Operation]:
        for _ in range(count):
            if operation := self.operation(text):
                self.known.take(operation)
                yield operation


def drawn_list(seed: int, count: int) -> tuple[int, list[bytes]]:
    """A text, and messages of it."""
    draw = Draw(f"packed {seed}")
    text = draw.rng.choice(TEXTS)
    return text, [spelled_message(operation) for operation in draw.operations(text, count)]


def changed(data: bytes, rng: random.Random) -> bytes:
    """The bytes with one other, one more or one less, or without their end."""
    at = rng.randrange(len(data))
    other = bytes([rng.choice([*CODES, 0, 15, 97, 127, 128, 255, data[at] ^ 1, data[at] ^ 128])])
    return rng.choice([data[:at] + other + data[at + 1 :], data[:at] + other + data[at:], data[:at] + data[at + 1 :], data[:at]])
