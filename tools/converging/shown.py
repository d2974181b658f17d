"""What a set of operations shows, from the sections "The tree and the order" and "What is shown" of docs/ORDER.md alone: slow and plain.

The order in which the operations come here says nothing."""
from __future__ import annotations

import itertools
from collections.abc import Iterable, Iterator, Sequence
from typing import NamedTuple, Union

from tools.packed.cursor import Cursor
from tools.packed.events import spelled
from tools.packed.messages import Cause, Delete, Insert, Name, Operation, Restore

# A stamp and a site.
Key = tuple[int, int]
Value = Union[bytes, int, bool]
FONT, COLOUR, OFFSET, HIDDEN = "font", "colour", "offset", "hidden"
ALL = 7


class Born(NamedTuple):
    """A character as it is inserted. Siblings compare by their keys."""

    key: Key
    name: Name
    byte: int
    looks: bytes


class Character(NamedTuple):
    """A character as it is shown."""

    name: Name
    byte: int
    font: bytes
    colour: int
    offset: int

    @property
    def looks(self) -> tuple[bytes, int, int]:
        return self.font, self.colour, self.offset


Tree = dict[Cause, list[Born]]
# The greatest key that offered a value to a register of a character, and that value.
Registers = dict[tuple[Name, str], tuple[Key, Value]]


def key_of(operation: Operation) -> Key:
    return operation.stamp, operation.site


def tree_of(operations: Iterable[Operation]) -> Tree:
    """The children of each character and of the root."""
    tree: Tree = {}
    for operation in operations:
        kind = operation.kind
        if isinstance(kind, Insert):
            parent = kind.cause
            for more, byte in enumerate(kind.data):
                name = Name(operation.site, kind.at + more)
                tree.setdefault(parent, []).append(Born(key_of(operation), name, byte, kind.looks))
                parent = name
    return tree


def in_order(tree: Tree) -> Iterator[Born]:
    """A character before what hangs below it, and siblings from the greatest key on, each with all that hangs below it."""
    left = sorted(tree.get(None, ()))
    while left:
        yield left[-1]
        left += sorted(tree.get(left.pop().name, ()))


def values_in(values: bytes, selection: int) -> Iterator[tuple[str, Value]]:
    cursor = Cursor(values)
    if selection & 1:
        yield FONT, cursor.take(cursor.byte())
    if selection & 2:
        yield COLOUR, cursor.byte()
    if selection & 4:
        yield OFFSET, int.from_bytes(cursor.take(1), "big", signed=True)


def offered(operation: Operation) -> list[tuple[str, Value]]:
    """What an operation offers to the registers of the characters that it names."""
    kind = operation.kind
    if isinstance(kind, Insert):
        return []
    if isinstance(kind, (Delete, Restore)):
        return [(HIDDEN, isinstance(kind, Delete))]
    return [*values_in(kind.values[1:], kind.values[0])]


def registers_of(operations: Iterable[Operation]) -> Registers:
    """What was offered to characters by others than their Inserts, whose keys are smaller."""
    registers: Registers = {}
    for operation in operations:
        key = key_of(operation)
        for register, value in offered(operation):
            for name in named(operation):
                if (name, register) not in registers or registers[name, register][0] < key:
                    registers[name, register] = key, value
    return registers


def named(operation: Operation) -> Iterator[Name]:
    if not isinstance(operation.kind, Insert):
        for each in operation.kind.ranges:
            yield from (Name(each.site, at) for at in range(each.at, each.end))


def shown(operations: Sequence[Operation]) -> list[Character]:
    """The characters that are shown, in their order."""
    registers = registers_of(operations)
    found = []
    for born in in_order(tree_of(operations)):
        values = {register: registers.get((born.name, register), (born.key, value))[1]
                  for register, value in [*values_in(born.looks, ALL), (HIDDEN, False)]}
        if not values[HIDDEN]:
            font, colour, offset = values[FONT], values[COLOUR], values[OFFSET]
            assert isinstance(font, bytes) and isinstance(colour, int) and isinstance(offset, int)
            found.append(Character(born.name, born.byte, font, colour, offset))
    return found


# What queries are to be answered.


def text_of(characters: Sequence[Character]) -> Iterator[str]:
    data = bytes(each.byte for each in characters)
    yield f"text {len(data)} {spelled(data)}" if data else "text 0"


def runs_of(characters: Sequence[Character]) -> Iterator[str]:
    for (font, colour, offset), some in itertools.groupby(characters, lambda each: each.looks):
        yield f"run {font.decode()} {colour} {offset} {sum(1 for _ in some)}"
    yield "ok"


def names_of(characters: Sequence[Character], first: int = 0) -> Iterator[str]:
    """The first one has this position. Of names that follow one another, the offset less the position stays."""
    numbered = enumerate((each.name for each in characters), first)
    for (site, less), some in itertools.groupby(numbered, lambda each: (each[1].site, each[1].offset - each[0])):
        begin, *more = (pos for pos, _ in some)
        yield f"name {begin} {site} {begin + less} {1 + len(more)}"
    yield "ok"
