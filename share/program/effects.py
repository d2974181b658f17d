"""Tells what operations change in the text: the program is asked where the characters that they name are shown, once before they
are handed in and once after it."""
import re
from collections.abc import Iterable, Iterator
from typing import NamedTuple

from share.format.operation import DELETE, RESTORE, Operation
from share.program.process import characters
from share.text.change import Change
from share.text.errors import Trouble
from share.text.names import Names, united, without


class Stretch(NamedTuple):
    """Names that are shown one after the other: the first one's offset and its position, and their bytes."""

    at: int
    position: int
    data: bytes


class Named(NamedTuple):
    """The names of the characters that operations hide or show again and that were there before these; and of those that they
    insert."""

    old: list[Names]
    new: list[Names]

    @classmethod
    def by(cls, operations: Iterable[Operation]) -> "Named":
        """What operations name."""
        old, new = list[Names](), list[Names]()
        for one in operations:
            if one.data:
                new.append(Names(one.site, one.at, len(one.data)))
            elif one.kind in (DELETE, RESTORE):
                old += one.mentions
        new = united(new)
        return cls(without(united(old), new), new)

    def many(self) -> int:
        """The number of these characters."""
        return sum(one.length for some in self for one in some)

    def told(self, earlier: list[list[Stretch]], later: list[list[Stretch]]) -> list[Change]:
        """What changed, by where the old ones were shown before, and where all are since."""
        return changes_between(self.old + self.new, earlier + [[] for _ in self.new], later)


def stretches(answer: list[bytes]) -> list[Stretch]:
    """Where an answer to `where` says that names are shown."""
    *lines, end = answer
    if end != b"ok":
        raise Trouble(f"The program was asked where characters are shown and answered {end[:60]!r}. End "
                      "other programs and open the note again.")
    words = [line.split(b" ", 4) for line in lines]
    return [Stretch(int(at), int(position), characters(printed, int(length)))
            for _, at, position, length, printed in words]


def changes_between(names: list[Names], earlier: list[list[Stretch]], later: list[list[Stretch]]) -> list[Change]:
    """What went from a text and what came to it, each as a change of the text that those before it leave."""
    both = [*zip(names, earlier, later)]
    went = sorted(part for one, was, now in both for part in _only(one, was, now))
    came = sorted(part for one, was, now in both for part in _only(one, now, was))
    # What goes was shown after all that goes before it; what comes finds all that in place.
    changes, gone = [], 0
    for begin, data, of in went:
        changes.append(Change(begin - gone, begin - gone + len(data), b"", of))
        gone += len(data)
    return changes + [Change(begin, begin, data, of) for begin, data, of in came]


def _only(names: Names, some: list[Stretch], others: list[Stretch]) -> Iterator[tuple[int, bytes, Names]]:
    """Where the names are shown that are in some stretches and not in others, their bytes, and which they are."""
    of_others = bytearray(names.length)
    for at, _, data in others:
        of_others[at - names.at:at - names.at + len(data)] = b"\1" * len(data)
    for at, position, data in some:
        for part in re.finditer(b"\0+", of_others[at - names.at:at - names.at + len(data)]):
            yield (position + part.start(), data[part.start():part.end()],
                   Names(names.site, at + part.start(), part.end() - part.start()))
