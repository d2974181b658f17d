"""What a script is to be answered, worked out from the definition after each event: slow and plain, for events of texts that none refuses.

`python3 -B -m tools.converging.answering < SCRIPT` prints the answers."""
from __future__ import annotations

import itertools
import re
import sys
from collections.abc import Callable, Iterable, Iterator, Sequence

from tools.converging.shown import Character, names_of, runs_of, shown, text_of
from tools.packed.chunks import pack
from tools.packed.events import spelled
from tools.packed.messages import (
    MAX_INSERT,
    Cause,
    ChangeLooks,
    Delete,
    Insert,
    Kind,
    Name,
    Operation,
    Range,
    Ranges,
    Restore,
    spelled_message,
)
from tools.packed.packed import DEFAULT_LOOKS
from tools.packed.replica import Replica

# A byte with its looks, as these are spelled.
Item = tuple[int, bytes]
SELECTED = {"font": 1, "colour": 2, "offset": 4}


def maximal(names: Iterable[Name]) -> Ranges:
    """The set of these names."""
    apart = itertools.groupby(enumerate(sorted(set(names))), lambda each: (each[1].site, each[1].offset - each[0]))
    stretches = ([name for _, name in some] for _, some in apart)
    return tuple(Range(*some[0], len(some)) for some in stretches)


def names_in(ranges: Iterable[Range]) -> list[Name]:
    return [Name(each.site, at) for each in ranges for at in range(each.at, each.end)]


def ranges_of(words: Sequence[str]) -> Ranges:
    numbers = [int(word) for word in words]
    return tuple(map(Range, numbers[::3], numbers[1::3], numbers[2::3]))


def fronts_of(words: Sequence[str]) -> dict[int, int]:
    return {int(site): int(seq) for site, seq in zip(words[::2], words[1::2])}


def bytes_of(word: str) -> bytes:
    """What a word of an event spells."""
    return re.sub(r"\\(..)", lambda digits: chr(int(digits[1], 16)), word).encode("latin-1")


def values_of(words: Sequence[str]) -> bytes:
    """A selection and its values, as a message has them."""
    given = dict(word.split("=") for word in words)
    values = b""
    if font := given.get("font", "").encode():
        values += bytes([len(font)]) + font
    values += b"".join(bytes([int(given[each]) & 0xFF]) for each in ("colour", "offset") if each in given)
    return bytes([sum(SELECTED[each] for each in given)]) + values


def item_of(each: Character) -> Item:
    return each.byte, bytes([len(each.font)]) + each.font + bytes([each.colour, each.offset & 0xFF])


class Copy(Replica):
    """A site's copy of a text, with what the site cut last from it."""

    def __init__(self, text: int, site: int) -> None:
        super().__init__(text)
        self.site = site
        self.last_items: list[Item] = []
        self.last_names: Ranges = ()

    def shown(self) -> list[Character]:
        return shown(self.held)

    # Edits, each of which gives its messages.

    def made(self, kind: Kind) -> bytes:
        """The message of the site's next operation."""
        stamp = max((each.stamp for each in self.held), default=0)
        operation = Operation(self.text, self.site, len(self.sites.get(self.site, [])) + 1, stamp + 1, kind)
        self.hold(operation)
        return spelled_message(operation)

    def insert(self, pos: int, items: Sequence[Item]) -> Iterator[bytes]:
        cause: Cause = self.shown()[pos - 1].name if pos else None
        for looks, some in itertools.groupby(items, lambda item: item[1]):
            data = bytes(byte for byte, _ in some)
            for begin in range(0, len(data), MAX_INSERT):
                at, part = len(self.characters.get(self.site, [])), data[begin : begin + MAX_INSERT]
                yield self.made(Insert(cause, at, looks, part))
                cause = Name(self.site, at + len(part) - 1)

    def type(self, pos: str, word: str = "") -> Iterator[bytes]:
        return self.insert(int(pos), [(byte, DEFAULT_LOOKS) for byte in bytes_of(word)])

    def cut(self, beg: str, end: str) -> Iterator[bytes]:
        if some := self.shown()[int(beg) : int(end)]:
            self.last_items, self.last_names = [*map(item_of, some)], maximal(each.name for each in some)
            yield self.made(Delete(self.last_names))

    def looks(self, beg: str, end: str, *values: str) -> Iterator[bytes]:
        if some := self.shown()[int(beg) : int(end)]:
            yield self.made(ChangeLooks(values_of(values), maximal(each.name for each in some)))

    def recall(self, pos: str) -> Iterator[bytes]:
        return self.insert(int(pos), self.last_items)

    def delete(self, *words: str) -> Iterator[bytes]:
        if here := {each.name for each in self.shown()} & {*names_in(ranges_of(words))}:
            yield self.made(Delete(maximal(here)))

    def restore(self, *words: str) -> Iterator[bytes]:
        """Of names those that are hidden; of what was cut last all, if any is."""
        names = names_in(ranges_of(words) or self.last_names)
        if hidden := {*names} - {each.name for each in self.shown()}:
            yield self.made(Restore(maximal(hidden if words else names)))

    # Other events.

    def merge(self, other: Copy) -> str:
        fresh = [each for each in other.held if not self.held_as(each)]
        for each in fresh:
            self.hold(each)
        return f"merged {len(fresh)}"

    def front(self) -> Iterator[str]:
        yield from (f"front {site} {len(its)}" for site, its in sorted(self.sites.items()))
        yield f"waiting {len(self.room)}"

    def names(self, beg: str, end: str) -> Iterator[str]:
        return names_of(self.shown()[int(beg) : int(end)], int(beg))

    def where(self, *words: str) -> Iterator[str]:
        (asked,) = ranges_of(words)
        places = {each.name: (pos, each.byte) for pos, each in enumerate(self.shown())}
        there = [(name.offset, *places[name]) for name in names_in([asked]) if name in places]
        for _, stretch in itertools.groupby(enumerate(there), lambda each: (each[1][0] - each[0], each[1][1] - each[0])):
            some = [each for _, each in stretch]
            at, pos, _ = some[0]
            yield f"shown {at} {pos} {len(some)} {spelled(bytes(byte for _, _, byte in some))}"
        yield "ok"

    def since(self, *words: str) -> Iterator[str]:
        fronts = fronts_of(words)
        yield from (f"message {spelled_message(each).hex()}" for each in self.held if each.seq > fronts.get(each.site, 0))
        yield "ok"

    def pack(self, *words: str) -> Iterator[str]:
        yield from (f"chunk {each.hex()}" for each in pack(self.text, self.held, fronts_of(words)))
        yield "ok"

    def past(self, *words: str) -> Iterator[str]:
        then, fronts = Replica(self.text), fronts_of(words)
        for each in self.held:
            if each.seq <= fronts.get(each.site, 0):
                then.hand_in(each)
        return text_of(shown(then.held))

    def settle(self) -> str:
        return "settled {} {}".format(*self.drain())


class Copies(dict[tuple[int, int], Copy]):
    """The copies of all sites and texts."""

    def __missing__(self, key: tuple[int, int]) -> Copy:
        site, text = key
        return self.setdefault(key, Copy(text, site))


class Answering:
    """The sites of a run, and what was sent in it."""

    def __init__(self) -> None:
        self.copies = Copies()
        self.sent: list[bytes] = []

    def send(self, messages: Iterable[bytes]) -> Iterator[str]:
        for message in messages:
            self.sent.append(message)
            yield f"send m{len(self.sent)} {message.hex()}"
        yield "ok"

    def message(self, word: str) -> bytes:
        return self.sent[int(word[1:]) - 1] if word.startswith("m") else bytes.fromhex(word)

    def answers(self, event: str) -> Iterable[str]:
        """The lines of the answer of an event."""
        first, verb, text, *words = event.split(" ", 4 if event.split(" ", 2)[1] == "type" else -1)
        site, copy = int(first), self.copies[int(first), int(text)]
        edits: dict[str, Callable[..., Iterable[bytes]]] = {
            "type": copy.type,
            "cut": copy.cut,
            "looks": copy.looks,
            "recall": copy.recall,
            "delete": copy.delete,
            "restore": copy.restore,
        }
        asked: dict[str, Callable[..., Iterable[str]]] = {
            "front": copy.front,
            "names": copy.names,
            "where": copy.where,
            "since": copy.since,
            "pack": copy.pack,
            "past": copy.past,
        }
        if verb in edits:
            return self.send(edits[verb](*words))
        if verb in asked:
            return asked[verb](*words)
        if verb == "save":
            beg, end, other, pos = map(int, words)
            return self.send(self.copies[site, other].insert(pos, [*map(item_of, copy.shown()[beg:end])]))
        if verb == "take":
            return [copy.take(self.message(words[0]))]
        if verb == "unpack":
            return [copy.unpack(bytes.fromhex(words[0]))]
        if verb == "merge":
            return [copy.merge(self.copies[int(words[0]), int(text)])]
        return [copy.settle()] if verb == "settle" else {"text": text_of, "runs": runs_of}[verb](copy.shown())


def answers(script: Iterable[str]) -> Iterator[str]:
    """The lines of all answers to the lines of a script."""
    sites = Answering()
    for line in script:
        if line and not line.startswith("#"):
            yield from sites.answers(line)


if __name__ == "__main__":
    print("\n".join(answers(sys.stdin.read().splitlines())))
