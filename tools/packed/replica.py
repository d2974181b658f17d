"""What a site's copy of a text answers where operations are handed in: the section "Taking a message in" of docs/ORDER.md, by lists."""
from __future__ import annotations

from enum import Enum
from typing import NamedTuple, Union

from tools.packed.chunks import read_chunk
from tools.packed.cursor import Refused
from tools.packed.files import mentioned
from tools.packed.messages import Insert, Operation, Range, read_message

MOST_WAITING = 64


class Refusal(Enum):
    """Why an operation isn't handed in, or bytes aren't read."""

    MALFORMED = 1
    WRONG_TEXT = 2
    CONFLICT = 3
    BAD_OFFSET = 4
    BAD_STAMP = 5
    ROOM_FULL = 6

    def __str__(self) -> str:
        return f"refused {self.value}"


class Taken(NamedTuple):
    """It was taken in, and the room was drained."""

    drained: int
    dropped: int


class Known(Enum):
    """It is here already."""

    HELD = "repeat"
    WAITING = "waits"


class Waits(Enum):
    """It wasn't here, and waits now."""

    NOW = "waits"


Answer = Union[Taken, Known, Waits, Refusal]


class Replica:
    """The operations that were taken in, in this order, and those that wait."""

    def __init__(self, text: int) -> None:
        self.text = text
        self.held: list[Operation] = []
        self.room: list[Operation] = []
        # Of each site: its operations, and the stamps of the Inserts of its characters.
        self.sites: dict[int, list[Operation]] = {}
        self.characters: dict[int, list[int]] = {}

    def held_as(self, operation: Operation) -> Operation | None:
        """The operation that is held under its identity."""
        its = self.sites.get(operation.site, [])
        return its[operation.seq - 1] if operation.seq <= len(its) else None

    def waiting_as(self, operation: Operation) -> Operation | None:
        identity = operation.site, operation.seq
        return next((each for each in self.room if (each.site, each.seq) == identity), None)

    def is_here(self, names: Range) -> bool:
        return names.end <= len(self.characters.get(names.site, []))

    def greatest_stamp(self, operation: Operation) -> int:
        """That of its causes, which are all here."""
        before = [each.stamp for each in self.sites.get(operation.site, [])[-1:]]
        return max([0, *before, *(max(self.characters[names.site][names.at : names.end]) for names in mentioned(operation))])

    def verdict(self, operation: Operation) -> Refusal | Waits | None:
        """Why an operation that isn't held isn't taken in: it waits, or it is refused; nothing where it is ready."""
        length = len(self.characters.get(operation.site, []))
        if operation.seq > len(self.sites.get(operation.site, [])) + 1:
            return Waits.NOW
        if isinstance(operation.kind, Insert) and operation.kind.at != length:
            return Refusal.BAD_OFFSET
        if any(names.site == operation.site and names.end > length for names in mentioned(operation)):
            return Refusal.BAD_OFFSET
        if not all(map(self.is_here, mentioned(operation))):
            return Waits.NOW
        return None if self.greatest_stamp(operation) < operation.stamp else Refusal.BAD_STAMP

    def hold(self, operation: Operation) -> None:
        self.held.append(operation)
        self.sites.setdefault(operation.site, []).append(operation)
        if isinstance(operation.kind, Insert):
            self.characters.setdefault(operation.site, []).extend([operation.stamp] * len(operation.kind.data))

    def drain(self) -> Taken:
        """Lets out of the room what needn't wait, the first of it again and again."""
        drained = dropped = 0
        while leaves := next((each for each in self.room if self.held_as(each) or self.verdict(each) is not Waits.NOW), None):
            self.room.remove(leaves)
            if self.held_as(leaves) or self.verdict(leaves):
                dropped += 1
            else:
                self.hold(leaves)
                drained += 1
        return Taken(drained, dropped)

    def hand_in(self, operation: Operation) -> Answer:
        """Hands in an operation on this text."""
        for here, known in ((self.held_as(operation), Known.HELD), (self.waiting_as(operation), Known.WAITING)):
            if here is not None:
                return known if here == operation else Refusal.CONFLICT
        verdict = self.verdict(operation)
        if verdict is None:
            self.hold(operation)
            return self.drain()
        if verdict is Waits.NOW and len(self.room) == MOST_WAITING:
            return Refusal.ROOM_FULL
        if verdict is Waits.NOW:
            self.room.append(operation)
        return verdict

    # What the events are answered.

    def take(self, message: bytes) -> str:
        try:
            operation = read_message(message)
        except Refused:
            return str(Refusal.MALFORMED)
        answer = Refusal.WRONG_TEXT if operation.text != self.text else self.hand_in(operation)
        if isinstance(answer, Taken):
            return f"taken {answer.drained} {answer.dropped}"
        return str(answer) if isinstance(answer, Refusal) else str(answer.value)

    def unpack(self, data: bytes) -> str:
        try:
            chunk = read_chunk(data)
        except Refused:
            return str(Refusal.MALFORMED)
        if chunk.text != self.text:
            return str(Refusal.WRONG_TEXT)
        taken = known = waiting = 0
        for done, operation in enumerate(chunk.operations):
            answer = self.hand_in(operation)
            if isinstance(answer, Refusal):
                return f"partial {done} {answer.value}" if done else str(answer)
            if isinstance(answer, Taken):
                taken += 1 + answer.drained
            known += isinstance(answer, Known)
            waiting += answer is Waits.NOW
        return f"unpacked {taken} {known} {waiting}"
