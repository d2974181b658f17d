"""Changes of a text as one value, counted in an editor's units: what is kept, deleted and inserted, from the front
on. Two that were made of the same text are transformed over one another."""
from collections.abc import Iterable, Iterator, Mapping, Sequence
from typing import NamedTuple

from share.text.units import Units

# A number above 0 keeps this many units, one below 0 deletes them; bytes, in the units' encoding, come in.
OpPart = int | bytes
# A part after the last one is kept. What is inserted stands before what is deleted in the same place, so that what
# does the same is equal.
Op = list[OpPart]
# What is between two positions gives way to some units.
Replacement = tuple[int, int, bytes]
NOTHING: Op = []
ENDLESS = 1 << 60


class Met(NamedTuple):
    """What another op brings to the place of an insertion: that place in the text of both, and where it begins and ends in
    the text after the other op."""

    place: int
    begin: int
    end: int


class _Maker:
    """Makes an op of parts in their order."""

    def __init__(self) -> None:
        self.op: Op = []

    def keep(self, count: int) -> None:
        """Keeps units."""
        if count:
            last = self.op[-1] if self.op else b""
            if isinstance(last, int) and last > 0:
                self.op[-1] = last + count
            else:
                self.op.append(count)

    def delete(self, count: int) -> None:
        """Deletes units."""
        if count:
            last = self.op[-1] if self.op else b""
            if isinstance(last, int) and last < 0:
                self.op[-1] = last - count
            else:
                self.op.append(-count)

    def insert(self, data: bytes) -> None:
        """Inserts units, before what was deleted in the same place."""
        if not data:
            return
        last = self.op[-1] if self.op else b""
        deleted = self.op.pop() if isinstance(last, int) and last < 0 else None
        if self.op and isinstance(before := self.op[-1], bytes):
            self.op[-1] = before + data
        else:
            self.op.append(data)
        if deleted is not None:
            self.op.append(deleted)

    def done(self) -> Op:
        """The op, without what it keeps at the end."""
        if self.op and isinstance(last := self.op[-1], int) and last > 0:
            self.op.pop()
        return self.op


class _Reader:
    """Takes an op part by part, or as much of one as is wanted."""

    def __init__(self, op: Op, size: int):
        self._op, self._size, self._place, self._taken = op, size, 0, 0

    def has_more(self) -> bool:
        """Whether a part is left."""
        return self._place < len(self._op)

    def next(self) -> OpPart:
        """What is next; all that is after the last part is kept."""
        return self._op[self._place] if self.has_more() else ENDLESS

    def left(self) -> int:
        """The units that are left of it."""
        part = self.next()
        return (len(part) // self._size if isinstance(part, bytes) else abs(part)) - self._taken

    def replaces(self) -> bool:
        """Whether something is deleted directly behind what is next."""
        after = self._op[self._place + 1] if self._place + 1 < len(self._op) else 0
        return isinstance(after, int) and after < 0

    def take(self, count: int) -> bytes:
        """Takes this many units of it; what they insert."""
        part, begin = self.next(), self._taken
        whole = count == self.left()
        if self.has_more():
            self._taken = 0 if whole else begin + count
            self._place += whole
        return part[self._size * begin:self._size * (begin + count)] if isinstance(part, bytes) else b""


def composed(first: Op, second: Op, units: Units) -> Op:
    """What does what the one does and then the other."""
    if not first or not second:
        return first or second
    made, one, other = _Maker(), _Reader(first, units.size), _Reader(second, units.size)
    while one.has_more() or other.has_more():
        now, then = one.next(), other.next()
        if isinstance(now, int) and now < 0:
            made.delete(one.left())
            one.take(one.left())
        elif isinstance(then, bytes):
            made.insert(other.take(other.left()))
        else:
            count = min(one.left(), other.left())
            data = one.take(count)
            other.take(count)
            if then > 0:
                made.insert(data) if isinstance(now, bytes) else made.keep(count)
            elif not isinstance(now, bytes):
                made.delete(count)
    return made.done()


def transformed(first: Op, second: Op, units: Units, behind: Mapping[int, int] | None = None) -> tuple[Op, Op]:
    """Two ops of one text, the first as it is after the second, and the second as it is after the first. In one
    place what the first inserts stands before what the second does, but behind so many units of it as are given for
    that place; where it takes something's place, behind all of it."""
    if not first or not second:
        return first, second
    made_first, made_second, left = _Maker(), _Maker(), dict(behind or {})
    one, other, at = _Reader(first, units.size), _Reader(second, units.size), 0
    while one.has_more() or other.has_more():
        now, then = one.next(), other.next()
        if isinstance(now, bytes) and isinstance(then, bytes) and (one.replaces() or left.get(at)):
            count = other.left() if one.replaces() else min(left[at], other.left())
            left[at] = left.get(at, 0) - count
            made_first.keep(count)
            made_second.insert(other.take(count))
        elif isinstance(now, bytes):
            made_second.keep(one.left())
            made_first.insert(one.take(one.left()))
        elif isinstance(then, bytes):
            made_first.keep(other.left())
            made_second.insert(other.take(other.left()))
        else:
            count = min(one.left(), other.left())
            one.take(count)
            other.take(count)
            at += count
            if now > 0:
                made_second.keep(count) if then > 0 else made_second.delete(count)
            if then > 0:
                made_first.keep(count) if now > 0 else made_first.delete(count)
    return made_first.done(), made_second.done()


def moved(position: int, op: Op, units: Units, behind: bool = False) -> int:
    """Where a position is after an op: before or behind what comes in just there."""
    left, shift = position, 0
    for part in op:
        if isinstance(part, bytes):
            if left < 0 or left == 0 and not behind:
                break
            shift += units.count(part)
        elif part > 0:
            left -= part
        else:
            shift -= min(left, -part)
            left += part
        if left < 0:
            break
    return position + shift


def kept_between(begin: int, end: int, op: Op, units: Units) -> list[tuple[int, int]]:
    """Where what is between two positions is after an op, as far as that keeps it, and without what comes in there: stretches that
    rise and don't meet."""
    found, at, now = list[tuple[int, int]](), 0, 0
    for part in (*op, ENDLESS):
        if isinstance(part, bytes):
            now += units.count(part)
            continue
        first, last = max(begin, at), min(end, at + abs(part))
        if part > 0 and first < last:
            before = found.pop() if found and found[-1][1] == now + first - at else None
            found.append((before[0] if before else now + first - at, now + last - at))
        at, now = at + abs(part), now + max(part, 0)
        if at >= end:
            break
    return found


def met_by(first: Op, second: Op, units: Units) -> list[Met]:
    """What the insertions of an op meet at their places, of another op of the same text; not those that take something's place."""
    brought, shift = dict[int, tuple[int, int]](), 0
    for begin, end, data in in_text(second, units):
        if data:
            brought[begin] = begin + shift, begin + shift + units.count(data)
        shift += units.count(data) - (end - begin)
    return [Met(begin, *brought[begin]) for begin, end, _ in in_text(first, units) if begin == end and begin in brought]


def growth(op: Op, units: Units) -> int:
    """By how many units a text grows."""
    return sum(units.count(part) if isinstance(part, bytes) else min(part, 0) for part in op)


def of_changes(changes: Iterable[Replacement], units: Units) -> Op:
    """The op of changes, each in the text that those before it leave."""
    return all_composed([_of_run(run, falls, units) for run, falls in _runs(changes, units)], units)


def of_change(begin: int, end: int, data: bytes) -> Op:
    """The op of one change."""
    parts: Op = [begin, data, begin - end]
    return [part for part in parts if part] if data or begin < end else []


def all_composed(ops: list[Op], units: Units) -> Op:
    """What does what some ops do, one after the other."""
    while len(ops) > 1:
        # Two by two, since to compose each with all before it would take far longer.
        ops = [composed(ops[place], ops[place + 1], units) if place + 1 < len(ops) else ops[place]
               for place in range(0, len(ops), 2)]
    return ops[0] if ops else NOTHING


def _runs(changes: Iterable[Replacement], units: Units) -> Iterator[tuple[list[Replacement], bool]]:
    """Changes in parts, in each of which they rise, or fall."""
    run: list[Replacement] = []
    rises: bool | None = None
    for one in changes:
        if run:
            begin, _, data = run[-1]
            goes_on = one[0] >= begin + units.count(data)
            if not (goes_on or one[1] <= begin) or rises not in (None, goes_on):
                yield run, rises is False
                run, rises = [], None
            else:
                rises = goes_on
        run.append(one)
    if run:
        yield run, rises is False


def _of_run(run: list[Replacement], falls: bool, units: Units) -> Op:
    """The op of changes that rise, or fall."""
    made, at = _Maker(), 0
    for begin, end, data in reversed(run) if falls else run:
        made.keep(begin - at)
        made.insert(data)
        made.delete(end - begin)
        # Where they rise those before have moved those after.
        at = end if falls else begin + units.count(data)
    return made.done()


def in_text(op: Op, units: Units) -> list[Replacement]:
    """The replacements of an op, all by the text before it, from the front on."""
    found: list[Replacement] = []
    at, data = 0, b""
    for part in [*op, 1]:
        if isinstance(part, bytes):
            data = part
            continue
        if part < 0:
            found.append((at, at - part, data))
            at -= part
        else:
            if data:
                found.append((at, at, data))
            at += part
        data = b""
    return found


def in_turn(op: Op, units: Units) -> Sequence[Replacement]:
    """The replacements of an op, each in the text that those before it leave."""
    found, shift = [], 0
    for begin, end, data in in_text(op, units):
        found.append((begin + shift, end + shift, data))
        shift += units.count(data) - (end - begin)
    return found
