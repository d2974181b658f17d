"""The records of a file, many at once: letters that were typed one after the other, a record each, are read as one operation, and nothing
is made of each of them by itself."""
import struct
import zlib
from collections.abc import Iterator, Sequence
from typing import Any, NamedTuple

from share.admission.letters import Letters
from share.format.chunk import unpacked
from share.format.entry import Bad, digests
from share.format.keystrokes import End
from share.format.operation import INSERT, PLAIN_LOOKS, Operation
from share.format.second.form import RecordForm
from share.format.second.record import NO_ONS, RECORD_HEAD, RecordKind, message_hashes
from share.store.chained import LEAST_CHAINED, KeptEntry

RECORD_HEAD_WITHOUT_NOTE = struct.Struct(">xB16x32sHBIH32s")
# So many letters are looked for first, and ever this many times as many: few type on where somebody writes here and there.
MORE_AT_ONCE = 8


class Kept(NamedTuple):
    """Rows as they were written: their hashes, their bytes, what is sealed in them, their heads without the note, and whether they were
    made here."""

    hashes: Sequence[bytes]
    raws: Sequence[bytes]
    bodies: Sequence[bytes]
    heads: Sequence[tuple[Any, ...]]
    made: Sequence[bool]


def put_letters_together(form: RecordForm, portion: Sequence[KeptEntry]) -> Iterator[Letters | Sequence[KeptEntry]]:
    """Rows of a file in their order, letters together that follow one another; by themselves where not all of them are as they were
    written, or don't follow what they say."""
    try:
        found = [*_letters(form, portion, _kept(form, portion))]
    except (TypeError, ValueError, struct.error, Bad):
        # What the disk damaged may have another type.
        yield portion
        return
    between = 0
    for begin, one in found:
        if between < begin:
            yield portion[between:begin]
        yield one
        between = begin + len(one)
    if between < len(portion):
        yield portion[between:]


def _kept(form: RecordForm, portion: Sequence[KeptEntry]) -> Kept:
    """What rows have; raises an error where one isn't as it was written."""
    hashes, raws, bodies = [one[1] for one in portion], [one[2] for one in portion], [one[3] for one in portion]
    if digests(raws) != hashes or [zlib.crc32(b"" if body is None else body) for body in bodies] != [one[4] for one in portion]:
        raise ValueError("damaged")
    heads = b"".join([raw[:RECORD_HEAD.size] for raw in raws])
    return Kept(hashes, raws, [form.body(raw) if body is None else body for raw, body in zip(raws, bodies)],
                [*RECORD_HEAD_WITHOUT_NOTE.iter_unpack(heads)], [bool(one[5]) for one in portion])


def _letters(form: RecordForm, portion: Sequence[KeptEntry], kept: Kept) -> Iterator[tuple[int, Letters]]:
    """The letters of rows that follow one another, and where they begin."""
    for begin, end in _of_one_chain(kept):
        while end - begin >= LEAST_CHAINED:
            operation = _letters_from(kept, begin, end)
            if operation and operation.size >= LEAST_CHAINED:
                yield begin, _together(form, portion, kept, begin, operation)
            begin += operation.size if operation else 1


def _together(form: RecordForm, portion: Sequence[KeptEntry], kept: Kept, begin: int, operation: Operation) -> Letters:
    """The rows from one on that have these letters; raises an error where one doesn't name the one before it."""
    of, (_, author, *_, before) = slice(begin, begin + operation.size), kept.heads[begin]
    names = message_hashes(form.keys, author, before, [operation], {})
    if [before, *names[:-1]] != [head[-1] for head in kept.heads[of]]:
        raise ValueError("doesn't follow")
    return Letters(form, [one[0] for one in portion[of]], kept.hashes[of], kept.raws[of], kept.bodies[of], kept.made[begin], operation,
                   names)


def _of_one_chain(kept: Kept) -> Iterator[tuple[int, int]]:
    """Where rows of a message each begin that follow one another by what their heads say, and where they end."""
    whose = [(kind == RecordKind.MESSAGES and size == 1, author, site, text, made)
             for (kind, author, site, text, _, size, _), made in zip(kept.heads, kept.made)]
    firsts = [head[4] for head in kept.heads]
    begins = [0, *(at for at in range(1, len(whose)) if whose[at] != whose[at - 1] or firsts[at] != firsts[at - 1] + 1)]
    return ((begin, end) for begin, end in zip(begins, [*begins[1:], len(whose)]) if whose[begin][0])


def _letters_from(kept: Kept, begin: int, end: int) -> Operation | None:
    """The letters of the first of some rows and of those after it that type on; None where that is no letter."""
    if not kept.bodies[begin].startswith(NO_ONS):
        return None
    (one,) = unpacked(kept.bodies[begin][len(NO_ONS):], kept.heads[begin][3])
    if (one.kind, one.size, len(one.data), one.looks) != (INSERT, 1, 1, PLAIN_LOOKS):
        return None
    last, at, most = End(one), begin + 1, LEAST_CHAINED
    while some := kept.bodies[at:min(end, at + most)]:
        many = last.letters([body[len(NO_ONS):] if body.startswith(NO_ONS) else NO_ONS for body in some])
        at, most = at + many, MORE_AT_ONCE * most
        if many < len(some):
            break
    letters = [body[-1:] for body in kept.bodies[begin + 1:at]]
    return one._replace(size=at - begin, data=b"".join([one.data, *letters]))
