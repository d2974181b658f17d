"""The entries of a file, many at once: those that follow one another are found and checked in columns, and nothing is made of each of them
by itself."""
import struct
import zlib
from collections.abc import Iterator, Sequence
from typing import NamedTuple

from share.admission.ledger import Chained
from share.format.entry import CHUNKS, HEAD_WITHOUT_NOTE, Bad, FirstForm, Kind, digests
from share.format.keystrokes import Keystrokes

# What a row has: a place, a hash, the bytes, the body where it was unsealed, a sum of that, and whether it was made here.
KeptEntry = tuple[int, bytes, bytes, bytes | None, int, int]
# Of fewer rows it is no gain to put them into columns; and fewer entries aren't put together.
LEAST_ROWS, LEAST_CHAINED = 16, 4
OF_MESSAGES = frozenset(map(int, CHUNKS))


def put_together(form: FirstForm, keystrokes: Keystrokes, portion: Sequence[KeptEntry]) -> Iterator[Chained | Sequence[KeptEntry]]:
    """Rows of a file in their order, those put together that follow one another; by themselves where not all of them are as they were
    written, or something of those that follow isn't right."""
    try:
        together = _put_in_columns(form, portion)
    except (TypeError, ValueError, struct.error, Bad):
        # What the disk damaged may have another type.
        yield portion
        return
    between = 0
    for begin, is_letter, one in together:
        if between < begin:
            yield portion[between:begin]
        between = begin + len(one)
        try:
            one.types_on = keystrokes.type_on_each(one.hashes, one.bodies, is_letter, one.entry)
            yield one
        except (ValueError, struct.error, Bad):
            yield portion[begin:between]
    if between < len(portion):
        yield portion[between:]


def _put_in_columns(form: FirstForm, portion: Sequence[KeptEntry]) -> list[tuple[int, bytes, Chained]]:
    """Those of some rows that follow one another: where they begin, and which of them are a letter. Raises an error where not all of the
    rows are as they were written."""
    hashes, raws, made = [one[1] for one in portion], [one[2] for one in portion], [bool(one[5]) for one in portion]
    if digests(raws) != hashes:
        raise ValueError("damaged")
    bodies, heads = _bodies(form, portion, raws), _heads(form, raws)
    firsts, sizes = heads.firsts, heads.sizes
    whose = [*zip(heads.sites, heads.authors, made)]
    follows = [before == of and first == last + many and who == other
               for before, of, first, last, many, who, other
               in zip(heads.befores[1:], hashes, firsts[1:], firsts, sizes, whose[1:], whose)]
    is_letter = bytes([kind == Kind.CHUNK and size == 1 for kind, size in zip(heads.kinds, sizes)])
    found = []
    for begin, end in _in_a_row([False, *follows], heads.kinds):
        of = slice(begin, end)
        one = Chained(form, [kept[0] for kept in portion[of]], hashes[of], raws[of], bodies[of], bytes(heads.kinds[of]), firsts[of],
                      sizes[of], made[begin])
        found.append((begin, is_letter[of], one))
    return found


def _bodies(form: FirstForm, portion: Sequence[KeptEntry], raws: Sequence[bytes]) -> list[bytes]:
    """The bodies of some rows. Raises an error where one isn't as it was written."""
    bodies, sums = [one[3] for one in portion], [one[4] for one in portion]
    if has_bodies := bodies.count(None) < len(bodies):
        is_right = sums == [zlib.crc32(b"" if body is None else body) for body in bodies]
    else:
        is_right = sums.count(zlib.crc32(b"")) == len(sums)
    if not is_right:
        raise ValueError("damaged")
    return [form.body(raw) if body is None else body for raw, body in zip(raws, bodies)] if has_bodies else form.bodies(raws)


class _Heads(NamedTuple):
    """What the heads of entries say."""

    kinds: Sequence[int]
    sites: Sequence[int]
    firsts: Sequence[int]
    sizes: Sequence[int]
    befores: Sequence[bytes]
    authors: Sequence[bytes]


def _heads(form: FirstForm, raws: Sequence[bytes]) -> _Heads:
    """The heads of entries; raises an error where one is cut short."""
    size = form.head_bytes
    if min(map(len, raws)) < size:
        raise ValueError("cut short")
    heads = struct.iter_unpack(f"{HEAD_WITHOUT_NOTE}{form.author_bytes}s", b"".join([raw[:size] for raw in raws]))
    return _Heads(*zip(*heads))


def _in_a_row(follows: Sequence[bool], kinds: Sequence[int]) -> Iterator[tuple[int, int]]:
    """Where entries of messages begin of which each follows the one before it, and where they end."""
    begins = [at for at, is_next in enumerate(follows) if not (is_next and kinds[at] in OF_MESSAGES)]
    for begin, end in zip(begins, [*begins[1:], len(follows)]):
        # What a later version wrote may be followed, too.
        begin += kinds[begin] not in OF_MESSAGES
        if end - begin >= LEAST_CHAINED:
            yield begin, end
