"""The bodies of messages of the second form's vectors, as they are and changed at random, as lines for a test of the core: what the plain
program says that they say.

    note HASHING                                              a note begins; its key of hashes
    body AUTHOR SITE TEXT FIRST COUNT BEFORE BODY = HASH ..    the hashes of the messages; none where it is no such body
"""
import json
import random
import sys
from collections.abc import Iterator

from share.tests.hash_rows import VECTORS
from share.tests.naive_second import GREATEST_SITE, GREATEST_TEXT, ZEROS, Bad, Head, Kind, Note, opened, with_messages

# How often each is changed.
CHANGES = 24
ON = slice(2, 36)


def rows() -> Iterator[str]:
    """The rows of both notes."""
    vectors, chance = json.loads(VECTORS.read_text()), random.Random(77)
    for name, form in (("sealed", 4), ("plain", 3)):
        note = Note(bytes.fromhex(vectors[name]["key"]), form)
        yield f"note {vectors[name]['hash']}"
        for one in vectors[name]["entries"]:
            entry = opened(note, bytes.fromhex(one["raw"]), vectors["bits"])
            if entry.head.kind == Kind.MESSAGES:
                yield _row(note, entry.head, entry.body)
                for _ in range(CHANGES):
                    yield _row(note, *_changed(entry.head, entry.body, chance))


def _row(note: Note, head: Head, body: bytes) -> str:
    """The row of a body."""
    says = [head.author.hex(), head.site, head.text, head.first, head.size, head.before.hex(), body.hex()]
    return " ".join(["body", *map(str, says), "=", *_hashes(note, head, body)])


def _hashes(note: Note, head: Head, body: bytes) -> list[str]:
    if head.site > GREATEST_SITE:
        return []
    try:
        return [said.hash.hex() for said in with_messages(note, head, body).says]
    except Bad:
        return []


def _changed(head: Head, body: bytes, chance: random.Random) -> tuple[Head, bytes]:
    """An entry's head, or its body, with something else in it."""
    on = body[ON]
    heads = [head._replace(site=chance.choice([head.site + 1, GREATEST_SITE, GREATEST_SITE + 1])),
             head._replace(text=chance.choice([1, 2, GREATEST_TEXT, GREATEST_TEXT + 1])),
             head._replace(first=chance.choice([0, 1, head.first + 1])),
             head._replace(size=chance.choice([0, head.size - 1, head.size + 1])),
             head._replace(before=chance.choice([ZEROS, chance.randbytes(32)])),
             head._replace(author=chance.randbytes(32))]
    at = chance.randrange(len(body))
    bodies = [body[:at], body + b"a", body[:at] + bytes([body[at] ^ 1 << chance.randrange(8)]) + body[at + 1:],
              _spelled(1, _indexed(on, 0), body), _spelled(1, _indexed(on, head.size), body),
              _spelled(2, _indexed(on, 0) + _indexed(on, 1), body), _spelled(2, _indexed(on, 1) + _indexed(on, 0), body),
              _spelled(2, 2 * _indexed(on, 0), body)]
    return chance.choice([*((one, body) for one in heads), *((head, one) for one in bodies)])


def _indexed(on: bytes, index: int) -> bytes:
    return index.to_bytes(2, "big") + on[2:].ljust(32, b"o")


def _spelled(many: int, ons: bytes, body: bytes) -> bytes:
    """A body that says this of what its messages build on."""
    return many.to_bytes(2, "big") + ons + body[2 + 34 * int.from_bytes(body[:2], "big"):]


if __name__ == "__main__":
    sys.stdout.writelines(f"{row}\n" for row in rows())
