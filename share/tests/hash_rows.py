"""The hashes of the vectors of the second form, which a second program made, as lines for a test of the core.

    note HASH BASE                                   a note begins; its key of hashes, and that of its base
    base AUTHOR BEFORE MESSAGE HASH
    said AUTHOR BEFORE ON MESSAGE HASH               ON is - where nothing is said
    digest ON = HASH ..                              what the message above says is the digest of these
"""
import json
import pathlib
import sys
from collections.abc import Iterator

from share.tests.naive_chunks import spelled
from share.tests.naive_second import Answer, Entry, Founding, Kind, Note, Saying, derived, judged, opened

VECTORS = pathlib.Path(__file__).parent / "data" / "second_form.json"


def rows() -> Iterator[str]:
    """The rows of both notes."""
    vectors = json.loads(VECTORS.read_text())
    for name, form in (("sealed", 4), ("plain", 3)):
        of, note = vectors[name], Note(bytes.fromhex(vectors[name]["key"]), form)
        raws = [bytes.fromhex(one["raw"]) for one in of["entries"]]
        answer = judged(note, raws, vectors["bits"])
        secret = Founding(bytes.fromhex(of["founding"])[:32], b"", b"", 0).secret
        yield f"note {of['hash']} {derived(secret, 'base').hex()}"
        for raw, one in zip(raws, of["entries"]):
            yield from _of_entry(answer, opened(note, raw, vectors["bits"]), one["hashes"])


def _of_entry(answer: Answer, entry: Entry, hashes: list[str]) -> Iterator[str]:
    """The rows of an entry, whose messages have these hashes."""
    befores, author = [entry.head.before.hex(), *hashes], entry.head.author.hex()
    if entry.head.kind == Kind.BASE:
        for message, before, of in zip(entry.messages, befores, hashes):
            yield f"base {author} {before} {spelled(message).hex()} {of}"
    for said, before, of in zip(entry.says, befores, hashes):
        yield f"said {author} {before} {said.on.hex() or '-'} {spelled(said.message).hex()} {of}"
        yield from _of_digest(answer, said)


def _of_digest(answer: Answer, said: Saying) -> Iterator[str]:
    """The row of what a message that counts says that it builds on."""
    chain = answer.through.get(said.place, [])
    if said.on and said in chain:
        names = answer.beyond(said, chain[:chain.index(said)])
        yield " ".join(["digest", said.on.hex(), "=", *(answer.inserted_by[said.message.text, name].hex() for name in names)])


if __name__ == "__main__":
    sys.stdout.writelines(f"{row}\n" for row in rows())
