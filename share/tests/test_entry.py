"""Entries: their bytes both ways, damage of each bit of them, what is no entry, and how messages are parted."""
import hashlib
import random
import re
import unittest

from share.format.chunk import MOST_CHUNK, chunk_begin, varint, varints_in
from share.format.entry import GREATEST_SITE, HEAD, MOST_BYTES, NO_HASH, Author, Bad, Copied, Entry, Kind, Plain
from share.format.operation import LONGEST_MESSAGE, MOST_RANGES, Operation
from share.tests import naive
from share.tests.naive import CHANGE_LOOKS, DELETE, about, chunk_of, entry_of, in_entries, inserting, is_spelled

NOTE = bytes(range(100, 116))
FORM = Plain(NOTE)
ANNE, BERTA = Author(b"sixteen bytes of", b""), Author(b"another sixteen ", b"")
COPIED = Copied(ANNE.name, 7, BERTA.name, 9, ((1, 7, 2), (3, 0, 1), (4, 300, 1)), b"last" * 8)


def closed(head: bytes, body: bytes) -> bytes:
    """What a plain entry of this head and body is, with a digest of all before it."""
    return head + body + hashlib.blake2b(head + body, digest_size=16).digest()


def spelled(form: int = 1, kind: int = 5, note: bytes = NOTE, site: int = 7, first: int = 1, count: int | None = None,
            before: bytes = b"b" * 32, author: bytes = ANNE.name, messages: tuple[Operation, ...] = (),
            body: bytes | None = None) -> bytes:
    """The bytes of an entry of these fields, whose digest is right."""
    head = b"".join([bytes([form, kind]), note, site.to_bytes(2, "big"), first.to_bytes(4, "big"),
                     (len(messages) if count is None else count).to_bytes(2, "big"), before, author])
    return closed(head, chunk_of(messages) or b"" if body is None else body)


def typed(count: int, site: int = 7, first: int = 1, data: bytes = b"x") -> tuple[Operation, ...]:
    """Insertions that follow one another."""
    return tuple(inserting(site, first + number, first + number, None, number * len(data), data)
                 for number in range(count))


def longest(seq: int) -> Operation:
    """A message of as many bytes as one may have."""
    plain = about(CHANGE_LOOKS, 7, seq, seq, [(1, 2 * number, 1) for number in range(MOST_RANGES)])
    looks = b"\x07\x1f" + b"F" * 31 + b"\x0f\xff"
    return plain._replace(looks=looks)


def chunk(*messages: Operation, length: int = 0) -> bytes:
    """The chunk of messages."""
    found = chunk_of(messages, length)
    assert found
    return found


def inserted_before(of: bytes) -> int:
    """Return how many characters a site had inserted before a chunk, by the chunk's fourth field."""
    return varints_in(re.findall(rb"[\x80-\xff]*[\x00-\x7f]", of[len(chunk_begin(1)) + 1:])[3])[0]


def parts() -> list[tuple[Operation, ...]]:
    """What some entries have, one after the other."""
    return [typed(1), (*typed(2, first=2), about(DELETE, 7, 4, 9, [(1, 0, 3), (1, 5, 1)])),
            (about(DELETE, 7, 5, 10, [(1, 0, 3)]),)]


def copies_body(old: bytes = ANNE.name + b"\0\7", new: bytes = BERTA.name + b"\0\x09",
                numbers: bytes = b"\1\7\2\3\0\1\4\xac\2\1") -> bytes:
    """What an entry of copies has, by default that of the stretches."""
    return old + new + b"last" * 8 + numbers


def samples() -> list[Entry]:
    """Entries of each kind, one after another."""
    entries = [FORM.claim(7, ANNE), FORM.claim(GREATEST_SITE, ANNE)]
    one, two, three = parts()
    # What is typed second begins where what was typed first does.
    first = entry_of(FORM, entries[0], one, ANNE)
    second = entry_of(FORM, first, two, ANNE, length=0)
    third = entry_of(FORM, second, three, ANNE, b"on" * 16, length=2)
    copies = FORM.copies(COPIED, ANNE, 7, third.hash)
    return [*entries, first, second, third, FORM.made_anew(third, ANNE), copies]


class Spelling(unittest.TestCase):
    """An entry has one spelling, and what is spelled otherwise is none."""

    def test_the_bytes_are_those_of_the_table(self) -> None:
        claim, _, first, second, third, anew, copies = samples()
        one, two, three = parts()
        self.assertEqual(claim.raw, spelled(kind=1, first=0, before=NO_HASH))
        self.assertEqual(first.raw, spelled(kind=5, before=claim.hash, count=1, body=chunk(*one)))
        self.assertEqual(second.raw, spelled(kind=5, first=2, before=first.hash, count=3, body=chunk(*two)))
        self.assertEqual(third.raw, spelled(kind=6, first=5, before=second.hash, count=1,
                                            body=b"on" * 16 + chunk(*three, length=2)))
        self.assertEqual(anew.raw, spelled(kind=4, first=0, before=third.hash))
        self.assertEqual(copies.raw, spelled(kind=7, first=0, before=third.hash, body=copies_body()))
        self.assertEqual(first.raw[74:89], b"OTC1\0\1\x0f\7\1\1\0x" + first.raw[86:89])
        self.assertEqual(first.hash, hashlib.blake2b(first.raw, digest_size=32).digest())

    def test_both_ways(self) -> None:
        for entry in samples():
            self.assertEqual(FORM.open(entry.raw), entry)
            self.assertEqual(FORM.reopened(entry.raw, FORM.body(entry.raw), entry.hash), entry)
        self.assertEqual([(entry.kind, entry.first, entry.last) for entry in samples()],
                         [(Kind.CLAIM, 0, 0), (Kind.CLAIM, 0, 0), (Kind.CHUNK, 1, 1), (Kind.CHUNK, 2, 4),
                          (Kind.CHUNK_BUILDING, 5, 5), (Kind.ANEW, 0, 0), (Kind.COPIES, 0, 0)])
        self.assertEqual([entry.messages for entry in samples()], [(), (), *parts(), (), ()])
        self.assertEqual(samples()[-1].copied, COPIED)
        self.assertEqual({entry.author for entry in samples()}, {ANNE.name})

    def test_each_prefix_and_each_bit(self) -> None:
        for entry in samples():
            raw = entry.raw
            wrong = [raw[:end] for end in range(len(raw))] + [raw + b"\0", raw + raw]
            for bit in range(8 * len(raw)):
                flipped = bytearray(raw)
                flipped[bit // 8] ^= 1 << bit % 8
                wrong.append(bytes(flipped))
            for bad in wrong:
                with self.assertRaises(Bad):
                    FORM.open(bad)
            self.assertEqual([bad for bad, one in zip(wrong, FORM.open_many(wrong)) if not isinstance(one, Bad)], [])

    def test_kinds_that_only_a_newer_version_knows(self) -> None:
        for kind in 0, 9, 255:
            for raw in (spelled(kind=kind), spelled(kind=kind, site=0, first=9, count=3, before=NO_HASH, body=b"\0"),
                        spelled(kind=kind, messages=typed(1))):
                entry = FORM.open(raw)
                self.assertEqual((entry.kind, entry.messages, entry.last, entry.raw), (Kind.NEWER, (), 0, raw))
                self.assertEqual(entry.body, FORM.body(raw))
                self.assertEqual(FORM.reopened(raw, entry.body, entry.hash), entry)
                self.assertEqual(FORM.kind(raw), Kind.NEWER)

    def test_many_at_once(self) -> None:
        raws = [entry.raw for entry in samples()]
        found = FORM.open_many([b"", *raws, raws[0][1:]])
        self.assertEqual(found[1:-1], samples())
        self.assertTrue(all(isinstance(one, Bad) for one in (found[0], found[-1])))

    def test_two_authors_differ(self) -> None:
        authors = {FORM.new_author().name for _ in range(100)}
        self.assertEqual((len(authors), {len(name) for name in authors}), (100, {16}))


class Wrong(unittest.TestCase):
    """What has a right digest, and isn't what an entry of its place can be."""

    def assert_bad(self, words: str, raw: bytes) -> None:
        """That bytes are none, for this reason."""
        with self.assertRaisesRegex(Bad, words):
            FORM.open(raw)

    def test_heads(self) -> None:
        one = typed(1)
        FORM.open(spelled(messages=one))
        self.assert_bad("isn't spelled", spelled(form=0, messages=one))
        self.assert_bad("isn't spelled", spelled(form=2, messages=one))
        self.assert_bad("another note", spelled(note=bytes(16), messages=one))
        for kind in 0, 9, 255:
            self.assert_bad("is damaged", spelled(kind=kind, messages=one)[:-1] + b"x")
        for site in 0, GREATEST_SITE + 1, 65_535:
            self.assert_bad("a site that can't be", spelled(kind=1, site=site, first=0, before=NO_HASH))
            self.assert_bad("a site that can't be", spelled(site=site, messages=typed(1, site=site or 1)))

    def test_claims_have_nothing_else(self) -> None:
        FORM.open(spelled(kind=1, first=0, before=NO_HASH))
        for raw in (spelled(kind=1, first=1, before=NO_HASH), spelled(kind=1, first=0),
                    spelled(kind=1, first=0, before=NO_HASH, messages=typed(1))):
            self.assert_bad("more in it", raw)

    def test_what_was_made_anew_has_nothing_else(self) -> None:
        FORM.open(spelled(kind=4, first=0))
        for raw in (spelled(kind=4, first=1), spelled(kind=4, first=0, before=NO_HASH),
                    spelled(kind=4, first=0, messages=typed(1)), spelled(kind=4, messages=typed(1))):
            self.assert_bad("says of nothing", raw)

    def test_copies(self) -> None:
        for before in NO_HASH, b"b" * 32:
            FORM.open(spelled(kind=7, first=0, before=before, body=copies_body()))
        # Who made the copies may say it, too.
        FORM.open(spelled(kind=7, first=0, site=9, author=BERTA.name, body=copies_body()))
        for raw in spelled(kind=7, body=copies_body()), spelled(kind=7, first=0, count=1, body=copies_body()):
            self.assert_bad("what can't be", raw)
        for site, author in (7, BERTA), (9, ANNE), (8, ANNE):
            self.assert_bad("of others", spelled(kind=7, first=0, site=site, author=author.name, body=copies_body()))
        for new in 0, GREATEST_SITE + 1:
            self.assert_bad("what can't be", spelled(kind=7, first=0, body=copies_body(
                new=BERTA.name + new.to_bytes(2, "big"))))
        for numbers in (b"", b"\1", b"\1\7", b"\1\7\2\3", b"\1\7\x82", b"\1\7\x82\0", b"\1\7" + b"\xff" * 7 + b"\1",
                        b"\0\7\2", b"\1\7\0", b"\2\7" + varint(2**32 - 1)):
            self.assert_bad("say nothing", spelled(kind=7, first=0, body=copies_body(numbers=numbers)))
        for end in range(len(copies_body()) - 10):
            self.assert_bad("say nothing", spelled(kind=7, first=0, body=copies_body()[:end]))

    def test_words_in_no_chain_have_no_place_in_one(self) -> None:
        copied = Copied(ANNE.name, 7, bytes(16), 8, ((1, 2, 3), (9, 5, 300)))
        for entry in FORM.copies(copied, ANNE, 7), FORM.copies(copied, Author(bytes(16), b""), 8), FORM.renewed("Ann", 7, ANNE):
            self.assertEqual(FORM.open(entry.raw), entry)
            self.assertEqual((entry.messages, entry.operations, entry.last), ((), (), 0))
            body = entry.spelled
            for raw in (spelled(kind=entry.kind, first=1, before=NO_HASH, body=body),
                        spelled(kind=entry.kind, first=0, before=NO_HASH, count=1, body=body)):
                self.assert_bad("what can't be", raw)
        self.assert_bad("what can't be", spelled(kind=8, first=0, body=FORM.renewed("Ann", 7, ANNE).spelled))
        self.assertEqual(FORM.open(FORM.copies(copied, ANNE, 7).raw).copied, copied)
        self.assert_bad("of others", FORM.copies(copied, ANNE, 9).raw)
        for body in b"", bytes(35), FORM.copies(copied, ANNE, 7).spelled[:-1], ANNE.name + b"\0\7" + bytes(16) + b"\0\x08":
            self.assert_bad("nothing of copies", spelled(kind=7, first=0, before=NO_HASH, body=body))
        self.assertEqual(len(FORM.renewed("é" * 300, 7, ANNE).spelled), 200)
        self.assert_bad("what can't be", spelled(kind=8, first=0, before=NO_HASH, body=bytes(201)))

    def test_messages_of_another_place(self) -> None:
        self.assert_bad("no messages", spelled())
        self.assert_bad("nothing before it", spelled(before=NO_HASH, messages=typed(1)))
        for messages in typed(1, site=8), typed(1, first=2):
            self.assert_bad("another place", spelled(messages=messages))

    def test_bodies(self) -> None:
        two = typed(2)
        self.assert_bad("no messages", spelled(messages=two, count=0))
        for count in 1, 3, 65_535:
            self.assert_bad("as many messages", spelled(messages=two, count=count))

    def test_kinds_that_only_unreleased_versions_wrote(self) -> None:
        for kind in 2, 3:
            self.assert_bad("made by an unreleased version", spelled(kind=kind, messages=typed(1)))

    def test_chunks(self) -> None:
        two = typed(2)
        right = chunk(*two)
        for body in b"", bytes(31), b"on" * 15:
            self.assert_bad("cut short", spelled(kind=6, body=body, count=2))
        # Without its last three bytes it is the chunk of the first message.
        prefixes = [right[:end] for end in range(len(right)) if end != len(right) - 3]
        for body in [*prefixes, right + b"\1", b"\0" + right, b"".join(map(naive.spelled, two))]:
            self.assert_bad("no chunk", spelled(kind=5, body=body, count=2))
        self.assert_bad("as many messages", spelled(kind=5, body=right[:-3], count=2))
        self.assert_bad("as many messages", spelled(kind=5, body=right + b"y", count=2))
        for site, first in (8, 1), (7, 2), (7, 9):
            self.assert_bad("another place", spelled(kind=5, site=site, first=first, body=right, count=2))
        self.assert_bad("more in it", spelled(kind=1, first=0, before=NO_HASH, body=right))
        self.assert_bad("says of nothing", spelled(kind=4, first=0, body=right))
        # One of another text, and one with a message of another site after the first one.
        self.assert_bad("no chunk", spelled(kind=5, body=right.replace(chunk_begin(1), b"OTC1\0\2"), count=2))
        other = right + b"".join([b"\x0f", *map(varint, (8, 1, 3, 0)), b"\5\7\0z"])
        self.assert_bad("no chunk", spelled(kind=5, body=other, count=3))

    def test_a_right_digest_over_anything(self) -> None:
        chance, right = random.Random(4), 0
        for entry in samples() * 500:
            changed = bytearray(entry.raw[:-16])
            for _ in range(chance.choice([1, 1, 2, 5])):
                where = chance.randrange(len(changed))
                changed[where:where + chance.randrange(2)] = chance.choices(
                    [0, 1, 2, 7, 255, chance.randrange(256)], k=chance.randrange(3))
            raw = closed(bytes(changed), b"")
            try:
                found = FORM.open(raw)
            except Bad:
                continue
            if found.kind is Kind.NEWER:
                self.assertNotIn(raw[1], list(Kind)[1:])
                continue
            again = spelled(kind=found.kind, site=found.site, first=found.first, before=found.before,
                            author=found.author, messages=found.messages, body=found.body)
            if found.kind is Kind.COPIES:
                self.assertIn((found.author, found.site), (found.copied[:2], found.copied[2:4]))
            self.assertEqual(again, raw)
            if found.kind in (Kind.CHUNK, Kind.CHUNK_BUILDING):
                # No other bytes are the chunk of these messages, but where the length stands that no insertion says.
                length = found.operations[0].at or inserted_before(found.chunk)
                self.assertIn(found.chunk, [chunk_of(found.messages, length), chunk_of(found.messages)])
            self.assertTrue(all(is_spelled(naive.spelled(one)) for one in found.messages))
            self.assertEqual([(one.site, one.seq) for one in found.messages],
                             [(found.site, found.first + number) for number in range(len(found.messages))])
            right += 1
        # Of some that are changed in their author, their hash before, or their characters.
        self.assertGreater(right, 100)


class Sizes(unittest.TestCase):
    """Messages are parted so that each part fits an entry."""

    def test_the_longest(self) -> None:
        message = longest(1)
        self.assertEqual((len(naive.spelled(message)), is_spelled(naive.spelled(message))), (LONGEST_MESSAGE, True))
        far = about(CHANGE_LOOKS, 7, 1, 1, [(60 * number + 200, 2**23 + number, 2**22) for number in range(MOST_RANGES)])
        far = far._replace(looks=b"\x07\x1f" + b"F" * 31 + b"\x0f\xff")
        for one in message, far:
            self.assertEqual(is_spelled(naive.spelled(one)), True)
            self.assertEqual([len(part) for part in in_entries([one])], [1])
            entry = entry_of(FORM, FORM.claim(7, ANNE), [one], ANNE)
            self.assertEqual((FORM.open(entry.raw), entry.kind), (entry, Kind.CHUNK))

    def test_bounds(self) -> None:
        room = MOST_CHUNK - len(chunk(inserting(7, 1, 1, None, 0, b"x")))
        # All but the first are at the caret, and take a byte each.
        for more in 0, 1:
            messages = [inserting(7, 1 + number, 1 + number, (7, number - 1) if number else None, number, b"x")
                        for number in range(1 + room + more)]
            self.assertEqual([len(part) for part in in_entries(messages)], [1 + room, more][:1 + more])
            if not more:
                self.assertEqual(len(chunk(*messages)), MOST_CHUNK)
                entry = entry_of(FORM, FORM.claim(7, ANNE), messages, ANNE)
                self.assertEqual(FORM.open(entry.raw), entry)
                self.assertEqual(entry.messages, tuple(messages))
                self.assertEqual([run.size for run in entry.operations], [1 + room])

    def test_no_entry_is_larger(self) -> None:
        room = MOST_BYTES - HEAD.size - 16 - 16
        FORM.open(spelled(kind=9, body=bytes(room)))
        with self.assertRaisesRegex(Bad, "more than"):
            FORM.open(spelled(kind=9, body=bytes(room + 1)))

    def test_at_random(self) -> None:
        chance = random.Random(5)
        self.assertEqual(in_entries([]), [])
        for _ in range(100):
            messages = [longest(seq) if chance.random() < 0.05 else
                        inserting(7, seq, seq, None, 5_000 * seq, b"x" * chance.choice([1, 1, 1, 50, 4_096]))
                        for seq in range(1, chance.randrange(2, 300))]
            found = in_entries(messages)
            self.assertEqual([one for part in found for one in part], messages)
            for part, after in zip(found, [*found[1:], None]):
                self.assertLessEqual(len(chunk(*part)), MOST_CHUNK)
                if after:
                    self.assertIsNone(chunk_of([*part, after[0]]))
            before = FORM.claim(7, ANNE)
            for part in found:
                before = entry_of(FORM, before, part, ANNE)
                self.assertEqual(FORM.open(before.raw), before)


if __name__ == "__main__":
    unittest.main()
