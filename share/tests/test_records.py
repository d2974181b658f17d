"""Records of the second form: vectors that a second program made, what the plain program says of each, and what is none."""
import hashlib
import json
import os
import pathlib
import random
import unittest
from collections import Counter
from collections.abc import Iterable
from typing import Any
from unittest import mock

from cryptography.hazmat.primitives.asymmetric.ed25519 import Ed25519PrivateKey, Ed25519PublicKey
from cryptography.hazmat.primitives.hashes import SHA256
from cryptography.hazmat.primitives.kdf.hkdf import HKDF
from hypothesis import HealthCheck, given, settings
from hypothesis import strategies as st

from share.admission.judges import judge_of
from share.format import link, presence
from share.format.chunk import MOST_CHUNK, Packed, packed, packed_in_parts
from share.format.entry import MOST_BYTES, Author, Bad, Copied, Form, Plain
from share.format.heartbeat import Hears, Lack, Said, Way, heartbeat_of, read_heartbeat, token_of
from share.format.operation import Operation
from share.format.presence import COUNT, MOST_PRESENCE, Present, presence_of, read_presence
from share.format.sealed import Sealed
from share.format.second import claim, signature
from share.format.second.append import challenged, may_append
from share.format.second.claim import found_among, number_of_rank, rank_of
from share.format.second.form import PlainRecords, RecordForm, SealedRecords
from share.format.second.key_link import KeyLink, link_of, read_key_link
from share.format.second.keys import Founding, NoteKeys, derived, key_of_founding, new_founding
from share.format.second.record import RECORD_HEAD, RECORD_KINDS, Record, RecordKind
from share.tests import naive_second as second
from share.tests.naive import inserting
from share.tests.naive_second import FIELD, HEAD, ORDER, PLAIN, SEALED, SIGNATURE, ZEROS, Entry, Head, Note, closed
from share.tests.second_sets import STEPS, ZERO_BITS, Set, authors, made
from share.tests.test_chunks import plainly
from share.text.errors import Trouble

VECTORS = pathlib.Path(__file__).parent / "data" / "second_form.json"
TIMES = int(os.environ.get("VIALSHOAL_EXAMPLES", "0"))
SEEDS = st.integers(0, 2**32 - 1)


def tries(count: int) -> settings:
    """That a test tries so many examples, the same ones each time unless more are asked for."""
    return settings(max_examples=count * max(TIMES, 1), derandomize=not TIMES, database=None, deadline=None,
                    suppress_health_check=list(HealthCheck))


def form_of(note: Note, zero_bits: int = ZERO_BITS) -> RecordForm:
    """The form of a note of the plain program."""
    return PlainRecords(note.key, zero_bits) if note.form == PLAIN else SealedRecords(note.key, zero_bits)


def some_set(seed: int, form: int = PLAIN) -> Set:
    """A set of records at random."""
    chance = random.Random(seed)
    steps = ["claim"] * 4 + ["begin"] * 2 + chance.choices(STEPS, k=12)
    return Set([(step, chance.randrange(2**16)) for step in steps], chance.random() < 0.5, form)


def changed_bytes(raw: bytes, at: int, by: int = 1) -> bytes:
    return raw[:at] + bytes([raw[at] ^ by]) + raw[at + 1:]


class AsThePlainProgram(unittest.TestCase):
    """What both programs say of bytes."""

    def assert_alike(self, note: Note, form: RecordForm, raw: bytes, zero_bits: int = ZERO_BITS) -> str:
        """That both say the same of bytes; why they are no record, if they are none."""
        try:
            entry = second.opened(note, raw, zero_bits)
        except second.Bad:
            with self.assertRaises(Bad) as why:
                form.open(raw)
            return str(why.exception)
        one = form.open(raw)
        self.assert_says(one, entry)
        self.assertEqual(form.reopened(raw, one.body, one.hash), one)
        self.assertEqual(form.whole(raw[:RECORD_HEAD.size], one.body, form.tail(raw)), raw)
        return ""

    def assert_says(self, one: Record, entry: Entry) -> None:
        """That a record says what the plain program read."""
        head = entry.head
        kind = RECORD_KINDS.get(head.kind, RecordKind.NEWER)
        size = 0 if kind is RecordKind.NEWER else head.size
        self.assertEqual((one.kind, one.note, one.author, one.site, one.text, one.first, one.size, one.before, one.body),
                         (kind, head.note, head.author, head.site, head.text, head.first, size, head.before, entry.body))
        self.assertEqual([plainly(each) for each in one.messages], [*entry.messages])
        self.assertEqual([plainly(each) for run in one.operations for each in run.each()], [*entry.messages])
        self.assertEqual((one.hashes, one.ons), (tuple(each.hash for each in entry.says), tuple(each.on for each in entry.says) or (
            b"",) * size))
        self.assertEqual(one.counter, entry.counter if kind is RecordKind.CLAIM else 0)
        if kind is RecordKind.COPIES:
            copied, found = second.copied_of(entry), one.copied
            assert found
            self.assertEqual((found.author, found.site, found.by, found.by_site, found.last, found.stretches), tuple(copied))

    @tries(100)
    @given(SEEDS)
    def test_what_is_in_sets_is_opened_alike(self, seed: int) -> None:
        one = some_set(seed)
        form = form_of(one.note)
        for raw in {*one.raws}:
            self.assertEqual(self.assert_alike(one.note, form, raw), "")

    @tries(6)
    @given(SEEDS)
    def test_sealed_ones_too(self, seed: int) -> None:
        one = some_set(seed, SEALED)
        form = form_of(one.note)
        for raw in {*one.raws}:
            self.assertEqual(self.assert_alike(one.note, form, raw), "")

    def test_what_is_closed_rightly_and_says_anything_is_opened_alike(self) -> None:
        # The nonce is right each time, so that all that is behind it is tried.
        chance, told = random.Random(5), Counter[str]()
        for seed in range(60 * max(TIMES, 1)):
            one = some_set(seed + (chance.randrange(2**30) if TIMES else 0))
            form = form_of(one.note)
            for raw in [*{*one.raws}]:
                entry = second.opened(one.note, raw, ZERO_BITS)
                for _ in range(4):
                    other = closed(one.note, self.other_head(chance, entry.head), self.other_body(chance, entry.body))
                    told[self.assert_alike(one.note, form, other)] += 1
        self.assertGreater(told[""], 100)
        self.assertEqual({word for word in WORDS if not told[word]}, set())
        self.assertEqual({*told} - {*WORDS, ""}, set())

    def other_head(self, chance: random.Random, head: Head) -> Head:
        """A head of which perhaps something is otherwise."""
        if chance.random() < 0.4:
            return head
        what = chance.choice(["kind", "kind", "author", "site", "text", "first", "size", "before"])
        fields = {"kind": [*range(9), 255], "author": [bytes(32), made().note.public], "site": [0, 1, 2, 65_528, 65_529, 65_535],
                  "text": [0, 1, 2, 16, 17, 255], "first": [0, 1, 2, 2**32 - 1], "size": [0, 1, 2, 3, 65_535],
                  "before": [ZEROS, bytes(31) + b"\1", b"\1" * 32]}
        return head._replace(**{what: chance.choice(fields[what])})

    def other_body(self, chance: random.Random, body: bytes) -> bytes:
        """A body of which perhaps some bytes are otherwise."""
        data = bytearray(body)
        for _ in range(chance.choice([0, 0, 1, 2])):
            at = chance.choice([chance.randrange(4), chance.randrange(len(data) + 1)])
            what = chance.randrange(5)
            if what == 4:
                data[32:34] = b"\xff\xff"
            elif what == 0:
                data[at:at + chance.randrange(3)] = bytes(chance.choices([*range(16), 0x80, 255], k=chance.randrange(3)))
            elif what == 1:
                data[:2] = bytes([0, chance.randrange(3)]) + chance.choice([b"", b"\0\0" + bytes(32), b"\0\1" + b"o" * 32])
            elif what == 2:
                data += bytes(chance.randrange(40))
            else:
                del data[at:]
        return bytes(data)

    def test_each_byte_counts(self) -> None:
        for kind in PLAIN, SEALED:
            one = some_set(8, kind)
            form, of_kind = form_of(one.note), {form_of(one.note).open(raw).kind: raw for raw in one.raws}
            self.assertGreaterEqual({*of_kind}, {RecordKind.OPENING, RecordKind.CLAIM, RecordKind.MESSAGES})
            for raw in of_kind.values():
                for at in range(len(raw)):
                    for bit in range(8) if kind == PLAIN else [at % 8]:
                        self.assertNotEqual(self.assert_alike(one.note, form, changed_bytes(raw, at, 1 << bit)), "")
                for end in [*range(0, len(raw), 1 if kind == PLAIN else 3), len(raw) - 1]:
                    self.assertNotEqual(self.assert_alike(one.note, form, raw[:end]), "")
                self.assertNotEqual(self.assert_alike(one.note, form, raw + b"\0"), "")
            self.assertIn("isn't spelled", self.assert_alike(one.note, form, raw[:BEFORE_BODY] + bytes(MOST_BYTES)))

    def test_a_claim_costs_what_it_has_to(self) -> None:
        note = made().note
        author = authors()[1]
        for bits in 0, 1, 7, 8, 9, 12:
            form = form_of(note, bits)
            for counter in range(200):
                rank = second.rank(note.identity, author.name, counter)
                raw = second.claim(note, author, counter, int.from_bytes(rank[:2], "big"))
                self.assert_alike(note, form, raw, bits)
        site = int.from_bytes(rank[:2], "big")
        self.assertIn("searched for", self.assert_alike(note, form_of(note, 20), second.claim(note, author, counter, site), 20))


BEFORE_BODY = RECORD_HEAD.size + 12
# Why bytes whose nonce is right are no record.
WORDS = {"opens another note", "is an opening with more in its head than an opening has", "is of a site that can't be",
         "is of a text that can't be", "counts messages where it has none", "is a claim with more in it than a claim has",
         "claims a number that wasn't searched for", "says of nothing that it was made anew, or has more in it",
         "has bytes that say nothing of copies", "says of copies what can't be", "speaks of copies of others",
         "says of a renewed note what can't be", "has no messages", "is no base by the note itself",
         "begins where something is before it, or goes on where nothing is", "has bytes that are no chunk",
         "has messages of another place", "doesn't have as many messages as it says", "has messages that are cut short",
         "doesn't say in order which messages build on something"}


class Vectors(unittest.TestCase):
    """What a program in JavaScript made from the page alone."""

    def setUp(self) -> None:
        self.all: dict[str, Any] = json.loads(VECTORS.read_text())
        self.bits = self.all["bits"]
        self.forms: dict[str, RecordForm] = {"sealed": SealedRecords(bytes.fromhex(self.all["sealed"]["key"]), self.bits),
                                             "plain": PlainRecords(bytes.fromhex(self.all["plain"]["key"]), self.bits)}
        self.authors = {word: Author(bytes.fromhex(one["name"]), bytes.fromhex(one["secret"])) for word, one in self.all["authors"].items()}

    def founding(self, word: str) -> Founding:
        return Founding.read(bytes.fromhex(self.all[word]["founding"]))

    def test_keys(self) -> None:
        for word, form in self.forms.items():
            said = {name: bytes.fromhex(of) for name, of in self.all[word].items() if name != "entries"}
            keys, founding = form.keys, self.founding(word)
            self.assertEqual((keys.key, keys.hash, keys.seal, keys.nonce, keys.presence, keys.append, form.public, form.note), tuple(
                said[name] for name in ("key", "hash", "seal", "nonce", "presence", "append", "public", "identity")))
            self.assertEqual((founding.key(), founding.spelled()), (keys.key, said["founding"]))
        for author in self.authors.values():
            self.assertEqual(signature.public_of(author.secret), author.name)

    def test_records_are_opened_and_made_again_byte_for_byte(self) -> None:
        for word, form in self.forms.items():
            by_name = {author.name: author for author in self.authors.values()}
            for said in self.all[word]["entries"]:
                one = form.open(bytes.fromhex(said["raw"])).linked(self.founding(word))
                self.assertEqual(one.kind.name.lower(), said["what"])
                self.assertEqual([of.hex() for of in one.hashes or one.links], said["hashes"])
                author = by_name.get(one.author, Author(one.author, b""))
                again = self.made_again(form, one, author)
                self.assertEqual((again.linked(self.founding(word)), again.raw.hex()), (one, said["raw"]))

    def made_again(self, form: RecordForm, one: Record, author: Author) -> Record:
        """The record that the form makes to say the same."""
        if one.founding:
            return form.opening(one.founding)
        if one.kind is RecordKind.COPIES:
            return form.copies(one.copied, author, one.site, one.before, one.text)
        if one.kind is RecordKind.CLAIM:
            return form.claim(one.site, author, one.counter)
        if one.kind is RecordKind.ANEW:
            return form.anew_up_to(one.before, author, one.site, one.text)
        if one.kind is RecordKind.RENEWED:
            return form.renewed(one.called, one.site, author)
        part = Packed(one.operations, one.chunk)
        if one.kind is RecordKind.BASE:
            return form.base(part, one.before)
        return form.messages(part, one.before, author, {index: on for index, on in enumerate(one.ons) if on})

    def test_claims(self) -> None:
        note = self.forms["sealed"].note
        for word, said in self.all["claims"].items():
            author, bits = self.authors["cy" if word == "full" else word].name, 20 if word == "full" else self.bits
            rank = rank_of(note, author, said["counter"])
            self.assertEqual((rank.hex(), number_of_rank(rank, bits)), (said["rank"], said["site"]))
            begin = said["counter"] - 5_000 if word == "full" else 0
            self.assertEqual(next(found_among(range(begin, 2**64), note, author, zero_bits=bits)), (said["counter"], said["site"]))

    def test_presence_proof_and_names_of_claims(self) -> None:
        form, on = self.forms["sealed"], dict[str, bytes]()
        assert isinstance(form, SealedRecords)
        for word in "presence", "lacking":
            said = self.all[word]
            on[word] = bytes.fromhex(said["data"])
            self.assertEqual((form.presence(on[word]).hex(), form.present(bytes.fromhex(said["raw"]))), (said["raw"], on[word]))
        token, bob = on["lacking"][:8], self.all["claims"]["bob"]["site"]
        editing = Present(token + COUNT.pack(0, 7), on["presence"][16:32], bob, "#c0392b", (9, 6), (0, 0), "B\xf6b", 2)
        self.assertEqual((read_presence(on["presence"]), presence_of(editing)), (editing, on["presence"]))
        engine = Said(token_of(token), 8, 3, [Lack(way, hashlib.sha256(b"chosen for a vector: " + word).digest())
                                              for way, word in ((Way.IT, b"lacked"), (Way.AFTER, b"before"))], Hears.CHANNEL_FROM_NOW)
        self.assertEqual((read_heartbeat(on["lacking"]), heartbeat_of(engine)), (engine, on["lacking"]))
        said = self.all["proof"]
        self.assertEqual(form.proof(bytes.fromhex(said["challenge"]), said["origin"]).hex(), said["signature"])
        said = self.all["asked"]
        self.assertEqual(form.keys.claim_name(bytes.fromhex(said["author"]), said["site"]).hex(), said["name"])
        self.assertEqual(form.keys.opening_name().hex(), said["opening"])
        link = read_key_link(self.all["page"])
        self.assertEqual((link.page(), link.key, link.url), (self.all["page"], form.keys.key, self.all["links"][0]["url"]))

    def test_there_is_each_kind_in_either_form(self) -> None:
        for word in self.forms:
            self.assertEqual({one["what"] for one in self.all[word]["entries"]}, {kind.name.lower() for kind in RECORD_KINDS.values()})

    def test_keys_come_by_hkdf(self) -> None:
        for use in "hash", "seal", "base", "anything":
            self.assertEqual(derived(b"k" * 32, use.encode()), HKDF(SHA256(), 32, b"", f"vialshoal 2 {use}".encode()).derive(b"k" * 32))


class Made(unittest.TestCase):
    """What is made is opened as it was, at whoever has the key, and by nobody else."""

    def setUp(self) -> None:
        self.founding = new_founding(bytes(32), 1)
        self.sealed, self.plain = SealedRecords(self.founding.key(), 0), PlainRecords(self.founding.key(), 0)
        self.author = self.sealed.new_author()

    def typed(self, form: RecordForm, author: Author, many: int, text: int = 1) -> list[Record]:
        """Records of a letter each."""
        found, before = list[Record](), ZEROS
        for seq in range(1, many + 1):
            letter = inserting(7, seq, seq, (7, seq - 2) if seq > 1 else None, seq - 1, b"x")._replace(text=text)
            part = packed([letter])
            assert part
            found.append(form.messages(part, before, author))
            before = found[-1].hashes[-1]
        return found

    def test_each_kind_is_opened(self) -> None:
        other = bytes(range(32))
        for form in self.sealed, self.plain:
            author = form.new_author()
            [typed] = self.typed(form, author, 1, 16)
            said = Copied(author.name, 7, other, 9, ((1, 300, 2), (7, 0, 1)), other)
            found = next(found_among(range(100), form.note, author.name, zero_bits=0))
            for one in (form.opening(self.founding), form.claim(found.site, author, found.counter), typed,
                        form.anew_up_to(typed.hashes[0], author, 7, 16),
                        form.copies(said, author, 7, text=2), form.copies(said, author, 7, other, 2),
                        form.renewed("Ann \u00e9" * 90, 7, author)):
                self.assertEqual(form.open(one.raw), one)
                if one.kind is RecordKind.COPIES:
                    self.assertEqual(one.copied, said)
                self.assertEqual(one.founding, self.founding if one.kind is RecordKind.OPENING else None)
                self.assertEqual(one.rank != b"", one.kind is RecordKind.CLAIM)
            self.assertTrue(one.called.startswith("Ann \u00e9Ann"))

    def test_the_longest_fits(self) -> None:
        letters = [Operation(1, 7, 1, 1, MOST_CHUNK + 99, (), 0, b"x" * (MOST_CHUNK + 99), b"\x10Oberon10.Scn.Fnt\x01\x00", 2)]
        part = max(packed_in_parts(one for row in letters for one in row.each()), key=lambda each: len(each.chunk))
        one = self.sealed.messages(part, ZEROS, self.author, {0: b"o" * 32, part.size - 1: b"p" * 32})
        self.assertEqual((self.sealed.open(one.raw), len(part.chunk)), (one, MOST_CHUNK))
        self.assertEqual((len(one.hashes), one.ons[1], one.ons[-1]), (one.size, b"", b"p" * 32))

    def test_the_same_is_made_twice_with_the_same_bytes_and_something_else_under_another_nonce(self) -> None:
        again = SealedRecords(self.founding.key(), 0)
        raws = [[one.raw for one in self.typed(form, self.author, 3)] for form in (self.sealed, again)]
        self.assertEqual(*raws)
        nonces = {one.raw[HEAD:HEAD + 12] for text in (1, 2) for one in self.typed(self.sealed, self.author, 3, text)}
        self.assertEqual(len(nonces), 6)

    def test_many_are_opened_as_one_is(self) -> None:
        for form in self.sealed, self.plain:
            raws = [one.raw for one in self.typed(form, form.new_author(), 450)]
            raws[300] = changed_bytes(raws[300], len(raws[300]) - 1)
            found = form.open_many(raws)
            self.assertEqual({type(one) for one in found}, {Record, Bad})
            for raw, one in zip(raws, found, strict=True):
                if isinstance(one, Bad):
                    self.assertEqual(raw, raws[300])
                else:
                    self.assertEqual(form.open(raw), one)

    def test_who_has_the_key_can_not_write_as_another(self) -> None:
        other = self.sealed.new_author()
        [forged] = self.typed(self.sealed, Author(self.author.name, other.secret), 1)
        [right] = self.typed(self.sealed, self.author, 1)
        for raw in forged.raw, forged.raw[:-SIGNATURE] + self.typed(self.sealed, self.author, 2)[1].raw[-SIGNATURE:]:
            with self.assertRaisesRegex(Bad, "isn't signed by its author"):
                self.sealed.open(raw)
        self.assertEqual(right.raw[:-SIGNATURE], forged.raw[:-SIGNATURE])
        # The opening and the base are whose who has the key.
        self.assertEqual(self.sealed.itself.name, self.sealed.public)

    def test_signed_otherwise_messages_are_the_same_ones(self) -> None:
        founding = new_founding(self.author.name, 7)
        form = SealedRecords(founding.key(), 0)
        typed = self.typed(form, self.author, 3)
        others = [form.open(signed_otherwise(one.raw, self.author)) for one in typed]
        self.assertEqual([one.hashes for one in others], [one.hashes for one in typed])
        self.assertTrue({one.hash for one in typed}.isdisjoint(one.hash for one in others))
        opening = form.opening(founding)
        for some in others, [*typed, *others], [typed[0], others[1], typed[2]]:
            judge = judge_of(form, [opening, *some])
            self.assertEqual((len(judge.count().messages), judge.left_out(), judge.incomplete()), (3, [], 0))
            answer = second.judged(Note(form.keys.key), [one.raw for one in (opening, *some)], 0)
            self.assertEqual(([one.hash for one in answer.through[7, 1]], answer.left_out, answer.bad),
                             ([one.name for one in typed], {}, set()))

    def test_what_is_of_another_form_is_none(self) -> None:
        before = Plain(bytes(16)), Sealed(bytes(32))
        raws = [*(form.claim(7, form.new_author()).raw for form in before), *(form.opening(self.founding).raw for form in (
            self.plain, self.sealed))]
        forms: tuple[Form | RecordForm, ...] = (*before, self.plain, self.sealed)
        for at, form in enumerate(forms):
            for raw in raws[:at] + raws[at + 1:]:
                with self.assertRaises(Bad):
                    form.open(raw[:2] + form.note + raw[18:])

    def test_another_key_opens_nothing(self) -> None:
        [one] = self.typed(self.sealed, self.author, 1)
        other = SealedRecords(bytes(32), 0)
        with self.assertRaisesRegex(Bad, "is of another note"):
            other.open(one.raw)
        other.note = self.sealed.note
        with self.assertRaisesRegex(Bad, "isn't sealed with this note's key"):
            other.open(one.raw)
        self.assertRaises(ValueError, NoteKeys, bytes(31))
        self.assertNotIn(b"x" + one.raw[-16:], one.raw)

    def test_without_the_library_a_plain_note_goes_on(self) -> None:
        with mock.patch.object(signature, "HAS_CRYPTOGRAPHY", False):
            with self.assertRaisesRegex(Trouble, "apt-get install python3-cryptography"):
                SealedRecords(self.founding.key())
            form = PlainRecords(self.founding.key(), 0)
            self.assertEqual([form.open(one.raw) for one in self.typed(form, form.new_author(), 3)][0].size, 1)

    def test_secrets_are_not_printed(self) -> None:
        self.assertNotIn(repr(self.founding.secret)[2:-1], repr(self.founding))
        self.assertEqual(key_of_founding(self.founding.spelled()), self.founding.key())


# The curve of Ed25519 as its definition has it: a point is its x and y.
Point = tuple[int, int]
CURVE = -121665 * pow(121666, -1, FIELD) % FIELD
ROOT_OF_MINUS_ONE = pow(2, (FIELD - 1) // 4, FIELD)


def added(one: Point, two: Point) -> Point:
    """The sum of two points."""
    (x, y), (z, w) = one, two
    product = CURVE * x * z * y * w % FIELD
    return ((x * w + z * y) * pow(1 + product, -1, FIELD) % FIELD, (y * w + x * z) * pow(1 - product, -1, FIELD) % FIELD)


def times(many: int, point: Point) -> Point:
    """A point that is added to itself."""
    found = 0, 1
    while many:
        found, point, many = added(found, point) if many & 1 else found, added(point, point), many >> 1
    return found


def with_y(y: int) -> Point:
    """The point of a y whose x is even."""
    square = (y * y - 1) * pow(CURVE * y * y + 1, -1, FIELD) % FIELD
    x = pow(square, (FIELD + 3) // 8, FIELD)
    x = x if x * x % FIELD == square else x * ROOT_OF_MINUS_ONE % FIELD
    return (x if x % 2 == 0 else FIELD - x), y


def spelled_point(point: Point) -> bytes:
    return (point[1] | (point[0] & 1) << 255).to_bytes(32, "little")


def signed_otherwise(raw: bytes, author: Author) -> bytes:
    """A sealed record with another signature by its author than the one that he makes each time."""
    multiple = int.from_bytes(hashlib.sha512(author.secret).digest()[:32], "little") & 2**254 - 8 | 2**254
    data, begin = raw[:-SIGNATURE], spelled_point(times(5, with_y(4 * pow(5, -1, FIELD) % FIELD)))
    factor = int.from_bytes(hashlib.sha512(begin + author.name + data).digest(), "little")
    return data + begin + ((5 + factor * multiple) % ORDER).to_bytes(32, "little")


class Signatures(unittest.TestCase):
    """What is signed, all who check find signed."""

    def points(self) -> Iterable[bytes]:
        """Points that are near what isn't one to all, and some others."""
        ys = {y + by for y in (*signature.SMALL_ORDER, FIELD, 2**255) for by in (-20, -2, -1, 0, 1, 2, 18, 19)} | {
            random.Random(1).getrandbits(255) for _ in range(200)}
        return [(y % 2**255 | top).to_bytes(32, "little") for y in ys for top in (0, 2**255)]

    def test_points_are_refused_as_the_plain_program_does(self) -> None:
        told = Counter(second.is_point(point) for point in self.points())
        self.assertGreater(min(told.values()), 20)
        for point in self.points():
            self.assertEqual(point not in signature.REFUSED_POINTS, second.is_point(point), point.hex())

    def test_what_some_libraries_take_is_refused(self) -> None:
        name, data = (1).to_bytes(32, "little"), b"anything"
        # Anybody's signature is right for this key to the library.
        Ed25519PublicKey.from_public_bytes(name).verify(name + bytes(32), data)
        self.assertFalse(signature.is_signed(data, name + bytes(32), name))
        secret = b"s" * 32
        public, right = signature.public_of(secret), signature.signed(data, secret)
        self.assertEqual(right, Ed25519PrivateKey.from_private_bytes(secret).sign(data))
        self.assertTrue(signature.is_signed(data, right, public))
        much = int.from_bytes(right[32:], "little") + ORDER
        for wrong in (right[:32] + much.to_bytes(32, "little"), name + right[32:], right[:-1], right + b"\0", b"", bytes(64)):
            self.assertFalse(signature.is_signed(data, wrong, public))
        self.assertFalse(signature.is_signed(data, right, public[:-1]))
        for at in range(64):
            self.assertFalse(signature.is_signed(data, changed_bytes(right, at, 1 << at % 8), public))

    def test_signatures_are_checked_without_cofactor(self) -> None:
        # A key with a part of order 8: who multiplies by the cofactor finds all of these signatures right, and who doesn't, some.
        base, eighth = with_y(4 * pow(5, -1, FIELD) % FIELD), with_y(signature.SMALL_ORDER[3])
        self.assertEqual((times(8, eighth), times(4, eighth)), ((0, 1), (0, FIELD - 1)))
        public, told = spelled_point(added(times(77, base), eighth)), Counter[bool]()
        begin = spelled_point(times(5, base))
        for number in range(64):
            data = bytes([number])
            factor = int.from_bytes(hashlib.sha512(begin + public + data).digest(), "little") % ORDER
            shown = begin + ((5 + factor * 77) % ORDER).to_bytes(32, "little")
            is_right = signature.is_signed(data, shown, public)
            self.assertEqual((is_right, second.is_signed(data, shown, public)), (factor % 8 == 0,) * 2)
            told[is_right] += 1
        self.assertGreater(min(told.values()), 1)

    def test_to_append_one_shows_to_have_the_link_to_one_server_once(self) -> None:
        form, challenge, origin = SealedRecords(b"k" * 32), b"c" * 32, "https://notes.example"
        proof = form.proof(challenge, origin)
        self.assertTrue(may_append(form.note, form.public, challenge, origin, proof))
        other = SealedRecords(b"l" * 32)
        for note, public, asked, at, shown in (
                (other.note, form.public, challenge, origin, proof), (form.note, other.public, challenge, origin, proof),
                (form.note, form.public, bytes(32), origin, proof), (form.note, form.public, challenge, "https://evil.example", proof),
                (form.note, form.public, challenge, origin, other.proof(challenge, origin)), (form.note, b"", challenge, origin, proof),
                (form.note, form.public, challenge, origin, b"")):
            self.assertFalse(may_append(note, public, asked, at, shown))
        self.assertRaises(ValueError, challenged, form.note, bytes(31), origin)


class Claims(unittest.TestCase):
    """Counters that claim numbers."""

    @tries(30)
    @given(SEEDS, st.integers(0, 9))
    def test_those_that_the_plain_program_finds(self, seed: int, bits: int) -> None:
        note, author = random.Random(seed).randbytes(16), random.Random(seed).randbytes(32)
        found = [*found_among(range(seed, seed + 2_000), note, author, zero_bits=bits)]
        plain = [(counter, number) for counter in range(seed, seed + 2_000)
                 if (number := second.number_of(second.rank(note, author, counter), bits)) is not None]
        self.assertEqual(found, plain)
        self.assertTrue(all(one.site == number_of_rank(rank_of(note, author, one.counter), bits) for one in found))

    def test_a_taken_number_is_searched_past(self) -> None:
        found = [*found_among(range(5_000), bytes(16), bytes(32), zero_bits=4)]
        taken = {one.site for one in found[::2]}
        self.assertEqual([*found_among(range(5_000), bytes(16), bytes(32), taken, 4)], [one for one in found if one.site not in taken])

    def test_a_number_that_can_not_be_is_searched_past(self) -> None:
        self.assertEqual([number_of_rank(number.to_bytes(2, "big") + bytes(30)) for number in (0, 1, 65_528, 65_529, 65_535)],
                         [None, 1, 65_528, None, None])
        for bits in 0, 1, 8, 20:
            at = 240 - bits
            self.assertEqual(number_of_rank(b"\0\7" + (1 << at).to_bytes(30, "big") if bits else b"\0\7" + b"\xff" * 30, bits),
                             None if bits else 7)
            self.assertEqual(number_of_rank(b"\0\7" + ((1 << at) - 1).to_bytes(30, "big"), bits), 7)
        self.assertEqual(claim.ZERO_BITS, second.ZERO_BITS)


class Links(unittest.TestCase):
    """A link is read as it was spelled, and each mistake in it is noticed."""

    LINKS = (KeyLink("sealed", bytes(range(32)), "redis://127.0.0.1:7000"), KeyLink("plain", bytes(range(32)), "/home/a b/it's.db"),
             KeyLink("sealed", bytes(32), "unix:///run/redis.sock"), KeyLink("sealed", b"\xff" * 32, "https://notes.example"))

    def test_what_is_spelled_is_read(self) -> None:
        for one in self.LINKS:
            text = one.spelled()
            self.assertEqual((read_key_link(text), read_key_link(f" \n{text}\r\n")), (one, one))
            self.assertEqual(second.read_link(text), (one.form[0], one.key, one.url))
            self.assertEqual(second.link_of(one.key, one.url, one.form[0]), text)
        page = self.LINKS[3].page()
        self.assertEqual((read_key_link(page), page.split("#")[0]), (self.LINKS[3], "https://notes.example/"))
        for said in json.loads(VECTORS.read_text())["links"]:
            one = read_key_link(said["link"])
            self.assertEqual((one.form[0], one.key.hex(), one.url, one.spelled()), (said["form"], said["key"], said["url"], said["link"]))

    def test_a_mistyped_letter_is_noticed(self) -> None:
        for text in [one.spelled() for one in self.LINKS] + [self.LINKS[3].page()]:
            for at in range(len(text)):
                for wrong in (text[:at] + ("B" if text[at] != "B" else "C") + text[at + 1:], text[:at], text[:at] + text[at + 1:],
                              text + "A"):
                    with self.assertRaises(Trouble, msg=wrong):
                        read_key_link(wrong)

    def test_a_link_of_the_first_form_is_none_of_the_second(self) -> None:
        with self.assertRaisesRegex(Trouble, "begins with vialshoal:2:"):
            read_key_link(link.Link("sealed", bytes(32), "redis://h:1").spelled())

    def test_a_link_of_a_later_form_is_refused_in_words(self) -> None:
        for text in [one.spelled() for one in self.LINKS] + [self.LINKS[3].page()]:
            for number in "2.1", "3", "13":
                with self.assertRaisesRegex(Trouble, "made by a later version of vialshoal"):
                    link_of(text.replace("vialshoal:2", f"vialshoal:{number}", 1))

    def test_urls_have_one_spelling(self) -> None:
        for url in ("https://Notes.example", "https://h:443", "https://h:0", "https://h:65536", "https://h:07", "https://h/", "https://u@h",
                    "redis://H:1", "redis://h:01", "x.db", "http://h", "redis://u:hush@h:1", "https://h?x"):
            with self.assertRaises(Trouble, msg=url) as told:
                read_key_link(KeyLink("sealed", bytes(32), url).spelled())
            self.assertNotIn("hush", str(told.exception))
        for url in "https://h", "https://h:8443", "https://[::1]:1", "https://xn--bcher-kva.example", "http://localhost:7007":
            self.assertEqual(read_key_link(KeyLink("sealed", bytes(32), url).spelled()).url, url)

    def test_nothing_goes_to_a_server_unsealed_and_no_key_is_printed(self) -> None:
        for url in "redis://h:1", "https://h", "unix:///a.sock":
            with self.assertRaisesRegex(Trouble, "unsealed"):
                read_key_link(KeyLink("plain", bytes(32), url).spelled())
        self.assertNotIn(repr(self.LINKS[0].key)[2:-1], repr(self.LINKS[0]))


class Presence(unittest.TestCase):
    """What editors say of themselves."""

    def test_each_byte_counts_and_an_entry_is_none(self) -> None:
        form, other = SealedRecords(b"k" * 32), SealedRecords(b"l" * 32)
        raw = form.presence(b"here")
        self.assertEqual((form.present(raw), second.present(Note(b"k" * 32), raw), other.present(raw)), (b"here", b"here", None))
        for wrong in [*(changed_bytes(raw, at) for at in range(len(raw))), *(raw[:end] for end in range(len(raw))), raw + b"x",
                      form.opening(Founding(bytes(32), ZEROS, bytes(32), 1)).raw, form.presence(bytes(MOST_PRESENCE))]:
            self.assertIsNone(form.present(wrong))

    def test_plain_passes_through(self) -> None:
        form = PlainRecords(b"k" * 32)
        self.assertEqual(form.present(form.presence(b"here")), b"here")
        self.assertIsNone(form.present(bytes(MOST_PRESENCE + 1)))

    def test_a_cursor_has_a_text(self) -> None:
        one = Present(bytes(16), bytes(16), 7, "#000000", (7, 4), None, "Ann")
        for text in 1, 2, 16:
            data = presence.presence_of(one._replace(text=text))
            self.assertEqual(presence.read_presence(data), one._replace(text=text))
            self.assertEqual(data[37] >> 4, text - 1)
        self.assertEqual(presence.presence_of(one), presence.presence_of(one._replace(text=1)))


if __name__ == "__main__":
    unittest.main()
