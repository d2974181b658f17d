"""What somebody with the link can take from a note of the second form, and what that costs: of what was copied into it nothing; a number by
a search, whose price is counted here with fewer zero bits than notes have; and of an own number its text, which is told, and which anybody
types again."""
import contextlib
import hashlib
import itertools
import math
import os
import subprocess
import unittest
from collections.abc import Iterable, Sequence
from types import SimpleNamespace
from unittest import mock

from share.format.chunk import Packed, packed
from share.format.entry import GREATEST_SITE, NO_HASH, Author, Copied, Entry
from share.format.operation import INSERT, PLAIN_LOOKS, Operation
from share.format.second import claim as claims
from share.format.second.claim import found_among, number_of_rank, rank_of
from share.format.second.form import RecordForm
from share.format.second.record import Record, RecordKind
from share.store import notes
from share.store.note_file import SECOND
from share.tests.note import Note
from share.tests.support import NOTE, TOP, Case, Person, claim_against, claim_of, type_at_the_end, wait_for, written
from share.tests.test_record_judge import Writer
from share.tests.waiting import PATIENCE
from share.text.names import Names

NOTES_PAGE = TOP / "docs" / "NOTES.md"
SECONDS = {"ms": 1e-3, "s": 1.0, "minutes": 60.0, "hours": 3_600.0, "days": 86_400.0}
MISSING = 3
# How the other words begin that somebody writes in the place of some.
OTHER = "other-"
NUMBER_BITS, ALL = 16, frozenset(range(1 << 16))
# A note and an author of a search that comes to the same each time, and how many counters are tried.
SOME_NOTE, SOME_AUTHOR, TRIES = b"some other note.", b"somebody who searches for numbers", 1 << 18
# How many claims of a number somebody finds, of which the best is made.
CLAIMS = 4


class OfSecondForm(Case):
    """A test with people who have a note of the second form, and one of them who has the link and wishes them ill."""

    zero_bits = "0"

    def setUp(self) -> None:
        super().setUp()
        second = mock.patch.dict(os.environ, VIALSHOAL_FORM="2", VIALSHOAL_ZERO_BITS=self.zero_bits)
        second.start()
        self.addCleanup(second.stop)
        self.ann, self.bob, self.carol = (self.person(name) for name in ("ann", "bob", "carol"))

    def run_as(self, person: Person, *words: str, status: int = 0) -> str:
        """What bin/note prints for somebody, with this status."""
        done = subprocess.run([NOTE, *words], capture_output=True, timeout=PATIENCE, check=False, stdin=subprocess.DEVNULL,
                              env={**os.environ, "VIALSHOAL_DATA": str(person.data)})
        self.assertEqual(done.returncode, status, (words, done.stdout, done.stderr))
        self.said = done.stderr.decode()
        return done.stdout.decode()

    said = ""

    def form(self, person: Person) -> RecordForm:
        """The note's form, with its key, which the link has."""
        with contextlib.closing(person.disk()) as disk:
            assert isinstance(disk.form, RecordForm)
            return disk.form

    def entries(self, person: Person) -> list[Record]:
        """What somebody's file has."""
        with contextlib.closing(person.disk()) as disk:
            return [row.entry for row in disk.entries.rows() if isinstance(row.entry, Record)]

    def send(self, person: Person, *entries: Entry) -> None:
        """Puts entries into the log of somebody's note."""
        with contextlib.closing(person.log()) as log:
            log.append([one.raw for one in entries])


class AfterRenewing(OfSecondForm):
    """Ann has renewed a note in which Bob wrote, too: somebody with the link claims the numbers that were copied, and writes under them."""

    def begun(self, form: str) -> tuple[Note, Note, set[int]]:
        """The notes of both, which Ann has renewed from one of a form, and the copied numbers."""
        with mock.patch.dict(os.environ, VIALSHOAL_FORM=form):
            first = self.ann.open(url=self.file_log())
            written(first, "one three ")
            second = self.bob.open("before", link=self.ann.link())
            self.assert_comes_to(second, b"one three ")
            type_at_the_end(second, "")
            second.moved_to(len("one "))
            second.type("two ")
            self.assert_meet(first, second)
            numbers = {note.session.number for note in (first, second)}
            for note in first, second:
                note.session.close()
        with self.ann.here():
            notes.renew("note", None, None, form_number=SECOND)
        ann = self.opened(self.ann)
        written(ann, "four ")
        bob = self.opened(self.bob, link=self.ann.link())
        self.assert_comes_to(bob, b"one two three four ")
        type_at_the_end(bob, "five ")
        self.assertEqual(self.assert_meet(ann, bob), b"one two three four five ")
        return ann, bob, numbers

    def hostile(self, form: RecordForm, base: Sequence[Record], site: int) -> Iterable[Record]:
        """What is right by itself, and takes a copied number: the best of some claims, messages in the place of those that were copied and
        behind them, and others of the base, which whoever has the link can write."""
        author, last = form.new_author(), [one for one in base if one.site == site][-1]
        some = itertools.islice(found_among(itertools.count(), form.note, author.name, ALL - {site}, 0), CLAIMS)
        yield form.claim(site, author, min((one.counter for one in some), key=lambda counter: rank_of(form.note, author.name, counter)))
        (message, *_), spam = last.messages, Operation(INSERT, site, 1, 1, 4, (), 0, b"SPAM", PLAIN_LOOKS)
        yield form.messages(one_part(spam), NO_HASH, author)
        yield form.messages(one_part(after(last, b"SPAM")), last.links[-1], author)
        yield form.base(one_part(spam), NO_HASH)
        yield form.base(one_part(message._replace(data=b"S")), last.before)
        yield form.base(one_part(after(last, b"SPAM")), last.links[-1])

    def claimed(self, form: str) -> None:
        """That nothing goes as somebody claims the numbers that were copied from a note of a form, and the founder's."""
        ann, bob, numbers = self.begun(form)
        of, entries = self.form(self.ann), self.entries(self.ann)
        founding = next(one.founding for one in entries if one.founding)
        assert founding
        base = [one.linked(founding) for one in entries if one.kind is RecordKind.BASE]
        self.assertEqual({one.site for one in base}, numbers)
        made = [claim_of(of, founding.number), *(one for site in numbers for one in self.hostile(of, base, site))]
        self.send(self.ann, *made)
        # Who has this has what was put into the log before it.
        type_at_the_end(ann, "six ")
        late = self.opened(self.carol, link=self.ann.link())
        for note in bob, late:
            self.assert_comes_to(note, b"one two three four five six ")
        for note in ann, bob, late:
            wait_for(lambda one=note: (one.take_in(), all(each.hash in one.session._holdings.judge for each in made))[1], "all to be here")
            self.assertEqual(bytes(note.text), b"one two three four five six ")
            # All that is left out is what was written under those claims.
            self.assertEqual({(one.site, one.text) for one in note.session.lost()}, {(site, b"SPAM") for site in numbers})
            note.session.close()
        for person in self.ann, self.carol:
            self.assertEqual(self.run_as(person, "cat", "note", status=MISSING), "one two three four five six ")
            # All of it is: nothing that comes could make what was written behind the base count.
            self.assertEqual((self.said.count("Left out"), self.said.count("\n")), (1, 1), self.said)
            self.assertEqual(self.said.count("8 characters"), 2, self.said)

    def test_no_claim_takes_away_what_was_copied(self) -> None:
        self.claimed("2")

    def test_nor_what_was_copied_from_a_note_of_the_first_form(self) -> None:
        self.claimed("1")


class TakenOver(OfSecondForm):
    """Somebody with the link takes the number of one who joined; or one who holds a key writes something else in its place."""

    zero_bits = "2"
    line = "Dear all, we meet at ten. "

    def begun(self) -> tuple[int, str]:
        """Ann makes a note, in which Bob writes a line, and she within and behind that; his number, and the text. Carol has it, too."""
        ann = self.ann.open(url=self.file_log())
        type_at_the_end(ann, "")
        bob = self.bob.open(link=self.ann.link())
        written(bob, self.line)
        self.assert_comes_to(ann, self.line.encode())
        ann.moved_to(len("Dear all"))
        ann.type(" of you")
        written(ann, "Ann. ")
        text = bytes(ann.text).decode()
        self.assert_comes_to(bob, text.encode())
        for note in ann, bob, self.carol.open(link=self.ann.link()):
            note.session.close()
        self.assertEqual(self.run_as(self.carol, "cat", "note"), text)
        return bob.session.number, text

    def assert_told_and_typed_again(self, site: int, text: str, status: int = 0) -> None:
        """That Carol, who has nobody's key, is told how much is left out, and whose, and brings all of it back, once; then a note is
        printed with this status."""
        self.run_as(self.carol, "cat", "note", status=MISSING)
        self.assertIn(f"Left out, since others hold its place: {len(self.line)} characters of site {site}", self.said)
        self.assertIn("characters of site", self.said.replace(f"of site {site}", ""))
        self.assertIn(self.line, self.run_as(self.carol, "recover", "--lost", "note"))
        late = self.person("late")
        late.open(link=self.ann.link()).session.close()
        for person in self.carol, late, self.ann, self.bob:
            shown = self.run_as(person, "cat", "note", status=status)
            self.assertEqual(sorted(word for word in shown.split() if not word.startswith(OTHER)), sorted(text.split()))
            self.assertEqual(self.run_as(person, "recover", "--lost", "note"), "Nothing was left out.\n")

    def test_a_number_is_taken_for_its_price_and_for_no_less(self) -> None:
        site, text = self.begun()
        form = self.form(self.ann)
        own = next(one for one in self.entries(self.ann) if one.kind is RecordKind.CLAIM and one.site == site)
        author = form.new_author()
        # Who has searched for fewer zeros has no claim.
        less = (one.counter for one in found_among(itertools.count(), form.note, author.name, ALL - {site}, 0)
                if number_of_rank(rank_of(form.note, author.name, one.counter), form.zero_bits) is None)
        self.send(self.ann, *(form.claim(site, author, counter) for counter in itertools.islice(less, 2)))
        self.run_as(self.carol, "cat", "note", status=MISSING)
        self.assertNotIn("Left out", self.said)
        self.send(self.ann, claim_against(form, own))
        # That there were claims which are none is told as long as the log has them.
        self.assert_told_and_typed_again(site, text, MISSING)

    def test_who_holds_a_key_takes_no_more_than_is_told_and_brought_back(self) -> None:
        site, text = self.begun()
        form = self.form(self.bob)
        with contextlib.closing(self.bob.disk()) as disk:
            author = next(one.author for one in disk.own.clients() if one.site == site)
        typed = next(one for one in self.entries(self.bob) if one.site == site and one.hashes)
        self.send(self.ann, fork(form, author, typed))
        self.assert_told_and_typed_again(site, text)


class Unplaced(OfSecondForm):
    """Somebody with the link says what became of messages before one that has no place, since it follows a message of another text."""

    def test_editors_and_scripts_go_on(self) -> None:
        ann = self.opened(self.ann, url=self.file_log())
        type_at_the_end(ann, "one ")
        form = self.form(self.ann)
        authors = {site: form.new_author() for site in (65_000, 65_001)}
        typed, again = (Writer(form, authors[site], site, text).type(b"abc") for site, text in ((65_000, 1), (65_001, 2)))
        unplaced = form.messages(one_part(Operation(INSERT, 65_000, 4, 9, 1, (), 0, b"d", PLAIN_LOOKS, 2)), typed[-1].name, authors[65_000])
        said = Copied(typed[0].author, 65_000, again[0].author, 65_001, ((2, 1, 1),), again[-1].name)
        word = form.copies(said, authors[65_001], 65_001, unplaced.name, 2)
        self.send(self.ann, *(claim_of(form, site, author) for site, author in authors.items()), *typed, unplaced, *again, word)
        bob = self.opened(self.bob, link=self.ann.link())
        for note in ann, bob:
            wait_for(lambda one=note: (one.take_in(), word.hash in one.session._holdings.judge)[1], "the word")
            type_at_the_end(note, "two ")
            shown = self.assert_meet(ann, bob)
        self.assertEqual(shown.count(b"two "), 2)
        for note in ann, bob:
            note.session.close()
        self.assertEqual(self.run_as(self.ann, "cat", "note").count("two "), 2)


class Price(unittest.TestCase):
    """How many hashes it takes until a number is had, which are counted, with few zero bits."""

    def price(self, zero_bits: int, is_held: bool = False) -> float:
        """How many hashes one given number takes on average, over all numbers and some tries: where somebody holds it, by a claim whose
        rank is the median."""
        first = dict[int, int]()
        half = 1 << 8 * len(rank_of(SOME_NOTE, SOME_AUTHOR, 0)) - NUMBER_BITS - zero_bits - 1
        for one in found_among(range(TRIES), SOME_NOTE, SOME_AUTHOR, (), zero_bits):
            if one.site in first:
                continue
            behind = int.from_bytes(rank_of(SOME_NOTE, SOME_AUTHOR, one.counter)[NUMBER_BITS // 8:], "big")
            if not is_held or behind < half:
                first[one.site] = one.counter + 1
        # Where none was found so many were tried, too.
        return (sum(first.values()) + TRIES * (GREATEST_SITE - len(first))) / len(first)

    def test_one_number_takes_what_the_page_says(self) -> None:
        for zero_bits in 0, 4, 8:
            with self.subTest(zero_bits):
                self.assertAlmostEqual(math.log2(self.price(zero_bits)), NUMBER_BITS + zero_bits, delta=0.1)

    def test_one_that_is_held_takes_twice_that(self) -> None:
        for zero_bits in 0, 4:
            with self.subTest(zero_bits):
                self.assertAlmostEqual(math.log2(self.price(zero_bits, is_held=True)), NUMBER_BITS + zero_bits + 1, delta=0.1)

    def test_any_free_number_takes_the_zero_bits_alone(self) -> None:
        for zero_bits in 4, 8:
            with self.subTest(zero_bits):
                many = sum(1 for _ in found_among(range(TRIES), SOME_NOTE, SOME_AUTHOR, (), zero_bits))
                self.assertAlmostEqual(math.log2(TRIES / many), zero_bits, delta=0.1)

    def test_each_counter_that_is_tried_is_a_hash(self) -> None:
        hashes = list[Hash]()
        with mock.patch.object(claims, "hashlib", SimpleNamespace(sha512=lambda data: Hash(hashlib.sha512(data), hashes))):
            self.assertTrue([*found_among(range(1_000), SOME_NOTE, SOME_AUTHOR, (), 0)])
        self.assertEqual(len(hashes), 1_000)

    def test_the_page_says_it_in_time(self) -> None:
        """The page's seconds are its tries by its hashes a second."""
        rows = [line.split(" | ") for line in NOTES_PAGE.read_text(encoding="utf-8").splitlines() if " | 2^" in line]
        self.assertEqual([tries for _, tries, *_ in rows], ["2^20", "2^36", "2^37", "2^39.5"])
        for words, tries, *times in rows:
            for a_second, said in zip((3.4e6, 7.5e9), times):
                seconds, unit = said.split(";")[0].split()
                self.assertAlmostEqual(float(seconds) * SECONDS[unit] * a_second / 2 ** float(tries[2:]), 1, delta=0.35, msg=words)


class Hash:
    """A hash that notes when it is computed."""

    def __init__(self, of: "hashlib._Hash", computed: list["Hash"]):
        self._of, self._computed = of, computed

    def copy(self) -> "Hash":
        """The same, to go on from."""
        return Hash(self._of.copy(), self._computed)

    def update(self, data: bytes) -> None:
        """Takes more in."""
        self._of.update(data)

    def digest(self) -> bytes:
        """What it comes to."""
        self._computed.append(self)
        return self._of.digest()


def fork(form: RecordForm, author: Author, typed: Record) -> Record:
    """Other words in the place of an entry, which hold against it."""
    message = typed.messages[0]
    for number in range(100_000):
        one = form.messages(one_part(message._replace(data=b"%s%06d " % (OTHER.encode(), number))), typed.before, author)
        if one.hashes[0] < typed.hashes[0]:
            return one
    raise AssertionError("none holds")


def after(last: Record, data: bytes) -> Operation:
    """Letters that are typed on after the last ones of an entry."""
    *_, message = last.messages
    at = message.at + len(message.data)
    return Operation(INSERT, last.site, last.last + 1, message.stamp + 1, len(data), (Names(last.site, at - 1, 1),), at, data, PLAIN_LOOKS)


def one_part(operation: Operation) -> Packed:
    """An operation's chunk."""
    found = packed([operation])
    assert found
    return found


if __name__ == "__main__":
    unittest.main()
