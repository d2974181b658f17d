"""Letters of the second form that are read of a note's file many at once are what is read of it one by one: the same counts, and the same
is damaged."""
import contextlib
import os
import pathlib
import random
import shutil
import unittest
from collections.abc import Iterator, Sequence
from functools import partial
from typing import Any
from unittest import mock

from share.admission.judges import judge_of
from share.admission.ledger import Row
from share.admission.letters import Letters
from share.format.chunk import packed
from share.format.entry import NO_HASH, Author, Copied, Entry
from share.format.operation import DELETE, INSERT, PLAIN_LOOKS, Operation
from share.format.second.form import RecordForm
from share.format.second.record import Record
from share.store import letters
from share.store.founding import begun
from share.store.note_file import SECOND, Disk, make_note
from share.store.own import Client
from share.store.read_only import judged
from share.sync.handover import Handover
from share.sync.state import Holdings
from share.tests.counting import instructions
from share.tests.support import Case, change, claim_of
from share.tests.test_chained import DAMAGES
from share.text.names import Names

ROUNDS, PORTION = 15, 60
SERVER = "redis://127.0.0.1:1"
OTHER_LOOKS = b"\x10Oberon12.Scn.Fnt\x01\x00"
# As `put_letters_together`: those who read a file have it by this name.
READERS = "share.store.entries.put_letters_together", "share.store.read_only.put_letters_together"


def one_by_one(_: RecordForm, portion: Sequence[Any]) -> list[Sequence[Any]]:
    """Rows as they were read before some were put together."""
    return [portion]


class Writer:
    """Somebody who writes into one text of a note, mostly letters one after the other."""

    def __init__(self, form: RecordForm, author: Author, site: int, text: int, stamp: int):
        self.form, self.author, self.site, self.text, self.stamp = form, author, site, text, stamp
        self.last: Entry | None = None
        self.seq = self.length = 0

    def entry(self, begin: Entry, chance: random.Random) -> Entry:
        """One more entry, after a claim or the opening where it is the first."""
        what = chance.random() if self.length else 0.0
        data = bytes(chance.choices(b"abc \r\x01\xc3", k=1 if what < 0.9 else chance.randint(2, 30)))
        at = self.length - 1 if chance.random() < 0.96 else chance.randrange(max(1, self.length))
        looks = PLAIN_LOOKS if chance.random() < 0.98 else OTHER_LOOKS
        mentions = (Names(self.site, at, 1),) if self.length else ()
        if what > 0.97:
            one = Operation(DELETE, self.site, self.seq + 1, self.stamp, 1, mentions, text=self.text)
        else:
            one = Operation(INSERT, self.site, self.seq + 1, self.stamp, 1, mentions, self.length, data, looks, self.text)
        part = packed([one], self.length)
        assert part
        self.seq, self.stamp = self.seq + 1, self.stamp + chance.choice([1, 1, 1, 1, 1, 1, 1, 1, 1, 3])
        self.length += len(one.data)
        self.last = self.form.entry(self.last or begin, part, self.author)
        return self.last


class Found:
    """What a file has, read in parts, letters together or one by one."""

    def __init__(self, path: pathlib.Path, is_quick: bool, parts: random.Random):
        self.together = 0
        with contextlib.ExitStack() as ways, contextlib.closing(Disk(path)) as disk:
            for reader in READERS:
                ways.enter_context(mock.patch(reader, self.counted if is_quick else one_by_one))
            ways.enter_context(mock.patch("share.store.entries.ROWS_AT_ONCE", PORTION))
            ways.enter_context(mock.patch("share.store.read_only.JUDGED_AT_ONCE", PORTION))
            printed = judged(path)
            self.printed = sorted(printed.judge.count().messages), printed.faults, [*printed.judge.rows()]
            self.holdings = Holdings(disk.form, Handover())
            self.holdings.has_more = True
            while self.holdings.has_more:
                self.holdings.read(disk, parts.choice([300, 5_000, 20_000]))
                self.holdings.count()
                # What was told may be so no more once more came.
                self.holdings.judge.left_out()
            self.damaged, self.left = disk.entries.damaged, disk.entries.places()

    def counted(self, form: RecordForm, portion: Sequence[Any]) -> Iterator[Letters | Sequence[Any]]:
        """What is put together, which is counted."""
        for one in letters.put_letters_together(form, portion):
            self.together += isinstance(one, Letters)
            yield one

    def said(self) -> object:
        """What counts, what is told of the rest, and what is in memory."""
        judge, holdings = self.holdings.judge, self.holdings
        # Each after its causes, in an order that hangs on how much is read at a time.
        counting = {text: sorted(judge.let_through_in_order(text)) for text in (1, 2)}
        anothers = {client.site: holdings.is_anothers(client) for client in holdings.clients.values()}
        told = judge.left_out(), judge.incomplete(), holdings.lost(), holdings.broken(), {
            of: judge.row(of) for row in judge.rows() for of in (*row.entry.names, row.entry.hash) if isinstance(row.entry, Record)}
        return counting, self.damaged, self.left, [*judge.rows()], told, anothers


class Alike(Case):
    """Random notes, plain and sealed: with forks, gaps, others' records under own numbers, and damage."""

    def random_note(self, chance: random.Random, sealed: bool) -> pathlib.Path:
        """The file of one."""
        about, rows, clients = begun(SERVER if sealed else None, form_number=SECOND)
        form, path = about.form(), self.folder / f"{chance.random()}.note"
        assert isinstance(form, RecordForm)
        other, made = form.new_author(), [row.entry for row in rows]
        claims = [made[0], claim_of(form, 65_000, other)]
        writers = [Writer(form, clients[0].author, clients[0].site, text, 1) for text in (1, 2)] + [Writer(form, other, 65_000, 1, 1)]
        made.append(claims[1])
        for _ in range(chance.randint(1, 12)):
            writer = chance.choice(writers)
            made += [writer.entry(claims[writer.site == 65_000], chance) for _ in range(chance.randint(1, 60))]
        for _ in range(chance.choice([0, 3])):
            made.insert(chance.randrange(1, len(made)), self.word(form, chance, [clients[0].author, other], made))
        made = [one for one in made if chance.random() < 0.998]
        if chance.random() < 0.3:
            chance.shuffle(made)
        is_own = {clients[0].site: True, 65_000: chance.random() < 0.3}
        own = [*clients, *([Client(65_000, other, stood=True)] if is_own[65_000] else [])]
        make_note(path, about, [Row(0, one, is_own.get(one.site, True) and chance.random() < 0.999) for one in made], own)
        return path

    def word(self, form: RecordForm, chance: random.Random, authors: Sequence[Author], made: Sequence[Entry]) -> Record:
        """That some messages were made anew, or are copies of others."""
        of, by = chance.choices([one for one in made if one.size], k=2)
        author = next(one for one in authors if one.name == of.author)
        if chance.random() < 0.5:
            return form.anew_up_to(of.name, author, of.site, of.text)
        # The last one of the copies may be said to come later than any of them.
        lasts = [one.name for one in made if (one.author, one.site, one.text) == (by.author, by.site, by.text) and one.last >= by.first]
        said = Copied(of.author, of.site, by.author, by.site, ((of.first, by.first, 1),), chance.choice([NO_HASH, by.name, lasts[-1]]))
        return form.copies(said, author, of.site, chance.choice([NO_HASH, of.name]), of.text)

    def assert_alike(self, path: pathlib.Path, chance: random.Random) -> int:
        """That it is the same by both ways; how often some were put together."""
        other, seed = path.with_suffix(".other"), chance.random()
        shutil.copy(path, other)
        quick, slow = Found(path, True, random.Random(seed)), Found(other, False, random.Random(seed))
        self.assertEqual(quick.printed, slow.printed)
        self.assertEqual(quick.said(), slow.said())
        return quick.together

    def test_whatever_is_written(self) -> None:
        together = 0
        with mock.patch.dict(os.environ, VIALSHOAL_ZERO_BITS="0"):
            for seed in range(ROUNDS):
                chance = random.Random(seed)
                with self.subTest(seed=seed):
                    path = self.random_note(chance, sealed=seed % 3 == 0)
                    together += self.assert_alike(path, chance)
                    with contextlib.closing(Disk(path)) as disk:
                        places = [row.place for row in disk.entries.rows()]
                    for damage in chance.sample(DAMAGES, 3):
                        change(path, f"UPDATE OR IGNORE entry SET {damage} WHERE place = ?", chance.choice(places))
                        self.assert_alike(path, chance)
        self.assertGreater(together, 3 * ROUNDS)


class Cost(unittest.TestCase):
    """What it takes to put rows together, counted."""

    def rows(self, jumps: bool) -> tuple[RecordForm, list[Any]]:
        """Letters, each typed on or each at the front."""
        about, rows, clients = begun(None, form_number=SECOND)
        form, last, kept = about.form(), rows[0].entry, list[Any]()
        assert isinstance(form, RecordForm)
        for at in range(400):
            mentions = (Names(clients[0].site, 0 if jumps else at - 1, 1),) if at else ()
            part = packed([Operation(INSERT, clients[0].site, at + 1, at + 1, 1, mentions, at, b"x", PLAIN_LOOKS)])
            assert part
            last = form.entry(last, part, clients[0].author)
            kept.append((at + 1, last.hash, last.raw, None, 0, 1))
        return form, kept

    def test_letters_here_and_there_cost_a_bounded_look_each(self) -> None:
        form, kept = self.rows(jumps=True)
        few, many = (instructions(partial(self.put, form, kept[:size])) for size in (100, 400))
        self.assertLess(many, 6 * few)

    def put(self, form: RecordForm, kept: list[Any]) -> None:
        """Puts rows together, of which none are."""
        self.assertEqual([*letters.put_letters_together(form, kept)], [kept])

    def test_letters_typed_on_are_one(self) -> None:
        form, kept = self.rows(jumps=False)
        (one,) = letters.put_letters_together(form, kept)
        assert isinstance(one, Letters)
        self.assertEqual([*one], [Row(place, form.open(raw), True) for place, _, raw, *_ in kept])
        self.assertEqual([*one.names], [row.entry.name for row in one])

    def test_what_does_not_name_the_one_before_it_is_left_by_itself(self) -> None:
        form, kept = self.rows(jumps=False)
        del kept[200:202]
        self.assertEqual([[*map(len, [one])] for one in letters.put_letters_together(form, kept)], [[200], [198]])
        again = [*kept[:100], *self.rows(jumps=False)[1][100:]]
        self.assertEqual([*letters.put_letters_together(form, again)], [again])


class Told(unittest.TestCase):
    """What was told of messages that were left out, as more come."""

    def setUp(self) -> None:
        about, rows, (client,) = begun(None, form_number=SECOND)
        with mock.patch.dict(os.environ, VIALSHOAL_ZERO_BITS="0"):
            form = about.form()
        assert isinstance(form, RecordForm)
        self.form, opening = form, rows[0].entry
        # Of two messages of hers one is left out, and she says that the first letter of another author stands for it, up to his last one.
        first, second = (self.letter(opening, client.author, client.site, 1, data) for data in (b"x", b"y"))
        lost = max(first, second, key=lambda one: one.name)
        author = form.new_author()
        claim = claim_of(form, 65_000, author)
        self.letters = [self.letter(claim, author, claim.site, 1, lost.messages[0].data)]
        while len(self.letters) < 20:
            self.letters.append(self.letter(self.letters[-1], author, claim.site, len(self.letters) + 1, b"z"))
        said = Copied(lost.author, lost.site, author.name, claim.site, ((1, 1, 1),), self.letters[-1].name)
        word = form.copies(said, client.author, client.site, lost.name)
        self.judge = judge_of(form, [opening, claim, first, second, word, self.letters[0]])
        self.judge.count()
        self.assertEqual([(one.site, one.author) for one in self.judge.left_out()], [(lost.site, lost.author)])

    def letter(self, before: Entry, author: Author, site: int, seq: int, data: bytes) -> Entry:
        """A letter that is typed on."""
        part = packed([Operation(INSERT, site, seq, seq, 1, (Names(site, seq - 2, 1),) if seq > 1 else (), seq - 1, data, PLAIN_LOOKS)])
        assert part
        return self.form.entry(before, part, author)

    def test_it_hangs_on_the_last_one_of_the_copies_read_together(self) -> None:
        rows = [(place, one.hash, one.raw, None, 0, 1) for place, one in enumerate(self.letters[1:], 1)]
        (together,) = letters.put_letters_together(self.form, rows)
        assert isinstance(together, Letters)
        self.assertTrue(self.judge.extend(together))
        self.assertEqual(self.judge.left_out(), [])

    def test_it_hangs_on_the_last_one_of_the_copies_in_a_run(self) -> None:
        self.assertTrue(self.judge.extend([Row(0, one, False) for one in self.letters[1:]]))
        self.assertEqual(self.judge.left_out(), [])

    def test_it_hangs_on_the_last_one_of_the_copies_by_itself(self) -> None:
        for one in self.letters[1:]:
            self.judge.add(one)
        self.assertEqual(self.judge.left_out(), [])


if __name__ == "__main__":
    unittest.main()
