"""What is read of a note's file many entries at once is what is read of it one by one: the same counts, and the same is damaged."""
import contextlib
import pathlib
import random
import shutil
import sqlite3
import struct
import unittest
from collections.abc import Sequence
from typing import Any, cast
from unittest import mock

from share.admission.judge import Judge
from share.admission.ledger import Row, Chained
from share.format.chunk import GREATEST_SEQ
from share.format.entry import NO_HASH, Author, Bad, Copied, Entry, FirstEntry, Kind, Plain
from share.format.keystrokes import Keystrokes
from share.format.operation import GREATEST_STAMP, MOST_OF_A_SITE
from share.format.sealed import Sealed
from share.store import chained
from share.store.chained import put_together
from share.store.entries import Entries
from share.store.note_file import About, Disk, make_note
from share.store.own import Client
from share.store.read_only import Judged, judged
from share.sync.handover import Handover
from share.sync.state import Holdings
from share.tests import test_keystrokes
from share.tests.support import Case
from share.tests.test_keystrokes import FORM, Typist, damaged

ROUNDS, PORTION, KEYS = 40, 50, 400
DAMAGES = ("raw = CAST(raw || x'00' AS BLOB)", "raw = x'01'", "raw = 'a word'", "hash = zeroblob(32)", "hash = 7", "sum = sum + 1",
           "sum = NULL", "body = x'00'", "body = 'a word'", "body = 0", "body = ''", "made = 2")


def one_by_one(form: object, keystrokes: object, portion: Sequence[Any]) -> list[Sequence[Any]]:
    """Rows as they were read before some were put together."""
    return [portion]


class Found:
    """What a file has, read in parts, many entries at once or one by one."""

    def __init__(self, path: pathlib.Path, is_quick: bool, parts: random.Random):
        self.chained = 0
        with contextlib.ExitStack() as ways, contextlib.closing(Disk(path)) as disk:
            if is_quick:
                ways.enter_context(mock.patch.object(chained, "Chained", side_effect=self.counted))
            else:
                ways.enter_context(mock.patch("share.store.entries.put_together", one_by_one))
                ways.enter_context(mock.patch.object(Holdings, "_extends", return_value=False))
            ways.enter_context(mock.patch("share.store.entries.ROWS_AT_ONCE", PORTION))
            self.holdings = Holdings(disk.form, Handover())
            self.holdings.has_more = True
            while self.holdings.has_more:
                self.holdings.read(disk, parts.choice([300, 5_000, 20_000]))
                self.holdings.count()
            self.damaged = disk.entries.damaged
            self.rows = {row.entry.hash: row for row in self.holdings.rows.each()}
            self.left = disk.entries.places()

    def counted(self, *words: Any) -> Chained:
        """Some that were put together, which are counted."""
        self.chained += 1
        return Chained(*words)


def printed(path: pathlib.Path, is_quick: bool) -> tuple[Judged, int]:
    """The same for who prints it, and how often some were put together."""
    made = list[Chained]()

    def counted(*words: Any) -> Chained:
        made.append(Chained(*words))
        return made[-1]

    with (mock.patch("share.store.read_only.JUDGED_AT_ONCE", PORTION), mock.patch.object(chained, "Chained", side_effect=counted),
          mock.patch("share.store.read_only.put_together", put_together if is_quick else one_by_one)):
        return judged(path), len(made)


class Alike(Case):
    """Random notes with forks, gaps, others' entries under own numbers, copies and damage."""

    def setUp(self) -> None:
        super().setUp()
        # How often some were put together for who prints.
        self.put_together = 0

    def random_note(self, chance: random.Random, about: About) -> pathlib.Path:
        """The file of one; some of those who wrote it are its person."""
        form, path = about.form(), self.folder / f"{chance.random()}.note"
        with mock.patch.object(test_keystrokes, "FORM", form):
            people = test_keystrokes.Counts().people(chance)
        own = {made[0].site for made in people if chance.random() < 0.5}
        entries = [entry for made in people for entry in made if chance.random() < 0.995]
        if not about.sealed:
            entries += [self.copies(chance, entries) for _ in range(chance.choice([0, 0, 3])) if entries]
        if chance.random() < 0.3:
            chance.shuffle(entries)
        elif chance.random() < 0.5:
            entries.sort(key=lambda entry: entry.first)
        rows = [Row(0, entry, entry.site in own and chance.random() < 0.999) for entry in entries]
        clients = [Client(made[0].site, Author(made[0].author, b"")) for made in people if made[0].site in own]
        withdrawn = [row.entry.hash for row in rows if row.made and chance.random() < 0.001]
        make_note(path, about, rows, clients, withdrawn=withdrawn)
        return path

    def copies(self, chance: random.Random, entries: Sequence[Entry]) -> FirstEntry:
        """What says that a message is a copy of another one."""
        old, new = chance.choice(entries), chance.choice(entries)
        said = Copied(old.author, old.site, new.author, new.site, ((max(1, old.first), new.first, 1),), chance.choice([NO_HASH, new.hash]))
        return FORM.copies(said, Author(old.author, b""), old.site, chance.choice([NO_HASH, old.hash]))

    def assert_alike(self, path: pathlib.Path, chance: random.Random, is_right: bool) -> int:
        """That it is the same by both ways; how often some were put together."""
        self.assert_printed_alike(path)
        other = path.with_suffix(".other")
        shutil.copy(path, other)
        quick, slow = (Found(one, is_quick, random.Random(chance.random())) for one, is_quick in ((path, True), (other, False)))
        self.assertEqual((quick.damaged, quick.left), (slow.damaged, slow.left))
        self.assertEqual({of: row._replace(types_on=False) for of, row in quick.rows.items()},
                         {of: row._replace(types_on=False) for of, row in slow.rows.items()})
        if is_right:
            self.assertEqual((quick.rows, quick.damaged), (slow.rows, 0))
        one, two = quick.holdings, slow.holdings
        assert isinstance(one.judge, Judge) and isinstance(two.judge, Judge)
        test_keystrokes.Counts().assert_alike(one.judge, two.judge)
        self.assertEqual((one.lost(), one.left_out(), one.broken(), one.withdrawn(), one.followed()),
                         (two.lost(), two.left_out(), two.broken(), two.withdrawn(), two.followed()))
        self.assertEqual(*({of for of, client in found.clients.items() if found.is_anothers(client)} for found in (one, two)))
        return quick.chained

    def assert_printed_alike(self, path: pathlib.Path) -> None:
        """That the same is printed by both ways, and what is wrong with it told."""
        (quick, together), (slow, none) = printed(path, True), printed(path, False)
        self.assertEqual((quick.faults, quick.others, none), (slow.faults, slow.others, 0))
        assert isinstance(quick.judge, Judge) and isinstance(slow.judge, Judge)
        test_keystrokes.Counts().assert_alike(quick.judge, slow.judge)
        self.put_together += together

    def test_the_same_counts(self) -> None:
        chance, many = random.Random(8), 0
        for number in range(ROUNDS):
            about = About(number % 4 == 0, bytes(range(32 if number % 4 == 0 else 16)))
            many += self.assert_alike(self.random_note(chance, about), chance, True)
        self.assertGreater(min(many, self.put_together), 2 * ROUNDS)

    def test_the_same_is_damaged(self) -> None:
        chance, many = random.Random(9), 0
        for number in range(ROUNDS):
            about = About(number % 4 == 0, bytes(range(32 if number % 4 == 0 else 16)))
            path = self.random_note(chance, about)
            with contextlib.closing(sqlite3.connect(path, isolation_level=None)) as file:
                places = [place for place, in file.execute("SELECT place FROM entry")]
                for place in chance.sample(places, min(len(places), chance.choice([1, 1, 3]))):
                    with contextlib.suppress(sqlite3.IntegrityError):
                        file.execute(f"UPDATE entry SET {chance.choice(DAMAGES)} WHERE place = ?", (place,))
                file.execute("PRAGMA wal_checkpoint(TRUNCATE)")
            many += self.assert_alike(path, chance, False)
        self.assertGreater(min(many, self.put_together), ROUNDS)

    def test_each_kind_of_damage_and_a_gap_among_many(self) -> None:
        for sealed in False, True:
            about = About(sealed, bytes(range(32 if sealed else 16)))
            form = about.form()
            assert isinstance(form, Plain | Sealed)
            typist = Typist(form, 9)
            for number in range(2 * PORTION):
                # A gap in the seqs is nobody's own.
                typist.seq += 3 * (number == PORTION // 2)
                typist.keep(typist.insert(b"x"))
            for number, damage in enumerate(DAMAGES):
                path = self.folder / f"{sealed}-{number}.note"
                make_note(path, about, (Row(0, entry, True) for entry in typist.entries))
                with contextlib.closing(sqlite3.connect(path, isolation_level=None)) as file, contextlib.suppress(sqlite3.IntegrityError):
                    file.execute(f"UPDATE entry SET {damage} WHERE place = ?", (PORTION // 4,))
                self.assert_alike(path, random.Random(number), False)


class TypedByHand(Case):
    """A note of which each letter is an entry."""

    def setUp(self) -> None:
        super().setUp()
        typist = Typist(FORM, 9)
        for _ in range(KEYS):
            typist.keep(typist.insert(b"x"))
        self.path = self.folder / "typed.note"
        client = Client(9, Author(typist.author.name, b""))
        make_note(self.path, About(False, FORM.note), (Row(0, entry, True) for entry in typist.entries), [client])
        self.entries = typist.entries

    def test_own_keys_are_judged_together(self) -> None:
        holdings = Holdings(FORM, Handover())
        with (contextlib.closing(Disk(self.path)) as disk,
              mock.patch.object(Judge, "add_new", autospec=True, side_effect=Judge.add_new) as added,
              mock.patch.object(Entries, "_row", autospec=True, side_effect=Entries._row) as read):
            holdings.read(disk)
        # Of the claim alone.
        self.assertEqual((added.call_count, read.call_count), (1, 1))
        self.assertEqual(holdings.judge.front(9), KEYS)

    def test_short_ones_are_read_a_part_at_a_time(self) -> None:
        size, holdings = len(self.entries[-1].raw), Holdings(FORM, Handover())
        with contextlib.closing(Disk(self.path)) as disk, mock.patch("share.store.entries.ROWS_AT_ONCE", PORTION):
            reads = 0
            holdings.has_more = True
            while holdings.has_more:
                holdings.read(disk, 2 * PORTION * size)
                reads += 1
                # More portions than one, and not all of it.
                self.assertLess(abs(len(holdings.rows) - min(KEYS, 2 * PORTION * reads)), PORTION)
        self.assertEqual(len(holdings.rows), KEYS + 1)

    def test_what_is_known_already_is_passed_over(self) -> None:
        with contextlib.closing(Disk(self.path)) as disk:
            for known in self.entries[:1], self.entries[:KEYS // 2], self.entries, self.entries[KEYS // 2:]:
                holdings = Holdings(FORM, Handover())
                holdings.add(known)
                new = holdings.read(disk)
                self.assertEqual([row.entry for run in new for row in run], [entry for entry in self.entries if entry not in known])
                self.assertEqual((len(holdings.rows), holdings.judge.front(9)), (KEYS + 1, KEYS))

    def test_what_was_withdrawn_counts_once_a_log_has_it(self) -> None:
        holdings, last = Holdings(FORM, Handover()), self.entries[-KEYS // 2:]
        with contextlib.closing(Disk(self.path)) as disk:
            disk.entries.withdraw(entry.hash for entry in last)
            holdings.read(disk)
            self.assertEqual((holdings.judge.front(9), holdings.withdrawn()), (KEYS // 2, {entry.hash for entry in last}))
            disk.keep(last, made=False)
            holdings.read(disk)
        self.assertEqual((holdings.judge.front(9), holdings.withdrawn()), (KEYS, set()))

    def test_what_is_spelled_wrong_is_taken_out(self) -> None:
        # Numbers so great that what an entry builds on may look as a chunk begins.
        typist = Typist(FORM, 65_000, 2**45, 2**29, 2**21 + 9)
        for _ in range(PORTION):
            right = typist.keep(typist.insert(b"x"))
        head, on = (typist.site, right.first), right.spelled[:len(NO_HASH)]
        for wrong in (FORM._made(Kind.CHUNK, *head, 2, right.before, typist.author, b"", right.spelled),
                      FORM._made(Kind.CHUNK_BUILDING, *head, 1, right.before, typist.author, on, right.spelled[len(on):])):
            path = self.folder / f"{wrong.kind}.note"
            make_note(path, About(False, FORM.note), (Row(0, entry, True) for entry in [*typist.entries[:-1], wrong]))
            with contextlib.closing(Disk(path)) as disk:
                self.assertEqual([row.entry for row in disk.entries.rows()], typist.entries[:-1])
                self.assertEqual(disk.entries.damaged, 1)

    def test_what_is_left_out_is_passed_over(self) -> None:
        # What a later version keeps in another way, more than is read in one go.
        author, path, holdings = Author(self.entries[0].author, b""), self.folder / "newer.note", Holdings(FORM, Handover())
        newer = [FORM._made(cast(Kind, 99), 9, 0, 0, NO_HASH, author, b"", bytes([number])) for number in range(PORTION)]
        entries = [*self.entries[:PORTION], *newer, *self.entries[PORTION:]]
        make_note(path, About(False, FORM.note), (Row(0, entry, True) for entry in entries))
        with contextlib.closing(sqlite3.connect(path, isolation_level=None)) as file:
            file.execute("UPDATE entry SET sum = sum + 1 WHERE place BETWEEN ? AND ?", (PORTION + 1, 2 * PORTION))
        with contextlib.closing(Disk(path)) as disk:
            for _ in range(4 * KEYS):
                holdings.read(disk, len(newer[0].raw))
            self.assertEqual((holdings.judge.front(9), holdings.has_more, disk.entries.damaged), (KEYS, False, 0))

    def test_somebody_else_under_an_own_number_is_seen(self) -> None:
        with contextlib.closing(sqlite3.connect(self.path, isolation_level=None)) as file:
            file.execute("UPDATE entry SET made = 0 WHERE place > ?", (KEYS // 2,))
        holdings = Holdings(FORM, Handover())
        with contextlib.closing(Disk(self.path)) as disk:
            holdings.read(disk)
        self.assertTrue(holdings.is_anothers(*holdings.clients.values()))


class Told(unittest.TestCase):
    """Which entries type on, told of many at once."""

    def is_right(self, entries: Sequence[Entry], before: Keystrokes, now: Keystrokes) -> bool:
        """Whether they are, where it is the same as of one after the other, or wrong both times."""
        letters = bytes([bool(entry.chunk) and not entry.on and entry.size == 1 for entry in entries])
        words = [entry.hash for entry in entries], [entry.body for entry in entries], letters
        try:
            expected = [before.type_on(entry) for entry in entries]
        except Bad:
            with self.assertRaises(Bad):
                now.type_on_each(*words, entries.__getitem__)
            return False
        self.assertEqual([*map(bool, now.type_on_each(*words, entries.__getitem__))], expected)
        return True

    def test_of_what_is_typed_at_random(self) -> None:
        chance = random.Random(10)
        for _ in range(150):
            near = chance.choice([(0, 0, 0), (GREATEST_STAMP - 30, 0, 0), (10**6, GREATEST_SEQ - 20, 10), (127, 120, 100),
                                  (10**8, 10**6, MOST_OF_A_SITE - 40), (2**14 - 5, 2**14 - 9, 2**14 - 9)])
            typist, before, now, is_right = Typist(FORM, chance.choice([1, 127, 128, 65_000]), *near), Keystrokes(), Keystrokes(), True
            typist.entries = []
            while is_right and typist.seq < GREATEST_SEQ and chance.random() < 0.7:
                for _ in range(chance.randint(1, 60)):
                    with contextlib.suppress(struct.error):
                        typist.at_random(chance) if chance.random() < 0.3 else typist.keep(typist.insert(b"k"))
                some, typist.entries = typist.entries, []
                if some and chance.random() < 0.2:
                    at = chance.choice([0, chance.randrange(len(some))])
                    some[at] = damaged(some[at], chance)
                followed = [at for at in range(1, len(some)) if (some[at].site, some[at].first) != (some[0].site, some[at - 1].last + 1)]
                is_right = not some or self.is_right(some[:min(followed, default=len(some))], before, now) and not followed
