"""What is read of a note's file: in parts, with what was withdrawn left out, and with what has no room read again in its turn."""
import contextlib
import itertools
import math
import random
import sqlite3
import unittest
from typing import Any
from unittest import mock

from share.admission.ledger import Row
from share.format.entry import NOTE_BYTES, Author, Entry, Form
from share.log.bell import Bell
from share.store.entries import Entries
from share.store.guarded import Damaged, Unkept
from share.store.note_file import About, Disk, make_note
from share.store.own import Client, OwnTables
from share.sync.handover import Handover
from share.sync.known import Known
from share.sync.open_file import OpenFile
from share.sync.state import Holdings
from share.sync.status import Notices
from share.tests.naive import entry_of, inserting
from share.tests.support import Case

URL = "redis://nowhere"


def chained(form: Form, claim: Entry, author: Author, many: int, size: int) -> list[Entry]:
    """Entries that follow a claim, of one insertion each."""
    found, at = [claim], 0
    for seq in range(1, many + 1):
        message = inserting(claim.site, seq, at + seq, (claim.site, at - 1) if at else None, at, b"x" * size)
        found.append(entry_of(form, found[-1], [message], author, length=at))
        at += size
    return found[1:]


class Read(Case):
    """A file with what this person wrote, of which the last is withdrawn, and with what another one did."""

    def setUp(self) -> None:
        super().setUp()
        path = self.folder / "notes" / "n.note"
        make_note(path, About(False, bytes(NOTE_BYTES), URL))
        self.disk = Disk(path)
        self.addCleanup(self.disk.close)
        form = self.disk.form
        own, other = form.new_author(), form.new_author()
        self.claim, self.others_claim = form.claim(1, own), form.claim(2, other)
        self.disk.keep([self.claim], True, client=Client(1, own, stood=True))
        self.mine, self.others = chained(form, self.claim, own, 2, 10), chained(form, self.others_claim, other, 100, 1_000)

    def read(self, holdings: Holdings, most: float = math.inf) -> Holdings:
        """What holdings have when all was read, so much at once."""
        holdings.read(self.disk, most)
        holdings.count()
        while holdings.has_more:
            holdings.read(self.disk, most)
            holdings.count()
        return holdings

    def test_what_was_withdrawn_further_on_is_left_out(self) -> None:
        self.disk.keep([self.others_claim, *self.others], False)
        self.disk.keep(self.mine, True)
        self.disk.entries.withdraw([self.mine[1].hash])
        for most in math.inf, 2**14:
            holdings = self.read(Holdings(self.disk.form, Handover()), most)
            self.assertEqual((holdings.judge.front(1), holdings.judge.front(2)), (1, 100))
            self.assertEqual(holdings.withdrawn(), {self.mine[1].hash})

    def test_what_was_withdrawn_further_on_than_damage_is_left_out(self) -> None:
        self.disk.keep([self.others_claim, *self.others], False)
        self.disk.keep(self.mine, True)
        self.disk.entries.withdraw([self.mine[1].hash])
        with contextlib.closing(sqlite3.connect(self.disk.path, isolation_level=None)) as file:
            # Of a part of the file, which is as long as was asked for.
            file.execute("UPDATE entry SET sum = sum + 1 WHERE hash = ?", (self.others[4].hash,))
        holdings = self.read(Holdings(self.disk.form, Handover()), 2**14)
        self.assertEqual((self.disk.entries.damaged, holdings.judge.front(1), holdings.judge.front(2)), (1, 1, 4))
        self.assertEqual(holdings.withdrawn(), {self.mine[1].hash})

    def test_what_has_no_room_comes_in_its_turn_after_something_was_withdrawn(self) -> None:
        self.disk.keep(self.mine, True)
        self.disk.keep([self.others_claim, *self.others[1:]], False)
        with mock.patch("share.sync.state.MOST_UNCOUNTED_BYTES", 60_000):
            holdings = self.read(Holdings(self.disk.form, Handover()))
            self.assertGreater(holdings.waiting_for_room(), 0)
            self.assertEqual(holdings.judge.front(2), 0)
            self.disk.entries.withdraw([self.mine[1].hash])
            self.read(holdings)
            self.disk.keep([self.others[0]], False)
            for found in self.read(holdings), self.read(Holdings(self.disk.form, Handover())):
                self.assertEqual((found.judge.front(1), found.judge.front(2)), (1, 100))
                self.assertEqual(found.waiting_for_room(), 0)

    def test_what_has_no_room_is_read_again_a_part_at_a_time(self) -> None:
        self.disk.keep([self.others_claim, *self.others[1:]], False)
        parts, row_at = list[int](), Entries.row_at

        def counting(entries: Entries, place: int) -> Row | None:
            parts[-1] += 1
            return row_at(entries, place)

        with mock.patch("share.sync.state.MOST_UNCOUNTED_BYTES", 60_000), mock.patch.object(Entries, "row_at", counting):
            holdings = self.read(Holdings(self.disk.form, Handover()))
            waited = holdings.waiting_for_room()
            self.disk.keep([self.others[0]], False)
            while not parts or holdings.has_more:
                parts.append(0)
                holdings.read(self.disk, 5_000)
                holdings.count()
        self.assertEqual((holdings.judge.front(2), sum(parts)), (100, waited))
        # Each has a thousand letters and some bytes.
        self.assertEqual(max(parts), 5)

    def test_what_has_no_room_comes_where_it_could_not_be_read_at_first(self) -> None:
        self.disk.keep([self.others_claim, *self.others[1:]], False)
        row_at, many = Entries.row_at, itertools.count(1)

        def busy(entries: Entries, place: int) -> Row | None:
            if next(many) == 20:
                raise Unkept("it takes too long")
            return row_at(entries, place)

        with mock.patch("share.sync.state.MOST_UNCOUNTED_BYTES", 60_000), mock.patch.object(Entries, "row_at", busy):
            holdings = self.read(Holdings(self.disk.form, Handover()))
            self.disk.keep([self.others[0]], False)
            with self.assertRaises(Unkept):
                self.read(holdings)
            self.assertTrue(holdings.has_more)
            self.assertEqual(self.read(holdings).judge.front(2), 100)

    def test_what_came_is_told_also_where_the_file_can_not_be_looked_at_then(self) -> None:
        file = OpenFile(self.disk, Holdings(self.disk.form, Handover()), Notices())
        file.read_all()
        file.moved = lambda _: None
        with contextlib.closing(self.disk.again()) as other:
            other.keep([self.others_claim], False)
        busy = mock.patch.object(Entries, "size", side_effect=Unkept("it takes too long"))
        with mock.patch("share.sync.open_file.TAKEN_OUT_SECONDS", 0), busy:
            found = file.read()
        self.assertTrue(file.unread)
        self.assertEqual([row.entry for run in (*found, *file.read()) for row in run], [self.others_claim])

    def test_what_takes_part_in_memory_is_written_as_it_was(self) -> None:
        self.disk.keep([self.others_claim, *self.others[::-1]], False)
        holdings = self.read(Holdings(self.disk.form, Handover()))
        for entry in self.claim, self.others_claim, *self.others:
            self.assertEqual(holdings.rows[entry.hash].entry, entry)
        with contextlib.closing(self.disk.again()) as again:
            self.assertEqual({row.entry for row in again.entries.rows()}, {row.entry for row in holdings.rows.values()})

    def test_tables_that_another_program_made_are_damage(self) -> None:
        client = self.disk.own.clients()[0]
        with contextlib.closing(sqlite3.connect(self.disk.path)) as file:
            file.execute("ALTER TABLE client RENAME COLUMN stood TO other")
            with self.assertRaisesRegex(Damaged, "stood"):
                self.disk.own.stands(client)
            file.execute("ALTER TABLE client RENAME COLUMN other TO stood")
            self.disk.own.stands(client)
            file.executescript("ALTER TABLE anew RENAME TO before; CREATE VIEW anew AS SELECT * FROM before")
        with self.assertRaisesRegex(Damaged, "lacks some of its tables"):
            self.disk.again()


class Handed(Case):
    """Rows that one thread put into the file, and hands to the one that reads it."""

    def setUp(self) -> None:
        super().setUp()
        path, about = self.folder / "note", About(False, bytes(NOTE_BYTES), URL)
        make_note(path, about)
        self.disk, self.fetchers = Disk(path), Disk(path)
        self.addCleanup(self.disk.close)
        self.addCleanup(self.fetchers.close)
        self.form, self.handover, bell = self.disk.form, Handover(), Bell()
        self.addCleanup(bell.close)
        self.holdings, self.known = Holdings(self.form, self.handover), Known(True, self.handover, bell)
        self.carried = self.known.of(self.fetchers)
        self.read_back: list[int] = []
        row = Entries._row

        def counted(entries: Entries, place: int, *more: Any) -> Row | None:
            self.read_back.append(place)
            return row(entries, place, *more)

        patch = mock.patch.object(Entries, "_row", counted)
        patch.start()
        self.addCleanup(patch.stop)

    def author(self, site: int, many: int) -> list[Entry]:
        """The entries of somebody."""
        author = self.form.new_author()
        claim = self.form.claim(site, author)
        return [claim, *chained(self.form, claim, author, many, 1)]

    def comes(self, entries: list[Entry]) -> None:
        """What a log has is put into the file."""
        self.known.came(self.fetchers, self.carried, [Row(0, one, False) for one in entries], ())

    def read_all(self, most: float = math.inf) -> None:
        """Reads all that the file has."""
        self.holdings.read(self.disk, most)
        while self.holdings.has_more:
            self.holdings.read(self.disk, most)

    def assert_as_in_the_file(self) -> None:
        """That what was read is what the file has."""
        again = Holdings(self.form, Handover())
        again.read(self.disk)
        self.assertEqual(sorted(self.holdings.rows.values()), sorted(again.rows.values()))
        self.assertEqual(self.holdings.count(), again.count())

    def test_nothing_of_it_is_read_back(self) -> None:
        entries = self.author(1, 400)
        for begin in range(0, len(entries), 80):
            self.comes(entries[begin:begin + 80])
            self.read_all(500 if begin % 160 else math.inf)
        self.assertEqual(self.read_back, [])
        self.assertEqual(self.carried.looked, len(entries))
        self.assertIsNone(self.carried.next_lacking())
        self.assert_as_in_the_file()

    def test_in_whatever_order_it_is_put_and_read(self) -> None:
        chance = random.Random(7)
        mine, coming = self.author(1, 60), [self.author(site, 120) for site in (2, 3)]
        self.disk.keep(mine[:1], True, client=Client(1, Author(mine[0].author, b""), stood=True))
        with mock.patch("share.sync.handover.MOST_HANDED", 6_000):
            while any(coming) or len(mine) > 1:
                what, size = chance.random(), chance.randint(1, 30)
                entries = chance.choice(coming)
                if what < 0.4:
                    # Some came before, by another process of this person.
                    self.disk.keep(entries[:chance.choice([0, 0, 1, size])], False)
                    self.comes(entries[:size])
                    del entries[:size]
                elif what < 0.5 and len(mine) > 1:
                    self.disk.keep([mine.pop(1)], True)
                else:
                    self.holdings.read(self.disk, chance.choice([1, 500, 3_000, math.inf]))
        self.read_all()
        self.assert_as_in_the_file()
        self.assertLess(len(self.read_back), 1_000)
        self.known.look_at(self.fetchers, self.carried)
        self.assertEqual(self.carried.unsent, 60)

    def test_what_was_there_already_is_known_to_be_in_the_log(self) -> None:
        entries = self.author(1, 300)
        self.disk.keep(entries[:3], True, client=Client(1, Author(entries[0].author, b""), stood=True))
        self.comes(entries)
        self.known.look_at(self.fetchers, self.carried)
        places = self.disk.entries.places_of(one.hash for one in entries)
        self.assertEqual((len(places), [*filter(self.carried.was_read, places.values())]), (len(entries), [*places.values()]))
        self.assertEqual(self.carried.unsent, 0)
        # What a log has isn't taken back.
        self.assertEqual(self.disk.entries.withdraw([entries[1].hash]), [])
        self.read_all()
        self.assert_as_in_the_file()

    def test_what_the_disk_did_not_take_is_not_handed_over(self) -> None:
        entries = self.author(1, 5)
        with mock.patch.object(Entries, "put", side_effect=Unkept("the disk is full")), self.assertRaises(Unkept):
            self.comes(entries)
        self.read_all()
        self.assertEqual((len(self.holdings.rows), self.carried.looked), (0, 0))
        self.comes(entries)
        self.read_all()
        self.assert_as_in_the_file()

    def test_what_was_taken_before_the_file_could_not_be_read_is_read_there(self) -> None:
        mine, others = self.author(1, 3), self.author(2, 3)
        self.disk.keep(mine[:1], True, client=Client(1, Author(mine[0].author, b""), stood=True))
        self.read_all()
        faults = (Entries, "read"), (Entries, "withdrawn"), (OwnTables, "clients")
        for (where, what), own, other in zip(faults, mine[1:], others):
            self.comes([other])
            self.disk.keep([own], True)
            with self.subTest(what):
                with mock.patch.object(where, what, side_effect=Unkept("it takes too long")), self.assertRaises(Unkept):
                    self.holdings.read(self.disk)
                self.read_all()
                self.assertEqual(len(self.holdings.rows), self.disk.entries.size())
        self.assert_as_in_the_file()

    def test_rows_of_a_file_that_another_took_the_place_of_are_not_taken(self) -> None:
        entries = self.author(1, 5)
        self.comes(entries)
        other = self.folder / "other"
        make_note(other, self.disk.about, [Row(0, one, False) for one in entries[:2]])
        with contextlib.closing(Disk(other)) as disk:
            self.holdings.read(disk)
        self.assertEqual({row.entry for row in self.holdings.rows.values()}, set(entries[:2]))


if __name__ == "__main__":
    unittest.main()
