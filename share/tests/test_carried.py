"""What a log has is known by one owner: what it loses is given again, whenever it loses it, and what was dropped or
withdrawn here is kept again."""
import contextlib
import pathlib
import random
import threading
import unittest
from collections.abc import Sequence
from typing import Any
from unittest import mock

from share.format.entry import Entry
from share.log.base import InLog
from share.log.redis import RedisLog
from share.log.sqlite import SqliteLog
from share.store.entries import Entries
from share.store.guarded import Damaged, Unkept
from share.sync.carried import Carried
from share.tests.note import Note
from share.tests.support import Case, Person, change, claim_of, damage, raws_of, type_at_the_end, wait_for, written


class Marks(unittest.TestCase):
    """The marks of places, beside plain sets."""

    def test_what_is_folded_is_neither_lacking_nor_lost(self) -> None:
        carried = Carried(None)
        carried.found(6, [1, 2, 3])
        carried.begin()
        carried.read([1, 2])
        carried.end()
        carried.gave([3, 4])
        self.assertEqual((carried.unsent, carried.next_lacking()), (0, 5))
        carried.fold([1, 2, 3])
        self.assertEqual([carried.is_folded(place) for place in range(1, 5)], [True, True, True, False])
        # Who has read the log to its end, without what was taken out of it before that was read, takes no more than the other one for lost.
        self.assertEqual(carried.came_to_end(frozenset([3, 4])), 1)
        carried.took_out([1, 2])
        carried.begin()
        self.assertEqual(carried.missing(), [])
        carried.end()
        carried.lets_go()
        self.assertEqual(([carried.has(place) for place in range(1, 4)], carried.unsent, carried.next_lacking()), ([False] * 3, 0, 4))
        carried.read([4, 5, 6])
        self.assertTrue(carried.is_given())

    def test_marks_are_what_sets_say(self) -> None:
        chance = random.Random(5)
        for _ in range(50):
            carried, own = Carried(None), set(chance.sample(range(1, 60), 20))
            read, given, had = set[int](), set[int](), set[int]()
            carried.found(60, own)
            for _ in range(30):
                some = set(chance.sample(range(1, 60), chance.randint(0, 12)))
                if chance.random() < 0.4:
                    # A stretch of places is marked at once.
                    some = set(range(begin := chance.randint(1, 59), chance.randint(begin, 60)))
                match chance.randrange(5):
                    case 0:
                        had, read, given = had | read | given, set(), set()
                        carried.begin()
                    case 1:
                        read, given = read | some, given - some
                        carried.read(some)
                    case 2:
                        given |= some - read
                        carried.gave(some)
                    case 3:
                        lost = some & given
                        self.assertEqual(carried.came_to_end(frozenset(some)), len(lost))
                        given -= lost
                    case 4:
                        self.assertEqual(set(carried.missing()), had - read - given)
                        carried.end()
                        had = set()
                there = read | given | had
                self.assertEqual({place for place in range(61) if carried.has(place)}, there)
                self.assertEqual({place for place in range(61) if carried.was_read(place)}, read)
                self.assertEqual(carried.given(), given)
                self.assertEqual(carried.unsent, len(own - there))

    def test_what_is_held_back_is_no_more_lacking(self) -> None:
        carried = Carried(None)
        carried.found(9, [2, 5])
        carried.read([1, 3, 4])
        found = []
        while (place := carried.next_lacking()) is not None:
            found.append(place)
            carried.holds_back([place], carried.lettings)
        self.assertEqual((found, carried.unsent), ([2, 5, 6, 7, 8, 9], 2))
        carried.end()
        self.assertEqual((carried.next_lacking(), carried.unsent), (2, 2))
        carried.gave([2])
        carried.holds_back([5, 6, 7, 8], carried.lettings)
        self.assertEqual((carried.next_lacking(), carried.unsent), (9, 1))
        self.assertEqual(carried.came_to_end(carried.given()), 1)
        self.assertEqual((carried.next_lacking(), carried.unsent), (9, 2))
        carried.lets_go()
        self.assertEqual((carried.next_lacking(), carried.unsent), (2, 2))
        carried.took_back(1, [2])
        self.assertEqual(carried.unsent, 1)

    def test_what_was_let_go_meanwhile_is_not_held_back(self) -> None:
        carried = Carried(None)
        carried.found(1, [1])
        for lets_go in carried.begin, carried.end, carried.lets_go:
            before = carried.lettings
            carried.holds_back([1], before)
            self.assertIsNone(carried.next_lacking())
            lets_go()
            carried.holds_back([1], before)
            self.assertEqual(carried.next_lacking(), 1)

    def test_a_million_entries_take_a_byte_each(self) -> None:
        carried = Carried(None)
        carried.found(1_000_000, [])
        carried.read(range(1, 1_000_001))
        carried.begin()
        self.assertEqual(len(carried._marks), 1_000_001)
        self.assertFalse(carried.given())


class Lost(Case):
    """A log in a file loses entries in the moment in which it is given some."""

    def setUp(self) -> None:
        super().setUp()
        self.path = pathlib.Path(self.file_log())
        self.anna = self.person("anna")

    def assert_log_is_full(self) -> None:
        """That the log has all that is on Anna's disk, soon."""
        with contextlib.closing(self.anna.disk()) as disk:
            held = {row.entry.raw for row in disk.entries.rows()}
        with contextlib.closing(self.anna.log()) as log:
            wait_for(lambda: held <= {*raws_of(log)}, "the log to be filled again")

    def test_what_is_lost_while_it_is_given(self) -> None:
        note, append, done = self.opened(self.anna, url=str(self.path)), SqliteLog.append, list[int]()
        written(note, "one ")
        replicator = note.session._replicator
        # A log of which nothing was read yet begins no reading anew where it has nothing more.
        wait_for(lambda: not replicator._known.now.given(), "what was given to be read")

        def appended(log: SqliteLog, raws: Sequence[bytes]) -> None:
            append(log, raws)
            if not done:
                # Who reads the log sees that, and begins anew, before it is known here what was given.
                before = replicator.reading()
                change(self.path, "DELETE FROM entry")
                done.append(before)
                wait_for(lambda: replicator.reading() > before, "the loss to be seen")

        with mock.patch.object(SqliteLog, "append", appended):
            type_at_the_end(note, "two ")
            wait_for(lambda: done, "an entry to be given and lost")
            self.assert_log_is_full()
        wait_for(lambda: not note.session.status().unsent, "all to be sent")

    def test_a_new_log_that_loses_all_before_it_was_read(self) -> None:
        append, read, one_at_a_time, done = SqliteLog.append, SqliteLog.read, threading.Lock(), list[int]()

        def appended(log: SqliteLog, raws: Sequence[bytes]) -> None:
            with one_at_a_time:
                append(log, raws)
                if not done:
                    done.append(len(raws))
                    change(self.path, "DELETE FROM entry")

        def read_between(log: SqliteLog, after: str) -> Any:
            with one_at_a_time:
                return read(log, after)

        with mock.patch.object(SqliteLog, "append", appended), mock.patch.object(SqliteLog, "read", read_between):
            note = self.opened(self.anna, url=str(self.path))
            wait_for(lambda: done, "an entry to be given and lost")
            self.assert_log_is_full()
        wait_for(lambda: (note.take_in(), "The log has lost 1 entry that it had. It is filled again from here" in str(note.told))[1],
                 "the loss to be told")

    def test_a_loss_that_can_not_be_counted_at_once_is_told(self) -> None:
        note, many_at, faults = self.opened(self.anna, url=str(self.path)), Entries.many_at, [Unkept("busy"), Damaged("away")]
        written(note, "one ")
        wait_for(lambda: not note.session._replicator._known.now.given(), "what was given to be read")

        def counted(entries: Entries, places: Sequence[int]) -> int:
            if places and faults:
                raise faults.pop()
            return many_at(entries, places)

        with mock.patch.object(Entries, "many_at", counted):
            change(self.path, "DELETE FROM entry WHERE hash = ?", note.session.last().hash)
            wait_for(lambda: (note.take_in(), "The log has lost 1 entry that it had" in str(note.told))[1], "the loss to be told")
        self.assertFalse(faults)
        self.assert_log_is_full()

    def test_a_log_that_keeps_losing_an_entry_gets_the_others(self) -> None:
        note, append, lost = self.opened(self.anna, url=str(self.path)), SqliteLog.append, list[bytes]()
        written(note, "one ")

        def appended(log: SqliteLog, raws: Sequence[bytes]) -> None:
            if not lost:
                lost.append(raws[0])
            append(log, [raw for raw in raws if raw != lost[0]])
            tries.append(lost[0] in raws)

        tries = list[bool]()
        with mock.patch.object(SqliteLog, "append", appended):
            type_at_the_end(note, "two ")
            wait_for(lambda: lost, "an entry to be lost")
            for number in range(5):
                type_at_the_end(note, f"{number} ")
                last = note.session.last()
                with contextlib.closing(self.anna.log()) as log:
                    wait_for(lambda: last.raw in raws_of(log), "an entry to be given")
            wait_for(lambda: note.session.status().unsent == 1, "all but one to be sent")
        # Each pause before that one is given again is twice as long.
        self.assertLess(sum(tries), 12)
        self.assert_log_is_full()

    def test_what_was_withdrawn_is_kept_where_the_log_has_it(self) -> None:
        note, append = self.opened(self.anna, url=str(self.path)), SqliteLog.append
        written(note, "one ")
        with mock.patch.object(SqliteLog, "append", lambda *_: None), contextlib.closing(self.anna.disk()) as disk:
            with mock.patch.object(disk.entries.__class__, "offer", lambda *_: []):
                type_at_the_end(note, "two ")
                last = note.session.last()
                others = [claim_of(disk.form, site) for site in (7, 8)]
                with contextlib.closing(self.anna.log()) as log:
                    assert isinstance(log, SqliteLog)
                    for one in others:
                        append(log, [one.raw])
                        wait_for(lambda of=one.hash: of in {place.hash for place in disk.entries.places()}, "it to come")
                    self.assertEqual(disk.entries.withdraw([last.hash]), [last.hash])
                    # A copy of this folder has sent it.
                    append(log, [last.raw])
                wait_for(lambda: not disk.entries.withdrawn(), "it to be kept again")
                self.assertIn(last.hash, {place.hash for place in disk.entries.places()})

    def test_what_a_copy_has_sent_is_not_withdrawn(self) -> None:
        note = self.opened(self.anna, url=str(self.path))
        written(note, "one ")
        note.session.close()
        with contextlib.closing(self.anna.disk()) as disk:
            change(self.anna.path(), "UPDATE entry SET offered = 0")
            hashes = [row.entry.hash for row in disk.entries.rows() if row.made]
            held = disk.entries.in_log(hashes[:1])
            self.assertEqual([*held], hashes[:1])
            self.assertEqual(disk.entries.withdraw(hashes), hashes[1:])
            self.assertEqual(disk.entries.places_of(hashes), held)


class Raced(Case):
    """Somebody writes just as it was read that the log has no more."""

    def test_what_comes_then_has_nobody_read_the_log_again(self) -> None:
        kinds: list[tuple[type[SqliteLog] | type[RedisLog], str]] = [(SqliteLog, self.file_log()), (RedisLog, self.redis().url)]
        for kind, url in kinds:
            with self.subTest(kind.__name__):
                self.races(kind, self.opened(self.person(kind.__name__), url=url), self.person(kind.__name__))

    def races(self, kind: type[SqliteLog] | type[RedisLog], note: Note, person: Person) -> None:
        """That whatever comes after a reading to the end doesn't count as lost or put back."""
        written(note, "one ")
        replicator, form, read, extra = note.session._replicator, note.session._form, kind.read, list[Entry]()

        def raced(log: Any, after: str) -> list[InLog]:
            page: list[InLog] = read(log, after)
            if log.at_end and len(extra) < 3 and {one.raw for one in page}.isdisjoint(one.raw for one in extra):
                extra.append(claim_of(form, 7 + len(extra)))
                log.append([extra[-1].raw])
            return page

        before = replicator.reading()
        with mock.patch.object(kind, "read", raced), contextlib.closing(person.disk()) as disk:
            for words in "two ", "three ", "four ":
                written(note, words)
            wait_for(lambda: len(disk.entries.places_of(one.hash for one in extra)) == 3, "all to come")
            written(note, "five ")
        self.assertEqual(replicator.reading(), before)


class Gaps(Case):
    """More entries than are kept lack one before them."""

    def test_what_was_dropped_comes_once_the_gap_is_filled(self) -> None:
        path = pathlib.Path(self.file_log())
        anna, words = self.opened(self.person("anna"), url=str(path)), [f"{number:03} " for number in range(60)]
        for one in words:
            type_at_the_end(anna, one)
        wait_for(lambda: not anna.session.status().unsent, "all to be sent")
        link = self.person("anna").link()
        anna.session.close()
        # One damaged entry, and its author is off.
        self.assertTrue(damage(path, b"007 ", b"00x "))
        with mock.patch("share.sync.state.MOST_UNCOUNTED_BYTES", 40_000), mock.patch("share.log.sqlite.READ_AT_ONCE", 8):
            berta = self.opened(self.person("berta"), link=link)
            wait_for(lambda: (berta.take_in(), berta.session._holdings.waiting_for_room())[1], "entries to be dropped")
            self.assertEqual(berta.text.decode(), "".join(words[:7]))
            anna = self.opened(self.person("anna"))
            wait_for(lambda: (berta.take_in(), berta.text.decode() == "".join(words))[1], "all to be shown")
            self.assert_meet(anna, berta)


if __name__ == "__main__":
    unittest.main()
