"""Folding of notes as people have them: what a log and the disks have of it, and that nothing is given back, asked for, or lost."""
import contextlib
import pathlib
import random
import shutil
import signal
import subprocess
from collections.abc import Callable, Iterable, Sequence
from unittest import mock

from share.format.heartbeat import Lack, Way
from share.format.second.record import Record, RecordKind
from share.log.base import START, InLog, Log, LogLost, Unreachable
from share.log.redis import RedisLog
from share.log.sqlite import SqliteLog
from share.log.sqlite_file import Busy, SqliteFile
from share.store import folded_away
from share.store.guarded import Unkept
from share.store.note_file import Disk
from share.tests.note import Note
from share.tests.support import Case, Person, change, python, raws_of, type_at_the_end, wait_for, written
from share.tests.test_logs import NOTE, raw
from share.tests.test_second_notes import OfSecondForm

LEAST = 20


# Types letters, an entry each, and prints how many are kept; few entries are folded there.
TYPES_ON = f"""
import sys
from share.admission import record_chains
from share.format.second import folding
from share.sync import folding as of_own
record_chains.LEFT_AFTER = folding.LEFT_AFTER = folding.LEAST_FOLDED = of_own.LEAST_FOLDED = {LEAST}
from share.tests.note import Note
from share.store.notes import open_note
from share.sync.session import Session
note = Note(Session(open_note("note", None, None)))
while True:
    note.take_in()
    if note.session.can_type:
        note.cursor = len(note.text)
        note.type("k")
        print(len(note.text), flush=True)
"""


def is_folding(note: Note) -> bool:
    """Whether something is yet to be sent, folded, or looked for in the log."""
    session, folding = note.session, note.session._folding
    return (not session._replicator.is_up_to_date() or len(session._holdings.judge) >= folding._next
            or bool(folding._waiting or folding._untold or session._folded.new()))


class OfFolds(OfSecondForm):
    """Notes in which few entries are folded."""

    def setUp(self) -> None:
        super().setUp()
        for name in ("format.second.folding.LEAST_FOLDED", "format.second.folding.LEFT_AFTER", "admission.record_chains.LEFT_AFTER",
                     "sync.folding.LEAST_FOLDED"):
            few = mock.patch(f"share.{name}", LEAST)
            few.start()
            self.addCleanup(few.stop)

    def logs(self) -> list[str]:
        """Where logs are."""
        return [self.file_log(), self.redis().url]

    def records(self, log: Log, person: Person, name: str = "note") -> list[Record]:
        """What a log has of messages."""
        with contextlib.closing(person.disk(name)) as disk:
            found = [disk.form.open(raw) for raw in raws_of(log) if raw]
        return [one for one in found if isinstance(one, Record) and one.kind is RecordKind.MESSAGES]

    def sizes(self, person: Person, name: str = "note") -> list[int]:
        """How many messages each entry of a log has."""
        with contextlib.closing(person.log(name)) as log:
            return sorted(one.size for one in self.records(log, person, name))

    def on_disk(self, person: Person, name: str = "note") -> list[int]:
        """How many messages each entry of a note's file has."""
        with contextlib.closing(person.disk(name)) as disk:
            return sorted(row.entry.size for row in disk.entries.rows() if row.entry.kind is RecordKind.MESSAGES)

    def waits(self, *notes: Note, until: Callable[[], bool], what: str) -> None:
        """Takes in what comes until something is so."""
        def is_so() -> bool:
            for note in notes:
                note.take_in()
            return until()

        wait_for(is_so, what)

    def typed(self, note: Note, many: int) -> None:
        """Types letters, an entry each."""
        for at in range(many):
            type_at_the_end(note, chr(97 + at % 26))

    def folds(self, note: Note, person: Person, *others: Note) -> int:
        """Types until the log has a fold in place of what is folded in it; how many letters that took."""
        many = 4 * LEAST
        self.typed(note, many)
        self.are_folded(many, person, note, *others)
        return many

    def are_folded(self, many: int, person: Person, *notes: Note) -> None:
        """Takes in what comes until the log has so many messages, with folds in place of all that is to be folded."""
        self.waits(*notes, until=lambda: (max(sizes := self.sizes(person)) >= LEAST and sum(sizes) == many
                                          and not any(map(is_folding, notes))),
                   what="the log to have folds in place of what is folded")


class Folds(OfFolds):
    """What is folded, where nothing goes wrong."""

    def test_what_is_folded_goes_out_of_the_log_and_off_both_disks(self) -> None:
        for number, url in enumerate(self.logs()):
            with self.subTest(url):
                self.ann, self.bob = self.person(f"ann{number}"), self.person(f"bob{number}")
                ann = self.opened(self.ann, url=url)
                bob = self.opened(self.bob, link=self.ann.link())
                many = self.folds(ann, self.ann, bob)
                # Who has read both takes nothing for lost, and gives nothing back.
                text = self.assert_meet(ann, bob)
                written(bob, "x")
                self.waits(ann, bob, until=lambda: b"x" in bytes(ann.text), what="what Bob types")
                for note in ann, bob:
                    readings = note.session._replicator.reading()
                    note.session._replicator.read_from_front()
                    wait_for(lambda: note.session._replicator.reading() > readings and note.session._replicator.is_up_to_date(),
                             "the log to be read again")
                self.assertEqual(sum(self.sizes(self.ann)), many + 1)
                self.assertEqual(([*ann.told], [*bob.told]), ([], []))
                for note in ann, bob:
                    note.session.close()
                self.assertEqual((self.on_disk(self.ann), self.on_disk(self.bob)), (self.sizes(self.ann),) * 2)
                again = [self.opened(one) for one in (self.ann, self.bob)]
                self.assertEqual(len(self.assert_meet(*again)), len(text) + 1)
                self.assertEqual([[*one.told] for one in again], [[], []])
                cleo = self.opened(self.person(f"cleo{number}"), link=self.ann.link())
                self.assert_comes_to(cleo, bytes(again[0].text))


class Faults(OfFolds):
    """What comes late, comes back, or is cut off."""

    def test_a_disk_that_comes_later_with_what_was_folded_loses_nothing_and_gives_none_of_it_back(self) -> None:
        ann = self.opened(self.ann, url=self.file_log())
        bob = self.opened(self.bob, link=self.ann.link())
        self.typed(ann, 2 * LEAST)
        self.assert_meet(ann, bob)
        bob.session.close()
        # Bob types without the log, between what Ann typed, and takes some of it away.
        with mock.patch.object(SqliteLog, "append", side_effect=Unreachable("away")), mock.patch.object(
                SqliteLog, "read", side_effect=Unreachable("away")):
            bob = self.bob.open()
            bob.cursor = LEAST
            bob.type("later")
            bob.erase(3, 5)
            self.assertEqual(bob.session.status().unsent, 2)
            bob.session.close()
        self.typed(ann, 3 * LEAST)
        self.are_folded(5 * LEAST, self.ann, ann)
        ann.session.close()
        before = self.sizes(self.ann)
        self.assertIn(1, self.on_disk(self.bob)[:LEAST])
        again = [self.opened(self.bob), self.opened(self.ann)]
        text = self.assert_meet(*again)
        self.assertEqual((len(text), text.count(b"later")), (5 * LEAST + 5 - 2, 1))
        self.assertEqual(sum(self.sizes(self.ann)), sum(before) + 2)
        for one in again:
            self.assertEqual((one.session.status().waiting, [*one.told]), (0, []))
            one.session.close()
        self.assertEqual(self.on_disk(self.bob), self.sizes(self.ann))

    def test_where_the_fold_is_gone_too_whoever_has_not_read_it_gives_back_what_was_folded(self) -> None:
        url = self.file_log()
        with mock.patch("share.sync.folding.due", return_value=()):
            ann = self.opened(self.ann, url=url)
            bob = self.opened(self.bob, link=self.ann.link())
            self.typed(ann, 4 * LEAST)
            self.assert_meet(ann, bob)
            for note in bob, ann:
                note.session.close()
        ann = self.opened(self.ann)
        self.are_folded(4 * LEAST, self.ann, ann)
        text = bytes(ann.text)
        ann.session.close()
        shutil.rmtree(self.ann.data)
        with contextlib.closing(self.bob.log()) as log:
            folds = [one for one in self.records(log, self.bob) if one.size > 1]
        for one in folds:
            change(pathlib.Path(url), "DELETE FROM entry WHERE raw = ?", one.raw)
        bob = self.opened(self.bob)
        wait_for(lambda: (bob.take_in(), sum(self.sizes(self.bob)) == len(text))[1], "the log to have all again")
        cleo = self.opened(self.person("cleo"), link=self.bob.link())
        self.assert_comes_to(cleo, text)

    def test_what_others_give_back_is_passed_over_and_goes_out_again(self) -> None:
        ann = self.opened(self.ann, url=self.file_log())
        bob = self.opened(self.bob, link=self.ann.link())
        self.typed(ann, LEAST)
        self.assert_meet(ann, bob)
        with contextlib.closing(self.ann.log()) as log:
            old = [one.raw for one in self.records(log, self.ann)]
        self.typed(ann, 3 * LEAST)
        self.are_folded(4 * LEAST, self.ann, ann, bob)
        text = self.assert_meet(ann, bob)
        with contextlib.closing(self.ann.log()) as log:
            # As one does who hasn't read the fold, and takes it for lost.
            log.append(old)
        type_at_the_end(bob, "x")
        self.waits(ann, bob, until=lambda: bytes(ann.text) == text + b"x", what="what comes after it")
        self.assertEqual((bytes(bob.text), sum(self.sizes(self.ann))), (text + b"x", 4 * LEAST + 1 + LEAST))
        for note in ann, bob:
            note.session.close()
        again = self.opened(self.bob)
        self.waits(again, until=lambda: sum(self.sizes(self.ann)) == 4 * LEAST + 1, what="it to go out again")
        self.assertEqual(bytes(again.text), text + b"x")
        again.session.close()
        self.assertEqual(self.on_disk(self.bob), self.sizes(self.ann))

    def test_what_comes_back_of_ones_own_is_no_other_s(self) -> None:
        url = self.file_log()
        ann = self.opened(self.ann, url=url)
        self.typed(ann, LEAST)
        wait_for(lambda: (ann.take_in(), self.sizes(self.ann) == [1] * LEAST)[1], "all to be in the log")
        with contextlib.closing(self.ann.log()) as log:
            old = [one.raw for one in self.records(log, self.ann)]
        self.typed(ann, 3 * LEAST)
        self.are_folded(4 * LEAST, self.ann, ann)
        number = ann.session.number
        ann.session.close()
        self.assertEqual(self.on_disk(self.ann), self.sizes(self.ann))
        for before_it_is_opened in True, False:
            if not before_it_is_opened:
                ann = self.opened(self.ann)
            with contextlib.closing(self.ann.log()) as log:
                log.append(old)
            if before_it_is_opened:
                with mock.patch.object(SqliteLog, "can_take_out", False), mock.patch("share.sync.session.take_away"):
                    # The next opening finds it on the disk.
                    ann = self.opened(self.ann)
                    self.waits(ann, until=lambda: sum(self.on_disk(self.ann)) >= 5 * LEAST, what="it to be on the disk")
                    ann.session.close()
                ann = self.opened(self.ann)
            type_at_the_end(ann, "x")
            self.waits(ann, until=lambda: ann.session.status().unsent == 0, what="what is typed to be sent")
            self.assertEqual((ann.session.number, [*ann.told]), (number, []))
            ann.session.close()
        self.assertEqual((sum(self.on_disk(self.ann)), len(self.ann.text())), (4 * LEAST + 2,) * 2)

    def test_who_lacks_a_message_is_given_the_fold(self) -> None:
        ann = self.opened(self.ann, url=self.file_log())
        self.folds(ann, self.ann)
        holdings, judge = ann.session._holdings, ann.session._holdings.judge
        folds = {one.fold for one in judge.folded()}
        for seq in 1, LEAST:
            name = judge.entry_of(ann.session.number, seq)
            assert name
            (found,) = holdings.found(Lack(Way.IT, name))
            self.assertIn(found, folds)
            # No more than that is in the log, or was left to be given.
            self.assertTrue(ann.session._replicator.were_read([found]))
        self.assertEqual(ann.session.status().unsent, 0)

    def test_where_a_log_lets_nothing_be_taken_out_it_has_both(self) -> None:
        server = self.redis()
        with mock.patch("share.log.redis.TAKE_OUT_SCRIPT", "return redis.call('CONFIG', 'NO')"):
            ann = self.opened(self.ann, url=server.url)
            self.typed(ann, 4 * LEAST)
            self.waits(ann, until=lambda: sum(self.sizes(self.ann)) > 4 * LEAST, what="a fold to be in the log")
            type_at_the_end(ann, "x")
            wait_for(lambda: ann.session._replicator.is_up_to_date(), "what is typed to be sent")
            self.assertEqual((ann.session.status().offline, [*ann.told]), (None, []))
            ann.session.close()
        again = self.opened(self.ann)
        self.waits(again, until=lambda: sum(self.sizes(self.ann)) == 4 * LEAST + 1, what="it to be taken out once that can be")

    def test_a_kill_between_any_two_steps_loses_nothing(self) -> None:
        """Of the log: before anything is taken out; of the file: before anything is taken away."""
        ann = self.opened(self.ann, url=self.file_log())
        bob = self.opened(self.bob, link=self.ann.link())
        with mock.patch.object(SqliteLog, "can_take_out", False):
            self.typed(ann, 4 * LEAST)
            self.waits(ann, bob, until=lambda: sum(self.sizes(self.ann)) > 4 * LEAST, what="a fold to be in the log")
            text = self.assert_meet(ann, bob)
            with mock.patch("share.sync.session.take_away"):
                for note in ann, bob:
                    note.session.close()
        # Then it goes out of the log, and the next kill leaves the file as it was.
        with mock.patch("share.sync.session.take_away"):
            ann = self.opened(self.ann)
            self.waits(ann, until=lambda: sum(self.sizes(self.ann)) == 4 * LEAST, what="it to be taken out")
            ann.session.close()
        self.assertGreater(sum(self.on_disk(self.ann)), 4 * LEAST)
        again = [self.opened(self.ann), self.opened(self.bob)]
        self.assertEqual(self.assert_meet(*again), text)
        for note in again:
            wait_for(lambda: note.session._replicator.is_up_to_date(), "all to be sent")
            self.assertEqual([*note.told], [])
            note.session.close()
        self.assertEqual((sum(self.sizes(self.ann)), sum(self.on_disk(self.ann)), sum(self.on_disk(self.bob))), (4 * LEAST,) * 3)

    def test_whoever_is_killed_as_he_folds_has_all_that_was_kept(self) -> None:
        ann, chance, kept = self.opened(self.ann, url=self.file_log()), random.Random(5), 0
        ann.session.close()
        for _ in range(4):
            most = kept + chance.randint(2 * LEAST, 5 * LEAST)
            with self.ann.here(), subprocess.Popen([python(), "-B", "-c", TYPES_ON], stdout=subprocess.PIPE, text=True) as typing:
                assert typing.stdout
                while kept < most and (line := typing.stdout.readline()):
                    kept = int(line)
                typing.send_signal(signal.SIGKILL)
        again = self.opened(self.ann)
        self.assertGreaterEqual(len(again.text), kept)
        wait_for(lambda: (again.take_in(), again.session._replicator.is_up_to_date())[1], "all to be sent")
        bob = self.opened(self.bob, link=self.ann.link())
        self.assertEqual(self.assert_meet(again, bob), b"k" * len(again.text))
        self.assertGreater(max(self.sizes(self.ann)), 1)

    def test_a_full_disk_keeps_what_is_folded_as_it_is(self) -> None:
        ann, keeps = self.opened(self.ann, url=self.file_log()), Disk.keep

        def keep(disk: Disk, entries: list[Record], *more: object, **others: object) -> range:
            if any(one.size > 1 for one in entries):
                raise Unkept("the disk is full")
            return keeps(disk, entries, *more, **others)  # type: ignore[arg-type]

        with mock.patch.object(Disk, "keep", keep):
            self.typed(ann, 4 * LEAST)
            ann.take_in()
        self.assertEqual((self.on_disk(self.ann), [*ann.told]), ([1] * 4 * LEAST, []))
        self.typed(ann, 2 * LEAST)
        self.are_folded(6 * LEAST, self.ann, ann)
        text, deletes = bytes(ann.text), SqliteFile.executemany

        def fails(file: SqliteFile, question: str, rows: Iterable[Sequence[object]]) -> int:
            if question == folded_away.TAKE_AWAY:
                deletes(file, question, list(rows)[:3])
                raise Busy("database or disk is full")
            return deletes(file, question, rows)

        before = self.on_disk(self.ann)
        with mock.patch.object(SqliteFile, "executemany", fails):
            ann.session.close()
        self.assertEqual(self.on_disk(self.ann).count(1), before.count(1))
        again = self.opened(self.ann)
        self.assertEqual(bytes(again.text), text)
        self.are_folded(6 * LEAST, self.ann, again)
        again.session.close()
        self.assertEqual(self.on_disk(self.ann), self.sizes(self.ann))

    def test_a_file_in_which_the_fold_is_damaged_keeps_what_is_folded(self) -> None:
        ann = self.opened(self.ann, url=self.file_log())
        self.folds(ann, self.ann)
        with mock.patch("share.sync.session.take_away"):
            ann.session.close()
        before, folds = self.on_disk(self.ann), ann.session._folded.kept_with_folds()
        self.assertTrue(folds)
        for fold in folds:
            change(self.ann.path(), "UPDATE entry SET sum = sum + 1 WHERE hash = ?", fold)
        self.assertEqual(folded_away.take_away(self.ann.path(), folds), 0)
        for fold in folds:
            change(self.ann.path(), "UPDATE entry SET sum = sum - 1 WHERE hash = ?", fold)
        # Nor is anything taken away while somebody has the note open.
        again = self.opened(self.ann)
        self.assertEqual(folded_away.take_away(self.ann.path(), folds), 0)
        self.assertEqual(self.on_disk(self.ann).count(1), before.count(1))
        again.session.close()
        self.assertEqual(self.on_disk(self.ann), self.sizes(self.ann))

    def test_a_note_of_one_person_is_folded_in_its_file(self) -> None:
        ann = self.opened(self.ann)
        self.typed(ann, 4 * LEAST)
        ann.take_in()
        text = bytes(ann.text)
        ann.session.close()
        self.assertEqual(sum(self.on_disk(self.ann)), 4 * LEAST)
        self.assertGreater(max(self.on_disk(self.ann)), LEAST - 1)
        self.assertEqual(self.ann.text(), text)


class TakenOut(Case):
    """What is taken out of a log, each kind by one call."""

    def logs(self) -> list[tuple[str, Callable[[], Log], Callable[[bytes], None]]]:
        """How each is called and opened, and loses an entry."""
        path, server = self.folder / "log", self.redis()

        def lose(one: bytes) -> None:
            with contextlib.closing(RedisLog(server.url, NOTE)) as log:
                place = next(each.place for each in log.read(START) if each.raw == one)
            server.cli("XDEL", f"vialshoal:note:{{{NOTE.hex()}}}:entries", place.partition("/")[0])

        return [("file", lambda: SqliteLog(path, NOTE), lambda one: change(path, "DELETE FROM entry WHERE raw = ?", one)),
                ("server", lambda: RedisLog(server.url, NOTE), lose)]

    def read(self, log: Log, after: str = START) -> list[InLog]:
        """All that stands after a place."""
        found: list[InLog] = []
        while page := log.read(found[-1].place if found else after):
            found += page
        return found

    def test_who_reads_on_misses_nothing_and_takes_nothing_for_lost(self) -> None:
        for name, opens, lose in self.logs():
            with self.subTest(name), contextlib.closing(opens()) as log, contextlib.closing(opens()) as reader, contextlib.closing(
                    opens()) as slow:
                log.append([raw(number) for number in range(8)])
                places = [one.place for one in self.read(reader)]
                self.read(slow)
                # Without the fold nothing goes.
                log.take_out(raw(9), [raw(1)])
                self.assertEqual(log.size(), 8)
                log.append([raw(8)])
                log.take_out(raw(8), [raw(0), raw(1), raw(2), raw(77)])
                self.assertEqual((log.size(), log.taken_out), (9, 3))
                self.assertEqual([one.raw for one in self.read(reader, places[-1])], [raw(8)])
                # Who stands at what was taken out, or before it, goes on.
                self.assertEqual([one.raw for one in self.read(slow, places[1])], [*map(raw, range(3, 9))])
                with contextlib.closing(opens()) as new:
                    found = self.read(new)
                    self.assertEqual([one.raw for one in found], [*map(raw, range(3, 9))])
                    self.assertEqual(new.size_to(found[-1].place), 9)
                log.take_out(raw(8), [raw(0), raw(1)])
                self.assertEqual((log.size(), log.taken_out), (9, 3))
                # What is given back is there again, once.
                log.append([raw(1), raw(1)])
                self.assertEqual([one.raw for one in self.read(reader, found[-1].place)], [raw(1)])
                self.assertEqual(log.size(), 10)
                # Up to the last one somebody may have read.
                log.take_out(raw(8), [raw(1)])
                self.assertEqual((log.size(), log.taken_out, self.read(reader, found[-1].place)[0].raw), (10, 3, raw(1)))
                end = self.read(opens_later := opens())[-1].place
                opens_later.close()
                lose(raw(4))
                self.assertTrue(self.is_seen_as_lost(reader, end, 10))

    def is_seen_as_lost(self, log: Log, after: str, size: int) -> bool:
        """Whether somebody who has read up to a place sees that entries are missing before it."""
        try:
            return bool(log.read(after)) or log.size_to(after) != size
        except LogLost:
            return True
