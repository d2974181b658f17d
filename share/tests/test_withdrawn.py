"""What was typed on a disk that was copied while it waited to be sent: what the log has of it, or what somebody typed on after, isn't
withdrawn, so that nothing of it is made anew."""
import contextlib
import itertools
import os
import pathlib
import shutil
import sqlite3
import unittest
from collections.abc import Sequence
from unittest import mock

from share.format.entry import digest
from share.log.sqlite import SqliteLog
from share.log.sqlite_file import SqliteFile
from share.sync.known import Known
from share.sync.rebasing import Rebaser
from share.tests.naive import entry_of
from share.tests.note import Note
from share.tests.support import Case, ons_of, type_at_the_end, wait_for, written


class CopiedUnsent(Case):
    """A folder that is copied while two edits wait, which its original sends."""

    def setUp(self) -> None:
        super().setUp()
        self.path, self.anna, self.copy = pathlib.Path(self.file_log()), self.person("anna"), self.person("copy")
        first = self.anna.open(url=str(self.path))
        written(first, "begun ")
        shared, away = self.path.parent, self.folder / "away"
        os.rename(shared, away)
        shared.write_text("no folder")
        wait_for(lambda: first.session.status().offline, "the log to be away")
        self.waited = [self.typed(first, word) for word in ("one ", "two ")]
        first.session.close()
        shutil.copytree(self.anna.data, self.copy.data)
        shared.unlink()
        os.rename(away, shared)
        self.link = self.anna.link()

    def sends(self, word: str) -> None:
        """Has the original send what waits, and a word more."""
        first = self.anna.open()
        written(first, word)
        wait_for(lambda: not first.session.status().unsent, "all to be sent")
        first.session.close()

    def typed(self, note: Note, word: str) -> bytes:
        """Types a word; the hash of its entry."""
        type_at_the_end(note, word)
        return bytes(note.session.last().hash)

    def assert_each_is_made_once(self, text: str) -> None:
        """That the copy shows a text and what is typed there, each word of which was typed only once."""
        notes = [self.opened(person, link=self.link) for person in (self.copy, self.person("berta"))]
        self.assert_comes_to(notes[0], text.encode())
        type_at_the_end(notes[0], "copy ")
        self.assertEqual(self.assert_meet(*notes).decode(), f"{text}copy ")
        for word in text.split():
            self.assertEqual(sum(word.encode() in message.data for message in notes[0].session.messages()), 1, word)
        self.assertNotIn("Made anew", " ".join([notes[0].notice, *notes[0].session.notices()]))
        with contextlib.closing(self.copy.disk()) as disk:
            self.assertEqual(disk.entries.withdrawn(), [])

    def test_the_file_is_asked_of_many_at_once(self) -> None:
        with contextlib.closing(self.copy.disk()) as disk:
            author = disk.form.new_author()
            made = [disk.form.claim(site, author).hash for site in range(1, 1_201)]
            disk.keep([disk.form.claim(site, author) for site in range(1, 1_201)], True)
            disk.entries.offer([disk.entries.places_of(made[:1])[made[0]]])
            with mock.patch.object(SqliteFile, "execute", autospec=True, side_effect=SqliteFile.execute) as asked:
                self.assertEqual(disk.entries.withdraw([*made, bytes(32)]), made[1:])
            self.assertLess(asked.call_count, 10)
            self.assertEqual({of for _, of in disk.entries.withdrawn()}, {*made[1:]})
            self.assertEqual(disk.entries.withdraw(made), [])

    def test_what_the_log_has_is_not_made_anew(self) -> None:
        self.sends("three ")
        self.assert_each_is_made_once("begun one two three ")

    def add_one_that_lost(self) -> None:
        """Has the log get an entry in the place of the first of what waited, in which that holds."""
        with contextlib.closing(self.anna.disk()) as disk, contextlib.closing(self.anna.log()) as log:
            held = {row.entry.hash: row.entry for row in disk.entries.rows()}
            (author,) = [one.author for one in disk.own.clients() if one.site == held[self.waited[0]].site]
            first = held[self.waited[0]]
            (message,) = first.messages
            numbered = (message._replace(data=b"%d" % number) for number in itertools.count())
            before = next(entry for entry in held.values() if entry.name == first.before)
            lost = (entry_of(disk.form, before, [one], author, ons_of(first)) for one in numbered)
            log.append([next(one for one in lost if one.name > first.name).raw])

    def test_what_the_log_has_is_not_made_anew_for_an_entry_that_lost(self) -> None:
        self.sends("")
        self.add_one_that_lost()
        with mock.patch("share.sync.backoff.OTHERS_SECONDS", 1_000):
            self.assert_each_is_made_once("begun one two ")

    def lose(self) -> None:
        """Has the log lose what waited."""
        with contextlib.closing(sqlite3.connect(self.path)) as log, log:
            self.assertEqual(log.executemany("DELETE FROM entry WHERE hash = ?", ((of,) for of in self.waited)).rowcount, 2)

    def test_what_somebody_typed_on_after_is_given_to_a_log_that_lost_it(self) -> None:
        self.sends("three ")
        self.lose()
        self.assert_each_is_made_once("begun one two three ")

    def test_a_log_that_goes_on_lacking_it_is_not_read_again_each_time(self) -> None:
        self.sends("three ")
        self.add_one_that_lost()
        self.lose()
        append, tries = SqliteLog.append, list[bool]()

        def appended(log: SqliteLog, raws: Sequence[bytes]) -> None:
            tries.append(any(digest(raw) in self.waited for raw in raws))
            append(log, [raw for raw in raws if digest(raw) not in self.waited])

        with mock.patch.object(SqliteLog, "append", appended), mock.patch("share.sync.backoff.OTHERS_SECONDS", 1_000):
            note = self.opened(self.copy, link=self.link)
            wait_for(lambda: (note.take_in(), any(tries))[1], "it to be given")
            numbers, replicator = note.session._numbers, note.session._replicator
            read, times = mock.Mock(), 5
            with (mock.patch.object(Known, "read_from_front", read),
                  mock.patch.object(Rebaser, "withdraw", autospec=True, side_effect=Rebaser.withdraw) as withdraw):
                for _ in range(times):
                    wait_for(lambda: not any(map(replicator.has, self.waited)), "it to be seen that the log lacks it")
                    numbers.is_settled = False
                    note.take_in()
            self.assertEqual((withdraw.call_count, read.call_count), (times, 0))
        wait_for(lambda: (note.take_in(), not note.session.status().unsent)[1], "all to be sent")


if __name__ == "__main__":
    unittest.main()
