"""Each format has a version number. Entries of a later version are kept, carried and named. Files, links and saved notes of a later
version, and all that only unreleased versions wrote, are refused in a sentence, and nothing is changed."""
import contextlib
import pathlib
import shutil
import sqlite3
import unittest
from collections.abc import Iterator
from unittest import mock

from share.editors.web.listing import is_listed
from share.format import entry
from share.format.entry import CHUNKS, Bad, Copied, Kind
from share.format.link import Link
from share.format.second.key_link import KeyLink, link_of
from share.format.second.saved import read_saved_note, saved_note
from share.log.sqlite import SqliteLog
from share.store.guarded import Damaged
from share.store.note_file import Disk
from share.store.read_only import found_in
from share.tests.forms import is_second_form, of_first_form
from share.tests.naive import entry_of, inserting
from share.tests.support import Case, are_alike, change, claim_of, newer_of, raws_of, type_at_the_end, wait_for, written
from share.text.errors import GONE_FORM, NEWER, Gone, Trouble

LATER = "made by a later version of vialshoal"
# A later version marks its files of SQLite so: by another form of the note, or by a greater version of the file.
LATER_FILES = "PRAGMA application_id = 0x56534E34", "PRAGMA application_id = 0x56534E39", "PRAGMA user_version = 1"


def files_of(folder: pathlib.Path) -> dict[str, bytes]:
    """All files of a folder, except locks and SQLite's shared memory."""
    return {str(path.relative_to(folder)): path.read_bytes() for path in folder.rglob("*")
            if path.is_file() and path.suffix not in (".note-shm", ".lock")}


class WithWords(Case):
    """Each test has a note with some words of one person, and a log in a file."""

    def setUp(self) -> None:
        super().setUp()
        self.ann = self.person()
        note = self.ann.open(url=self.file_log())
        for words in "one ", "two ", "three ":
            written(note, words)
        note.session.close()

    def says_of_itself(self, path: pathlib.Path, statement: str) -> None:
        """Change the marks of a file of SQLite."""
        with contextlib.closing(sqlite3.connect(path)) as file:
            file.execute(statement)
            file.execute("PRAGMA wal_checkpoint(TRUNCATE)")


class LaterEntries(WithWords):
    """Entries of kinds that a later version has."""

    def test_an_entry_of_a_kind_that_a_later_version_has(self) -> None:
        with contextlib.closing(self.ann.disk()) as disk, contextlib.closing(self.ann.log()) as log:
            author = disk.form.new_author()
            claim = claim_of(disk.form, 7, author)
            later = [newer_of(disk.form, claim, author, body).raw for body in (b"", b"new", b"newer")]
            log.append(later)
        ann, bob = self.opened(self.ann), self.opened(self.person("bob"), link=self.ann.link())
        for note, words in (ann, "four "), (bob, "five "):
            wait_for(lambda one=note: (one.take_in(), one.notice)[1], "it to be told")
            self.assertEqual(note.notice, NEWER)
            written(note, words)
        self.assertEqual(sorted(self.assert_meet(ann, bob).split()), sorted(b"one two three four five".split()))
        self.assertEqual((ann.notice, ann.session.status().waiting, ann.session.status().offline), (NEWER, 0, None))
        # Whoever has it gives it to a log that lost it.
        pathlib.Path(self.file_log()).unlink()
        wait_for(lambda: pathlib.Path(self.file_log()).exists() and self.has_in_log(later), "it to be there again")

    def has_in_log(self, raws: list[bytes]) -> bool:
        """Whether the log has all of these."""
        with contextlib.closing(self.ann.log()) as log:
            return set(raws) <= set(raws_of(log))

    def test_a_file_that_a_later_version_wrote(self) -> None:
        with contextlib.closing(self.ann.disk()) as disk:
            last = [row.entry for row in disk.entries.rows() if row.entry.kind.has_messages][-1]
            (client,) = [one for one in disk.own.clients() if one.site == last.site]
            later = [newer_of(disk.form, last, client.author, body) for body in (b"", b"new")]
            # What comes after it doesn't count here, and isn't made anew: it counts there. In the second form nothing comes after it.
            follower = [inserting(client.site, last.last + 1, 2**16, None, 14, b"more ")]
            later += [] if is_second_form() else [entry_of(disk.form, later[0], follower, client.author)]
            disk.keep(later, made=True)
        # It may keep it otherwise, too.
        change(self.ann.path(), "UPDATE entry SET sum = 7, body = 'words' WHERE hash = ?", later[1].hash)
        note = self.opened(self.ann)
        note.take_in()
        self.assertEqual(note.notice, NEWER)
        self.assertNotEqual(note.session.number, client.site)
        written(note, "four ")
        self.assert_comes_to(note, b"one two three four ")
        self.assertEqual((note.notice, note.session.status().offline), (NEWER, None))
        note.session.close()
        with contextlib.closing(self.ann.disk()) as disk:
            self.assertEqual({entry.hash for entry in later} - {place.hash for place in disk.entries.places()}, set())
            self.assertEqual([one for one in disk.own.clients() if one.retired], [])
            self.assertEqual((len(disk.entries.rows()), disk.entries.damaged), (disk.entries.size() - 1, 0))
        run = self.note("note", "--print")
        self.assertEqual((run.returncode, run.stdout), (3, "one two three four "))
        self.assertEqual(run.stderr, f"note: {NEWER}\n")


class LaterFiles(WithWords):
    """Notes' files, logs, saved notes and links that a later version made."""

    def test_a_notes_file_is_refused_in_words_and_stays(self) -> None:
        for statement in LATER_FILES:
            with self.subTest(statement):
                data = self.person(statement[-1])
                shutil.copytree(self.ann.data, data.data)
                self.says_of_itself(data.path(), statement)
                kept = files_of(data.data)
                for words in (("note", "--print"), ("append", "note", "more"), ("link", "note"), ("renew", "note"),
                              ("rename", "note", "other")):
                    self.assert_says(self.note(*words, VIALSHOAL_DATA=str(data.data)), LATER, "Nothing was changed")
                with self.assertRaisesRegex(Trouble, LATER), contextlib.closing(Disk(data.path())):
                    pass
                self.assertIn(LATER, self.note("recover", str(data.data), VIALSHOAL_DATA=str(self.folder / "none")).stdout)
                self.assertEqual(files_of(data.data), kept)

    def test_what_is_no_notes_file_is_told_otherwise(self) -> None:
        for number in 0x56534E30, 0x56534E3A, 7:
            self.says_of_itself(self.ann.path(), f"PRAGMA application_id = {number}")
            with self.assertRaisesRegex(Damaged, "isn't a note's file"), contextlib.closing(Disk(self.ann.path())):
                pass

    def test_a_log_is_refused_in_words_and_stays(self) -> None:
        path = pathlib.Path(self.file_log())
        with contextlib.closing(self.ann.disk()) as disk:
            note = disk.form.note
        self.says_of_itself(path, LATER_FILES[-1])
        kept = path.read_bytes()
        with self.assertRaisesRegex(Trouble, LATER):
            SqliteLog(path, note)
        run = self.note("note", "--print")
        self.assertEqual((run.returncode, run.stdout), (3, "one two three "))
        self.assertIn(LATER, run.stderr)
        self.assertEqual(([*path.parent.glob("*damaged*")], path.read_bytes()), ([], kept))

    def test_a_note_that_was_saved_as_a_file_is_refused_in_words(self) -> None:
        data = saved_note(KeyLink("sealed", bytes(32), "https://h"), [b"one"])
        self.assertEqual(read_saved_note(data).raws, [b"one"])
        for number in b"3", b"9", b"10":
            path = self.folder / "saved.vialshoal-note"
            path.write_bytes(data.replace(b"note 2", b"note " + number, 1))
            with self.assertRaisesRegex(Trouble, LATER):
                found_in(path)
        with self.assertRaisesRegex(Trouble, "isn't a note's"):
            read_saved_note(data.replace(b"note 2", b"note x", 1))

    def test_a_link_is_refused_in_words(self) -> None:
        for link in Link("sealed", bytes(32), "redis://h:1").spelled(), KeyLink("sealed", bytes(32), "redis://h:1").spelled():
            for number in "1.2", "2.1", "3", "10":
                later = f"vialshoal:{number}:{link.split(':', 2)[2]}"
                with self.assertRaisesRegex(Trouble, LATER):
                    link_of(later)
                self.assert_says(self.note("joined", "--print", VIALSHOAL_LINK=later), LATER)
        self.assertFalse(self.ann.path("joined").exists())


class OfUnreleasedVersions(WithWords):
    """Notes, links and entries that only unreleased versions wrote."""

    def assert_gone(self, *words: str, **environment: str) -> None:
        """Assert that a command says so and ends with status 1."""
        run = self.note(*words, **environment)
        self.assertEqual((run.returncode, run.stdout, run.stderr), (1, "", f"note: {GONE_FORM}\n"), words)

    def test_a_notes_log_and_journals(self) -> None:
        log = self.ann.data / "logs" / "diary.db"
        log.parent.mkdir()
        with contextlib.closing(sqlite3.connect(log)) as file:
            file.executescript("CREATE TABLE entry (place INTEGER PRIMARY KEY); PRAGMA application_id = 0x56534E31")
        kept = files_of(self.ann.data)
        for words in (("diary", "--print"), ("diary", "--new"), ("append", "diary", "more", "--new"), ("cat", "diary"), ("link", "diary"),
                      ("renew", "diary"), ("delete", "diary", "--yes"), ("rename", "diary", "other"), ("rename", "note", "diary")):
            self.assert_gone(*words)
        with self.ann.here():
            self.assertEqual((is_listed("note"), is_listed("diary")), (True, False))
        self.assertEqual(files_of(self.ann.data), kept)
        # No note can have it as its log. Another file at that place keeps nobody from making a note of the name.
        with self.assertRaises(Gone):
            SqliteLog(log, bytes(16))
        for data in b"", b"Dear Ann", bytes(200):
            log.write_bytes(data)
            self.assertIn("There is no note diary here", self.note("diary", "--print").stderr)

    def test_a_link_whose_checksum_is_of_the_secret_alone(self) -> None:
        link, data = "vialshoal:1:s:AAECAwQFBgcICQoLDA0ODxAREhMUFRYXGBkaGxwdHh_9wj7X@redis://127.0.0.1:7000", self.folder / "nobody"
        for words in ("joined", "--print"), ("append", "joined", "more"):
            self.assert_gone(*words, VIALSHOAL_LINK=link, VIALSHOAL_DATA=str(data))
        self.assertFalse(data.exists())

    @of_first_form("the second form has its own kinds of these numbers")
    def test_entries(self) -> None:
        with contextlib.closing(self.ann.disk()) as disk, contextlib.closing(self.ann.log()) as log:
            last = [row.entry for row in disk.entries.rows() if row.entry.kind.has_messages][-1]
            raws = [self.gone(disk, kind, last) for kind in (2, 3)]
            log.append(raws)
        # Entries that a log has are left out, and reported.
        note, told = self.opened(self.ann), list[str]()
        wait_for(lambda: (note.take_in(), told.append(note.notice), "of the log" in " ".join(told))[2], "it to be told")
        self.assertEqual(bytes(note.text), b"one two three ")
        note.session.close()
        with contextlib.closing(self.ann.disk()) as disk:
            self.assertTrue({*raws}.isdisjoint(row.entry.raw for row in disk.entries.rows()))
        # A file that has one isn't opened.
        for number, raw in enumerate(raws):
            person = self.person(f"gone-{number}")
            shutil.copytree(self.ann.data, person.data)
            change(person.path(), "INSERT INTO entry (hash, raw, body, sum, made) VALUES (?, ?, NULL, 0, 0)", entry.digest(raw), raw)
            kept = files_of(person.data)
            for words in ("note", "--print"), ("cat", "note"), ("append", "note", "more"):
                self.assert_gone(*words, VIALSHOAL_DATA=str(person.data))
            self.assertEqual(files_of(person.data), kept)

    def gone(self, disk: Disk, kind: int, last: entry.Entry) -> bytes:
        """The bytes of an entry of a kind that unreleased versions had, after another one."""
        assert isinstance(disk.form, entry.Plain)
        head = entry.HEAD.pack(disk.form.number, kind, disk.form.note, last.site, last.last + 1, 1, last.hash)
        return disk.form._unsigned(head + last.author, bytes(34))


@of_first_form("its kinds are taken away")
class KindsThatAreKnownLater(Case):
    """A version that doesn't know chunks keeps and carries entries of chunks, and says so. A later one reads them from the same file."""

    @contextlib.contextmanager
    def unknown(self) -> Iterator[None]:
        """Entries of chunks are of a kind that isn't known meanwhile."""
        known = {number: kind for number, kind in entry.KINDS.items() if kind not in CHUNKS}
        with mock.patch.object(entry, "KINDS", known), mock.patch.object(entry.Plain, "formed", entry.FirstForm.formed):
            yield

    def test_they_are_kept_and_told_of(self) -> None:
        url = self.file_log()
        one = self.opened(self.person("ann"), url=url)
        written(one, "in a chunk")
        link = self.person("ann").link()
        with self.unknown():
            two = self.opened(self.person("bob"), link=link)
            wait_for(lambda: (two.take_in(), two.notice)[1], "something to be told")
            self.assertEqual((bytes(two.text), two.notice), (b"", NEWER))
            two.session.close()
        # The later version finds all in the same file.
        shutil.move(url, url + ".away")
        two = self.opened(self.person("bob"))
        self.assert_comes_to(two, b"in a chunk")

    def test_copies_are_kept_and_carried(self) -> None:
        url = self.file_log()
        one = self.opened(self.person("ann"), url=url)
        written(one, "right")
        last = one.session.last()
        copied = Copied(last.author, last.site, last.author, last.site, ((1, 0, 1),))
        said = one.session._form.copies(copied, one.session._numbers.own.author, last.site, last.hash)

        def carried() -> bool:
            with contextlib.closing(self.person("ann").log()) as log:
                return said.raw in raws_of(log)

        with contextlib.closing(self.person("ann").log()) as log:
            log.append([said.raw])
        known = {number: kind for number, kind in entry.KINDS.items() if kind is not Kind.COPIES}
        with mock.patch.object(entry, "KINDS", known):
            two = self.opened(self.person("bob"), link=self.person("ann").link())
            wait_for(lambda: (two.take_in(), two.notice)[1], "something to be told")
            self.assertEqual((bytes(two.text), two.notice), (b"right", NEWER))
            one.session.close()
            change(pathlib.Path(url), "DELETE FROM entry")
            wait_for(lambda: (two.take_in(), carried())[1], "it to be carried to the log that lost it")
            two.session.close()
        two = self.opened(self.person("bob"))
        self.assertIn(Kind.COPIES, {row.entry.kind for row in two.session._holdings.rows.values()})

    def test_what_they_kept_unlooked_at_is_looked_at(self) -> None:
        url = self.file_log()
        one = self.opened(self.person("ann"), url=url)
        written(one, "right")
        form, last, author = one.session._form, one.session.last(), one.session._numbers.own.author
        head = entry.HEAD.pack(form.number, Kind.CHUNK, form.note, last.site, last.last + 1, 1, last.hash)
        bad = form._closed(head + author.name, b"OTC1 isn't one", author)
        with self.assertRaisesRegex(Bad, "no chunk"):
            form.open(bad)
        one.session.close()
        log = self.person("ann").log()
        log.append([bad])
        with self.unknown():
            two = self.opened(self.person("bob"), link=self.person("ann").link())
            wait_for(lambda: bad in {row.entry.raw for row in two.session._file.disk.entries.rows()}, "it to be kept")
            two.session.close()
        two = self.opened(self.person("bob"))
        self.assert_comes_to(two, b"right")
        self.assertNotIn(bad, {row.entry.raw for row in two.session._file.disk.entries.rows()})
        type_at_the_end(two, " on")
        wait_for(lambda: are_alike([two]), "all to be sent")
        self.assertIn(bad, raws_of(log))
        log.close()


if __name__ == "__main__":
    unittest.main()
