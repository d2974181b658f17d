"""What a reading of sharing found: files taken away under several editors of one person, numbers that are given up,
full disks between two steps, damaged files, and names that aren't what they are taken for."""
import argparse
import contextlib
import io
import os
import pathlib
import shutil
import subprocess
import threading
import time
from typing import Any
from unittest import mock

from share.admission.chains import rank
from share.cli import reading
from share.format.operation import MOST_INSERTED
from share.log.folder import MOST_DISTURBED_SECONDS, held, inode_of
from share.log.sqlite_file import WRITTEN_AHEAD, SqliteFile, beside, copied
from share.program.site import Edited, Site, Told
from share.store.entries import Entries
from share.store.guarded import Unkept
from share.store.note_file import Disk, make_note
from share.store.own import Anew, Client, Overtaken, OwnTables
from share.store.read_only import found_in
from share.sync.open_file import OpenFile
from share.sync.session import Session
from share.tests import test_numbers
from share.tests.note import Note
from share.tests.forms import is_second_form
from share.tests.support import TOP, Case, Person, change, python, type_at_the_end, wait_for, written
from share.text.errors import Trouble

# Types words under a name, and says each one, until it is told to end; then says how many there are.
TYPES = """
import os, sys, time
from share.store import notes
from share.sync.session import Session
from share.tests.note import Note
note, number = Note(Session(notes.open_note("note", None, None))), 0
print("open", flush=True)
sys.stdin.readline()
while not os.path.exists(sys.argv[2]):
    note.take_in()
    note.moved_to(len(note.text))
    note.type(f"{sys.argv[1]}.{number} ")
    # What couldn't be kept is told, and typed again.
    if not note.notice.startswith("The last edit"):
        number += 1
        print("typed", flush=True)
    note.notice = ""
    time.sleep(0.01)
note.session.close()
print(number)
"""


class UnderSeveral(Case):
    """A note's file that is taken away under several editors of one person."""

    def typed_while(self, *lost: str) -> None:
        """That three type on when files are removed, and each word is there once."""
        person, ends = self.person(), self.folder / "ends"
        with person.here():
            runs = [subprocess.Popen([python(), "-B", "-c", TYPES, tag, str(ends)], cwd=TOP, stdin=subprocess.PIPE,
                                     stdout=subprocess.PIPE, text=True) for tag in "abc"]
        self.say(runs, "open")
        for run in runs:
            assert run.stdin
            run.stdin.write("\n")
            run.stdin.flush()
        self.say(runs, *["typed"] * 5)
        for pattern in lost:
            for path in person.path().parent.glob(pattern):
                if path.is_dir():
                    shutil.rmtree(path)
                else:
                    path.unlink(missing_ok=True)
        self.say(runs, *["typed"] * 20)
        ends.touch()
        words = [f"{tag}.{number}" for tag, run in zip("abc", runs)
                 for number in range(int(run.communicate()[0].split()[-1]))]
        self.assertEqual(sorted(person.text().decode().split()), sorted(words))

    def say(self, runs: list[subprocess.Popen[str]], *lines: str) -> None:
        """Waits until processes have said these lines."""
        for run in runs:
            assert run.stdout
            self.assertEqual([run.stdout.readline() for _ in lines], [f"{line}\n" for line in lines])

    def test_all_files_are_removed(self) -> None:
        self.typed_while("note.*")

    def test_the_locks_are_removed(self) -> None:
        person = self.person()
        first = self.opened(person)
        first.type("first ")
        person.path().with_suffix(".lock").unlink()
        second = self.opened(person)
        second.moved_to(len(second.text))
        second.type("second ")
        first.take_in()
        type_at_the_end(first, "more ")
        text = self.assert_meet(first, second)
        self.assertEqual(sorted(text.split()), [b"first", b"more", b"second"])
        self.assertNotEqual(first.session.number, second.session.number)

    def test_one_opens_as_the_other_claims(self) -> None:
        person = self.person()
        first = self.opened(person)
        keep, opened = Disk.keep, list[Any]()

        def kept(disk: Disk, *words: Any, **more: Any) -> range:
            places = keep(disk, *words, **more)
            if more.get("client") and not opened:
                opened.append(None)
                opened[0] = self.opened(person)
            return places

        with mock.patch.object(Disk, "keep", kept):
            second = self.opened(person)
        numbers = {note.session.number for note in (first, second, *opened)}
        self.assertEqual(len(numbers), 3)

    def test_a_file_isnt_made_over_another_ones_log(self) -> None:
        person = self.person()
        first = self.opened(person)
        first.type("kept ")
        with contextlib.closing(person.disk()) as disk:
            about = disk.about
        wal = person.path().with_name("note.note-wal")
        before = wal.stat().st_ino
        make_note(person.path(), about)
        self.assertEqual(wal.stat().st_ino, before)


class GivenUp(Case):
    """Numbers that were given up, and what was withdrawn."""

    begun, copied, away, back, form = (getattr(test_numbers.Numbers, name)
                                       for name in ("begun", "copied", "away", "back", "form"))

    def setUp(self) -> None:
        super().setUp()
        self.url, self.anna = self.file_log(), self.person("anna")

    def forked(self) -> tuple[Note, Note]:
        """Two of whom one was copied, who both typed offline, and met."""
        self.begun()
        first, second = self.opened(self.anna), self.opened(self.copied())
        self.away()
        for note, words in (first, "F"), (second, "S"):
            wait_for(lambda one=note: one.session.status().offline, "the log to be away")
            for number in range(3):
                type_at_the_end(note, f"{words}{number} ")
        self.back()
        self.assert_meet(first, second)
        return first, second

    def test_what_was_withdrawn_stays_so_in_a_file_that_is_written_anew(self) -> None:
        notes = self.forked()
        for person in self.anna, self.person("copied"):
            for path in person.path().parent.glob("note.note*"):
                path.unlink()
        for note, typed in zip(notes, ("more ", "most ")):
            type_at_the_end(note, typed)
        words = b"one two three F0 F1 F2 S0 S1 S2 more most"
        self.assertEqual(sorted(self.assert_meet(*notes).split()), sorted(words.split()))

    def test_a_number_that_was_given_up_is_taken(self) -> None:
        link = self.begun()
        copy = self.copied()
        first, second = self.opened(self.anna), self.opened(copy)
        written(second, "second ")
        wait_for(lambda: (first.take_in(), second.text == first.text)[1], "it to be seen")
        # Whoever met the other's entry has given the number up.
        gave_up = first if first.session.number != second.session.number else second
        old = next(one for one in self.clients(gave_up) if one.retired)
        second.session.close()
        form, author = self.form(), None
        while author is None or rank(form.claim(old.site, author)) > rank(form.claim(old.site, old.author)):
            author = form.new_author()
        with contextlib.closing(self.anna.log()) as log:
            log.append([form.claim(old.site, author).raw])
        late = self.opened(self.person("late"), link=link)
        wait_for(lambda: (first.take_in(), late.take_in(), b"three" in late.text)[2], "the text to be back")
        words = self.assert_meet(first, late).split()
        self.assertEqual([words.count(one) for one in (b"one", b"two", b"three")], [1, 1, 1])

    def clients(self, note: Note) -> list[Client]:
        """The numbers of who has a note open."""
        with contextlib.closing(Disk(note.session._file.disk.path)) as disk:
            return disk.own.clients()

    def test_what_another_editor_made_anew_isnt_kept_twice(self) -> None:
        for person in self.forked() and (self.anna, self.person("copied")):
            with contextlib.closing(person.disk()) as disk:
                for one in disk._file.sql.execute("SELECT * FROM anew").fetchall():
                    with self.assertRaises(Overtaken):
                        disk.keep([], True, anew=[Anew(*one)])

    def test_a_disk_that_is_full_between_two_steps(self) -> None:
        for number, step in enumerate(((Entries, "withdraw"), (OwnTables, "stands"), (Disk, "keep"))):
            with self.subTest(step=step):
                if number:
                    self.doCleanups()
                    self.setUp()
                self.begun()
                first, second = self.opened(self.anna), self.opened(self.copied())
                self.away()
                for note, words in (first, "F "), (second, "S "):
                    wait_for(lambda one=note: one.session.status().offline, "the log to be away")
                    type_at_the_end(note, words)
                with mock.patch("share.sync.rebasing.REBASE_AGAIN_SECONDS", 0.3):
                    with mock.patch.object(*step, side_effect=Unkept("full")) as tried:
                        self.back()
                        wait_for(lambda: (first.take_in(), second.take_in(), tried.call_count > 1)[2], "both to try it")
                    # Until there is room the status line says that edits couldn't be made anew.
                    wait_for(lambda: (first.take_in(), second.take_in(), b"F" in second.text and b"S" in second.text)[2],
                             "both edits to be there")
                    self.assertEqual(sorted(self.assert_meet(first, second).split()), sorted(b"one two three F S".split()))

    def test_what_is_typed_while_no_other_number_can_be_claimed(self) -> None:
        self.begun()
        first = self.opened(self.anna)
        written(first, "F ")
        with mock.patch("share.sync.rebasing.REBASE_AGAIN_SECONDS", 0.3):
            with mock.patch.object(OwnTables, "add_client", side_effect=Unkept("full")) as tried:
                second = self.opened(self.copied())
                written(second, "S ")
                wait_for(lambda: (first.take_in(), tried.called)[1], "another number to be tried")
                # Nothing of hers is lost, but nothing more is sent under a number under which somebody else writes.
                if not is_second_form():
                    type_at_the_end(first, "last ")
                # Where a number costs a search nothing is typed before one is kept, and that is told.
                wait_for(lambda: (first.take_in(), first.session.can_type or first.session.status().trouble)[1], "it to be told")
            if is_second_form():
                type_at_the_end(first, "last ")
            wait_for(lambda: (second.take_in(), first.take_in(), b"last" in second.text)[2], "what was typed to come")
        self.assertEqual(sorted(self.assert_meet(first, second).split()), sorted(b"one two three F S last".split()))

    def test_what_the_log_brings_back_isnt_made_anew(self) -> None:
        self.begun()
        with contextlib.closing(self.anna.disk()) as disk:
            place = disk.entries.rows()[2].place
        change(self.anna.path(), "UPDATE entry SET raw = x'00' WHERE place = ?", place)
        read, arrived, sessions = OpenFile.read, Session._arrived, list[Session]()

        def arrived_there(session: Session) -> Told:
            sessions.append(session)
            return arrived(session)

        def slowly(file: OpenFile) -> Any:
            rows = read(file)
            if sessions:
                wait_for(sessions[0]._replicator.has_read, "the log to be read")
            return rows

        with mock.patch.object(OpenFile, "read", slowly), mock.patch.object(Session, "_arrived", arrived_there):
            note = self.opened(self.anna)
        wait_for(lambda: (note.take_in(), note.text == b"one two three ")[1], "the text to be whole")
        self.assertEqual(self.assert_meet(note), b"one two three ")
        self.assertNotIn("Made anew", note.notice)


class Damaged(Case):
    """A note's file of which some pages are damaged."""

    def damaged(self) -> pathlib.Path:
        """A note of 200 words, some pages of which are overwritten."""
        person = self.person()
        note = person.open()
        for number in range(200):
            note.type(f"w{number} ")
        note.session.close()
        path = person.path()
        data = bytearray(path.read_bytes())
        middle = len(data) // 2 // 4096 * 4096
        data[middle:middle + 2 * 4096] = b"\x55" * (2 * 4096)
        path.write_bytes(data)
        return path

    def test_opening_has_what_can_be_read(self) -> None:
        path = self.damaged()
        note = self.opened(self.person())
        self.assertGreater(len(note.text.split()), 20)
        note.take_in()
        type_at_the_end(note, "typed")
        self.assertIn(b"typed", note.text)
        self.assertTrue(path.with_name("note.note.damaged-1").exists())

    def test_recovering_says_it(self) -> None:
        path = self.damaged()
        run = self.note("recover", str(path.parent), VIALSHOAL_DATA=str(self.person().data))
        self.assertEqual(run.returncode, 0, run.stderr)
        self.assertRegex(run.stdout, r"note\.2: .* in .*note\.2\.note")
        self.assertNotIn("Traceback", run.stderr)


class Replaced(Case):
    """A note's file whose place is taken as it is opened."""

    def test_none_takes_the_place_of_one_that_is_being_opened(self) -> None:
        person = self.person()
        note = self.opened(person)
        written(note, "words ")
        path, inode, many = person.path(), inode_of(person.path()), note.session._file.disk.entries.size()
        replaces = threading.Thread(target=lambda: make_note(path, note.session._about, damaged=inode))

        def opened(*words: Any, **more: Any) -> SqliteFile:
            file = SqliteFile(*words, **more)
            replaces.start()
            # That long it may take, if nothing holds it up.
            replaces.join(1)
            return file

        # What is beside the new one isn't what the old one, which was opened, goes on with.
        with mock.patch("share.store.guarded.SqliteFile", opened), contextlib.closing(Disk(path)) as disk:
            self.assertEqual((disk.inode, disk.entries.size()), (inode, many))
            replaces.join()
            self.assertEqual((disk.is_in_place(), disk.entries.size()), (False, many))
        self.assertNotEqual(inode_of(path), inode)

    def test_none_takes_the_place_of_one_that_is_being_printed(self) -> None:
        note = self.opened(self.person())
        written(note, "words ")
        path, many = self.person().path(), note.session._file.disk.entries.size()
        replaces = threading.Thread(target=lambda: make_note(path, note.session._about, damaged=inode_of(path)))

        def opened(*words: Any, **more: Any) -> SqliteFile:
            file = SqliteFile(*words, **more)
            replaces.start()
            replaces.join(1)
            return file

        with mock.patch("share.store.read_only.SqliteFile", opened):
            found = found_in(path)
        replaces.join()
        self.assertEqual((len(found.entries), found.faults), (many, []))

    def test_none_takes_the_place_of_one_that_is_being_copied(self) -> None:
        person = self.person()
        note = self.opened(person)
        written(note, "words ")
        note.session.close()
        path = person.path()
        with contextlib.closing(person.disk()) as disk:
            about = disk.about
        replaces = threading.Thread(target=lambda: make_note(path, about, damaged=inode_of(path)))

        def copied_while(*words: Any) -> Any:
            replaces.start()
            replaces.join(1)
            return copied(*words)

        with mock.patch("share.store.read_only.copied", copied_while):
            text = person.text()
        replaces.join()
        self.assertEqual(text, b"words ")

    def test_one_that_is_written_to_is_copied_again(self) -> None:
        person, copies, copy = self.person(), 0, shutil.copyfile
        note = self.opened(person)
        written(note, "words ")
        note.session.close()
        path = person.path()

        def written_meanwhile(source: str, target: str) -> None:
            nonlocal copies
            copies += 1
            copy(source, target)
            if copies < 4:
                os.utime(source, ns=(1, copies))

        with mock.patch("shutil.copyfile", written_meanwhile):
            self.assertEqual(person.text(), b"words ")
        self.assertGreaterEqual(copies, 4)
        with (mock.patch("share.log.sqlite_file.COPY_TRIES", 2),
              mock.patch("share.log.sqlite_file._sizes_and_times", side_effect=range(100))):
            with self.assertRaisesRegex(Trouble, "is being written to"), copied(path):
                pass

    def test_who_stopped_as_it_took_a_place_keeps_nobody_from_opening(self) -> None:
        note = self.opened(self.person())
        written(note, "words ")
        path = note.session._file.disk.path
        with held(path.parent), mock.patch("share.log.folder.MOST_DISTURBED_SECONDS", 0.1), contextlib.closing(Disk(path)) as disk:
            self.assertGreater(disk.entries.size(), 0)
            self.assertEqual(self.person().text(), b"words ")
            note.session.close()
            disk.close()
            self.assertEqual(self.person().text(), b"words ")

    def test_notes_are_listed_beside_one_who_stopped_and_that_is_told(self) -> None:
        person = self.person()
        for name in "one", "two", "three", "four":
            person.open(name).session.close()
        said, slept = io.StringIO(), list[float]()
        clock = mock.Mock(monotonic=lambda: sum(slept), sleep=slept.append)
        with held(person.path("one").parent), mock.patch("share.log.folder.time", clock), person.here(), \
                mock.patch.object(reading, "print_text") as printed, contextlib.redirect_stderr(said):
            reading.list_notes(argparse.Namespace(json=False))
        self.assertEqual([words.args[0].split()[0] for words in printed.call_args_list], ["four", "one", "three", "two"])
        # It is waited for once, and not for each note.
        self.assertLess(sum(slept), 2 * MOST_DISTURBED_SECONDS)
        self.assertRegex(said.getvalue(), f"^note: Another process, perhaps one that was stopped, holds {person.path('one').parent}")
        # Once it is gone nothing is told.
        with person.here(), mock.patch.object(reading, "print_text"), contextlib.redirect_stderr(said := io.StringIO()):
            reading.list_notes(argparse.Namespace(json=False))
        self.assertEqual(said.getvalue(), "")

    def test_who_opens_it_meanwhile_has_written_nothing(self) -> None:
        note = self.opened(self.person())
        written(note, "words ")
        disk = note.session._file.disk
        for _ in range(2):
            # Nothing is written, and its log counts as changed: so it does where somebody opens it as root.
            with disk._file.writing(), contextlib.closing(Disk(disk.path)):
                log, before = beside(disk.path, WRITTEN_AHEAD), time.time_ns()
                wait_for(lambda log=log, before=before: (log.chmod(0o600), log.stat().st_ctime_ns > before)[1], "the time to show it")
            disk.look(lambda again: True)
        written(note, "more ")
        self.assertEqual((note.notice, [*disk.path.parent.glob("*damaged*")]), ("", []))


class Places(Case):
    """Folders that a note's file may be in."""

    def test_a_path_that_begins_with_two_slashes(self) -> None:
        person = Person(pathlib.Path(f"/{self.folder / 'data'}"))
        note = self.opened(person, url=f"/{self.file_log()}")
        written(note, "one ")
        with contextlib.closing(person.disk()) as disk:
            self.assertTrue(str(disk.path).startswith("//"))
            disk.check()
        note.session.close()
        self.assertEqual(person.text(), b"one ")


class Failing(Case):
    """An edit in the middle of which the program fails for good."""

    def test_nothing_of_it_is_there_and_the_next_one_counts(self) -> None:
        note, real = self.opened(self.person()), Site._edit
        written(note, "one ")
        calls = []

        def edit(site: Site, *words: Any) -> Edited:
            calls.append(words)
            if len(calls) == 3:
                raise Trouble("The program ended, was started again and ended again.")
            return real(site, *words)

        with mock.patch.object(Site, "_edit", edit):
            note.type("x" * 3 * MOST_INSERTED)
        self.assertIn("ended again", note.notice)
        self.assertEqual((bytes(note.text), note.session.text()), (b"one ", b"one "))
        written(note, "two ")
        self.assertEqual(self.person().text(), b"one two ")


class Names(Case):
    """What is taken for something else."""

    def test_a_notes_file_is_no_log(self) -> None:
        person = self.person()
        note = person.open("diary")
        note.type("dear diary")
        note.session.close()
        other = self.opened(person, "other", url=str(person.path("diary")))
        wait_for(lambda: other.session.status().offline, "the log to be away")
        self.assertIn("isn't a note's log", other.session.status().offline)
        self.assertEqual(person.text("diary"), b"dear diary")

    def test_renewing_takes_what_the_log_has(self) -> None:
        anna, berta = self.together(self.file_log(), "anna", "berta")
        written(anna, "anna ")
        self.assert_meet(anna, berta)
        anna.session.close()
        written(berta, "berta ")
        run = self.note("renew", "note", VIALSHOAL_DATA=str(self.folder / "anna"))
        self.assertEqual(run.returncode, 0, run.stderr)
        self.assertEqual(self.person("anna").text(), b"anna berta ")
