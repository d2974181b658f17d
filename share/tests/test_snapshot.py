"""A site's own packed file: it is gone on from where it is right, and passed over where it isn't; nothing is lost or used
twice over kills, damage, copies that are put back, and where there is no room."""
import contextlib
import os
import pathlib
import resource
import shutil
import sqlite3
import subprocess
from unittest import mock

from share.admission.judge import Judge
from share.format.entry import Author, Plain, digest
from share.program.process import Ended, Program
from share.program.site import PACKED_NAME, Site
from share.store import snapshot
from share.store.guarded import Unkept
from share.store.snapshot import LEFT, PACKED_FRONT
from share.sync.session import Session
from share.tests.naive import entry_of, inserting
from share.tests.note import Note
from share.tests.support import TOP, Case, change, python, type_at_the_end, wait_for, written
from share.tests.waiting import PATIENCE

# Opens a note and closes it, and is killed where it comes to a point.
DIES = """
import os, sys
from unittest import mock
from share.program.process import Program
from share.program.site import Site
from share.store import notes, snapshot
from share.store.own import OwnTables
from share.sync.session import Session
from share.tests.note import Note

point = sys.argv[1]
keep, noted, ask = Site.keep, OwnTables.note_packed, Program.ask

def dies(*_):
    os.kill(os.getpid(), 9)

def asks(program, events):
    if point == "writing" and any(b" keep " in event for event in events):
        program.process.stdin.write(b"".join(event + b"\\n" for event in events))
        dies()
    return ask(program, events)

def keeps(site):
    if point == "before":
        dies()
    fronts = keep(site)
    return dies() if point == "written" else fronts

def noted_then_dies(*words):
    if point == "transaction":
        with words[0]._file.writing():
            words[0]._sql.execute("INSERT OR REPLACE INTO packed VALUES (?, x'00', x'00')", words[1:2])
            dies()
    noted(*words)
    dies()

snapshot.AT_END = 1
Site.keep, OwnTables.note_packed, Program.ask = keeps, noted_then_dies, asks
note = Note(Session(notes.open_note("note", None, None)))
note.moved_to(len(note.text))
note.type(f"{point} ")
note.session.close()
"""
POINTS = ("before", "writing", "written", "transaction", "noted")


class Packing(Case):
    """One person whose note is packed whenever it is closed."""

    def setUp(self) -> None:
        super().setUp()
        patch = mock.patch.object(snapshot, "AT_END", 1)
        patch.start()
        self.addCleanup(patch.stop)
        self.ann = self.person()
        self.closed("begin ")

    def closed(self, words: str) -> None:
        """Types words into the note, and closes it."""
        note = self.opened(self.ann)
        type_at_the_end(note, words)
        self.number = note.session.number
        note.session.close()

    def file(self) -> pathlib.Path:
        """The packed file."""
        path = self.ann.path()
        return path.with_suffix(".packed") / str(self.number) / PACKED_NAME

    def shows(self, text: str, packed: bool) -> Note:
        """That the note shows a text, and whether it went on from the packed file; what is typed then stays."""
        with mock.patch.object(Site, "_reopen", autospec=True, side_effect=Site._reopen) as reopened:
            note = self.opened(self.ann)
        self.assertEqual((note.text.decode(), note.session.number), (text, self.number))
        self.assertEqual(reopened.call_count, packed)
        counts = note.session._holdings.judge.let_through_in_order()
        self.assertEqual(sorted(note.session.site.history), sorted(counts))
        front = note.session._holdings.judge.front(self.number)
        note.moved_to(len(text))
        note.type("!")
        self.assertEqual(note.session.last().first, front + 1)
        self.assertEqual(note.session.status().waiting, 0)
        note.erase(len(text), len(text) + 1)
        note.session.close()
        return note

    def test_it_is_gone_on_from(self) -> None:
        self.shows("begin ", True)
        self.closed("and more")
        self.shows("begin and more", True)

    def test_no_message_is_handed_in_that_it_has(self) -> None:
        events: list[bytes] = []
        ask = Program.ask
        with mock.patch.object(snapshot, "AT_END", 100):
            self.closed("and more")
        with mock.patch.object(Program, "ask", lambda program, asked: (events.extend(asked), ask(program, asked))[1]):
            note = self.opened(self.ann)
        self.assertEqual(bytes(note.text), b"begin and more")
        handed = [event for event in events if b" unpack " in event and not event.endswith(b" 00")]
        self.assertEqual(([event.split()[1:] for event in events if b" reopen " in event], len(handed)),
                         ([[b"reopen", b"1", b"text"]], 1))
        self.assertIn(b"and more".hex().encode(), handed[0])

    def test_it_is_of_what_others_wrote_too(self) -> None:
        ann, bob = self.together(self.file_log(), "one", "two")
        self.ann = self.person("one")
        written(ann, "from ann ")
        written(bob, "from bob ")
        text = self.assert_meet(ann, bob).decode()
        self.number = ann.session.number
        ann.session.close()
        written(bob, "later ")
        with mock.patch.object(Site, "_reopen", autospec=True, side_effect=Site._reopen) as reopened:
            ann = self.opened(self.ann)
        self.assert_comes_to(ann, (text + "later ").encode())
        self.assertEqual(reopened.call_count, 1)
        self.assert_meet(ann, bob)

    def test_kills(self) -> None:
        text = "begin "
        for point in POINTS:
            run = subprocess.run([python(), "-B", "-c", DIES, point], cwd=TOP, capture_output=True, text=True, check=False,
                                 env={**os.environ, "VIALSHOAL_DATA": str(self.ann.data)}, timeout=PATIENCE)
            self.assertEqual(run.returncode, -9, run.stderr)
            text += f"{point} "
            # As the program writes, it may have come to the file's end or not.
            note = self.opened(self.ann)
            self.assertEqual((note.text.decode(), note.session.number), (text, self.number), point)
            note.session.close()
            self.shows(text, True)

    def test_what_a_killed_program_leaves_is_taken_away(self) -> None:
        left = self.file().with_name(LEFT.replace("*", "3"))
        left.write_bytes(b"OTP1")
        self.closed("and more")
        self.assertEqual([path.name for path in self.file().parent.iterdir()], [PACKED_NAME])

    def test_one_that_is_missing_or_damaged(self) -> None:
        right = self.file().read_bytes()
        letter = right.index(b"begin")
        for bad in None, b"", right[:-1], right + b"x", right[:letter] + b"B" + right[letter + 1:], bytes(2_000):
            self.file().unlink()
            if bad is not None:
                self.file().write_bytes(bad)
            self.shows("begin ", False)
        self.shows("begin ", True)

    def test_what_the_program_refuses(self) -> None:
        """Files that are noted, and aren't what is to be gone on from."""
        other = self.file().read_bytes()[:6] + (self.number % 65_528 + 1).to_bytes(2, "big") + self.file().read_bytes()[8:]
        for bad in b"OTP1", b"no packed file", other:
            self.file().write_bytes(bad)
            change(self.ann.path(), "UPDATE packed SET digest = ?", digest(bad))
            note = self.opened(self.ann)
            self.assertEqual(note.text.decode(), "begin ")
            type_at_the_end(note, "x")
            note.erase(6, 7)
            note.session.close()
        self.shows("begin ", True)

    def test_a_note_of_it_that_is_none(self) -> None:
        for statement in ("UPDATE packed SET fronts = x'00'", "UPDATE packed SET digest = 5", "DELETE FROM packed",
                          "DROP TABLE packed"):
            change(self.ann.path(), statement)
            self.shows("begin ", False)
        self.shows("begin ", True)

    def test_one_that_was_put_back(self) -> None:
        """A packed file, or the note's file, or both, of an earlier day."""
        def saved(name: str) -> pathlib.Path:
            return pathlib.Path(shutil.copytree(self.ann.data, self.folder / name))

        def put_back(name: str, what: str) -> None:
            for path in (self.folder / name / "notes").glob(what):
                to = self.ann.data / "notes" / path.name
                if path.is_dir():
                    shutil.rmtree(to)
                    shutil.copytree(path, to)
                else:
                    # Another file takes its place: what is noted beside it is of the one that was there.
                    pathlib.Path(shutil.copyfile(path, self.folder / "new")).replace(to)

        saved("early")
        self.closed("late")
        saved("late")
        put_back("early", "*.packed")
        self.shows("begin late", False)
        put_back("late", "note.*")
        put_back("early", "note.note")
        # The note's file decides, though its site was further once.
        self.shows("begin ", False)
        put_back("late", "note.*")
        put_back("early", "note.*")
        self.shows("begin ", True)

    def test_what_does_not_count_any_more(self) -> None:
        """The file has one of two entries of a place, and then the other one holds."""
        form, author = Plain(bytes(16)), Author(b"sixteen bytes of", b"")
        claim = form.claim(7, author)
        branches = sorted((entry_of(form, claim, [inserting(7, 1, 1, None, 0, data)], author) for data in (b"x", b"y")),
                          key=lambda entry: entry.hash)
        judge = Judge([claim, branches[1]])
        self.file().write_bytes(b"packed")
        disk = mock.Mock(own=mock.Mock(packed=lambda _: (digest(b"packed"), PACKED_FRONT.pack(7, 1, branches[1].hash))))
        self.assertEqual(snapshot.fronts_of(disk, judge, 7, self.file().parent), {7: 1})
        for judge in Judge([claim, *branches]), Judge([claim]), Judge():
            self.assertEqual(snapshot.fronts_of(disk, judge, 7, self.file().parent), {})

    def test_no_room_for_it(self) -> None:
        # The name is taken by what can't be replaced.
        self.file().unlink()
        (self.file() / "x").mkdir(parents=True)
        self.closed("and more ")
        self.shows("begin and more ", False)
        shutil.rmtree(self.file())
        with mock.patch("share.store.own.OwnTables.note_packed", side_effect=Unkept("database or disk is full")):
            self.closed("still more ")
        self.shows("begin and more still more ", False)
        with mock.patch("share.store.snapshot.make_folder", side_effect=OSError(28, "No space left on device")):
            self.closed("end")
        # It is as it was before that.
        self.shows("begin and more still more end", True)

    def test_a_disk_that_is_full_ends_the_program(self) -> None:
        """A limit of the size of files ends it by a signal, and it is started again."""
        note = self.opened(self.ann)
        type_at_the_end(note, "x" * 3_000)
        pid = note.session.site._program.process.pid
        resource.prlimit(pid, resource.RLIMIT_FSIZE, (100, 100))
        note.session._replica.pack(1)
        self.assertNotEqual(note.session.site._program.process.pid, pid)
        type_at_the_end(note, "y")
        note.session.close()
        self.shows("begin " + "x" * 3_000 + "y", True)

    def test_a_program_that_ends_each_time_it_writes(self) -> None:
        ask = Program.ask

        def ends(program: Program, events: list[bytes]) -> list[list[bytes]]:
            if any(b" keep " in event for event in events):
                program.process.kill()
                raise Ended
            return ask(program, events)

        note = self.opened(self.ann)
        type_at_the_end(note, "more ")
        with mock.patch.object(Program, "ask", ends):
            note.session._replica.pack(1)
        type_at_the_end(note, "and more")
        self.assertEqual(note.session.text(), b"begin more and more")
        note.session.close()
        self.shows("begin more and more", True)

    def test_it_is_written_while_much_comes(self) -> None:
        note = self.opened(self.ann)
        with mock.patch.object(snapshot, "MANY_NEW", 3), mock.patch.object(
                Site, "keep", autospec=True, side_effect=Site.keep) as kept:
            for number in range(6):
                type_at_the_end(note, str(number))
                note.take_in()
        self.assertEqual(kept.call_count, 2)
        with contextlib.closing(sqlite3.connect(self.ann.path())) as file:
            self.assertEqual(file.execute("SELECT count(*) FROM packed").fetchone(), (1,))

    def test_its_folder_is_gone(self) -> None:
        note = self.opened(self.ann)
        shutil.rmtree(self.file().parent)
        note.session.site._program.process.kill()
        type_at_the_end(note, "more ")
        note.session._replica.pack(1)
        self.assertFalse((pathlib.Path.cwd() / PACKED_NAME).exists())
        note.session.close()
        self.shows("begin more ", False)
        self.shows("begin more ", True)

    def test_a_folder_without_a_file_is_taken_away(self) -> None:
        with mock.patch.object(snapshot, "AT_END", 100):
            self.ann.open("other").session.close()
            self.assertEqual([path.name for path in self.ann.path("other").parent.glob("other.packed")], [])

    def test_a_joined_note_is_packed(self) -> None:
        one = self.opened(self.person("one"), url=self.file_log())
        with mock.patch.object(snapshot, "MANY_NEW", 5):
            written(one, "some words")
            for word in "a few more words".split():
                written(one, word)
            two = self.opened(self.person("two"), link=self.person("one").link())
            self.assert_meet(one, two)
            wait_for(lambda: (two.take_in(), two.session._replica.packed)[1], "it to be packed")

    def test_a_session_whose_file_can_not_be_read(self) -> None:
        with mock.patch("share.store.own.OwnTables.packed", side_effect=Unkept("busy")):
            note = self.opened(self.ann)
            self.assertEqual(bytes(note.text), b"begin ")
            self.assertIsInstance(note.session, Session)
