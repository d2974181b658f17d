"""The log, or a note's file, is lost, replaced or damaged, while editors are on and while they are off: nothing
that was typed is lost, and all show the same."""
import contextlib
import os
import pathlib
import shutil
import signal
import sqlite3
import subprocess
from collections.abc import Callable, Iterator
from unittest import mock

from share.store.unchanged import FileWatch
from share.tests.editors import Editor, Engines
from share.tests.servers import FileLog, RedisServer
from share.tests.support import Case, alive, change, damage, raws_of, type_at_the_end, wait_for, written

PAGE = 4_096
# How a log beside a file begins, and a page in it with what is before that.
HEAD, FRAME = 32, 24 + PAGE


class InAFile(Case):
    """People of one machine, whose log is a file."""

    def setUp(self) -> None:
        super().setUp()
        self.path = pathlib.Path(self.file_log())

    def test_two_editors_that_were_offline_are_both_sent(self) -> None:
        anna = self.person("anna")
        first = self.opened(anna, url=str(self.path))
        written(first, "begun ")
        second = self.opened(anna)
        type_at_the_end(second, "")
        log = FileLog(self.folder)
        log.kill()
        for note, words in (first, "first "), (second, "second "):
            wait_for(lambda one=note: one.session.status().offline, "the log to be away")
            type_at_the_end(note, words)
            note.session.close()
        log.start()
        again = self.opened(anna)
        self.assertEqual(self.assert_meet(again), b"begun first second ")
        berta = self.opened(self.person("berta"), link=anna.link())
        self.assertEqual(self.assert_meet(again, berta), b"begun first second ")

    def lost(self, lose: Callable[[], object]) -> None:
        """That three go on, and fill the log again, when it is lost while two are on and one is off."""
        notes = self.together(str(self.path), "anna", "berta", "carla")
        for note, words in zip(notes, ("anna ", "berta ", "carla ")):
            written(note, words)
        text = self.assert_meet(*notes)
        notes[2].session.close()
        for turn in range(2):
            lose()
            for number, note in enumerate(notes[:2]):
                type_at_the_end(note, f"on{turn}{number} ")
            text = self.assert_meet(*notes[:2])
        self.assertEqual(sorted(text.split()), sorted(b"anna berta carla on00 on01 on10 on11".split()))
        carla = self.opened(self.person("carla"))
        type_at_the_end(carla, "back ")
        text = self.assert_meet(*notes[:2], carla)
        self.assertIn(b"back", text)
        with contextlib.closing(self.person("anna").log()) as log:
            raws = raws_of(log)
        self.assertEqual(len(raws), len(set(raws)))
        self.assert_comes_to(self.opened(self.person("new"), link=self.person("anna").link()), text)

    def files(self) -> list[pathlib.Path]:
        """The files of the log."""
        return list(self.path.parent.glob(f"{self.path.name}*"))

    def test_removed(self) -> None:
        self.lost(lambda: [path.unlink(missing_ok=True) for path in self.files()])

    def test_removed_alone(self) -> None:
        self.lost(self.path.unlink)

    def test_emptied(self) -> None:
        self.lost(lambda: os.truncate(self.path, 0))

    def test_replaced_by_what_is_no_log(self) -> None:
        anna, berta = self.together(str(self.path), "anna", "berta")
        written(anna, "before ")
        for path in self.files():
            path.unlink()
        self.path.write_bytes(b"These are words.\n" * 1_000)
        type_at_the_end(anna, "kept ")
        # Somebody's file isn't taken away.
        wait_for(lambda: "isn't a note's log. Move it away" in (anna.session.status().offline or ""), "the log to be told away")
        self.assertEqual(self.path.read_bytes()[:5], b"These")
        self.path.unlink()
        self.assertEqual(self.assert_meet(anna, berta), b"before kept ")

    def test_trimmed(self) -> None:
        self.lost(lambda: change(self.path, "DELETE FROM entry WHERE place % 2"))

    def test_replaced_by_an_older_copy(self) -> None:
        anna, berta = self.together(str(self.path), "anna", "berta")
        written(anna, "old ")
        self.assert_meet(anna, berta)
        copy = self.folder / "copy"
        copy.mkdir()
        for path in self.files():
            shutil.copy(path, copy)
        written(anna, "new ")
        self.assert_meet(anna, berta)
        for path in self.files():
            path.unlink()
        for path in copy.iterdir():
            shutil.copy(path, self.path.parent)
        written(berta, "newer ")
        self.assertEqual(self.assert_meet(anna, berta), b"old new newer ")
        carla = self.opened(self.person("carla"), link=self.person("anna").link())
        self.assertEqual(self.assert_meet(anna, carla), b"old new newer ")

    def test_a_bit_of_an_entry(self) -> None:
        anna = self.opened(self.person("anna"), url=str(self.path))
        for words in "one ", "two ", "three ":
            written(anna, words)
        anna.session.close()
        wait_for(lambda: damage(self.path, b"two ", b"pwo "), "it to be there")
        link = self.person("anna").link()
        berta = self.opened(self.person("berta"), link=link)
        self.assert_comes_to(berta, b"one ")
        wait_for(lambda: (berta.take_in(), "An entry of the log is damaged and was left out" in str(berta.told))[1], "it to be told")
        written(berta, "behind ")
        # Who has the right one brings it.
        anna = self.opened(self.person("anna"))
        wait_for(lambda: (berta.take_in(), anna.take_in(), anna.text == berta.text)[2], "both to be the same")
        self.assertEqual(sorted(anna.text.split()), sorted(b"one two three behind".split()))
        self.assert_meet(anna, berta)
        self.assert_comes_to(self.opened(self.person("carla"), link=link), bytes(anna.text))

    def test_a_bit_of_an_entry_while_the_author_is_on(self) -> None:
        anna = self.opened(self.person("anna"), url=str(self.path))
        for words in "one ", "two ", "three ":
            written(anna, words)
        wait_for(lambda: damage(self.path, b"two ", b"pwo "), "it to be there")
        berta = self.opened(self.person("berta"), link=self.person("anna").link())
        self.assertEqual(self.assert_meet(berta, anna), b"one two three ")


class OwnFile(Case):
    """The note's own file, which an editor has open."""

    def test_removed_or_damaged(self) -> None:
        person = self.person()
        path = person.path()
        for number, lose in enumerate((
                path.unlink, lambda: os.truncate(path, 0), lambda: path.write_bytes(b"no note" * 5_000),
                lambda: [one.unlink() for one in path.parent.glob("note.note*")],
                lambda: change(path, "DELETE FROM entry"), lambda: change(path, "DROP TABLE entry"))):
            with self.subTest(number=number):
                shutil.rmtree(path.parent, ignore_errors=True)
                first, second = person.open(), person.open()
                first.type("first ")
                wait_for(lambda: (second.take_in(), second.text == b"first ")[1], "the second one to see it")
                lose()  # type: ignore[operator]
                first.type("lost? ")
                self.assertEqual(first.text, b"first lost? ", first.notice)
                type_at_the_end(second, "second")
                self.assert_meet(first, second)
                for note in first, second:
                    note.session.close()
                self.assertEqual(person.text(), bytes(first.text))
                self.assertIn(b"lost? ", person.text())
                again = person.open()
                self.assertEqual(again.text, first.text)
                again.session.close()

    def test_a_log_beside_it_that_is_written_over_within_an_own_write(self) -> None:
        person = self.person()
        note = person.open()
        note.type("one ")
        real = FileWatch.written

        @contextlib.contextmanager
        def spoiled(watch: FileWatch, moves: bool = False) -> Iterator[None]:
            with real(watch, moves):
                yield
                write_over(beside(person.path(), "-wal"), 0, bytes(32))

        with mock.patch.object(FileWatch, "written", spoiled):
            note.type("two ")
        note.type("three ")
        self.assertIn("written anew", " ".join(note.session.notices()))
        self.assertEqual(person.text(), b"one two three ")
        note.session.close()

    def test_a_log_beside_it_that_begins_anew_within_an_own_write(self) -> None:
        path = self.folder / "file"
        with contextlib.closing(sqlite3.connect(path, isolation_level=None)) as file:
            file.execute("PRAGMA journal_mode = WAL")
            file.execute("CREATE TABLE words (word)")
            watch = FileWatch(path).use()
            self.addCleanup(watch.let_go)
            for number in range(3):
                head = beside(path, "-wal").read_bytes()[:32]
                with watch.written(moves=True):
                    file.execute("INSERT INTO words VALUES (?)", (number,))
                    self.assertEqual(file.execute("PRAGMA wal_checkpoint(RESTART)").fetchone()[0], 0)
                    file.execute("INSERT INTO words VALUES (?)", (number,))
                self.assertNotEqual(beside(path, "-wal").read_bytes()[:32], head)
                self.assertIsNone(watch.unknown())


def beside(path: pathlib.Path, end: str) -> pathlib.Path:
    """What belongs to a note's file."""
    return path.with_name(path.name + end)


def cut(path: pathlib.Path, part: float = 0.0) -> None:
    """Leaves the first part of a file."""
    os.truncate(path, int(path.stat().st_size * part))


def write_over(path: pathlib.Path, at: int, data: bytes) -> None:
    """Changes some bytes of a file, which then has another time than before."""
    file = os.open(path, os.O_RDWR)
    try:
        before = os.fstat(file).st_ctime_ns
        # What is written in the same moment of the system's clock leaves the same time.
        wait_for(lambda: (os.pwrite(file, data, at), os.fstat(file).st_ctime_ns != before)[1], "the clock to go on")
    finally:
        os.close(file)


def middle(path: pathlib.Path) -> int:
    """Where a page in the middle of a file begins."""
    return path.stat().st_size // 2 // PAGE * PAGE


def page_of_log(path: pathlib.Path) -> int:
    """Where a page in the middle of the log beside a file begins. In the midst of one there may be nothing but zeros."""
    return HEAD + (beside(path, "-wal").stat().st_size - HEAD) // FRAME // 2 * FRAME


def put_in_place(path: pathlib.Path) -> None:
    """Gives another program's file the name."""
    other = path.with_name("other")
    other.write_bytes(b"words\n" * 5_000)
    os.rename(other, path)


# SQLite has the index in memory that the file stands for. Who reads there once the file was cut off is ended by the system, and whether
# a thread does so before another one sees it is chance.
CUT_INDEX = "an empty index beside it"
DAMAGES: dict[str, Callable[[pathlib.Path], object]] = {
    "emptied": cut,
    "cut in half": lambda path: cut(path, 0.5),
    "no header": lambda path: write_over(path, 0, bytes(16)),
    "another application's": lambda path: write_over(path, 68, b"\1\2\3\4"),
    "zeros over a page": lambda path: write_over(path, middle(path), bytes(PAGE)),
    "one byte": lambda path: write_over(path, middle(path) + 1_000, b"\x55"),
    "another file": put_in_place,
    "other contents": lambda path: path.write_bytes(b"words\n" * 5_000),
    "no log beside it": lambda path: beside(path, "-wal").unlink(),
    "no index beside it": lambda path: beside(path, "-shm").unlink(),
    "an empty log beside it": lambda path: cut(beside(path, "-wal")),
    "half of a log beside it": lambda path: cut(beside(path, "-wal"), 0.5),
    "another log beside it": lambda path: write_over(beside(path, "-wal"), 0, bytes(32)),
    "zeros in the log beside it": lambda path: write_over(beside(path, "-wal"), page_of_log(path), bytes(99)),
    CUT_INDEX: lambda path: cut(beside(path, "-shm")),
}


class SpoiltWhileOpen(Engines):
    """A note's file, or what belongs to it, is damaged while an engine has it open."""

    def begun(self, data: str, **more: str) -> Editor:
        """An editor of a note of which something is in the file, and something in the log beside it."""
        self.words = "".join(f"{number} {'x' * 3_000}\n" for number in range(20))
        note = self.person(data).open(**more)
        type_at_the_end(note, self.words)
        note.session.close()
        editor = self.editor(data)
        editor.wait_for(lambda: any(state["types"] for state in editor.notices("state")), "a number")
        self.type(editor, "begun ")
        return editor

    def type(self, editor: Editor, words: str) -> None:
        """Types words, which are kept when this returns."""
        editor.type(words)
        self.assertNotIn("error", editor.settle())
        self.words += words

    def assert_kept(self, data: str, what: str) -> None:
        """That the file alone has all that was typed."""
        self.assertTrue(self.person(data).text().decode().replace("\r", "\n") == self.words, what)

    def asides(self, data: str) -> int:
        """How many damaged files there are."""
        return len([*self.person(data).path().parent.glob("note.note.damaged-*[0-9]")])

    def damaged_again_and_again(self, **more: str) -> None:
        """That the user is told of each damage, the damaged file is kept, and all is there then; in a private note, to whose file only keys
        are written, as soon as one is answered."""
        editor = self.begun("data", **more)
        for number, (what, spoils) in enumerate((one for one in DAMAGES.items() if one[0] != CUT_INDEX), 1):
            spoils(self.person().path())
            self.type(editor, f"{number} ")
            if not more:
                self.assert_kept("data", what)
            editor.wait_for(lambda many=number: len(editor.notices("says")) >= many, f"{what} to be told")
            self.assert_kept("data", what)
            self.assertRegex(editor.notices("says")[-1]["words"], "written anew. What was there is .*note.note.damaged-")
            self.assertEqual(self.asides("data"), number, what)
        editor.close()
        self.assert_kept("data", "closed")

    def test_a_private_note_is_written_anew(self) -> None:
        self.damaged_again_and_again()

    def test_a_shared_note_is_written_anew(self) -> None:
        self.damaged_again_and_again(url=self.file_log())

    def test_an_index_that_is_cut_off_costs_nothing_that_was_answered(self) -> None:
        for more in dict[str, str](), {"url": self.file_log()}:
            data = f"data{len(more)}"
            editor = self.begun(data, **more)
            assert editor.mirror
            mirror = editor.mirror
            DAMAGES[CUT_INDEX](self.person(data).path())
            editor.type("last ")
            wait_for(lambda one=editor, has=mirror: one.read(0.02) and has.answered == has.made or one.process.poll() is not None,
                     "an answer, or the engine's end")
            words = {self.words + "last "} if mirror.answered == mirror.made else {self.words, self.words + "last "}
            editor.close()
            again = self.editor(data)
            again.wait_for(lambda one=again, these=words: one.text in these, "all that was answered")
            again.close()

    def test_what_is_closed_or_killed_then_is_whole(self) -> None:
        for what, is_killed in (("emptied", False), ("emptied", True), ("zeros over a page", False), ("no log beside it", True)):
            with self.subTest(what=what, is_killed=is_killed):
                data = f"{what} {is_killed}"
                editor = self.begun(data)
                engine = self.engine(data)
                DAMAGES[what](self.person(data).path())
                if is_killed:
                    self.type(editor, "last ")
                    os.kill(engine, signal.SIGKILL)
                editor.close()
                wait_for(lambda one=engine: not alive(one), "the engine to end")
                self.assert_kept(data, what)
                self.assertEqual(self.asides(data), 1)


class OnAServer(Case):
    """People who share a note by a Redis server."""

    def setUp(self) -> None:
        super().setUp()
        self.server = self.redis()

    def test_all_files_of_a_server_are_lost_twice(self) -> None:
        notes = self.together(self.server.url, "anna", "berta", "carla")
        for note, words in zip(notes, ("anna ", "berta ", "carla ")):
            written(note, words)
        self.assert_meet(*notes)
        notes[2].session.close()
        for turn in range(2):
            self.server.lose_all()
            for number, note in enumerate(notes[:2]):
                type_at_the_end(note, f"off{turn}{number} ")
            self.server.start()
            for number, note in enumerate(notes[:2]):
                type_at_the_end(note, f"on{turn}{number} ")
            text = self.assert_meet(*notes[:2])
        carla = self.opened(self.person("carla"))
        type_at_the_end(carla, "back ")
        text = self.assert_meet(*notes[:2], carla)
        words = "anna berta carla back off00 off01 off10 off11 on00 on01 on10 on11"
        self.assertEqual(sorted(text.decode().split()), sorted(words.split()))
        with contextlib.closing(self.person("anna").log()) as log:
            raws = raws_of(log)
        self.assertEqual(len(raws), len(set(raws)))
        new = self.opened(self.person("new"), link=self.person("anna").link())
        self.assertEqual(self.assert_meet(new, carla), text)

    def test_a_server_that_loses_its_tail(self) -> None:
        anna, berta = self.together(self.server.url, "anna", "berta")
        written(anna, "kept ")
        self.assert_meet(anna, berta)
        self.server.kill()
        shutil.copytree(self.server.folder, self.folder / "older")
        self.server.start()
        for note, words in (anna, "anna "), (berta, "berta "):
            written(note, words)
        text = self.assert_meet(anna, berta)
        # One of those who saw the tail is off; the other brings back what both wrote.
        anna.session.close()
        self.server.kill()
        shutil.rmtree(self.server.folder)
        shutil.copytree(self.folder / "older", self.server.folder)
        self.server.start()
        carla = self.opened(self.person("carla"), link=self.person("anna").link())
        self.assertEqual(self.assert_meet(berta, carla), text)
        written(carla, "carla ")
        berta.session.close()
        anna = self.opened(self.person("anna"))
        self.assertEqual(self.assert_meet(anna, carla), text + b"carla ")
        numbers = {note.session.number for note in (anna, berta, carla)}
        self.assertEqual(len(numbers), 3)

    def test_trimmed(self) -> None:
        anna, berta = self.together(self.server.url, "anna", "berta")
        for number in range(5):
            written(anna, f"{number} ")
        berta.session.close()
        for trim in "XTRIM {} MAXLEN 2", "XTRIM {} MAXLEN 0", "DEL {}", "FLUSHALL":
            self.command(trim)
            written(anna, "more ")
            wait_for(lambda: len(self.raws()) == len(set(self.raws())) > 6, "the log to be full again")
            new = self.opened(self.person(trim[:7]), link=self.person("anna").link())
            self.assert_meet(new, anna)

    def raws(self) -> list[bytes | None]:
        """All that the log has."""
        with contextlib.closing(self.person("anna").log()) as log:
            return raws_of(log)

    def command(self, words: str) -> None:
        """Has the server do something with the note's entries."""
        with contextlib.closing(self.person("anna").disk()) as disk:
            key = f"vialshoal:note:{{{disk.form.note.hex()}}}:entries"
        run = ["redis-cli", "-p", str(self.server.port), *words.format(key).split()]
        subprocess.run(run, check=True, stdout=subprocess.DEVNULL)

    def test_two_logs_are_joined(self) -> None:
        anna, berta = self.together(self.server.url, "anna", "berta")
        written(anna, "both ")
        self.assert_meet(anna, berta)
        (self.folder / "second").mkdir()
        second = RedisServer(self.folder / "second")
        self.addCleanup(second.close)
        berta.session.close()
        berta = self.opened(self.person("berta"), url=second.url)
        written(berta, "berta ")
        written(anna, "anna ")
        carla = self.opened(self.person("carla"), link=self.person("berta").link())
        self.assertEqual(self.assert_meet(berta, carla), b"both berta ")
        berta.session.close()
        berta = self.opened(self.person("berta"), url=self.server.url)
        text = self.assert_meet(anna, berta)
        self.assertEqual(sorted(text.split()), [b"anna", b"berta", b"both"])
