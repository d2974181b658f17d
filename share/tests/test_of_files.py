"""Notes as a whole, by the real command: they are listed, searched, brought up to date, renamed and deleted, also where that is killed
midway and where two do it at once."""
import contextlib
import itertools
import json
import os
import re
import shutil
import signal
import subprocess
import threading
import unittest
from collections.abc import Callable

from share.store import naming, nicknames, notes, seen
from share.store.locks import Locks
from share.tests.editors import Editor
from share.tests.support import NOTE, Case, Person, engine_of, type_at_the_end, wait_for, written
from share.tests.terminals import Answering
from share.tests.waiting import PATIENCE
from share.text.errors import Trouble

# More than renaming or deleting makes that change the disk.
MOST_CALLS = 40
LOOKS = [seen.Look(5, {7: seen.Front(1, bytes(32))})]


def killed_at(number: int, does: Callable[[], None]) -> bool:
    """Does something in a process that is killed before the call of this number that changes the disk; whether it was."""
    if not (child := os.fork()):
        calls = itertools.count()

        def counting(real: Callable[..., object]) -> Callable[..., object]:
            def called(*words: object, **more: object) -> object:
                if next(calls) == number:
                    os.kill(os.getpid(), signal.SIGKILL)
                return real(*words, **more)
            return called

        for name in "rename", "unlink", "rmdir", "replace":
            setattr(os, name, counting(getattr(os, name)))
        try:
            does()
            os._exit(0)
        finally:
            os._exit(1)
    status = os.waitstatus_to_exitcode(os.waitpid(child, 0)[1])
    assert status in (0, -signal.SIGKILL), status
    return status != 0


class OfFiles(Case):
    """Tests with a person who has notes, and a server."""

    def run_as(self, person: Person, *words: str, status: int = 0, **environment: str) -> subprocess.CompletedProcess[str]:
        """A run of bin/note of somebody, which ends with this status."""
        run = self.note(*words, VIALSHOAL_DATA=str(person.data), **environment)
        self.assertEqual(run.returncode, status, run.stdout + run.stderr)
        return run

    def made(self, person: Person, name: str = "note", words: str = "one two\n", url: str | None = None) -> None:
        """Makes a note with words, with a packed file, a copy that was set aside, people, and a look."""
        note = person.open(name, url)
        written(note, words)
        note.session.close()
        with person.here():
            nicknames.remember(name, {7: "Ada"})
            seen.keep_looks(name, b"", LOOKS)
        packed = person.path(name).with_suffix(".packed") / "7"
        packed.mkdir(parents=True)
        (packed / "texts").write_text(words)
        person.path(name).with_name(f"{name}.note.damaged-1").write_text(words)

    def listed(self, person: Person) -> dict[str, dict[str, object]]:
        """What is listed, by the names."""
        found = json.loads(self.run_as(person, "list", "--json").stdout)["notes"]
        return {one["name"]: one for one in found}


class UpToDate(OfFiles):
    """What isn't sent is told, and sent with no editor."""

    def test_on_a_train(self) -> None:
        server, ann, bob = self.redis(), self.person("ann"), self.person("bob")
        for name in "one", "two":
            self.made(ann, name, url=server.url)
            bob.open("b" + name, link=ann.link(name)).session.close()
        self.run_as(ann, "append", "alone", "kept here", "--new")
        server.kill()
        # A new note of the server is made, and typed into, while that is away.
        said = self.run_as(ann, "append", "three", "typed away", "--new", "--log", server.url).stderr
        self.assertIn("three.note, and not sent yet", said)
        for name in "one", "two":
            self.run_as(ann, "append", name, "typed away")
        found = self.listed(ann)
        self.assertEqual({name: one["unsent"] for name, one in found.items()}, {"alone": 0, "one": 1, "three": 1, "two": 1})
        self.assertIn("1 edit unsent", self.run_as(ann, "list").stdout)
        run = self.run_as(ann, "sync", status=3)
        self.assertIn("1 edit kept: ", run.stdout)
        server.start()
        self.assertEqual(re.findall(r"(\w+)  all sent", self.run_as(ann, "sync").stdout), ["one", "three", "two"])
        self.assertEqual({one["unsent"] for one in self.listed(ann).values()}, {0})
        synced = json.loads(self.run_as(bob, "sync", "bone", "--json").stdout)["notes"]
        self.assertEqual([(one["name"], one["unsent"]) for one in synced], [("bone", 0)])
        self.assertGreater(synced[0]["came"], 0)
        # What is read from a log is kept, too.
        self.run_as(bob, "cat", "btwo")
        server.kill()
        for name in "bone", "btwo":
            self.assertEqual(bob.text(name), b"one two\rtyped away\r")
        self.assertEqual(self.run_as(bob, "search", "TYPED  away".replace("  ", " ")).stdout,
                         "bone:2: typed away\nbtwo:2: typed away\n")
        self.run_as(bob, "search", "nowhere", status=1)

    def test_again_and_again(self) -> None:
        server, ann, bob = self.redis(), self.person("ann"), self.person("bob")
        for pause in "0", "-1", "nan", "1e9", "x":
            self.assertIn("usage", self.run_as(bob, "sync", f"--every={pause}", status=2).stderr)
        self.made(ann, url=server.url)
        bob.open(link=ann.link()).session.close()
        note = self.opened(ann)
        with subprocess.Popen([NOTE, "sync", "--every", "0.1"], stdout=subprocess.PIPE, text=True,
                              env={**os.environ, "VIALSHOAL_DATA": str(bob.data)}) as run:
            try:
                assert run.stdout
                self.assertIn("all sent", run.stdout.readline())
                written(note, "three\n")
                wait_for(lambda: bob.text() == b"one two\rthree\r", "the other one's text")
            finally:
                run.terminate()
        self.assertEqual(run.returncode, 0)

    def test_a_note_that_is_open(self) -> None:
        server = self.redis()
        editor = Editor(self.folder / "ann", log=server.url)
        self.addCleanup(editor.close)
        editor.type("one\n")
        self.assertEqual(self.run_as(self.person("ann"), "sync").stdout, "note  all sent\n")
        server.kill()
        editor.type("two\n")
        editor.wait_for(lambda: (editor.mirror.state.get("log"), editor.mirror.state.get("unsent")) == ("away", 1), "the log to be away")
        self.assertIn("1 edit kept", self.run_as(self.person("ann"), "sync", status=3).stdout)

    def test_a_note_that_is_opened_without_its_log(self) -> None:
        server, ann = self.redis(), self.person("ann")
        with contextlib.closing(Editor(ann.data, log=server.url)) as editor:
            for word in "one\n", "two\n", "three\n":
                editor.type(word)
        self.assertEqual(self.run_as(ann, "sync").stdout, "note  all sent\n")
        server.kill()
        editor = Editor(ann.data)
        self.addCleanup(editor.close)
        editor.wait_for(lambda: editor.mirror.state.get("log") == "away", "the log to be away")
        self.assertEqual(editor.mirror.state["unsent"], 0)
        editor.type("four\n")
        editor.wait_for(lambda: editor.mirror.state.get("unsent"), "the edit to be unsent")
        self.assertEqual(editor.mirror.state["unsent"], self.listed(ann)["note"]["unsent"])
        server.start()
        editor.wait_for(lambda: editor.mirror.state.get("log") == "sent", "all to be sent")

    def test_several_at_once(self) -> None:
        server, ann = self.redis(), self.person("ann")
        words = []
        for number in range(8):
            file = self.folder / f"{number}.txt"
            file.write_text(f"text {number}\n")
            words += [f"note{number}", str(file)]
        run = self.run_as(ann, "import", *words, "--new", "--json", "--log", server.url)
        self.assertEqual([json.loads(line) for line in run.stdout.splitlines()],
                         [{"note": f"note{number}", "changed": 1, "sent": True} for number in range(8)])
        self.assertEqual([ann.text(f"note{number}") for number in range(8)], [b"text %d\r" % number for number in range(8)])
        for wrong in ["a"], ["a", words[1], "a", words[1]], ["a", words[1], "b"], ["a", words[1], "b", "/nowhere"]:
            self.run_as(ann, "import", *wrong, "--new", status=2)
        self.assertFalse(ann.path("a").exists() or ann.path("b").exists())


class Named(OfFiles):
    """A note gets another name, or goes."""

    def assert_is(self, person: Person, name: str, words: str = "one two\n") -> None:
        """That there is one note with these words, of this name, which is typed on."""
        with person.here():
            self.assertEqual(notes.names(), [name])
        note = person.open(name)
        self.assertEqual(note.text.decode().replace("\r", "\n"), words)
        type_at_the_end(note, "")
        note.session.close()

    def test_renamed(self) -> None:
        ann, log = self.person("ann"), self.file_log()
        self.made(ann, url=log)
        link = ann.link()
        self.assertIn("note.note.damaged-1 keeps its name", self.run_as(ann, "rename", "note", "plan.b").stderr)
        self.assertEqual(ann.link("plan.b"), link)
        with ann.here():
            self.assertEqual((nicknames.known("plan.b"), seen.looks_at("plan.b", b"")), ({7: "Ada"}, LOOKS))
        self.assertEqual({path.name for path in ann.path().parent.iterdir()},
                         {"note.note.damaged-1", "plan.b.lock", "plan.b.note", "plan.b.packed", "plan.b.people", "plan.b.seen"})
        self.assert_is(ann, "plan.b")
        # Nobody else takes part in it, and what is typed goes on under the same number.
        with contextlib.closing(ann.disk("plan.b")) as disk:
            self.assertEqual(len(disk.own.clients()), 1)

    def test_what_is_refused(self) -> None:
        ann = self.person("ann")
        self.made(ann)
        self.made(ann, "other")
        for words in ("rename", "nowhere", "new"), ("rename", "note", "other"), ("rename", "note", "a/b"), ("rename", "note", "note"), \
                ("delete", "nowhere", "--yes"), ("delete", "note"):
            self.run_as(ann, *words, status=2)
        editor = Editor(ann.data)
        self.addCleanup(editor.close)
        for words in ("rename", "note", "new"), ("delete", "note", "--yes"), ("rename", "other", "note"):
            self.run_as(ann, *words, status=2)
        editor.type("x")
        editor.settle()
        editor.close()
        # Who had the note open is gone once its engine has closed it.
        wait_for(lambda: not ann.path().with_name("note.note-wal").exists(), "the engine's end")
        self.assertEqual(ann.text("other"), b"one two\r")

    def test_deleted(self) -> None:
        ann = self.person("ann")
        self.made(ann, url=str(self.folder / "nowhere" / "log"))
        self.run_as(ann, "append", "other", "stays", "--new")
        self.run_as(ann, "append", "note.old-1", "stays", "--new")
        self.assertIn("from this disk", self.run_as(ann, "delete", "note", status=2).stderr)
        for answer in "n", "y":
            with Answering(ann.data, "delete", "note") as run:
                run.sees("with its key", "note.old-1 would stay", "Delete note from this disk")
                run.type(f"{answer}\n")
                self.assertEqual(run.status(), 0 if answer == "y" else 2, run.shown)
            self.assertEqual(ann.path().exists(), answer == "n")
        self.assertEqual({path.name for path in ann.path().parent.iterdir() if path.suffix == ".note"}, {"other.note", "note.old-1.note"})
        self.assertEqual([path.name for path in ann.path().parent.glob("note.*") if not path.name.startswith("note.old-1.")], [])
        self.assertEqual(self.run_as(ann, "cat", "other").stdout, "stays\n")

    def test_a_damaged_one_goes_and_is_not_renamed(self) -> None:
        ann = self.person("ann")
        self.made(ann)
        ann.path().write_bytes(b"rubbish" * 1000)
        self.run_as(ann, "rename", "note", "new", status=2)
        self.run_as(ann, "delete", "note", "--yes")
        self.assertEqual([*ann.path().parent.iterdir()], [])

    def test_killed_midway(self) -> None:
        self.made(self.person("whole"))
        ways: list[Callable[[], None]] = [lambda: naming.rename_note("note", "new"), lambda: naming.delete_note("note")]
        for does, left in zip(ways, (["new"], list[str]())):
            for calls in range(MOST_CALLS):
                ann = self.person(f"ann-{len(left)}-{calls}")
                shutil.copytree(self.folder / "whole", ann.data)
                with ann.here():
                    was_killed = killed_at(calls, does)
                    if notes.names() == ["note"]:
                        # Whole under the old name, and the same again ends it.
                        self.assertEqual(ann.text(), b"one two\r")
                        does()
                    self.assertEqual(notes.names(), left)
                    if left:
                        self.assertEqual((ann.text("new"), nicknames.known("new")), (b"one two\r", {7: "Ada"}))
                        self.assertTrue((ann.path("new").with_suffix(".packed") / "7" / "texts").exists())
                    else:
                        self.assertLessEqual({path.name for path in ann.path().parent.iterdir()}, {"note.lock"})
                if not was_killed:
                    break
            self.assertFalse(was_killed)
            self.assertGreater(calls, 3)

    def test_several_at_once(self) -> None:
        ann = self.person()
        self.made(ann)
        for turn in range(2):
            names = [f"{letter}{turn}" for letter in "abcd"]
            runs = [subprocess.Popen([NOTE, "rename", "note", name], stderr=subprocess.DEVNULL) for name in names]
            won = [name for name, run in zip(names, runs) if run.wait(PATIENCE) == 0]
            self.assertEqual((len(won), notes.names()), (1, won))
            self.assertEqual(ann.text(won[0]), b"one two\r")
            naming.rename_note(won[0], "note")
        self.assert_is(ann, "note")

    def test_after_the_kill_of_an_engine(self) -> None:
        editor = Editor(self.folder / "data")
        self.addCleanup(editor.close)
        editor.type("typed\n")
        editor.settle()
        os.kill(engine_of(self.folder / "data"), signal.SIGKILL)
        editor.process.wait()
        self.assertTrue(self.person().path().with_name("note.note-wal").exists())
        wait_for(lambda: not self.note("rename", "note", "new").returncode, "the system to let go of its locks")
        self.assert_is(self.person(), "new", "typed\n")

    def test_who_opens_it_meanwhile_makes_no_new_one(self) -> None:
        ann = self.person()
        self.made(ann)
        locks = Locks(ann.path())
        self.assertTrue(locks.take_name())
        told = list[str]()

        def opens() -> None:
            try:
                notes.open_note("note", None, None)
            except Trouble as why:
                told.append(str(why))

        opening = threading.Thread(target=opens)
        opening.start()
        wait_for(ann.path().with_name("note.note-shm").exists, "the file to be open")
        ann.path().rename(ann.path("new"))
        locks.close()
        opening.join()
        self.assertRegex(told[0], "renamed or deleted")
        self.assertEqual(notes.names(), ["new"])


if __name__ == "__main__":
    unittest.main()
