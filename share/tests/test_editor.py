"""The editor by itself: keys and pastes, saving, what reaches the terminal, and a note that hangs or fails."""
import contextlib
import curses
import os
import pathlib
import pty
import random
import resource
import shlex
import signal
import stat
import subprocess
import sys
import time
import unittest.mock
from collections.abc import Callable
from typing import Any, cast

from share.editors.terminal import app
from share.editors.terminal.keys import (ESCAPE_SECONDS, LONGEST_PASTE, PASTE_LOST_SECONDS, PASTE_QUIET_SECONDS,
                                         SEQUENCE_SECONDS, Event, Key, Keyboard, Pasted, safe_for_terminal)
from share.editors.since import NoteChanges
from share.editors.suggesting import Gathering
from share.editors.threads import NoteThreads
from share.store import atomic
from share.sync.session import Bar, Status
from share.tests.counting import looked_at
from share.tests.support import TOP, Case, python, wait_for
from share.tests.terminals import Terminal
from share.text.errors import Refused, Trouble

BEGIN, END = b"\x1b[200~", b"\x1b[201~"
SEQUENCES = {
    Key.LEFT: [b"\x1b[D", b"\x1bOD", b"\x1b[1;2D", b"\x1b[d"],
    Key.RIGHT: [b"\x1b[C", b"\x1bOC", b"\x1b[1;2C", b"\x1b[c"],
    Key.UP: [b"\x1b[A", b"\x1bOA", b"\x1b[1;5A", b"\x1bOa"],
    Key.DOWN: [b"\x1b[B", b"\x1bOB", b"\x1b[1;5B", b"\x1bOb"],
    Key.HOME: [b"\x01", b"\x1b[H", b"\x1bOH", b"\x1b[1~", b"\x1b[7~", b"\x1b[1;5H"],
    Key.END: [b"\x05", b"\x1b[F", b"\x1bOF", b"\x1b[4~", b"\x1b[8~", b"\x1b[8^"],
    Key.PAGE_UP: [b"\x1b[5~", b"\x1b[5;5~"],
    Key.PAGE_DOWN: [b"\x1b[6~", b"\x1b[6$"],
    Key.NEXT_CHANGE: [b"\x1b[19~"], Key.PREVIOUS_CHANGE: [b"\x1b[19;2~", b"\x1b[32~"], Key.SUGGESTING: [b"\x1bu"],
    Key.DELETE: [b"\x1b[3~", b"\x1b[3;5~", b"\x1b[3^", b"\x1b[3@"],
    Key.WORD_LEFT: [b"\x1b[1;5D", b"\x1b[1;3D", b"\x1b[1;6D", b"\x1b[5D", b"\x1bO5D", b"\x1bOd", b"\x1bb",
                    b"\x1b\x1b[D", b"\x1b\x1bOD"],
    Key.WORD_RIGHT: [b"\x1b[1;5C", b"\x1b[1;3C", b"\x1b[1;6C", b"\x1b[5C", b"\x1bO5C", b"\x1bOc", b"\x1bf",
                     b"\x1b\x1b[C", b"\x1b\x1bOC"],
    Key.ENTER: [b"\r", b"\n", b"\r\n", b"\x1bOM"],
    Key.BACKSPACE: [b"\x7f", b"\b"],
    Key.ESCAPE: [b"\x03", b"\x07"],
    Key.UNDO: [b"\x1a"], Key.REDO: [b"\x19"], Key.FIND: [b"\x06"], Key.REPLACE: [b"\x12"], Key.LINE: [b"\x0c"],
    Key.MARK: [b"\0"], Key.CUT: [b"\x18"], Key.COPY: [b"\x1bw"], Key.KILL: [b"\x0b"], Key.PUT: [b"\x16"],
    Key.SAVE: [b"\x13"], Key.QUIT: [b"\x11"],
    Key.OTHER: [b"\x1bOP", b"\x1b[15~", b"\x1b[1;2P", b"\x1bx", "\x1bé".encode(), b"\x1b\r",
                b"\x1b\x7f"],
}
# What says nothing, and types nothing.
SILENT = [b"\x1b[?1;2c", b"\x1b[>0;276;0c", b"\x1b]11;rgb:0000/0000/0000\x07", b"\x1b]11;rgb:0/0/0\x1b\\",
          b"\x1bP1$r0m\x1b\\", b"\x1b_Gi=1;OK\x1b\\", b"\x1b[[A", b"\x1b[?2026;2$y", b"\x1b[201~", b"\xff",
          b"\x1b[Ma!!", b"\x1b[<2;5;1M", b"\x1b[<35;5;1M", b"\xc3", "\x85".encode(), b"\x1b[1;2;3;4;5;6;7;8;9;10;11;12;13;14;15;16m"]


def pressed(data: bytes, *cuts: int) -> list[Event]:
    """The keys of bytes that come in pieces, with the silence after them."""
    keyboard, out = Keyboard(), []
    for begin, end in zip([0, *cuts], [*cuts, len(data)]):
        out += keyboard.feed(data[begin:end], 0.0)
    while (due := keyboard.due()) is not None:
        out += keyboard.expire(due)
    return out


class Keys(unittest.TestCase):
    """What terminals send is known, in whatever pieces it comes."""

    def test_sequences(self) -> None:
        for key, sequences in SEQUENCES.items():
            for sequence in sequences:
                for cut in range(len(sequence) + 1):
                    if (sequence, cut) != (b"\r\n", 1):
                        self.assertEqual(pressed(b"a" + sequence + b"b", cut + 1), ["a", key, "b"], sequence)
        self.assertEqual(pressed(b"\x1bOk\x1bOq"), ["+", "1"])

    def test_what_says_nothing(self) -> None:
        for sequence in SILENT:
            for cut in range(len(sequence) + 1):
                events = pressed(b"a" + sequence + b"\tb", cut + 1)
                self.assertEqual([*filter(lambda one: one is not Key.OTHER, events)],
                                 ["a\tb"] if len(events) == 1 else ["a", "\tb"], sequence)

    def test_a_lone_escape(self) -> None:
        keyboard = Keyboard()
        self.assertEqual(keyboard.feed(b"\x1b", 1.0), [])
        self.assertEqual(keyboard.due(), 1.0 + ESCAPE_SECONDS)
        self.assertEqual(keyboard.expire(1.0), [])
        self.assertEqual(keyboard.expire(1.0 + ESCAPE_SECONDS), [Key.ESCAPE])
        self.assertIsNone(keyboard.due())
        self.assertEqual(pressed(b"\x1b\x1b"), [Key.ESCAPE, Key.ESCAPE])

    def test_an_escape_that_is_looked_at_late(self) -> None:
        late = 1.0 + ESCAPE_SECONDS
        for data, events in ((b"Da", [Key.ESCAPE, "Da"]), (b"w", [Key.ESCAPE, "w"]), (b"O", [Key.ESCAPE, "O"]),
                             (b"\r", [Key.ESCAPE, Key.ENTER]), (b"\x1b[A", [Key.ESCAPE, Key.UP]), (b"[A", [Key.UP]),
                             (b"OC", [Key.RIGHT])):
            keyboard = Keyboard()
            self.assertEqual(keyboard.feed(b"\x1b", 1.0), [])
            self.assertEqual(keyboard.feed(data, late), events)
        keyboard.feed(b"\x1b", 2.0)
        self.assertEqual(keyboard.feed(b"w", 2.0 + ESCAPE_SECONDS / 2), [Key.COPY])

    def test_an_escape_that_comes_with_the_next_key(self) -> None:
        for data, key in ((b"\x06", Key.FIND), (b"\x12", Key.REPLACE), (b"\x0c", Key.LINE), (b"\x1a", Key.UNDO), (b"\x13", Key.SAVE),
                          (b"\x11", Key.QUIT), (b"\0", Key.MARK)):
            self.assertEqual(pressed(b"\x1b" + data + b"tea\r"), [Key.ESCAPE, key, "tea", Key.ENTER])

    def test_a_sequence_without_its_end(self) -> None:
        for begun, typed in ((b"\x1b[1;5", []), (b"\x1bO", []), (b"\x1b[", []), (b"\x1b]11;x", ["11;x"])):
            keyboard = Keyboard()
            self.assertEqual(keyboard.feed(begun, 0.0), [])
            self.assertEqual(keyboard.expire(SEQUENCE_SECONDS), typed)
        self.assertEqual(pressed(b"\x1b[1;5\x11"), [Key.QUIT])
        self.assertEqual(pressed(b"\x1b\x1b\x1b[A"), [Key.UP])

    def test_characters_in_pieces(self) -> None:
        data = "aé漢🎉\u0301".encode()
        for cut in range(len(data) + 1):
            self.assertEqual("".join(map(str, pressed(data, cut))), data.decode())

    def test_random_bytes(self) -> None:
        chance = random.Random(4)
        pieces = [b"\x1b", b"[", b"O", b"1", b";", b"5", b"~", b"D", b"\x11", b"x", b"\xc3", b"\xa9", b"]",
                  BEGIN, END]
        for _ in range(3_000):
            data = b"".join(chance.choices(pieces, k=chance.randrange(12)))
            for event in pressed(data, *sorted(chance.choices(range(len(data) + 1), k=2))):
                text = event.text if isinstance(event, Pasted) else event if isinstance(event, str) else ""
                self.assertEqual(safe_for_terminal(text, "\r\t"), text)


class Pastes(unittest.TestCase):
    """What is pasted is a text, whatever it has."""

    def pasted(self, data: bytes) -> Pasted:
        """A paste, which is the same in whatever pieces it comes."""
        for cut in range(0, len(data) + 1, 1 + len(data) // 200):
            (pasted,) = pressed(data, cut)
            self.assertEqual([pasted], pressed(data))
        assert isinstance(pasted, Pasted)
        return pasted

    def test_keys_in_a_paste_are_none(self) -> None:
        text = b"one\x13/tmp/file\r\x11two\x1b[A\t\x1a" + "é漢\x85".encode()
        self.assertEqual(self.pasted(BEGIN + text + END), Pasted("one/tmp/file\rtwo[A\té漢", 5))

    def test_line_ends(self) -> None:
        self.assertEqual(self.pasted(BEGIN + b"a\r\nb\nc\rd\n\ne\r\n\r\nf" + END).text, "a\rb\rc\rd\r\re\r\rf")

    def test_the_end_marker_inside(self) -> None:
        data = BEGIN + b"one" + END + b"\x13/tmp/file\r\x11" + END + b"\x13"
        self.assertEqual(self.pasted(data), Pasted("one/tmp/file\r", 3))
        self.assertEqual(self.pasted(BEGIN + b"a\x1b[20\x1b[201~1~b" + END).text, "a[201~b")
        self.assertEqual(self.pasted(BEGIN + b"one" + END + BEGIN + b"two" + END).text, "onetwo")

    def test_keys_after_a_paste(self) -> None:
        keyboard = Keyboard()
        keyboard.feed(BEGIN + b"x" + END, 0.0)
        self.assertEqual(keyboard.expire(PASTE_QUIET_SECONDS), [Pasted("x")])
        self.assertEqual(keyboard.feed(b"\x13y", 1.0), [Key.SAVE, "y"])

    def test_an_end_that_never_comes(self) -> None:
        keyboard = Keyboard()
        keyboard.feed(b"a" + BEGIN + b"text\x11", 0.0)
        self.assertEqual(keyboard.expire(PASTE_LOST_SECONDS - 0.1), [])
        self.assertEqual(keyboard.expire(PASTE_LOST_SECONDS), [Pasted("text", 1)])
        self.assertEqual(keyboard.feed(b"\x11", 9.0), [Key.QUIT])
        # Who presses a key again and again, since none is answered, doesn't make it longer.
        keyboard.feed(BEGIN + b"text", 10.0)
        answers = [answer for tenth in range(100, 200) for answer in keyboard.feed(b"\x11", tenth / 10)]
        self.assertEqual(answers[0], Pasted("text", 51))
        self.assertEqual({*answers[1:]}, {Key.QUIT})

    def test_a_slow_paste(self) -> None:
        keyboard = Keyboard()
        keyboard.feed(BEGIN, 0.0)
        for tenth in range(1_000):
            self.assertEqual(keyboard.feed(b"x" * 60, tenth / 10), [])
        keyboard.feed(END, 100.0)
        self.assertEqual(keyboard.expire(101.0), [Pasted("x" * 60_000)])

    def test_a_large_paste_in_small_pieces(self) -> None:
        size, piece = 0, b"\x1b[201x line\n" * 8 + b"word"

        def pastes() -> None:
            nonlocal size
            keyboard = Keyboard()
            keyboard.feed(BEGIN, 0.0)
            for _ in range(20_000):
                size += len(piece)
                keyboard.feed(piece, 0.0)
            keyboard.feed(END, 0.0)
            (pasted,) = keyboard.expire(1.0)
            self.assertIsInstance(pasted, Pasted)
        looks = looked_at("share.editors.terminal.keys", pastes)
        self.assertTrue(size < looks < 3 * size, (looks, size))

    def test_a_paste_that_no_note_holds(self) -> None:
        keyboard = Keyboard()
        keyboard.feed(BEGIN, 0.0)
        for _ in range(5):
            keyboard.feed(b"x" * (LONGEST_PASTE // 4), 0.0)
        keyboard.feed(END[:3], 0.0)
        keyboard.feed(END[3:], 0.0)
        self.assertEqual(keyboard.expire(PASTE_QUIET_SECONDS), [Pasted("", 0, True)])


class Shown(unittest.TestCase):
    """No control character reaches a terminal."""

    def test_all_characters(self) -> None:
        dots = [*range(0x20), *range(0x7F, 0xA0), *range(0x2028, 0x202F), *range(0x2066, 0x206A)]
        text = "".join(map(chr, range(0x110000)))
        seen = safe_for_terminal(text)
        self.assertEqual(len(seen), len(text))
        for number in dots:
            self.assertEqual(seen[number], "\u00b7")
        changed = {number for number, (a, b) in enumerate(zip(text, seen)) if a != b}
        self.assertEqual(changed, {*dots, *range(0xD800, 0xE000)})
        seen.encode()

    def test_what_is_kept(self) -> None:
        self.assertEqual(safe_for_terminal("a\tb\r\n\x1b[31mc\udc80", "\n\t"), "a\tb\u00b7\n\u00b7[31mc\ufffd")


# Saves, and is killed at the call of the system that is named by its number.
KILLED = """
import os, signal, sys
from share.store import atomic
left = int(sys.argv[1])
def counted(call):
    def counting(*words, **named):
        global left
        left -= 1
        if left < 0:
            os.kill(os.getpid(), signal.SIGKILL)
        return call(*words, **named)
    return counting
for name in "open", "write", "fsync", "fchmod", "close", "replace":
    setattr(os, name, counted(getattr(os, name)))
atomic.save(sys.argv[2], b"new" * 100_000)
"""


class Saving(Case):
    """A file is the old one or the new one, whole."""

    def setUp(self) -> None:
        super().setUp()
        self.file = self.folder / "file.txt"

    def refused(self, path: object, *words: str) -> None:
        """That nothing is saved under a name, with a sentence that has these words, and nothing is left."""
        before = self.files()
        with self.assertRaises(atomic.NotSaved) as refused:
            atomic.save(str(path), b"new")
        for word in ("Not saved: ", *words):
            self.assertIn(word, str(refused.exception))
        self.assertEqual(self.files(), before)

    def files(self) -> dict[str, bytes]:
        """What is in the test's folder."""
        return {str(path): path.read_bytes() for path in self.folder.rglob("*") if path.is_file()}

    def test_new_and_old(self) -> None:
        mask = os.umask(0o027)
        self.addCleanup(os.umask, mask)
        self.assertFalse(atomic.exists(str(self.file)))
        self.assertEqual(atomic.save(str(self.file), b"one"), self.file)
        self.assertEqual(stat.S_IMODE(self.file.stat().st_mode), 0o640)
        self.assertTrue(atomic.exists(str(self.file)))
        for mode in 0o600, 0o755, 0o664:
            self.file.chmod(mode)
            atomic.save(str(self.file), b"two" * 1_000_000)
            self.assertEqual(stat.S_IMODE(self.file.stat().st_mode), mode)
        self.assertEqual(self.files(), {str(self.file): b"two" * 1_000_000})

    def test_links(self) -> None:
        target, link, second = (self.folder / name for name in ("target", "link", "second"))
        link.symlink_to("target")
        second.symlink_to(link)
        for text in b"one", b"two":
            atomic.save(str(second), text)
            self.assertTrue(link.is_symlink() and second.is_symlink())
            self.assertEqual(target.read_bytes(), text)
        loop = self.folder / "loop"
        loop.symlink_to(loop)
        self.refused(loop, "symbolic links")

    def test_names_that_can_not_be(self) -> None:
        self.file.write_bytes(b"old")
        (self.folder / "folder").mkdir()
        os.mkfifo(self.folder / "pipe")
        self.refused("~nouser/x", "no home folder ~nouser")
        self.refused(self.folder / ("x" * 256), "too long")
        self.refused("")
        self.refused(self.folder / "a\0b")
        self.refused(self.folder, "is a folder")
        self.refused(f"{self.folder}/folder/", "is a folder")
        self.refused(self.folder / "none" / "x", "its folder isn't there")
        self.refused(self.file / "x", "Not a directory")
        self.refused("/dev/null", "no file")
        self.refused(self.folder / "pipe", "no file")
        self.refused("/proc/x")
        for name in "x" * 255, " a ", "é漢", "-":
            self.assertEqual(atomic.save(str(self.folder / name), b"x").read_bytes(), b"x")

    def test_a_home_folder(self) -> None:
        home = os.environ.get("HOME")
        self.addCleanup(os.environ.update, {"HOME": home} if home else {})
        os.environ["HOME"] = str(self.folder)
        self.assertEqual(atomic.save("~/x", b"x"), self.folder / "x")

    def test_no_room(self) -> None:
        self.file.write_bytes(b"old")
        before = resource.getrlimit(resource.RLIMIT_FSIZE)
        resource.setrlimit(resource.RLIMIT_FSIZE, (100_000, before[1]))
        try:
            with self.assertRaises(atomic.NotSaved) as refused:
                atomic.save(str(self.file), b"x" * 100_001)
        finally:
            resource.setrlimit(resource.RLIMIT_FSIZE, before)
        self.assertIn("File too large", str(refused.exception))
        self.assertEqual(self.files(), {str(self.file): b"old"})

    def test_no_permission(self) -> None:
        closed = self.folder / "closed"
        closed.mkdir()
        (closed / "file").write_bytes(b"old")
        (closed / "other").write_bytes(b"old")
        (closed / "other").chmod(0o444)
        script = ("import os, sys\nfrom share.store import atomic\nif not os.getuid():\n    os.setgroups([])\n"
                  "    os.setresgid(65534, 65534, 65534)\n    os.setresuid(65534, 65534, 65534)\n"
                  "for path in sys.argv[1:]:\n    try:\n        atomic.save(path, b'new')\n"
                  "    except atomic.NotSaved as why:\n        print(why)\n")
        owner = 65534 if not os.getuid() else os.getuid()
        os.chmod(self.folder, 0o755)
        for path in closed, closed / "file", closed / "other":
            os.chown(path, owner, -1)
        for mode, paths in ((0o555, ["file", "new"]), (0o755, ["other"])):
            closed.chmod(mode)
            run = subprocess.run([python(), "-c", script, *(str(closed / path) for path in paths)], cwd=TOP,
                                 capture_output=True, text=True, check=True)
            self.assertEqual(run.stdout.count("Not saved: "), len(paths), run.stdout)
        closed.chmod(0o755)
        self.assertEqual({*self.files().values()}, {b"old"})

    def test_all_is_on_the_disk_before_the_name_and_the_name_after(self) -> None:
        self.file.write_bytes(b"old")
        calls: list[str] = []

        def counted(name: str) -> Any:
            call = getattr(os, name)
            return lambda *words, **named: (calls.append(name), call(*words, **named))[1]

        with contextlib.ExitStack() as patches:
            for name in "write", "fchmod", "fsync", "replace":
                patches.enter_context(unittest.mock.patch.object(os, name, counted(name)))
            atomic.save(str(self.file), b"new")
        self.assertEqual(calls, ["write", "fchmod", "fsync", "replace", "fsync"])

    def test_killed_at_any_moment(self) -> None:
        whole, done = b"new" * 100_000, False
        for step in range(40):
            self.file.write_bytes(b"old")
            self.file.chmod(0o640)
            run = subprocess.run([python(), "-c", KILLED, str(step), str(self.file)], cwd=TOP, check=False)
            self.assertIn(self.file.read_bytes(), (b"old", whole))
            self.assertEqual(stat.S_IMODE(self.file.stat().st_mode), 0o640)
            for path in self.folder.glob(".note-*"):
                path.unlink()
            if done := run.returncode == 0:
                break
        self.assertTrue(done and step > 6)
        self.assertEqual(self.file.read_bytes(), whole)


class ScriptedNote:
    """A note of the editor's without a program: some words that are typed have it hang or fail."""

    def __init__(self, text: bytes, can_type: str):
        self.text, self.cursor, self.top = bytearray(text), 0, 0
        self.notice = self.unmade = ""
        self.anchor: int | None = None
        self.session, self.threads, self.changes, self.gathering = self, NoteThreads(), NoteChanges(), Gathering()
        self.can_type, self._undo = can_type, [(0, 0)]

    def status(self) -> Status:
        """How things stand."""
        trouble = "The disk is full." if b"full" in self.text else None
        return Status(site=1, on=1, unsent=0, offline=None, waiting=0, trouble=trouble, can_type=self.can_type == "yes",
                      searching=self.can_type == "searches")

    def close(self) -> None:
        """Closes, or doesn't."""
        if b"never" in self.text:
            time.sleep(1_000)
        pathlib.Path(os.environ["CLOSED"]).touch()

    def type(self, characters: str) -> None:
        """Types, after some time or not at all."""
        match characters:
            case "HANG":
                time.sleep(1_000)
            case "SLOW":
                until_told()
            case "TROUBLE":
                raise Trouble("The note went \x1b[31maway.")
            case "REFUSED":
                raise Refused(21)
            case "FAULT":
                raise ValueError("a fault")
            case "EXIT":
                sys.exit(7)
        data = characters.encode()
        self._undo.append((self.cursor, len(data)))
        self.text[self.cursor:self.cursor] = data
        self.cursor += len(data)

    def erase(self, begin: int, end: int) -> None:
        """Deletes a stretch."""
        del self.text[begin:end]
        self.cursor = begin

    def take_back(self) -> bool:
        """Takes the last typing back."""
        begin, size = self._undo.pop()
        self.erase(begin, begin + size)
        return size > 0

    def take_in(self) -> bool:
        """Nobody else is on; this may take some time."""
        hangs = pathlib.Path(os.environ["CLOSED"]).with_name("hangs")
        if hangs.exists():
            hangs.rename(hangs.with_name("hanging"))
            until_told()
        return False

    def others(self) -> list[tuple[int, str]]:
        """Nobody else is on."""
        return []

    def moved_to(self, position: int) -> None:
        """Puts the cursor at a position."""
        self.cursor = position

    def find(self, words: str) -> bool:
        """Puts the cursor at words."""
        place = self.text.find(words.encode(), self.cursor + 1)
        place = self.text.find(words.encode()) if place < 0 else place
        self.cursor = max(place, self.cursor if place < 0 else 0)
        return place >= 0


def until_told(does: Callable[[], object] = lambda: None) -> None:
    """Does something until the test says that it is enough."""
    while not pathlib.Path(os.environ["CLOSED"]).with_name("goes on").exists():
        does()
        time.sleep(0.02)


def scripted(text: str, opens: str, can_type: str, leaves: str) -> None:
    """Edits a note of a text that is opened at once or when the test says so, and left after some seconds at most; writes into a file
    what it is at the end."""
    app.LEAVE_SECONDS = float(leaves)

    def open_note(progress: Bar, _: object) -> ScriptedNote:
        if opens != "at once":
            until_told(lambda: progress(1, 4))
        return ScriptedNote(text.encode(errors="surrogateescape"), can_type)

    signal.signal(signal.SIGTERM, lambda *_: sys.exit(0))
    try:
        note = curses.wrapper(app.edit, "diary", cast(Any, open_note))
        pathlib.Path(os.environ["CLOSED"]).with_name("end").write_bytes(note.text)
    except Trouble as why:
        print(safe_for_terminal(f"trouble: {why}"))


class Scripted(Case):
    """A test with the editor over a note that hangs or fails as it is typed."""

    def setUp(self) -> None:
        super().setUp()
        self.closed, self.end, self.goes_on = (self.folder / name for name in ("closed", "end", "goes on"))
        os.environ["CLOSED"] = str(self.closed)
        os.environ["PYTHONPATH"] = str(TOP)
        self.addCleanup(os.environ.pop, "CLOSED")
        self.addCleanup(os.environ.pop, "PYTHONPATH")

    def words(self, text: str = "", opens: str = "at once", can_type: str = "yes", leaves: float = app.LEAVE_SECONDS) -> list[str]:
        """The command that edits a text."""
        script = "from share.tests.test_editor import scripted; import sys; scripted(*sys.argv[1:])"
        return [python(), "-c", script, text, opens, can_type, str(leaves)]

    def terminal(self, text: str = "", opens: str = "at once", begins: str = "all sent", **more: Any) -> Terminal:
        """A terminal with the editor."""
        return Terminal(self, "data", command=shlex.join(self.words(text, opens, **more)), begins=begins)

    def quit(self, one: Terminal) -> bytes:
        """Quits, and gives the text."""
        one.press("C-q")
        one.sees("status 0")
        self.assertTrue(self.closed.exists())
        return self.end.read_bytes()


class OnTerminal(Scripted):
    """Keys at a terminal."""

    def test_words(self) -> None:
        one = self.terminal("one two-three\rgrüße e\u0301a_1  ")
        for key, place in (("M-f", (3, 0)), ("C-Right", (7, 0)), ("M-f", (13, 0)), ("M-f", (5, 1)),
                           ("C-Right", (10, 1)), ("M-f", (12, 1)), ("M-b", (6, 1)), ("C-Left", (0, 1)),
                           ("M-b", (8, 0))):
            one.press(key)
            one.cursor_is(*place)
        for sequence, place in ((b"\x1b[1;5D", (4, 0)), (b"\x1b[5C", (7, 0)), (b"\x1bOd", (4, 0)),
                                (b"\x1b\x1b[C", (7, 0)), (b"\x1bb", (4, 0))):
            one.send(sequence)
            one.cursor_is(*place)
        one.press("F5", "M-x", "S-F3", "C-M-Left")
        one.sees("^Z undo")
        self.assertEqual(self.quit(one), "one two-three\rgrüße e\u0301a_1  ".encode())

    def test_find(self) -> None:
        one = self.terminal("one two one two")
        one.press("C-f")
        one.type("two")
        one.press("Enter")
        one.cursor_is(4, 0)
        one.press("C-f")
        one.sees("Find:")
        one.press("Escape")
        one.sees("all sent")
        one.cursor_is(4, 0)
        one.press("C-f", "Enter")
        one.cursor_is(12, 0)
        one.press("C-f")
        one.type("none")
        one.press("Enter")
        one.sees("'none' isn't in the note.")
        one.cursor_is(12, 0)

    def test_characters_as_people_see_them(self) -> None:
        text = "🇩🇪🇫🇷 👍🏽 👨\u200d👩\u200d👧 e\u0301\u0302 \u1112\u1161\u11ab कि"
        one = self.terminal(text)
        one.press("End", "BSpace", "BSpace", "BSpace", "BSpace", "BSpace", "BSpace", "BSpace")
        one.press("Home", "Right", "DC", "DC")
        self.assertEqual(self.quit(one).decode(), "🇩🇪👍🏽 ")

    def test_a_file_that_is_there(self) -> None:
        file = self.folder / "file"
        file.write_bytes(b"old")
        one = self.terminal("text")
        for answer, text in (("", b"old"), ("no", b"old"), ("yes", b"text")):
            one.press("C-s", *["BSpace"] * len("diary.txt"))
            one.type(str(file))
            one.press("Enter")
            one.sees("exists. Replace it (yes or no):")
            one.type(answer)
            one.press("Enter")
            one.sees("all sent" if text == b"old" else "Saved as")
            self.assertEqual(file.read_bytes(), text)
        one.press("C-s", *["BSpace"] * len("diary.txt"))
        one.type("~nouser/x")
        one.press("Enter")
        one.sees("Not saved: ~nouser/x: there is no home folder ~nouser.")

    def test_another_size(self) -> None:
        one = self.terminal("word " * 20)
        one.resize(40, 8)
        seven, six = "word " * 6 + "word", "word " * 5 + "word"
        wait_for(lambda: one.lines()[:4] == [seven, seven, six, ""], "rows of 39 columns")
        one.resize(70, 12)
        one.shows("word " * 12 + "word", "word word word word word word word")


class AtTerminal(Scripted):
    """What is pasted and shown."""

    def test_a_paste(self) -> None:
        one, file = self.terminal(), self.folder / "file"
        one.type("typed ")
        one.paste(b"one\x13" + str(file).encode() + b"\r\n\x11two\x1b[A" + END + b"\x13x\r\n")
        one.sees("Pasted without 4 control characters.")
        one.type("!")
        one.press("C-z", "C-z")
        one.shows("typed")
        one.press("C-z")
        one.shows()
        one.paste(b"a\r\nb\nc\td")
        one.shows("a", "b", "c       d")
        one.press("C-s")
        one.press(*["BSpace"] * 9)
        one.paste(str(file).encode() + b"\r")
        one.sees(f"Save as: {self.folder}")
        self.assertFalse(file.exists())
        one.press("Enter")
        one.sees("Saved as")
        self.assertEqual(file.read_bytes(), b"a\nb\nc\td")

    def test_a_paste_without_end(self) -> None:
        one = self.terminal()
        one.send(BEGIN + b"text")
        one.sees("Pasting: 4 bytes so far.")
        one.sees("all sent")
        one.shows("text")
        self.assertEqual(self.quit(one), b"text")

    def test_a_large_paste(self) -> None:
        one = self.terminal()
        data = b"A line that is pasted beside many others.\n" * 24_000
        one.paste(data)
        one.sees("A line that")
        self.assertEqual(self.quit(one), data.replace(b"\n", b"\r"))

    def test_no_control_character_reaches_the_terminal(self) -> None:
        text = "a\x1b]0;evil\x07b\x9b31mc\u202ed\u2066e\u2028f\x00g\x85\udcff"
        out = self.run_in_pty(self.words(text.replace("\0", "")), (b"TROUBLE", "maway"), (b"\x13\x7f", "Save as: diary.tx"),
                              (b"\x1b", "^Q quits"), (b"\x11", ""))
        self.assertIn("a·]0;evil·b·31mc·d·e·fg·\ufffd", out)
        for sequence in "\x1b]0;evil", "\x9b", "\u202e", "\u2066", "\u2028", "\x1b[31m", "\x85":
            self.assertNotIn(sequence, out)
        self.assertIn("·[31maway", out)

    def test_brackets_are_asked_for_and_off_at_the_end(self) -> None:
        for key, shown in (b"x", "x"), (b"TROUBLE", "^Q quits"), (b"FAULT", "^Q quits"), (b"", ""):
            out = self.run_in_pty(self.words(), *[(key, shown), (b"\x11", "")] if key else [])
            self.assertEqual(out.count("\x1b[?2004h"), 1)
            self.assertEqual(out.count("\x1b[?2004l"), 1)
            self.assertLess(out.index("\x1b[?2004h"), out.index("\x1b[?2004l"))
            self.assertTrue(self.closed.exists())
            self.closed.unlink()

    def test_a_terminal_that_is_gone(self) -> None:
        child, terminal = pty.fork()
        if not child:
            os.chdir(TOP)
            # The end is seen where no signal says it, too.
            signal.signal(signal.SIGHUP, signal.SIG_IGN)
            words = self.words()
            os.execve(words[0], words, {**os.environ, "TERM": "xterm-256color"})
        out = bytearray()
        wait_for(lambda: out.extend(os.read(terminal, 65_536)) or b"all sent" in out, "the editor")
        os.close(terminal)
        os.waitpid(child, 0)
        self.assertTrue(self.closed.exists())

    @staticmethod
    def run_in_pty(words: list[str], *keys: tuple[bytes, str]) -> str:
        """What a command writes to a terminal as keys are pressed, each once what the one before it has shown is there; without any it
        is asked to end."""
        child, terminal = pty.fork()
        if not child:
            os.chdir(TOP)
            os.environ["TERM"] = "xterm-256color"
            os.execv(words[0], words)
        os.set_blocking(terminal, False)
        out, ended = bytearray(), False

        def shows(what: str, since: int = 0) -> bool:
            nonlocal ended
            try:
                out.extend(os.read(terminal, 65_536))
            except BlockingIOError:
                pass
            except OSError:
                ended = True
            return what.encode() in out[since:]

        wait_for(lambda: shows("sent"), "the editor")
        for key, shown in keys:
            os.write(terminal, key)
            wait_for(lambda since=len(out), what=shown: shows(what, since), f"{shown!r} after {key!r}")
        if not keys:
            os.kill(child, signal.SIGTERM)
        wait_for(lambda: (shows(""), ended)[1], "the end")
        os.close(terminal)
        os.waitpid(child, 0)
        return out.decode(errors="replace")


class Hanging(Scripted):
    """A note that hangs or fails: its text can be saved, and the editor left."""

    def saved(self, one: Terminal) -> bytes:
        """Saves as a file, and gives what is in it."""
        file = self.folder / "saved"
        one.press("C-s")
        one.sees("Save as: diary.txt")
        one.press(*["BSpace"] * len("diary.txt"))
        one.type(str(file))
        one.press("Enter")
        one.sees("Saved as")
        return file.read_bytes()

    def left(self, one: Terminal) -> None:
        """Quits."""
        one.press("C-q")
        one.sees("status ")

    def test_a_note_that_hangs(self) -> None:
        one = self.terminal("text\r")
        one.type("HANG")
        one.sees("Waiting for ")
        one.type("lost")
        self.assertEqual(self.saved(one), b"text\n")
        one.sees("Waiting for")
        self.left(one)
        self.assertFalse(self.closed.exists())

    def test_a_note_that_is_slow(self) -> None:
        one = self.terminal()
        one.type("SLOW")
        one.sees("Waiting for ")
        one.type(" later")
        one.press("Enter", "C-f")
        one.type("SL")
        one.press("Enter")
        self.goes_on.touch()
        one.shows("SLOW later")
        one.cursor_is(0, 0)
        self.assertEqual(self.quit(one), b"SLOW later\r")

    def test_keys_for_a_question_are_for_it_though_a_file_was_named_meanwhile(self) -> None:
        one = self.terminal("so: tea\r")
        one.press("C-f")
        one.sees("Find:")
        (self.folder / "hangs").touch()
        wait_for((self.folder / "hanging").exists, "the note to hang")
        one.type("tea")
        self.assertEqual(self.saved(one), b"so: tea\n")
        # It is asked again once the file is named.
        one.sees("Find:")
        self.goes_on.touch()
        one.sees("Find: tea")
        one.press("Enter")
        one.cursor_is(4, 0)
        self.assertEqual(self.quit(one), b"so: tea\r")

    def test_a_question_that_saving_came_between_is_asked_again(self) -> None:
        one = self.terminal("so: tea\r")
        one.press("C-f")
        one.type("t")
        one.sees("Find: t")
        one.press("C-s")
        one.sees("Save as:")
        one.press("Escape")
        one.sees("Find: t")
        self.assertEqual(self.saved(one), b"so: tea\n")
        one.sees("Find: t")
        one.type("ea")
        one.press("Enter")
        one.cursor_is(4, 0)
        self.assertEqual(self.quit(one), b"so: tea\r")

    def test_a_note_that_never_closes(self) -> None:
        one = self.terminal("never")
        self.left(one)
        one.sees("trouble: The note was left before it was closed")
        # Who insists doesn't wait.
        one = self.terminal("never", leaves=10_000)
        one.press("C-q", "C-q")
        one.sees("closing, all sent")
        self.left(one)

    def test_a_note_that_fails(self) -> None:
        for words, said in (("TROUBLE", "The note went ·[31maway."),
                            ("FAULT", "Something failed inside (ValueError"),
                            ("EXIT", "Something failed inside (SystemExit")):
            one = self.terminal("text\r")
            one.press("Down")
            one.type(words)
            one.sees(said)
            one.sees("Nothing more can be")
            one.type("more")
            one.press("Up", "C-f")
            one.type("ex")
            one.press("Enter")
            one.cursor_is(1, 0)
            self.assertEqual(self.saved(one), b"text\n")
            self.left(one)
            one.sees("trouble: ")
            self.assertTrue(self.closed.exists())
            (self.folder / "saved").unlink()
            self.closed.unlink()

    def test_an_edit_that_is_refused(self) -> None:
        one = self.terminal()
        one.type("REFUSED")
        one.sees("a note has two million messages")
        one.type("more")
        wait_for(lambda: one.lines()[0] == "more", "the next edit")
        self.assertEqual(self.quit(one), b"more")

    def test_a_trouble_that_goes_away(self) -> None:
        one = self.terminal("text ")
        one.press("End")
        one.type("full")
        one.sees("The disk is full.")
        one.press("BSpace")
        one.sees("all sent")
        self.assertEqual(self.quit(one), b"text ful")

    def test_a_note_without_a_number(self) -> None:
        one = self.terminal("text", can_type="no")
        one.sees("no number yet")
        one.type("x")
        one.sees("You can't type yet")
        for key in "BSpace", "DC", "C-z", "Enter":
            one.press(key)
        self.assertEqual(self.saved(one), b"text")
        self.assertEqual(self.quit(one), b"text")

    def test_a_number_that_is_searched_for(self) -> None:
        one = self.terminal("text", can_type="searches")
        one.type("x")
        one.sees("A number is being searched for")
        self.assertEqual(self.quit(one), b"text")

    def test_a_note_that_takes_long_to_open(self) -> None:
        one = self.terminal("", "later", begins="catching up  [#######....")
        one.type("typed before it was open")
        one.sees("catching up")
        self.goes_on.touch()
        one.shows("typed before it was open")
        self.quit(one)
        self.goes_on.unlink()
        one = self.terminal("", "later", begins="catching up  [#######....")
        self.left(one)
        one.sees("trouble: The editor was left before the note was open.")


if __name__ == "__main__":
    unittest.main()
