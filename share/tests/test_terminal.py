"""Two people at two terminals: real ones, of tmux, with bin/note in each."""
import os
import shlex
import signal
from unittest import mock

from share.program.process import command
from share.tests.editors import Editor
from share.tests.support import Case, python, wait_for
from share.tests.terminals import Terminal

# The program, which works without an end as long as a file is there.
HANGS = """
import os, subprocess, sys
program = subprocess.Popen(sys.argv[2:], stdin=subprocess.PIPE, bufsize=0)
for line in sys.stdin.buffer:
    while os.path.exists(sys.argv[1]):
        pass
    program.stdin.write(line)
"""


class Terminals(Case):
    """What users see."""

    def test_two_on_one_machine(self) -> None:
        left, right = Terminal(self, "data", "diary"), Terminal(self, "data", "diary")
        left.type("Grüße 🎉 from here")
        left.press("Enter")
        for one in left, right:
            one.shows("Grüße 🎉 from here")
            one.sees("2 on  kept here")
        right.press("End")
        right.type(" and from there")
        left.shows("Grüße 🎉 from here and from there")
        left.cursor_is(0, 1)
        # What comes in before the cursor moves it with its character; what comes after doesn't.
        left.press("Up", "Right", "Right")
        left.cursor_is(2, 0)
        right.press("Home")
        right.type("Oh: ")
        left.shows("Oh: Grüße 🎉 from here and from there")
        left.cursor_is(6, 0)
        right.press("End")
        right.type("!")
        left.shows("Oh: Grüße 🎉 from here and from there!")
        left.cursor_is(6, 0)
        # At a line's begin it goes with the line where another one is opened above.
        left.press("Home")
        left.cursor_is(0, 0)
        right.press("Home", "Enter")
        left.shows("", "Oh: Grüße 🎉 from here and from there!")
        left.cursor_is(0, 1)
        left.type("> ")
        right.shows("", "> Oh: Grüße 🎉 from here and from there!")

    def test_an_undo_takes_twenty_keys_back(self) -> None:
        one = Terminal(self, "data", "diary")
        for words in "a" * 12, "b" * 8, "c" * 3:
            one.type(words)
            one.sees(words)
        one.press("C-z")
        one.shows("a" * 12 + "b" * 8)
        one.press("BSpace")
        one.shows("a" * 12 + "b" * 7)
        one.press("BSpace")
        one.shows("a" * 12 + "b" * 6)
        one.press("C-z")
        one.shows("a" * 12 + "b" * 8)

    def test_what_is_asked_for_is_found_where_it_is_when_that_is_answered(self) -> None:
        left, right = Terminal(self, "data", "diary"), Terminal(self, "data", "diary")
        left.type("a foo, b foo")
        right.sees("a foo, b foo")
        left.press("Home", "C-r")
        left.type("foo")
        left.press("Enter")
        left.type("bar")
        # Somebody opens a line above while the question stands.
        right.press("Home", "Enter", "Up")
        right.type("new")
        left.sees("new")
        left.press("Enter")
        right.shows("new", "a bar, b bar")
        left.press("C-f")
        left.type("b")
        right.type("er")
        left.sees("newer")
        left.press("Enter", "Delete")
        right.shows("newer", "a ar, b bar")
        # What is selected stays what it is.
        left.press("C-Space", "Right", "Right")
        right.press("Up", "Home")
        right.type("2nd ")
        left.sees("2nd newer")
        left.press("C-x")
        right.shows("2nd newer", "a , b bar")

    def test_taking_back_beside_another(self) -> None:
        left, right = Terminal(self, "data", "diary"), Terminal(self, "data", "diary")
        left.type("mine")
        right.shows("mine")
        right.press("Right", "Right")
        right.type("-yours-")
        left.shows("mi-yours-ne")
        left.press("C-z")
        for one in left, right:
            one.shows("-yours-")
        # A deletion comes back, each character to its own place.
        left.press("Home")
        left.type("again ")
        right.shows("again -yours-")
        left.press("BSpace")
        right.shows("again-yours-")
        right.press("Home")
        right.type("x")
        left.shows("xagain-yours-")
        left.press("C-z")
        right.shows("xagain -yours-")
        right.press("C-z")
        for one in left, right:
            one.shows("again -yours-")

    def test_offline_and_back(self) -> None:
        server = self.redis()
        left = Terminal(self, "left", "diary", "--log", server.url)
        right = Terminal(self, "right", "diary", link=self.person("left").link("diary"))
        left.type("one ")
        right.shows("one")
        server.kill()
        for one in left, right:
            one.sees("offline, 0 edits kept")
        left.type("left")
        left.sees("offline, ")
        left.sees("kept")
        right.press("End")
        right.type("right")
        left.shows("one left")
        right.shows("one right")
        server.start()
        for one in left, right:
            one.sees("all sent")
            wait_for(lambda: one.lines()[0] in ("one leftright", "one rightleft"), "both words")
        self.assertEqual(left.lines()[0], right.lines()[0])

    def test_keys(self) -> None:
        one = Terminal(self, "data", "diary")
        for number in range(40):
            one.type(f"line {number}")
            one.press("Enter")
        one.sees("line 39")
        one.press("PPage", "PPage", "PPage", "PPage")
        one.sees("line 0")
        one.cursor_is(0, 0)
        one.press("Right", "DC", "End", "BSpace")
        one.sees("lne")
        one.press("C-f")
        one.type("line 27")
        one.press("Enter")
        one.sees("line 27")
        one.press("Home", "Enter", "Up")
        one.type("漢字")
        one.press("Left", "BSpace")
        one.sees("字")
        one.press("C-s")
        one.sees("Save as: diary.txt")
        one.press(*["BSpace"] * len("diary.txt"))
        saved = self.folder / "saved.txt"
        one.type(str(saved))
        one.press("Enter")
        one.sees("Saved as")
        lines = [f"line {number}\n" for number in range(40)]
        self.assertEqual(saved.read_text(), "".join(["lne \n", *lines[1:27], "字\n", *lines[27:]]))
        one.press("C-q")
        one.sees("status 0")
        self.assertEqual(self.note("diary", "--print").stdout, saved.read_text())

    def test_doing_again_replacing_and_lines(self) -> None:
        one = Terminal(self, "data", "diary")
        one.type("tea and tea")
        one.press("Enter")
        one.cursor_is(0, 1)
        one.type("jam")
        one.shows("tea and tea", "jam")
        one.press("C-z")
        one.shows("tea and tea")
        one.press("C-y")
        one.shows("tea and tea", "jam")
        one.press("C-y")
        one.sees("taken nothing back")
        one.press("C-r")
        one.type("tea")
        one.press("Enter")
        one.type("Kaffee ☕")
        one.press("Enter")
        one.shows("Kaffee ☕ and Kaffee ☕", "jam")
        one.sees("Replaced 2 times.")
        one.press("C-l")
        one.type("1")
        one.press("Enter")
        one.cursor_is(0, 0)
        one.press("C-l")
        one.type("99")
        one.press("Enter")
        one.cursor_is(0, 1)
        one.press("C-z")
        one.shows("tea and tea", "jam")
        one.press("C-q")
        one.sees("status 0")
        self.assertEqual(self.note("diary", "--print").stdout, "tea and tea\njam")

    def test_what_is_selected(self) -> None:
        one = Terminal(self, "data", "diary")
        one.type("tea and jam")
        one.press("Home", "C-Space", "C-Right")
        wait_for(lambda: "\x1b[7mtea" in one.looks(), "a selection")
        one.press("C-x")
        one.shows(" and jam")
        one.press("End")
        one.type(" ")
        one.press("C-v")
        one.shows(" and jam tea")
        one.press("Home", "C-Space", "C-Right", "M-w", "End", "C-v")
        one.shows(" and jam tea and")
        one.press("Home", "C-Space", "End")
        one.type("x")
        one.shows("x")
        one.press("C-z")
        one.shows(" and jam tea and")
        one.press("Home", "C-Space", "Right", "Right", "BSpace")
        one.shows("nd jam tea and")
        one.press("C-Space", "Right")
        wait_for(lambda: "\x1b[7m" in one.looks().split("\n")[0], "a selection")
        # Once Escape has been taken in: with a key right after it, it would be Alt with that key.
        one.press("Escape")
        wait_for(lambda: "\x1b[7m" not in one.looks().split("\n")[0], "no selection")
        one.type("D")
        one.shows("nDd jam tea and")

    def test_a_line_by_keys(self) -> None:
        one = Terminal(self, "data", "diary")
        one.type("one two\rthree\rfour")
        one.press("Up", "Up", "C-a")
        one.cursor_is(0, 0)
        one.press("C-e")
        one.cursor_is(7, 0)
        one.press("C-a", "C-Right", "C-k")
        one.shows("one", "three", "four")
        # What is killed in one go is put in one go.
        one.press("C-k", "C-k", "Down", "C-e", "C-v")
        one.shows("one", "four two", "three")
        one.press("C-k", "C-z", "C-z", "C-z", "C-z")
        one.shows("one two", "three", "four")

    def test_the_mouse(self) -> None:
        one = Terminal(self, "data", "diary")
        one.type("one two\rthree")
        one.shows("one two", "three")
        self.assertEqual(one.modes(), "11")
        one.send(b"\x1b[<0;5;1M\x1b[<0;5;1m")
        one.cursor_is(4, 0)
        one.type("X")
        one.shows("one Xtwo", "three")
        # Drawn from one line to the next; typing takes its place.
        one.send(b"\x1b[<0;5;1M\x1b[<32;6;1M\x1b[<32;4;2M\x1b[<0;4;2m")
        one.cursor_is(3, 1)
        wait_for(lambda: "\x1b[7mXtwo" in one.looks(), "a selection")
        one.type("+")
        one.shows("one +ee")
        # Below the text, and on the last line of the screen.
        one.send(b"\x1b[<0;3;7M\x1b[<0;3;7m")
        one.cursor_is(7, 0)
        one.send(b"\x1b[<0;1;12M\x1b[<0;1;12m")
        one.cursor_is(7, 0)
        one.type("\r" + "\r".join(f"line {number}" for number in range(30)))
        one.sees("line 29")
        one.press("C-l", "1", "Enter")
        one.cursor_is(0, 0)
        # The cursor stays on the screen.
        one.send(b"\x1b[<65;1;1M\x1b[<65;1;1M")
        one.shows(*(f"line {number}" for number in range(5, 16)))
        one.cursor_is(0, 0)
        one.send(b"\x1b[<64;1;1M")
        one.shows(*(f"line {number}" for number in range(2, 13)))
        one.cursor_is(0, 3)
        one.press("C-f")
        one.sees("Find:")
        one.send(b"\x1b[<0;1;1M")
        one.press("Escape", "C-q")
        one.sees("status 0")
        # The terminal is as it was.
        self.assertEqual(one.modes(), "00")

    def test_the_names_of_others(self) -> None:
        one = Terminal(self, "data", "diary")
        one.type("short\r" + "x" * 66)
        one.sees("xxx")
        for name, at in ("Zoë\x1b[31m", 2), ("Bob", 10):
            other = Editor(self.folder / "data", name="diary", opens=False)
            self.addCleanup(other.close)
            opened = other.ask("open", protocol=1, units=["utf-16"], name=name)
            other.send({"do": "cursor", "version": opened["version"], "at": at})
        # After the text of the line, or on the one beside that has room.
        one.shows("short  Zoë[31m", "x" * 66, "↑Bob")
        one.press("Up", "C-e")
        one.type("er line with words up to the end, so that no name has room in it")
        one.shows("shorter line with words up to the end, so that no name has room in it", "x" * 66, "↑Bob")

    def test_another_editor_of_the_note(self) -> None:
        one, other = Terminal(self, "data", "diary"), Editor(self.folder / "data", name="diary")
        self.addCleanup(other.close)
        one.type("abc")
        other.shows("abc")
        other.edit((0, 0, "1\r\n"))
        one.shows("1·", "abc")
        one.press("End")
        other.ask("cursor", version=other.mirror.version, at=4)
        wait_for(lambda: "a\x1b[7mb" in one.looks(), "the other one's cursor")
        other.wait_for(lambda: [cursor["at"] for cursor in other.mirror.cursors] == [6], "this one's cursor")
        other.edit((0, 3, ""))
        one.shows("abc")
        one.press("C-q")
        one.sees("status 0")
        other.type("d")
        other.settle()
        other.close()
        self.assertEqual(self.note("diary", "--print").stdout, "abcd")

    def test_an_engine_that_ends(self) -> None:
        one = Terminal(self, "data", "diary")
        one.type("abc")
        one.shows("abc")
        wait_for(lambda: self.person("data").text("diary") == b"abc", "the words to be kept")
        for process in one.programs():
            os.kill(process, signal.SIGKILL)
        one.type("def")
        one.shows("abcdef")
        wait_for(lambda: self.person("data").text("diary") == b"abcdef", "what was typed since to be kept by the next one")
        # These keys are taken back together, as without the engine's end.
        one.press("C-z")
        one.shows()
        one.press("C-y")
        one.shows("abcdef")
        one.press("C-s")
        one.sees("Save as: diary.txt")
        one.press(*["BSpace"] * len("diary.txt"))
        saved = self.folder / "saved.txt"
        one.type(str(saved))
        one.press("Enter")
        one.sees("Saved as")
        self.assertEqual(saved.read_text(), "abcdef")
        one.press("C-q")
        one.sees("status 0")
        self.assertEqual(self.note("diary", "--print").stdout, "abcdef")

    def test_a_program_that_hangs(self) -> None:
        hangs, file = self.folder / "hangs", self.folder / "saved.txt"
        with mock.patch.dict(os.environ, VIALSHOAL_PROGRAM=shlex.join([python(), "-c", HANGS, str(hangs), *command()])):
            one = Terminal(self, "data", "diary")
        one.type("text")
        one.shows("text")
        hangs.touch()
        one.type("more")
        one.sees("Waiting for 2 seconds")
        one.press("C-s", *["BSpace"] * len("diary.txt"))
        one.type(str(file))
        one.press("Enter")
        one.sees("Saved as")
        self.assertEqual(file.read_text(), "text")
        one.press("C-q")
        wait_for(lambda: "status" in "\n".join(one.lines()), "the end")

    def test_a_server_that_hangs(self) -> None:
        server = self.redis()
        server.process.send_signal(signal.SIGSTOP)
        one = Terminal(self, "data", "diary", "--log", server.url, begins="diary  opening")
        one.press("C-q")
        one.sees("status 2")
        server.process.send_signal(signal.SIGCONT)
        one = Terminal(self, "data", "diary", "--log", server.url)
        server.process.send_signal(signal.SIGSTOP)
        one.type("text")
        one.shows("text")
        one.press("C-q")
        wait_for(lambda: "status" in "\n".join(one.lines()), "the end")

    def test_the_end_of_the_note_is_deleted_above_the_screen(self) -> None:
        one = Terminal(self, "data", "diary")
        for _ in range(30):
            one.type("line")
            one.press("Enter")
        one.press("PPage", "PPage", "NPage", "NPage", "NPage")
        one.press("BSpace")
        one.type("!")
        one.sees("line!")
        one.press("C-q")
        one.sees("status 0")
        self.assertEqual(self.note("diary", "--print").stdout, "line\n" * 29 + "line!")

    def test_characters_of_several_parts(self) -> None:
        one = Terminal(self, "data", "diary")
        one.type("e\u0301 a\u00a0b 👩‍👩‍👧 x")
        one.press("Left", "Left", "BSpace")
        one.type("!")
        one.sees("! x")
        one.press("C-q")
        one.sees("status 0")
        self.assertEqual(self.note("diary", "--print").stdout, "e\u0301 a\u00a0b ! x")

    def test_a_long_line_goes_on_in_the_next_row(self) -> None:
        one = Terminal(self, "data", "diary")
        one.type("word " * 20)
        one.shows("word " * 12 + "word", "word word word word word word word")
        one.cursor_is(35, 1)
        one.press("Home", "Up")
        one.cursor_is(0, 0)
        one.press("End")
        one.cursor_is(64, 0)
        one.press("Down", "End")
        one.cursor_is(35, 1)
