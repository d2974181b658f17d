"""The verbs for scripts, by the real command."""
import contextlib
import json
import os
import signal
import subprocess

from share.cli.html import page
from share.cli.line_changes import line_changes
from share.tests.editors import Editor
from share.tests.forms import is_second_form
from share.tests.servers import FileLog
from share.tests.support import NOTE, Case, Person, raws_of, wait_for
from share.tests.terminals import Answering
from share.tests.waiting import PATIENCE
from share.text.looks import Run


class Verbs(Case):
    """What a verb prints, and with which status it ends."""

    def note(  # type: ignore[override]
            self, *words: str, data: str = "data", given: bytes = b"", status: int = 0) -> str:
        """What a command prints that ends with this status."""
        done = subprocess.run([NOTE, *words], capture_output=True, input=given, timeout=PATIENCE, check=False,
                              env={**os.environ, "VIALSHOAL_DATA": str(self.folder / data)})
        self.assertEqual(done.returncode, status, (words, done.stderr))
        self.said = done.stderr.decode()
        return done.stdout.decode()

    said = ""

    def numbers(self, person: Person) -> int:
        """How many numbers somebody has spent."""
        with contextlib.closing(person.disk()) as disk:
            sites = {one.site for one in disk.own.clients()}
            if is_second_form():
                # One more is claimed in advance.
                self.assertLessEqual(len(sites), 2)
                sites &= {row.entry.site for row in disk.entries.rows() if row.entry.kind.has_messages}
            return len(sites)

    def test_texts_go_in_and_out(self) -> None:
        text = "tea\njam\r\nhoney\rfig\n\n🎉\0é\n"
        self.note("import", "note", "-", "--new", given=text.encode())
        self.assertEqual(self.note("cat", "note"), text)
        self.assertEqual(self.note("note", "--print"), text)
        path = self.folder / "out.txt"
        self.note("export", "note", str(path))
        self.assertEqual(path.read_bytes(), text.encode())
        self.note("export", "note", str(path), status=2)
        path.write_bytes(text.replace("jam", "plum").encode())
        self.note("import", "note", str(path))
        self.note("append", "note", "kiwi")
        self.note("append", "note", given=b"no line end")
        self.assertEqual(self.note("cat", "note"), text.replace("jam", "plum") + "kiwi\nno line end")
        self.assertEqual(json.loads(self.note("cat", "note", "--json"))["text"], self.note("cat", "note"))
        self.assertEqual(json.loads(self.note("replace", "note", "e", "E", "--json"))["replaced"], 4)
        self.note("replace", "note", "xyz", "E", status=1)
        self.note("replace", "note", "", "E", status=2)
        self.assertIn("plum\r\nhonEy", self.note("export", "note", "-"))
        for given in b"\xff", "\udc80".encode("utf-8", "surrogatepass"):
            self.note("append", "note", given=given, status=2)
            self.note("import", "note", "-", given=given, status=2)
        self.assertEqual(self.numbers(self.person()), 1)

    def test_what_is_not_there(self) -> None:
        for words in (["cat", "note"], ["replace", "note", "a", "b"], ["log", "note"], ["history", "note", "--at", "0"], ["check", "note"],
                      ["export", "note", "-"], ["cat"], ["log"], ["check"], ["cat", "../x"], ["import", "note", "/nowhere/x", "--new"],
                      ["export", "note", "-", "--format", "pdf"]):
            self.note(*words, status=2)
            self.assertTrue(self.said)
        self.assertFalse((self.folder / "data" / "notes").exists())
        for verb in "cat", "append", "replace", "import", "export", "list", "history", "log", "check":
            self.assertIn("usage: bin/note " + verb, self.note(verb, "--help"))
        self.assertEqual(self.note("list"), "")

    def test_a_typing_error_makes_no_note(self) -> None:
        (self.folder / "text").write_text("text")
        for words in ["append", "drfat", "x"], ["import", "drfat", str(self.folder / "text")], ["web", "drfat", "--no-browser"]:
            self.note(*words, status=2)
            self.assertIn("There is no note drfat here. --new makes one.", self.said)
        for answer, status in ("n", 2), ("\x03", 2), ("y", 0):
            self.assertFalse((self.folder / "data" / "notes" / "drfat.note").exists())
            with Answering(self.folder / "data", "append", "drfat", "x") as run:
                run.sees("There is no note drfat here. Make a new one")
                run.type(answer + "\n")
                self.assertEqual(run.status(), status, run.shown)
                self.assertNotIn("Traceback", run.shown)
        self.assertEqual(self.note("cat", "drfat"), "x\n")

    def test_words_that_begin_with_a_hyphen(self) -> None:
        self.note("append", "note", "-milk", "--new")
        self.note("append", "note", "--", "--jam")
        self.note("replace", "note", "-milk", "-m")
        self.assertEqual(self.note("cat", "note"), "-m\n--jam\n")
        self.assertEqual(self.note("search", "-M"), "note:1: -m\n")
        self.note("append", "note", "--jam", status=2)
        self.assertIn("usage", self.note("append", "note", "-h"))
        self.assertRegex(self.note("--version"), "^Vialshoal")

    def test_interrupted_at_any_time(self) -> None:
        self.note("append", "note", "one", "--new")
        for number in range(10):
            with subprocess.Popen([NOTE, "cat", "note"], stdout=subprocess.DEVNULL, stderr=subprocess.PIPE, text=True,
                                  env={**os.environ, "VIALSHOAL_DATA": str(self.folder / "data")}) as run:
                # Whenever it comes: the time decides nothing.
                with contextlib.suppress(subprocess.TimeoutExpired):
                    run.wait(number * 0.03)
                run.send_signal(signal.SIGINT)
                said = run.communicate(timeout=PATIENCE)[1]
            self.assertEqual((said, run.returncode in (0, -signal.SIGINT)), ("", True), number)

    def test_by_the_engine_that_runs_no_number_is_spent(self) -> None:
        editor = Editor(self.folder / "data")
        self.addCleanup(editor.close)
        editor.type("one\n")
        editor.settle()
        self.note("append", "note", "two")
        editor.shows("one\ntwo\n")
        self.note("replace", "note", "one", "1")
        editor.shows("1\ntwo\n")
        self.note("import", "note", "-", given=b"1\nand\ntwo\n")
        editor.shows("1\nand\ntwo\n")
        self.assertEqual(self.note("cat", "note"), "1\nand\ntwo\n")
        self.assertEqual(json.loads(self.note("list", "--json"))["notes"][0]["open"], True)
        self.assertEqual(self.numbers(self.person()), 1)
        # What a script does isn't the editor's to take back.
        self.assertTrue(editor.ask("undo")["done"])
        editor.shows("1and\ntwo\n")

    def test_history(self) -> None:
        for word in "one", "two":
            self.note("append", "note", word, "--new")
        self.note("replace", "note", "one", "1")
        found = json.loads(self.note("log", "note", "--json"))
        self.assertEqual([(step["typed"], step["deleted"], step["text"], step["own"]) for step in found["steps"]],
                         [(8, 0, "one\ntwo\n", True), (1, 3, "1", True)])
        self.assertEqual(found["length"], 4)
        # What replaces something stands inside that until it goes.
        self.assertEqual([self.note("history", "note", "--at", str(at)) for at in range(5)],
                         ["", "one\n", "one\ntwo\n", "o1ne\ntwo\n", "1\ntwo\n"])
        past = json.loads(self.note("history", "note", "--at", "2", "--json"))
        self.assertEqual([one["text"] for one in past["stretches"]], ["one\ntwo\n"])
        wrong: list[list[str]] = [["--at", "5"], ["--at", "-1"], []]
        for words in wrong:
            self.note("history", "note", *words, status=2)
        self.assertIn("typed '1' in the place of 3 bytes\n", self.note("log", "note"))

    def test_a_log_that_is_away(self) -> None:
        log = self.folder / "shared" / "note.log"
        self.note("append", "note", "one", "--new", "--log", str(log))

        def has_it() -> bool:
            with contextlib.closing(self.person().log()) as found:
                return bool(raws_of(found))

        wait_for(has_it, "the log to have it")
        FileLog(self.folder).kill()
        self.assertEqual(json.loads(self.note("append", "note", "two", "--json"))["sent"], False)
        self.assertEqual(self.note("cat", "note", status=3), "one\ntwo\n")
        self.assertIn("can't be read", self.said)

    def test_a_page_has_what_people_wrote_as_text(self) -> None:
        text = "<script>alert('x')</script> & \u202e\x1b[31m\r\n".encode()
        made = page("a<b", text, [Run("Oberon10b.Scn.Fnt", 2, -3, 8), Run("Oberon10.Scn.Fnt", 1, 0, len(text) - 8)])
        self.assertIn('<span style="font-weight:bold;color:#cc2222;vertical-align:-3px">&lt;script&gt;</span>', made)
        self.assertIn("<title>a&lt;b</title>", made)
        for never in "<script", "\x1b", "\u202e":
            self.assertNotIn(never, made)
        self.note("append", "note", "<b>&", "--new")
        self.assertIn("<pre>\n&lt;b&gt;&amp;\n</pre>", self.note("export", "note", "-", "--format", "html"))

    def test_differences(self) -> None:
        for old, new in (("", ""), ("", "a\n"), ("a\n", ""), ("a\nb\nc\n", "a\nB\nc\n"), ("a\r\nb", "a\nb"),
                         ("x\n" * 9_000 + "y", "x\n" * 8_999 + "yé"), ("abc", "abc")):
            text = old
            for begin, end, part in line_changes(old, new):
                text = text[:begin] + part + text[end:]
            self.assertEqual(text, new)
        self.assertEqual(line_changes("a\nb\nc\n", "a\nB\nc\n"), [(2, 3, "B")])


if __name__ == "__main__":
    import unittest
    unittest.main()
