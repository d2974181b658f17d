"""What failed at the engine once: each test fails where what mended it is taken away."""
import json
import os
import random
import signal
import socket
import subprocess
import threading
import time
from concurrent.futures import ThreadPoolExecutor
from typing import Any
from unittest import mock

from share.cli.line_changes import line_changes
from share.engine import server as serving
from share.engine.engine import Engine
from share.engine.protocol import serialize
from share.engine.transform import Transformer
from share.format.second.key_link import link_of
from share.format.presence import Present, presence_of
from share.program.process import Ended, Program
from share.program.replay import Wrote, in_units
from share.store import notes
from share.store.guarded import Unkept
from share.store.note_file import Disk
from share.sync.session import Session
from share.tests.counting import instructions
from share.tests.editors import EngineHere, Engines
from share.tests.processes import children
from share.tests.support import NOTE, type_at_the_end
from share.tests.waiting import PATIENCE, wait_for
from share.text.change import Change
from share.text.errors import Trouble
from share.text.line import Line
from share.text.rope import Measured
from share.text.units import UNITS


class Here(EngineHere):
    """An engine in this process."""

    def test_a_program_that_ends_inside_a_long_edit(self) -> None:
        (_, first, _, _), (_, second, _, _) = self.editors
        first.edit([(0, 0, "base\n")])
        self.meet()
        ask, calls = Program.ask, list[bool]()

        def ends(program: Program, events: list[bytes]) -> Any:
            calls.append(b" type " in events[0])
            if calls[-1] and sum(calls) > 3:
                program.process.kill()
                raise Ended
            return ask(program, events)

        with mock.patch("share.program.process.Program.ask", ends):
            first.edit([(0, 0, "x" * 32_000)])
            got = self.meet()
        self.assertIn("failed", [line.get("error") for line in got[0]])
        self.shows("base\n")
        second.edit([(5, 5, "later")])
        self.shows("base\nlater")

    def test_numbers_that_no_language_has(self) -> None:
        (peer, first, sent, asked), (_, second, _, _) = self.editors
        first.edit([(0, 0, "good")])
        asked.append(b'{"do":"edit","version":0,"changes":[],"edits":' + b"9" * 4_300 + b"}")
        asked.append(b'{"do":"edit","version":0,"changes":[]}')
        asked.append(b'{"do":"on","id":' + b"9" * 4_300 + b"}")
        got = self.meet()
        self.assertEqual([line.get("error") for line in got[0] if line.get("answer") == "edit"],
                         [None, "field", "field"])
        first.made = peer.transformer.edits
        asked.append(json.dumps({"do": "text", "edits": first.made}).encode())
        self.meet()
        second.edit([(4, 4, " and later")])
        self.shows("good and later")

    def test_an_edit_that_is_refused_before_it_begins_is_answered(self) -> None:
        (_, first, _, _), _ = self.editors
        session = self.engine.session
        assert session
        with mock.patch.object(session._replica, "is_stale", True), mock.patch.object(session, "arrived", lambda: []):
            first.edit([(0, 0, "x")])
            got = self.meet()
        self.assertEqual([(line["error"], line["edits"]) for line in got[0] if line.get("answer") == "edit"],
                         [("unkept", 1)])
        first.edit([(0, 0, "y")])
        self.shows("y")

    def test_what_is_typed_behind_what_isnt_kept_stays_in_its_place(self) -> None:
        (peer, first, _, asked), _ = self.editors
        first.edit([(0, 0, "one past")])
        self.meet()
        # Between two words that begin alike.
        first.edit([(4, 4, "plum ")])
        first.edit([(9, 9, "new ")])
        unkept, kept = asked[0], asked[1]
        asked.clear()
        with mock.patch.object(Disk, "keep", side_effect=Unkept("full")):
            self.engine.take(peer, [unkept])
        self.engine.take(peer, [kept])
        self.shows("one new past")

    def test_halves_of_pairs_end_nothing(self) -> None:
        (_, first, _, asked), _ = self.editors
        for line in ({"id": "\ud800", "do": "on"}, {"id": 1, "do": "save", "path": "/\udc80"},
                     {"do": "\ud800", "id": "\udfff"}, {"id": {}, "do": "on"}):
            asked.append(json.dumps(line).encode())
            self.assertTrue(any("answer" in one for one in self.meet()[0]), line)
        first.edit([(0, 0, "on")])
        self.shows("on")

    def test_many_changes_take_no_square_of_time(self) -> None:
        (_, first, _, _), (_, second, _, _) = self.editors
        first.edit([(0, 0, "word \n" * 3_000)])
        self.meet()

        def edited(*numbers: int) -> None:
            first.edit([(6 * number, 6 * number + 4, "WORD") for number in reversed(numbers)])
            self.meet()
            self.assertEqual(second.text, first.text)

        def transformed(many: int) -> None:
            transformer = Transformer(UNITS["utf-8"])
            for number in range(many):
                transformer.changed([1 + number * 2, b"x"])
                transformer.send()
            transformer.edit(0, [(0, 0, "y")], 20_000)

        self.assertLess(instructions(lambda: edited(*range(200))), 3 * instructions(lambda: edited(*range(100))))
        self.assertLess(instructions(lambda: transformed(400)), 3 * instructions(lambda: transformed(200)))
        edited(*range(3_000))
        transformed(2_000)

    def test_a_session_whose_text_fails_as_it_is_opened_is_closed_and_opened_anew(self) -> None:
        engine = Engine("note", lambda: Session(notes.open_note("note", None, None)), lambda: None)
        self.addCleanup(engine.close)
        sent: list[bytes] = []
        peer, opening = engine.joined(sent.append, lambda: 0), b'{"do":"open","protocol":1,"units":["utf-8"]}'
        with mock.patch.object(Session, "text", side_effect=Trouble("It ended.")), mock.patch.object(
                Session, "close", autospec=True, side_effect=Session.close) as closes:
            engine.take(peer, [opening])
        self.assertEqual((json.loads(sent.pop())["words"], engine.session, closes.call_count), ("It ended.", None, 1))
        engine.take(peer, [opening])
        self.assertEqual((json.loads(sent.pop())["text"], peer.is_open), ("", True))

    def test_doing_again_much_brings_back_what_was_taken_alone(self) -> None:
        (peer, first, _, asked), (_, second, _, _) = self.editors
        first.edit([(0, 0, "x" * 20_000)])
        self.meet()
        second.edit([(10, 15, "")])
        self.meet()
        for what, size in ("undo", 0), ("redo", 19_995), ("undo", 0), ("redo", 19_995):
            asked.append(json.dumps({"do": what}).encode())
            self.meet()
            self.assertEqual(len(first.text), size)
        self.shows("x" * 19_995)

    def test_nobody_else_names_this_person(self) -> None:
        (_, first, _, asked), _ = self.editors
        first.edit([(0, 0, "mine")])
        self.meet()
        number = self.session().number
        said = [presence_of(Present(bytes(16), bytes([site % 256] * 16), site, "#000000", None, None, "Mallory"))
                for site in (number, number % 65_000 + 1)]
        with mock.patch.object(self.engine.session, "show", lambda shows: said):
            self.meet()
        asked.append(json.dumps({"do": "who", "id": 1, "version": first.version, "begin": 0, "end": 4}).encode())
        self.assertEqual([line["stretches"] for line in self.meet()[0] if line.get("answer") == "who"],
                         [[{"begin": 0, "end": 4, "site": number, "own": True}]])

    def test_bytes_in_a_row_that_are_no_text_stay_where_they_are(self) -> None:
        text = Measured(b"ab" + b"\x80" * 50_000 + b"cd")
        for change in Change(2, 2, b"x"), Change(30_000, 30_001, b""), Change(50_002, 50_002, b"\xe2\x82"):
            whole = text.whole(change)
            self.assertLess(whole.end - whole.begin, 10)
            text.replace(whole)

    def test_who_wrote_it_is_inside_the_text(self) -> None:
        data = "a🎉b".encode() + b"\x80\xe2\x82"
        for units in UNITS.values():
            text = Measured(data)
            stretches = [Wrote(place, place + 1, place) for place in range(len(data))]
            found = in_units(text, stretches, units)
            self.assertEqual(found[-1].end, text.length(units))
            for one, other in zip(found, found[1:]):
                self.assertEqual(one.end, other.begin)

    def test_texts_that_differ_everywhere_are_compared_soon(self) -> None:
        chance = random.Random(1)
        for many in 200, 2_500:
            old = "".join(f"{chance.random()}\n\n" for _ in range(many))
            new, text = old.replace("\n\n", " \n\n"), old
            self.assertLess(instructions(lambda: line_changes(old, new)), 5_000)
            for first, last, part in line_changes(old, new):
                text = text[:first] + part + text[last:]
            self.assertEqual(text, new)


class Apart(Engines):
    """An engine by the real command."""

    def run_note(self, *words: str, link: str = "", status: int) -> str:
        """What a command says on standard error that ends with this status."""
        done = subprocess.run([NOTE, *words], capture_output=True, timeout=PATIENCE, check=False, env={
            **os.environ, "VIALSHOAL_DATA": str(self.folder / "data"), "VIALSHOAL_LINK": link})
        self.assertEqual(done.returncode, status, done.stderr)
        return done.stderr.decode()

    def test_who_joins_while_another_editor_of_theirs_does(self) -> None:
        (ada,) = self.others("ada")
        ada.type("tea")
        link = self.person("ada").link()
        first = self.editor("bo", link=link, opens=False)
        wait_for((self.folder / "bo" / "run" / "note.sock").exists, "an engine")
        with self.person("bo").here(), ThreadPoolExecutor(1) as threads:
            looks, clock = threading.Semaphore(0), mock.Mock(wraps=time)
            clock.sleep.side_effect = lambda seconds: (looks.release(), time.sleep(seconds))
            with mock.patch.object(serving, "time", clock):
                agrees = threads.submit(serving.agree_with_engine, "note", None, link_of(link))
                # The other one isn't refused, though the note isn't here yet.
                for _ in range(3):
                    self.assertTrue(looks.acquire(timeout=PATIENCE))
            self.assertFalse(agrees.done())
            self.assertNotIn("error", first.ask("open", protocol=1, units=["utf-16"]))
            agrees.result(PATIENCE)

    def test_a_socket_is_there_once_it_listens(self) -> None:
        found, listen = list[bool](), socket.socket.listen
        with self.person("bo").here():
            folder = serving.run_folder()
            folder.mkdir(parents=True)

            def listened(one: socket.socket) -> None:
                found.append((folder / "note.sock").exists())
                listen(one)

            server = serving.Server("note", mock.Mock())
            self.addCleanup(server._close)
            with mock.patch.object(socket.socket, "listen", listened):
                server._listen()
            self.assertEqual((found, os.listdir(folder)), ([False], ["note.sock"]))
            line = serving.connected("note")
            assert line
            line.close()

    def test_what_an_editor_sent_that_is_gone_is_done(self) -> None:
        editor, many = self.editor(), 200
        with self.person().here():
            line = serving.connected("note")
        assert line
        # Each edit is kept by itself, since something is asked between two.
        asked: list[Line] = [{"do": "open", "protocol": 1, "units": ["utf-8"]}]
        for number in range(many):
            asked += {"do": "edit", "version": 0, "edits": number + 1, "changes": [[number, number, "x"]]}, {"do": "on"}
        with line:
            line.sendall(b"".join(map(serialize, asked)))
        editor.shows(many * "x")

    def test_what_is_for_another_note_is_not_typed_into_this_one(self) -> None:
        other = self.opened(self.person("other"), "note", self.file_log())
        type_at_the_end(other, "")
        link = self.person("other").link()
        editor = self.editor()
        for words in (["append", "note", "secret"], ["engine", "note"], ["replace", "note", "a", "b"]):
            self.assertIn("another one", self.run_note(*words, link=link, status=2))
        self.assertIn("another log", self.run_note("append", "note", "x", "--log", str(self.folder / "l" / "x"), status=2))
        editor.ask("on")
        self.assertEqual(editor.text, "")

    def test_words_that_are_no_text(self) -> None:
        self.assertIn("no UTF-8", self.run_note("append", "note", os.fsdecode(b"\xff"), "--new", status=2))
        self.run_note("append", "note", "x\u009b31m", "--new", status=0)
        done = subprocess.run(f"{NOTE} cat note >&-", shell=True, capture_output=True, timeout=PATIENCE, check=False,
                              env={**os.environ, "VIALSHOAL_DATA": str(self.folder / "data")})
        self.assertEqual((done.returncode, b"Traceback" in done.stderr), (2, False))
        done = subprocess.run(["script", "-qc", f"{NOTE} cat note --json", "/dev/null"], capture_output=True, timeout=PATIENCE,
                              check=False, env={**os.environ, "VIALSHOAL_DATA": str(self.folder / "data")})
        self.assertIn(b"x\\u009b31m", done.stdout)

    def test_a_program_that_stands_still_is_told_at_once_and_started_anew_soon(self) -> None:
        first, second = self.editor(), self.editor()
        first.type("tea ")
        first.settle()
        (program,) = children(self.engine())
        os.kill(program, signal.SIGSTOP)
        first.type("jam ")
        second.edit((0, 0, "now "))
        trouble = second.wait_for(lambda: next((one for one in second.notices("state") if "trouble" in one), None), "trouble")
        for editor in first, second:
            answer = editor.settle()
            self.assertNotIn("error", answer)
        self.assertEqual(self.alike(first, second), "now tea jam ")
        self.assertIn("stands still", trouble["trouble"])
        self.assertLess(second.lines.index(trouble), second.lines.index(answer))
        second.wait_for(lambda: "trouble" not in second.notices("state")[-1], "it to be told as it goes on")
        self.assertNotIn(program, children(self.engine()))

    def test_an_editor_that_goes_while_another_opens(self) -> None:
        editors = [self.editor(opens=False) for _ in range(3)]
        for editor in editors:
            editor.send({"do": "open", "protocol": 1, "units": ["utf-8"]})
        for editor in editors[:2]:
            editor.kill()
        editors[2].wait_for(lambda: any(line.get("answer") == "open" for line in editors[2].lines), "the note")


if __name__ == "__main__":
    import unittest
    unittest.main()
