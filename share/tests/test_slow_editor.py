"""Editors that leave notices unread, and those that never read: nobody waits for them, and the engine keeps a bounded part
for each."""
import contextlib
import json
import pathlib
import socket
from collections.abc import Iterator
from typing import Any
from unittest import mock

from share.engine import editor as peers
from share.engine import server as serving
from share.engine import transform
from share.engine.editor import LEFT_MUCH
from share.engine.protocol import Wrong
from share.engine.transform import Transformer
from share.tests.editors import EngineHere, Engines
from share.tests.support import TOP, python
from share.tests.waiting import PATIENCE
from share.text.delta import of_changes
from share.text.units import UNITS

UTF_8 = UNITS["utf-8"]
# An engine that keeps little for an editor.
KEEPS_LITTLE = f"""
import sys
sys.path[0] = {str(TOP)!r}
from share.engine import transform
transform.MOST_LEFT = 50
from share.cli.main import main
sys.exit(main())
"""


def memory(process: int) -> int:
    """The most memory that a process has had, in bytes."""
    lines = pathlib.Path(f"/proc/{process}/status").read_text(encoding="ascii").splitlines()
    return 1024 * next(int(line.split()[1]) for line in lines if line.startswith("VmHWM"))


class Bounds(EngineHere):
    """What an engine keeps for an editor."""

    def says(self, number: int) -> list[Any]:
        """What an editor's user is told by what comes now, and how often it is sent the whole text."""
        got = self.meet()[number]
        return [[line["words"] for line in got if line.get("notice") == "says"],
                len([line for line in got if line.get("notice") == "text"])]

    def leave(self, *changes: tuple[int, int, str]) -> int:
        """Has the first editor make each change as an edit, while the other one looks at no notice; how many changes are kept for
        that one at most."""
        (_, first, _, _), (peer, _, _, _) = self.editors
        most = 0
        for change in changes:
            first.edit([change])
            self.step(0)
            most = max(most, len(peer.transformer._sent) + len(peer.transformer._unsent))
        return most

    def step(self, number: int) -> None:
        """Has an editor's lines arrive, and what it is sent."""
        peer, mirror, sent, asked = self.editors[number]
        while asked:
            self.engine.take(peer, asked)
        self.engine.turn()
        for line in map(json.loads, [*sent]):
            mirror.take(line)
        sent.clear()

    def test_a_command_is_carried_over_as_long_as_what_it_left_is_kept(self) -> None:
        (_, first, _, _), (_, second, sent, _) = self.editors
        first.edit([(0, 0, "words\n")])
        self.meet()
        with mock.patch.object(transform, "MOST_LEFT", 30), mock.patch.object(transform, "MOST_SENT", 10):
            self.asks(1, "seen", version=1)
            self.leave(*[(0, 0, "x")] * 30)
            held, sent[:] = [*sent], []
            second.edit([(1, 5, "ORDS")])
            self.shows("x" * 30 + "wORDS\n")
            self.assertFalse([line for line in map(json.loads, held) if line["notice"] in ("text", "says")])

    def test_who_leaves_more_is_sent_the_text_and_told(self) -> None:
        (_, first, _, _), (_, second, sent, _) = self.editors
        first.edit([(0, 0, "words\n")])
        self.meet()
        with mock.patch.object(transform, "MOST_LEFT", 30):
            self.assertLessEqual(self.leave(*[(0, 0, "x")] * 100), 31)
            held = [json.loads(line) for line in sent]
            self.assertEqual([line["words"] for line in held if line["notice"] == "says"], [LEFT_MUCH] * 3)
            texts = [line["text"] for line in held if line["notice"] == "text"]
            self.assertEqual(texts, ["x" * many + "words\n" for many in (30, 61, 92)])
            # What it does with what it sees is void, and said to be.
            second.edit([(1, 5, "ORDS")])
            got = self.meet()[1]
        self.assertEqual([line["error"] for line in got if line.get("answer") == "edit"], ["stale"])
        self.shows("x" * 100 + "words\n")

    def test_who_reads_all_of_it_late_sees_the_same(self) -> None:
        (_, first, _, _), (_, second, _, asked) = self.editors
        with mock.patch.object(transform, "MOST_LEFT", 250):
            self.leave(*[(0, 0, "x")] * 300)
            # It says where it is, and now and then what it has seen, as it was before the text.
            asked.append(b'{"do":"cursor","version":3,"at":0}')
            self.assertFalse([line for line in self.meet()[1] if "error" in line])
            self.shows("x" * 300)
            first.edit([(0, 0, "y")])
            self.assertEqual(self.says(1), [[], 0])
            second.edit([(1, 1, "z")])
            self.shows("yz" + "x" * 300)

    def test_who_does_not_read_is_sent_nothing_until_it_does(self) -> None:
        (_, first, _, _), (peer, _, sent, _) = self.editors
        self.meet()
        self.unread[1] = peers.MOST_WAITING + 1
        with mock.patch.object(transform, "MOST_LEFT", 30), mock.patch.object(transform, "MOST_SENT", 10):
            for number in range(100):
                self.leave((0, 0, "x"))
                peer.say(f"{number}")
                self.engine._stands(number % 2 == 0)
            self.engine._stands(False)
        self.assertEqual((sent, peer.transformer._unsent, peer.transformer._sent), ([], [], []))
        self.unread[1] = 0
        told, texts = self.says(1)
        self.assertEqual((told, texts), ([*map(str, range(100 - peers.MOST_WORDS, 100)), LEFT_MUCH], 1))
        self.shows("x" * 100)

    def test_the_bounds_are_what_the_protocol_says(self) -> None:
        op, mega = of_changes([(0, 0, b"x")], UTF_8), of_changes([(0, 0, b"x" * (1 << 20))], UTF_8)
        for one, many, sends in (op, 10_000, True), (op, 10_000, False), (mega, 31, True), (mega, 31, False):
            carry = Transformer(UTF_8)
            for _ in range(many):
                carry.changed(one)
                sends and carry.has_news() and carry.send()
            self.assertFalse(carry.is_void or carry.has_left_much)
            carry.edit(0, [(0, 0, "y")], many * (len(one[0]) if isinstance(one[0], bytes) else 0))
            carry.changed(one)
            carry.changed(one)
            self.assertTrue(carry.is_void and carry.has_left_much)
            with self.assertRaises(Wrong):
                carry.edit(0, [(0, 0, "y")], 0)


class AtServer(Engines):
    """Editors at an engine that is a process of its own."""

    @contextlib.contextmanager
    def line(self) -> Iterator[socket.socket]:
        """A connection to the engine that the test reads itself."""
        with self.person().here():
            line = serving.connected("note")
        assert line
        with line:
            line.settimeout(PATIENCE)
            line.sendall(b'{"do":"open","protocol":1,"units":["utf-8"]}\n')
            yield line

    def test_who_leaves_much_unread_is_sent_the_text(self) -> None:
        first = self.editor(command=[python(), "-B", "-c", KEEPS_LITTLE])
        second = self.editor()
        first.edit((0, 0, "words\n"))
        second.shows("words\n")
        # As an editor does whose command asks: it keeps what comes, and doesn't look at it.
        second.listens, before = False, len(second.lines)
        for _ in range(115):
            first.edit((0, 0, "x"))
            first.settle()
        second.wait_for(lambda: len(second.notices("text")) == len(second.notices("says")) == 2, "the text, and words")
        self.assertEqual([line["words"] for line in second.notices("says")], [LEFT_MUCH] * 2)
        second.edit((1, 5, "ORDS"))
        second.listens = True
        for line in second.lines[before:]:
            second.mirror.take(line)
        self.assertEqual(self.alike(first, second), "x" * 115 + "words\n")
        second.edit((0, 0, "on "))
        self.assertEqual(self.alike(first, second), "on " + "x" * 115 + "words\n")

    def test_who_asks_and_never_reads_takes_little_and_holds_nobody(self) -> None:
        editor = self.editor()
        editor.edit((0, 0, "word " * 200_000))
        editor.settle()
        before, length = memory(self.engine()), editor.ask("history")["length"]
        with self.line() as greedy, self.line() as idle:
            # Each answer has a million bytes or more; whatever a socket takes is sent.
            greedy.setblocking(False)
            asks = b'{"do":"past","at":%d}\n{"do":"text","edits":0}\n' % length * 400
            with contextlib.suppress(BlockingIOError):
                while asks:
                    asks = asks[greedy.send(asks):]
            for number in range(40):
                editor.edit((0, 0, "y" * 100_000))
                editor.settle()
                self.assertTrue(editor.ask("on")["people"], number)
            self.assertLess(memory(self.engine()) - before, 150_000_000)
            idle.setblocking(True)
            # Who begins to read is sent all that it lacks.
            data = b""
            while not data.endswith(b"\n") or b'"id":7,' not in data:
                if b'"id":7,' not in data and b'"notice":"changes"' in data and data.endswith(b"\n"):
                    idle.sendall(b'{"do":"on","id":7}\n')
                data += idle.recv(1 << 20)
        self.assertEqual(len(editor.text), 5_000_000)


if __name__ == "__main__":
    import unittest
    unittest.main()
