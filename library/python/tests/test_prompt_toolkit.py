"""A text in a buffer of prompt_toolkit: by keys of an application without a terminal, at random against plain strings and sets of
characters, and with another thread that changes the text meanwhile.

  VIALSHOAL_LIBRARY=library/out/libvialshoal.so python3 -m unittest discover library/python/tests
"""
from __future__ import annotations

import asyncio
import errno
import io
import os
import re
import subprocess
import sys
import tempfile
import textwrap
import unittest
from collections.abc import Callable
from contextlib import redirect_stdout
from functools import partial
from typing import Any
from unittest import mock

from hypothesis import given
from hypothesis import strategies as st

from examples import tries
from test_text import TOP
from test_threads import often_switching, side_by_side
from vialshoal import Misused, Text
from vialshoal import _names as names
from vialshoal import _text as texts
from vialshoal._answers import NameRange

try:
    from prompt_toolkit import PromptSession
    from prompt_toolkit.application import create_app_session
    from prompt_toolkit.buffer import Buffer
    from prompt_toolkit.document import Document
    from prompt_toolkit.input import create_pipe_input
    from prompt_toolkit.output import DummyOutput

    from vialshoal.prompt_toolkit import BufferBinding
except ImportError as why:
    raise unittest.SkipTest(f"there is no prompt_toolkit (python3-prompt-toolkit): {why}") from why

PATIENCE = 300.0
LETTERS = st.text("ab \n\N{LATIN SMALL LETTER E WITH ACUTE}\N{EURO SIGN}\N{GRINNING FACE}", max_size=4)
VERBS = ("type", "type", "put", "cut", "erase", "undo", "redo", "part", "other", "other cuts", "program")
steps = st.lists(st.tuples(st.sampled_from(VERBS), st.integers(0, 100), st.integers(0, 6), LETTERS), max_size=25)


def pair() -> tuple[Text[str], Text[str]]:
    return Text(1, site=1, units="code points"), Text(1, site=2, units="code points")


class Pages(unittest.TestCase):
    """What is typed goes out by chunks, and what others do comes in."""

    def setUp(self) -> None:
        self.text, self.other = pair()
        self.addCleanup(self.text.close)
        self.addCleanup(self.other.close)

    def bound(self, **words: Any) -> tuple[Buffer, BufferBinding]:
        buffer = Buffer(multiline=True)
        return buffer, BufferBinding(self.text, buffer, send=self.send, **words)

    def send(self, chunks: list[bytes]) -> None:
        for chunk in chunks:
            self.other.unpack(chunk)

    def test_by_keys(self) -> None:
        asyncio.run(self.by_keys())

    async def until(self, condition: Callable[[], bool]) -> None:
        async def looks() -> None:
            while not condition():
                await asyncio.sleep(0.001)
        await asyncio.wait_for(looks(), PATIENCE)

    async def by_keys(self) -> None:
        self.text.insert(0, "Oberon")
        with create_pipe_input() as pipe:
            session: PromptSession[str] = PromptSession(multiline=True, input=pipe, output=DummyOutput())
            buffer = session.default_buffer
            asking = asyncio.ensure_future(session.prompt_async())
            await self.until(lambda: session.app.is_running)
            binding = BufferBinding(self.text, buffer, send=self.send)
            self.send(self.text.pack())
            self.assertEqual(buffer.text, "Oberon")

            async def keys(words: str, wanted: str) -> None:
                pipe.send_text(words)
                await self.until(lambda: buffer.text == str(self.text) == str(self.other) == wanted)

            # C-a, letters, M-f, return
            await keys("\x01Project ", "Project Oberon")
            await keys("\x1bf!\r", "Project Oberon!\n")
            # What another thread brings is shown; the cursor stays after the character that it is after.
            thread = partial(asyncio.get_running_loop().run_in_executor, None)
            await thread(lambda: [self.text.take(it) for it in self.other.insert(16, ">> ")])
            await self.until(lambda: buffer.text == "Project Oberon!\n>> ")
            await keys("x", "Project Oberon!\nx>> ")
            await thread(lambda: [self.text.take(it) for it in self.other.delete(0, 8)])
            await self.until(lambda: buffer.text == "Oberon!\nx>> ")
            # C-_ takes back what was typed here, a word or a key at a time; what others did stays.
            for _ in range(4):
                pipe.send_text("\x1f")
            await self.until(lambda: buffer.text == "Oberon>> ")
            await keys("\x1f", "Oberon>> ")
            # C-k, and C-y pastes.
            await keys("\x01\x0b", "")
            await keys("\x19\x19", "Oberon>> Oberon>> ")
            binding.close()
            pipe.send_text("y")
            await self.until(lambda: buffer.text.endswith("y"))
            self.assertEqual(str(self.text), "Oberon>> Oberon>> ")
            pipe.send_text("\x1b\r")
            await asyncio.wait_for(asking, PATIENCE)

    def test_the_lines_of_the_docs(self) -> None:
        page = (TOP / "docs" / "LIBRARY.md").read_text()
        block = re.search(r"In a terminal:\n\n((?:    .*\n|\n)+)", page)
        assert block
        code = compile(textwrap.dedent(block[1]), "LIBRARY.md", "exec")
        before = os.getcwd()
        with tempfile.TemporaryDirectory() as folder, create_pipe_input() as pipe, create_app_session(pipe, DummyOutput()):
            os.chdir(folder)
            try:
                pipe.send_text("Oberon\x1b\r")
                with redirect_stdout(io.StringIO()) as said:
                    exec(code, {})
                self.assertIn("OTC1", said.getvalue())
                with Text.open("typed") as text:
                    self.assertEqual(str(text), "Oberon")
                # It goes on with what is there.
                pipe.send_text("!\x1b\r")
                with redirect_stdout(io.StringIO()):
                    exec(code, {})
                with Text.open("typed") as text:
                    self.assertEqual(str(text), "Oberon!")
            finally:
                os.chdir(before)

    def test_a_buffer_that_is_emptied_shows_the_text_again(self) -> None:
        # (a session does so as it asks, and once it is answered)
        buffer, binding = self.bound()
        buffer.insert_text("kept")
        buffer.reset()
        self.assertEqual((buffer.text, buffer.cursor_position), ("kept", 4))
        buffer.reset(Document("x"), append_to_history=True)
        buffer.insert_text("!")
        self.assertEqual((buffer.text, str(self.text)), ("kept!",) * 2)
        binding.close()
        buffer.reset()
        self.assertEqual((buffer.text, str(self.text)), ("", "kept!"))

    def test_selections_and_bytes(self) -> None:
        buffer, binding = self.bound()
        buffer.insert_text("one two")
        buffer.cursor_position = 4
        buffer.start_selection()
        buffer.cursor_position = 7
        for message in self.other.insert(0, "zero "):
            self.text.take(message)
        self.assertEqual((buffer.text, buffer.document.selection_range()), ("zero one two", (9, 12)))
        # Bytes that are of no character stay, and halves of what UTF-16 has are put in as what is shown for them.
        bytes_of: Text[bytes] = Text(1, site=3)
        bytes_of.merge(self.text)
        for message in bytes_of.insert(0, b"\xc3"):
            self.text.take(message)
        self.assertEqual(buffer.text, "\udcc3zero one two")
        buffer.cursor_position = 1
        buffer.insert_text("\udca9\ud800")
        self.assertEqual((buffer.text, str(self.text)), ("\N{LATIN SMALL LETTER E WITH ACUTE}\N{REPLACEMENT CHARACTER}zero one two",) * 2)
        binding.close()
        bytes_of.close()
        with self.assertRaises(TypeError):
            BufferBinding(bytes_of, buffer)  # type: ignore[arg-type]

    def test_the_letter_at_the_cursor_is_the_one_that_was_typed(self) -> None:
        buffer, binding = self.bound()
        buffer.insert_text("aaa")
        for place in (0, 2, 4):
            buffer.cursor_position = place
            buffer.insert_text("a")
        self.assertEqual([it.offset for it in self.text.names(0, 6)], [3, 0, 4, 1, 5, 2])
        buffer.cursor_position = 1
        buffer.delete(1)
        buffer.cursor_position = 3
        buffer.delete_before_cursor(1)
        self.assertEqual([it.offset for it in self.text.names(0, 4)], [3, 4, 5, 2])
        binding.close()

    def test_undo_passes_over_what_does_nothing_any_more(self) -> None:
        buffer, binding = self.bound()
        for word in ("one", " two"):
            buffer.save_to_undo_stack()
            buffer.insert_text(word)
        for message in self.other.delete(3, 7):
            self.text.take(message)
        buffer.undo()
        self.assertEqual(buffer.text, "")
        buffer.redo()
        self.assertEqual(buffer.text, "one")
        buffer.redo()
        self.assertEqual(buffer.text, "one")
        binding.close()

    def test_what_is_refused_is_told(self) -> None:
        told: list[Exception] = []
        buffer, binding = self.bound(on_error=told.append)
        buffer.insert_text("kept")
        with mock.patch.object(texts.Text, "insert", side_effect=Misused(104)):
            buffer.insert_text("refused")
        self.assertEqual((buffer.text, [type(it) for it in told]), ("kept", [Misused]))
        # What can't be kept is shown, and told.
        with mock.patch.object(texts.Text, "_handed_out_past", side_effect=OSError(errno.ENOSPC, "full")):
            buffer.insert_text("!")
        self.assertEqual((buffer.text, str(self.text), len(told)), ("kept!", "kept!", 2))
        binding.close()
        buffer, binding = self.bound()
        with mock.patch.object(texts.Text, "insert", side_effect=Misused(104)), self.assertRaises(Misused):
            buffer.insert_text("refused")
        self.assertEqual(buffer.text, "kept!")

    def test_it_is_needed_only_where_it_is_used(self) -> None:
        program = "import sys, vialshoal; sys.exit(any(name.startswith('prompt_toolkit') for name in sys.modules))"
        self.assertEqual(subprocess.run([sys.executable, "-B", "-c", program]).returncode, 0)


def shown_names(text: Text[str]) -> set[tuple[int, int]]:
    with Text(1, site=9) as plain:
        plain.merge(text)
        return {(it.site, it.offset) for it in plain.names(0, len(plain))}


class Player:
    """A buffer, a plain string that has what was typed, and the names that each of its edits showed and hid."""

    def __init__(self, case: unittest.TestCase) -> None:
        self.case = case
        self.text, self.other = pair()
        self.buffer = Buffer(multiline=True)
        self.binding = BufferBinding(self.text, self.buffer, send=self.send)
        self.groups: dict[str, list[tuple[set[Any], set[Any]]]] = {"undo": [], "redo": []}
        self.is_new = True

    def send(self, chunks: list[bytes]) -> None:
        for chunk in chunks:
            self.other.unpack(chunk)

    def step(self, verb: str, one: int, many: int, put: str) -> None:
        before, place = shown_names(self.text), one % (len(self.buffer.text) + 1)
        if verb in ("undo", "redo"):
            self.move(verb, before)
        elif verb == "part":
            self.buffer.save_to_undo_stack()
            self.is_new = True
        elif verb in ("other", "other cuts", "program"):
            self.others(verb, place, many, put)
        else:
            self.typed(verb, place, many, put)
            self.note(before, shown_names(self.text))
        self.case.assertEqual((self.buffer.text, str(self.other)), (str(self.text),) * 2)

    def typed(self, verb: str, place: int, many: int, put: str) -> None:
        was = self.buffer.text
        self.buffer.cursor_position = place
        if verb == "type":
            self.buffer.insert_text(put)
            wanted = was[:place] + put + was[place:]
        elif verb == "put":
            self.buffer.document = Document(was[:place] + put + was[place + many:], place)
            wanted = was[:place] + put + was[place + many:]
        elif verb == "cut":
            self.buffer.delete(many)
            wanted = was[:place] + was[place + many:]
        else:
            self.buffer.delete_before_cursor(min(many, place))
            wanted = was[:max(place - many, 0)] + was[place:]
        self.case.assertEqual(self.buffer.text, wanted)

    def note(self, before: set[Any], after: set[Any]) -> None:
        came, went = after - before, before - after
        if not came and not went:
            return
        if self.is_new or not self.groups["undo"]:
            self.groups["undo"].append((came, went))
        else:
            early, lost = self.groups["undo"].pop()
            self.groups["undo"].append(((early - went) | (came - lost), (lost - came) | (went - early)))
        self.groups["redo"].clear()
        self.is_new = False

    def others(self, verb: str, place: int, many: int, put: str) -> None:
        """Others, and the program itself, change the text; the cursor stays after the character that it is after."""
        at = self.buffer.cursor_position
        left = self.text.names(at - 1, at) if at else []
        if verb == "program":
            for message in self.text.insert(place, put):
                self.other.take(message)
        else:
            messages = self.other.insert(place, put) if verb == "other" else self.other.delete(place, min(place + many, len(self.other)))
            for message in messages:
                self.text.take(message)
        wanted = self.text.place(left[0]).pos if left else 0
        self.case.assertEqual(self.buffer.cursor_position, wanted)

    def move(self, verb: str, before: set[Any]) -> None:
        source, target = self.groups[verb], self.groups["redo" if verb == "undo" else "undo"]
        wanted = before
        while source and wanted == before:
            came, went = source.pop()
            wanted = before - came | went
            if wanted != before:
                target.append((wanted - before, before - wanted))
        getattr(self.buffer, verb)()
        self.is_new = True
        self.case.assertEqual(shown_names(self.text), wanted)


class AtRandom(unittest.TestCase):
    @given(steps)
    @tries(150)
    def test_against_plain_ones(self, given_steps: list[tuple[str, int, int, str]]) -> None:
        player = Player(self)
        for step in given_steps:
            player.step(*step)
        player.binding.close()
        player.text.close()
        player.other.close()

    def test_with_another_thread(self) -> None:
        for _ in range(10):
            text, other = pair()
            buffer = Buffer(multiline=True)
            binding = BufferBinding(text, buffer)

            def types() -> None:
                binding._thread = 0
                for at in range(60):
                    buffer.insert_text("abc"[at % 3])
                    if at % 7 == 6:
                        buffer.delete_before_cursor(1)
                    if at % 11 == 10:
                        binding.refresh()

            def brings() -> None:
                for at in range(60):
                    for message in other.insert(at // 2, "."):
                        text.take(message)

            with often_switching():
                side_by_side(types, brings)
            binding.refresh()
            typed = "".join(letter for at, letter in enumerate("abc" * 20) if at % 7 != 6)
            self.assertEqual(buffer.text, str(text))
            # All that was typed is there in its order, and the cursor is where the typing goes on.
            self.assertEqual(buffer.text.replace(".", ""), typed)
            self.assertEqual(buffer.text[:buffer.cursor_position].rstrip("."), buffer.text.rstrip("."))
            binding.close()
            text.close()
            other.close()


ranges = st.lists(st.builds(NameRange, st.integers(1, 2), st.integers(0, 30), st.integers(0, 9)), max_size=6)


class Names(unittest.TestCase):
    @given(ranges, ranges)
    def test_sets_of_names(self, one: list[NameRange], other: list[NameRange]) -> None:
        def each(found: list[NameRange]) -> list[tuple[int, int]]:
            return [(it.site, at) for it in found for at in range(it.offset, it.offset + it.length)]

        self.assertEqual(each(names.united(one)), sorted({*each(one)}))
        left = names.without(names.united(one), names.united(other))
        self.assertEqual(each(left), sorted({*each(one)} - {*each(other)}))
        self.assertEqual(names.united(left), left)


if __name__ == "__main__":
    unittest.main()
