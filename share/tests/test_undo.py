"""What an engine takes back as one edit, and what it does again."""
import json
import os
import random
from unittest import mock

from share.engine import coalescing, extents
from share.engine.extents import Extents
from share.tests.editors import EngineHere
from share.text.change import Change
from share.text.line import Line


class Coalesced(EngineHere):
    """Keys that are one edit of undo."""

    def types(self, *keys: str, seconds: float = 0.1, **more: object) -> None:
        """Types keys at the end, so long after one another."""
        _, mirror, _, _ = self.editors[0]
        for key in keys:
            self.now += seconds
            end = mirror.units.count(mirror.units.encode(mirror.text))
            mirror.edit([(end, end, key)], **more)
            self.meet()

    def changes(self, begin: int, end: int, text: str, seconds: float = 0.1, **more: object) -> None:
        """Has a stretch give way to a text, so long after what was before."""
        self.now += seconds
        self.editors[0][1].edit([(begin, end, text)], **more)
        self.meet()

    def leaves(self, *texts: str) -> None:
        """That one undo after the other leaves these texts, and the last one nothing to take back; and all is done again."""
        before = [self.editors[0][1].text]
        for text in texts:
            self.assertTrue(self.asks(0, "undo")["done"])
            self.shows(text)
            before.append(text)
        self.assertFalse(self.asks(0, "undo")["done"])
        for text in reversed(before[:-1]):
            self.assertTrue(self.asks(0, "redo")["done"])
            self.shows(text)

    def test_sentences_after_pauses_are_edits_of_their_own(self) -> None:
        for sentence in "One here. ", "Two there. ", "And 🍰.":
            self.now += 1.2
            self.types(*sentence)
        self.leaves("One here. Two there. ", "One here. ", "")

    def test_a_second_of_silence_ends_an_edit(self) -> None:
        self.types("a", "b", "c", seconds=0.99)
        self.types("d", seconds=1.01)
        self.types("e", seconds=0.99)
        self.leaves("abc", "")

    def test_an_edit_has_twenty_keys(self) -> None:
        self.types(*"abcdefghijklmnopqrstuvwxyz é漢🎉")
        self.leaves("abcdefghijklmnopqrst", "")

    def test_a_line_end_ends_an_edit(self) -> None:
        self.types(*"one\n", *"two", "\n  ", *"three")
        self.leaves("one\ntwo\n  ", "one\n", "")

    def test_what_is_put_at_once_is_no_key(self) -> None:
        self.types("a", "b", "put in one go, more than keys are", "c")
        self.leaves("abput in one go, more than keys are", "ab", "")

    def test_what_was_gathered_while_the_engine_was_slow_are_keys(self) -> None:
        self.types("a", "bcd", "efghijk", "lmnopqrst", "uv", "w")
        self.leaves("abcdefghijklmnopqrst", "")

    def test_elsewhere_another_edit_begins(self) -> None:
        self.types(*"ab")
        self.changes(0, 0, "x")
        self.changes(1, 1, "y")
        self.editors[0][1].edit([(4, 4, "c")])
        self.leaves("xyab", "ab", "")

    def test_where_the_cursor_went_and_came_back_another_edit_begins(self) -> None:
        self.types(*"ab")
        for at in 1, 2:
            self.asks(0, "cursor", version=0, at=at)
        self.types(*"cd")
        self.leaves("ab", "")

    def test_keys_that_delete_are_one_edit(self) -> None:
        self.types("abcdefgh", join=False)
        # Backspace three times, Delete twice at the same place, then a key, and a stretch.
        for begin in 5, 4, 3:
            self.changes(begin, begin + 1, "")
        for _ in range(2):
            self.changes(3, 4, "")
        self.changes(3, 3, "x")
        self.changes(1, 3, "")
        self.changes(0, 1, "")
        self.leaves("ax", "abcx", "abc", "abcdefgh", "")

    def test_what_is_typed_over_a_selection_is_one_edit(self) -> None:
        self.types("one two three", join=False)
        self.changes(4, 7, "2")
        self.changes(5, 5, ".")
        self.changes(0, 3, "words")
        self.changes(5, 5, "!")
        self.leaves("words 2. three", "one 2. three", "one two three", "")

    def test_others_text_before_it_ends_no_edit(self) -> None:
        self.types(*"ab")
        self.editors[1][1].edit([(0, 0, "> ")])
        self.meet()
        self.types(*"cd")
        self.leaves("> ")

    def test_an_editor_may_say_what_is_one_edit(self) -> None:
        self.types("a", "b", join=False)
        self.types("c", seconds=5, join=True)
        self.leaves("a", "")

    def test_a_person_can_have_a_longer_pause(self) -> None:
        for words, seconds in ("3.5", 3.5), ("0", 0.0), ("", 1.0), ("soon", 1.0):
            with mock.patch.dict(os.environ, VIALSHOAL_PAUSE=words):
                self.assertEqual(coalescing.pause_seconds(), seconds)


class Within(EngineHere):
    """Undo within a stretch of the text."""

    def edits(self, number: int, *changes: tuple[int, int, str]) -> None:
        """Has an editor make each change as an edit of its own."""
        for change in changes:
            self.editors[number][1].edit([change], join=False)
            self.meet()

    def undoes(self, begin: int, end: int, text: str, what: str = "undo") -> None:
        """That the first editor's last edit within a stretch is taken back; an unchanged text says that there was none."""
        before = self.editors[0][1].text
        answer = self.asks(0, what, version=self.editors[0][1].version, begin=begin, end=end)
        self.assertEqual(answer["done"], text != before)
        self.shows(text)

    def test_the_last_edit_that_lies_there(self) -> None:
        self.edits(0, (0, 0, "one\n"), (4, 4, "two\n"), (8, 8, "three\n"), (0, 3, "1"), (2, 5, "2"))
        self.edits(1, (0, 0, "> "), (2, 2, "> "))
        self.assertEqual(self.editors[0][1].text, "> > 1\n2\nthree\n")
        self.undoes(8, 14, "> > 1\n2\n")
        self.undoes(4, 5, "> > one\n2\n")
        # Not all of what is left lies there.
        self.undoes(4, 6, "> > one\n2\n")
        self.undoes(0, 9, "> > one\ntwo\n")
        self.undoes(0, 12, "> > one\n")
        self.undoes(4, 8, "> > ")
        self.undoes(0, 4, "> > ")
        for text in "one\n", "one\ntwo\n", "one\n2\n", "1\n2\n", "1\n2\nthree\n":
            self.assertTrue(self.asks(0, "redo")["done"])
            self.shows(f"> > {text}")

    def test_what_was_deleted_comes_back_where_it_was(self) -> None:
        self.edits(0, (0, 0, "abcdef"), (1, 2, ""), (3, 4, ""))
        self.assertEqual(self.editors[0][1].text, "acdf")
        self.edits(1, (2, 2, "yours"))
        self.undoes(2, 7, "acyoursdf")
        self.undoes(0, 2, "abcyoursdf")
        self.undoes(8, 10, "abcyoursdef")

    def test_the_cursor_stays_and_nobody_elses_edit_goes(self) -> None:
        self.edits(1, (0, 0, "theirs "))
        self.edits(0, (7, 7, "mine"), (0, 0, "x"))
        self.editors[0][3].append(json.dumps({"do": "undo", "version": self.editors[0][1].version, "begin": 8, "end": 12}).encode())
        changes = [line for line in self.meet()[0] if line.get("notice") == "changes"]
        self.assertEqual(["cursor" in line for line in changes], [False])
        self.shows("xtheirs ")
        self.undoes(1, 8, "xtheirs ")

    def test_a_stretch_that_is_none(self) -> None:
        self.edits(0, (0, 0, "abc"))
        wrong: list[tuple[Line, str]] = [({"begin": 0, "end": 9}, "outside"), ({"begin": 0}, "field"),
                                         ({"begin": "a", "end": 1}, "field"), ({"begin": 0, "end": 1, "version": 70}, "version")]
        for more, code in wrong:
            self.assertEqual(self.asks(0, "undo", **{"version": 0} | more)["error"], code)
        self.undoes(2, 1, "abc")
        self.undoes(0, 3, "")

    def test_what_is_forgotten_lies_nowhere(self) -> None:
        with mock.patch.object(extents, "MOST_CHANGES", 4):
            self.edits(0, (0, 0, "a"), (1, 1, "b"))
            self.edits(1, (0, 0, "x"), (0, 0, "x"), (0, 0, "x"))
            self.undoes(0, 5, "xxxa")
            self.undoes(0, 4, "xxxa")
        self.assertTrue(self.asks(0, "undo")["done"])
        self.shows("xxx")

    def test_at_random(self) -> None:
        chance, compared = random.Random(5), 0
        for _ in range(1_000):
            one = Extents()
            size, marks = 60, list(range(60))
            wanted: dict[int, bool] = {}
            # Each byte of the stretch is known by a number, which tells what it becomes.
            stretch = range(20, 40)
            for step in range(8):
                begin = chance.randrange(size + 1)
                end = min(size, begin + chance.choice((0, 0, 2, 9)))
                with one.are_of(step):
                    one.changed(Change(begin, end, b"x" * (many := chance.choice((0, 1, 5)))))
                inside = [place for place, mark in enumerate(marks) if mark in stretch]
                marks[begin:end] = [-1] * many
                size = len(marks)
                if inside and inside[0] < begin and end <= inside[-1]:
                    wanted[step] = True
                    marks[begin:begin + many] = [20] * many
                elif not inside or end < inside[0] or begin > inside[-1] + 1:
                    wanted[step] = False
                else:
                    # At an edge, where it may be either.
                    break
            else:
                left = [place for place, mark in enumerate(marks) if mark in stretch]
                found = one.within(left[0], left[-1] + 1)
                self.assertEqual({step: step in found for step in wanted}, wanted)
                compared += 1
        self.assertGreater(compared, 100)


if __name__ == "__main__":
    import unittest
    unittest.main()
