"""What one puts directly before or behind a passage that another one rewrites stands before or behind it, in whatever order all
arrives."""
import itertools
import random
import shutil
import unittest

from share.cli.line_changes import line_changes
from share.format.entry import Plain
from share.program.replay import as_line, steps
from share.program.site import Rewrite, one_by_one
from share.tests.crossing import Editor, Writer, settled
from share.tests.note import Note
from share.tests.servers import FileLog
from share.tests.support import Case, Person, take, type_at_the_end, wait_for, written
from share.text.graphemes import inside
from share.text.rope import readable, swapped

# Graphemes: letters, what lines are made of, several code points that are seen as one.
GRAPHEMES = ["p", "q", "r", " ", " ", "\n", "é", "e\u0301", "漢", "🎉", "👍🏽", "👩‍👧", "🇩🇪", "\r\n"]
PASSAGE = "Old words."
WAYS = ["one change", "two changes", "cut, then type", "backspace", "delete", "halves"]


def parted(passage: str) -> tuple[str, str]:
    """The parts of a passage before and behind what is put in its place."""
    data = swapped(passage.encode())
    at, _ = inside(data)
    return readable(swapped(data[:at])), readable(swapped(data[at:]))


class Rewriting(unittest.TestCase):
    """Three people, each with two editors."""

    def setUp(self) -> None:
        self.chance = random.Random(self.id())
        self.writers = [Writer(Plain(bytes(16)), number, self.chance) for number in (1, 2, 3)]
        for writer in self.writers:
            self.addCleanup(writer.session.close)
        self.first, self.second, self.third = [writer.editors[0] for writer in self.writers]
        # The editors that do something yet in the text that they show.
        self.goes_on = list[Editor]()

    def begin(self, passage: str) -> None:
        """Makes a passage, between « and », that all show."""
        self.first.edit(0, len(self.first.hand.text), f"«{passage}»")
        settled(self.writers)

    def random_passage(self) -> str:
        """Makes a passage, of which perhaps the end was typed first."""
        graphemes = self.chance.choices(GRAPHEMES, k=self.chance.randint(2, 5))
        # Two flags, or line ends, next to each other would be one.
        passage = "".join(one for one, _ in itertools.groupby(graphemes)) if len({*graphemes}) > 1 else "pq"
        self.begin(passage)
        if self.chance.random() < 0.5:
            at = self.chance.randrange(len(passage) + 1)
            self.first.edit(1, 1 + len(passage), "")
            self.first.edit(1, 1, passage[at:])
            self.first.edit(1, 1, passage[:at])
            settled(self.writers)
        return passage

    def rewrite(self, editor: Editor, passage: str, new: str, way: str) -> None:
        """Rewrites the passage in one of the ways in which that is done."""
        end, half = 1 + len(passage), 1 + len(passage) // 2
        if way == "one change":
            return editor.edit(1, end, new)
        if way == "two changes":
            return editor.edits([(1, end, ""), (1, 1, new)])
        for begin, last in {"cut, then type": [(1, end)], "halves": [(half, end), (1, half)], "delete": [(1, 2)] * len(passage),
                            "backspace": [(at - 1, at) for at in range(end, 1, -1)]}[way]:
            editor.edit(begin, last, "")
        for letter in new:
            self.something_arrives()
            editor.edit(editor.at(), editor.at(), letter)
        return None

    def something_arrives(self) -> None:
        """Some of what is on its way arrives, but nothing at an editor that goes on in what it shows."""
        writer, other = self.chance.choices(self.writers, k=2)
        editor, what = self.chance.choice(writer.editors), self.chance.choice(["request", "notice", "entries", "nothing"])
        if what == "request":
            editor.asks()
        elif what == "notice" and editor not in self.goes_on:
            editor.reads()
        elif what == "entries":
            writer.hears(other.session.made[:self.chance.randint(1, len(other.session.made))])

    def put(self, editor: Editor, passage: str, word: str) -> None:
        """Puts a word before the passage or, where it begins with >, behind it."""
        assert editor.engine.session
        if not word.startswith(">"):
            editor.edit(1, 1, word)
        elif f"{passage}»" in readable(swapped(editor.engine.session.text())):
            # Behind what the engine doesn't have any more it can't put anything.
            editor.edit(1 + len(passage), 1 + len(passage), word)
            editor.asks()

    def test_what_stands_beside_a_passage_that_is_rewritten(self) -> None:
        for number in range(60):
            passage, way = self.random_passage(), WAYS[number % len(WAYS)]
            editors = [editor for writer in self.writers for editor in writer.editors]
            words = self.chance.sample(["x<", "y<", "z<", ">x", ">y", ">z"], 3) + ["NEW"]
            self.goes_on = self.chance.sample(editors, len(words))
            self.chance.shuffle(words)
            for editor, word in zip([*self.goes_on], words):
                if word == "NEW":
                    self.rewrite(editor, passage, word, way)
                else:
                    self.put(editor, passage, word)
                self.goes_on.remove(editor)
                self.something_arrives()
            with self.subTest(number, passage=passage, way=way, words=words):
                self.assertRegex(settled(self.writers), r"\A«([xyz]<)*NEW(>[xyz])*»\Z")

    def test_passages_of_one_to_three_graphemes(self) -> None:
        for graphemes, way in itertools.product((["p"], ["👩‍👧"], ["e\u0301"], ["p", "q"], ["e\u0301", "🎉"], ["🇩🇪", "\n", "q"]), WAYS):
            passage = "".join(graphemes)
            self.begin(passage)
            self.put(self.second, passage, "x<")
            self.put(self.third, passage, ">y")
            self.rewrite(self.first, passage, "NEW", way)
            text = settled(self.writers)
            with self.subTest(passage, way=way):
                if len(graphemes) > 1 or text.startswith("«x<"):
                    self.assertEqual(text, "«x<NEW>y»")
                else:
                    # Of what another puts before a single grapheme nothing says that it stands there.
                    self.assertIn(text, ("«NEWx<>y»", "«NEW>yx<»") if way in WAYS[2:] else ("«NEWx<>y»",))

    def test_what_is_shown_where_the_old_passage_comes_back(self) -> None:
        for passage, way in itertools.product(("pq", "One word.", "Line 1\nline 2\n", "e\u0301🎉"), WAYS[:3]):
            head, tail = parted(passage)
            self.assertTrue(head and tail)
            with self.subTest(passage, way=way):
                # One of two rewrites is taken back.
                self.begin(passage)
                self.rewrite(self.first, passage, "NEW", way)
                self.rewrite(self.second, passage, "ELSE", "one change")
                self.assertIn(settled(self.writers), ("«NEWELSE»", "«ELSENEW»"))
                self.second.undo()
                self.assertEqual(settled(self.writers), f"«{head}NEW{tail}»")
                self.second.undo("redo")
                self.assertIn(settled(self.writers), ("«NEWELSE»", "«ELSENEW»"))
                # A third one who deleted the passage, too, brings it back.
                self.begin(passage)
                self.rewrite(self.first, passage, "NEW", way)
                self.third.edit(1, 1 + len(passage), "")
                self.assertEqual(settled(self.writers), "«NEW»")
                self.third.undo()
                self.assertEqual(settled(self.writers), f"«{head}NEW{tail}»")

    def test_undo_and_redo_keep_what_stands_beside(self) -> None:
        for passage in "pq", "One word.":
            self.begin(passage)
            self.put(self.second, passage, "x<")
            self.put(self.third, passage, ">y")
            self.rewrite(self.first, passage, "NEW", "one change")
            self.assertEqual(settled(self.writers), "«x<NEW>y»")
            self.first.undo()
            self.assertEqual(settled(self.writers), f"«x<{passage}>y»")
            self.first.undo("redo")
            self.put(self.second, "", "z<")
            self.assertEqual(settled(self.writers), "«z<x<NEW>y»")

    def test_what_is_typed_where_something_was_cut_is_taken_back_alone(self) -> None:
        self.begin("One word.")
        self.rewrite(self.first, "One word.", "NEW", "cut, then type")
        self.assertEqual(settled(self.writers), "«NEW»")
        self.first.undo()
        self.assertEqual(settled(self.writers), "«»")
        self.first.undo()
        self.assertEqual(settled(self.writers), "«One word.»")

    def test_many_places_in_one_edit(self) -> None:
        self.begin("foo, foo, bar, foo")
        # As a command that replaces words does, from the last one on; others write before and behind each.
        self.first.edits([(16, 19, "tea"), (6, 9, "tea"), (1, 4, "tea")])
        for editor, word in (self.second, "<"), (self.third, ">"):
            for at in (16, 6, 1):
                place = at + (3 if word == ">" else 0)
                editor.edit(place, place, word)
        self.assertEqual(settled(self.writers), "«<tea>, <tea>, bar, <tea>»")
        self.first.undo()
        self.assertEqual(settled(self.writers), "«<foo>, <foo>, bar, <foo>»")

    def test_the_history_has_it_as_one_step(self) -> None:
        self.first.edit(0, 0, "One word. Two words.")
        self.rewrite(self.first, "One wor", "NEW", "one change")
        settled(self.writers)
        self.rewrite(self.first, "NEWd. Two", "text", "cut, then type")
        self.first.undo()
        settled(self.writers)
        history = self.writers[0].session.site.history
        found = [as_line(one) for one in steps(history, 0, 100)]
        self.assertEqual([(one["typed"], one["deleted"], one["restored"]) for one in found],
                         [(20, 0, 0), (3, 7, 0), (0, 9, 0), (4, 0, 0), (0, 4, 0)])
        self.assertEqual([one["begin"] for one in found[1:]] + [len(history)], [one["end"] for one in found])

    def test_lines_that_a_script_changes(self) -> None:
        old, new = "tea\nOld line.\nmilk\n", "tea\nNew words.\nmilk\n"
        self.first.edit(0, len(self.first.hand.text), old)
        settled(self.writers)
        self.first.edits(line_changes(old, new))
        self.second.edit(4, 4, "Above.\n")
        self.third.edit(13, 13, " More.")
        self.assertEqual(settled(self.writers), "tea\nAbove.\nNew words. More.\nmilk\n")

    def test_an_edit_is_one_entry_and_a_plain_key_one_message(self) -> None:
        self.begin("One word.")
        session = self.writers[0].session
        for edit, kinds in (((1, 10, "NEW"), [1, 2]), ((4, 4, "S"), [1]), ((4, 5, ""), [2]), ((1, 4, ""), [2]), ((1, 1, "T"), [4, 1, 2]),
                            ((2, 2, "o"), [1])):
            entries, messages = len(session.made), len(session.site.history)
            self.first.edit(*edit)
            self.first.asks()
            self.assertEqual(len(session.made), entries + 1)
            self.assertEqual([one.kind for one in session.site.history[messages:]], kinds)


class Anew(Case):
    """Whose number is taken by another makes anew what was rewritten under it, and what is left out is typed again. What somebody
    wrote beside it without the log comes last."""

    def setUp(self) -> None:
        super().setUp()
        self.anna, self.bob, self.carol = self.person("anna"), self.person("bob"), self.person("carol")
        note = self.anna.open(url=self.file_log())
        written(note, f"{PASSAGE}|{PASSAGE}")
        note.session.close()
        for person in self.bob, self.carol:
            note = person.open(link=self.anna.link())
            self.assert_comes_to(note, f"{PASSAGE}|{PASSAGE}".encode())
            type_at_the_end(note, "")
            note.session.close()

    def opened_to_type(self, person: Person) -> Note:
        """The note, as soon as somebody can type."""
        note = person.open()
        wait_for(lambda: (note.take_in(), note.session.status().can_type)[1], "a number")
        return note

    def rewritten(self) -> int:
        """Has Bob rewrite both passages, and Carol write beside each, without the log; Bob's number."""
        log = FileLog(self.folder)
        log.kill()
        bob, carol = self.opened_to_type(self.bob), self.opened_to_type(self.carol)
        size, (at, before) = len(PASSAGE), inside(PASSAGE.encode())
        # The second one is cut, and something typed there.
        names = bob.session.site.names(size + 1 + before, size + 1 + at)
        bob.session.cut(size + 1, 2 * size + 1)
        bob.session.edit(lambda site: site.insert_behind(names, b"NEW", range(size + 1, size + 2))[0])
        bob.session.edit(lambda site: one_by_one(site.replace([Rewrite(0, size, b"NEW", at)])))
        self.assertEqual(bob.session.text().decode(), "NEW|NEW")
        for place, word in (2 * size + 1, ">y"), (size + 1, "x<"), (size, ">y"), (0, "x<"):
            carol.moved_to(place)
            carol.type(word)
        for note in bob, carol:
            note.session.close()
        log.start()
        return bob.session.number

    def test_what_is_made_anew(self) -> None:
        number = self.rewritten()
        take(self.bob, number)
        bob = self.bob.open()
        self.assert_comes_to(bob, b"NEW|NEW")
        written(bob, "")
        self.assertNotEqual(bob.session.number, number)
        bob.session.close()
        carol = self.opened_to_type(self.carol)
        self.assert_comes_to(carol, b"x<NEW>y|x<NEW>y")
        written(carol, "")
        carol.session.close()
        self.assert_comes_to(self.opened(self.bob), b"x<NEW>y|x<NEW>y")

    def test_what_is_left_out_and_typed_again(self) -> None:
        number = self.rewritten()
        bob = self.opened_to_type(self.bob)
        written(bob, "")
        bob.session.close()
        take(self.bob, number)
        shutil.rmtree(self.bob.data)
        carol = self.opened_to_type(self.carol)
        wait_for(lambda: (carol.take_in(), carol.session.lost())[1], "it to be left out")
        carol.session.recover()
        # What its author deleted isn't deleted again.
        self.assertEqual(carol.session.text().decode(), f"x<NEW{PASSAGE}>y|x<NEW{PASSAGE}>y")
        carol.session.close()


if __name__ == "__main__":
    unittest.main()
