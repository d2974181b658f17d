"""Sites that share a note show the same, however their entries come."""
import random

from share.format.entry import Entry
from share.tests.support import Case, Pair, edit_at_random, plain_text
from share.text.change import change, change_of_words
from share.text.delta import in_text, of_changes, transformed
from share.text.units import UNITS

EDITS = 600
OFFLINE = range(200, 400)


class SameText(Pair):
    """Three sites edit at random; one is offline for 200 edits, one joins late, and entries come shuffled and
    repeated."""

    def test_at_random(self) -> None:
        chance = random.Random(1)
        self.notes.append(self.joined())
        held: list[list[Entry]] = [[] for _ in self.notes]
        sent = [0 for _ in self.notes]
        for turn in range(EDITS):
            for number, note in enumerate(self.notes):
                edit_at_random(note, chance)
                if number == 0 and turn in OFFLINE:
                    continue
                made = note.session.made[sent[number]:]
                sent[number] += len(made)
                for other in held:
                    other += made
                if turn % 7 == number:
                    chance.shuffle(held[number])
                    note.session.coming = held[number][:100]
                    held[number] = held[number][100:] + note.session.coming[:5]
                    note.take_in()
                    self.assertEqual(bytes(note.text), note.session.text())
        self.notes.append(self.joined())
        self.meet()
        counted = self.notes[3].session.judge.let_through_in_order()
        text = plain_text(counted)
        self.assertGreater(len(text), 1_000)
        text.decode()
        for note in self.notes:
            self.assertEqual(bytes(note.text), text)
            self.assertEqual(note.session.status().waiting, 0)
        for message in counted:
            message.data.decode()


class TakingBack(Pair):
    """A site takes back its own last edits, and nobody else's."""

    def test_one_edit_after_the_other(self) -> None:
        one, _ = self.notes
        one.type("é")
        one.type("ab\n")
        one.type("cd")
        one.erase(2, 3)
        one.erase(0, 3)
        self.shows("\rcd")
        for words in "éb\rcd", "éab\rcd", "éab\r", "":
            self.assertTrue(one.take_back())
            self.shows(words)
        self.assertFalse(one.take_back())

    def test_both_deleted_the_same(self) -> None:
        one, two = self.notes
        one.type("abcd")
        self.meet()
        one.erase(1, 3)
        two.erase(2, 4)
        self.shows("a")
        self.assertTrue(one.take_back())
        self.shows("abc")
        self.assertTrue(two.take_back())
        self.shows("abcd")

    def test_another_types_into_what_is_taken_back(self) -> None:
        one, two = self.notes
        one.type("mine")
        self.meet()
        two.moved_to(2)
        two.type("yours")
        two.erase(0, 1)
        self.shows("iyoursne")
        self.assertTrue(one.take_back())
        self.shows("yours")
        self.assertFalse(one.take_back())
        self.assertTrue(two.take_back())
        self.assertTrue(two.take_back())
        self.shows("m")


class Changes(Case):
    """What a message changed is found by common ends, and positions follow it."""

    def test_a_change_gives_the_text_after(self) -> None:
        chance = random.Random(3)
        for _ in range(2_000):
            before = "".join(chance.choices("aé🎉\r", k=chance.randrange(12)))
            begin = chance.randrange(len(before) + 1)
            end = chance.randrange(begin, len(before) + 1)
            after = before[:begin] + "".join(chance.choices("aè🎊", k=chance.randrange(4))) + before[end:]
            data = before.encode()
            found = change(data, after.encode())
            self.assertEqual(data[:found.begin] + found.new + data[found.end:], after.encode())
            found.new.decode()
            data[:found.begin].decode()

    def test_what_is_typed_between_words_meanwhile_is_in_no_word(self) -> None:
        chance, units = random.Random(4), UNITS["utf-8"]

        def some_words() -> bytes:
            return "".join(chance.choice(["old", "on", "é", "oldest"]) + chance.choice(" \r") for _ in range(chance.randrange(8))).encode()

        for _ in range(2_000):
            before, after = some_words(), some_words()
            begin = chance.choice([0, *(place + 1 for place, one in enumerate(before) if one in b" \r")])
            one = change_of_words(before, after)
            self.assertEqual(before[:one.begin] + one.new + before[one.end:], after)
            known = of_changes([(one.begin, one.end, one.new)], units)
            typed, _ = transformed(of_changes([(begin, begin, b"new ")], units), known, units)
            (place, _, data), = in_text(typed, units)
            self.assertEqual(sorted((after[:place] + data + after[place:]).split()), sorted([*after.split(), b"new"]))
        # Where there are no words it is as short as it can be.
        before, after = b"x" * 300, b"x" * 150 + b"y" * 9 + b"x" * 150
        self.assertEqual(change_of_words(before, after), change(before, after))

    def test_a_position_stays_behind_its_character(self) -> None:
        text = b"x" * 5_000 + b"here" + b"y" * 5_000
        self.assertEqual(change(text, text[:100] + b"more" + text[100:]).moved(5_002), 5_006)
        self.assertEqual(change(text, text[:100] + text[140:]).moved(5_002), 4_962)
        self.assertEqual(change(text, text[:9_000] + b"more" + text[9_000:]).moved(5_002), 5_002)
        self.assertEqual(change(text, text[:4_990] + text[5_010:]).moved(5_002), 4_990)
