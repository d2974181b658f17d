"""CriticMarkup: what is written is read back, whatever the text has."""
import os
import random
import unittest

from share.cli.critic import Reviewed, SaidBy, escaped_marks, read, unescaped_marks, written
from share.editors.threads import OPEN
from share.text.errors import Trouble

# What marks are made of, and what only looks so.
PARTS = ["{", "}", "++", "--", "~~", ">>", "<<", "==", "~>", "\\", "+", "-", "~", ">", "<", "=", "{++", "++}", "{==", "==}", "{>>", "<<}",
         ":", " (", ")", '"', ", ", "here", " before", "1 character", "a", "é", "🎉", "\n", "\r\n", " ", "\t", "\0", "\u202e", "suggests "]
ROUNDS = int(os.environ.get("SHARE_ROUNDS", "3000"))


def some_text(choice: random.Random, most: int = 12) -> str:
    """A text that looks like marks."""
    return "".join(choice.choices(PARTS, k=choice.randrange(most)))


def some_name(choice: random.Random) -> str:
    """A name, which has no controls and isn't long."""
    return "".join(letter for letter in some_text(choice) if letter.isprintable())[:40]


def some_said(choice: random.Random) -> SaidBy:
    """Words of somebody."""
    return SaidBy(some_name(choice), some_text(choice))


def some_thread(choice: random.Random, text: str) -> Reviewed:
    """A thread on a text."""
    begin, end = sorted(choice.randrange(len(text) + 1) for _ in "be")
    if choice.random() < 0.3:
        end = begin
    state = OPEN if choice.random() < 0.7 else choice.choice(["resolved", "rejected", "accepted"])
    new = some_text(choice) if choice.random() < 0.5 else None
    return Reviewed(begin, end, new, some_said(choice), state, tuple(some_said(choice) for _ in range(choice.choice([0, 0, 1, 2]))))


def in_order(threads: list[Reviewed]) -> list[str]:
    """Threads in one order."""
    return sorted(map(repr, threads))


class Marks(unittest.TestCase):
    """A text with remarks and suggestions, and back."""

    def test_words_of_the_field(self) -> None:
        ada, bob = SaidBy("Ada", "why?"), SaidBy("Bob", "so")
        text = "tea and jam\nhoney\n"
        for one, wanted in (
                (Reviewed(3, 3, None, ada), "tea{>>Ada: why?<<} and jam\nhoney\n"),
                (Reviewed(4, 7, None, ada, OPEN, (bob, ada)), "tea {==and==}{>>Ada: why?<<}{>>Bob: so<<}{>>Ada: why?<<} jam\nhoney\n"),
                (Reviewed(3, 3, ", milk", ada), "tea{++, milk++}{>>Ada: why?<<} and jam\nhoney\n"),
                (Reviewed(3, 11, "", ada), "tea{-- and jam--}{>>Ada: why?<<}\nhoney\n"),
                (Reviewed(8, 11, "fig", SaidBy("Ada", ""), OPEN, (bob,)), "tea and {~~jam~>fig~~}{>>Ada:<<}{>>Bob: so<<}\nhoney\n"),
                (Reviewed(4, 7, None, ada, "resolved"), "tea {==and==}{>>Ada (resolved): why?<<} jam\nhoney\n"),
                (Reviewed(3, 3, "+", ada, "rejected"), 'tea{>>Ada (rejected, here, suggests "+"): why?<<} and jam\nhoney\n')):
            with self.subTest(wanted):
                self.assertEqual(written(text, [one]), wanted)
                self.assertEqual(read(wanted), (text, [one]))

    def test_overlaps(self) -> None:
        ada, bob = SaidBy("Ada", "why?"), SaidBy("Bob", "so")
        text = "one two three"
        several = [Reviewed(0, 13, None, ada), Reviewed(4, 7, "2", bob), Reviewed(4, 7, "II", ada), Reviewed(4, 5, None, bob)]
        self.assertEqual(written(text, several),
                         "{==one {~~two~>2~~}{>>Bob: so<<}{>>Bob (1 character 3 before): so<<}"
                         '{>>Ada (3 characters before, suggests "II"): why?<<} three==}{>>Ada: why?<<}')
        self.assertEqual(written(text, [Reviewed(3, 3, None, ada), Reviewed(3, 3, None, bob)]),
                         "one{>>Ada: why?<<}{>>Bob (here): so<<} two three")

    def test_what_others_write(self) -> None:
        """Files of people and of other tools have no names, and marks without words."""
        self.assertEqual(read("a {==b==} c{>>hm: <<}{>>so<<} {++d++}{--e--}{~~f~>~~}{++++}{>>see http://x<<}"), ("a b c ef", [
            Reviewed(5, 5, None, SaidBy("hm", ""), OPEN, (SaidBy("", "so"),)), Reviewed(6, 6, "d", SaidBy("", "")),
            Reviewed(6, 7, "", SaidBy("", "")), Reviewed(7, 8, "", SaidBy("", "see http://x"))]))

    def test_what_is_broken(self) -> None:
        for data, words in (("a\nb{++c", "Line 2, column 2: {++ isn't followed by ++}"),
                            ("{~~a~~}", "Line 1, column 1: {~~ has no ~> inside"),
                            ("{==a{++b++}", "Line 1, column 1: {== isn't followed by ==}"), ("{>>a{==", "{>> isn't"),
                            ('{>>A (here, suggests "\\x"): b<<}', "isn't quoted")):
            with self.subTest(data), self.assertRaises(Trouble) as raised:
                read(data)
            self.assertIn(words, str(raised.exception))

    def test_escapes_at_random(self) -> None:
        choice = random.Random(1)
        for _ in range(ROUNDS):
            text = some_text(choice)
            for is_inside in False, True:
                raw = escaped_marks(text, is_inside)
                self.assertEqual(unescaped_marks(raw, is_inside), text)
                for mark in ("{++", "{--", "{~~", "{>>", "{==", *(("++}", "--}", "~~}", "<<}", "==}", "~>") if is_inside else ())):
                    self.assertNotIn(mark, raw)

    def test_round_trips_at_random(self) -> None:
        for seed in range(ROUNDS):
            choice = random.Random(seed)
            text = some_text(choice, 30)
            threads = [some_thread(choice, text) for _ in range(choice.choice([0, 1, 2, 5]))]
            data = written(text, threads)
            now, found = read(data)
            self.assertEqual(now, text, (seed, data))
            self.assertEqual(in_order(found), in_order(threads), (seed, data))

    def test_hostile_bytes_at_random(self) -> None:
        """Whatever a file has, it is read or refused in words, and what was read is written so that it is read again."""
        for seed in range(ROUNDS):
            choice = random.Random(seed)
            data = some_text(choice, 40)
            try:
                text, found = read(data)
            except Trouble:
                continue
            again, also = read(written(text, found))
            self.assertEqual((again, in_order(also)), (text, in_order(found)), (seed, data))


if __name__ == "__main__":
    unittest.main()
