"""What was taken in past fronts, texts as they were, and texts as files: against plain lists, against fresh texts that took
the same messages, and against the program that plays scripts.

  VIALSHOAL_LIBRARY=library/out/libvialshoal.so python3 -m unittest discover library/python/tests
"""
from __future__ import annotations

import random
import subprocess
import tempfile
import unittest
from pathlib import Path
from typing import Any, Callable, Literal, Union

from hypothesis import given
from hypothesis import strategies as st

from examples import tries
from test_text import IS_BUILT, PROGRAM, Edit, edited, edits, one_edit, put_in, spelled
from vialshoal import Looks, Misused, Name, Past, Place, Refused, Run, Shown, TakingKind, Text

# A site, by its place in a list, edits, or is brought what another one has past its fronts.
Step = tuple[Literal["edit", "bring"], int, int, Edit]
Steps = list[Step]
Fronts = dict[int, int]
steps = st.lists(st.tuples(st.sampled_from(("edit", "edit", "bring")), st.integers(0, 2), st.integers(0, 2), one_edit), max_size=25)
fronts = st.dictionaries(st.integers(1, 4), st.integers(0, 12), max_size=4)


def site_of(message: bytes) -> int:
    return int.from_bytes(message[6:8], "big")


def seq_of(message: bytes) -> int:
    return int.from_bytes(message[8:12], "big")


def beyond(log: list[bytes], after: Fronts) -> list[bytes]:
    return [message for message in log if seq_of(message) > after.get(site_of(message), 0)]


def up_to(log: list[bytes], last: Fronts) -> list[bytes]:
    return [message for message in log if seq_of(message) <= last.get(site_of(message), 0)]


def take_ready(text: Text[Any], messages: list[bytes]) -> None:
    """Has a text take messages, as far as they are ready: what waits as they end builds on what it never gets."""
    for message in messages:
        try:
            text.take(message)
        except Refused as why:
            if why.number != 6:
                raise


class Sites:
    """Texts of some sites, and beside each the plain list of the messages that it took in, in the order of its taking."""

    def __init__(self, count: int) -> None:
        self.texts = [Text(1, site=site) for site in range(1, count + 1)]
        self.logs: list[list[bytes]] = [[] for _ in self.texts]
        # What the program is to be asked for the same, and to answer.
        self.script, self.answers = "", ""

    def edit(self, at: int, edit: Edit) -> None:
        event, messages = edited(self.texts[at], edit)
        self.logs[at] += messages
        self.script += f"{at + 1} {event}\n"

    def bring(self, here: int, there: int) -> None:
        after = self.texts[there].fronts()
        brought = [*self.texts[here].since(after)]
        assert brought == beyond(self.logs[here], after)
        for message in brought:
            assert self.texts[there].take(message).kind is TakingKind.TAKEN
            self.script += f"{there + 1} take 1 {message.hex()}\n"
        self.logs[there] += brought

    def do(self, given_steps: Steps) -> None:
        count = len(self.texts)
        for verb, here, there, edit in given_steps:
            if verb == "edit":
                self.edit(here % count, edit)
            elif here % count != there % count:
                self.bring(here % count, there % count)

    def ask_since(self, at: int, after: Fronts) -> None:
        self.script += f"{at + 1} since 1{worded(after)}\n"
        self.answers += "".join(f"message {message.hex()}\n" for message in self.texts[at].since(after))

    def ask_pack(self, at: int, after: Fronts) -> None:
        self.script += f"{at + 1} pack 1{worded(after)}\n"
        self.answers += "".join(f"chunk {chunk.hex()}\n" for chunk in self.texts[at].pack(after))

    def ask_past(self, at: int, last: Fronts) -> None:
        self.script += f"{at + 1} past 1{worded(last)}\n"
        with self.texts[at].past(last) as past:
            self.answers += f"text {len(past)}{' ' * bool(past)}{printed(bytes(past))}\n"


def worded(asked: Fronts) -> str:
    return "".join(f" {site} {seq}" for site, seq in asked.items())


def printed(shown: bytes) -> str:
    return "".join(chr(byte) if 32 <= byte < 127 and byte != 92 else f"\\{byte:02x}" for byte in shown)


def place_or_number(shown: Shown[Any], name: Name) -> Union[Place, int]:
    try:
        return shown.place(name)
    except Misused as why:
        return why.number


def all_of(shown: Shown[Any], names: list[Name]) -> list[object]:
    """All that can be read of what is shown."""
    length = len(shown)
    ranges = [shown[beg:end] for beg in range(0, length + 1, 3) for end in range(beg, length + 2, 4)]
    return [length, bytes(shown), str(shown), [*shown], ranges, shown[::-2], shown[-1:], shown.runs(), shown.names(0, length),
            [shown[at] for at in range(-length, length)], [place_or_number(shown, name) for name in names]]


class AgainstLists(unittest.TestCase):
    @given(st.integers(2, 3), steps, st.randoms(use_true_random=False))
    @tries(150)
    def test_sites_meet_by_what_they_have_past_fronts(self, count: int, given_steps: Steps, chance: random.Random) -> None:
        sites = Sites(count)
        sites.do(given_steps)
        # In whatever order, once each has gone to each other one through one that has all.
        order = [*range(count)]
        chance.shuffle(order)
        for here in order[1:]:
            sites.bring(here, order[0])
        for there in order[1:]:
            sites.bring(order[0], there)
        first = sites.texts[0]
        for text, log in zip(sites.texts, sites.logs):
            self.assertEqual((bytes(text), text.runs(), text.fronts()), (bytes(first), first.runs(), first.fronts()))
            self.assertEqual([*text.since({})], log)
            self.assertEqual([*text.since(text.fronts())], [])

    @given(edits, fronts)
    @tries(50)
    def test_it_brings_another_to_what_this_one_has(self, given_edits: list[Edit], after: Fronts) -> None:
        with Text(1, site=1) as a, Text(1, site=9) as b:
            log = [message for edit in given_edits for message in edited(a, edit)[1]]
            take_ready(b, up_to(log, after))
            for message in a.since(after):
                self.assertIs(b.take(message).kind, TakingKind.TAKEN)
            self.assertEqual((bytes(b), b.runs(), b.fronts()), (bytes(a), a.runs(), a.fronts()))


class AgainstFreshTexts(unittest.TestCase):
    @given(steps, fronts)
    @tries(150)
    def test_the_past_is_a_text_that_took_the_messages_up_to_it(self, given_steps: Steps, last: Fronts) -> None:
        sites = Sites(3)
        sites.do([*given_steps, ("bring", 1, 0, ("type", 0, 0, b"")), ("bring", 2, 0, ("type", 0, 0, b""))])
        text, log = sites.texts[0], sites.logs[0]
        names = [Name(site, at) for site in range(1, 5) for at in range(put_in(text, site) + 1)]
        with Text(1, site=9) as fresh, text.past(last) as past, Text.load(text.store()) as copy:
            take_ready(fresh, up_to(log, last))
            self.assertIsInstance(past, Past)
            self.assertEqual(all_of(past, names), all_of(fresh, names))
            # It stays when the text changes, and when that is closed.
            text.insert(0, b"later")
            self.assertEqual(all_of(past, names), all_of(fresh, names))
            text.close()
            self.assertEqual(all_of(past, names), all_of(fresh, names))
            with copy.past(copy.fronts()) as all_now:
                self.assertEqual(all_of(all_now, names), all_of(copy, names))

    @given(edits, edits, fronts)
    @tries(100)
    def test_it_counts_as_its_text_does(self, here: list[Edit], there: list[Edit], last: Fronts) -> None:
        with Text(1, site=1, units="code points") as a, Text(1, site=2) as b, Text(1, site=9, units="code points") as fresh:
            a.insert(0, "a\u20acb\U0001f600c")
            for text, given_edits in ((b, here), (b, there)):
                b.merge(a)
                for edit in given_edits:
                    edited(text, edit)
                a.insert(len(a) // 2, "\xe9\u20ac")
            a.merge(b)
            names = [Name(site, at) for site in (1, 2) for at in range(put_in(b, site) + 1)]
            take_ready(fresh, up_to([*a.since({})], last))
            with a.past(last) as past:
                self.assertEqual(all_of(past, names), all_of(fresh, names))


def file_of(text: bytes, runs: list[Run]) -> bytes:
    """A text file, by docs/FORMATS.md."""
    def four(number: int) -> bytes:
        return number.to_bytes(4, "big")

    spelled_runs = [bytes([len(run.font)]) + run.font.encode() + bytes([run.colour, run.offset % 256]) + four(run.end - run.beg)
                    for run in runs]
    return b"OTF1" + four(len(runs)) + b"".join(spelled_runs) + four(len(text)) + text


looks = st.builds(Looks, st.from_regex(r"[A-Za-z][A-Za-z0-9.]{0,30}", fullmatch=True), st.integers(0, 15), st.integers(-128, 127))


class InLooks(unittest.TestCase):
    @given(edits, st.lists(st.tuples(st.integers(0, 2**16), st.binary(max_size=5), looks), max_size=8))
    @tries(100)
    def test_it_is_an_insertion_and_a_change(self, given_edits: list[Edit], put: list[tuple[int, bytes, Looks]]) -> None:
        with Text(1, site=1) as a, Text(1, site=2) as b:
            for edit in given_edits:
                edited(a, edit)
            b.merge(a)
            for one, data, its in put:
                pos = one % (len(a) + 1)
                self.assertEqual(len(a.insert(pos, data, its)), bool(data))
                b.insert(pos, data)
                b.change_looks(pos, pos + len(data), font=its.font, colour=its.colour, offset=its.offset)
                self.assertEqual((bytes(a), a.runs()), (bytes(b), b.runs()))
            self.assertEqual(a.save(), file_of(bytes(a), a.runs()))

    def test_no_looks_are_the_default_ones(self) -> None:
        with Text(1, site=1) as a, Text(1, site=1) as b, Text(1, site=2, units="code points") as c:
            self.assertEqual(a.insert(0, b"Oberon"), b.insert(0, b"Oberon", Looks()))
            self.assertEqual(a.runs()[0].looks, Looks())
            c.insert(0, "\u20ac\u20ac")
            c.insert(1, "\xe9\xe9", Looks(colour=3))
            self.assertEqual([(c[run.beg:run.end], run.looks.colour) for run in c.runs()],
                             [("\u20ac", 1), ("\xe9\xe9", 3), ("\u20ac", 1)])

    def test_a_copy_looks_like_what_it_is_of(self) -> None:
        with Text(1, site=1) as a, Text(2, site=1) as b:
            a.insert(0, b"Oberon")
            a.change_looks(2, 4, font="Syntax12.Scn.Fnt", colour=3)
            for run in a.runs():
                b.insert(run.beg, a[run.beg:run.end], run.looks)
            self.assertEqual((bytes(b), b.runs(), b.save()), (bytes(a), a.runs(), a.save()))


class AgainstTheProgram(unittest.TestCase):
    def setUp(self) -> None:
        if not IS_BUILT:
            self.skipTest("the program isn't built")

    @given(steps, st.lists(st.tuples(st.integers(0, 2), fronts), max_size=6))
    @tries(40)
    def test_past_fronts_and_up_to_them(self, given_steps: Steps, asked: list[tuple[int, Fronts]]) -> None:
        sites = Sites(3)
        sites.do(given_steps)
        for at, named in asked:
            sites.ask_since(at, named)
            sites.ask_pack(at, named)
            sites.ask_past(at, named)
        ran = subprocess.run([PROGRAM, "--count", "3"], input=sites.script, capture_output=True, text=True, check=True)
        lines = [line for line in ran.stdout.splitlines() if line.startswith(("message ", "chunk ", "text "))]
        self.assertEqual(lines, sites.answers.splitlines())

    @given(edits)
    @tries(25)
    def test_texts_are_saved_as_it_stores_them(self, given_edits: list[Edit]) -> None:
        # (a text that begins with the command to store it, which a click does)
        command = b"Edit.Store f\r"
        with Text(1, site=1) as text, tempfile.TemporaryDirectory() as folder:
            text.insert(0, command)
            script = f"1 type 1 0 {spelled(command)}\n"
            for verb, one, two, data in given_edits:
                beg, end = (len(command) + at % (len(text) - len(command) + 1) for at in sorted((one, two)))
                if verb == "looks" and beg < end:
                    text.change_looks(beg, end, colour=one % 16, offset=-3)
                    script += f"1 looks 1 {beg} {end} colour={one % 16} offset=-3\n"
                elif verb != "looks":
                    text.insert(beg, data)
                    script += f"1 type 1 {beg} {spelled(data)}\n"
            script += "1 open user 1\n1 click 0 1\n"
            ran = subprocess.run([PROGRAM], input=script, capture_output=True, text=True, check=True, cwd=folder)
            self.assertEqual(ran.stdout.splitlines()[-1], "ok")
            self.assertEqual((Path(folder) / "f").read_bytes(), text.save())


class StepByStep(unittest.TestCase):
    def test_what_is_taken_in_between_two_steps_comes_last(self) -> None:
        with Text(1, site=1) as a, Text(1, site=2) as b:
            [first], [second] = a.insert(0, b"a"), a.insert(1, b"b")
            messages = a.since({})
            self.assertEqual(next(messages), first)
            [third] = b.insert(0, b"c")
            a.take(third)
            self.assertEqual([*messages], [second, third])
            a.insert(0, b"d")
            self.assertEqual([*messages], [])

    def test_the_fronts_are_read_at_once(self) -> None:
        with Text(1, site=1) as a:
            [_], [second] = a.insert(0, b"a"), a.insert(1, b"b")
            after = {1: 1}
            messages = a.since(after)
            after[1] = 0
            self.assertEqual([*messages], [second])

    def test_edits_in_between_leave_the_messages_as_they_are(self) -> None:
        with Text(1, site=1) as a:
            log = [message for at in range(50) for message in a.insert(at, b"x")]
            for wanted, message in zip(log, a.since({})):
                a.delete(0, 1)
                a.restore()
                self.assertEqual(message, wanted)


class Refusals(unittest.TestCase):
    def refused(self, number: int, call: Callable[[], object]) -> None:
        with self.assertRaises(Refused) as caught:
            call()
        self.assertEqual(caught.exception.number, number)
        self.assertEqual(isinstance(caught.exception, Misused), number > 100)

    def test_each_has_its_number(self) -> None:
        with Text(1, site=1) as text:
            text.insert(0, b"abc")
            for wrong in ({0: 1}, {65536: 1}, {1: -1}, {1: 1 << 32}):
                self.refused(105, lambda: text.since(wrong))
                self.refused(105, lambda: text.past(wrong))
            for none in (Looks("1"), Looks(""), Looks("a" * 32), Looks("\xe9"), Looks(colour=16), Looks(colour=-1), Looks(offset=128)):
                self.refused(105, lambda: text.insert(0, b"x", none))
            self.refused(103, lambda: text.insert(4, b"x", Looks()))
            past, messages = text.past({1: 1}), text.since({})
            self.refused(106, lambda: past.place(Name(1, 3)))
            self.refused(105, lambda: past.place(Name(0, 0)))
            self.refused(103, lambda: past.names(0, 4))
            with self.assertRaises(IndexError):
                past[3]
            past.close()
            self.refused(101, lambda: len(past))
            past.close()
        self.refused(101, lambda: next(messages))
        self.refused(101, lambda: text.since({}))
        self.refused(101, lambda: text.past({}))
        self.refused(101, text.save)

    def test_a_file_takes_so_much(self) -> None:
        with Text(1, site=1) as text:
            text.insert(0, bytes(1 << 20))
            self.assertEqual(len(text.save()), 35 + (1 << 20))
            text.insert(0, b"x")
            self.refused(13, text.save)


if __name__ == "__main__":
    unittest.main()
