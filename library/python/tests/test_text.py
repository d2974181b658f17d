"""The package against a plain list, and against the program that plays scripts.

  VIALSHOAL_LIBRARY=library/out/libvialshoal.so python3 -m unittest discover library/python/tests
"""
from __future__ import annotations

import os
import subprocess
import sys
import tempfile
import unittest
from pathlib import Path
from typing import Optional
from unittest import mock

from hypothesis import given
from hypothesis import strategies as st

from examples import tries
from vialshoal import _library as library
from vialshoal import ChangeKind, Misused, Name, NameRange, Refused, Replacement, TakingKind, Text

TOP = Path(__file__).resolve().parents[3]
sys.path.insert(0, str(TOP))

from tools.packed.packed import pack

PROGRAM = os.environ.get("VIALSHOAL_PROGRAM", str(TOP / "bin" / "built"))
# (what runs it is there in any case)
IS_BUILT = subprocess.run([PROGRAM, "--help"], capture_output=True).returncode == 0

Edit = tuple[str, int, int, bytes]
one_edit = st.tuples(st.sampled_from(("type", "cut", "looks", "recall", "restore", "hide", "show")), st.integers(0, 2**16),
                     st.integers(0, 2**16), st.binary(max_size=6))
edits = st.lists(one_edit, max_size=30)


def spelled(data: bytes) -> str:
    return "".join(f"\\{byte:02x}" for byte in data)


def put_in(text: Text[bytes], site: int) -> int:
    """How many characters a site ever put into a text."""
    count = 0
    try:
        while text.place(Name(site, count)):
            count += 1
    except Misused:
        pass
    return count


def edited(text: Text[bytes], edit: Edit) -> tuple[Optional[str], list[bytes]]:
    """Does an edit, and answers the event that does it too, if there is one, and the messages."""
    verb, one, two, data = edit
    beg, end = sorted((one % (len(text) + 1), two % (len(text) + 1)))
    if verb == "type":
        return f"type 1 {beg} {spelled(data)}", text.insert(beg, data)
    if verb == "cut":
        return f"cut 1 {beg} {end}", text.delete(beg, end)
    if verb == "looks":
        return f"looks 1 {beg} {end} colour={one % 16} offset=-3", text.change_looks(beg, end, colour=one % 16, offset=-3)
    if verb == "recall":
        return f"recall 1 {beg}", text.recall(beg)
    ever = put_in(text, 1)
    if verb == "hide" and beg < end:
        shown = [NameRange(name.site, name.offset, 1) for name in text.names(beg, end)]
        named = " ".join(f"{it.site} {it.offset} {it.length}" for it in shown)
        return f"delete 1 {named}", text.delete_names(shown)
    if verb == "show" and ever:
        return f"restore 1 1 0 {ever}", text.restore_names([NameRange(1, 0, ever)])
    return "restore 1", text.restore()


def followed(shown: bytes, text: Text[bytes]) -> bytes:
    """What the changes of a text make of what was shown."""
    for change in text.changes():
        if change.kind is ChangeKind.DELETE:
            shown = shown[:change.beg] + shown[change.end:]
        elif change.kind is ChangeKind.INSERT:
            shown = shown[:change.beg] + b"?" * (change.end - change.beg) + shown[change.beg:]
    return shown


class AgainstAList(unittest.TestCase):
    @given(edits)
    @tries(200)
    def test_edits_are_those_of_a_list(self, given_edits: list[Edit]) -> None:
        plain = b""
        with Text(1, site=1) as text:
            for verb, one, two, data in given_edits:
                beg, end = sorted((one % (len(plain) + 1), two % (len(plain) + 1)))
                if verb == "type":
                    text.insert(beg, data)
                    plain = plain[:beg] + data + plain[beg:]
                elif verb == "cut":
                    text.delete(beg, end)
                    plain = plain[:beg] + plain[end:]
                self.assertEqual(bytes(text), plain)
                self.assertEqual(text[beg:end], plain[beg:end])

    @given(edits, edits)
    @tries(100)
    def test_two_that_meet_show_the_same(self, here: list[Edit], there: list[Edit]) -> None:
        with Text(1, site=1) as a, Text(1, site=2) as b, Text(1, site=3) as c:
            sent = [message for edit in here for message in edited(a, edit)[1]]
            back = [message for edit in there for message in edited(b, edit)[1]]
            before = bytes(a)
            a.changes()
            for message in back:
                self.assertIs(a.take(message).kind, TakingKind.TAKEN)
            self.assertEqual(len(followed(before, a)), len(a))
            b.merge(a)
            c.merge(b)
            self.assertEqual((bytes(a), a.runs()), (bytes(b), b.runs()))
            self.assertEqual(bytes(c), bytes(a))
            self.assertEqual(a.front(1), len(sent))
            self.assertEqual(a.fronts(), {site: n for site, n in ((1, len(sent)), (2, len(back))) if n})
            for at, name in enumerate(a.names(0, len(a))):
                place = b.place(name)
                self.assertTrue(place.is_shown and place.pos == at + 1)


class NotingEnds(unittest.TestCase):
    @given(edits, edits)
    @tries(100)
    def test_what_was_reported_gives_way_to_what_is_shown(self, here: list[Edit], there: list[Edit]) -> None:
        with Text(1, site=1) as a, Text(1, site=2) as b:
            for edit in here:
                edited(a, edit)
            with self.assertRaises(Misused):
                a.replacement()
            shown = len(followed(b"", a))
            a.end_noting(shown)
            for edit in there:
                for message in edited(b, edit)[1]:
                    a.take(message)
                self.assertEqual(a.changes(), [])
                self.assertEqual(a.replacement(), Replacement(shown, len(a)))
                shown = len(a)

    def test_it_ends_where_positions_count_bytes(self) -> None:
        with Text(1, site=1, units="code points") as text, self.assertRaises(TypeError):
            text.end_noting()
        with Text(1, site=1) as plain:
            for number in (-1, 1 << 64):
                with self.assertRaises(Misused):
                    plain.end_noting(number)
        with self.assertRaises(Misused):
            plain.end_noting()


class Kept(unittest.TestCase):
    @given(edits, edits)
    @tries(100)
    def test_its_site_goes_on_from_either_form(self, here: list[Edit], there: list[Edit]) -> None:
        with Text(1, site=1) as a, Text(1, site=2) as b:
            for text, other, all_edits in ((a, b, here), (b, a, there)):
                for edit in all_edits:
                    edited(text, edit)
                other.merge(text)
            files = [a.store(), a.store(packed=True)]
            # (the packer in tools/ was written apart from the library)
            self.assertEqual(files[1], b"OTP1\0\1\0\1" + pack([*a.since({})]))
            went_on = []
            for file in files:
                with Text.load(file) as again:
                    self.assertEqual((bytes(again), again.runs(), again.fronts()), (bytes(a), a.runs(), a.fronts()))
                    self.assertEqual(again.names(0, len(again)), a.names(0, len(a)))
                    self.assertEqual([again.store(), again.store(packed=True)], files)
                    self.assertEqual(len(followed(b"", again)), len(a))
                    went_on.append(again.insert(0, b"x"))
            self.assertEqual(went_on, [a.insert(0, b"x")] * 2)

    def test_a_file_that_is_kept_again_is_made_once(self) -> None:
        store = library.long_calls.vialshoal_store
        with Text(1, site=1) as text, mock.patch.object(library.long_calls, "vialshoal_store", wraps=store) as calls:
            text.insert(0, b"x" * 20_000)
            first = text.store()
            self.assertEqual(calls.call_count, 2)
            text.insert(0, b"y")
            self.assertGreater(len(text.store()), len(first))
            self.assertEqual(calls.call_count, 3)

    def test_strings_are_kept_too(self) -> None:
        with Text(1, site=1, units="code points") as a:
            a.insert(0, "na\N{LATIN SMALL LETTER I WITH DIAERESIS}ve")
            with Text.load(a.store(packed=True), units="code points") as again:
                self.assertEqual((str(again), len(again)), (str(a), 5))


class ByNames(unittest.TestCase):
    def test_characters_go_and_come_by_their_names(self) -> None:
        some = [NameRange(1, 4, 2), NameRange(1, 0, 1), NameRange(1, 5, 1)]
        with Text(1, site=1) as a, Text(1, site=2) as b:
            a.insert(0, b"Oberon")
            b.merge(a)
            b.insert(3, b"xx")
            [message] = b.delete_names(some)
            self.assertEqual((bytes(b), b.delete_names(some), b.delete_names([])), (b"bexxr", [], []))
            a.merge(b)
            self.assertIs(a.take(message).kind, TakingKind.REPEAT)
            self.assertEqual(bytes(a), b"bexxr")
            [message] = a.restore_names([NameRange(1, 0, 6)])
            self.assertIs(b.take(message).kind, TakingKind.TAKEN)
            self.assertEqual((bytes(a), bytes(b)), (b"Obexxron", b"Obexxron"))


class AgainstTheProgram(unittest.TestCase):
    @given(edits, edits)
    @tries(25)
    def test_messages_and_text_are_the_programs(self, here: list[Edit], there: list[Edit]) -> None:
        if not IS_BUILT:
            self.skipTest("the program isn't built")
        script, wanted = "", ""
        with Text(1, site=1) as a, Text(1, site=2) as b:
            for site, text, other, all_edits in ((1, a, b, here), (2, b, a, there)):
                for edit in all_edits:
                    event, messages = edited(text, edit)
                    script += f"{site} {event}\n"
                    wanted += "".join(f"{message.hex()}\n" for message in messages)
                    for message in messages:
                        other.take(message)
                        script += f"{3 - site} take 1 {message.hex()}\n"
            shown, files = bytes(a), [a.store(), a.store(packed=True)]
        script += "1 keep 1 f\n1 keep 1 p packed\n1 text 1\n2 text 1\n"
        with tempfile.TemporaryDirectory() as folder:
            ran = subprocess.run([PROGRAM], input=script, capture_output=True, text=True, check=True, cwd=folder)
            self.assertEqual([(Path(folder) / name).read_bytes() for name in ("f", "p")], files)
        lines = ran.stdout.splitlines()
        self.assertEqual("".join(f"{line.split()[2]}\n" for line in lines if line.startswith("send ")), wanted)
        plain = "".join(chr(byte) if 32 <= byte < 127 and byte != 92 else f"\\{byte:02x}" for byte in shown)
        self.assertEqual(lines[-2:], [f"text {len(shown)}{' ' * bool(shown)}{plain}"] * 2)


class Refusals(unittest.TestCase):
    def refused(self, number: int, call: object, *words: object, **named: object) -> None:
        with self.assertRaises(Refused) as caught:
            call(*words, **named)  # type: ignore[operator]
        self.assertEqual(caught.exception.number, number)
        self.assertEqual(isinstance(caught.exception, Misused), number > 100)

    def test_each_has_its_number(self) -> None:
        with Text(1, site=1) as a, Text(2, site=2) as b:
            [message] = a.insert(0, b"abc")
            self.refused(1, b.take, message[:-1])
            self.refused(2, b.take, message)
            self.refused(2, a.merge, b)
            self.refused(13, Text.load, b"none")
            self.refused(13, Text.load, a.store()[:-1])
            self.refused(13, Text.load, a.store(packed=True)[:-1])
            self.refused(13, Text.load, a.store(packed=True) + b"\x0e")
            self.refused(13, Text.load, b"OTS1" + a.store(packed=True)[4:])
            self.refused(103, a.insert, 4, b"")
            self.refused(103, a.insert, -1, b"")
            self.refused(103, a.delete, 2, 1)
            self.refused(106, a.delete_names, [NameRange(1, 0, 1), NameRange(1, 3, 1)])
            self.refused(106, a.restore_names, [NameRange(2, 0, 1)])
            self.refused(105, a.delete_names, [NameRange(1, 0, 0)])
            self.refused(105, a.restore_names, [NameRange(1, 0, 1 << 32)])
            self.refused(105, a.change_looks, 0, 1)
            self.refused(105, a.change_looks, 0, 1, colour=16)
            self.refused(105, a.change_looks, 0, 1, font="1")
            self.refused(105, a.change_looks, 0, 1, offset=128)
            self.refused(106, a.place, Name(2, 0))
            self.refused(105, a.place, Name(0, 0))
            self.refused(105, Text, 0, site=1)
            self.refused(105, Text, 1, site=65536)
            self.assertEqual(bytes(a), b"abc")
        self.refused(101, len, a)
        self.refused(101, a.store)
        self.refused(101, a.store, packed=True)

    def test_a_part_says_how_much_stands(self) -> None:
        with Text(1, site=1) as text:
            text.insert(0, bytes(2**24 - 4096))
            with self.assertRaises(Refused) as caught:
                text.insert(0, bytes(5000))
            self.assertEqual((caught.exception.number, len(caught.exception.messages)), (10, 1))
            self.assertEqual(len(text), 2**24)


if __name__ == "__main__":
    unittest.main()
