"""Notes that are kept in files: against notes in memory, cut off at any byte, on full disks, with bytes of anybody's, by killed programs.

  VIALSHOAL_LIBRARY=library/out/libvialshoal.so python3 -m unittest discover library/python/tests
"""
from __future__ import annotations

import random
import signal
import subprocess
import sys
import unittest
import zlib
from collections.abc import Iterable
from pathlib import Path
from typing import Any

from test_kept import InAFolder, full_at
from test_notes import ANN, BOB, KEY, RANK, opened
from vialshoal import Damaged, Entry, Head, Note, NoteText, Refused

# A program that types and says that, for ever.
TYPES = """
import sys
from vialshoal import Note
with Note.open(sys.argv[1], site=1, key=b"k" * 32, founder=b"A" * 32, number=1) as note:
    text = note.text()
    while True:
        text.insert(len(text), b"0123456789")
        note.say(b"A" * 32)
        print(len(text), flush=True)
"""
# What a file has that Ann has founded as site 1, where Bob has claimed 2 and she has typed "hi" into text 1.
VECTOR = "".join((
    "4f544e3125730964f06acb1b169809682855091a87a061889002876b2a5e3245363f41148a4a203d0000004554ff56f600430142424242424242424242424242",
    "42424242424242424242424242424242424242000272727272727272727272727272727272727272727272727272727272727272720000005e11d11cc9005c02",
    "41414141414141414141414141414141414141414141414141414141414141410000000000000000000000000000000000000000000000000000000000000000",
    "0000000100010001000100004f54433100010f0101010006006869",
))


def of_ann(path: Path, **more: Any) -> Note:
    return Note.open(path, site=1, key=KEY, founder=ANN, number=1, **more)


def shown(note: Note) -> list[bytes]:
    return [bytes(note.text(number)) for number in (1, 2)]


class Files(InAFolder):
    def typed(self, *pieces: bytes) -> list[Entry]:
        """The entries that say what was typed into a kept note, piece by piece."""
        with of_ann(self.path) as note:
            return [entry for piece in pieces for entry in self.say(note, piece)]

    @staticmethod
    def say(note: Note, piece: bytes, author: bytes = ANN, number: int = 1) -> list[Entry]:
        text: NoteText[bytes] = note.text(number)
        text.insert(len(text), piece)
        return note.say(author)

    def test_it_goes_on_as_it_ended(self) -> None:
        chance, other = random.Random(7), opened(2)
        said: list[Entry] = []
        for turn in range(6):
            with of_ann(self.path) as note:
                if not turn:
                    note.claim(BOB, 2, RANK)
                self.assertEqual(note.kept(), said)
                for _ in range(chance.randrange(4)):
                    mine = self.say(note, bytes([97 + turn]) * chance.randrange(1, 50), number=chance.choice((1, 2)))
                    yours = self.say(other, b"B" * chance.randrange(1, 50), BOB)
                    self.give([*yours, *yours], note)
                    self.give(mine, other)
                    said += [*mine, *yours]
                # What wasn't said is gone.
                note.text().insert(0, b"never said")
                note.update()
                shows = shown(note)
            self.assertEqual(shows, shown(other))
        with of_ann(self.path) as note:
            self.assertEqual((shown(note), note.say(ANN)), (shows, []))

    @staticmethod
    def give(entries: Iterable[Entry], note: Note) -> None:
        for entry in entries:
            note.add(entry)
        note.update()

    def test_what_came_again_takes_no_room(self) -> None:
        said = self.typed(b"once", b"twice")
        size = self.path.stat().st_size
        with of_ann(self.path) as note:
            self.give(said, note)
        self.assertEqual(self.path.stat().st_size, size)

    def test_a_file_of_another_note_is_told(self) -> None:
        self.typed(b"hers")
        for other in ({"key": b"q" * 32}, {"founder": BOB}, {"number": 3}, {"base_key": KEY}):
            with self.assertRaisesRegex(ValueError, "another note"):
                Note.open(self.path, **{"site": 1, "key": KEY, "founder": ANN, "number": 1, **other})

    def test_cut_off_at_any_byte_it_has_what_was_whole(self) -> None:
        ends = [self.path.stat().st_size for piece in (b"a", b"bc", b"def") if self.typed(piece)]
        data = self.path.read_bytes()
        for length in range(len(data)):
            with of_ann(self.put(data[:length])) as note:
                whole = sum(end <= length for end in ends)
                self.assertEqual(bytes(note.text()), b"abcdef"[:(0, 1, 3, 6)[whole]])
                # The next one takes the place of what was torn.
                self.say(note, b"!")
            with of_ann(self.folder / "other") as note:
                self.assertEqual(bytes(note.text())[-1:], b"!")

    def test_other_bytes_are_told_or_torn(self) -> None:
        for piece in (b"a", b"bc", b"def"):
            self.typed(piece)
        data = self.path.read_bytes()
        for at in range(len(data)):
            flipped = bytearray(data)
            flipped[at] ^= 1 << at % 8
            path, whole = self.put(bytes(flipped)), b"abcdef"
            try:
                with of_ann(path) as note:
                    self.assertIn(bytes(note.text()), {whole[:many] for many in (0, 1, 3)})
            except ValueError:
                self.assertEqual(path.read_bytes(), flipped)

    def test_whole_batches_behind_one_that_was_changed_are_damage(self) -> None:
        self.typed(*(b"a" * 7_000 for _ in range(4)))
        data = bytearray(self.path.read_bytes())
        # (the length of the first one)
        data[40 + 1] ^= 1
        with self.assertRaises(Damaged):
            of_ann(self.put(bytes(data)))

    def test_what_is_changed_while_it_is_open_is_damage_and_cuts_nothing_off(self) -> None:
        self.typed(b"one")
        with of_ann(self.path) as note:
            self.say(note, b"two")
            size = self.path.stat().st_size
            with self.path.open("r+b") as file:
                file.seek(size - 1)
                file.write(b"?")
            with self.assertRaisesRegex(Damaged, "while it was open"):
                note.kept()
            self.say(note, b"three")
            self.assertGreater(self.path.stat().st_size, size)

    def test_a_body_that_no_file_has_is_refused_at_once(self) -> None:
        with of_ann(self.path) as note:
            with self.assertRaisesRegex(Refused, "no message"):
                note.add(Entry(Head(BOB, bytes(32), 1, 1, 2, 1), bytes(70_000)))
            self.assertEqual([entry.head.author for entry in self.say(note, b"on")], [ANN])

    def test_bytes_of_anybody_are_damage(self) -> None:
        chance = random.Random(3)
        for length in (1, 7, 40, 41, 300):
            with self.assertRaises(Damaged):
                of_ann(self.put(chance.randbytes(length)))
        self.typed(b"a")
        data = self.path.read_bytes()
        # What is whole, but not made of records; and a record that a note refuses.
        for batch in (b"\0\0", b"\0", b"\0\5ab", b"\0\1\2\0"):
            check = zlib.crc32(batch, zlib.crc32(len(batch).to_bytes(4, "big")))
            with self.assertRaises(Damaged):
                of_ann(self.put(data + len(batch).to_bytes(4, "big") + check.to_bytes(4, "big") + batch))
        with of_ann(self.path) as note:
            file = note._file
            assert file
            file.keep([b"\x02" + b"x" * 200])
        with self.assertRaisesRegex(Damaged, "refused"):
            of_ann(self.path)

    def test_records_of_a_later_version_are_left_as_they_are(self) -> None:
        self.typed(b"a")
        with of_ann(self.path) as note:
            assert note._file
            note._file.keep([b"\x03 of later"])
        data = self.path.read_bytes()
        with self.assertRaisesRegex(Damaged, "neither"):
            of_ann(self.path)
        self.assertEqual(self.path.read_bytes(), data)

    def test_on_a_full_disk_nothing_is_said_until_there_is_room(self) -> None:
        said = self.typed(b"before")
        with of_ann(self.path) as note:
            text: NoteText[bytes] = note.text()
            text.insert(6, b", behind")
            with full_at(self.path.stat().st_size + 20), self.assertRaises(OSError):
                note.say(ANN)
            self.assertEqual(note.kept(), said)
            # What wasn't kept isn't taken back.
            with full_at(self.path.stat().st_size + 20), self.assertRaises(OSError):
                note.update()
            self.assertEqual(bytes(text), b"before, behind")
            text.insert(len(text), b"!")
            said += note.say(ANN)
            self.assertEqual(note.kept(), said)
        with of_ann(self.path) as note:
            self.assertEqual(bytes(note.text()), b"before, behind!")

    def test_it_is_open_once(self) -> None:
        with of_ann(self.path), self.assertRaises(BlockingIOError):
            of_ann(self.path)
        with of_ann(self.path) as note:
            self.path.rename(self.folder / "moved")
            note.text().insert(0, b"x")
            with self.assertRaises(FileNotFoundError):
                note.say(ANN)
        with self.assertRaisesRegex(ValueError, "isn't kept"):
            opened(1).kept()

    def test_what_a_killed_program_has_said_is_there(self) -> None:
        signal.signal(signal.SIGXFSZ, signal.SIG_IGN)
        length, chance = 0, random.Random(1)
        for _ in range(4):
            with subprocess.Popen([sys.executable, "-c", TYPES, self.path], stdout=subprocess.PIPE, text=True) as process:
                assert process.stdout
                for _ in range(chance.randrange(1, 9)):
                    told = int(process.stdout.readline())
                process.kill()
                told = max([told, *map(int, process.stdout.read().split("\n")[:-1])])
            with of_ann(self.path) as note:
                now = bytes(note.text())
            self.assertGreaterEqual(len(now), max(told, length))
            self.assertEqual(now, (b"0123456789" * len(now))[:len(now)])
            length = len(now)

    def test_the_bytes_are_these(self) -> None:
        with of_ann(self.path) as note:
            note.claim(BOB, 2, RANK)
            note.update()
            [entry] = self.say(note, b"hi")
        self.assertEqual(entry.head, Head(ANN, bytes(32), 1, 1, 1, 1))
        self.assertEqual(self.path.read_bytes().hex(), VECTOR)


if __name__ == "__main__":
    unittest.main()
