"""Files of texts that C programs keep: what a program that was killed had been told is there, and Python and C open each other's files."""
from __future__ import annotations

import os
import random
import subprocess
import tempfile
import unittest
from pathlib import Path

from vialshoal import Damaged, Text

# What was made of kept.c.
PROGRAM = os.environ["VIALSHOAL_KEPT"]


class Files(unittest.TestCase):
    def setUp(self) -> None:
        folder = tempfile.TemporaryDirectory()
        self.addCleanup(folder.cleanup)
        self.path = Path(folder.name) / "note"

    def in_c(self) -> tuple[int, bytes]:
        """How many operations of site 1 a file has, and what it shows."""
        said = subprocess.run([PROGRAM, "shows", self.path], stdout=subprocess.PIPE, check=True).stdout
        front, _, shown = said.partition(b"\n")
        return int(front), shown

    def test_all_that_a_killed_program_was_told_is_kept_is_there(self) -> None:
        front, chance = 0, random.Random(1)
        for size in (1, 1, 30, 300, 1, 6000):
            with subprocess.Popen([PROGRAM, "types", self.path, str(size)], stdout=subprocess.PIPE, text=True) as process:
                assert process.stdout
                for _ in range(chance.randrange(1, 8)):
                    self.assertTrue(process.stdout.readline(), "the program ended by itself")
                process.kill()
                said = process.stdout.read().split("\n")
            # (the last line may be torn, too)
            front = max([front, *map(int, said[:-1])])
            now, shown = self.in_c()
            self.assertGreaterEqual(now, front)
            front = now
            self.assertEqual(shown, (b"0123456789" * len(shown))[:len(shown)])
            with Text.open(self.path) as text:
                self.assertEqual((text.front(1), bytes(text)), (now, shown))

    def test_each_opens_the_others(self) -> None:
        chance = random.Random(2)
        for turn in range(3):
            with Text.open(self.path, site=1) as text:
                # (so many that the list becomes one packed file)
                for _ in range(90):
                    text.insert(len(text), chance.randbytes(1000))
                shown = bytes(text)
                self.assertEqual(subprocess.run([PROGRAM, "shows", self.path], stderr=subprocess.DEVNULL).returncode, 1)
            self.assertEqual(self.in_c(), (90 * (turn + 1), shown))

    def test_what_one_calls_damaged_so_does_the_other(self) -> None:
        with Text.open(self.path, site=1) as text:
            for _ in range(8):
                text.insert(0, b"abc")
        whole, chance = self.path.read_bytes(), random.Random(3)
        for _ in range(150):
            changed = bytearray(whole[:chance.randrange(len(whole) // 2, len(whole) + 1)])
            for _ in range(chance.randrange(3)):
                changed[chance.randrange(len(changed))] ^= 1 << chance.randrange(8)
            self.path.write_bytes(changed)
            ran = subprocess.run([PROGRAM, "shows", self.path], stdout=subprocess.PIPE, stderr=subprocess.DEVNULL)
            try:
                with Text.open(self.path) as text:
                    self.assertEqual(ran.stdout, b"%d\n%b" % (text.front(1), bytes(text)))
            except Damaged:
                self.assertEqual(ran.returncode, 1)


if __name__ == "__main__":
    unittest.main()
