"""Numbers of sites that are given out: none twice, whoever asks, and whatever ends midway.

  VIALSHOAL_LIBRARY=library/out/libvialshoal.so python3 -m unittest discover library/python/tests
"""
from __future__ import annotations

import random
import subprocess
import sys
import unittest

from hypothesis import given
from hypothesis import strategies as st

from examples import tries
from test_kept import InAFolder, full_at
from test_threads import side_by_side
from vialshoal.site_numbers import SiteNumbers

# A program that asks for numbers for ever, and says each.
ASKS = """
import sys
from vialshoal.site_numbers import SiteNumbers
while True:
    print(SiteNumbers(sys.argv[1]).give("a program"), flush=True)
"""


class Given(InAFolder):
    def test_each_is_given_once(self) -> None:
        self.assertEqual([SiteNumbers(self.path).give(to) for to in ("Ann", "Bob's\n phone", "")], [1, 2, 3])
        self.assertEqual(SiteNumbers(self.path).given(), {1: "Ann", 2: "Bob's phone", 3: ""})
        self.assertEqual(self.path.read_bytes(), b"00001 Ann\n00002 Bob's phone\n00003 \n")

    def test_ranges_go_on_where_the_last_number_was(self) -> None:
        some = SiteNumbers(self.path, range(100, 103))
        self.assertEqual([some.give(), SiteNumbers(self.path, range(50, 200)).give(), some.give()], [100, 101, 102])
        self.assertRaisesRegex(LookupError, "each of 100 to 102 is given", some.give)
        self.assertEqual(SiteNumbers(self.path, range(65535, 65536)).give(), 65535)
        self.assertRaises(LookupError, SiteNumbers(self.path).give)
        for wrong in (range(0, 5), range(5, 5), range(1, 9, 2), range(65530, 65537)):
            self.assertRaises(ValueError, SiteNumbers, self.path, wrong)

    @given(st.lists(st.one_of(st.binary(max_size=8), st.integers(0, 12)), max_size=12))
    @tries(100)
    def test_none_that_stands_whole_is_given_again_whatever_is_torn(self, ends: list[bytes | int]) -> None:
        self.path.write_bytes(b"")
        given_out: list[int] = []
        for end in ends:
            whole = self.path.read_bytes()
            number = SiteNumbers(self.path).give("somebody")
            if isinstance(end, bytes):
                # (or a disk that lost power has something else there)
                self.path.write_bytes(whole + end.replace(b"\n", b""))
            elif end:
                # It was ended before it could tell the number, after so many bytes.
                self.path.write_bytes(self.path.read_bytes()[:len(whole) + end])
            else:
                given_out.append(number)
        self.assertEqual(sorted(set(given_out)), given_out)
        self.assertEqual(set(given_out) - set(SiteNumbers(self.path).given()), set())

    def test_a_full_disk_is_told_and_gives_nothing_twice(self) -> None:
        numbers = SiteNumbers(self.path)
        found = [numbers.give()]
        for room in range(7):
            with full_at(self.path.stat().st_size + room):
                self.assertRaises(OSError, numbers.give)
            found.append(numbers.give())
        self.assertEqual(sorted(set(found)), found)


class Asked(InAFolder):
    def test_by_threads(self) -> None:
        found: list[int] = []

        def asks() -> None:
            for _ in range(20):
                found.append(SiteNumbers(self.path).give())

        side_by_side(*[asks] * 4)
        self.assertEqual(sorted(found), [*range(1, 81)])

    def test_by_processes_that_are_killed(self) -> None:
        found, chance = list[int](), random.Random(1)
        for _ in range(2):
            programs = [subprocess.Popen([sys.executable, "-B", "-c", ASKS, str(self.path)], stdout=subprocess.PIPE, text=True)
                        for _ in range(3)]
            for program in programs:
                assert program.stdout
                found += [int(program.stdout.readline()) for _ in range(chance.randrange(1, 20))]
                program.kill()
                found += map(int, program.stdout.read().split("\n")[:-1])
                program.stdout.close()
                program.wait()
        self.assertEqual(len(set(found)), len(found))
        self.assertGreater(SiteNumbers(self.path).give(), max(found))


if __name__ == "__main__":
    unittest.main()
