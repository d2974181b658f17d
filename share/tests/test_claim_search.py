"""A claim is searched for in a process of its own, past numbers that are taken, and as long as its parent lives."""
import os
import pathlib
import subprocess
import sys
import unittest
from contextlib import suppress
from unittest import mock

from share.format.second.claim import Found, number_of_rank, rank_of
from share.format.second.form import PlainRecords
from share.log.polling import can_read
from share.program.claim_search import ClaimSearch, Taken, searched
from share.program.patience import seen
from share.program.process import TOP
from share.sync.number_search import NumberSearch
from share.tests.waiting import PATIENCE, wait_for
from share.text.errors import Trouble

NOTE, AUTHOR = b"n" * 16, b"a" * 32
# More than anybody finds while a test waits.
MANY_BITS = 60
# Of a processor, about what it takes to begin.
WORKED_SECONDS = 0.2


def is_running(process: int) -> bool:
    """Whether a process is there, and hasn't ended."""
    with suppress(FileNotFoundError, ProcessLookupError):
        return pathlib.Path(f"/proc/{process}/stat").read_text().rpartition(")")[2].split()[0] != "Z"
    return False


class Searches(unittest.TestCase):
    """A process that searches."""

    def search(self, taken: set[int], zero_bits: int) -> ClaimSearch:
        """One that is ended with the test."""
        found = ClaimSearch(NOTE, AUTHOR, taken, zero_bits)
        self.addCleanup(found.close)
        return found

    def test_it_finds_a_claim(self) -> None:
        one = self.search(set(), 8)
        self.assertTrue(can_read(one, PATIENCE))
        found = one.found()
        assert found
        self.assertEqual(number_of_rank(rank_of(NOTE, AUTHOR, found.counter), 8), found.site)
        self.assertEqual(one.found(), found)

    def test_a_taken_number_is_searched_past(self) -> None:
        free = {7, 300, 65_528}
        one = self.search({*range(1, 65_529)} - free, 0)
        self.assertTrue(can_read(one, PATIENCE))
        found = one.found()
        assert found
        self.assertIn(found.site, free)

    def test_who_waits_goes_on_meanwhile_and_ends_it(self) -> None:
        one = self.search(set(), MANY_BITS)
        self.assertFalse(can_read(one, 0.2))
        self.assertIsNone(one.found())
        process = one._process.pid
        one.close()
        self.assertFalse(is_running(process))

    def test_it_ends_with_its_parent(self) -> None:
        words = ("from share.program.claim_search import ClaimSearch; import sys\n"
                 f"one = ClaimSearch({NOTE!r}, {AUTHOR!r}, (), {MANY_BITS})\nprint(one._process.pid, flush=True); sys.stdin.read()")
        with subprocess.Popen([sys.executable, "-B", "-c", words], stdin=subprocess.PIPE, stdout=subprocess.PIPE, cwd=TOP) as parent:
            assert parent.stdout
            process = int(parent.stdout.readline())
            wait_for(lambda: seen(process).seconds >= WORKED_SECONDS, "the search to work")
            self.assertTrue(is_running(process))
            parent.kill()
            parent.wait()
            wait_for(lambda: not is_running(process), "the search to end")

    def test_one_that_found_nothing_is_told(self) -> None:
        one = self.search(set(), MANY_BITS)
        one._process.kill()
        self.assertTrue(can_read(one, PATIENCE))
        self.assertRaisesRegex(Trouble, "found none", one.found)
        with mock.patch.object(sys, "executable", "/nowhere"), self.assertRaisesRegex(Trouble, "No number can be searched"):
            ClaimSearch(NOTE, AUTHOR)

    def test_another_thread_may_ask_as_it_is_closed(self) -> None:
        numbers = NumberSearch(PlainRecords(bytes(32), MANY_BITS))
        numbers.begin(())
        one = numbers._search
        assert one
        # Between two looks at it it is closed.
        with mock.patch.object(NumberSearch, "_search", mock.PropertyMock(side_effect=[one, None]), create=True):
            self.assertFalse(numbers.has_ended())
        one.close()
        self.assertFalse(numbers.has_ended())

    def test_what_is_searched_by_a_parent_that_is_gone(self) -> None:
        self.assertEqual([*searched(NOTE, AUTHOR, set(), 0, os.getppid() + 1)], [])
        found = next(searched(NOTE, AUTHOR, set(), 0, os.getppid()))
        self.assertIsInstance(found, Found)

    def test_taken_numbers_are_bits(self) -> None:
        numbers = {1, 7, 8, 255, 256, 40_000, 65_528}
        taken = Taken(Taken.of(numbers))
        self.assertEqual({number for number in range(65_536) if number in taken}, numbers)


if __name__ == "__main__":
    unittest.main()
