"""A byte of a note's file is changed by another program at each step of an own write, in turn at places all over the file: all that was
typed is there as soon as the next key is answered.

    SHARE_STRIDE=1 share/tests/run test_damage_anywhere
"""
import os
import unittest

from share.tests import test_damage
from share.tests.support import Case

# How many bytes further the next one is changed.
STRIDE = int(os.environ.get("SHARE_STRIDE", "64"))


class Anywhere(Case):
    """A note that one person types into."""

    def test_of_any_byte_costs_nothing(self) -> None:
        within = test_damage.WithinAnOwnWrite()
        within.folder = self.folder
        self.addCleanup(within.doCleanups)
        person, note = within.begun("data")
        told = test_damage.damaged(within, person, note, STRIDE, test_damage.STEPS)
        print(f"a byte in {STRIDE}, at each of {len(test_damage.STEPS)} steps: {told} times told, 0 lost", flush=True)
        self.assertGreater(told, 0)


if __name__ == "__main__":
    unittest.main()
