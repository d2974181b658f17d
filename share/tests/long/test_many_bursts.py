"""Bursts of 1 to 60 keys in both pages, in a note with looks and remarks, while another person types: each key is there, once, in order.
What is planted is found in its round.

    SHARE_ROUNDS=100 VIALSHOAL_SEED=7 python3 -B -m share.tests.long.test_many_bursts --plant drop
"""
import os
import sys
import unittest

from share.tests import test_bursts
from share.tests.bursting import Bursts
from share.tests.long.ending import print_end, take_plant

ROUNDS = int(os.environ.get("SHARE_ROUNDS", "100"))
SEED = int(os.environ.get("VIALSHOAL_SEED", "1"))
PLANT = ""


def runs(bursts: Bursts) -> None:
    """Does all rounds, and tells what came of them."""
    rounds = 0
    try:
        for rounds in range(1, ROUNDS + 1):
            bursts.round(PLANT)
    finally:
        print_end("bursts", SEED, rounds, 0, bursts.typed, bursts.faults(), unit="keys")


class LongAtRelay(test_bursts.AtRelay):
    """In a relay's page."""

    seed = SEED

    def rounds(self, bursts: Bursts) -> None:
        runs(bursts)


class LongAtEngine(test_bursts.AtEngine):
    """In a local engine's page."""

    seed = SEED

    def rounds(self, bursts: Bursts) -> None:
        runs(bursts)


def load_tests(loader: unittest.TestLoader, _: unittest.TestSuite, __: str | None) -> unittest.TestSuite:
    """The random runs alone."""
    name = "test_bursts_at_random_while_another_types"
    return unittest.TestSuite([LongAtEngine(name), LongAtRelay(name)])


if __name__ == "__main__":
    PLANT = take_plant(sys.argv)
    unittest.main()
