"""The engine of each editor is killed 200 times amid typing: each key is there, once, in order. What is planted is found in its round.

    SHARE_KILLS=200 VIALSHOAL_SEED=7 python3 -B -m share.tests.long.test_engine_often_killed --plant drop
"""
import os
import sys
import unittest

from share.tests import test_engine_killed
from share.tests.killing import Kills
from share.tests.long.ending import print_end, take_plant

KILLS = int(os.environ.get("SHARE_KILLS", "200"))
SEED = int(os.environ.get("VIALSHOAL_SEED", "1"))
PLANT = ""


class OftenKilled(test_engine_killed.EngineKilled):
    """Many rounds, each of which has a kill."""

    seed = SEED

    def rounds(self, kills: Kills) -> None:
        try:
            while kills.kills < KILLS:
                kills.round(PLANT)
        finally:
            print_end(type(kills.writer).__name__, SEED, kills.lines, kills.kills, kills.keys, kills.faults(), unit="keys")
        kills.take_back()


def load_tests(loader: unittest.TestLoader, _: unittest.TestSuite, __: str | None) -> unittest.TestSuite:
    """The runs of this module alone."""
    return loader.loadTestsFromTestCase(OftenKilled)


if __name__ == "__main__":
    PLANT = take_plant(sys.argv)
    unittest.main()
