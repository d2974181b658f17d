"""Somebody types in the terminal while the note's engine is killed, again and again: each key is there, once, in order. What is planted
is found.

    VIALSHOAL_KILLS=200 VIALSHOAL_SEED=7 python3 -B -m share.tests.long.test_killed_terminal --plant drop
"""
import os
import random
import sys
import unittest

from share.tests.bursting import faults_of
from share.tests.long.ending import print_end, take_plant
from share.tests.support import Case
from share.tests.typed_terminal import TypedTerminal

KILLS = int(os.environ.get("VIALSHOAL_KILLS", "200"))
SEED = int(os.environ.get("VIALSHOAL_SEED", "1"))
PLANT = ""


class KilledWhileTyping(Case):
    """One terminal."""

    def test_each_key_is_there_once(self) -> None:
        """However often an engine is killed."""
        terminal = TypedTerminal(self, "data", random.Random(SEED))
        terminal.type_and_kill(KILLS, PLANT)
        found = terminal.quit()
        wanted, there = terminal.typed.split(), found.split()
        print_end("terminal", SEED, 1, terminal.kills, len(wanted), faults_of(wanted, there))
        self.assertEqual(found, terminal.typed)


if __name__ == "__main__":
    PLANT = take_plant(sys.argv)
    unittest.main()
