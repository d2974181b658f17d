"""People with real engines type at one note, over a server and over a log in a file, while at random engines, programs and
servers are killed and stopped, disks fill, clocks go wrong, files are damaged, folders and servers are copied, put back and
exchanged: each word that some disk has stands once, at everybody; what was left out for good is told, and recover --lost brings
it back.

    SHARE_STORM=200 VIALSHOAL_SEED=7 share/tests/run test_storm
    SHARE_STORM=50 SHARE_KINDS=kill,backup,snapshot share/tests/run test_storm
    SHARE_STORM=50 SHARE_KINDS=crash,kill,lose_log share/tests/run test_storm

Where `SHARE_KEEP` names a folder, all files of what went wrong are kept in it, to be looked at by share/tests/trace.py.
"""
import os
import pathlib
import shutil
import subprocess
import unittest

from share.tests.long.storm import DISK_BYTES, Storm
from share.tests.support import Case

ROUNDS = int(os.environ.get("SHARE_STORM", "0"))
SEED = int(os.environ.get("VIALSHOAL_SEED", "1"))
KEEP = os.environ.get("SHARE_KEEP")
KINDS = ["kill", "stop", "stop_program", "stop_log", "kill_log", "lose_log", "dump", "exchange", "backup", "twin", "snapshot", "rejoin",
         "damage", "fill", "clock"]
# What people of a note go through together before another note is begun, and how much they try in a round.
ROUNDS_OF_A_NOTE, STEPS = (5, 60) if ROUNDS else (1, 30)
# What a minute tries of these.
QUICK = [kind for kind in KINDS if kind not in ("snapshot", "stop_program", "clock")]
CHOSEN = os.environ.get("SHARE_KINDS", ",".join(KINDS if ROUNDS else QUICK)).split(",")


class Storms(Case):
    """Rounds, of which each ends with all meeting."""

    def disk(self) -> None:
        """Gives one of the people a disk that can be filled, where that may be."""
        folder = self.folder / "p1"
        folder.mkdir(0o700)
        words = ["mount", "-t", "tmpfs", "-o", f"size={DISK_BYTES},mode=700", "none", str(folder)]
        if os.geteuid() == 0 and shutil.which("mount") and subprocess.run(words, capture_output=True, check=False).returncode == 0:
            self.addCleanup(lambda: subprocess.run(["umount", "-l", str(folder)], check=False))

    def storm(self, seed: int, rounds: int) -> None:
        """Has people of one note go through some rounds."""
        self.disk()
        storm = Storm(self, seed, CHOSEN)
        try:
            for one in storm.people:
                one.open()
            words = 0
            for _ in range(rounds):
                storm.round(STEPS)
                words = len(storm.meet().split())
            storm.printed()
        except AssertionError as why:
            if KEEP:
                storm.keep(pathlib.Path(KEEP, f"seed-{seed}"), str(why))
            raise
        print(f"seed {seed}: {rounds} rounds, {len(storm.told)} mishaps, {words} words, "
              f"{storm.recovered} times typed again", flush=True)

    def test_rounds(self) -> None:
        faults = []
        for seed in range(SEED, SEED + max(2, ROUNDS // ROUNDS_OF_A_NOTE)):
            try:
                self.storm(seed, ROUNDS_OF_A_NOTE)
            except AssertionError as why:
                faults.append(str(why))
                print(why, flush=True)
            self.doCleanups()
            self.setUp()
        self.assertEqual(faults, [])


if __name__ == "__main__":
    unittest.main()
