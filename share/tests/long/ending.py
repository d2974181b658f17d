"""Arguments of long programs, and the line that ends each of their runs."""
import subprocess

from share.tests.bursting import PLANTS, Faults
from share.tests.support import TOP


def take_plant(words: list[str]) -> str:
    """Take `--plant WORD` out of the words of a command line. Return the word: the fault that is planted, or none."""
    if "--plant" not in words:
        return ""
    at = words.index("--plant")
    plant = words[at + 1]
    assert plant in PLANTS, PLANTS
    del words[at:at + 2]
    return plant


def print_end(program: str, seed: int, rounds: int, kills: int, typed: int, faults: Faults, unit: str = "words") -> None:
    """Print what was run and what came of it, in one line."""
    commit = subprocess.run(["git", "rev-parse", "--short", "HEAD"], cwd=TOP, capture_output=True, text=True, check=False).stdout.strip()
    print(f"{program}: commit {commit}, seed {seed}, {rounds} rounds, {kills} kills, {typed} {unit} typed, {faults}", flush=True)
