"""The command line of share/tests/run."""
import argparse
import importlib
import os
import pathlib
import random
import tempfile
from collections.abc import Sequence

from share.tests.byte_code import use_byte_code_of
from share.tests.proved_files import make_library, missing_library
from share.tests.runner.counting import count
from share.tests.runner.modules import found, is_long, of_set
from share.tests.runner.repeating import repeat
from tools.gate.packages import INSTALL
from tools.gate.running import SEED_VARIABLE

ABOUT = """Runs the tests of sharing, two modules at a time for each processor, each in a process of its own. A failed test is
run once more, alone; if it passes then, the last lines name it as UNSTEADY. The last line is 'N passed, M failed'."""
# A module of the gate that takes longer is ended, on however busy a machine; the long ones have ten days.
MODULE_SECONDS, LONG_SECONDS = 3_600.0, 864_000.0


def parser() -> argparse.ArgumentParser:
    """Return what reads the words of the command line."""
    words = argparse.ArgumentParser("share/tests/run", description=ABOUT)
    words.add_argument("modules", metavar="MODULE", nargs="*", help="test_x, or test_x:2 over notes of the second form; without one all")
    words.add_argument("--long", action="store_true", help="run the modules of share/tests/long: random runs, storms, kills")
    words.add_argument("--times", type=int, metavar="N", help="run the modules N times; counts and failures are kept in out/tests")
    words.add_argument("--load", type=int, default=0, metavar="N", help="with --times: have N busy processes beside")
    words.add_argument(INSTALL, action="store_true", help="as root, install the Debian packages that are missing, without asking")
    return words


def main(words: Sequence[str]) -> int:
    """Run the modules that are named, or those of a set."""
    given = parser().parse_args(words)
    if given.long:
        # What fails is run once more with the same seed.
        seed = os.environ.setdefault(SEED_VARIABLE, str(random.SystemRandom().randrange(1, 10_000)))
        print(f"share/tests/run: {SEED_VARIABLE}={seed}", flush=True)
    with tempfile.TemporaryDirectory(prefix="share-python-") as name:
        use_byte_code_of(pathlib.Path(name) / "python")
        # Nearly all modules need these: they are loaded once, before each module has a process of its own.
        importlib.import_module("share.tests.support")
        make_library(pathlib.Path(name))
        missing_library()
        modules = [*map(found, given.modules)] or of_set(given.long)
        seconds = LONG_SECONDS if any(map(is_long, modules)) else MODULE_SECONDS
        if given.times:
            return repeat(modules, given.times, given.load, pathlib.Path(name), seconds)
        return count(modules, pathlib.Path(name), seconds)
