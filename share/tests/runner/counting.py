"""Counting a run of modules. A failed test is run once more, alone."""
import pathlib
from collections.abc import Sequence

from share.tests.proved_files import Tally, missing_library
from share.tests.runner.modules import keep_times, longest_first
from share.tests.runner.one_module import Fault, all_tests
from share.tests.runner.side_by_side import results
from tools.gate.running import FAIL, unsteady


def passed_again(faults: Sequence[Fault], folder: pathlib.Path, seconds: float) -> list[Fault]:
    """Run the tests of a module's failures once more, alone. Return the failures that don't come again."""
    wanted = all_tests(faults)
    if not wanted:
        return []
    (result,) = results([faults[0].module], folder, seconds, wanted)
    print(result.output, flush=True)
    failed = all_tests(result.faults)
    are_run = result.passed == len(wanted - failed)
    return [one for one in faults if one.tests and are_run and all(again.tests for again in result.faults) and not one.tests & failed]


def names(faults: Sequence[Fault]) -> list[str]:
    """Return the tests of failures as the last lines name them: without the package, with the form."""
    form = "".join(faults[0].module.partition(":")[1:]) if faults else ""
    return [f"{test.removeprefix('share.tests.')}{form}" for test in sorted(all_tests(faults))]


def count(modules: Sequence[str], folder: pathlib.Path, seconds: float) -> int:
    """Run modules, print their output, and last how many tests passed and failed. Return the status."""
    passed, faults, tally, took = 0, list[Fault](), Tally(), dict[str, float]()
    for one in results(longest_first(modules), folder, seconds):
        print(one.output, flush=True)
        passed, faults, tally = passed + one.passed, [*faults, *one.faults], tally.and_more(one.tally)
        took[one.module] = one.seconds
    keep_times(took)
    steady, last = list[Fault](), list[str]()
    for module in dict.fromkeys(one.module for one in faults):
        of_module = [one for one in faults if one.module == module]
        again = passed_again(of_module, folder, seconds)
        passed += len(all_tests(again))
        last += map(unsteady, names(again))
        steady += [one for one in of_module if one not in again]
    # Once more, so that nobody has to look for them in all the output.
    last += [f"{FAIL}: {fault.words}" for fault in steady]
    print("\n".join([missing_library() or tally.words(), *last, f"{passed} passed, {len(steady)} failed"]), flush=True)
    return 1 if steady or not passed else 0
