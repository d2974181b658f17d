"""Running one module of tests in this process: passed tests, failures, and descriptors or threads that are left open."""
import faulthandler
import os
import pathlib
import resource
import time
import unittest
from collections.abc import Iterable, Iterator, Sequence
from typing import NamedTuple

from share.tests.forms import FIRST_FORM_ALONE, of_second_form
from share.tests.left_open import left_open, open_now
from share.tests.proved_files import Tallied, Tally

# The most characters of a failure that are printed in its line.
MOST_CHARACTERS = 500


class Fault(NamedTuple):
    """A failure of a module, in a line, and the tests that show whether it comes again; none if that can't be told."""

    module: str
    words: str
    tests: frozenset[str] = frozenset()


class Result(NamedTuple):
    """The result of a module: the number of passed tests, its output, its failures, comparisons with the proved note, and its seconds."""

    module: str
    passed: int
    output: str
    faults: Sequence[Fault]
    tally: Tally = Tally()
    seconds: float = 0


def run(module: str, output: pathlib.Path, only: frozenset[str]) -> Result:
    """Run a module, or some of its tests. A skipped test counts as failed, unless it is of the other form; so does a module that leaves
    something open."""
    with open(output, "w", encoding="utf-8", errors="backslashreplace", buffering=1) as file:
        # If the process is ended, what each thread does is written here.
        faulthandler.enable(file)
        before, began = open_now(), time.monotonic()
        name, _, form = module.partition(":")
        if form:
            of_second_form()
        tests = tests_of(name, only)
        names = frozenset(one.id() for one in each_of(tests))
        result = unittest.TextTestRunner(file, verbosity=2).run(tests)
        of_first_form = [test for test, why in result.skipped if why.startswith(FIRST_FORM_ALONE)]
        skipped = [(test, why) for test, why in result.skipped if test not in of_first_form]
        failed = {str(test): (test, words) for test, words in [*result.failures, *result.errors, *skipped]}
        names -= {test.id() for test in of_first_form}
        faults = [Fault(module, f"{said}: {what_failed(words)}", of_fault(test, names)) for said, (test, words) in failed.items()]
        if left := left_open(before):
            faults.append(Fault(module, f"{module} left {left}", all_tests(faults)))
            file.write(f"FAIL: {faults[-1].words}\n")
        took = time.monotonic() - began
        file.write(f"{module}: {took:.0f} s, {processor_seconds():.0f} of them of a processor\n")
        faulthandler.disable()
    return Result(module, len(names - all_tests(faults)), output.read_text("utf-8"), faults, Tallied.tally, took)


def tests_of(name: str, only: frozenset[str]) -> unittest.TestSuite:
    """Return the tests of a module, or some of them. The suite lets go of each once it has run."""
    found = unittest.defaultTestLoader.loadTestsFromName(f"share.tests.{name}")
    return unittest.TestSuite(one for one in each_of(found) if not only or one.id() in only)


def each_of(tests: unittest.TestSuite) -> Iterator[unittest.TestCase]:
    """Yield the tests of a suite and of the suites in it."""
    for one in tests:
        if isinstance(one, unittest.TestSuite):
            yield from each_of(one)
        else:
            yield one


def of_fault(failed: unittest.TestCase, tests: frozenset[str]) -> frozenset[str]:
    """Return which of a module's tests failed: one, or all of a class or module whose set-up or end failed."""
    # (unittest calls such a failure "setUpClass (module.class)")
    name, _, group = getattr(failed, "test_case", failed).id().partition(" (")
    return frozenset(one for one in tests if one == name or group and one.startswith(f"{group[:-1]}."))


def all_tests(faults: Iterable[Fault]) -> frozenset[str]:
    """Return the tests of all these failures."""
    return frozenset(test for fault in faults for test in fault.tests)


def what_failed(words: str) -> str:
    """Return the line of a report that says what failed: the first one after the last place in the code."""
    first, *lines = words.strip().rpartition("\n  File ")[2].splitlines() or [""]
    return next((line for line in lines if line and not line.startswith(" ")), first)[:MOST_CHARACTERS]


def processor_seconds() -> float:
    """Return the processor seconds of this process and of those that it started and waited for."""
    used = [resource.getrusage(who) for who in (resource.RUSAGE_SELF, resource.RUSAGE_CHILDREN)]
    return sum(one.ru_utime + one.ru_stime for one in used)


def at_a_time() -> int:
    """Return how many modules run at a time: two for each processor of this process, because a module waits at least half of its time."""
    return 2 * len(os.sched_getaffinity(0))
