"""Runs the tests of tools/: `python3 -B -m tools.tests` ends with the line 'N passed, M failed'."""
from __future__ import annotations

import sys
import unittest

MODULES = ("packed.tests", "packed.chunk_tests", "converging.tests", "rust.tests", "gate.tests", "build_tests", "counts_tests",
           "doors_tests", "mutants_tests")


def main() -> int:
    """Run all of them. Return the status."""
    tests = unittest.defaultTestLoader.loadTestsFromNames([f"tools.{name}" for name in MODULES])
    result = unittest.TextTestRunner().run(tests)
    failed = len({str(test) for test, _ in [*result.failures, *result.errors, *result.skipped]})
    print(f"{result.testsRun - failed} passed, {failed} failed")
    return 1 if failed or not result.testsRun else 0


if __name__ == "__main__":
    sys.exit(main())
