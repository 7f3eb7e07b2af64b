"""Runs tests of other packages, and prints each with `passed` or `failed` before it.

    python3 results.py MODULE..
"""

import sys
import unittest


class Printed(unittest.TestResult):
    """Prints what came of each test. A test that could not be run failed."""

    def addSuccess(self, test: unittest.TestCase) -> None:
        print("passed\t" + test.id())

    def addSkip(self, test: unittest.TestCase, reason: str) -> None:
        print("skipped\t" + test.id())

    def addFailure(self, test, err) -> None:  # type: ignore[no-untyped-def]
        print("failed\t" + test.id())
        print(self._exc_info_to_string(err, test), file=sys.stderr)

    addError = addFailure


if __name__ == "__main__":
    unittest.defaultTestLoader.loadTestsFromNames(sys.argv[1:]).run(Printed())
