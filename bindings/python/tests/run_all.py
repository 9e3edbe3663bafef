"""Runs all tests, or those whose names are given, and ends with the line `N passed, N failed`; the status is 0 or 3."""
import faulthandler
import os
import sys
import unittest

HERE = os.path.dirname(os.path.abspath(__file__))
# A call of the library that does not come back holds up the signal of a test's own limit: then the process ends.
LONGEST = 820


class Counting(unittest.TextTestResult):
    passed = 0

    def addSuccess(self, test):
        super().addSuccess(test)
        self.passed += 1


def main(names):
    faulthandler.dump_traceback_later(LONGEST, exit=True)
    sys.path[:0] = [HERE, os.path.dirname(HERE)]
    loader = unittest.TestLoader()
    suite = loader.loadTestsFromNames(names) if names else loader.discover(HERE)
    result = unittest.TextTestRunner(sys.stdout, verbosity=1, resultclass=Counting).run(suite)
    for test, reason in result.skipped:
        print(f"not tested: {test.id()}: {reason}")
    failed = len({test.id() for test, _ in result.failures + result.errors})
    print(f"{result.passed} passed, {failed} failed")
    return 3 if failed or not result.passed else 0


if __name__ == "__main__":
    sys.exit(main(sys.argv[1:]))
