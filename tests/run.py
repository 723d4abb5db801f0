"""Runs the tests of what stands around the library (C header, examples, Python) against the archive and the shared object in
target/staticlib and the package in python/; `make` makes all of them. The last line is 'N passed, M failed'; the exit status
is 0 when nothing failed.

    python3 tests/run.py [NAME..]      the test files, by name without .py; all of them when none is named
"""

import os
import sys
import unittest

HERE = os.path.dirname(os.path.abspath(__file__))


def report(suite):
    """Runs tests, counts them in the last line, and answers the exit status."""
    result = unittest.TextTestRunner(verbosity=1).run(suite)
    wrong = result.failures + result.errors + [(test, "") for test in result.unexpectedSuccesses]
    failed = len({getattr(test, "test_case", test).id() for test, _ in wrong})
    for test, reason in result.skipped:
        print(f"left out: {test}: {reason}")
    print(f"{max(0, result.testsRun - failed - len(result.skipped))} passed, {failed} failed")
    return 0 if failed == 0 and result.testsRun > 0 else 1


def main(names):
    found = sorted(file[:-3] for file in os.listdir(HERE) if file.startswith("test_") and file.endswith(".py"))
    return report(unittest.defaultTestLoader.loadTestsFromNames(names or found))


if __name__ == "__main__":
    sys.path.insert(0, HERE)
    sys.exit(main(sys.argv[1:]))
