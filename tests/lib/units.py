#!/usr/bin/env python3
"""units [--executable FILE] FOLDER [PATTERN..]: runs the unit tests in the files of a directory that match a pattern.

This is `python3 -m unittest discover`, with three differences. A test that takes longer than LIMIT seconds ends the run,
and a traceback shows its name. Each reason for which tests were skipped is printed, in a line `left out: REASON`. The
exit status is also 1 if no test was run. FILE is what tests start as Python (default: this interpreter); it may be a
script that runs this one in an emulator. The default pattern is test_*.py.
"""

import argparse
import collections
import faulthandler
import glob
import os
import sys
import unittest

LIMIT = 1800


class Result(unittest.TextTestResult):
    """A result that limits the time of each test."""

    def startTest(self, test):
        super().startTest(test)
        faulthandler.dump_traceback_later(LIMIT, exit=True)

    def stopTest(self, test):
        faulthandler.cancel_dump_traceback_later()
        super().stopTest(test)


def load(folder, patterns):
    """Returns the tests of the files that match a pattern. Each pattern must match a file."""
    found = set()
    for pattern in patterns:
        paths = glob.glob(f"{glob.escape(folder)}/{pattern}")
        if not paths:
            sys.exit(f"units: no file is like {folder}/{pattern}")
        found.update(os.path.splitext(os.path.basename(path))[0] for path in paths)
    names = sorted(found)
    return unittest.defaultTestLoader.loadTestsFromNames(names)


def print_skipped(result):
    """Prints the reasons for which tests were skipped."""
    for reason, count in sorted(collections.Counter(why for _, why in result.skipped).items()):
        print(f"left out: {reason} ({count} {'test' if count == 1 else 'tests'} in Python)")


def run(folder, patterns, name):
    """Runs the tests of the files in a directory that match a pattern. Returns whether one failed, or none was run."""
    result = unittest.TextTestRunner(resultclass=Result).run(load(folder, patterns))
    print_skipped(result)
    wrong = len(result.failures) + len(result.errors) + len(result.unexpectedSuccesses)
    print(f"{name}: {result.testsRun} tests, {wrong} failed")
    return bool(wrong or result.testsRun == len(result.skipped))


def main():
    parser = argparse.ArgumentParser(usage="units [--executable FILE] FOLDER [PATTERN..]")
    parser.add_argument("--executable", default=sys.executable)
    parser.add_argument("folder")
    parser.add_argument("patterns", nargs="*")
    given = parser.parse_args()
    sys.executable = given.executable
    sys.path.insert(0, os.path.abspath(given.folder))
    return run(given.folder, given.patterns or ["test_*.py"], "units")


if __name__ == "__main__":
    sys.exit(main())
