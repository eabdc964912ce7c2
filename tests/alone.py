"""Runs tests in this process, as `python3 -m unittest` does, and says of how many cases they were.

    python3 -m tests.alone PART [-k PATTERN] NAME ..

PART is `scripts`, the tests that need no built program, `programs`, those that need one, or `all`.
"""
from __future__ import annotations

import argparse
import sys
import unittest
from collections.abc import Iterator
from typing import Any, Union

PARTS = ("all", "scripts", "programs")
Tests = Union[unittest.TestSuite, unittest.TestCase]


class Result(unittest.TextTestResult):
    """Counts the cases, which are unittest's subtests."""

    cases = 0

    def addSubTest(self, test: unittest.TestCase, subtest: unittest.TestCase, err: Any) -> None:
        super().addSubTest(test, subtest, err)
        self.cases += 1


def chosen(tests: Tests, part: str) -> Iterator[unittest.TestCase]:
    """Those of a part; what cannot be loaded is of each."""
    if isinstance(tests, unittest.TestSuite):
        for each in tests:
            yield from chosen(each, part)
    elif part == "all" or not hasattr(tests, "needs") or bool(tests.needs) == (part == "programs"):
        yield tests


def main() -> int:
    words = argparse.ArgumentParser(prog="tests.alone", description=(__doc__ or "").split("\n\n", maxsplit=1)[0])
    words.add_argument("part", choices=PARTS)
    words.add_argument("-k", dest="patterns", action="append")
    words.add_argument("names", nargs="+")
    given = words.parse_args()
    loader = unittest.TestLoader()
    loader.testNamePatterns = [it if "*" in it else f"*{it}*" for it in given.patterns] if given.patterns else None
    suite = unittest.TestSuite(chosen(loader.loadTestsFromNames(given.names), given.part))
    result = unittest.TextTestRunner(sys.stdout, verbosity=0, resultclass=Result).run(suite)
    for test, why in result.skipped:
        print(f"skipped {test}: {why}")
    print(f"{result.testsRun} tests, {getattr(result, 'cases', 0)} cases")
    return int(not result.wasSuccessful())


if __name__ == "__main__":
    sys.exit(main())
