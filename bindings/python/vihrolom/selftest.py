"""Runs the tests that go with the package, on the library that it finds: python3 -m vihrolom.selftest

On a terminal it says how far it is. The status is 0 if every test passed.
"""
from __future__ import annotations

import pkgutil
import sys
import unittest
from typing import Type

from . import tests
from .progress import Progress


def load() -> unittest.TestSuite:
    """All tests of the package."""
    names = [f"{tests.__name__}.{module.name}" for module in pkgutil.iter_modules(tests.__path__)]
    return unittest.defaultTestLoader.loadTestsFromNames(names)


def result_class(progress: Progress) -> Type[unittest.TextTestResult]:
    """Results that tell each test as it begins, and leave the terminal clean for the summary."""

    class Result(unittest.TextTestResult):
        def startTest(self, test: unittest.TestCase) -> None:
            super().startTest(test)
            progress.step(test.id().rpartition(".")[2])

        def stopTestRun(self) -> None:
            super().stopTestRun()
            progress.wipe()

    return Result


def main() -> int:
    """Runs the tests, and returns the status."""
    suite = load()
    tests.telling = True
    results = result_class(Progress("tests", suite.countTestCases()))
    runner = unittest.TextTestRunner(verbosity=0, resultclass=results)
    return 0 if runner.run(suite).wasSuccessful() else 1


if __name__ == "__main__":
    sys.exit(main())
