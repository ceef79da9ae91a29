"""The examples of every module's docstrings."""

from __future__ import annotations

import doctest
import importlib
import pkgutil
import unittest

import fanthrig


def modules() -> list[str]:
    """The package and its modules but the command, whose import would run it."""
    inside = [module.name for module in pkgutil.walk_packages(fanthrig.__path__, "fanthrig.")]
    return ["fanthrig", *(name for name in inside if not name.endswith("__main__"))]


def load_tests(
    loader: unittest.TestLoader, tests: unittest.TestSuite, _pattern: object
) -> unittest.TestSuite:
    """Every module's examples, beside this file's own tests."""
    for name in modules():
        tests.addTests(doctest.DocTestSuite(importlib.import_module(name)))
    return tests


class Collected(unittest.TestCase):
    """That the examples are found at all."""

    def test_many_examples_are_collected(self) -> None:
        finder = doctest.DocTestFinder(exclude_empty=True)
        found = [
            test
            for name in modules()
            for test in finder.find(importlib.import_module(name))
            if test.examples
        ]
        self.assertGreater(len(found), 40)


if __name__ == "__main__":
    unittest.main()
