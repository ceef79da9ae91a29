"""One half of the tests: ``python3 -m tests.half first`` in the folder python, or ``second``.

``make host`` runs both at once: all tests together would take longer than any other of its parts.
The name of a module says to which half it belongs, so that none is left out. Tests write to folders
of their own, and take ports that nobody uses.
"""

from __future__ import annotations

import sys
import unittest
from pathlib import Path

# The modules up to this name are the first half: they take about as long as the others.
LAST = "test_command_listing"

HALVES = ("first", "second")


def modules(half: str) -> list[str]:
    """The modules of a half."""
    names = sorted(path.stem for path in Path(__file__).parent.glob("test_*.py"))
    return [name for name in names if (name <= LAST) == (half == "first")]


def main(half: str) -> int:
    """Runs a half. A module that has no tests, or can't be loaded, fails as a test does."""
    whole = unittest.TestSuite()
    for name in modules(half):
        tests = unittest.defaultTestLoader.loadTestsFromName(f"tests.{name}")
        if not tests.countTestCases():
            print(f"tests.half: {name} has no tests", file=sys.stderr)
            return 1
        whole.addTest(tests)
    ran = unittest.TextTestRunner().run(whole)
    return 0 if ran.wasSuccessful() and ran.testsRun else 1


if __name__ == "__main__":
    if sys.argv[1:] not in [[half] for half in HALVES]:
        sys.exit(f"tests.half: one of {', '.join(HALVES)} expected")
    sys.exit(main(sys.argv[1]))
