"""The halves of the tests: each test is in one of them."""

from __future__ import annotations

import subprocess
import sys
import unittest
from unittest import mock

from . import ROOT, half
from .half import HALVES, main, modules


class Halves(unittest.TestCase):
    """What ``make host`` runs."""

    def test_both_are_all_that_discovery_finds(self) -> None:
        folder = ROOT / "python/tests"
        found = sorted(path.stem for path in folder.iterdir() if path.match("test*.py"))
        first, second = map(modules, HALVES)
        self.assertEqual(sorted(first + second), found)
        self.assertEqual(len(set(first) & set(second)), 0)
        self.assertIn(half.LAST, first)
        self.assertGreater(min(len(first), len(second)), 10)

    def test_the_makefile_runs_both(self) -> None:
        text = (ROOT / "Makefile").read_text(encoding="utf-8")
        for name in HALVES:
            self.assertRegex(text, rf"(?m)^host-python:.* host-python-{name}\b")

    def test_what_is_wrong_is_told(self) -> None:
        command = [sys.executable, "-m", "tests.half", "third"]
        done = subprocess.run(command, cwd=ROOT / "python", capture_output=True)
        self.assertEqual((done.returncode, done.stdout), (1, b""))
        # A module that can't be loaded, one without tests, and none at all.
        runner = mock.Mock(wraps=unittest.TextTestRunner(stream=mock.Mock()))
        with mock.patch("unittest.TextTestRunner", return_value=runner):
            for names in (["test_nowhere"], ["support"], []):
                with mock.patch("tests.half.modules", return_value=names):
                    with mock.patch("sys.stderr"):
                        self.assertEqual(main("first"), 1, names)


if __name__ == "__main__":
    unittest.main()
