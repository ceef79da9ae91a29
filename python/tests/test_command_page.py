"""``lc3 page``: the page is opened in a browser, or its path is written."""

from __future__ import annotations

import os
import stat
import subprocess
import sys
import unittest
from pathlib import Path
from unittest import mock

from fanthrig.command import main, page
from fanthrig.command.messages import CommandError

from . import ROOT
from .test_install import new_folder

BUILT = ROOT / "build/page/lc3.html"


@unittest.skipUnless(BUILT.exists(), "no page: `make page` comes first")
class Page(unittest.TestCase):
    """The command in a process of its own, as from a shell."""

    def obey(self, *words: str, **more: str) -> subprocess.CompletedProcess[str]:
        """What ``lc3 page`` does, without a screen but for what is given."""
        kept = {name: value for name, value in os.environ.items() if name not in page.SCREENS}
        environment = {**kept, "PYTHONPATH": str(ROOT / "python"), **more}
        command = [sys.executable, "-m", "fanthrig", "page", *words]
        return subprocess.run(command, env=environment, capture_output=True, text=True, cwd="/")

    def test_the_path_is_written_where_there_is_no_browser(self) -> None:
        said = self.obey()
        self.assertEqual((said.stdout, said.stderr, said.returncode), (f"{BUILT}\n", "", 0))

    def test_a_browser_is_handed_the_address(self) -> None:
        folder = new_folder(self.addCleanup)
        browser, seen = folder / "browser", folder / "seen"
        browser.write_text(f'#!/bin/sh\nprintf "%s" "$1" >"{seen}"\n')
        browser.chmod(browser.stat().st_mode | stat.S_IXUSR)
        said = self.obey(BROWSER=str(browser))
        self.assertEqual((said.stdout, said.stderr, said.returncode), ("", "", 0))
        self.assertEqual(seen.read_text(), BUILT.as_uri())

    def test_a_browser_that_does_not_start_is_none(self) -> None:
        self.assertEqual(self.obey(BROWSER="/nowhere/browser").stdout, f"{BUILT}\n")

    def test_the_path_alone(self) -> None:
        self.assertEqual(self.obey("--path", BROWSER="/bin/true").stdout, f"{BUILT}\n")

    def test_the_page_allows_nothing_from_elsewhere(self) -> None:
        text = BUILT.read_text(encoding="utf-8")
        self.assertIn("content=\"default-src 'none'; script-src 'sha256-", text)
        self.assertIn("nothing of an examiner belongs in it", " ".join(text.split()))


class NoPage(unittest.TestCase):
    """A module without its page."""

    def test_it_is_said(self) -> None:
        with mock.patch.object(Path, "is_file", return_value=False):
            self.assertRaisesRegex(CommandError, "no page is installed", page.page_file)
            self.assertEqual(main(["page"]), 3)
