"""The product's version: the file VERSION has it, and every other place has the same. And what
``make lib`` says to whoever has no kit."""

from __future__ import annotations

import os
import re
import shutil
import subprocess
import sys
import tempfile
import unittest
from pathlib import Path
from types import ModuleType
from unittest import mock

import fanthrig

from . import ROOT

VERSION = (ROOT / "VERSION").read_text(encoding="ascii").strip()


class Version(unittest.TestCase):
    """One version, wherever it is told."""

    def test_it_is_semantic(self) -> None:
        self.assertRegex(VERSION, r"^\d+\.\d+\.\d+$")

    def test_the_module(self) -> None:
        self.assertEqual(fanthrig.__version__, VERSION)

    def test_the_crates(self) -> None:
        text = (ROOT / "host/Cargo.toml").read_text(encoding="utf-8")
        told = re.findall(r'version = "=?(\d+\.\d+\.\d+)"', text)
        self.assertEqual(told, [VERSION, VERSION])

    def test_the_archives(self) -> None:
        with mock.patch.object(sys, "path", [str(ROOT / "tools"), *sys.path]):
            import release
            from release import debian, trees, wheel
        names = [wheel.NAME, trees.BINARY, debian.REVISION]
        self.assertEqual((release.VERSION, release.interface()), (VERSION, str(fanthrig.VERSION)))
        self.assertTrue(all(VERSION in name for name in names), names)


@unittest.skipUnless(shutil.which("git"), "git not found")
class Provenance(unittest.TestCase):
    """What a release says of its tree, of a small tree with one crate."""

    def setUp(self) -> None:
        with mock.patch.object(sys, "path", [str(ROOT / "tools"), *sys.path]):
            import release
            from release import provenance
        self.provenance = provenance
        self.folder = Path(tempfile.mkdtemp())
        self.addCleanup(shutil.rmtree, self.folder)
        self.log = self.folder / "ci.log"
        self.put(release, "ROOT", self.folder)
        self.put(provenance, "ROOT", self.folder)
        self.put(provenance, "LOG", self.log)
        (self.folder / "crates").mkdir()
        self.source = self.folder / "crates/one.rt"
        self.source.write_text("fn one\n")
        (self.folder / ".gitignore").write_text("*.log\n")
        self.git("init", "--quiet")
        self.git("add", ".")
        self.git("-c", "user.name=A", "-c", "user.email=a@b", "commit", "--quiet", "-m", "one")

    def put(self, module: ModuleType, name: str, value: Path) -> None:
        """Gives a module another path until the test is over."""
        patch = mock.patch.object(module, name, value)
        patch.start()
        self.addCleanup(patch.stop)

    def git(self, *words: str) -> None:
        """Has git do something in the tree."""
        subprocess.run(["git", *words], cwd=self.folder, check=True)

    def test_a_tree_as_its_commit_has_it(self) -> None:
        cache = self.folder / "__pycache__"
        cache.mkdir()
        (cache / "one.pyc").write_text("")
        self.assertRegex(self.provenance.commit(), r"^[0-9a-f]{40}$")

    def test_a_file_that_is_altered(self) -> None:
        self.source.write_text("fn two\n")
        self.assertRegex(self.provenance.commit(), r"^[0-9a-f]{40}, altered since$")

    def test_a_file_that_git_does_not_know(self) -> None:
        (self.folder / "other.py").write_text("")
        self.assertRegex(self.provenance.commit(), r"^[0-9a-f]{40}, altered since$")

    def test_the_verdict_is_of_these_sources(self) -> None:
        self.assertIn("no log", self.provenance.verdict()[0])
        kept = "rt: one is kept: an earlier run proved it\n"
        tried = "rt: must-fail one/wrong.edit: refused, as it must be: why\n"
        self.log.write_text(f"rt: two proved\n{kept}{tried}2 passed, 0 failed\n")
        told = ["one proved", "two proved", "1 wrong programs refused", "2 passed, 0 failed"]
        self.assertEqual(self.provenance.verdict(), told)
        later = self.log.stat().st_mtime + 5
        os.utime(self.source, (later, later))
        self.assertIn("older than the sources", self.provenance.verdict()[0])

    def test_a_folder_with_other_files_stays(self) -> None:
        with mock.patch.object(sys, "path", [str(ROOT / "tools"), *sys.path]):
            from release.__main__ import emptied
        with self.assertRaisesRegex(SystemExit, "no release"):
            emptied(self.folder)
        self.assertTrue(self.source.exists())
        (self.folder / "SHA256SUMS").write_text("")
        self.assertEqual(list(emptied(self.folder).iterdir()), [])


class WithoutTheKit(unittest.TestCase):
    """A tree that is to be proved, and no command rt."""

    PATH = "/usr/bin:/bin"

    def test_what_is_missing_and_what_needs_none(self) -> None:
        if not shutil.which("make", path=self.PATH) or shutil.which("rt", path=self.PATH):
            self.skipTest("make is not beside the system's commands, or the kit is")
        away = ("MAKEFLAGS", "MFLAGS", "MAKELEVEL")
        environment = {key: value for key, value in os.environ.items() if key not in away}
        proofs = ("-W", "crates.txt", "build/proved")
        page = ("-o", "build/proved", "-W", "tools/wasm", "build/fanthrig.wasm")
        for words in (proofs, page):
            said = subprocess.run(
                ["make", "-s", *words],
                cwd=ROOT,
                env={**environment, "PATH": self.PATH},
                capture_output=True,
                text=True,
            )
            self.assertEqual((said.returncode, said.stdout), (2, ""))
            self.assertIn("It belongs to the Rattle kit", said.stderr)
            self.assertIn("A release needs no kit", said.stderr)


if __name__ == "__main__":
    unittest.main()
