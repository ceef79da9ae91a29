"""The pages for tutors and examiners: their commands write what the pages say. And what Python says
on the page for students, whose other answers ``test_command_debug`` compares."""

from __future__ import annotations

import doctest
import os
import re
import subprocess
import unittest
from pathlib import Path

from . import ROOT
from .command_support import ENVIRONMENT, PYTHON, Folder

BLOCK = re.compile(r"^```(\w+)\n(.*?)^```$", re.MULTILINE | re.DOTALL)


class Pages(Folder):
    """Each block of a shell's commands, and the block of text after it."""

    def check(self, page: str) -> None:
        """That the commands of a page write what it says, one block after the other."""
        self.file("bin/lc3", f'#!/bin/sh\nexec {" ".join(PYTHON)} "$@"\n').chmod(0o755)
        path = f"{self.folder}/bin:{os.environ['PATH']}"
        environment = {**ENVIRONMENT, "PATH": path, "LC_ALL": "C.UTF-8"}
        blocks = BLOCK.findall((ROOT / "docs" / page).read_text(encoding="utf-8"))
        self.assertGreater(len(blocks), 5)
        for (kind, text), (next_kind, expected) in zip(blocks, [*blocks[1:], ("", "")]):
            if kind == "sh":
                done = subprocess.run(
                    ["bash", "-c", text],
                    cwd=self.folder,
                    env=environment,
                    stdout=subprocess.PIPE,
                    stderr=subprocess.STDOUT,
                )
                written = done.stdout.decode()
                self.assertEqual(written, expected if next_kind == "text" else "", text)
            elif kind == "python":
                self.python(text, self.folder)

    def python(self, text: str, folder: Path) -> None:
        """That a session in a folder is as the page has it."""
        here = Path.cwd()
        os.chdir(folder)
        try:
            test = doctest.DocTestParser().get_doctest(text, {}, "page", "page", 0)
            done = doctest.DocTestRunner(verbose=False).run(test)
            self.assertEqual((done.failed, done.attempted > 2), (0, True))
        finally:
            os.chdir(here)

    def test_student(self) -> None:
        text = (ROOT / "docs/STUDENT.md").read_text(encoding="utf-8")
        (session,) = [text for kind, text in BLOCK.findall(text) if kind == "python"]
        self.python(session, ROOT)

    def test_tutor(self) -> None:
        self.check("TUTOR.md")

    def test_examiner(self) -> None:
        self.check("EXAMINER.md")

    def test_certify(self) -> None:
        for example in (ROOT / "examples").glob("*.obj"):
            self.file(example.name, example.read_bytes())
        self.check("CERTIFY.md")


if __name__ == "__main__":
    unittest.main()
