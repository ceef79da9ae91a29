"""The command in a folder of submissions some of which have the names of Python's modules."""

from __future__ import annotations

import os
import subprocess
import sys
import unittest
from pathlib import Path

from . import ROOT
from .command_support import ENVIRONMENT, HELLO, Folder

# Modules that the command needs, and that Python does not import before it.
NEEDED = """json argparse array ctypes hashlib zlib base64 bisect csv multiprocessing concurrent
fcntl termios dataclasses""".split()


def plant(folder: Path, *names: str) -> Path:
    """Puts modules into a folder that tell when they are run, and answers the file by which."""
    for name in names:
        (folder / f"{name}.py").write_text(f"open('ran', 'a').write({name!r} + ' ')\n")
    return folder / "ran"


class Submissions(Folder):
    """Nothing of the folder is run."""

    def obeyed(self, *words: object, path: str) -> None:
        """That a command works as ever in the folder, with a path of modules."""
        self.file("hello.obj", HELLO)
        self.file("cases/one.expected", "Hi\nHalted\n")
        for command in (["run", "hello.obj"], ["mark", "--cases", "cases", "--jobs", "2", "."]):
            done = subprocess.run(
                [*map(str, words), *command],
                cwd=self.folder,
                env={**ENVIRONMENT, "PYTHONPATH": path},
                capture_output=True,
                text=True,
                stdin=subprocess.DEVNULL,
            )
            self.assertEqual(done.returncode, 0, done.stderr)

    def test_as_a_module(self) -> None:
        ran, path = plant(self.folder, *NEEDED), os.fspath(ROOT / "python")
        self.obeyed(sys.executable, "-m", "fanthrig", path=path)
        self.obeyed(sys.executable, "-um", "fanthrig", path=path)
        self.assertFalse(ran.exists())

    def test_as_a_module_where_the_path_has_the_folder(self) -> None:
        ran = plant(self.folder, "json")
        for before in (":", ".:", f"{self.folder}:"):
            self.obeyed(sys.executable, "-m", "fanthrig", path=f"{before}{ROOT / 'python'}")
        self.assertFalse(ran.exists())

    def test_other_programs_keep_their_folder(self) -> None:
        ran = plant(self.folder, "mine")
        self.file("host/__init__.py", "import fanthrig, mine\n")
        self.file("host/__main__.py", "")
        words = [sys.executable, "-m", "host", "-m", "fanthrig"]
        done = subprocess.run(words, cwd=self.folder, env=ENVIRONMENT, capture_output=True)
        self.assertEqual((done.returncode, ran.read_text()), (0, "mine "), done.stderr)

    @unittest.skipIf(sys.version_info < (3, 11), "this Python has no -P")
    def test_by_safe_path(self) -> None:
        library = Path(os.__file__).parent.glob("[a-z]*.py")
        ran = plant(self.folder, "fanthrig", *NEEDED, *(path.stem for path in library))
        self.obeyed(sys.executable, "-P", "-m", "fanthrig", path=os.fspath(ROOT / "python"))
        self.assertFalse(ran.exists())


if __name__ == "__main__":
    unittest.main()
