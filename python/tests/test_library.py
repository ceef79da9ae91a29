"""Where the library is found, and what is said where it is not."""

from __future__ import annotations

import os
import shutil
import subprocess
import sys
import tempfile
import unittest
from pathlib import Path
from unittest import mock

import fanthrig
from fanthrig import _library

from . import ROOT

PACKAGE = ROOT / "python" / "fanthrig"


def python(
    package_parent: Path, library: str | None, *arguments: str
) -> subprocess.CompletedProcess[str]:
    """What a new interpreter says that has the package of a folder."""
    environment = {key: value for key, value in os.environ.items() if key != "FANTHRIG_LIBRARY"}
    environment["PYTHONPATH"] = str(package_parent)
    if library is not None:
        environment["FANTHRIG_LIBRARY"] = library
    command = [sys.executable, *arguments]
    return subprocess.run(command, env=environment, capture_output=True, text=True, cwd="/")


def imported(package_parent: Path, library: str | None) -> subprocess.CompletedProcess[str]:
    """What is said where the package is imported and the library needed."""
    program = "import fanthrig; print(fanthrig._library.LIBRARY.path, fanthrig.version())"
    return python(package_parent, library, "-c", program)


class Places(unittest.TestCase):
    """The order of the places, and what is tried in each."""

    def setUp(self) -> None:
        self.library = Path(fanthrig._library.LIBRARY.path).resolve()

    def test_the_named_one_and_no_other(self) -> None:
        self.assertIn(str(self.library), imported(ROOT / "python", str(self.library)).stdout)
        said = imported(ROOT / "python", "/nowhere/libfanthrig.so").stderr
        self.assertIn("LibraryError: no libfanthrig.so of version 7 was found", said)
        self.assertIn("FANTHRIG_LIBRARY", said)
        self.assertIn("/nowhere/libfanthrig.so: ", said)
        self.assertNotIn("build", said.split("Tried:")[1])

    def test_beside_the_package_and_in_a_source_tree(self) -> None:
        with tempfile.TemporaryDirectory() as folder:
            parent = Path(folder) / "python"
            shutil.copytree(
                PACKAGE, parent / "fanthrig", ignore=shutil.ignore_patterns("__pycache__")
            )
            tree = Path(folder) / "build" / "libfanthrig.so"
            tree.parent.mkdir()
            tree.symlink_to(self.library)
            found = imported(parent, None).stdout
            self.assertTrue(found.startswith(str(tree)), found)
            installed = Path(folder) / "lib" / "python3" / "dist-packages"
            shutil.copytree(parent, installed)
            for place in ("lib/x86_64-linux-gnu", "lib"):
                library = Path(folder) / place / _library.SONAME
                library.parent.mkdir(exist_ok=True)
                library.symlink_to(self.library)
                self.assertTrue(imported(installed, None).stdout.startswith(str(library)))
            named = installed / "fanthrig" / "libfanthrig.path"
            named.write_text("../../../../other place/libfanthrig.so\n")
            (Path(folder) / "other place").mkdir()
            other = Path(folder) / "other place" / "libfanthrig.so"
            other.symlink_to(self.library)
            self.assertTrue(imported(installed, None).stdout.startswith(str(other)))
            other.unlink()
            self.assertTrue(imported(installed, None).stdout.startswith(str(library)))
            beside = parent / "fanthrig" / _library.SONAME
            beside.symlink_to(self.library)
            self.assertTrue(imported(parent, None).stdout.startswith(str(beside)))

    def test_a_library_of_another_kind(self) -> None:
        with self.assertRaisesRegex(OSError, "it has no function lc3_version"):
            _library.Library("libm.so.6")
        with tempfile.NamedTemporaryFile(suffix=".so") as file:
            file.write(b"no library")
            file.flush()
            with self.assertRaises(OSError):
                _library.Library(file.name)

    def test_a_library_of_another_version(self) -> None:
        with mock.patch("fanthrig._library.VERSION", 8):
            with self.assertRaisesRegex(OSError, "its interface has version 7, not 8"):
                _library.Library(str(self.library))
            with self.assertRaisesRegex(fanthrig.LibraryError, "make lib"):
                _library.load()


class WithoutTheLibrary(unittest.TestCase):
    """The package is imported without it, and says what is missing when it is needed."""

    NOWHERE = "/nowhere/libfanthrig.so"

    def test_what_needs_no_library(self) -> None:
        told = "fanthrig.__version__, fanthrig.VERSION, fanthrig.Record().halted"
        program = f"import fanthrig; print({told})"
        said = python(ROOT / "python", self.NOWHERE, "-c", program)
        self.assertEqual(
            said.stdout, f"{fanthrig.__version__} {fanthrig.VERSION} True\n", said.stderr
        )
        for option, expected in (
            ("--help", "usage: lc3"),
            ("--version", f"lc3 {fanthrig.__version__}"),
        ):
            said = python(ROOT / "python", self.NOWHERE, "-m", "fanthrig", option)
            self.assertEqual((said.returncode, said.stderr), (0, ""))
            self.assertTrue(said.stdout.startswith(expected), said.stdout)
        said = python(ROOT / "python", self.NOWHERE, "-m", "fanthrig", "run", "--help")
        self.assertEqual((said.returncode, said.stderr), (0, ""))

    def test_what_needs_it(self) -> None:
        for use in ("Sitting()", "word('HALT')", "line(0)", "monitor_routines()", "version()"):
            program = (
                f"import fanthrig\ntry: fanthrig.{use}\nexcept fanthrig.LibraryError as e: print(e)"
            )
            said = python(ROOT / "python", self.NOWHERE, "-c", program)
            self.assertEqual(said.stderr, "")
            self.assertTrue(said.stdout.startswith("no libfanthrig.so of version 7 was found"), use)
        hello = str(ROOT / "examples/hello.obj")
        for command in (("run", hello), ("list", hello), ("log", hello)):
            said = python(ROOT / "python", self.NOWHERE, "-m", "fanthrig", *command)
            self.assertEqual((said.returncode, said.stdout), (3, ""))
            self.assertTrue(said.stderr.startswith("lc3: no libfanthrig.so of version 7 was found"))
            self.assertNotIn("Traceback", said.stderr)

    def test_it_is_found_when_it_has_come(self) -> None:
        program = f"""
import os, fanthrig
os.environ["FANTHRIG_LIBRARY"] = {self.NOWHERE!r}
try:
    fanthrig.version()
except fanthrig.LibraryError:
    os.environ["FANTHRIG_LIBRARY"] = {fanthrig._library.LIBRARY.path!r}
    print(fanthrig.version())
"""
        said = python(ROOT / "python", None, "-c", program)
        self.assertEqual((said.stdout, said.stderr), ("7\n", ""))


class Versions(unittest.TestCase):
    """The version of the product, beside that of the interface."""

    def test_it_is_semantic_and_shown(self) -> None:
        self.assertRegex(fanthrig.__version__, r"^(0|[1-9]\d*)\.(0|[1-9]\d*)\.(0|[1-9]\d*)$")
        said = python(ROOT / "python", None, "-m", "fanthrig", "--version").stdout
        self.assertEqual(said, f"lc3 {fanthrig.__version__}, interface {fanthrig.VERSION}\n")


if __name__ == "__main__":
    unittest.main()
