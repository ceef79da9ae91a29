"""``make install`` and ``make uninstall``, into a folder of the test; and the manual pages."""

from __future__ import annotations

import argparse
import os
import re
import shlex
import shutil
import signal
import subprocess
import tempfile
import unittest
from pathlib import Path
from typing import Callable, Iterator

import fanthrig
from fanthrig.choices import CHOICES
from fanthrig.command.debugger.commands import Debugger
from fanthrig.command.debugger.console import Console
from fanthrig.command.options import parser
from fanthrig.marking.cases import ENDS, MEMBERS

from . import ROOT
from .test_folder import plant

PREFIX = "usr/local"
PACKAGE = ROOT / "python" / "fanthrig"
MANUAL = ROOT / "docs" / "lc3.1"
DEBUG_MANUAL = ROOT / "docs" / "lc3-debug.1"
FORMATS = ROOT / "docs" / "lc3-mark.5"
HELLO = ROOT / "examples" / "hello.obj"

PROGRAM = """\
#include <fanthrig/lc3.h>
#include <stdio.h>

int main(void) {
    uint8_t line[LC3_MAX_LINE];
    lc3_counted counted = lc3_line(0x14E7, line, sizeof line);
    printf("%u %.*s", (unsigned)lc3_version(), (int)counted.count, (char *)line);
    return lc3_version() == LC3_VERSION ? 0 : 1;
}
"""


def environment(**more: str) -> dict[str, str]:
    """An environment that leads to no module or library of its own."""
    away = ("PYTHONPATH", "FANTHRIG_LIBRARY", "LD_LIBRARY_PATH", "MAKEFLAGS", "MFLAGS", "MAKELEVEL")
    return {**{key: value for key, value in os.environ.items() if key not in away}, **more}


def obey(*command: str | Path, **more: str) -> subprocess.CompletedProcess[str]:
    """A command obeyed from the root of all folders, with nothing on its standard input. What it
    writes is its owner's alone, unless it sees to that."""
    return subprocess.run(
        [str(word) for word in command],
        env=environment(**more),
        capture_output=True,
        text=True,
        cwd="/",
        stdin=subprocess.DEVNULL,
        umask=0o077,
    )


def make(target: str, folder: Path, *settings: str) -> None:
    """Makes a target into a folder, with the library and the page as they stand."""
    standing = ("-o", "lib", "-o", "page")
    said = obey("make", "-C", ROOT, "-s", *standing, target, f"DESTDIR={folder}", *settings)
    if said.returncode or said.stderr:
        raise AssertionError(f"make {target}: {said.stdout}{said.stderr}")


def take(number: int, ignores: bool) -> None:
    """Has a signal ignored, or taken as it usually is."""
    signal.signal(number, signal.SIG_IGN if ignores else signal.SIG_DFL)


def end(running: subprocess.Popen[bytes]) -> None:
    """Ends a command that a failed test has left."""
    with running:
        if running.poll() is None:
            running.kill()


def files(folder: Path) -> set[str]:
    """All that is in a folder but folders."""
    return {
        str(path.relative_to(folder))
        for path in folder.rglob("*")
        if path.is_symlink() or not path.is_dir()
    }


def new_folder(clean_up: Callable[..., object]) -> Path:
    """A new folder, which is taken away after the test."""
    folder = Path(tempfile.mkdtemp())
    clean_up(shutil.rmtree, folder)
    return folder


def modules() -> set[str]:
    """The files of the package."""
    return {
        str(path.relative_to(PACKAGE.parent))
        for path in PACKAGE.rglob("*")
        if path.is_file() and "__pycache__" not in path.parts
    }


def examples() -> set[str]:
    """The programs of the examples, their listings and their keys."""
    kinds = (".lst", ".obj", ".keys")
    return {path.name for path in (ROOT / "examples").iterdir() if path.suffix in kinds}


@unittest.skipUnless(
    (ROOT / "build" / "libfanthrig.a").exists(), "no library: `make lib` comes first"
)
class Installed(unittest.TestCase):
    """What stands where after ``make install``, and that it works from there."""

    folder: Path
    prefix: Path
    package: Path

    @classmethod
    def setUpClass(cls) -> None:
        cls.folder = new_folder(cls.addClassCleanup) / "a place"
        make("install", cls.folder)
        cls.prefix = cls.folder / PREFIX
        cls.package = next(cls.prefix.glob("lib/python3*/*-packages/fanthrig"))

    def test_each_file_is_where_it_should_be(self) -> None:
        place = str(self.package.parent.relative_to(self.prefix))
        expected = {f"{place}/{name}" for name in modules() | {"fanthrig/libfanthrig.path"}}
        expected |= {f"share/doc/fanthrig/examples/{name}" for name in examples()}
        expected |= {
            "bin/lc3",
            "include/fanthrig/lc3.h",
            "share/man/man1/lc3.1",
            "share/man/man1/lc3-debug.1",
            "share/man/man5/lc3-mark.5",
            "lib/pkgconfig/fanthrig.pc",
        }
        expected.add("share/bash-completion/completions/lc3")
        page = ("lc3.html", "fanthrig.mjs", "fanthrig.wasm")
        expected |= {f"share/fanthrig/{name}" for name in page}
        library = ("libfanthrig.a", "libfanthrig.so", f"libfanthrig.so.{fanthrig.VERSION}")
        expected |= {f"lib/{name}" for name in library}
        compiled = {name for name in files(self.prefix) if name.endswith(".pyc")}
        self.assertEqual(files(self.prefix) - compiled, expected)
        self.assertEqual(len(compiled), sum(name.endswith(".py") for name in modules()))
        self.assertEqual(files(self.folder), {f"{PREFIX}/{n}" for n in files(self.prefix)})

    def test_modes_and_words(self) -> None:
        for path in self.prefix.rglob("*"):
            mode = 0o755 if path.is_dir() or path.parent.name == "bin" else 0o644
            self.assertEqual((path, path.stat().st_mode & 0o777), (path, mode))
        self.assertEqual(
            os.readlink(self.prefix / "lib/libfanthrig.so"), f"libfanthrig.so.{fanthrig.VERSION}"
        )
        for source, name in (
            (ROOT / "include/fanthrig/lc3.h", "include/fanthrig"),
            (MANUAL, "share/man/man1"),
            (DEBUG_MANUAL, "share/man/man1"),
            (FORMATS, "share/man/man5"),
        ):
            installed = self.prefix / name / source.name
            self.assertEqual(installed.read_bytes(), source.read_bytes())

    def test_python_finds_module_and_library(self) -> None:
        program = (
            "import fanthrig; print(fanthrig.__file__, fanthrig._library.LIBRARY.path, sep='\\n')"
        )
        python = (self.prefix / "bin/lc3").read_text().splitlines()[0][2:].removesuffix(" -I")
        said = obey(python, "-c", program, PYTHONPATH=str(self.package.parent))
        library = self.prefix / f"lib/libfanthrig.so.{fanthrig.VERSION}"
        self.assertEqual(said.stdout.split("\n")[:2], [f"{self.package}/__init__.py", str(library)])

    def test_debian_s_python_looks_there_by_itself(self) -> None:
        python = Path("/usr/bin/python3")
        if not (Path("/etc/debian_version").exists() and python.exists()):
            self.skipTest("this is no Debian with a Python of its own")
        looks = obey(python, "-c", "import site; print(*site.getsitepackages(), sep='\\n')").stdout
        place = f"/{PREFIX}/{self.package.parent.relative_to(self.prefix)}"
        self.assertIn(place, looks.split("\n"))
        self.assertRegex(place, r"^/usr/local/lib/python3\.\d+/dist-packages$")

    def test_a_program_in_c(self) -> None:
        missing = [name for name in ("gcc", "pkg-config") if not shutil.which(name)]
        if missing:
            self.skipTest(f"{' and '.join(missing)} not found")
        place = str(self.prefix / "lib/pkgconfig")
        # No space is in the root of the system that the flags are for: it is a link to the folder.
        root = new_folder(self.addCleanup)
        (root / "system").symlink_to(self.folder)
        (root / "program.c").write_text(PROGRAM)
        where = {"PKG_CONFIG_LIBDIR": place, "PKG_CONFIG_SYSROOT_DIR": str(root / "system")}
        version = obey("pkg-config", "--modversion", "fanthrig", **where).stdout
        self.assertEqual(version, f"{fanthrig.__version__}\n")
        flags = obey("pkg-config", "--cflags", "--libs", "fanthrig", **where).stdout.split()
        made = obey("gcc", "-Wall", "-Werror", root / "program.c", "-o", root / "program", *flags)
        self.assertEqual((made.returncode, made.stderr), (0, ""))
        said = obey(root / "program", LD_LIBRARY_PATH=str(self.prefix / "lib"))
        self.assertEqual(
            (said.returncode, said.stdout), (0, f"{fanthrig.VERSION} ADD R2, R3, #7\n")
        )

    def test_the_command_runs(self) -> None:
        said = obey(self.prefix / "bin/lc3", "run", HELLO)
        self.assertEqual((said.returncode, said.stdout), (0, "Hello, world!\nHalted\n"))
        self.assertIn("halted by HALT", said.stderr)

    def test_the_command_without_its_library(self) -> None:
        said = obey(self.prefix / "bin/lc3", "run", HELLO, FANTHRIG_LIBRARY="no/libfanthrig.so")
        self.assertEqual((said.returncode, said.stdout), (3, ""))
        self.assertTrue(said.stderr.startswith("lc3: no libfanthrig.so of version "), said.stderr)
        self.assertNotIn("Traceback", said.stderr)

    def test_the_command_by_a_python_that_is_too_old(self) -> None:
        program = "import sys; sys.version_info = (3, 8, 1); exec(open(sys.argv[1]).read())"
        said = obey("python3", "-c", program, self.prefix / "bin/lc3")
        self.assertEqual((said.returncode, said.stdout), (3, ""))
        self.assertRegex(said.stderr, r"^lc3: Python 3\.9 or later is needed: this is \S+\n$")

    def test_the_command_among_submissions(self) -> None:
        folder = new_folder(self.addCleanup)
        ran = plant(
            folder, "fanthrig", "json", "runpy", "contextlib", "os", "re", "types", "typing"
        )
        for path in ("", ".", str(folder)):
            done = subprocess.run(
                [self.prefix / "bin/lc3", "run", HELLO],
                env=environment(PYTHONPATH=path, PYTHONHOME="/nowhere", PYTHONSTARTUP="json.py"),
                cwd=folder,
                capture_output=True,
                stdin=subprocess.DEVNULL,
            )
            self.assertEqual((done.returncode, done.stdout), (0, b"Hello, world!\nHalted\n"))
            self.assertFalse(ran.exists())

    def test_the_command_tells_its_versions_without_its_library(self) -> None:
        said = obey(self.prefix / "bin/lc3", "--version", FANTHRIG_LIBRARY="no/libfanthrig.so")
        expected = f"lc3 {fanthrig.__version__}, interface {fanthrig.VERSION}\n"
        self.assertEqual((said.returncode, said.stdout), (0, expected))

    def test_the_examples_run(self) -> None:
        folder = self.prefix / "share/doc/fanthrig/examples"
        said = obey(self.prefix / "bin/lc3", "run", folder / "hello.obj")
        self.assertEqual((said.returncode, said.stdout), (0, "Hello, world!\nHalted\n"))

    def test_the_command_by_a_link(self) -> None:
        link = new_folder(self.addCleanup) / "lc3"
        link.symlink_to(self.prefix / "bin/lc3")
        words = HELLO.stat().st_size // 2 - 1
        self.assertEqual(obey(link, "list", HELLO).stdout.count("\n"), words)
        self.assertEqual(obey(link, "run").returncode, 2)

    def started(
        self, prefix: Path, *words: object, ignores: bool = False
    ) -> subprocess.Popen[bytes]:
        """An installed command that runs; it may be started with Ctrl-C ignored, as by nohup."""
        running = subprocess.Popen(
            [str(prefix / "bin/lc3"), *map(str, words)],
            stdin=subprocess.PIPE,
            stdout=subprocess.PIPE,
            stderr=subprocess.PIPE,
            env=environment(),
            # The tests themselves may have been started with Ctrl-C ignored.
            preexec_fn=lambda: take(signal.SIGINT, ignores),
        )
        self.addCleanup(end, running)
        return running

    def test_ctrl_c_while_the_command_begins(self) -> None:
        # The same command with a module that says that it is there, and waits for a byte.
        slow = new_folder(self.addCleanup) / "slow"
        shutil.copytree(self.folder, slow, symlinks=True)
        module = slow / self.package.relative_to(self.folder) / "_folder.py"
        module.write_text("import os\nos.write(1, b'.')\nos.read(0, 1)\n")
        hello = b"Hello, world!\nHalted\n"
        for ignores, code, out in ((False, -signal.SIGINT, b""), (True, 0, hello)):
            running = self.started(slow / PREFIX, "run", HELLO, ignores=ignores)
            assert running.stdout is not None
            self.assertEqual(running.stdout.read(1), b".")
            running.send_signal(signal.SIGINT)
            shown, said = running.communicate(b"\n", timeout=60)
            # It ends as any program does, and not in the middle of a line of Python.
            self.assertEqual((running.returncode, shown), (code, out), said)
            self.assertNotIn(b"Traceback", said)
            self.assertEqual(said.count(b"\n"), int(ignores))

    def test_ctrl_c_when_the_command_has_begun(self) -> None:
        # It waits for an object file, which nobody writes.
        pipe = new_folder(self.addCleanup) / "program.obj"
        os.mkfifo(pipe)
        for command in ("run", "list", "log"):
            running = self.started(self.prefix, command, pipe)
            with open(pipe, "wb"):
                # It has opened the pipe.
                running.send_signal(signal.SIGINT)
                self.assertEqual(running.wait(60), 1)
            _, said = running.communicate()
            self.assertEqual(said, b"lc3: stopped by Ctrl-C\n")

    def test_the_command_marks_in_processes_of_its_own(self) -> None:
        cases = new_folder(self.addCleanup)
        (cases / "greeting.expected").write_text("Hello, world!\nHalted\n")
        marking = (self.prefix / "bin/lc3", "mark", "--jobs", "2", "--cases", cases)
        self.assertEqual(obey(*marking, HELLO, HELLO).returncode, 0)
        self.assertEqual(obey(*marking, HELLO, HELLO.with_name("sieve.obj")).returncode, 1)


@unittest.skipUnless(
    (ROOT / "build" / "libfanthrig.a").exists(), "no library: `make lib` comes first"
)
class Elsewhere(unittest.TestCase):
    """Folders of other names, and with spaces in them."""

    def check(self, prefix: str, libraries: str) -> Path:
        """That the command and a program in C work from a prefix with its folder for libraries,
        wherever the tree is moved to. It answers where that is."""
        folder = new_folder(self.addCleanup)
        make("install", folder / "staged", f"PREFIX={prefix}", f"LIBDIR={prefix}/{libraries}")
        (folder / "staged").rename(folder / "moved")
        placed = folder / f"moved{prefix}"
        said = obey(placed / "bin/lc3", "run", HELLO)
        self.assertEqual((said.returncode, said.stdout), (0, "Hello, world!\nHalted\n"))
        program = "import fanthrig; print(fanthrig._library.LIBRARY.path)"
        python = (placed / "bin/lc3").read_text().split()[0][2:]
        package = next(placed.glob("lib/python3*/*-packages/fanthrig"))
        found = obey(python, "-c", program, PYTHONPATH=str(package.parent)).stdout
        self.assertEqual(found, f"{placed / libraries / f'libfanthrig.so.{fanthrig.VERSION}'}\n")
        return placed

    def test_a_folder_for_libraries_of_any_name(self) -> None:
        for libraries in ("lib64", "lib/x86_64-linux-gnu", "other/libraries"):
            self.check("/opt/lc3", libraries)

    def test_a_prefix_that_ends_in_a_slash_or_is_the_root(self) -> None:
        for prefix in ("/opt/lc3/", ""):
            self.check(prefix, "lib")

    def test_spaces_in_paths(self) -> None:
        placed = self.check("/opt/R&D machines", "lib of mine")
        if not (shutil.which("gcc") and shutil.which("pkg-config")):
            self.skipTest("gcc or pkg-config not found")
        where = {
            "PKG_CONFIG_LIBDIR": str(placed / "lib of mine/pkgconfig"),
            "PKG_CONFIG_SYSROOT_DIR": str(placed.parent.parent),
        }
        (placed / "program.c").write_text(PROGRAM)
        flags = shlex.split(obey("pkg-config", "--cflags", "--libs", "fanthrig", **where).stdout)
        made = obey("gcc", "-Wall", placed / "program.c", "-o", placed / "program", *flags)
        self.assertEqual((made.returncode, made.stderr), (0, ""))
        said = obey(placed / "program", LD_LIBRARY_PATH=str(placed / "lib of mine"))
        self.assertEqual(said.stdout, f"{fanthrig.VERSION} ADD R2, R3, #7\n")


@unittest.skipUnless(
    (ROOT / "build" / "libfanthrig.a").exists(), "no library: `make lib` comes first"
)
class Uninstalled(unittest.TestCase):
    """What ``make uninstall`` leaves, by the usual prefix and by others."""

    def installed(self, *settings: str) -> set[str]:
        """The files that are installed, and taken away again."""
        with tempfile.TemporaryDirectory() as name:
            folder = Path(name)
            make("install", folder, *settings)
            found = files(folder)
            make("uninstall", folder, *settings)
            self.assertEqual(list(folder.rglob("*")), [])
            return found

    def test_uninstalling_takes_nothing_else(self) -> None:
        folder = new_folder(self.addCleanup)
        make("install", folder)
        package = next(folder.glob(f"{PREFIX}/lib/python3*/*-packages/fanthrig"))
        cached = package / "__pycache__" / "words.cpython-399.pyc"
        names = ("lib/other.a", "include/other.h", "bin/other")
        others = [folder / PREFIX / name for name in names]
        for path in [cached, package.parent / "other.py", *others]:
            path.write_text("")
        make("uninstall", folder)
        left = {str(path.relative_to(folder)) for path in [package.parent / "other.py", *others]}
        self.assertEqual((files(folder), package.exists()), (left, False))

    def test_no_folder_of_our_own_is_left(self) -> None:
        prefix = new_folder(self.addCleanup)
        for target in ("install", "uninstall"):
            make(target, prefix, "DESTDIR=", f"PREFIX={prefix}", "LOADER=")
        self.assertEqual([path for path in prefix.rglob("*") if path.name == "fanthrig"], [])

    def test_a_prefix_in_which_no_python_looks(self) -> None:
        found = self.installed("PREFIX=/opt/lc3")
        self.assertIn("opt/lc3/lib/python3/dist-packages/fanthrig/words.py", found)
        self.assertIn("opt/lc3/bin/lc3", found)

    def test_a_folder_for_libraries(self) -> None:
        self.installed("PREFIX=/opt/my machines", "LIBDIR=/opt/my machines/lib64")
        found = self.installed("PREFIX=/usr", "LIBDIR=/usr/lib/x86_64-linux-gnu")
        names = ("libfanthrig.a", "libfanthrig.so", "pkgconfig/fanthrig.pc")
        self.assertLessEqual({f"usr/lib/x86_64-linux-gnu/{name}" for name in names}, found)
        self.assertIn("usr/include/fanthrig/lc3.h", found)


class Manual(unittest.TestCase):
    """docs/lc3.1, docs/lc3-debug.1 and docs/lc3-mark.5."""

    def test_no_warning(self) -> None:
        if not (shutil.which("man") and shutil.which("groff")):
            self.skipTest("man or groff not found")
        for manual in (MANUAL, DEBUG_MANUAL, FORMATS):
            said = obey("man", "--warnings", "-l", manual, LC_ALL="C.UTF-8", MANPAGER="cat")
            self.assertEqual((said.returncode, said.stderr), (0, ""))

    def test_every_command_of_the_debugger_is_there(self) -> None:
        text = DEBUG_MANUAL.read_text(encoding="ascii").replace("\\-", "-")
        debugger = Debugger(fanthrig.Sitting(), {}, Console())
        for name in debugger.commands:
            self.assertRegex(text, rf'(?m)^\.B[IR]? (\w+ ", " )?{name}\b')
        options = dict(commands(parser()))["debug"]
        for option in (o for action in options._actions for o in action.option_strings):
            self.assertIn(option, text + "-h --help", option)

    def test_every_command_and_option_is_there(self) -> None:
        text = MANUAL.read_text(encoding="ascii").replace("\\-", "-")
        for name, command in commands(parser()):
            self.assertIn(f".B lc3 {name}", text)
            for option in (o for action in command._actions for o in action.option_strings):
                if option != "-h":
                    self.assertRegex(text, rf"(?m)^\.BI? (lc3 )?.*{re.escape(option)}\b")

    def test_the_environment(self) -> None:
        for document in (MANUAL, ROOT / "docs/GUIDE.md"):
            self.assertIn("FANTHRIG_LIBRARY", document.read_text(encoding="utf-8"))

    def test_version_and_lines(self) -> None:
        for manual in (MANUAL, DEBUG_MANUAL, FORMATS):
            text = manual.read_text(encoding="ascii")
            self.assertIn(f'"lc3 {fanthrig.__version__}, interface {fanthrig.VERSION}"', text)
            self.assertLessEqual(max(map(len, text.splitlines())), 120)

    def test_every_member_of_a_case_is_there(self) -> None:
        text = FORMATS.read_text(encoding="ascii")
        for name in MEMBERS:
            self.assertIn(f".TP\n.I {name}\n", text)
        told = " ".join(text.replace("\\-", "-").split())
        for word in (*ENDS, *CHOICES):
            self.assertIn(word, told)


def commands(whole: argparse.ArgumentParser) -> Iterator[tuple[str, argparse.ArgumentParser]]:
    """The commands of a parser, with their own."""
    for action in whole._actions:
        if isinstance(action, argparse._SubParsersAction):
            yield from action.choices.items()


if __name__ == "__main__":
    unittest.main()
