"""The programs of examples/: their listings, and what each shows and how it stops."""

from __future__ import annotations

import contextlib
import doctest
import importlib.util
import io
import os
import re
import shutil
import subprocess
import sys
import tempfile
import unittest
from pathlib import Path
from types import ModuleType
from typing import Any

import fanthrig

from . import ROOT

EXAMPLES = ROOT / "examples"
NAMES = ["answers", "echo", "examiner", "hello", "leaky", "marking", "monitor", "service"]
NAMES += ["sieve", "tasks"]
PRIMES = [n for n in range(2, 100) if all(n % d for d in range(2, n))]


def make_script() -> ModuleType:
    """examples/make.py as a module."""
    spec = importlib.util.spec_from_file_location("examples_make", EXAMPLES / "make.py")
    assert spec and spec.loader
    module = importlib.util.module_from_spec(spec)
    spec.loader.exec_module(module)
    return module


MAKE = make_script()


def sitting(name: str, *examiner: str, **settings: Any) -> fanthrig.Sitting:
    """A sitting with an example that runs, beside others that are the examiner's."""
    before = [EXAMPLES / f"{other}.obj" for other in examiner]
    return fanthrig.Sitting(EXAMPLES / f"{name}.obj", examiner=before, **settings)


def tasks() -> fanthrig.Sitting:
    """A sitting with the tasks, which have words below x3000."""
    return sitting("tasks", mode=fanthrig.Mode.SUPERVISOR, anywhere=True)


class Programs(unittest.TestCase):
    """What each program shows, and where it stops."""

    def halts(
        self, sat: fanthrig.Sitting, display: str, reason: fanthrig.Reason = fanthrig.Reason.TRAP
    ) -> None:
        """Runs to the halt. The last step out of User mode was for the reason."""
        self.assertEqual(sat.run(100_000).stop, fanthrig.Stop.HALTED)
        self.assertEqual(sat.display, display)
        steps = [step for step in sat.last_steps(sat.clock) if step.pc >= fanthrig.USER_ORIGIN]
        self.assertEqual(steps[-1].reason, reason)

    def test_hello(self) -> None:
        self.halts(sitting("hello"), "Hello, world!\nHalted\n")

    def test_echo_up_to_a_full_stop(self) -> None:
        sat = sitting("echo")
        keys = (EXAMPLES / "echo.keys").read_bytes()
        sat.type(keys + b"not read")
        shown = keys.decode("ascii")
        self.assertEqual(shown.index("."), len(shown) - 2)
        self.halts(sat, shown + "Halted\n")

    def test_echo_waits_for_keys(self) -> None:
        sat = sitting("echo")
        sat.type("no end")
        self.assertEqual(sat.run(10_000).stop, fanthrig.Stop.DONE)
        self.assertEqual((sat.display, sat.waits()), ("no end", True))

    def test_sieve(self) -> None:
        self.halts(sitting("sieve"), "".join(f"{n} " for n in PRIMES) + "\nHalted\n")

    def test_sieve_again_over_the_same_memory(self) -> None:
        sat = sitting("sieve")
        sat.run(100_000)
        display = sat.display
        sat.start()
        self.halts(sat, display)

    def test_tasks_take_turns(self) -> None:
        sat = tasks()
        expected = "ABCDEFGHI01234567JKLMNOPQ89012345RSTUVWXYZ678901234\nHalted\n"
        self.halts(sat, expected, fanthrig.Reason.TRAP)
        reasons = [step.reason for step in sat.last_steps(sat.clock)]
        self.assertEqual(reasons.count(fanthrig.Reason.TIMER), 6)

    def test_tasks_lose_nothing_whatever_the_turn(self) -> None:
        for steps in (50, 77, 100, 131, 1000):
            sat = tasks()
            sat.memory[0x2FF8] = steps
            self.assertEqual(sat.run(100_000).stop, fanthrig.Stop.HALTED)
            others = "".join(c for c in sat.display if not c.isdigit())
            self.assertEqual(others, "ABCDEFGHIJKLMNOPQRSTUVWXYZ\nHalted\n")
            digits = "".join(c for c in sat.display if c.isdigit())
            self.assertEqual(digits, ("0123456789" * 100)[: len(digits)])

    def test_tasks_need_supervisor_mode(self) -> None:
        with self.assertRaisesRegex(fanthrig.Refused, r"tasks.obj: refused \(21\)"):
            sitting("tasks", mode=fanthrig.Mode.SUPERVISOR)
        sat = sitting("tasks", anywhere=True)
        self.assertEqual((sat.run(1000).stop, sat.display), (fanthrig.Stop.HALTED, ""))
        self.assertEqual(sat.last_steps(sat.clock)[0].reason, fanthrig.Reason.ACCESS)

    def test_answers_are_not_given(self) -> None:
        sat, shown = sitting("answers", "examiner"), "The first answer is:\n"
        self.halts(sat, shown, fanthrig.Reason.ACCESS)
        self.assertEqual(sat.memory[0x2000], ord("B"))
        other = sitting("answers", "examiner")
        for address in range(0x2000, 0x2004):
            other.memory[address] = ord("Z")
        self.halts(other, shown, fanthrig.Reason.ACCESS)
        self.assertEqual(other.record, sat.record)
        self.assertEqual(other.last_steps(other.clock), sat.last_steps(sat.clock))


class Certified(unittest.TestCase):
    """The class's monitor, its service, and the marking routine that a host starts."""

    def sat(self, name: str = "hello", service: str = "service") -> fanthrig.Sitting:
        """A sitting beside the class's monitor, with the marking routine in memory."""
        return sitting(name, "monitor", service, "marking", monitor=False)

    def test_the_monitor_serves_the_examples(self) -> None:
        for name, keys in (("hello", b""), ("echo", b"To be."), ("sieve", b"")):
            sat, other = self.sat(name), sitting(name)
            for each in (sat, other):
                each.type(keys)
                self.assertEqual(each.run(100_000).stop, fanthrig.Stop.HALTED)
            self.assertEqual(sat.display, other.display)

    def test_in_and_strings_that_are_refused(self) -> None:
        sat = self.sat()
        # IN, and then PUTS of the answers, which shows nothing.
        words = [0xF023, fanthrig.word("LD R0, #2"), 0xF022, 0xF025, 0x2027]
        sat.memory[0x3000:0x3005] = words
        sat.type("k")
        self.assertEqual(sat.run(10_000).stop, fanthrig.Stop.HALTED)
        self.assertEqual(sat.display, "Key> kHalted\n")

    def test_the_service_counts(self) -> None:
        sat = self.sat()
        sat.memory[0x3000:0x3004] = [0xF026, 0xF026, 0xF026, 0xF025]
        sat.run(10_000)
        self.assertEqual(sat.ending.record.regs[0], 3)

    def test_the_marking_routine_marks(self) -> None:
        for given, mark in (("BDAC", 4), ("BDAA", 3), ("XXXX", 0)):
            sat = self.sat()
            sat.memory[0x4000:0x4004] = [ord(letter) for letter in given]
            self.assertEqual(sat.run(10_000).stop, fanthrig.Stop.HALTED)
            sat.start(0x2000, fanthrig.Mode.SUPERVISOR)
            self.assertEqual(sat.run(10_000).stop, fanthrig.Stop.HALTED)
            self.assertEqual(sat.display, f"Mark {mark} of 4\nHalted\n")

    def test_the_leaky_service_leaks(self) -> None:
        sat = self.sat(service="leaky")
        sat.memory[0x3000:0x3004] = [fanthrig.word("LD R0, #2"), 0xF026, 0xF025, ord("B")]
        sat.run(10_000)
        self.assertEqual(sat.ending.record.regs[0], 1)


class Listings(unittest.TestCase):
    """The listings are the sources of the object files."""

    def test_all_are_there_and_agree(self) -> None:
        self.assertEqual(sorted(path.stem for path in EXAMPLES.glob("*.lst")), NAMES)
        self.assertEqual(sorted(path.stem for path in EXAMPLES.glob("*.obj")), NAMES)
        with contextlib.redirect_stdout(io.StringIO()) as said:
            self.assertEqual(MAKE.main(["--check"]), 0)
        self.assertIn(f"{len(NAMES)} object files agree", said.getvalue())

    def test_the_lines_are_those_of_the_library(self) -> None:
        for name in NAMES:
            for text in (EXAMPLES / f"{name}.lst").read_text(encoding="ascii").splitlines():
                self.assertLessEqual(len(text), 120)
                match = MAKE.LINE.fullmatch(text)
                if match and not match[3].startswith(".FILL"):
                    self.assertEqual(fanthrig.line(int(match[2], 16)), match[3])

    def test_each_listing_names_its_command(self) -> None:
        for name in set(NAMES) - {"examiner"}:
            listing = (EXAMPLES / f"{name}.lst").read_text(encoding="ascii")
            self.assertRegex(listing, rf"; +lc3 (run|certify) .*examples/{name}\.obj")


class Demonstration(unittest.TestCase):
    """examples/run.sh, which `make run` runs."""

    def test_it_shows_what_the_programs_show(self) -> None:
        script = EXAMPLES / "run.sh"
        said = subprocess.run([script], capture_output=True, text=True, stdin=subprocess.DEVNULL)
        self.assertEqual((said.returncode, said.stderr), (0, ""))
        for text in (
            "$ lc3 run examples/hello.obj </dev/null\nHello, world!\nHalted\nlc3: ",
            "The first answer is:\nlc3: stopped by the access exception; ",
            "access exception",
            "With the answers in memory and without them, all ",
        ):
            self.assertIn(text, said.stdout)


class Documents(unittest.TestCase):
    """What README.md and docs/GUIDE.md show of the command and the module."""

    def setUp(self) -> None:
        documents = (ROOT / "README.md", ROOT / "docs/GUIDE.md")
        self.text = "".join(document.read_text(encoding="utf-8") for document in documents)
        self.addCleanup(os.chdir, os.getcwd())
        os.chdir(ROOT)

    def test_the_module(self) -> None:
        block = self.text.split("```python\n")[1].split("```\n")[0]
        test = doctest.DocTestParser().get_doctest(block, {}, "GUIDE.md", "GUIDE.md", 0)
        self.assertGreater(len(test.examples), 5)
        self.assertEqual(doctest.DocTestRunner(verbose=False).run(test).failed, 0)

    def test_the_command(self) -> None:
        shown = re.findall(r"\nlc3 (.*)\n```\n\n```text\n((?:[^`].*\n)+)```\n", self.text)
        self.assertEqual([command.split()[0] for command, _ in shown], ["run", "log"])
        for command, block in shown:
            words = [sys.executable, "-m", "fanthrig", *command.split()]
            said = subprocess.run(
                words,
                env={**os.environ, "PYTHONPATH": str(ROOT / "python")},
                stdout=subprocess.PIPE,
                stderr=subprocess.STDOUT,
                stdin=subprocess.DEVNULL,
                text=True,
            )
            for line in block.splitlines():
                self.assertIn(line.removesuffix(", .."), said.stdout)


class MakeScript(unittest.TestCase):
    """What examples/make.py says of listings and object files that are wrong."""

    def setUp(self) -> None:
        folder = tempfile.TemporaryDirectory()
        self.addCleanup(folder.cleanup)
        self.listing = Path(folder.name) / "hello.lst"
        shutil.copy(EXAMPLES / "hello.lst", self.listing)
        self.object = self.listing.with_suffix(".obj")

    def said(self, *arguments: str) -> tuple[int, str]:
        """The exit status of the script for the copy, and what it says."""
        with contextlib.redirect_stdout(io.StringIO()) as out:
            with contextlib.redirect_stderr(out):
                status = MAKE.main([*arguments, str(self.listing)])
        return status, out.getvalue()

    def altered(self, old: str, new: str) -> None:
        """Alters the copy of the listing in one place."""
        text = self.listing.read_text(encoding="ascii")
        self.assertEqual(text.count(old), 1)
        self.listing.write_text(text.replace(old, new), encoding="ascii")

    def test_it_makes_the_same_file(self) -> None:
        self.assertIn("hello.obj: it is missing", self.said("--check")[1])
        self.assertFalse(self.object.exists())
        self.assertEqual(self.said()[0], 0)
        self.assertEqual(self.object.read_bytes(), (EXAMPLES / "hello.obj").read_bytes())
        self.assertEqual(self.said("--check")[0], 0)

    def test_a_file_of_other_words(self) -> None:
        self.object.write_bytes(bytes.fromhex("3000 F025"))
        status, said = self.said("--check")
        self.assertEqual(status, 1)
        self.assertIn("hello.obj: it is not the object file of hello.lst", said)

    def test_wrong_lines(self) -> None:
        for old, new, problem in (
            ("xE002", "xE003", ":7: the word is xE003, and LEA R0, #2 is xE002"),
            ("LEA R0, #2", "LEA R8, #2", ":7: 'LEA R8, #2': operand 1 of LEA: R8 is no register"),
            ("x3001  ", "x3002  ", ":8: the address is x3002, and x3001 expected"),
            ("; PUTS shows it", "", ":8: an address, a word, a line of text and a comment"),
        ):
            with self.subTest(problem):
                shutil.copy(EXAMPLES / "hello.lst", self.listing)
                self.altered(old, new)
                status, said = self.said()
                self.assertEqual(status, 1)
                self.assertIn(f"hello.lst{problem}", said)
                self.assertFalse(self.object.exists())

    def test_no_listing(self) -> None:
        self.listing.write_text("; nothing\n", encoding="ascii")
        self.assertIn("it has no words", self.said()[1])
        self.listing.write_bytes(b"\xff")
        self.assertEqual(self.said()[0], 1)
        self.listing.unlink()
        self.assertIn("No such file", self.said()[1])


if __name__ == "__main__":
    unittest.main()
