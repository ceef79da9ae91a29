"""A candidate's file gets nowhere but User mode's words, whoever starts it, and whatever it is; the
examiner's files lie outside them, and no file overlaps another."""

from __future__ import annotations

import argparse
import json
import random
import unittest
from functools import partial
from typing import Any
from unittest import mock

import fanthrig
from fanthrig import PlaceError, Refused, Sitting
from fanthrig.command.files import sitting_of
from fanthrig.command.options import parser
from fanthrig.marking import Options
from fanthrig.marking.playing import sitting_of as marked_sitting_of
from fanthrig.telling import FileError

from .command_support import HELLO, Folder, ran
from .support import COUNTING, object_file, random_word

USER_WORDS = range(0x3000, 0xFE00)
PRIVILEGED = [*range(0x3000), *range(0xFE00, 0x10000)]

# At x0102, the vector of the access exception: its words then run in Supervisor mode, and show the
# first answer.
TAKE_OVER = bytes.fromhex("0102 0103 A002 B002 0E02 2000 FE06 5260 B201 0FFF FFFE")
ANSWERS = object_file(0x2000, *b"BDAC")

# Where a hostile file would lie: at the ends of User mode's words and of memory, at vectors, in the
# monitor's routines, on its stack, at device registers.
CHOSEN = [0x2FFF, 0x3000, 0x3001, 0xFDFE, 0xFDFF, 0xFE00, 0xFFFE, 0xFFFF, 0x0000, 0x0025, 0x0100]
CHOSEN += [0x0102, 0x0180, 0x01FF, 0x0200, 0x026D, 0x02A4, 0x2000, 0x2FF0, 0x2FF6, 0xFE06, 0xFFFC]


def outside(words: memoryview) -> bytes:
    """The words outside User mode's, and outside the monitor's stack, which every trap uses."""
    return words[:0x2FF6].tobytes() + words[0xFE00:].tobytes()


def random_file(rng: random.Random) -> bytes:
    """A file of any origin and words, often near the ends of what is allowed."""
    origin = rng.choice([rng.getrandbits(16), rng.choice(CHOSEN), rng.choice(USER_WORDS)])
    count = rng.choice([0, 1, 2, rng.randrange(40), rng.randrange(40), rng.randrange(3000)])
    if rng.random() < 0.2:
        # Up to one of the ends, or one word beyond.
        end = rng.choice([0x3000, 0xFE00, 0x10000]) + rng.choice([0, 1])
        count = max(end - origin, 0) if end - origin < 3000 else count
    words = [random_word(rng) for _ in range(min(count, 40))]
    file = object_file(origin, *words) + bytes(2 * (count - len(words)))
    return file[: rng.randrange(len(file) + 1)] if rng.random() < 0.05 else file


def is_confined(file: bytes) -> bool:
    """Whether a file is a candidate's: an origin and words, all of them among User mode's."""
    origin, words = int.from_bytes(file[:2], "big"), len(file) // 2 - 1
    fits = origin in USER_WORDS and origin + words <= USER_WORDS.stop
    return len(file) >= 2 and len(file) % 2 == 0 and fits


class Candidates(unittest.TestCase):
    """Files that are not trusted, by the module."""

    def refused(self, number: int, *files: bytes, **settings: Any) -> None:
        """That a sitting is refused."""
        with self.assertRaises(Refused) as caught:
            Sitting(*files, **settings)
        self.assertEqual(caught.exception.number, number)

    def test_the_vector_of_the_access_exception(self) -> None:
        self.refused(21, TAKE_OVER, examiner=[ANSWERS])
        self.refused(21, HELLO, TAKE_OVER, examiner=[ANSWERS])
        self.refused(21, TAKE_OVER, HELLO, examiner=[ANSWERS])
        self.refused(21, TAKE_OVER, examiner=[ANSWERS], monitor=False)
        self.refused(21, TAKE_OVER, mode=fanthrig.Mode.SUPERVISOR)
        self.refused(21, TAKE_OVER, monitor=False, edition=2)
        self.refused(21, TAKE_OVER, pc=0x3000)
        trusted = Sitting(TAKE_OVER, anywhere=True)
        trusted.load(ANSWERS)
        trusted.start(0x0102)
        trusted.run(100)
        self.assertEqual(trusted.display, "B")

    def test_every_privileged_word(self) -> None:
        sitting = Sitting(examiner=[ANSWERS])
        before, programs = sitting.memory.words.tobytes(), list(sitting.programs)
        for address in PRIVILEGED:
            for file in (object_file(address), object_file(address, 0xFFFF)):
                with self.assertRaises(Refused) as caught:
                    sitting.load(file)
                self.assertEqual(caught.exception.number, 21, hex(address))
        self.assertEqual((sitting.memory.words.tobytes(), sitting.programs), (before, programs))

    def test_the_ends(self) -> None:
        words = [1] * len(USER_WORDS)
        self.assertEqual(Sitting(object_file(0x3000, *words)).memory[0xFDFF], 1)
        self.assertEqual(Sitting(object_file(0xFDFF, 7)).memory[0xFDFF], 7)
        self.assertEqual(Sitting(object_file(0xFDFF))["PC"], 0xFDFF)
        self.refused(21, object_file(0x3000, *words, 1))
        self.refused(21, object_file(0x2FFF, 1, 1))
        self.refused(21, object_file(0xFDFF, 1, 1))
        self.refused(21, object_file(0x2FFF))
        self.refused(21, object_file(0xFE00))
        self.refused(18, object_file(0xFFFF, 1, 1))
        self.refused(18, object_file(0x3000, *[1] * 0xD001))
        self.refused(17, b"")
        self.refused(17, b"\x30")
        self.refused(17, HELLO + b"\x00")

    def test_the_start(self) -> None:
        for pc in PRIVILEGED[::97]:
            with self.assertRaisesRegex(PlaceError, f"PC x{pc:04X} is refused"):
                Sitting(HELLO, pc=pc)
            self.assertEqual(Sitting(HELLO, pc=pc, mode=fanthrig.Mode.SUPERVISOR)["PC"], pc)
            self.assertEqual(Sitting(HELLO, pc=pc, anywhere=True)["PC"], pc)
        sitting = Sitting(HELLO)
        sitting.run(5)
        before = sitting.record
        with self.assertRaises(PlaceError):
            sitting.start(0x0200)
        self.assertEqual((sitting.record, sitting.clock), (before, 5))
        sitting.start(0x0200, anywhere=True)
        self.assertEqual((sitting["PC"], sitting.record.mode), (0x0200, fanthrig.Mode.USER))

    def test_later_files(self) -> None:
        sitting = Sitting(HELLO, examiner=[ANSWERS])
        sitting.run(5)
        with self.assertRaises(Refused):
            sitting.load(object_file(0x2000, 1))
        self.assertEqual(sitting.recording().alterations, ())
        sitting.load(object_file(0x3000, 0xF025))
        sitting.load(object_file(0x2000, 1), anywhere=True)
        self.assertEqual((sitting["x3000"], sitting["x2000"]), (0xF025, 1))
        self.assertEqual(len(sitting.recording().alterations), 2)

    def test_random_files(self) -> None:
        rng, taken = random.Random(33), 0
        fresh = outside(Sitting(examiner=[ANSWERS]).memory.words)
        for number in range(10_000):
            file = random_file(rng)
            try:
                sitting = Sitting(file, examiner=[ANSWERS])
            except Refused as refused:
                self.assertFalse(is_confined(file), (number, refused))
                continue
            self.assertTrue(is_confined(file), number)
            self.assertEqual(outside(sitting.memory.words), fresh, number)
            sitting.run(200)
            self.assertEqual(outside(sitting.memory.words), fresh, number)
            taken += 1
        self.assertGreater(taken, 3000)
        self.assertLess(taken, 7000)


class Examiners(unittest.TestCase):
    """The examiner's files, by the module."""

    def refused(self, text: str, *files: bytes, **settings: Any) -> None:
        """That a sitting is refused with a text."""
        with self.assertRaisesRegex(PlaceError, text):
            Sitting(*files, **settings)

    def test_privileged_memory_alone(self) -> None:
        for origin, words, said in (
            (0x4000, 2, "it has x4000 to x4001, which every program reads"),
            (0x3000, 1, "it has x3000, which"),
            (0x2FF5, 12, "it has x3000, which"),
            (0xFDFF, 2, "it has xFDFF, which"),
            (0x2000, 0xE000, "it has x3000 to xFDFF, which"),
            (0x3000, 0, "it has x3000, which"),
        ):
            file = object_file(origin, *[1] * words)
            self.refused(said, HELLO, examiner=[file], monitor=False)
            sitting = Sitting(examiner=[file], anywhere=True, monitor=False)
            self.assertEqual(sitting.memory.words.tolist().count(1), words)
        for origin in (0x0300, 0x2FF0, 0xFE00, 0xFFFF):
            sitting = Sitting(HELLO, examiner=[object_file(origin, 7)])
            self.assertEqual((sitting.memory[origin], sitting["PC"]), (7, 0x3000))

    def test_beside_the_monitor(self) -> None:
        for origin, words, said in (
            (0x0000, 1, "overlaps the ready-made monitor at x0000: give"),
            (0x0102, 1, "overlaps the ready-made monitor at x0102: give"),
            (0x0200, 0x1000, "overlaps the ready-made monitor at x0200 to x02A4: give"),
            (0x02A4, 2, "overlaps the ready-made monitor at x02A4: give"),
            (0x2FF5, 2, "overlaps the stack of the ready-made monitor at x2FF6: give"),
            (0x2FFF, 1, "overlaps the stack of the ready-made monitor at x2FFF: give"),
        ):
            file = object_file(origin, *[0x7777] * words)
            self.refused(said, HELLO, examiner=[file])
            for settings in ({"monitor": False}, {"anywhere": True}):
                sitting = Sitting(HELLO, examiner=[file], **settings)  # type: ignore[arg-type]
                self.assertEqual(sitting.memory[origin + words - 1], 0x7777)
        self.assertEqual(Sitting(examiner=[object_file(0x02A5, 7)]).memory[0x02A5], 7)
        self.assertEqual(Sitting(examiner=[object_file(0x2FF5, 7)]).memory[0x2FF5], 7)

    def test_the_monitor_s_stack_is_that_deep(self) -> None:
        # PUTSP in User mode with both interrupts enabled: each leads to BACK, the timer's within
        # the keyboard's.
        deepest = 0x3000
        for time in range(40):
            for interval in range(1, 40):
                sitting = Sitting(object_file(0x3000, "LEA R0, #1", "TRAP x24", 0x6261, 0))
                sitting["KBSR"], sitting["TSR"], sitting["TIR"] = 0x4000, 0x4000, interval
                sitting.press(b"k", time)
                sitting.run(60)
                used = [a for a in range(0x2F00, 0x3000) if sitting.memory[a]]
                deepest = min([deepest, *used])
        self.assertEqual(deepest, 0x2FF6)

    def test_overlaps_are_named(self) -> None:
        a, b = object_file(0x2000, 1, 2, 3), object_file(0x2002, 4, 5)
        self.refused("file at x2002: refused: it overlaps the file at x2000 at x2002: ",
                     examiner=[a, b])
        self.refused("it overlaps the file at x3000 at x3001: ", COUNTING, object_file(0x3001, 7))
        self.refused("it overlaps the file at x3000 at x3000 to x3001: ", COUNTING, COUNTING)
        self.refused("it overlaps the file at x2000 at x2001: ", object_file(0x2001, 7),
                     examiner=[a], anywhere=True)
        sitting = Sitting(object_file(0x3002, 7), COUNTING, examiner=[object_file(0x2003, 7), a])
        self.assertEqual([program.origin for program in sitting.programs],
                         [0x2003, 0x2000, 0x3002, 0x3000])

    def test_a_file_is_loaded_anew_for_a_new_start(self) -> None:
        sitting = Sitting(COUNTING)
        sitting.load(HELLO)
        sitting.start()
        sitting.run(1000)
        self.assertEqual(sitting.display, "Hi\nHalted\n")

    def test_a_list_is_asked_for(self) -> None:
        for one in ("answers.obj", ANSWERS, bytearray(ANSWERS)):
            with self.assertRaisesRegex(TypeError, "write examiner="):
                Sitting(HELLO, examiner=one)  # type: ignore[arg-type]


class Commands(Folder):
    """The same by the command."""

    def setUp(self) -> None:
        """Makes the examiner's files, and a case that asks for the first answer."""
        super().setUp()
        self.answers = self.file("answers.obj", ANSWERS)
        self.cases = self.file("cases.json", json.dumps([{"name": "one", "expected": "B"}]))

    def commands(self) -> list[tuple[object, ...]]:
        """Each command that runs a candidate."""
        examiner = ("--with", self.answers)
        return [
            ("run", "--steps", 100, *examiner),
            ("run", "--steps", 100, "--supervisor", *examiner),
            ("run", "--steps", 100, "--no-monitor", "--edition", 2, *examiner),
            ("log", "--steps", 100, *examiner),
            ("log", "--last", 3, "--steps", 100, *examiner),
            ("mark", "--cases", self.cases, "--one", *examiner),
            ("mark", "--cases", self.cases, "--one", "--supervisor", *examiner),
        ]

    def refused(self, path: object, said: str) -> None:
        """That every command refuses a candidate."""
        for command in self.commands():
            done = ran(*command, path)
            if command[0] == "mark":
                result = json.loads(done.out)
                self.assertEqual((result["verdict"], result["right"]), ("refused", 0))
                self.assertIn(said, result["problem"])
            else:
                self.assertEqual((done.code, done.out), (3, b""), done)
                self.assertTrue(done.err.startswith(f"lc3: {path}: refused"), done.err)
                self.assertIn(said, done.err)

    def test_hostile_candidates(self) -> None:
        self.refused(self.file("take.obj", TAKE_OVER), "refused (21)")
        for origin in (*CHOSEN[5:], 0x2FFF):
            self.refused(self.file("word.obj", object_file(origin, 1)), "refused (21)")
        for end in (0x3000, 0xFE00):
            self.refused(self.file("end.obj", object_file(end - 1, 1, 1)), "refused (21)")
        self.refused(self.file("wraps.obj", object_file(0xFFFF, 1, 1)), "refused (18)")
        self.refused(self.file("empty.obj", b""), "refused (17)")

    def test_broken_files_of_the_examiner_s(self) -> None:
        hello = self.file("hello.obj", HELLO)
        for name, content, said in (
            ("odd.obj", ANSWERS + b"\x00", "refused (17)"),
            ("empty.obj", b"", "refused (17)"),
            ("wraps.obj", object_file(0xFFFF, 1, 1), "refused (18)"),
            ("answers.txt", b"B\nD\nA\nC\n", "it is text"),
        ):
            broken = self.file(name, content)
            for command in self.commands():
                done = ran(*command, "--with", broken, hello)
                self.assertEqual((done.code, done.out, done.err.count("\n")), (3, b"", 1), done)
                self.assertTrue(done.err.startswith(f"lc3: {broken}: refused"), done.err)
                self.assertIn(said, done.err)
            done = ran("mark", "--cases", self.cases, "--data", broken, hello)
            self.assertEqual((done.code, done.out), (3, b""))
        for command in self.commands():
            self.assertEqual(ran(*command, "--with", self.folder, hello).code, 3)
            self.assertEqual(ran(*command, "--with", self.folder / "none", hello).code, 3)

    def test_how_trust_is_said(self) -> None:
        done = ran("run", self.answers, self.file("hello.obj", HELLO))
        self.assertIn("; name a file that you trust by --with, or have every", done.err)
        done = ran("mark", "--cases", self.cases, "--one", self.answers)
        self.assertNotIn("trust", json.loads(done.out)["problem"])

    def test_trusted_files(self) -> None:
        take = self.file("take.obj", TAKE_OVER)
        self.assertEqual(ran("run", "--anywhere", "--with", self.answers, take).out, b"B")
        done = ran("mark", "--anywhere", "--cases", self.cases, take)
        self.assertEqual((done.code, "unrecognized arguments" in done.err), (2, True))

    def test_the_start(self) -> None:
        hello = self.file("hello.obj", HELLO)
        for command in self.commands():
            done = ran(*command, "--pc", "x0200", hello)
            if "--supervisor" in command:
                self.assertIn(done.code, (0, 1))
            else:
                self.assertEqual((done.code, done.out), (2, b""), done)
                self.assertIn("PC x0200 is refused", done.err)
        self.assertNotEqual(ran("run", "--anywhere", "--pc", "x0200", hello).code, 2)

    def test_the_examiner_s_files(self) -> None:
        hello = self.file("hello.obj", HELLO)
        for origin, said in (
            (0x4000, "it has x4000, which every program reads and replaces"),
            (0x0025, "it overlaps the ready-made monitor at x0025"),
            (0x2FFF, "it overlaps the stack of the ready-made monitor at x2FFF"),
            (0x2001, f"it overlaps {self.answers} at x2001"),
        ):
            wrong = self.file("wrong.obj", object_file(origin, 7))
            for command in self.commands()[::3]:
                done = ran(*command, "--with", wrong, hello)
                self.assertEqual((done.code, done.out), (3, b""), done)
                self.assertTrue(done.err.startswith(f"lc3: {wrong}: refused: {said}"), done.err)

    def test_files_that_overlap(self) -> None:
        one = self.file("one.obj", HELLO)
        other = self.file("other.obj", object_file(0x3006, 1, 2))
        done = ran("run", one, other)
        said = f"lc3: {other}: refused: it overlaps {one} at x3006: give one of them another"
        self.assertEqual((done.code, done.err[: len(said)]), (3, said))
        self.assertEqual(ran("list", one, other).code, 0)
        mark = ("mark", "--cases", self.cases, "--one", "--data", other)
        self.assertIn("it overlaps", json.loads(ran(*mark, one).out)["problem"])
        self.assertEqual(ran(*mark, "--data", self.answers, one).code, 3)

    def options(self, *arguments: str) -> argparse.Namespace:
        """The options of a command line."""
        return parser().parse_args([*arguments, "candidate.obj"])

    def test_random_files_in_every_sitting(self) -> None:
        rng, taken = random.Random(34), 0
        fresh = outside(Sitting(examiner=[ANSWERS]).memory.words)
        makers = (
            partial(sitting_of, self.options("run")),
            partial(sitting_of, self.options("log")),
            partial(marked_sitting_of, Options()),
        )
        for number in range(10_000):
            file, make = random_file(rng), makers[number % 3]
            try:
                sitting = make([("a", ANSWERS)], [("c", HELLO), ("b", file)])
            except FileError:
                continue
            self.assertEqual(outside(sitting.memory.words), fresh, number)
            taken += 1
        self.assertGreater(taken, 3000)

    def test_random_files_by_every_command(self) -> None:
        rng, seen = random.Random(35), 0
        fresh = outside(Sitting(examiner=[ANSWERS]).memory.words)

        def check(sitting: Sitting) -> None:
            """That nothing is altered in a sitting that a command runs."""
            nonlocal seen
            self.assertEqual(outside(sitting.memory.words), fresh)
            seen += 1

        run, trace = Sitting.run, Sitting.trace_at_once

        def spied_run(sitting: Sitting, steps: int | None = None) -> fanthrig.Report:
            """A run, looked at before and after."""
            check(sitting)
            report = run(sitting, steps)
            check(sitting)
            return report

        def spied_trace(sitting: Sitting, steps: int) -> list[fanthrig.TracedStep]:
            """The same of a run a step at a time."""
            check(sitting)
            told = trace(sitting, steps)
            check(sitting)
            return told

        with mock.patch.object(Sitting, "run", spied_run):
            with mock.patch.object(Sitting, "trace_at_once", spied_trace):
                for _ in range(150):
                    path = self.file("random.obj", random_file(rng))
                    for command in (self.commands()[0], *self.commands()[3:6]):
                        ran(*command, path)
        self.assertGreater(seen, 500)


if __name__ == "__main__":
    unittest.main()
