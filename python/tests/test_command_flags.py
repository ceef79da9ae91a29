"""What ``lc3 mark`` flags, also of a candidate whose display is right, and which halt passes."""

from __future__ import annotations

import csv
import io
import random
import unittest
from collections import Counter
from typing import Any

import fanthrig
from fanthrig.marking.flags import Flag, counted_flags
from fanthrig.running import Unstopped
from fanthrig.ending import EXCEPTIONS, has_service

from .mark_support import Marking, doubling
from .support import fresh, object_file, random_word

# A routine for exceptions that goes on behind the instruction: it adds 1 to the PC on the stack.
GO_ON = (
    "ADD R6, R6, #-1",
    "STR R0, R6, #0",
    "LDR R0, R6, #1",
    "ADD R0, R0, #1",
    "STR R0, R6, #1",
    "LDR R0, R6, #0",
    "ADD R6, R6, #1",
    "RTI",
)


def forgiving_monitor() -> bytes:
    """A monitor of a class's own: the ready-made one, but programs go on after an exception."""
    memory = fresh()
    fanthrig.monitor(memory)
    for vector in (0x100, 0x101, 0x102):
        memory[vector] = 0x0300
    memory[0x300 : 0x300 + len(GO_ON)] = type(memory)("H", map(fanthrig.word, GO_ON))
    return object_file(0, *memory[: 0x300 + len(GO_ON)])


def returning_monitor() -> bytes:
    """Another: all traps but GETC, OUT and HALT lead to an RTI alone."""
    memory = fresh()
    fanthrig.monitor(memory)
    memory[0x300] = fanthrig.word("RTI")
    for vector in {*range(0x100)} - {0x20, 0x21, 0x25}:
        memory[vector] = 0x300
    return object_file(0, *memory[:0x301])


def then_doubling(*lines: str) -> bytes:
    """A program that does some things, and then shows a key twice and halts."""
    return object_file(0x3000, *lines, "TRAP x20", "TRAP x21", "TRAP x21", "TRAP x25")


class Halts(Marking):
    """How a run must end."""

    def setUp(self) -> None:
        super().setUp()
        # All that is expected is shown before the end.
        self.file("cases/one.expected", "aa")
        (self.cases / "two.expected").unlink()
        (self.cases / "two.keys").unlink()
        (self.cases / "two.steps").unlink()

    def one(self, content: bytes, *options: object, code: int = 1) -> dict[str, Any]:
        """The result of the case, from JSON; other forms have the same verdict and flags."""
        path = self.file("candidate.obj", content)
        (result,) = self.marked(*options, path, code=code)
        (one,) = result["results"]
        flags = [
            f"{flag['flag']} at x{flag['pc']:04X}: {flag['line'] or 'not fetched'}"
            + (f" ({flag['times']} times)" if flag["times"] > 1 else "")
            for flag in one["flags"]
        ]
        text = self.mark("--csv", *options, path).out.decode()
        (row,) = csv.DictReader(io.StringIO(text))
        self.assertEqual((row["verdict"], row["flags"]), (one["verdict"], "; ".join(flags)))
        table = self.mark(*options, path).out.decode()
        self.assertEqual(table.count("; flagged: "), bool(flags))
        self.assertEqual("1 flagged\n" in table, bool(flags))
        self.assertTrue(all(flag in table for flag in flags))
        return {**one, "told": flags}

    def test_right_displays_and_every_kind_of_crash(self) -> None:
        for last, verdict, flag in (
            ("LD R0, #-256", "exception", "access exception at x3003: LD R0, #-256"),
            ("ST R0, #-256", "exception", "access exception at x3003: ST R0, #-256"),
            ("RTI", "exception", "privilege exception at x3003: RTI"),
            (".FILL xD000", "exception", "illegal opcode exception at x3003: .FILL xD000"),
            ("TRAP x26", "trap without service", "trap without service at x3003: TRAP x26"),
            ("TRAP xFF", "trap without service", "trap without service at x3003: TRAP xFF"),
            # At xFDFF there is no instruction to end by, and the next word is privileged.
            ("JMP R6", "exception", "access exception at xFE00: not fetched"),
        ):
            content = doubling(2, last)
            one = self.one(content)
            self.assertEqual((one["verdict"], one["told"]), (verdict, [flag]))
            self.assertIsNone(one["difference"])
            # Who asks for any halt gets the case passed, and the flag as well.
            one = self.one(content, "--any-halt", code=0)
            self.assertEqual((one["verdict"], one["told"]), ("right", [flag]))

    def test_a_string_that_the_monitor_refused(self) -> None:
        for trap, name in (("TRAP x22", "PUTS"), ("TRAP x24", "PUTSP")):
            program = ["TRAP x20", "TRAP x21", "TRAP x21", "AND R0, R0, #0", trap]
            one = self.one(object_file(0x3000, *program))
            self.assertEqual(one["verdict"], "string refused")
            self.assertEqual(one["told"], [f"string refused at x3004: {trap}"])
            self.assertIn(name, one["ended"])

    def test_a_store_to_mcr(self) -> None:
        content = object_file(0x3000, "TRAP x20", "TRAP x21", "TRAP x21", "STI R3, #0", 0xFFFE)
        one = self.one(content, "--supervisor")
        self.assertEqual((one["verdict"], one["told"]), ("store to MCR", []))
        one = self.one(content, "--supervisor", "--any-halt", code=0)
        self.assertEqual((one["verdict"], one["told"]), ("right", []))

    def test_no_halt_at_all(self) -> None:
        for option in ((), ("--any-halt",)):
            one = self.one(doubling(2, "BRnzp #-1"), *option)
            self.assertEqual((one["verdict"], one["told"]), ("not halted", []))

    def test_a_wrong_display_and_any_halt(self) -> None:
        one = self.one(doubling(1, "RTI"), "--any-halt")
        flag = "privilege exception at x3002: RTI"
        self.assertEqual((one["verdict"], one["told"]), ("wrong display", [flag]))

    def test_an_attempt_in_the_last_steps(self) -> None:
        # The monitor has no step left, or too few, to halt the machine.
        for first, flag in (
            (".FILL xD000", "illegal opcode exception"),
            ("LD R0, #-256", "access exception"),
            ("RTI", "privilege exception"),
            ("TRAP x26", "trap without service"),
        ):
            content = object_file(0x3000, first)
            for steps in (1, 2):
                one = self.one(content, "--steps", steps)
                self.assertEqual((one["verdict"], one["ending"]), ("not halted", "steps made"))
                self.assertEqual(one["told"], [f"{flag} at x3000: {first}"])
            self.assertEqual(self.one(content, "--steps", 0)["told"], [])
        # A routine that serves the program is no attempt.
        self.assertEqual(self.one(doubling(), "--steps", 2)["told"], [])

    def test_the_text_book_s_loop(self) -> None:
        # A program that polls DSR itself, as the second edition's does.
        one = self.one(object_file(0x3000, "LDI R1, #2", "BRzp #-2", "TRAP x25", 0xFE04))
        self.assertEqual(one["told"], ["access exception at x3000: LDI R1, #2"])


class Survived(Marking):
    """Exceptions after which a class's own monitor goes on."""

    def setUp(self) -> None:
        super().setUp()
        self.monitor = self.file("monitor.obj", forgiving_monitor())

    def flags(self, content: bytes, *options: object, code: int = 0) -> list[list[Any]]:
        """The flags of each case."""
        options = ("--no-monitor", "--with", self.monitor, *options)
        (result,) = self.marked(*options, self.file("candidate.obj", content), code=code)
        self.assertEqual(result["verdict"], "wrong display" if code else "right")
        return [[list(flag.values()) for flag in one["flags"]] for one in result["results"]]

    def test_none(self) -> None:
        self.assertEqual(self.flags(doubling()), [[], []])

    def test_every_exception_is_counted(self) -> None:
        reach = "LD R0, #-256"
        attempts = then_doubling(reach, ".FILL xD000", reach, "RTI", reach)
        expected = [
            ["access exception", 0x3000, reach, 3],
            ["illegal opcode exception", 0x3001, ".FILL xD000", 1],
            ["privilege exception", 0x3003, "RTI", 1],
        ]
        self.assertEqual(self.flags(attempts), [expected, expected])

    def test_one_long_before_the_end(self) -> None:
        # 100 times 1000 times round, with an attempt each time.
        program: list[int | str] = [
            "LD R1, #12",
            "LD R2, #12",
            "ADD R2, R2, #-1",
            "BRp #-2",
            "LD R0, #-256",
            "ADD R1, R1, #-1",
            "BRp #-6",
            "TRAP x20",
            "TRAP x21",
            "TRAP x21",
            "TRAP x25",
            0,
            0,
            100,
            1000,
        ]
        flag = ["access exception", 0x3004, "LD R0, #-256", 100]
        self.file("cases/two.steps", "1000000")
        self.assertEqual(self.flags(object_file(0x3000, *program)), [[flag], [flag]])

    def test_a_wrong_display(self) -> None:
        attempt = object_file(0x3000, "TRAP x20", "LD R1, #-256", "TRAP x21", "TRAP x25")
        flag = ["access exception", 0x3001, "LD R1, #-256", 1]
        self.assertEqual(self.flags(attempt, code=1), [[flag], [flag]])

    def test_the_exit_code_is_that_of_the_verdict(self) -> None:
        path = self.file("candidate.obj", then_doubling("LD R0, #-256"))
        done = self.mark("--no-monitor", "--with", self.monitor, path)
        self.assertEqual(done.code, 0)
        self.assertIn("  2/2  right; flagged: access exception at x3000", done.out.decode())
        self.assertIn("LD R0, #-256 in one and 1 more case\n", done.out.decode())
        self.assertIn("\n1 of 1 candidates right; 1 flagged\n", done.out.decode())

    def test_the_table_names_every_flag(self) -> None:
        # With the key of the first case one attempt more.
        program = ["TRAP x20", "TRAP x21", "TRAP x21", ".FILL xD000", "LD R1, #4"]
        program += ["ADD R0, R0, R1", "BRn #1", "LD R0, #-256", "TRAP x25"]
        content = object_file(0x3000, *program, -ord("a") & 0xFFFF)
        path = self.file("candidate.obj", content)
        table = self.mark("--no-monitor", "--with", self.monitor, path).out.decode()
        flags = "illegal opcode exception at x3003: .FILL xD000 in one and 1 more case"
        flags += "; access exception at x3007: LD R0, #-256 in one\n"
        self.assertIn(f"  2/2  right; flagged: {flags}", table)

    def test_traps_without_a_service_that_return(self) -> None:
        self.monitor = self.file("monitor.obj", returning_monitor())
        self.assertEqual(self.flags(doubling()), [[], []])
        attempts = then_doubling("TRAP x26", "TRAP xFF", "TRAP x26")
        flag = ["trap without service", 0x3000, "TRAP x26", 3]
        self.assertEqual(self.flags(attempts), [[flag], [flag]])

    def test_a_service_that_the_program_installs(self) -> None:
        double = ["TRAP x20", "TRAP x21", "TRAP x21", "TRAP x25", "RTI"]
        program = ["LEA R0, #6", "STI R0, #6", "TRAP x26", *double]
        path = self.file("installs.obj", object_file(0x3000, *program, 0x0026))
        (result,) = self.marked("--supervisor", path, code=0)
        self.assertEqual([one["flags"] for one in result["results"]], [[], []])
        # TRAP x26 before it has a service, twice while it has one, and after it has one.
        program = ["LEA R0, #11", "LDI R1, #11", "TRAP x26", "STI R0, #9", "TRAP x26", "TRAP x26"]
        content = object_file(0x3000, *program, "STI R1, #6", "TRAP x26", *double, 0x0026)
        self.monitor = self.file("monitor.obj", returning_monitor())
        flag = ["trap without service", 0x3002, "TRAP x26", 2]
        self.assertEqual(self.flags(content, "--supervisor"), [[flag], [flag]])

    def test_supervisor_mode(self) -> None:
        # The program gives the illegal opcode a routine of its own, goes on, and sets it back.
        alter = ["LEA R0, #8", "LDI R1, #15", "STI R0, #14", ".FILL xD000", "STI R1, #12"]
        double = ["TRAP x20", "TRAP x21", "TRAP x21", "TRAP x25"]
        content = object_file(0x3000, *alter, *double, *GO_ON, 0x0101)
        (result,) = self.marked("--supervisor", self.file("c.obj", content), code=0)
        self.assertEqual(
            [[list(flag.values()) for flag in one["flags"]] for one in result["results"]],
            [[["illegal opcode exception", 0x3003, ".FILL xD000", 1]]] * 2,
        )


class Counted(unittest.TestCase):
    """The log of a run made once more tells what the run did."""

    def test_random_programs_against_single_steps(self) -> None:
        rng, seen = random.Random(33), Counter[str]()
        for _ in range(100):
            words = [random_word(rng) for _ in range(60)]
            sitting = fanthrig.Sitting(
                object_file(0x3000, *words), examiner=[forgiving_monitor()], monitor=False
            )
            sitting.type("keys")
            sitting.run(700)
            recording, steps = sitting.recording(), Counter[str]()
            again = fanthrig.Sitting.of(recording)
            first: dict[str, tuple[int, str]] = {}
            for step in again.trace(sitting.clock):
                name = step.reason.text if step.reason in EXCEPTIONS else ""
                if step.reason is fanthrig.Reason.TRAP:
                    served = has_service(recording.memory, (step.word or 0) & 0xFF)
                    name = "" if served else "trap without service"
                if name:
                    steps[name] += 1
                    first.setdefault(name, (step.pc, step.line))
            flags = counted_flags(recording, Unstopped())
            self.assertEqual({flag.flag: flag.times for flag in flags}, steps)
            self.assertEqual([(flag.pc, flag.line) for flag in flags], list(first.values()))
            seen += steps
        exceptions = {reason.text for reason in EXCEPTIONS}
        self.assertEqual(set(seen), exceptions | {"trap without service"})

    def test_more_steps_than_a_log_holds(self) -> None:
        loop = object_file(0x3000, "LD R0, #-256", "BRnzp #-2")
        sitting = fanthrig.Sitting(loop, examiner=[forgiving_monitor()], monitor=False)
        sitting.run(1_000_000)
        (flag,) = counted_flags(sitting.recording(), Unstopped())
        # Ten steps a round: the exception, the routine of eight, and the branch.
        self.assertEqual(flag, Flag("access exception", 0x3000, "LD R0, #-256", 100_000))


class Second(Marking):
    """By the second edition's rules only what ended a run is told."""

    def test_what_ended_the_run(self) -> None:
        memory = fresh()
        fanthrig.monitor(memory)
        monitor = self.file("monitor.obj", object_file(0, *memory[: fanthrig.MONITOR_WORDS]))
        self.file("cases/one.expected", "")
        options = ("--edition", 2, "--no-monitor", "--with", monitor)
        for last, flags in ((".FILL xD000", ["illegal opcode exception"]), ("TRAP x25", [])):
            content = object_file(0x3000, last)
            (result,) = self.marked(*options, self.file("c.obj", content))
            self.assertEqual([flag["flag"] for flag in result["results"][0]["flags"]], flags)


if __name__ == "__main__":
    unittest.main()
