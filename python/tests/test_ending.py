"""How a run ended: every kind by several programs, and random ones against an account of their own
that is made from single logged steps."""

from __future__ import annotations

import os
import random
import signal
import threading
import unittest
from array import array
from dataclasses import replace
from typing import Any, NamedTuple
from unittest import mock

import fanthrig
from fanthrig import EndKind, Mode, Reason, Sitting, own
from fanthrig.command.messages import own_registers

from .support import Words, object_file

HALT, PUTS, PUTSP, GETC, OUT = "TRAP x25", "TRAP x22", "TRAP x24", "TRAP x20", "TRAP x21"


def ended(*words: str | int, steps: int | None = 100_000, **options: Any) -> fanthrig.Ending:
    """How a program at x3000 ends."""
    sitting = Sitting(object_file(0x3000, *words), **options)
    return sitting.run(steps).ending


class Kinds(unittest.TestCase):
    """Each kind with the program's own instruction."""

    def told(self, kind: EndKind, pc: int, line: str, *words: str | int) -> fanthrig.Ending:
        """Asserts how a program ends, at an address and its line."""
        ending = ended(*words)
        self.assertEqual((ending.kind, hex(ending.pc), ending.line), (kind, hex(pc), line))
        self.assertIn(f"; PC x{pc:04X}: {line}", str(ending))
        return ending

    def test_halted(self) -> None:
        programs: list[Words] = [[HALT], ["ADD R0, R0, #1", HALT], [OUT, OUT, HALT], [0xFF25]]
        for words in programs:
            last = HALT if words[-1] == HALT else ".FILL xFF25"
            ending = self.told(EndKind.HALTED, 0x3000 + len(words) - 1, last, *words)
            self.assertEqual((ending.reason, ending.vector), (Reason.TRAP, 0x25))
            self.assertEqual((ending.finished, ending.kind.crash), (True, False))

    def test_exceptions(self) -> None:
        programs: list[tuple[Words, Reason]] = [
            (["RTI"], Reason.PRIVILEGE),
            (["ADD R0, R0, #1", 0x8FFF], Reason.PRIVILEGE),
            ([0xD000], Reason.ILLEGAL),
            (["NOT R0, R0", 0xDFFF], Reason.ILLEGAL),
            (["LDR R0, R0, #0"], Reason.ACCESS),
            (["NOT R0, R0", "STR R1, R0, #0"], Reason.ACCESS),
            ([0x0000, "LDI R0, #0", 0xFE04], Reason.ACCESS),
            ([OUT, "STI R0, #0", 0x2FFF], Reason.ACCESS),
        ]
        for words, reason in programs:
            sitting = Sitting(object_file(0x3000, *words))
            ending = sitting.run().ending
            self.assertEqual((ending.kind, ending.reason), (EndKind.EXCEPTION, reason), words)
            self.assertIn(f"stopped by the {reason.text}; PC x300", str(ending))
            self.assertEqual(ending.word, sitting.memory[ending.pc])
            self.assertEqual((ending.finished, ending.kind.crash), (False, True))
            self.assertIsNone(ending.vector)

    def test_no_word_is_fetched_from_privileged_memory(self) -> None:
        programs: list[tuple[Words, int]] = [(["JMP R0"], 0x0000), ([], 0xFE00)]
        programs += [(["NOT R0, R0", "JMP R0"], 0xFFFF)]
        for words, pc in programs:
            ending = ended(*words)
            self.assertEqual((ending.kind, ending.reason), (EndKind.EXCEPTION, Reason.ACCESS))
            self.assertEqual((ending.pc, ending.word, ending.line), (pc, None, ""))
            self.assertIn(f"PC x{pc:04X}: User mode fetches nothing there", str(ending))

    def test_the_exception_beside_a_trap(self) -> None:
        # The saved PC is that of the exception, and the word before it is a TRAP that was obeyed.
        ending = self.told(EndKind.EXCEPTION, 0x3001, ".FILL xD000", OUT, 0xD000)
        self.assertEqual(ending.reason, Reason.ILLEGAL)
        # HALT stands in the last word of User mode, and PC comes behind it without obeying it.
        sitting = Sitting(object_file(0x3000, "LD R0, #1", "JMP R0", 0xFE00))
        sitting.memory[0xFDFF] = HALT
        ending = sitting.run().ending
        self.assertEqual((ending.kind, ending.pc, ending.word), (EndKind.EXCEPTION, 0xFE00, None))

    def test_traps_without_a_service(self) -> None:
        for vector in (0x00, 0x1F, 0x26, 0xFF):
            ending = self.told(
                EndKind.TRAP_WITHOUT_SERVICE, 0x3000, f"TRAP x{vector:02X}", 0xF000 | vector
            )
            self.assertEqual((ending.reason, ending.vector), (Reason.TRAP, vector))
            self.assertIn(f"TRAP x{vector:02X}, which has no service", ending.text)

    def test_strings_that_are_refused(self) -> None:
        for trap in (PUTS, PUTSP):
            # From x0000; and from xFDFF, whose word is not 0, into xFE00.
            self.told(EndKind.STRING_REFUSED, 0x3000, trap, trap)
            words: Words = ["LD R0, #3", "STR R0, R0, #0", trap, HALT, 0xFDFF]
            ending = self.told(EndKind.STRING_REFUSED, 0x3002, trap, *words)
            self.assertEqual((ending.record.regs[0], ending.kind.crash), (0xFDFF, True))

    def test_a_string_of_all_memory(self) -> None:
        # The routine serves for millions of steps, more than any log is looked through.
        for trap in (PUTS, PUTSP):
            sitting = Sitting(object_file(0x3000, "LEA R0, #1", trap))
            for address in range(0x3002, 0xFE00):
                sitting.memory[address] = 0x4141
            ending = sitting.run().ending
            self.assertEqual((ending.kind, ending.pc), (EndKind.STRING_REFUSED, 0x3001))
            self.assertEqual(ending.record.regs[0], 0x3002)
            self.assertEqual((ending.record.regs[6], ending.record.psr), (0xFDFF, 0x8002))
            lines = [step.line for step in sitting.last_program_steps(10)]
            self.assertEqual(lines, ["LEA R0, #1", trap])

    def test_stores_to_mcr(self) -> None:
        store: Words = ["AND R0, R0, #0", "STI R0, #0", 0xFFFE]
        for monitor in (True, False):
            ending = ended(*store, mode=Mode.SUPERVISOR, monitor=monitor)
            self.assertEqual((ending.kind, ending.pc), (EndKind.MCR, 0x3001))
            self.assertEqual((ending.line, ending.finished), ("STI R0, #0", False))
            self.assertEqual(ending.text, "halted by a store to MCR")
        # User mode can't; but by the second edition's rules it can.
        self.assertEqual(ended(*store).reason, Reason.ACCESS)
        ending = ended(*store, edition=2, monitor=False)
        self.assertEqual((ending.kind, ending.pc), (EndKind.MCR, 0x3001))

    def test_not_halted(self) -> None:
        self.assertEqual(ended("BRnzp #-1").kind, EndKind.STEPS)
        ending = ended(GETC, HALT)
        self.assertEqual((ending.kind, ending.pc, ending.line), (EndKind.STEPS, 0x3000, GETC))
        sitting = Sitting(object_file(0x3000, "ADD R0, R0, #1", OUT, "BRnzp #-3"))
        for address in (0x3001, 0x0204):
            sitting.breakpoints = {address}
            self.assertEqual(sitting.run().ending.kind, EndKind.BREAKPOINT)
            self.assertEqual((sitting.ending.pc, sitting.ending.line), (0x3001, OUT))
        sitting.breakpoints, sitting.display_limit = set(), 3
        for _ in range(2):
            self.assertEqual(sitting.run().ending.kind, EndKind.OUTPUT_LIMIT)
            self.assertEqual(sitting.ending.pc, 0x3001)

    def test_waits_and_loops(self) -> None:
        for words, kind in (
            ([GETC, HALT], EndKind.WAITING),
            (["TRAP x23", HALT], EndKind.WAITING),
            (["BRnzp #-1"], EndKind.LOOP),
            (["AND R0, R0, #0", "ADD R0, R0, #1", "BRnzp #-3"], EndKind.LOOP),
            (["ADD R0, R0, #1", "BRnzp #-2"], None),
        ):
            for edition in (2, 3) if "TRAP" not in str(words) else (3,):
                sitting = Sitting(object_file(0x3000, *words), edition=edition)
                sitting.run(1000)
                self.assertEqual(sitting.idle(), kind, words)
        # In Supervisor mode: the first loop asks KBSR, the second one takes KBDR as it comes.
        for loop, device in (("BRzp #-2", 0xFE00), ("BRnzp #-2", 0xFE02)):
            file = object_file(0x3000, "LDI R0, #1", loop, device)
            sitting = Sitting(file, mode=Mode.SUPERVISOR)
            sitting.run(10)
            self.assertEqual(sitting.idle(), EndKind.WAITING, loop)
        # A key that interrupts ends any loop.
        sitting = Sitting(object_file(0x3000, "BRnzp #-1"))
        sitting["KBSR"] = 0x4000
        self.assertEqual(sitting.idle(), EndKind.WAITING)

    def test_interrupted(self) -> None:
        for words, line in ((["BRnzp #-1"], "BRnzp #-1"), ([GETC], GETC)):
            sitting = Sitting(object_file(0x3000, *words))
            usual = signal.signal(signal.SIGINT, lambda *_: None)
            try:
                threading.Timer(0.05, os.kill, (os.getpid(), signal.SIGINT)).start()
                ending = sitting.run().ending
            finally:
                signal.signal(signal.SIGINT, usual)
            self.assertEqual((ending.kind, ending.pc), (EndKind.INTERRUPTED, 0x3000))
            self.assertEqual(ending.line, line)

    def test_before_the_first_step(self) -> None:
        ending = Sitting(object_file(0x3000, HALT)).ending
        self.assertEqual((ending.kind, ending.pc, ending.line), (EndKind.STEPS, 0x3000, HALT))
        sitting = Sitting(object_file(0x3000, HALT))
        sitting["MCR"] = 0
        self.assertEqual(sitting.run().ending.kind, EndKind.MCR)
        self.assertEqual(sitting.ending.text, "halted from outside")


class Registers(unittest.TestCase):
    """The registers are the program's own."""

    def test_after_halt_and_after_a_crash(self) -> None:
        set_up = ["ADD R0, R0, #1", "ADD R3, R0, #4", "LD R6, #3", "NOT R7, R0"]
        ends: Words = [HALT, 0xD123, "RTI", "TRAP x77"]
        for last in ends:
            ending = ended(*set_up, last, 0, 0x4000)
            regs = [1, 0, 0, 5, 0, 0, 0x4000, 0xFFFE]
            self.assertEqual((ending.record.regs, ending.record.pc), (regs, 0x3004))
            self.assertEqual((ending.record.psr, ending.record.mode), (0x8004, Mode.USER))

    def test_what_a_string_keeps_aside(self) -> None:
        for trap in (PUTS, PUTSP):
            ending = ended("ADD R1, R1, #3", "ADD R2, R2, #-4", "ADD R3, R3, #5", trap)
            self.assertEqual(ending.record.regs[:4], [0, 3, 0xFFFC, 5])
            self.assertEqual(ending.record.regs[6], 0xFDFF)


class LongService(unittest.TestCase):
    """A routine that serves for more steps than a log is looked through."""

    def test_a_long_wait(self) -> None:
        for steps in (1000, 5_000_000, 50_000_000):
            for forgets in (False, True):
                sitting = Sitting(object_file(0x3000, "ADD R0, R0, #7", GETC, HALT))
                while sitting.clock < steps:
                    sitting.run(min(steps - sitting.clock, 1 << 20))
                    if forgets:
                        sitting.forget()
                ending = sitting.ending
                self.assertEqual((ending.pc, ending.record.regs[0]), (0x3001, 7), steps)
                self.assertTrue(ending.registers_known)
                self.assertEqual(sitting.last_program_clocks(5), [0, 1])
                lines = [step.line for step in sitting.last_program_steps(1)]
                self.assertEqual(lines, [GETC])

    def test_many_keys_are_forgotten_all_the_same(self) -> None:
        for most, forgotten in ((1, False), (0, True)):
            sitting = Sitting(object_file(0x3000, GETC, GETC, HALT))
            sitting.type("k")
            sitting.run(5_000_000)
            with mock.patch("fanthrig.sitting.MOST_KEYS", most):
                sitting.forget()
            self.assertEqual(sitting.keys == [], forgotten)
            ending = sitting.run(1).ending
            self.assertEqual((ending.pc, ending.registers_known), (0x3001, not forgotten))

    def test_a_long_wait_late_in_a_long_run(self) -> None:
        # R0 counts down 300 times from xFFFF; then a key is read, and no other one comes.
        count: Words = ["LD R1, #6", "ADD R0, R0, #-1", "BRnp #-2", "ADD R1, R1, #-1", "BRp #-4"]
        sitting = Sitting(object_file(0x3000, *count, GETC, GETC, 300))
        sitting.run(1000)
        sitting.type("k")
        sitting.run(60_000_000)
        self.assertEqual((sitting.ending.pc, sitting.ending.record.regs[0]), (0x3006, ord("k")))
        own = sitting.last_program_steps(3)
        self.assertEqual([step.line for step in own], ["BRp #-4", GETC, GETC])
        clocks = sitting.last_program_clocks(2)
        self.assertEqual(sitting.ending.record.clock, clocks[1])

    def test_an_entry_that_is_too_far_back(self) -> None:
        # TRAP x30 counts R1 and R0 down for some 20 million steps.
        routine: Words = ["LD R1, #5", "ADD R0, R0, #-1", "BRnp #-2", "ADD R1, R1, #-1", "BRp #-4"]
        sitting = Sitting(object_file(0x3000, "ADD R3, R3, #7", "TRAP x30", HALT))
        words = array("H", [_word(word) for word in [*routine, "RTI", 150]])
        sitting.memory[0x1000:0x1007], sitting.memory[0x30] = words, 0x1000
        ending = sitting.run(15_000_000).ending
        self.assertEqual((ending.pc, ending.line), (0x3001, "TRAP x30"))
        self.assertFalse(ending.registers_known)
        heading = own_registers(sitting, ending).splitlines()[0]
        self.assertIn("R0 to R5 and R7 the serving routine's", heading)
        self.assertEqual([step.line for step in sitting.last_program_steps(3)], ["TRAP x30"])
        self.assertTrue(sitting.run().ending.registers_known)
        self.assertEqual((sitting.ending.kind, sitting.ending.record.regs[3]), (EndKind.HALTED, 7))


class GoingOn(unittest.TestCase):
    """A report tells of its own run, and a halted machine that is let go on ends as before."""

    def test_a_halted_machine_is_let_go_on(self) -> None:
        for word, kind in ((0xF025, EndKind.HALTED), (0xD000, EndKind.EXCEPTION)):
            sitting = Sitting(object_file(0x3000, word))
            first = sitting.run().ending
            for _ in range(300):
                sitting["MCR"] = 0x8000
                self.assertEqual(sitting.run(1000).stop, fanthrig.Stop.HALTED)
            self.assertEqual((sitting.ending.kind, sitting.ending.pc), (kind, 0x3000))
            self.assertEqual(sitting.ending, first)
            self.assertEqual(sitting.ending.record.regs, first.record.regs)

    def test_a_halted_machine_is_set_elsewhere(self) -> None:
        sitting = Sitting(object_file(0x3000, HALT, "ADD R0, R0, #1", 0xD000))
        self.assertEqual(sitting.run().ending.kind, EndKind.HALTED)
        sitting["PC"], sitting["PSR"], sitting["MCR"] = 0x3001, 0x8002, 0x8000
        sitting["Saved_SSP"] = 0x3000
        ending = sitting.run().ending
        self.assertEqual((ending.kind, ending.pc), (EndKind.EXCEPTION, 0x3002))

    def test_a_report_is_of_its_run(self) -> None:
        sitting = Sitting(object_file(0x3000, "ADD R0, R0, #1", OUT, HALT))
        reports = [sitting.run(1), sitting.run(1), sitting.run()]
        sitting.memory[0x3002] = 0xD000
        sitting["MCR"] = 0x8000
        sitting.start()
        sitting.run()
        told = [(r.ending.kind, r.ending.pc, r.ending.line) for r in reports]
        self.assertEqual(told[0], (EndKind.STEPS, 0x3001, OUT))
        self.assertEqual(told[1], (EndKind.STEPS, 0x3001, OUT))
        self.assertEqual(told[2], (EndKind.HALTED, 0x3002, HALT))
        self.assertEqual(sitting.ending.kind, EndKind.EXCEPTION)
        self.assertEqual(reports[2], fanthrig.Report(reports[2].steps, 0, 8, fanthrig.Stop.HALTED))

    def test_a_long_run(self) -> None:
        # R0 counts to 0 again and again, R1 to 100: some 13 million steps, then HALT.
        words = ["ADD R0, R0, #1", "BRnp #-2", "ADD R1, R1, #1", "LD R2, #4", "ADD R2, R1, R2"]
        for last, kind in ((0xF025, EndKind.HALTED), (0xD000, EndKind.EXCEPTION)):
            file = object_file(0x3000, *words, "BRn #-6", last, 0, -100 & 0xFFFF)
            sitting = Sitting(file)
            ending = sitting.run().ending
            self.assertGreater(sitting.clock, 10_000_000)
            self.assertEqual((ending.kind, ending.pc), (kind, 0x3006))

    def test_a_trace_and_a_replay(self) -> None:
        sitting = Sitting(object_file(0x3000, "ADD R0, R0, #1", 0xD000))
        self.assertEqual(len(list(sitting.trace())), 4)
        self.assertEqual((sitting.ending.kind, sitting.ending.pc), (EndKind.EXCEPTION, 0x3001))
        self.assertEqual(Sitting.replay(sitting.recording()).ending, sitting.ending)


def class_monitor(**routines: int) -> dict[int, array[int]]:
    """A class's own monitor: its vectors, and its routines by their addresses.

    HALT shows two bytes by a TRAP of its own and stores to MCR; PUTS stores to MCR; each exception
    waits for some thousand steps before it does so; TRAP x30 ends a program as well.
    """
    table = dict(getc=0, out=0x1100, puts=0x1200, input=0, putsp=0, halt=0x1000, trap=0x1300)
    made = fanthrig.Routines(**{**table, "exception": 0x1400, "interrupt": 0x1500, **routines})
    vectors = fanthrig.vectors(made)
    vectors[0x30] = 0x1200
    stop: Words = ["LD R0, #1", "STI R0, #1", 0x0000, 0xFFFE]
    parts: dict[int, Words] = {
        0x1000: ["LD R0, #4", OUT, OUT, *stop[:1], "STI R0, #2", ord("!"), 0, 0xFFFE],
        0x1100: ["STI R0, #1", "RTI", 0xFE06],
        0x1200: stop,
        0x1300: stop,
        0x1400: ["LD R1, #5", "ADD R1, R1, #-1", "BRp #-2", "LD R0, #1", "STI R0, #2", 0, 3000],
        0x1407: [0xFFFE],
        0x1500: ["RTI"],
    }
    words = {at: array("H", [_word(word) for word in part]) for at, part in parts.items()}
    return {0: vectors, **words}


def _word(word: str | int) -> int:
    """The word of a line, or the word itself."""
    return fanthrig.word(word) if isinstance(word, str) else word


class OtherMonitors(unittest.TestCase):
    """A class's own monitor, none, and the second edition."""

    def sitting(self, *words: str | int, **options: Any) -> Sitting:
        """A program beside the class's monitor."""
        sitting = Sitting(object_file(0x3000, *words), monitor=False, **options)
        for at, part in class_monitor().items():
            sitting.memory[at : at + len(part)] = part
        return sitting

    def told(self, sitting: Sitting) -> tuple[EndKind, int, str]:
        """How a sitting ends, where, and the line there."""
        ending = sitting.run(1_000_000).ending
        return ending.kind, ending.pc, ending.line

    def test_halt_calls_other_traps(self) -> None:
        sitting = self.sitting("ADD R0, R0, #7", HALT)
        self.assertEqual(self.told(sitting), (EndKind.HALTED, 0x3001, HALT))
        self.assertEqual(sitting.display, "!")
        self.assertEqual(sitting.ending.record.regs[0], 7)
        lines = [step.line for step in sitting.last_program_steps(10)]
        self.assertEqual(lines, ["ADD R0, R0, #7", HALT])

    def test_a_slow_exception(self) -> None:
        sitting = self.sitting("ADD R1, R1, #3", 0xD000)
        self.assertEqual(self.told(sitting), (EndKind.EXCEPTION, 0x3001, ".FILL xD000"))
        self.assertGreater(sitting.clock, 6000)
        self.assertEqual(sitting.ending.record.regs[1], 3)

    def test_traps(self) -> None:
        self.assertEqual(
            self.told(self.sitting("TRAP x40")), (EndKind.TRAP_WITHOUT_SERVICE, 0x3000, "TRAP x40")
        )
        for trap in ("TRAP x30", PUTS):
            sitting = self.sitting(OUT, trap)
            self.assertEqual(self.told(sitting), (EndKind.MCR, 0x3001, trap))
            text = f"halted by a store to MCR in the routine of {trap}"
            self.assertEqual(sitting.ending.text, text)
            self.assertEqual((sitting.ending.finished, sitting.ending.kind.crash), (False, False))

    def test_an_exception_in_a_routine(self) -> None:
        sitting = self.sitting("ADD R0, R0, #1", HALT)
        sitting.memory[0x1001] = 0xD000
        self.assertEqual(self.told(sitting), (EndKind.EXCEPTION, 0x3001, HALT))

    def test_a_timer_that_ends_a_program(self) -> None:
        sitting = self.sitting("ADD R0, R0, #1", "BRnzp #-2")
        sitting.memory[0x0181] = 0x1200
        sitting["TIR"], sitting["TSR"] = 101, 0x4000
        kind, pc, _ = self.told(sitting)
        self.assertEqual((kind, pc & ~1), (EndKind.MCR, 0x3000))
        self.assertIn("in the routine of the timer interrupt", sitting.ending.text)

    def test_a_timer_that_ends_a_routine(self) -> None:
        # The ready-made PUTS shows its string when the class's timer routine halts the machine.
        sitting = Sitting(object_file(0x3000, "LEA R0, #1", PUTS, *[ord("a")] * 100))
        sitting.memory[0x1200:0x1204] = class_monitor()[0x1200]
        sitting.memory[0x0181] = 0x1200
        sitting["TIR"], sitting["TSR"] = 101, 0x4000
        self.assertEqual(self.told(sitting), (EndKind.MCR, 0x3001, PUTS))
        self.assertIn("in the routine of the timer interrupt", sitting.ending.text)

    def test_the_vectors_made_anew(self) -> None:
        # OUT is the class's own; PUTS is still the ready-made one.
        sitting = Sitting(object_file(0x3000, OUT, PUTS))
        sitting.memory[0x1100:0x1103] = class_monitor()[0x1100]
        sitting.memory[0:0x200] = fanthrig.vectors(replace(fanthrig.monitor_routines(), out=0x1100))
        self.assertEqual(self.told(sitting), (EndKind.STRING_REFUSED, 0x3001, PUTS))

    def test_none_at_all(self) -> None:
        for word, kind in (
            (0xF025, EndKind.TRAP_WITHOUT_SERVICE),
            (0xD000, EndKind.EXCEPTION),
            (0x8000, EndKind.EXCEPTION),
        ):
            # Later on the program runs again in Supervisor mode, and obeys what was pushed.
            for steps in (2, 20, 5000, 12_000):
                ending = ended("ADD R0, R0, #1", word, monitor=False, steps=steps)
                self.assertEqual((ending.kind, ending.pc), (kind, 0x3001), steps)

    def test_a_routine_at_the_first_word(self) -> None:
        # A machine that runs on is not taken for crashed where x0000 has an instruction.
        sitting = Sitting(object_file(0x3000, "TRAP x26", "BRnzp #-2"), monitor=False)
        sitting.memory[0x0000] = "RTI"
        self.assertEqual(sitting.run(1001).ending.kind, EndKind.STEPS)
        self.assertEqual(sitting.ending.pc, 0x3001)

    def test_a_trace_that_is_left_in_the_middle(self) -> None:
        sitting = Sitting(object_file(0x3000, "ADD R0, R0, #1", OUT, HALT))
        sitting.breakpoints.add(0x3001)
        self.assertEqual(sitting.run().ending.kind, EndKind.BREAKPOINT)
        next(sitting.trace())
        self.assertEqual((sitting.ending.kind, sitting.ending.line), (EndKind.STEPS, OUT))

    def test_programs_in_supervisor_mode(self) -> None:
        programs: list[tuple[Words, EndKind, int]] = [
            (["ADD R0, R0, #1", HALT], EndKind.HALTED, 0x3001),
            ([OUT, 0xD000], EndKind.EXCEPTION, 0x3001),
            ([OUT, OUT, "TRAP x26"], EndKind.TRAP_WITHOUT_SERVICE, 0x3002),
            (["AND R0, R0, #0", "STI R0, #0", 0xFFFE], EndKind.MCR, 0x3001),
        ]
        for words, kind, pc in programs:
            sitting = Sitting(object_file(0x3000, *words), mode=Mode.SUPERVISOR)
            self.assertEqual(self.told(sitting)[:2], (kind, pc))
            own = [step.pc for step in sitting.last_program_steps(10)]
            self.assertEqual(own, list(range(0x3000, pc + 1)))

    def test_the_second_edition(self) -> None:
        # Its HALT calls OUT, which returns by RET, and keeps R7 for nobody.
        halt: Words = ["LD R0, #4", OUT, "AND R0, R0, #0", "STI R0, #2", 0, ord("!"), 0xFFFE]
        out: Words = ["STI R0, #1", "JMP R7", 0xFE06]
        for words, kind, pc in (
            (["ADD R0, R0, #1", HALT], EndKind.HALTED, 0x3001),
            ([OUT, "JSR #1", HALT, "JMP R7"], EndKind.HALTED, 0x3002),
            ([OUT, "TRAP x26"], EndKind.TRAP_WITHOUT_SERVICE, 0x3001),
        ):
            sitting = Sitting(object_file(0x3000, *words), monitor=False, edition=2)
            sitting.memory[0x25], sitting.memory[0x21] = 0x1000, 0x1100
            sitting.memory[0x1000:0x1007] = array("H", [_word(word) for word in halt])
            sitting.memory[0x1100:0x1103] = array("H", [_word(word) for word in out])
            self.assertEqual(self.told(sitting)[:2], (kind, pc))


class Strayed(unittest.TestCase):
    """A program that jumps into privileged memory is told by its own last instruction."""

    JUMP: Words = ["ADD R3, R3, #7", "AND R0, R0, #0", "JMP R0"]

    def test_the_second_edition(self) -> None:
        sitting = Sitting(object_file(0x3000, *self.JUMP), monitor=False, edition=2)
        stop: Words = ["AND R0, R0, #0", "ADD R3, R0, #1", "STI R0, #0", 0xFFFE]
        sitting.memory[0x0300:0x0304] = array("H", [_word(word) for word in stop])
        ending = sitting.run(10_000).ending
        self.assertEqual((ending.kind, ending.line), (EndKind.MCR, "JMP R0"))
        text = "halted by a store to MCR in privileged memory, at x0302; PC x3002: JMP R0"
        self.assertEqual((str(ending), ending.record.regs[3]), (text, 7))
        self.assertEqual((ending.strayed, ending.served), (True, True))
        self.assertEqual(sitting.last_program_steps(1)[0].pc, ending.pc)
        self.assertIn("R3 x0007", own_registers(sitting, ending))

    def test_supervisor_mode(self) -> None:
        # Through the vector table to the first routine of the monitor, which waits for a key.
        sitting = Sitting(object_file(0x3000, *self.JUMP), mode=Mode.SUPERVISOR)
        ending = sitting.run(5000).ending
        self.assertEqual((ending.kind, ending.pc, ending.line), (EndKind.STEPS, 0x3002, "JMP R0"))
        self.assertTrue(ending.strayed)

    def test_a_program_that_began_in_privileged_memory(self) -> None:
        store: Words = ["JSR #3", "AND R0, R0, #0", "STI R0, #0", 0xFFFE, "JMP R7"]
        sitting = Sitting(object_file(0x2FFC, *store), mode=Mode.SUPERVISOR, anywhere=True)
        ending = sitting.run(100).ending
        self.assertEqual((ending.kind, ending.pc), (EndKind.MCR, 0x2FFE))
        self.assertFalse(ending.strayed)


class Account(NamedTuple):
    """What single steps tell of a run: those made in User mode, and the record before the last."""

    own: list[fanthrig.LoggedStep]
    record: fanthrig.Record
    halted: bool


def account(file: bytes, keys: bytes, steps: int) -> Account:
    """Runs a program beside the ready-made monitor, one logged step at a time."""
    memory, log, output = array("H", bytes(131072)), array("H", [0] * 3), bytearray(8)
    fanthrig.monitor(memory)
    record = fanthrig.start(file, memory, True, 0xFDFF).record
    own: list[fanthrig.LoggedStep] = []
    before, times = record, array("Q", range(0, 40 * len(keys), 40))
    for _ in range(steps):
        ran = fanthrig.run_logged(record, memory, times, keys, output, log, 1)
        if ran.stop is fanthrig.Stop.HALTED and not ran.steps:
            break
        if record.mode is Mode.USER:
            own.append(fanthrig.logged_steps(log)[0])
            before = record
        record, times, keys = ran.record, times[ran.keys :], keys[ran.keys :]
    here = record if record.mode is Mode.USER else before
    return Account(own, here, record.halted)


def expected(told: Account) -> tuple[EndKind, int]:
    """How a run ended, by the account."""
    if not told.halted:
        return EndKind.STEPS, told.record.pc
    last = told.own[-1]
    if last.reason is not Reason.TRAP:
        return EndKind.EXCEPTION, last.pc
    vector = 0 if last.word is None else last.word & 0xFF
    served = {0x25: EndKind.HALTED, 0x22: EndKind.STRING_REFUSED, 0x24: EndKind.STRING_REFUSED}
    return served.get(vector, EndKind.TRAP_WITHOUT_SERVICE), last.pc


class RandomPrograms(unittest.TestCase):
    """Random programs in User mode end as an account of single steps has it."""

    LIVELY = ["TRAP x20", "TRAP x21", "TRAP x21", "TRAP x22", "TRAP x23", "TRAP x24", "TRAP x25"]
    LIVELY += ["ADD R0, R0, #1", "LEA R0, #5", "LEA R1, #-3", "BRnzp #1", "BRp #-4", "JSR #2"]
    LIVELY += ["JMP R7", "STR R1, R0, #3", "LDR R2, R1, #0", "AND R0, R0, #0", "NOT R6, R0"]

    def program(self, rng: random.Random) -> bytes:
        """Words of which more or fewer are lively, the others random."""
        share = rng.choice([0.0, 0.5, 0.9, 1.0])
        words = [
            fanthrig.word(rng.choice(self.LIVELY)) if rng.random() < share else rng.getrandbits(16)
            for _ in range(60)
        ]
        return object_file(rng.choice([0x3000, 0x5000, 0xFDC0]), *words)

    def test_against_an_account_of_single_steps(self) -> None:
        rng, kinds = random.Random(33), dict.fromkeys(EndKind, 0)
        for _ in range(400):
            file, keys = self.program(rng), rng.randbytes(rng.choice([0, 3, 20]))
            steps = rng.choice([0, 30, 700])
            told = account(file, keys, steps)
            sitting = Sitting(file)
            for at, key in enumerate(keys):
                sitting.press(bytes([key]), 40 * at)
            sitting.run(steps)
            ending = sitting.ending
            self.assertEqual((ending.kind, ending.pc), expected(told), file.hex())
            self.assertEqual(ending.record.regs, told.record.regs)
            self.assertEqual(ending.record.psr, told.record.psr)
            # The same where the entry lies farther back than the log is looked through.
            with mock.patch.object(own, "LOOKED_THROUGH", (1, 1, 1)):
                far = sitting.ending
            self.assertEqual((far, far.record), (ending, ending.record))
            count = rng.choice([1, 10, 1000])
            self.assertEqual(sitting.last_program_steps(count), told.own[-count:])
            kinds[ending.kind] += 1
        for kind in ("HALTED", "EXCEPTION", "TRAP_WITHOUT_SERVICE", "STRING_REFUSED", "STEPS"):
            self.assertGreater(kinds[EndKind[kind]], 5, kinds)


if __name__ == "__main__":
    unittest.main()
