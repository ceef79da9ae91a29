"""Known programs: the fourteen examples of docs/MACHINE.md, the monitor's routines, the README's
first program, the log of host/examples, and programs with a timer, keys and interrupts."""

from __future__ import annotations

import unittest
from array import array

import fanthrig

from . import ROOT
from .support import ECHO, Words, fresh, object_file, user

# What the vectors hold, so that PC tells which one was taken.
VECTORS = {0x0025: 0x1025, 0x0100: 0x1100, 0x0101: 0x1101, 0x0102: 0x1102, 0x0180: 0x1180}


class FourteenExamples(unittest.TestCase):
    """M15."""

    def step(self, word: int, at: dict[int, int] | None = None, r: dict[int, int] | None = None,
             **fields: int) -> tuple[fanthrig.Record, array[int]]:
        """One step of a word at x3000, with words, registers and fields set."""
        memory, record = fresh(), user()
        for address, value in {**VECTORS, 0x3000: word, **(at or {})}.items():
            memory[address] = value
        for number, value in (r or {}).items():
            record.regs[number] = value
        for name, value in fields.items():
            setattr(record, name, value)
        report = fanthrig.step(record, memory, array("Q"), b"", bytearray())
        self.assertEqual((report.steps, report.stop), (1, fanthrig.Stop.DONE))
        return record, memory

    def test_1_a_word_reads_as_an_instruction(self) -> None:
        expected = fanthrig.Instruction(fanthrig.Kind.ADD_IMMEDIATE, 2, 3, 0, 7)
        self.assertEqual(fanthrig.read(0x14E7).instruction, expected)

    def test_2_and_3_add(self) -> None:
        record, _ = self.step(0x1021, r={0: 0x7FFF})
        self.assertEqual((record.regs[0], record.codes), (0x8000, "N"))
        record, _ = self.step(0x1021, r={0: 0xFFFF})
        self.assertEqual((record.regs[0], record.codes), (0, "Z"))

    def test_4_and_5_branch(self) -> None:
        self.assertEqual(self.step(0x0005)[0].pc, 0x3001)
        self.assertEqual(self.step(0x0FFF)[0].pc, 0x3000)

    def test_6_lea_keeps_the_codes(self) -> None:
        record, _ = self.step(0xE1FF)
        self.assertEqual((record.regs[0], record.psr), (0x3000, 0x8002))

    def test_7_jsrr_by_r7(self) -> None:
        record, _ = self.step(0x41C0, r={7: 0x4000})
        self.assertEqual((record.pc, record.regs[7]), (0x4000, 0x3001))

    def test_8_rti_in_user_mode(self) -> None:
        record, memory = self.step(0x8000)
        self.assertEqual((memory[0x2FFF], memory[0x2FFE]), (0x8002, 0x3000))
        self.assertEqual((record.regs[6], record.saved_usp), (0x2FFE, 0xFDFF))
        self.assertEqual((record.psr, record.pc), (0x0002, 0x1100))

    def test_9_and_10_both_borders(self) -> None:
        for base in (0x2FFF, 0xFE00):
            self.assertEqual(self.step(0x6040, r={1: base})[0].pc, 0x1102)
        for base in (0x3000, 0xFDFF):
            record, _ = self.step(0x6040, {0xFDFF: 0x6040}, {1: base})
            self.assertEqual((record.pc, record.regs[0]), (0x3001, 0x6040))

    def test_11_and_12_trap(self) -> None:
        record, memory = self.step(0xF025)
        self.assertEqual((memory[0x2FFE], record.pc), (0x3001, 0x1025))
        self.assertEqual(self.step(0xF025, saved_ssp=0x0026)[0].pc, 0x8002)

    def test_13_rti(self) -> None:
        at = {0x2FFE: 0x3001, 0x2FFF: 0xFFFF}
        record, _ = self.step(0x8000, at, {6: 0x2FFE}, psr=0x0002)
        self.assertEqual((record.psr, record.pc, record.saved_ssp), (0x8707, 0x3001, 0x3000))

    def test_14_interrupt(self) -> None:
        record, _ = self.step(0x0000, kbsr=0xC000, psr=0x8302)
        self.assertEqual((record.psr, record.pc), (0x0402, 0x1180))
        record, _ = self.step(0x0000, kbsr=0xC000, psr=0x8402)
        self.assertEqual((record.psr, record.pc), (0x8402, 0x3001))


class KnownPrograms(unittest.TestCase):
    """Programs whose display is known."""

    def test_the_readme_s_program(self) -> None:
        words = ["LD R0, #3", "STI R0, #3", "AND R0, R0, #0", "STI R0, #2"]
        file = object_file(0x3000, *words, 0x41, 0xFE06, 0xFFFE)
        sitting = fanthrig.Sitting(file, monitor=False, mode=fanthrig.Mode.SUPERVISOR)
        self.assertEqual(sitting.run(1000), fanthrig.Report(4, 0, 1, fanthrig.Stop.HALTED))
        self.assertEqual(sitting.display, "A")

    def test_the_monitor_s_routines(self) -> None:
        # IN; OUT; LEA R0, text; PUTS; LEA R0, packed; PUTSP; HALT
        words = [0xF023, 0xF021, 0xE004, 0xF022, 0xE004, 0xF024, 0xF025]
        words += [ord("!"), 0, 0x6261, 0x0063, 0]
        sitting = fanthrig.Sitting(object_file(0x3000, *words))
        sitting.type("q")
        self.assertEqual(sitting.run(5000).stop, fanthrig.Stop.HALTED)
        self.assertEqual(sitting.display, "Input a character> qq!abcHalted\n")

    def test_the_log_of_the_host_s_example(self) -> None:
        words = [0x2004, 0xF021, 0x2203, 0x6440, 0xF025, 0x0041, 0x1000]
        sitting = fanthrig.Sitting(object_file(0x3000, *words))
        lines = ["step  PC     word   line              reason"]
        for step in sitting.trace(1000):
            word = f"x{step.word:04X}"
            lines.append(
                f"{step.clock:>4}  x{step.pc:04X}  {word:<5}  {step.line:<16}  {step.reason.text}"
            )
        lines += ["", f'Steps made: {sitting.clock}; shown: "A"; {sitting.stop.text}.']
        expected = (ROOT / "host/examples/log.txt").read_text(encoding="ascii").splitlines()
        self.assertEqual(lines, expected)

    def test_the_demonstration_s_files(self) -> None:
        data = ROOT / "crates/demo/data"
        sitting = fanthrig.Sitting(data / "candidate.obj", examiner=[data / "answers.obj"])
        sitting.type("ada 7\n")
        self.assertEqual(sitting.run(10_000).stop, fanthrig.Stop.HALTED)
        self.assertEqual(sitting.display[:6], "name? ")
        other = fanthrig.Sitting(data / "candidate.obj", examiner=[data / "other_answers.obj"])
        other.type("ada 7\n")
        other.run(10_000)
        self.assertEqual((other.display, other.clock), (sitting.display, sitting.clock))

    def test_a_timer_interrupts(self) -> None:
        # In Supervisor mode: TIR becomes 10, TSR's enable is set, and then a loop; at x4000 the
        # routine of the timer counts in R3, clears ready by a load, and returns.
        main: Words = ["LD R0, #5", "STI R0, #5", "LD R0, #5", "STI R0, #5", "BRnzp #-1", 0]
        main += [10, 0xFE0A, 0x4000, 0xFE08]
        routine: Words = ["ADD R3, R3, #1", "LDI R1, #1", "RTI", 0xFE08]
        sitting = fanthrig.Sitting(
            object_file(0x4000, *routine),
            object_file(0x3000, *main),
            monitor=False,
            mode=fanthrig.Mode.SUPERVISOR,
        )
        sitting.memory[0x0181] = 0x4000
        sitting.run(2 + 10 * 20)
        self.assertEqual(sitting["R3"], 19)

    def test_keys_by_interrupt(self) -> None:
        # The keyboard's interrupt is enabled; its routine loads KBDR and adds the key to R3.
        routine: Words = ["LDI R1, #2", "ADD R3, R3, R1", "RTI", 0xFE02]
        main: Words = ["LD R0, #2", "STI R0, #2", "BRnzp #-1", 0x4000, 0xFE00]
        sitting = fanthrig.Sitting(
            object_file(0x4000, *routine),
            object_file(0x3000, *main),
            monitor=False,
            mode=fanthrig.Mode.SUPERVISOR,
        )
        sitting.memory[0x0180] = 0x4000
        sitting.type(bytes([1, 2, 3, 4]))
        sitting.run(1000)
        self.assertEqual((sitting["R3"], sitting.typed), (10, b""))

    def test_the_second_edition_links_by_r7(self) -> None:
        # TRAP x40 leads to x4000, which returns by RET; LEA sets the codes.
        main: Words = [0xF040, "LEA R0, #0", "BRp #-1"]
        files = [object_file(0x4000, "ADD R1, R1, #5", "RET"), object_file(0x3000, *main)]
        sitting = fanthrig.Sitting(*files, monitor=False, edition=2)
        sitting.memory[0x0040] = 0x4000
        sitting.run(50)
        self.assertEqual((sitting["R1"], sitting["PC"], sitting["R7"]), (5, 0x3002, 0x3001))
        self.assertEqual(sitting.record.mode, fanthrig.Mode.USER)

    def test_an_echo_loses_no_key(self) -> None:
        sitting = fanthrig.Sitting(ECHO)
        text = "The quick brown fox jumps over the lazy dog.\n" * 5
        sitting.type(text)
        sitting.run(100_000)
        self.assertEqual(sitting.display, text)


if __name__ == "__main__":
    unittest.main()
