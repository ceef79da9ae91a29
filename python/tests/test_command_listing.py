"""``lc3 list`` and ``lc3 log``: their columns and every option."""

from __future__ import annotations

import random

import fanthrig
from fanthrig.command.log import HEADER, row

from .command_support import HELLO, UNTIL_Q, Folder, ran
from .support import COUNTING, Words, object_file
from .timing import lines_long


class Listing(Folder):
    """Address, word, line."""

    def test_one_file(self) -> None:
        code, out, err = ran("list", self.file("hello.obj", HELLO))
        lines = out.decode().splitlines()
        self.assertEqual((code, err, len(lines)), (0, "", 7))
        self.assertEqual(lines[:2], ["x3000  xE002  LEA R0, #2", "x3001  xF022  TRAP x22"])

    def test_every_word(self) -> None:
        words = [word for word in range(0, 65536, 7)]
        code, out, _ = ran("list", self.file("all.obj", object_file(0x1000, *words)))
        lines = out.decode().splitlines()
        self.assertEqual((code, len(lines)), (0, len(words)))
        for place, (line, word) in enumerate(zip(lines, words)):
            self.assertEqual(line, f"x{0x1000 + place:04X}  x{word:04X}  {fanthrig.line(word)}")

    def test_several_files_and_files_of_no_words(self) -> None:
        hello, count = self.file("hello.obj", HELLO), self.file("count.obj", COUNTING)
        out = ran("list", hello, count).out.decode()
        self.assertIn(f"{hello}:\nx3000  xE002", out)
        self.assertIn(f"{count}:\nx3000  x1021", out)
        for origin in (0x0000, 0x3000, 0xFFFF):
            self.assertEqual(ran("list", self.file("none.obj", object_file(origin))).out, b"")
        last = self.file("last.obj", object_file(0xFFFF, 0xF025))
        self.assertEqual(ran("list", last).out, b"xFFFF  xF025  TRAP x25\n")

    def test_registers(self) -> None:
        out = ran("list", "--registers", self.file("hello.obj", HELLO)).out.decode()
        self.assertIn("R6 xFDFF", out)
        self.assertIn("PC x3000  LEA R0, #2\nPSR x8002  User mode, priority 0, Z", out)


class Logging(Folder):
    """Every step, and what it changed."""

    def test_a_log_is_the_trace(self) -> None:
        hello = self.file("hello.obj", HELLO)
        code, out, err = ran("log", hello)
        traced = [row(step) for step in fanthrig.Sitting(hello).trace()]
        self.assertEqual(out.decode().splitlines(), [HEADER, *traced])
        self.assertEqual((code, len(traced)), (0, 152))
        self.assertEqual(err, "lc3: halted by HALT; 152 steps; PC x3002: TRAP x25\n")

    def test_columns(self) -> None:
        program = self.file("until.obj", UNTIL_Q)
        out = ran("log", "--keys", "q", program).out.decode()
        first = "       0  x3000  xF020  TRAP x20          trap                 R6 xFDFF -> x2FFE"
        self.assertIn(first, out)
        self.assertIn("key 'q'", out)
        self.assertIn("shows 'q'", out)
        self.assertIn("MCR x8000 -> x0000", out)

    def test_reasons(self) -> None:
        for word, reason in (
            (0x8000, "privilege exception"),
            (0xD000, "illegal opcode exception"),
            (0x6000, "access exception"),
        ):
            out = ran("log", self.file("wrong.obj", object_file(0x3000, word))).out.decode()
            self.assertIn(reason, out.splitlines()[1])

    def test_last(self) -> None:
        hello = self.file("hello.obj", HELLO)
        every = ran("log", hello).out.splitlines()
        for last in (0, 1, 10, 152, 1000):
            code, out, err = ran("log", "--last", last, hello)
            rows = every[1:][-last:] if last else []
            self.assertEqual((code, out.splitlines()), (0, [every[0], *rows]))
            self.assertIn("halted by HALT; 152 steps", err)

    def test_last_of_a_long_run(self) -> None:
        count = self.file("count.obj", COUNTING)
        code, out, _ = ran("log", "--last", 2, "--steps", 10_000_000, count)
        steps = [line.split()[:2] for line in out.decode().splitlines()[1:]]
        self.assertEqual((code, steps), (1, [["9999998", "x3000"], ["9999999", "x3001"]]))

    def test_the_time_of_a_log(self) -> None:
        # Loads, stores, a trap and the monitor's own steps. A step of a log takes as long as 14 to
        # 17 lines of text; it took as long as 50 while each was made and written by itself.
        words: Words = ["LD R0, #6", "TRAP x21", "LEA R1, #-1", "STR R0, R1, #10"]
        words += ["LDR R2, R1, #10", "ADD R2, R2, #1", "BRnzp #-6", 65]
        path, steps = self.file("busy.obj", object_file(0x3000, *words)), 20_000
        took = lines_long(lambda: ran("log", "--steps", steps, path))
        self.assertLess(took / steps, 28)

    def test_keys_of_a_pipe_and_their_end(self) -> None:
        program = self.file("until.obj", UNTIL_Q)
        for options in ((), ("--last", 5)):
            code, out, err = ran("log", *options, program, keys=b"abq")
            self.assertEqual((code, b"MCR x8000 -> x0000" in out), (0, True))
            code, out, err = ran("log", *options, program, keys=b"ab")
            self.assertEqual((code, "no more keys come" in err), (1, True))

    def test_options_as_for_run(self) -> None:
        hello, saved = self.file("hello.obj", HELLO), self.folder / "sitting.json"
        options = ("--supervisor", "--pc", "x3001", "--stack", "x5000", "--steps", 3, "--registers")
        code, out, err = ran("log", *options, "--save-sitting", saved, hello)
        self.assertEqual((code, len(out.decode().splitlines())), (1, 1 + 3 + 6))
        self.assertIn("       0  x3001  xF022", out.decode())
        self.assertIn("PSR x0002  Supervisor mode", out.decode())
        code, again, _ = ran("log", "--replay", saved, "--registers")
        self.assertEqual((code, again), (1, out))
        code, out, _ = ran("log", "--replay", saved, "--steps", 1)
        self.assertEqual((code, len(out.splitlines())), (1, 2))
        out = ran("log", "--edition", 2, "--no-monitor", "--steps", 1, hello).out
        self.assertIn(b"R0 x0000 -> x3003, PSR x8002 -> x8001", out)
        self.assertEqual(ran("log", "--edition", 2, hello).code, 2)

    def test_the_program_without_its_monitor(self) -> None:
        program, saved = self.file("until.obj", UNTIL_Q), self.folder / "sitting.json"
        for mode in ((), ("--supervisor",)):
            options = (*mode, "--keys", "abq", program)
            every = ran("log", *options).out.decode().splitlines()
            own = [line for line in every[1:] if line.split()[1] >= "x3000"]
            self.assertTrue(3 * 5 < len(own) < len(every))
            code, out, err = ran("log", "--program", "--save-sitting", saved, *options)
            self.assertEqual((code, out.decode().splitlines()), (0, [every[0], *own]))
            self.assertIn("; PC x3005: TRAP x25", err)
            for last in (0, 1, 7, 1000):
                lines = ran("log", "--program", "--last", last, *options).out.decode().splitlines()
                self.assertEqual(lines[1:], own[-last:] if last else [])
            again = ran("log", "--program", "--replay", saved).out.decode()
            self.assertEqual(again.splitlines(), [every[0], *own])

    def test_the_program_while_a_routine_works_for_long(self) -> None:
        # TRAP x30 counts R1 and R0 down for some 20 million steps.
        routine = ["LD R1, #5", "ADD R0, R0, #-1", "BRnp #-2", "ADD R1, R1, #-1", "BRp #-4", "RTI"]
        vector = self.file("vector.obj", object_file(0x0030, 0x1000))
        work = self.file("work.obj", object_file(0x1000, *routine, 150))
        path = self.file("calls.obj", object_file(0x3000, "ADD R3, R3, #7", "TRAP x30", "TRAP x25"))
        options = ("--no-monitor", "--with", vector, "--with", work, "--program", "--last", 3)
        for steps, rows in (
            (100, ["       0  x3000  x16E7  ADD R3", "       1  x3001  xF030  TRAP x30 "]),
            (15_000_000, ["       -  x3001  xF030  TRAP x30          trap"]),
        ):
            done = ran("log", *options, "--steps", steps, path)
            lines = done.out.decode().splitlines()[1:]
            self.assertEqual([line[: len(row)] for line, row in zip(lines, rows)], rows)
            self.assertEqual(len(lines), len(rows))
            self.assertIn("; PC x3001: TRAP x30\n", done.err)

    def test_the_program_of_a_crash(self) -> None:
        file = object_file(0x3000, "ADD R0, R0, #1", "TRAP x21", 0xD000)
        program = self.file("crash.obj", file)
        code, out, err = ran("log", "--program", "--registers", program)
        lines = out.decode().splitlines()
        self.assertEqual([line.split()[1] for line in lines[1:4]], ["x3000", "x3001", "x3002"])
        self.assertEqual(lines[4], "the program's own registers, before its last instruction:")
        self.assertIn("PC x3002  .FILL xD000", lines)
        self.assertIn("R6 xFDFF", lines[6])
        self.assertEqual(code, 4)
        self.assertTrue(err.startswith("lc3: stopped by the illegal opcode exception; "))

    def test_random_programs_against_the_trace(self) -> None:
        rng = random.Random(25)
        for _ in range(10):
            words = [rng.getrandbits(16) for _ in range(200)]
            file = self.file("random.obj", object_file(0x3000, *words))
            out = ran("log", "--steps", 60, "--keys", "xyz", file).out.decode()
            sitting = fanthrig.Sitting(file)
            sitting.type("xyz")
            expected = [row(step) for step in sitting.trace(60)]
            self.assertEqual(out.splitlines()[1:], expected)
