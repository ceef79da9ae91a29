"""``lc3 run``: every option, piped keys, exit codes, and the line at the end."""

from __future__ import annotations

import os
import signal
import subprocess
from typing import Any
from unittest import mock

import fanthrig
from fanthrig import Sitting

from .command_support import ENDLESS, ENVIRONMENT, HELLO, PYTHON, UNTIL_Q, Folder, process, ran
from .command_support import takes_signals
from .support import COUNTING, ECHO, Words, object_file


class Running(Folder):
    """Programs in this process."""

    def test_hello(self) -> None:
        hello = self.file("hello.obj", HELLO)
        code, out, err = ran("run", hello)
        self.assertEqual((code, out), (0, b"Hi\nHalted\n"))
        self.assertEqual(err, "lc3: halted by HALT; 152 steps; PC x3002: TRAP x25\n")

    def test_the_last_file_runs(self) -> None:
        hello, count = self.file("hello.obj", HELLO), self.file("count.obj", COUNTING)
        other = self.file("other.obj", object_file(0x4000, "TRAP x25"))
        self.assertEqual(ran("run", count, other)[:2], (0, b"Halted\n"))
        self.assertEqual(ran("run", other, hello)[:2], (0, b"Hi\nHalted\n"))

    def test_steps(self) -> None:
        count = self.file("count.obj", COUNTING)
        for steps, line in ((0, "ADD R0, R0, #1"), (1, "BRnzp #-2"), (5_000_000, "ADD R0, R0, #1")):
            code, out, err = ran("run", "--steps", steps, count)
            made = "1 step" if steps == 1 else f"{steps} steps"
            pc = 0x3000 + steps % 2
            said = f"lc3: all steps asked for were made; {made}; PC x{pc:04X}: {line}\n"
            self.assertEqual((code, out, err), (1, b"", said))
        self.assertIn("; 1000000 steps;", ran("run", "--steps", "1_000_000", count).err)

    def test_a_halt_in_the_last_step(self) -> None:
        hello = self.file("hello.obj", HELLO)
        self.assertEqual(ran("run", "--steps", 152, hello).code, 0)
        self.assertEqual(ran("run", "--steps", 151, hello).code, 1)

    def test_keys_as_text_and_from_a_file(self) -> None:
        program = self.file("until.obj", UNTIL_Q)
        every = bytes(byte for byte in range(256) if byte != ord("q")) + b"q"
        keys = self.file("keys", every)
        self.assertEqual(ran("run", "--keys", "adaq", program).out, b"adaqHalted\n")
        self.assertEqual(ran("run", "--keys", f"@{keys}", program).out, every + b"Halted\n")
        # What is given is taken in the place of the pipe.
        self.assertEqual(ran("run", "--keys", "q", program, keys=b"zz").out, b"qHalted\n")

    def test_text_is_typed_by_one_rule(self) -> None:
        program, saved = self.file("echo.obj", ECHO), self.folder / "sitting.json"
        for text in ("a\u00e9\u20ac", os.fsdecode(b"\xff")):
            ran("run", "--keys", text, "--save-sitting", saved, program)
            sitting = fanthrig.Sitting(program)
            sitting.type(text)
            sitting.run(1000)
            keys = bytes(key.byte for key in sitting.keys)
            self.assertEqual(keys, os.fsencode(text))
            self.assertEqual(keys, bytes(key for _, key in fanthrig.Recording.load(saved).keys))

    def test_keys_of_a_pipe(self) -> None:
        program = self.file("until.obj", UNTIL_Q)
        self.assertEqual(ran("run", program, keys=b"hello\nq")[:2], (0, b"hello\nqHalted\n"))

    def test_the_end_of_the_keys(self) -> None:
        program = self.file("until.obj", UNTIL_Q)
        for given in (b"ab", None):
            code, out, err = ran("run", program, keys=given)
            self.assertEqual((code, out), (1, given or b""))
            self.assertIn("the program waits for a key, and no more keys come; ", err)
            self.assertIn("; PC x3000: TRAP x20", err)

    def test_a_loop_that_nothing_ends(self) -> None:
        endless, until = self.file("endless.obj", ENDLESS), self.file("until.obj", UNTIL_Q)
        code, _, err = ran("run", endless, keys=b"ab")
        self.assertEqual((code, "a loop that not even a key can end; " in err), (1, True))
        # Steps that are asked for are made, to the last.
        for path in (endless, until):
            for keys in (b"", b"ab"):
                for steps in (0, 300, 40_000):
                    code, _, err = ran("run", "--steps", steps, path, keys=keys)
                    said = f"lc3: all steps asked for were made; {steps} steps; "
                    self.assertEqual((code, err[: len(said)]), (1, said))
        rows = ran("log", "--steps", 700, until, keys=b"a").out.decode().splitlines()
        self.assertEqual((len(rows), rows[-1].split()[0]), (701, "699"))

    def test_a_program_that_polls_gets_its_keys(self) -> None:
        # In Supervisor mode: R1 counts, until KBSR is negative; then KBDR is shown and it halts.
        words: Words = ["ADD R1, R1, #1", "LDI R0, #5", "BRzp #-3", "LDI R0, #4", "STI R0, #4"]
        words += ["TRAP x25", 0, 0xFE00, 0xFE02, 0xFE06]
        program = self.file("poll.obj", object_file(0x3000, *words))
        code, out, _ = ran("run", "--supervisor", program, keys=b"k")
        self.assertEqual((code, out), (0, b"kHalted\n"))

    def test_supervisor(self) -> None:
        # A load from x0000 is an access exception in User mode only.
        program = self.file("load.obj", object_file(0x3000, "LDR R0, R0, #0", "TRAP x25"))
        self.assertEqual(ran("run", program)[:2], (4, b""))
        self.assertEqual(ran("run", "--supervisor", program)[:2], (0, b"Halted\n"))

    def test_pc_and_stack(self) -> None:
        hello = self.file("hello.obj", HELLO)
        for text in ("x3002", "0x3002", "X3002", "#12290"):
            self.assertEqual(ran("run", "--pc", text, hello).out, b"Halted\n")
        err = ran("run", "--steps", 0, "--registers", "--stack", "x5000", hello).err
        self.assertIn("R6 x5000", err)

    def test_no_monitor(self) -> None:
        # A monitor whose HALT stores to MCR, in a file of its own.
        vector = self.file("vector.obj", object_file(0x25, 0x1000))
        routine = self.file("halt.obj", object_file(0x1000, "AND R0, R0, #0", "STI R0, #0", 0xFFFE))
        monitor = ("--with", vector, "--with", routine)
        hello = self.file("halt-only.obj", object_file(0x3000, "TRAP x25"))
        self.assertEqual(ran("run", "--no-monitor", *monitor, hello)[:2], (0, b""))
        code, _, err = ran("run", "--no-monitor", "--steps", 1, hello)
        self.assertEqual((code, "TRAP x25, which has no service" in err), (4, True))

    def test_edition_2(self) -> None:
        hello = self.file("hello.obj", HELLO)
        code, out, err = ran("run", "--edition", 2, hello)
        self.assertEqual((code, out), (2, b""))
        self.assertIn("add --no-monitor", err)
        self.assertEqual(ran("run", "--edition", 3, hello).code, 0)
        # LEA sets the codes by the second edition's rules alone.
        for edition, psr in ((2, "PSR x8001"), (3, "PSR x8002")):
            options = ("--edition", edition, "--no-monitor", "--steps", 1, "--registers")
            self.assertIn(psr, ran("run", *options, hello).err)

    def test_registers(self) -> None:
        count = self.file("count.obj", COUNTING)
        err = ran("run", "--steps", 10, "--registers", count).err
        self.assertIn("R0 x0005      5", err)
        self.assertIn("PC x3000  ADD R0, R0, #1", err)
        self.assertTrue(err.splitlines()[-1].startswith("lc3: all steps asked for were made"))

    def test_registers_of_the_program(self) -> None:
        ends: tuple[tuple[str | int, int], ...] = (("TRAP x25", 0), (0xD000, 4), ("TRAP x26", 4))
        for last, code in ends:
            words = ("ADD R1, R1, #7", "LD R6, #2", last, 0, 0x4000)
            program = self.file("own.obj", object_file(0x3000, *words))
            ended = ran("run", "--registers", program)
            lines = ended.err.splitlines()
            self.assertEqual(ended.code, code)
            self.assertEqual(lines[0], "the program's own registers, before its last instruction:")
            self.assertIn("R1 x0007      7", lines[1])
            self.assertIn("R6 x4000  16384", lines[2])
            self.assertEqual(lines[3].split()[:2], ["PC", "x3002"])
            self.assertIn("PSR x8001  User mode, priority 0, P", lines[4])
            self.assertIn("MCR x0000", lines[5])

    def test_registers_of_a_program_that_was_served_for_long(self) -> None:
        words = ("ADD R0, R0, #7", "TRAP x20", "TRAP x25")
        program = self.file("getc7.obj", object_file(0x3000, *words))
        for steps in (1000, 5_000_000):
            lines = ran("run", "--registers", "--steps", steps, program).err.splitlines()
            self.assertEqual(lines[0], "the program's own registers, before its last instruction:")
            self.assertIn("R0 x0007      7", lines[1])
            log = ran("log", "--program", "--last", 2, "--steps", steps, program).out
            rows = [row.split()[:2] for row in log.splitlines()[1:]]
            self.assertEqual(rows, [[b"0", b"x3000"], [b"1", b"x3001"]])

    def test_crashes(self) -> None:
        crashes: dict[str | int, str] = {
            "RTI": "stopped by the privilege exception; 3 steps; PC x3000: RTI",
            0xD000: "stopped by the illegal opcode exception; 3 steps; PC x3000: .FILL xD000",
            "LDR R0, R0, #0": "the access exception; 3 steps; PC x3000: LDR R0, R0, #0",
            "JMP R0": "the access exception; 4 steps; PC x0000: User mode fetches nothing",
            "ADD R0, R0, #1": "access exception; 52739 steps; PC xFE00: User mode fetches",
            "TRAP x26": "stopped by TRAP x26, which has no service; 3 steps; PC x3000",
            "TRAP x22": "stopped by PUTS, whose string came to privileged memory; ",
            "TRAP x24": "stopped by PUTSP, whose string came to privileged memory; ",
        }
        for word, said in crashes.items():
            program = self.file("crash.obj", object_file(0x3000, word))
            for command in ("run", "log"):
                code, _, err = ran(command, program)
                self.assertEqual((code, said in err), (4, True), err)
        store = object_file(0x3000, "AND R0, R0, #0", "STI R0, #0", 0xFFFE)
        code, _, err = ran("run", "--supervisor", self.file("store.obj", store))
        said = "lc3: halted by a store to MCR; 2 steps; PC x3001: STI R0, #0\n"
        self.assertEqual((code, err), (1, said))

    def test_a_program_without_a_monitor_ends(self) -> None:
        ends: tuple[tuple[str | int, int, str], ...] = (
            ("TRAP x25", 4, "TRAP x25, which has no service; "),
            (0xD000, 4, "the illegal opcode exception; "),
            ("BRnzp #-1", 1, "a loop that not even a key can end; "),
        )
        for last, code, said in ends:
            program = self.file("alone.obj", object_file(0x3000, "ADD R0, R0, #1", last))
            for edition in (2, 3):
                ended = ran("run", "--no-monitor", "--edition", edition, program)
                self.assertEqual(ended.code, code, ended.err)
                self.assertIn(said, ended.err)
                self.assertIn("; PC x3001: ", ended.err)

    def test_what_was_shown_is_not_held(self) -> None:
        flood = self.file("flood.obj", object_file(0x3000, "TRAP x21", "BRnzp #-2"))
        seen: list[Sitting] = []

        class Seen(Sitting):
            """A sitting that can be looked at when the command has ended."""

            def start(self, *settings: Any) -> None:
                super().start(*settings)
                seen.append(self)

        for command in ("run", "log", "log --last 3"):
            with mock.patch("fanthrig.command.files.Sitting", Seen):
                out = ran(*command.split(), "--steps", 20_000, flood).out
            self.assertGreater(len(out), 300)
            self.assertEqual(seen[-1].display_bytes, b"")

    def test_all_bytes_of_the_display(self) -> None:
        # Shows R0 from 0 to 255, waiting for DSR each time.
        words: Words = ["LDI R2, #7", "BRzp #-2", "STI R0, #6", "ADD R0, R0, #1", "LD R3, #5"]
        words += ["ADD R3, R0, R3", "BRn #-7", "TRAP x25", 0xFE04, 0xFE06, -256 & 0xFFFF]
        program = self.file("bytes.obj", object_file(0x3000, *words))
        code, out, _ = ran("run", "--supervisor", program)
        self.assertEqual((code, out), (0, bytes(range(256)) + b"Halted\n"))


class WrongUse(Folder):
    """Command lines that can't be obeyed: exit code 2 and what to do."""

    def test_options(self) -> None:
        hello, sitting = self.file("hello.obj", HELLO), self.folder / "sitting.json"
        ran("run", "--save-sitting", sitting, hello)
        for arguments, said in (
            ((), "COMMAND"),
            (("walk",), "invalid choice"),
            (("run",), "no file is named"),
            (("log",), "no file is named"),
            (("list",), "FILE.obj"),
            (("mark", hello), "--cases"),
            (("run", "--steps", "many", hello), "'many' is no number"),
            (("run", "--steps", "-1", hello), "--steps"),
            (("run", "--steps", str(2**48 + 1), hello), "no number from 0"),
            (("run", "--steps", "9" * 100, hello), "no number from 0"),
            (("run", "--pc", "3000", hello), "write x0000 to xFFFF"),
            (("run", "--pc", "x10000", hello), "is no address"),
            (("run", "--stack", "R6", hello), "is no address"),
            (("run", "--edition", "4", hello), "invalid choice"),
            (("run", "--super", hello), "--super"),
            (("run", "--save-sitting", hello, hello), "would overwrite"),
            (("run", "--save-sitting", hello, "--keys", f"@{hello}", hello), "would overwrite"),
            (("run", "--save-sitting", sitting, "--replay", sitting), "would overwrite"),
            (("run", "--replay", "s", hello), "leave out object files"),
            (("run", "--replay", "s", "--keys", "a", "--pc", "x1"), "leave out --keys and --pc"),
            (("run", "--replay", "s", "--stack", "x1"), "leave out --stack"),
            (("mark", "--cases", "c", "--jobs", "0", hello), "number of processes"),
            (("mark", "--cases", "c", "--json", "--csv", hello), "not allowed with"),
        ):
            code, out, err = ran(*arguments)
            self.assertEqual((code, out), (2, b""), arguments)
            self.assertIn(said, err)
            self.assertNotIn("Traceback", err)

    def test_help_has_an_example(self) -> None:
        for command in ("run", "list", "log", "mark", "page"):
            code, out, err = ran(command, "--help")
            self.assertEqual((code, err), (0, ""))
            self.assertIn(f"  lc3 {command} ", out.decode())
            self.assertIn("exit codes", out.decode())
        self.assertEqual(ran("--help").code, 0)
        self.assertIn(str(fanthrig.VERSION), ran("--version").out.decode())


class Processes(Folder):
    """What only a process of its own shows: closed streams, pipes and signals."""

    def test_keys_that_come_late(self) -> None:
        program = self.file("until.obj", UNTIL_Q)
        with subprocess.Popen(
            [*PYTHON, "run", str(program)],
            stdin=subprocess.PIPE,
            stdout=subprocess.PIPE,
            stderr=subprocess.PIPE,
            env=ENVIRONMENT,
        ) as running:
            assert running.stdin and running.stdout and running.stderr
            for key in b"abq":
                # Each key is answered at once, before the next one is there.
                os.write(running.stdin.fileno(), bytes([key]))
                self.assertEqual(os.read(running.stdout.fileno(), 1), bytes([key]))
            self.assertEqual(running.stdout.read(), b"Halted\n")
            self.assertIn(b"halted by HALT; ", running.stderr.read())
            self.assertEqual(running.wait(20), 0)

    def test_closed_streams_and_a_full_disk(self) -> None:
        hello, echo = self.file("hello.obj", HELLO), self.file("echo.obj", ECHO)
        silent = self.file("silent.obj", object_file(0x3000, "BRnzp #-1"))
        lc3 = f"{PYTHON[0]} -m fanthrig"
        lc3_run, closed = f"{lc3} run", "lc3: standard output: it is closed: "
        for line, code, said in (
            (f"{lc3_run} {echo} <&-", 1, "no more keys come"),
            (f"{lc3_run} {hello} >&-", 3, closed),
            (f"{lc3} log {hello} >&-", 3, closed),
            (f"{lc3} list {hello} >&-", 3, closed),
            (f"{lc3} --version >&-", 3, closed),
            (f"{lc3} --help >/dev/full", 3, "standard output: no space is left"),
            # Where nothing is shown, nothing is lost.
            (f"{lc3_run} {silent} >&-", 1, "goes round in a loop"),
            (f"{lc3_run} {hello} 2>&-", 0, ""),
            (f"{lc3_run} {hello} >/dev/full", 3, "standard output: no space is left"),
            (f"{lc3_run} {echo} < {hello}", 1, "no more keys come"),
            (f"{lc3_run} {echo} <&- >&- 2>&-", 1, ""),
            (f"{lc3} list {hello} >/dev/full", 3, "standard output: no space is left"),
        ):
            ended = subprocess.run(["sh", "-c", line], env=ENVIRONMENT, capture_output=True)
            self.assertEqual(ended.returncode, code, line)
            self.assertIn(said, ended.stderr.decode())
            self.assertNotIn(b"Traceback", ended.stderr)

    def test_object_files_of_pipes(self) -> None:
        hello = self.file("hello.obj", HELLO)
        for command in ("run", "list", "log"):
            line = f"{PYTHON[0]} -m fanthrig {command} <(sleep 0.1; cat {hello})"
            ended = subprocess.run(["bash", "-c", line], env=ENVIRONMENT, capture_output=True)
            self.assertEqual(ended.returncode, 0, ended.stderr)

    def test_an_input_that_nobody_may_read(self) -> None:
        # So nohup leaves standard input, where it was a terminal.
        for content, code, said in ((HELLO, 0, "halted by HALT"), (ECHO, 1, "no more keys come")):
            with open(os.devnull, "wb") as unreadable:
                command = [*PYTHON, "run", str(self.file("program.obj", content))]
                ended = subprocess.run(
                    command, stdin=unreadable, env=ENVIRONMENT, capture_output=True, timeout=60
                )
            self.assertEqual(ended.returncode, code)
            self.assertIn(said, ended.stderr.decode())

    def test_an_input_longer_than_memory(self) -> None:
        hello, keys = self.file("hello.obj", HELLO), self.file("keys", b"")
        os.truncate(keys, 1 << 36)
        line = f"ulimit -v 1000000; exec {PYTHON[0]} -m fanthrig run {hello} < {keys}"
        ended = subprocess.run(["sh", "-c", line], env=ENVIRONMENT, capture_output=True, timeout=60)
        self.assertEqual((ended.returncode, ended.stdout), (0, b"Hi\nHalted\n"), ended.stderr)

    def test_a_long_file_is_typed_as_if_at_once(self) -> None:
        program, saved = self.file("until.obj", UNTIL_Q), self.folder / "sitting.json"
        every = bytes(range(1, 0x71)) * 900 + b"q"
        with open(self.file("keys", every), "rb") as keys:
            command = [*PYTHON, "run", "--save-sitting", str(saved), str(program)]
            ended = subprocess.run(command, stdin=keys, env=ENVIRONMENT, capture_output=True)
        self.assertEqual((ended.returncode, ended.stdout), (0, every + b"Halted\n"))
        sitting = fanthrig.Sitting(program)
        sitting.type(every)
        sitting.run()
        self.assertEqual(fanthrig.Sitting.replay(saved).keys, sitting.keys)

    def test_what_is_far_back_is_forgotten(self) -> None:
        # Reads 100,000 keys and then waits: how it ends is told all the same.
        echo = self.file("echo.obj", ECHO)
        every = bytes(range(250)) * 400
        ended = process("run", echo, keys=every)
        self.assertEqual((ended.code, ended.out), (1, every))
        self.assertIn("the program waits for a key, and no more keys come; ", ended.err)
        self.assertTrue(ended.err.endswith("; PC x3000: TRAP x20\n"), ended.err)

    def test_a_reader_that_goes_away(self) -> None:
        # Shows R0 for ever.
        flood = self.file("flood.obj", object_file(0x3000, "TRAP x21", "BRnzp #-2"))
        for command in ("run", "log"):
            line = f"{PYTHON[0]} -m fanthrig {command} {flood} | head -c 3 >/dev/null"
            ended = subprocess.run(
                ["bash", "-c", f"set -o pipefail; {line}"], env=ENVIRONMENT, capture_output=True
            )
            self.assertEqual(ended.returncode, 1)
            self.assertIn(b"nobody reads the display any more; ", ended.stderr)
            self.assertNotIn(b"Error", ended.stderr)
        # A listing is longer than what a pipe takes.
        long = self.file("long.obj", object_file(0x3000, *[0x1021] * 20_000))
        line = f"set -o pipefail; {PYTHON[0]} -m fanthrig list {long} | head -n 1"
        ended = subprocess.run(["bash", "-c", line], env=ENVIRONMENT, capture_output=True)
        said = b"lc3: standard output can't be written to any more: whoever read it is gone\n"
        self.assertEqual((ended.returncode, ended.stderr), (3, said))
        self.assertEqual(ended.stdout, b"x3000  x1021  ADD R0, R0, #1\n")

    def test_signals(self) -> None:
        # Shows a byte, by which it is known to run, and counts.
        words = ("TRAP x21", "ADD R1, R1, #1", "BRnzp #-2")
        count, saved = self.file("count.obj", object_file(0x3000, *words)), self.folder / "s.json"
        for number, code, said in (
            (signal.SIGINT, 1, b"lc3: stopped by Ctrl-C; "),
            (signal.SIGTERM, -signal.SIGTERM, b"lc3: stopped by SIGTERM; "),
        ):
            with subprocess.Popen(
                [*PYTHON, "run", "--save-sitting", str(saved), str(count)],
                stdin=subprocess.PIPE,
                stdout=subprocess.PIPE,
                stderr=subprocess.PIPE,
                env=ENVIRONMENT,
                preexec_fn=takes_signals,
            ) as running:
                assert running.stdout and running.stderr
                self.assertEqual(running.stdout.read(1), b"\0")
                running.send_signal(number)
                self.assertIn(said, running.stderr.read())
                self.assertEqual(running.wait(20), code)
            self.assertGreater(fanthrig.Sitting.replay(saved)["R1"], 0)
            saved.unlink()

    def test_the_module_and_its_main(self) -> None:
        hello = self.file("hello.obj", HELLO)
        self.assertEqual(process("run", hello)[:2], (0, b"Hi\nHalted\n"))
        script = "import sys; from fanthrig.__main__ import main; sys.exit(main())"
        command = [PYTHON[0], "-c", script, "run", str(hello)]
        ended = subprocess.run(command, env=ENVIRONMENT, capture_output=True)
        self.assertEqual((ended.returncode, ended.stdout), (0, b"Hi\nHalted\n"))
