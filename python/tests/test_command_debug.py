"""``lc3 debug``: scripts of commands, the prompt on a pseudo-terminal, and the screen."""

from __future__ import annotations

import contextlib
import fcntl
import os
import re
import select
import shlex
import signal
import struct
import subprocess
import termios
import time
import unittest
from unittest import mock

import fanthrig
from fanthrig.command.debug import _interact
from fanthrig.command.debugger.commands import Debugger
from fanthrig.command.debugger.console import Console
from fanthrig.command.debugger.motion import HOW_TO_TYPE, Wrong
from fanthrig.command.messages import Code
from fanthrig.command.terminal import Display

from . import ROOT
from .command_support import ENDLESS, ENVIRONMENT, HELLO, PYTHON, UNTIL_Q, Folder, OnTerminal
from .command_support import process, ran, takes_signals
from .support import COUNTING, ECHO, object_file
from .test_back import BUSY

SYMBOLS = """\
// Symbol table
//      Symbol Name       Page Address
//      ----------------  ------------
//      START             3000
//      COUNT             3010
//      ROUTINE           3009
"""

# Shows three characters, and then counts for ever.
SHOWS = object_file(
    0x3000, "LD R0, #5", "TRAP x21", "TRAP x21", "TRAP x21", "ADD R1, R1, #1", "BRnzp #-2", ord("!")
)

# A routine that calls itself R0 times, and keeps R7 on the stack.
RECURSIVE = object_file(
    0x3000,
    "ADD R0, R0, #4",
    "JSR #1",
    "TRAP x25",
    "ADD R6, R6, #-1",
    "STR R7, R6, #0",
    "ADD R0, R0, #-1",
    "BRnz #1",
    "JSR #-5",
    "LDR R7, R6, #0",
    "ADD R6, R6, #1",
    "RET",
)

# Each line is answered in a few words.
MALFORMED = """\
bogus\nb x\nstep x\nstep -1\nstep 0\nover y\nout 3\nrun z\ngoto\ngoto 99999999999999999999
break\nbreak x10000\nbreak NOWHERE\nbreak if\nbreak x3000 if R0\nwatch\nwatch [R0]\nwatch q
delete 7\ndelete x\nlist y\nlist x3000 z\nlist x3000 0\nprint\nprint [\nprint []\nwords\nwords q
set\nset R0\nset R0 z\nset x3000 ADD R9\nset PSR xFFFF\ntype\ntype \\q\ndisplay x\nlast x
save\nsave /nowhere/at/all\nback up\nback write\nback change R9\nback run 1\nback out 1
registers x\nhelp nothing\n\0\n\x1b[2J\né\nd\nprint R0 R1\ns s s\nlabels Q\nscreen"""


class Script(Folder):
    """Commands from a pipe."""

    def setUp(self) -> None:
        super().setUp()
        self.busy = self.file("busy.obj", BUSY)
        self.file("busy.sym", SYMBOLS)

    def told(self, program: object, *lines: str, code: int = 0) -> str:
        """What the debugger says to a script."""
        done = ran("debug", program, keys="\n".join(lines).encode())
        self.assertEqual(done.code, code, done)
        return done.err

    def test_the_program_shows_on_standard_output_alone(self) -> None:
        hello = self.file("hello.obj", HELLO)
        done = process("debug", hello, keys=b"run\nregisters\nquit\nrun\n")
        self.assertEqual((done.code, done.out), (0, b"Hi\nHalted\n"))
        self.assertIn("halted by HALT; 152 steps; PC x3002: TRAP x25\n", done.err)
        self.assertIn("Supervisor mode", done.err)

    def test_steps_and_back(self) -> None:
        lines = ("step", "step 4", "over", "back over", "back", "back 3", "back 9")
        told = self.told(self.busy, *lines)
        self.assertEqual(
            re.findall(r"^step (\d+): (?:[A-Z]+ )?(x....)", told, re.M),
            [("0", "x3000"), ("1", "x3001"), ("5", "x3005"), ("12", "x3006"), ("5", "x3005")]
            + [("4", "x3004"), ("1", "x3001"), ("0", "x3000")],
        )
        self.assertIn("       0  x3000  x1261  ADD R1, R1, #1    instruction", told)

    def test_breakpoints_by_address_label_and_condition(self) -> None:
        told = self.told(
            self.busy,
            "break ROUTINE if R1 == 3",
            "break if [COUNT] = 5",
            "break x3000",
            "delete 3",
            "break",
            "run",
            "run",
            "back run",
            "back run",
            "back run",
        )
        self.assertIn("breakpoint 1: ROUTINE x3009 if R1 == 3\n", told)
        self.assertIn("breakpoint 2: if [COUNT] = 5\n", told)
        self.assertIn("\nstep 34: ROUTINE x3009  x1DBF  ADD R6, R6, #-1\n", told)
        self.assertIn("\nstep 58: x3002", told)
        self.assertIn("\nstep 57: x3001", told)
        ends = "at the start: nothing before it stops a run\nstep 0: START x3000  x1261  ADD R1"
        self.assertIn(ends, told)

    def test_watches(self) -> None:
        told = self.told(self.busy, "watch COUNT+1", "watch R5", "run", "run", "run", "back run")
        self.assertIn("watch 1: x3011: x0000 -> x0001\nstep 4: x3004", told)
        self.assertIn("watch 2: R5: x0000 -> x0001\nstep 9: x300C", told)
        self.assertIn("watch 1: x3011: x0001 -> x0002\nstep 18: x3004", told)
        self.assertTrue(told.endswith("watch 1: x3011\nstep 17: x3003  x7281  STR R1, R2, #1\n"))

    def test_several_steps_over_stop_as_a_run_does(self) -> None:
        loop = self.file("loop.obj", object_file(0x3000, *["ADD R0, R0, #1"] * 3, "BRnzp #-4"))
        told = self.told(loop, "break x3002", "over 10", "over 10", "delete", "watch R0", "over 9")
        answers = told.splitlines()
        self.assertEqual(answers[2:4], ["breakpoint 1: x3002", answers[3]])
        self.assertTrue(answers[3].startswith("step 2: x3002"), told)
        self.assertTrue(answers[5].startswith("step 6: x3002"), told)
        # A watch stops it after the first step as well.
        self.assertTrue(answers[-1].startswith("step 7: x3003"), told)

    def test_several_steps_stop_before_any_of_them_at_a_breakpoint(self) -> None:
        loop = self.file("loop.obj", object_file(0x3000, *["ADD R0, R0, #1"] * 3, "BRnzp #-4"))
        stops = "breakpoint 1: x3002\nstep 2: x3002"
        for steps in (2, 3, 4, 100):
            told = self.told(loop, "break x3002", f"step {steps}")
            self.assertEqual(stops in told, steps > 2, told)
        # The first one is made, and the last one told.
        told = self.told(loop, "break x3000", "break x3003 if R0 == 4", "step 4", "step 4")
        self.assertRegex(told, r"  3  x3003  x0FFC  BRnzp #-4 .* PC x3003 -> x3000\nstep 4: x3000")
        self.assertIn("\nstep 5: x3001", self.told(loop, "step 4", "break x3001", "step", "step 9"))

    def test_many_steps_over_are_those_made_one_after_the_other(self) -> None:
        # A recursion, traps and plain steps.
        recursive = self.file("recursive.obj", RECURSIVE)
        for files in ((recursive,), (self.busy,), ("--keys", "abc" * 20, self.file("e.obj", ECHO))):
            single = ran("debug", *files, keys=b"over\n" * 60)
            clocks = re.findall(r"^step (\d+)", single.err, re.M)
            for count in (1, 2, 3, 7, 20, 59):
                if count < len(clocks):
                    done = ran("debug", *files, keys=f"over {count}\n".encode())
                    self.assertIn(f"\nstep {clocks[count]}: ", done.err)

    def test_steps_over_end_where_the_program_waits_or_goes_round(self) -> None:
        echo = self.file("echo.obj", ECHO)
        for lines in (("over 99999999",), ("step 3", "over 99999999"), ("run",), ("step 3", "out")):
            told = self.told(echo, *lines)
            self.assertIn("the program waits for a key, and no more keys come; ", told)
            self.assertTrue(told.endswith(f"\n{HOW_TO_TYPE}\n"), told)
        endless = self.file("endless.obj", ENDLESS)
        self.assertIn("goes round in a loop", self.told(endless, "over 99999999"))

    def test_a_halted_machine_is_told_as_that(self) -> None:
        hello = self.file("hello.obj", HELLO)
        told = self.told(hello, "run", "run", "step", "step 2", "over", "out")
        self.assertEqual(told.count("the machine is halted; go back, or set MCR\n"), 5)

    def test_back_to_what_did_it(self) -> None:
        lines = ("run 100000", "back write x4000", "back change R5", "back write COUNT", "back out")
        told = self.told(self.busy, *lines, "goto 100000", "back write x5000", "back change R3")
        self.assertIn("STI R1, #13       instruction          x4000 x1BE6 -> x1BE7\n", told)
        self.assertIn("all steps asked for were made; 100000 steps; ", told)
        self.assertIn("x5000 has not been written since the start\n", told)
        self.assertIn("R3 has not been changed since the start\n", told)
        self.assertIn("in no routine: nothing has called it\n", told)
        self.assertIn("\nstep 100000: ", told)

    def test_looking(self) -> None:
        told = self.told(
            self.busy,
            "run 12",
            "list START 2",
            "list",
            "print R1",
            "print [COUNT]",
            "print [R6-1]",
            "words COUNT 3",
            "last 2",
            "labels RO",
            "help",
            "help back",
            "help step",
            "where",
        )
        self.assertIn("    x3000  x1261  ADD R1, R1, #1    START\n    x3001  x320E", told)
        self.assertIn("=>  x3006  x5920  AND R4, R4, #0\n", told)
        self.assertIn("R1 = x0001  #1\n", told)
        self.assertIn("[COUNT] = x0001  #1  .FILL x0001\n", told)
        self.assertIn("[R6-1] = x3006  #12294  ST R0, #6  at xFDFE\n", told)
        self.assertIn("x3010  x0001 x0001 x4000", told)
        self.assertIn("      11  x300E  xC1C0  RET               instruction\n", told)
        self.assertIn("x3009  ROUTINE\n", told)
        self.assertIn("back write ADDRESS    to the last step that wrote a word\n", told)

    def test_alterations_keys_and_files(self) -> None:
        saved = self.folder / "sitting.json"
        until = self.file("until.obj", UNTIL_Q)
        lines = ("type a\\x62q", "run", "display", f"save {saved}", "back to 0", "set R5 = x10")
        told = self.told(until, *lines, "set x4000 ADD R0, R0, #1", "set [x4001] -1", "run")
        self.assertIn("halted by HALT", told)
        self.assertIn("abqHalted\n", told)
        self.assertIn("R5 = x0010  #16\n", told)
        self.assertIn("[x4000] = x1021  #4129  ADD R0, R0, #1\n", told)
        self.assertIn("[x4001] = xFFFF  #-1", told)
        self.assertEqual(told.count("halted by HALT"), 2)
        self.assertEqual(fanthrig.Sitting.replay(saved).display, "abqHalted\n")
        done = ran("debug", "--replay", saved, keys=b"run\nback 5\n")
        self.assertEqual((done.code, done.out), (0, b"abqHalted\n"))

    def test_signs_that_are_characters_and_words_in_brackets(self) -> None:
        lines = ("set R0 '='", "set R1='a'", "set [R6 - 1] = 7", "step", "back write [x3010]")
        told = self.told(self.busy, *lines)
        self.assertIn("R0 = x003D  #61  '='\n", told)
        self.assertIn("R1 = x0061  #97  'a'\n", told)
        self.assertIn("[R6 - 1] = x0007  #7  .FILL x0007  at xFDFE\n", told)
        self.assertIn("COUNT x3010 has not been written since the start\n", told)

    def test_one_that_is_deleted_twice(self) -> None:
        told = self.told(self.busy, "break x3000", "watch R1", "delete 1 1 2 1", "break")
        self.assertIn("deleted: 1, 2\nno breakpoints and no watches\n", told)

    def test_a_wait_without_keys_and_a_loop(self) -> None:
        told = self.told(self.file("echo.obj", ECHO), "run", "type ab", "run", "back change KBDR")
        self.assertEqual(told.count("the program waits for a key, and no more keys come; "), 2)
        endless = self.told(self.file("endless.obj", object_file(0x3000, "BRnzp #-1")), "run")
        self.assertIn("goes round in a loop", endless)

    def test_what_is_malformed_is_answered(self) -> None:
        for line in MALFORMED.split("\n"):
            done = ran("debug", self.busy, keys=line.encode())
            self.assertNotIn("Traceback", done.err, line)
            self.assertIn(done.code, (0, 1), line)
            # Where the machine stands, and one or a few lines of answer.
            self.assertLess(done.err.count("\n"), 16, (line, done.err))
            self.assertNotIn("\x1b", done.err)
        done = ran("debug", self.busy, keys=b"\xff\xfe\nstep\n# a comment\n\n")
        self.assertEqual(done.code, 1)
        # An empty line repeats the step.
        self.assertIn("step 2: ", done.err)

    def test_wrong_use(self) -> None:
        self.assertEqual(ran("debug").code, 2)
        self.assertEqual(ran("debug", "--screen", self.busy).code, 2)
        self.assertEqual(ran("debug", self.folder / "none.obj").code, 3)
        self.assertEqual(ran("debug", "--symbols", self.folder / "none.sym", self.busy).code, 3)
        self.assertEqual(ran("debug", "--symbols", self.busy, self.busy).code, 3)
        self.assertEqual(ran("debug", "--replay", self.busy, self.busy).code, 2)
        self.assertEqual(ran("debug", "--replay", self.busy).code, 3)
        self.assertIn("step", ran("debug", "--help").out.decode())

    def test_keys_from_the_command_line(self) -> None:
        until = self.file("until.obj", UNTIL_Q)
        done = ran("debug", "--keys", "xyq", until, keys=b"run\n")
        self.assertEqual((done.code, done.out), (0, b"xyqHalted\n"))

    def test_completion(self) -> None:
        sitting = fanthrig.Sitting(BUSY)
        debugger = Debugger(sitting, {"LOOP": 0x3000}, Console())
        self.assertEqual(debugger.completed("", "re"), ["registers"])
        self.assertEqual(debugger.completed("back ", "w"), ["write"])
        self.assertEqual(debugger.completed("break ", "LO"), ["LOOP"])
        self.assertEqual(debugger.completed("help ", "st"), ["step"])
        self.assertEqual(debugger.obey(""), "")
        with self.assertRaises(Wrong):
            debugger.obey("l l l l")
        with mock.patch.object(sitting, "run_back_to", side_effect=KeyboardInterrupt):
            debugger.obey("break x3000")
            with self.assertRaises(KeyboardInterrupt):
                debugger.obey("back run")


class Quiet(Console):
    """A console that shows nothing: the display is taken from the sitting."""

    def show(self, sitting: fanthrig.Sitting, display: Display) -> None:
        """Shows nothing."""


class Tutorial(unittest.TestCase):
    """docs/STUDENT.md: each command answers as it stands there."""

    def test_each_answer(self) -> None:
        text = (ROOT / "docs/STUDENT.md").read_text(encoding="utf-8")
        blocks = re.findall(r"(?ms)^```\n(.*?)^```$", text)
        sitting = fanthrig.Sitting(ROOT / "examples/sieve.obj")
        debugger = Debugger(sitting, {}, Quiet())
        told = ""
        for line in re.findall(r"(?m)^(?:\$|\(lc3\)) .*", "".join(blocks)):
            answer = debugger.obey(line[6:]) if line[0] == "(" else debugger.motion.here()
            rows = sitting.take_display().decode().split("\n")
            shown = "".join(f"{row.rstrip()}\n" for row in rows if row)
            told += f"{line}\n{shown}{answer}\n"
        self.assertEqual(told, "".join(blocks))


def prompted(shown: OnTerminal, count: int, seconds: float = 20) -> None:
    """Waits for so many prompts, all in all."""
    end = time.monotonic() + seconds
    while shown.seen.count(b"(lc3) ") < count:
        if time.monotonic() > end:
            raise AssertionError(f"no prompt in {shown.seen!r}")
        if select.select([shown.window], [], [], 0.1)[0]:
            shown.seen += os.read(shown.window, 65536)


def interrupted(shown: OnTerminal, count: int) -> None:
    """Presses Ctrl-C until so many prompts are seen: one that comes in the instant before readline
    waits for a key is seen when it is woken again."""
    for _ in range(40):
        shown.press(b"\x03")
        with contextlib.suppress(AssertionError):
            return prompted(shown, count, 0.5)
        # A terminal throws away what was typed before it, for which readline may wait already.
        shown.press(b"x")
    return prompted(shown, count)


# Ctrl-U: the line that was begun is cleared.
CLEARED = b"\x15"


def answered(shown: OnTerminal, line: bytes, answer: bytes) -> None:
    """Types a line, in the place of what may stand there, until it is answered: a Ctrl-C that is
    noticed late throws it away."""
    for _ in range(40):
        shown.press(CLEARED + line)
        with contextlib.suppress(AssertionError):
            shown.see(answer, 0.5)
            return
    shown.see(answer)


def left_by_ctrl_d(shown: OnTerminal) -> int:
    """The exit status of a debugger that is left by Ctrl-D, pressed until it ends."""
    for _ in range(40):
        shown.press(CLEARED + b"\x04")
        with contextlib.suppress(subprocess.TimeoutExpired):
            return shown.process.wait(0.5)
    return shown.process.wait(1)


def ended_by(process: subprocess.Popen[bytes], number: int) -> int:
    """The exit status of a process that is sent a signal until it ends, for the same reason."""
    for _ in range(40):
        process.send_signal(number)
        with contextlib.suppress(subprocess.TimeoutExpired):
            return process.wait(0.5)
    return process.wait(1)


class OnPrompt(Folder):
    """The prompt on a pseudo-terminal."""

    def test_a_sitting_at_the_prompt(self) -> None:
        until = self.file("until.obj", UNTIL_Q)
        with OnTerminal("debug", until) as shown:
            shown.see(b"(lc3) ")
            # Tab completes, and the up arrow calls a line back.
            shown.press(b"regi\t\n")
            shown.see(b"MCR x8000")
            shown.press(b"step\n")
            shown.see(b"step 1: ")
            shown.press(b"\x1b[A\n")
            shown.see(b"step 2: ")
            # While the program runs, keys are its own.
            shown.press(b"run\n")
            shown.see(b"the program waits for a key: press it, or Ctrl-C for the prompt")
            shown.press(b"!")
            shown.see(b"!")
            shown.press(b"q")
            shown.see(b"halted by HALT; ")
            shown.press(b"back 1000000\nquit\n")
            shown.see(b"step 0: ")
            self.assertEqual(shown.process.wait(20), 0)
            self.assertEqual(shown.attributes(), shown.before)
            self.assertNotIn(b"Traceback", shown.seen)

    def test_ctrl_c_stops_a_run_and_gives_the_prompt(self) -> None:
        with OnTerminal("debug", self.file("shows.obj", SHOWS)) as shown:
            shown.see(b"(lc3) ")
            shown.press(b"run\n")
            shown.see(b"!!!")
            shown.press(b"\x03")
            shown.see(b"stopped by Ctrl-C; ")
            # At the prompt it begins a new line, and a bad command is answered.
            prompted(shown, 2)
            shown.press(b"abc")
            shown.see(b"(lc3) abc")
            interrupted(shown, 3)
            answered(shown, b"bogus\n", b"is no command")
            self.assertEqual(left_by_ctrl_d(shown), 0)
            self.assertEqual(shown.attributes(), shown.before)
            self.assertNotIn(b"Traceback", shown.seen)

    def test_ctrl_c_held_down_does_not_end_it(self) -> None:
        with OnTerminal("debug", self.file("shows.obj", SHOWS)) as shown:
            shown.see(b"(lc3) ")
            for number in range(200):
                shown.press(b"\x03")
                time.sleep(0.0005 * (number % 5))
            self.assertIsNone(shown.process.poll(), shown.seen)
            answered(shown, b"where\n", b"where\r\nstep 0: ")
            shown.press(b"quit\n")
            self.assertEqual(shown.process.wait(20), 0)
            self.assertNotIn(b"Traceback", shown.seen)

    def test_ctrl_c_between_two_commands(self) -> None:
        debugger, console = Debugger(fanthrig.Sitting(BUSY), {}, Console()), Console()
        left = [KeyboardInterrupt, KeyboardInterrupt]

        def interact(*_: object) -> Code:
            """Is interrupted twice, and then ends."""
            if left:
                raise left.pop()
            debugger.ended = True
            return Code.HALTED

        with mock.patch("fanthrig.command.debug.interact", interact):
            with mock.patch("fanthrig.command.debug._is_terminal", return_value=True):
                self.assertEqual(_interact(debugger, console), Code.HALTED)
            self.assertEqual(left, [])
            # Nobody is there to give the next command.
            left.append(KeyboardInterrupt)
            debugger.ended = False
            with mock.patch("fanthrig.command.debug._is_terminal", return_value=False):
                self.assertRaises(KeyboardInterrupt, _interact, debugger, console)

    def test_ctrl_c_ends_a_script(self) -> None:
        shows = self.file("shows.obj", SHOWS)
        # While a program runs, in the middle of a search, and while no line comes.
        for lines, sign in ((b"run\nrun\n", b"!!!"), (b"step 9\n", b""), (b"run 9\nrun\n", b"!!!")):
            with subprocess.Popen(
                [*PYTHON, "debug", str(shows)],
                stdin=subprocess.PIPE,
                stdout=subprocess.PIPE,
                stderr=subprocess.PIPE,
                env=ENVIRONMENT,
                preexec_fn=takes_signals,
            ) as running:
                assert running.stdin and running.stdout and running.stderr
                running.stdin.write(lines)
                running.stdin.flush()
                self.assertEqual(running.stdout.read(len(sign)), sign)
                # Where it stands is told when all is set up.
                self.assertIn(b"step 0: ", running.stderr.readline())
                code = ended_by(running, signal.SIGINT)
                told = running.stderr.read()
                self.assertEqual(code, 1, told)
                self.assertEqual(told.count(b"stopped by Ctrl-C"), 1, told)

    def test_a_signal_ends_it_with_the_terminal_set_back(self) -> None:
        # At the prompt, and in the middle of a run.
        for commands, sign in ((b"", b"(lc3) "), (b"run\n", b"!!!")):
            with OnTerminal("debug", self.file("shows.obj", SHOWS)) as shown:
                shown.see(b"(lc3) ")
                shown.press(commands)
                shown.see(sign)
                self.assertEqual(ended_by(shown.process, signal.SIGTERM), -signal.SIGTERM)
                self.assertEqual(shown.attributes(), shown.before)


class Picture:
    """What a terminal of type vt100 shows of the bytes that it gets: just enough for curses."""

    def __init__(self, rows: int, columns: int) -> None:
        """An empty window."""
        self.cells = [[" "] * columns for _ in range(rows)]
        self.row = self.column = 0

    _PART = re.compile(rb"\x1b\[([?\d;]*)([A-Za-z])|\x1b[()]?[^\[]|\x1b\[|[\s\S]")

    def take(self, data: bytes) -> Picture:
        """Takes bytes, each sequence whole."""
        for found in self._PART.finditer(data):
            if found[2]:
                numbers = [int(n) for n in found[1].strip(b"?").split(b";") if n.isdigit()]
                self._obey(found[2].decode(), numbers)
            elif len(found[0]) == 1:
                self._write(found[0][0])
        return self

    def _obey(self, what: str, numbers: list[int]) -> None:
        """Moves the cursor, or erases."""
        count = numbers[0] if numbers else 1
        if what == "H":
            self.row, self.column = (numbers + [1, 1])[0] - 1, (numbers + [1, 1])[1] - 1
        elif what in "AB":
            self.row += count if what == "B" else -count
        elif what in "CD":
            self.column += count if what == "C" else -count
        elif what == "J":
            for number in range(self.row, len(self.cells)):
                first = self.column if number == self.row else 0
                self.cells[number][first:] = " " * (len(self.cells[number]) - first)
        elif what == "K":
            row = self.cells[self.row]
            ends = (0, self.column + 1) if numbers == [1] else (self.column, len(row))
            row[slice(*ends)] = " " * (ends[1] - ends[0])

    def _write(self, byte: int) -> None:
        """Writes a character, or obeys one."""
        if byte in (8, 10, 13):
            self.column = {8: max(0, self.column - 1), 10: self.column, 13: 0}[byte]
            self.row = min(self.row + (byte == 10), len(self.cells) - 1)
        elif byte >= 32:
            self.cells[self.row][min(self.column, len(self.cells[0]) - 1)] = chr(byte)
            self.column = min(self.column + 1, len(self.cells[0]) - 1)

    def text(self) -> str:
        """All rows."""
        return "\n".join("".join(row).rstrip() for row in self.cells)


class OnScreen(Folder):
    """The screen on a pseudo-terminal of 24 rows and 80 columns."""

    def opened(self, *arguments: object, term: str = "vt100") -> OnTerminal:
        """The command in such a window."""
        with mock.patch.dict("tests.command_support.ENVIRONMENT", TERM=term):
            shown = OnTerminal(*arguments)
        self.resize(shown, 24, 80)
        return shown

    def resize(self, shown: OnTerminal, rows: int, columns: int) -> None:
        """Gives the window another size, of which the system tells the command."""
        fcntl.ioctl(shown.window, termios.TIOCSWINSZ, struct.pack("HHHH", rows, columns, 0, 0))

    def until(self, shown: OnTerminal, text: str, seconds: float = 20) -> str:
        """Waits until the picture has a text, and answers the picture."""
        end = time.monotonic() + seconds
        while True:
            picture = Picture(24, 80).take(shown.seen).text()
            if text in picture:
                return picture
            if time.monotonic() > end:
                raise AssertionError(f"{text!r} is not seen in\n{picture}")
            try:
                shown.see(shown.seen + b"never", 0.05)
            except AssertionError:
                pass

    def test_one_screen(self) -> None:
        until = self.file("until.obj", UNTIL_Q)
        self.file("until.sym", "//  LOOP  3000\n")
        with self.opened("debug", "--screen", until) as shown:
            picture = self.until(shown, "(lc3)")
            for text in ("step 0: LOOP x3000  xF020  TRAP x20", "R6 xFDFF   -513", "last steps"):
                self.assertIn(text, picture)
            self.assertIn("=>  x3000  xF020  TRAP x20    LOOP", picture)
            self.assertIn("x3000  xF020 xF021 x2204", picture)
            # The right arrow steps, the left one goes back; other commands are typed.
            shown.press(b"\x1bOC")
            self.until(shown, "step 1: x0200")
            shown.press(b"\x1bOD")
            self.until(shown, "step 0: LOOP")
            shown.press(b"words x020")
            shown.press(b"0\n")
            self.until(shown, "any key goes on")
            shown.press(b" type hi\n")
            self.until(shown, "2 keys are typed")
            shown.press(b"run\n")
            self.until(shown, "the program waits for a key")
            shown.press(b"q")
            picture = self.until(shown, "halted by HALT")
            self.assertIn("hiqHalted", picture)
            self.assertIn("halted", picture.split("\n")[0])
            shown.press(b"bogus\n")
            self.until(shown, "is no command")
            shown.press(b"prompt\n")
            shown.see(b"(lc3) ")
            self.left(shown)

    def turns(self, shown: OnTerminal, *turns: tuple[bytes, str]) -> None:
        """Waits for the prompt, then presses keys and waits for a text, in turn."""
        self.until(shown, "(lc3)")
        for keys, text in turns:
            shown.press(keys)
            self.until(shown, text)

    def left(self, shown: OnTerminal, enter: bytes = b"\n") -> None:
        """Leaves the debugger: the terminal is as it was before."""
        shown.press(b"quit" + enter)
        self.assertEqual(shown.process.wait(20), 0)
        self.assertEqual(shown.attributes(), shown.before)
        self.assertNotIn(b"Traceback", shown.seen)

    def test_enter_is_a_line_feed_for_the_program(self) -> None:
        with self.opened("debug", "--screen", self.file("until.obj", UNTIL_Q)) as shown:
            self.turns(
                shown,
                (b"run\n", "the program waits for a key"),
                (b"\r!", "\n!"),
                (b"\x03", "stopped by Ctrl-C; "),
            )
            self.left(shown, b"\r")

    def test_the_end_of_memory(self) -> None:
        with self.opened("debug", "--screen", self.file("until.obj", UNTIL_Q)) as shown:
            self.until(shown, "(lc3)")
            # The last page to which the keys turn, and the last word.
            for address in ("xFFFD", "xFFFF"):
                shown.press(f"words {address}\n".encode())
                self.assertIn("last steps", self.until(shown, f"{address}  x0000"))
            self.turns(shown, (b"set PC xFFFF\n", "=>  xFFFF  x0000"))
            self.left(shown)

    def test_ctrl_c_in_the_screen(self) -> None:
        with self.opened("debug", "--screen", self.file("counting.obj", COUNTING)) as shown:
            self.turns(
                shown, (b"run\n", "the program runs"), (b"\x03", "stopped by Ctrl-C; ")
            )
            self.left(shown)

    def test_a_window_of_another_size(self) -> None:
        with self.opened("debug", "--screen", self.file("until.obj", UNTIL_Q)) as shown:
            self.until(shown, "(lc3)")
            for rows, columns in ((1, 1), (2, 3), (3, 200), (200, 2), (19, 63), (1, 80), (24, 1)):
                self.resize(shown, rows, columns)
                # A step, a page of text, what completes and erases: none of it may end it.
                shown.press(b"\x1bOC" + b"help\n" + b"\x1b" * 40 + b"re\t\x7f\x7f\n")
            shown.seen = b""
            self.resize(shown, 24, 80)
            # Whatever is left of a line and of pages.
            shown.press(b"\n" * 40)
            self.until(shown, "last steps")
            shown.press(b"where\n")
            self.until(shown, "TRAP x20")
            shown.press(b"run\n")
            self.until(shown, "the program waits for a key")
            self.resize(shown, 10, 30)
            self.resize(shown, 24, 80)
            shown.press(b"q")
            self.until(shown, "halted by HALT")
            self.left(shown)

    def test_a_closed_window_ends_it(self) -> None:
        for arguments in (("debug",), ("debug", "--screen")):
            with self.opened(*arguments, self.file("shows.obj", SHOWS)) as shown:
                self.until(shown, "(lc3)")
                shown.close()
                self.assertIn(shown.process.wait(20), (-signal.SIGHUP, 0))

    def shell(self, *arguments: object) -> OnTerminal:
        """The command as a job of a shell in such a window. Debian's sh, unlike others, leaves the
        terminal as its jobs have left it."""
        with mock.patch.dict("tests.command_support.ENVIRONMENT", PS1="shell> ", ENV=""):
            with mock.patch("tests.command_support.PYTHON", ["sh", "-i"]):
                shown = self.opened()
        shown.see(b"shell> ")
        shown.press(shlex.join([*PYTHON, *map(str, arguments)]).encode() + b"\n")
        return shown

    def suspended(self, shown: OnTerminal) -> None:
        """Presses Ctrl-Z: the shell has the terminal, and sets the job going again.

        Python looks at a signal that comes just before it waits for a key only at the next one; so
        a person presses Ctrl-Z again, and so does this.
        """
        shown.press(b"\x1a")
        try:
            shown.see(b"Stopped", 3)
        except AssertionError:
            shown.press(b"\x1a")
            shown.see(b"Stopped")
        shown.seen = b""
        shown.press(b"stty -a; fg\n")
        shown.see(b" icanon")
        shown.see(b" echo ")
        shown.see(b"fanthrig debug")

    def test_ctrl_z_at_the_prompt(self) -> None:
        with self.shell("debug", self.file("until.obj", UNTIL_Q)) as shown:
            shown.see(b"(lc3) ")
            shown.press(b"regi")
            shown.see(b"regi")
            self.suspended(shown)
            # What was typed stands there again, and can be gone on with.
            shown.see(b"(lc3) regi")
            shown.press(b"\t\nrun\n")
            shown.see(b"MCR x8000")
            shown.see(b"the program waits for a key")
            self.suspended(shown)
            shown.press(b"q")
            shown.see(b"halted by HALT")
            shown.press(b"quit\necho ended $?\n")
            shown.see(b"ended 0")
            self.assertNotIn(b"Traceback", shown.seen)

    def test_ctrl_z_in_the_screen(self) -> None:
        with self.shell("debug", "--screen", self.file("until.obj", UNTIL_Q)) as shown:
            self.until(shown, "(lc3)")
            self.suspended(shown)
            self.until(shown, "last steps")
            shown.press(b"run\n")
            self.until(shown, "the program waits for a key")
            self.suspended(shown)
            # All of it is drawn anew, and nothing of the shell's is left.
            picture = self.until(shown, "the program runs")
            self.assertIn("last steps", picture)
            self.assertNotIn("icanon", picture)
            shown.press(b"q")
            self.until(shown, "halted by HALT")
            shown.press(b"quit\necho ended $?\n")
            shown.see(b"ended 0")
            self.assertNotIn(b"Traceback", shown.seen)

    def test_a_terminal_that_is_not_known(self) -> None:
        with self.opened("debug", "--screen", self.file("shows.obj", SHOWS), term="none") as shown:
            shown.see(b"no screen: 'none' is no known terminal: set TERM")
            prompted(shown, 1)
            shown.press(b"quit\n")
            self.assertEqual(shown.process.wait(20), 0)
