"""The interactive run on a pseudo-terminal: keys, Ctrl-C, signals, and a window that is closed."""

from __future__ import annotations

import io
import os
import signal
import sys
import termios
import time
from unittest import mock

import fanthrig
from fanthrig.command import terminal
from fanthrig.running import NOTICED

from .command_support import HELLO, UNTIL_Q, Folder, OnTerminal, ran
from .support import COUNTING, ECHO, object_file


class Interactive(Folder):
    """Commands on terminals."""

    def test_keys_come_one_at_a_time(self) -> None:
        program, saved = self.file("until.obj", UNTIL_Q), self.folder / "sitting.json"
        with OnTerminal("run", "--save-sitting", saved, program) as shown:
            shown.ready()
            for key in b"ab\nc":
                # No Enter is needed, and the terminal shows nothing of itself.
                before = len(shown.seen)
                shown.press(bytes([key]))
                shown.see(shown.seen + (b"\r\n" if key == 10 else bytes([key])))
                self.assertLessEqual(len(shown.seen), before + 2)
            shown.press(b"q")
            shown.see(b"halted by HALT; ")
            self.assertEqual(shown.process.wait(20), 0)
            self.assertEqual(shown.attributes(), shown.before)
            self.assertTrue(shown.seen.startswith(b"ab\r\ncqHalted\r\nlc3: "), shown.seen)
        sitting = fanthrig.Sitting.replay(saved)
        self.assertEqual(bytes(key.byte for key in sitting.keys), b"ab\ncq")
        self.assertEqual(len({key.time for key in sitting.keys}), 5)

    def test_keys_typed_ahead(self) -> None:
        program = self.file("until.obj", UNTIL_Q)
        with OnTerminal("run", program) as shown:
            # The terminal itself shows these, for the command has not begun.
            shown.press(b"hello\n")
            shown.ready().press(b"wq")
            shown.see(b"hello\r\nwqHalted")
            self.assertEqual(shown.process.wait(20), 0)

    def test_ctrl_c_in_a_wait_and_in_a_loop(self) -> None:
        for content, line in ((ECHO, b"; PC x3000: TRAP x20"), (COUNTING, b"; PC x300")):
            program = self.file("program.obj", content)
            with OnTerminal("run", program) as shown:
                shown.ready()
                time.sleep(0.1)
                shown.press(b"\x03")
                said = shown.see(b"stopped by Ctrl-C; ")
                self.assertEqual(shown.process.wait(20), 1)
                self.assertEqual(shown.attributes(), shown.before)
                self.assertIn(line, said)
                self.assertNotIn(b"Traceback", said)

    def test_ctrl_c_says_where_on_a_line_of_its_own(self) -> None:
        program = self.file("echo.obj", ECHO)
        with OnTerminal("run", program) as shown:
            shown.ready().press(b"x")
            shown.see(b"x")
            shown.press(b"\x03")
            shown.see(b"\r\nlc3: stopped by Ctrl-C; ")

    def test_a_wait_takes_no_time(self) -> None:
        program = self.file("echo.obj", ECHO)
        with OnTerminal("run", program) as shown:
            shown.ready().press(b"x")
            shown.see(b"x")
            time.sleep(0.2)
            before = shown.seconds()
            time.sleep(0.6)
            self.assertLess(shown.seconds() - before, 0.1)
            shown.press(b"y")
            shown.see(b"y")

    def test_signals_set_the_terminal_back(self) -> None:
        for number in (signal.SIGTERM, signal.SIGQUIT, signal.SIGHUP):
            with OnTerminal("run", self.file("echo.obj", ECHO)) as shown:
                shown.ready()
                shown.process.send_signal(number)
                self.assertEqual(shown.process.wait(20), -number)
                self.assertEqual(shown.attributes(), shown.before)
                shown.see(b"stopped by " + number.name.encode())

    def test_a_closed_window_ends_the_process(self) -> None:
        # A wait, a loop, and a flood of bytes that nobody reads.
        flood = object_file(0x3000, "TRAP x21", "BRnzp #-2")
        for content in (ECHO, COUNTING, flood):
            saved = self.folder / "sitting.json"
            program = self.file("program.obj", content)
            with OnTerminal("run", "--save-sitting", saved, program) as shown:
                shown.ready()
                shown.close()
                self.assertIn(shown.process.wait(20), (-signal.SIGHUP, 1))
            # What was done until then is not lost.
            self.assertGreaterEqual(fanthrig.Sitting.replay(saved).clock, 0)

    def test_a_display_that_is_held_by_ctrl_s(self) -> None:
        flood = self.file("flood.obj", object_file(0x3000, "TRAP x21", "BRnzp #-2"))
        with OnTerminal("run", flood) as shown:
            shown.ready()
            shown.press(b"\x13")
            time.sleep(0.2)
            shown.process.send_signal(signal.SIGTERM)
            shown.see(b"stopped by SIGTERM")
            self.assertEqual(shown.process.wait(20), -signal.SIGTERM)
            self.assertEqual(shown.attributes(), shown.before)

    def test_output_elsewhere(self) -> None:
        program = self.file("until.obj", UNTIL_Q)
        reading, writing = os.pipe()
        with open(reading, "rb") as stream, OnTerminal("run", program, stdout=writing) as shown:
            os.close(writing)
            shown.ready().press(b"aq")
            self.assertEqual(stream.read(), b"aqHalted\n")
            self.assertTrue(shown.see(b"halted by HALT").startswith(b"lc3: "))

    def test_given_keys_leave_the_terminal_alone(self) -> None:
        program = self.file("echo.obj", ECHO)
        with OnTerminal("run", "--keys", "ab", program) as shown:
            shown.see(b"no more keys come")
            self.assertEqual(shown.process.wait(20), 1)

    def test_log_on_a_terminal(self) -> None:
        program = self.file("until.obj", UNTIL_Q)
        with OnTerminal("log", program) as shown:
            shown.ready()
            shown.press(b"q")
            shown.see(b"shows 'q'")
            shown.see(b"halted by HALT")
            self.assertEqual(shown.process.wait(20), 0)
            self.assertEqual(shown.attributes(), shown.before)

    def test_ctrl_c_in_a_log(self) -> None:
        for content in (ECHO, COUNTING):
            program = self.file("program.obj", content)
            with OnTerminal("log", "--registers", program) as shown:
                shown.ready()
                shown.see(b"\n      50  x")
                shown.press(b"\x03")
                shown.see(b"lc3: stopped by Ctrl-C; ")
                self.assertEqual(shown.process.wait(20), 1)
                self.assertEqual(shown.attributes(), shown.before)
                self.assertIn(b"\r\nR4 x0000", shown.seen)

    def test_words_that_work_on_terminals(self) -> None:
        # Each of them would clear the window, or write to it what is not so.
        evil = "\x1b[2J\x1b]0;a\x07\x9b1m\rlc3:halted\n"
        seen = "\\x1b[2J\\x1b]0;a\\x07\\x9b1m\\rlc3:halted\\n"
        hello = self.file("hello.obj", HELLO)
        for words, code in (
            ((f"--{evil}", "run", hello), 2),
            ((evil,), 2),
            (("run", f"--{evil}", hello), 2),
            (("run", "--steps", evil, hello), 2),
            (("run", "--pc", evil, hello), 2),
            (("run", "--edition", evil, hello), 2),
            (("run", f"--registers={evil}", hello), 2),
            (("log", f"-{evil}", hello), 2),
            (("list", hello, f"--{evil}"), 2),
            (("mark", "--cases", "c", "--jobs", evil, hello), 2),
            (("mark", "--cases", "c", f"--{evil}", hello), 2),
            (("run", evil), 3),
            (("run", "--with", evil, hello), 3),
            (("run", "--keys", f"@{evil}", hello), 3),
            (("run", "--replay", evil), 3),
            (("run", "--save-sitting", f"{evil}/a", hello), 3),
            (("mark", "--cases", evil, hello), 3),
            (("mark", "--cases", "c", evil), 3),
        ):
            with OnTerminal(*words) as shown:
                self.assertEqual(shown.process.wait(20), code, words)
                said = shown.see(b"lc3:halted").decode()
                self.assertIn(seen, said)
                for control in ("\x1b[2J", "\x07", "\x9b", "\rlc3:halted"):
                    self.assertNotIn(control, said)

    def test_progress_of_a_marking(self) -> None:
        hello = self.file("hello.obj", HELLO)
        self.file("cases/a.expected", "Hi\nHalted\n")
        reading, writing = os.pipe()
        arguments = ("mark", "--cases", self.folder / "cases", hello, hello, hello)
        with open(reading, "rb") as stream, OnTerminal(*arguments, stdout=writing) as shown:
            os.close(writing)
            shown.see(b"] 3/3")
            self.assertIn(b"3 of 3 candidates right", stream.read())
            self.assertEqual(shown.process.wait(20), 0)


class Settings(Folder):
    """The terminal's settings, in this process."""

    def setUp(self) -> None:
        super().setUp()
        self.window, self.end = os.openpty()
        self.addCleanup(os.close, self.window)
        self.addCleanup(os.close, self.end)

    def test_an_exception_sets_it_back(self) -> None:
        before = termios.tcgetattr(self.end)
        with self.assertRaises(RuntimeError):
            with terminal.Terminal(self.end, terminal.Signals()):
                self.assertNotEqual(termios.tcgetattr(self.end), before)
                raise RuntimeError
        self.assertEqual(termios.tcgetattr(self.end), before)
        self.assertIs(signal.getsignal(signal.SIGTSTP), signal.SIG_DFL)

    def test_it_is_set_back_while_suspended(self) -> None:
        before = termios.tcgetattr(self.end)
        seen = []
        stop = mock.patch.object(
            terminal, "die", lambda number: seen.append((number, termios.tcgetattr(self.end)))
        )
        with stop, terminal.Terminal(self.end, terminal.Signals()):
            during = termios.tcgetattr(self.end)
            os.kill(os.getpid(), signal.SIGTSTP)
            self.assertEqual(seen, [(signal.SIGTSTP, before)])
            self.assertEqual(termios.tcgetattr(self.end), during)
        self.assertEqual(termios.tcgetattr(self.end), before)

    def test_signals_are_left_as_they_were(self) -> None:
        usual = [signal.getsignal(number) for number in NOTICED]
        program = self.file("hello.obj", HELLO)
        self.assertEqual(ran("run", program).code, 0)
        self.assertEqual([signal.getsignal(number) for number in NOTICED], usual)

    def test_ignored_signals_stay_ignored(self) -> None:
        usual = signal.signal(signal.SIGHUP, signal.SIG_IGN)
        try:
            with terminal.Signals() as signals:
                os.kill(os.getpid(), signal.SIGHUP)
                os.kill(os.getpid(), signal.SIGINT)
                self.assertEqual(signals.caught, signal.SIGINT)
        finally:
            signal.signal(signal.SIGHUP, usual)

    def test_standard_input_of_each_kind(self) -> None:
        signals = terminal.Signals()
        file = self.file("keys", b"abc")
        with open(file) as stream, mock.patch.object(sys, "stdin", stream):
            keyboard = terminal.standard_keyboard(signals)
            told = [keyboard.poll(), keyboard.poll(), keyboard.wait()]
            self.assertEqual(told, [b"abc", b"", b""])
        with open(os.devnull, "w") as stream, mock.patch.object(sys, "stdin", stream):
            # So nohup leaves a terminal.
            keyboard = terminal.standard_keyboard(signals)
            self.assertEqual((keyboard.poll(), keyboard.wait()), (b"", b""))
        with open(self.end, closefd=False) as stream, mock.patch.object(sys, "stdin", stream):
            self.assertIsInstance(terminal.standard_keyboard(signals), terminal.Terminal)
        with open(os.devnull) as stream, mock.patch.object(sys, "stdin", stream):
            keyboard = terminal.standard_keyboard(signals)
            self.assertEqual((keyboard.poll(), keyboard.wait()), (b"", b""))
        with mock.patch.object(sys, "stdin", io.StringIO("abc")):
            self.assertEqual(terminal.standard_keyboard(signals).wait(), b"")
