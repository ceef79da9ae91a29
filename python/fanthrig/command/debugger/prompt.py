"""The debugger's prompt: commands line by line, from a terminal or from a pipe."""

from __future__ import annotations

import signal
import sys
import termios
from contextlib import suppress
from types import FrameType

from ...telling import plain
from ..messages import Code, tell
from ..terminal import die
from .commands import Debugger
from .console import Console
from .motion import Wrong

try:
    import readline
except ImportError:
    # A Python without it still reads lines.
    readline = None  # type: ignore[assignment]

PROMPT = "(lc3) "
STOPPED = "stopped by Ctrl-C"

# Between words that can be completed.
DELIMITERS = " \t[]=<>!+-"


class Edited:
    """While a line is edited: Ctrl-Z leaves the terminal as it was before, and when the process
    goes on, the line stands there again. readline by itself does neither under Python."""

    def __enter__(self) -> None:
        """The terminal is still as it was; one whose window is closed needs nothing."""
        self._taken = False
        with suppress(termios.error):
            self._saved = termios.tcgetattr(0)
            self._taken = signal.getsignal(signal.SIGTSTP) is signal.SIG_DFL
        if self._taken:
            signal.signal(signal.SIGTSTP, self._suspend)

    def __exit__(self, *_: object) -> None:
        """Leaves the signal as it was."""
        if self._taken:
            signal.signal(signal.SIGTSTP, signal.SIG_DFL)

    def _suspend(self, number: int, _frame: FrameType | None) -> None:
        """Stops the process, until it is to go on."""
        with suppress(termios.error, OSError):
            edited = termios.tcgetattr(0)
            termios.tcsetattr(0, termios.TCSANOW, self._saved)
            die(number)
            signal.signal(number, self._suspend)
            termios.tcsetattr(0, termios.TCSANOW, edited)
            begun = "" if readline is None else readline.get_line_buffer()
            sys.stdout.write(PROMPT + begun)
            sys.stdout.flush()


class Lines:
    """Where commands come from. On a terminal a line can be edited, earlier ones are called back,
    and Tab completes a word."""

    def __init__(self, debugger: Debugger) -> None:
        """The standard input of this process."""
        self._debugger = debugger
        self.on_terminal = sys.stdin.isatty()
        if hasattr(sys.stdin, "reconfigure"):
            # A script of commands may have any bytes.
            sys.stdin.reconfigure(errors="surrogateescape")
        if self.on_terminal and readline is not None:
            readline.set_completer(self._complete)
            readline.set_completer_delims(DELIMITERS)
            readline.parse_and_bind("tab: complete")

    def next(self) -> str | None:
        """The next line, or nothing at the end."""
        if self.on_terminal and sys.stdout.isatty():
            try:
                with Edited():
                    return input(PROMPT)
            except EOFError:
                tell("\n")
                return None
        if self.on_terminal:
            tell(PROMPT)
        line = sys.stdin.readline()
        # An editor may have begun a script with a byte order mark.
        return line.rstrip("\n").lstrip("\ufeff") if line else None

    def _complete(self, begun: str, number: int) -> str | None:
        """One after the other what a word may become."""
        before = readline.get_line_buffer()[: readline.get_begidx()]
        found = self._debugger.completed(before, begun)
        return found[number] if number < len(found) else None


def obey(debugger: Debugger, console: Console, line: str) -> bool:
    """Obeys one line, and tells the answer; whether it could be obeyed."""
    try:
        answer, right = debugger.obey(line), True
    except Wrong as wrong:
        answer, right = plain(str(wrong)), False
    except KeyboardInterrupt:
        answer, right, console.stopped = STOPPED, False, True
    tell(console.line_feed())
    tell(f"{answer}\n" if answer else "")
    console.told = STOPPED in answer
    return right


def interact(debugger: Debugger, console: Console) -> Code:
    """Obeys lines until the debugger is left for the screen, or ends. The exit code tells of a
    command that could not be obeyed, where they do not come from a terminal; there Ctrl-C ends it.
    """
    lines, code = Lines(debugger), Code.HALTED
    before = ""
    while not (debugger.ended or debugger.on_screen):
        try:
            tell(before)
            before, line = "", lines.next()
        except KeyboardInterrupt:
            # At the prompt it begins a new line. All that takes time is done where it is caught.
            before, line, console.stopped = "\n", "#", True
        if line is None:
            debugger.ended = True
        elif not line.lstrip().startswith("#"):
            if not (obey(debugger, console, line) or lines.on_terminal):
                code = Code.NOT_HALTED
        if console.stopped and not lines.on_terminal:
            # A command that was just done when it came has told its own answer alone.
            tell("" if console.told else f"{STOPPED}\n")
            debugger.ended, code = True, Code.NOT_HALTED
    return code
