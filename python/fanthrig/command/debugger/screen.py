"""The debugger in one screen: code, registers, memory, the last steps, the display, and a line for
commands.

The arrow keys step while that line is empty: to the right on, to the left back. Up and down call
earlier commands, Tab completes, and the keys Page Up and Page Down move through memory.
"""

from __future__ import annotations

import curses
import os
import termios
import time
from typing import Any

from ...constants import MEMORY_WORDS
from ...sitting import Sitting
from ...telling import plain
from ..messages import say
from ..terminal import Display
from .commands import Debugger
from .console import WAITS, Console
from .motion import Wrong
from .prompt import PROMPT, STOPPED

# The least window that all of it fits.
LEAST = (20, 64)

# The columns of the registers and of memory, at the right.
RIGHT = 31

# The words of memory in a row.
IN_A_ROW = 3

# The seconds between two pictures of a program that runs.
APART = 0.05

RUNS = "the program runs: keys are the program's, Ctrl-C stops it"

_ENTER, _ERASE = ("\n", "\r", curses.KEY_ENTER), ("\b", "\x7f", curses.KEY_BACKSPACE)


class ScreenConsole(Console):
    """The program's display is part of the screen."""

    def __init__(self, screen: Screen) -> None:
        """A console for a screen."""
        super().__init__()
        self._screen, self._drawn = screen, 0.0

    def show(self, sitting: Sitting, display: Display) -> None:
        """Draws the screen anew, now and then."""
        if time.monotonic() - self._drawn > APART:
            self._screen.draw(RUNS)
            self._drawn = time.monotonic()

    def waits(self, said: bool) -> None:
        """Draws the screen with that, each time: what the program showed last may not be drawn."""
        self._screen.draw(WAITS)

    def close(self) -> None:
        """Leaves the terminal as it was."""
        try:
            curses.endwin()
        except curses.error:
            # A terminal whose window is closed needs nothing.
            pass

    def reopen(self) -> None:
        """Draws all of the screen anew."""
        self._screen.clear()
        self._screen.draw(RUNS)


class Screen:
    """The window of the terminal."""

    def __init__(self, debugger: Debugger, window: Any) -> None:
        """A window of curses."""
        self._debugger, self._window = debugger, window
        self._line, self._answer = "", ""
        self._history: list[str] = []
        self._place = 0

    def interact(self) -> None:
        """Obeys commands until the debugger is left for the prompt, or ends."""
        self._window.keypad(True)
        while not self._debugger.ended and self._debugger.on_screen:
            try:
                self.draw()
                self._take(self._key())
            except KeyboardInterrupt:
                self._line = ""

    def _key(self) -> str | int:
        """The next key; that of a window of another size where a signal has come instead."""
        try:
            return self._window.get_wch()  # type: ignore[no-any-return]
        except curses.error:
            self._debugger.ended = not _is_there()
            return curses.KEY_RESIZE

    def _take(self, key: str | int) -> None:
        """Takes a key."""
        if key in _ENTER:
            line, self._line = self._line, ""
            self._obey(line)
        elif key in _ERASE:
            self._line = self._line[:-1]
        elif key in (curses.KEY_LEFT, curses.KEY_RIGHT) and not self._line:
            self._obey("back" if key == curses.KEY_LEFT else "step")
        elif key in (curses.KEY_UP, curses.KEY_DOWN):
            self._recall(-1 if key == curses.KEY_UP else 1)
        elif key in (curses.KEY_PPAGE, curses.KEY_NPAGE):
            self._turn(-1 if key == curses.KEY_PPAGE else 1)
        elif key == "\t":
            self._complete()
        elif key == "\x04" and not self._line:
            self._debugger.ended = True
        elif isinstance(key, str) and key.isprintable():
            self._line += key

    def _obey(self, line: str) -> None:
        """Obeys a command."""
        if line.strip() and line not in self._history[-1:]:
            self._history.append(line)
        self._place = len(self._history)
        try:
            self._answer = self._debugger.obey(line)
        except Wrong as wrong:
            self._answer = plain(str(wrong))
        except KeyboardInterrupt:
            self._answer = STOPPED
        if self._answer.count("\n") > 1:
            self._page(self._answer)
            self._answer = ""

    def _recall(self, by: int) -> None:
        """Calls back an earlier command."""
        self._place = max(0, min(self._place + by, len(self._history)))
        self._line = self._history[self._place] if self._place < len(self._history) else ""

    def _turn(self, by: int) -> None:
        """Moves through memory."""
        looking, height = self._debugger.looking, self._window.getmaxyx()[0]
        first = looking.words_at + by * IN_A_ROW * max(1, height // 4 - 2)
        looking.words_at = max(0, min(first, MEMORY_WORDS - IN_A_ROW))

    def _complete(self) -> None:
        """Completes the last word, where only one fits."""
        before, space, begun = self._line.rpartition(" ")
        found = self._debugger.completed(before, begun)
        if len(found) == 1:
            self._line = f"{before}{space}{found[0]} "
        elif found:
            self._answer = "  ".join(found)

    def _page(self, text: str) -> None:
        """Shows a long answer by itself, a page at a time."""
        lines, first = text.split("\n"), 0
        while first < len(lines) and not self._debugger.ended:
            rows = max(1, self._fitted()[0] - 1)
            for at, line in enumerate(lines[first : first + rows]):
                self._put(at, 0, line)
            self._put(rows, 0, "any key goes on")
            self._window.refresh()
            try:
                first += rows if self._key() != curses.KEY_RESIZE else 0
            except KeyboardInterrupt:
                return

    # Drawing.

    def clear(self) -> None:
        """Has all of it drawn at the next time: others have written to the terminal."""
        self._window.clear()

    def _fitted(self) -> tuple[int, int]:
        """Empties the window, and answers its size. That may have changed: the signal which tells
        it is readline's, so that curses does not know."""
        columns, rows = os.get_terminal_size(0) if _is_there() else (0, 0)
        if rows and columns and curses.is_term_resized(rows, columns):
            curses.resizeterm(rows, columns)
            self._window.clear()
        self._window.erase()
        height, width = self._window.getmaxyx()
        return height, width

    def _put(self, row: int, column: int, text: str, looks: int = curses.A_NORMAL) -> None:
        """Writes a line, as much of it as fits."""
        height, width = self._window.getmaxyx()
        if row < height and column < width - 1:
            try:
                self._window.addnstr(row, column, plain(text), width - 1 - column, looks)
            except curses.error:
                # The window became smaller meanwhile.
                pass

    def draw(self, message: str = "") -> None:
        """Draws all of it, or says that the window is too small."""
        height, width = self._fitted()
        if height < LEAST[0] or width < LEAST[1]:
            self._put(0, 0, f"the window is too small: {LEAST[1]} by {LEAST[0]} is the least")
        else:
            self._draw(height, width)
        answer = (message or self._answer).split("\n")
        for at, line in enumerate(answer[-2:]):
            self._put(height - 1 - min(2, len(answer)) + at, 0, line)
        self._put(height - 1, 0, PROMPT + self._line)
        self._window.refresh()

    def _draw(self, height: int, width: int) -> None:
        """Draws the panes, each under its heading."""
        debugger, sitting = self._debugger, self._debugger.sitting
        code = max(9, (height - 6) // 2)
        few = (height - 6 - code) // 2
        left, record = width - RIGHT - 1, sitting.record
        state = "halted" if sitting.halted else f"{record.mode.name.capitalize()} mode"
        self._heading(0, f"{debugger.motion.here()}   {state}")
        for at, line in enumerate(debugger.names.around(sitting, code, debugger.stops.addresses)):
            self._put(1 + at, 0, line[:left], curses.A_BOLD if line.startswith("=>") else 0)
        for at, line in enumerate(self._registers()):
            self._put(1 + at, left + 1, line)
        self._heading(1 + code, "last steps".ljust(left + 1) + "memory")
        for at, step in enumerate(sitting.last_steps(few)):
            self._put(2 + code + at, 0, f"{step}"[:left])
        rows = debugger.looking.rows(debugger.looking.words_at, few * IN_A_ROW, IN_A_ROW)
        for at, line in enumerate(rows):
            self._put(2 + code + at, left + 1, line)
        first = 2 + code + few
        self._heading(first, "display")
        shown = sitting.display.rstrip("\n").split("\n")
        for at, line in enumerate(shown[-(height - 4 - first) :]):
            self._put(first + 1 + at, 0, line)

    def _registers(self) -> list[str]:
        """The registers, one a line."""
        record = self._debugger.sitting.record
        told = [
            f"R{number} x{value:04X} {value - ((value & 0x8000) << 1):6}"
            for number, value in enumerate(record.regs)
        ]
        codes = record.codes or "no code"
        return [*told, f"PC x{record.pc:04X}  PSR x{record.psr:04X} {codes}"]

    def _heading(self, row: int, text: str) -> None:
        """Writes a line of a heading, to its end."""
        self._put(row, 0, text.ljust(self._window.getmaxyx()[1]), curses.A_REVERSE)


def _is_there() -> bool:
    """Whether the terminal can still be read."""
    try:
        termios.tcgetattr(0)
        return True
    except termios.error:
        return False


def on_screen(debugger: Debugger) -> None:
    """Opens the screen until it is left. Where that can't be, it is said, and the prompt comes."""
    usual = debugger.motion.console
    try:
        curses.setupterm()
    except curses.error:
        debugger.on_screen = False
        say(f"no screen: {os.environ.get('TERM', 'none')!r} is no known terminal: set TERM")
        return

    def opened(window: Any) -> None:
        """With the window of the whole terminal."""
        screen = Screen(debugger, window)
        debugger.motion.console = ScreenConsole(screen)
        screen.interact()

    try:
        curses.wrapper(opened)
    finally:
        debugger.motion.console = usual
    # What was shown in the screen is not shown once more.
    debugger.sitting.take_display()
