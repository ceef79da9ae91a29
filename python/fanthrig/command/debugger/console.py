"""Keyboard and display of the program while it runs under the debugger."""

from __future__ import annotations

import signal
import sys
from types import FrameType
from typing import Sequence

from ...constants import MAX_CLOCK
from ...ending import Ending
from ...events import Event
from ...records import Stop
from ...running import Keyboard, sit
from ...sitting import Sitting
from ..messages import tell
from ..terminal import Display, Signals, Terminal, die


WAITS = "the program waits for a key: press it, or Ctrl-C for the prompt"


class Keys(Terminal):
    """The keys of a terminal. That the program waits for one is said once in a run: nothing else
    would tell it from one that hangs. Ctrl-Z leaves the whole terminal as it was, and what is shown
    is shown again when the process goes on."""

    def __init__(self, fd: int, signals: Signals, console: Console) -> None:
        """A terminal, and who tells."""
        super().__init__(fd, signals)
        self._console, self._said = console, False

    def wait(self) -> bytes:
        """Waits for keys, or for a signal."""
        keys = self.poll()
        if not (keys or self._signals.caught):
            self._console.waits(self._said)
            self._said = True
        return keys or super().wait()

    def _suspend(self, number: int, _frame: FrameType | None) -> None:
        """Stops the process, and goes on with all as it was shown."""
        self._set_back()
        self._console.close()
        die(number)
        signal.signal(number, self._suspend)
        self._console.reopen()
        self._set()


class Console:
    """The terminal, where there is one: keys that are pressed while the program runs are the
    program's, and Ctrl-C stops it. Where commands come from a pipe, no other keys come than those
    that are typed by a command."""

    def __init__(self) -> None:
        """Nothing runs. ``stopped`` tells whether Ctrl-C has come, ``told`` whether the last answer
        says so."""
        self._line_begun = self.stopped = self.told = False

    def _keyboard(self, signals: Signals) -> Keyboard:
        """The program's keyboard for one run."""
        try:
            if sys.stdin.isatty():
                return Keys(sys.stdin.fileno(), signals, self)
            return Keyboard()
        except (OSError, ValueError):
            # Standard input is no file at all, or closed.
            return Keyboard()

    def run(
        self, sitting: Sitting, steps: int | None, until: Sequence[Event], here: bool = False
    ) -> Ending:
        """Runs so many steps, or until something ends it; an event stops it as well."""
        signals, first = Signals(), not here
        end = MAX_CLOCK if steps is None else min(sitting.clock + steps, MAX_CLOCK)
        display = Display(signals)

        def advance(count: int) -> Stop:
            """Makes some steps, and shows what they showed."""
            nonlocal first
            stop = sitting.run(count, until=until, here=not first).stop
            first = False
            self.show(sitting, display)
            return Stop.INTERRUPTED if display.gone else stop

        with signals, self._keyboard(signals) as keyboard:
            ending = sit(sitting, keyboard, signals, end, advance, patient=steps is not None)
        self.stopped = self.stopped or bool(signals.caught)
        if signals.fatal:
            self.close()
            # Whoever sent the signal shall see that it was obeyed.
            die(signals.caught)
        return ending

    def show(self, sitting: Sitting, display: Display) -> None:
        """Shows what the program has shown: on standard output, byte for byte."""
        data = sitting.take_display()
        display.show(data)
        if data:
            self._line_begun = bool(display.line_feed())

    def waits(self, said: bool) -> None:
        """Says that the program waits for a key, unless that was said."""
        if not said:
            tell(f"{self.line_feed()}{WAITS}\n")

    def line_feed(self) -> str:
        """A line feed where the program has left the cursor of a terminal within a line."""
        begun, self._line_begun = self._line_begun, False
        return "\n" if begun else ""

    def close(self) -> None:
        """Leaves the terminal as it was."""

    def reopen(self) -> None:
        """Shows again what was shown."""
