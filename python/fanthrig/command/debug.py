"""``lc3 debug``: a program under the debugger."""

from __future__ import annotations

import argparse
import signal
import sys
import termios
from types import FrameType
from typing import Any

from ..running import NOTICED
from ..sitting import Sitting
from .debugger.commands import Debugger
from .debugger.console import Console
from .debugger.prompt import interact
from .files import object_files, recording_of, sitting_of
from .messages import Code, CommandError, say, tell
from .seat import check_use, given_keys
from .symbols import labels_of
from .terminal import die

NO_TERMINAL = "--screen needs a terminal: leave it out where commands come from a pipe"


def command(options: argparse.Namespace) -> Code:
    """Debugs as the options have it, and answers the exit code."""
    sitting = _sitting(options)
    labels = labels_of(options.symbols, [*options.with_files, *options.files])
    if options.keys is not None:
        sitting.type(given_keys(options.keys))
    console = Console()
    debugger = Debugger(sitting, labels, console)
    if options.screen and not _is_terminal():
        raise CommandError(NO_TERMINAL, Code.WRONG_USE)
    debugger.on_screen = options.screen
    if not options.screen:
        tell(f"{debugger.motion.here()}\n")
    with Guard(debugger):
        return _interact(debugger, console)


class Guard:
    """Sets the terminal back where a signal ends the process: prompt and screen alter it."""

    def __init__(self, debugger: Debugger) -> None:
        """Nothing is guarded yet."""
        self._debugger = debugger
        self._usual: dict[int, Any] = {}

    def __enter__(self) -> None:
        """Begins to guard; Ctrl-C is for others."""
        self._saved = termios.tcgetattr(0) if _is_terminal() else None
        for number in NOTICED if self._saved is not None else ():
            if signal.getsignal(number) is signal.SIG_DFL:
                self._usual[number] = signal.signal(number, self._end)

    def __exit__(self, *_: object) -> None:
        """Leaves the signals as they were."""
        for number, usual in self._usual.items():
            signal.signal(number, usual)

    def _end(self, number: int, _frame: FrameType | None) -> None:
        """Ends the process by the signal."""
        try:
            self._debugger.motion.console.close()
            if self._saved is not None:
                termios.tcsetattr(0, termios.TCSANOW, self._saved)
        except termios.error:
            # A terminal whose window is closed needs nothing.
            pass
        die(number)


def _interact(debugger: Debugger, console: Console) -> Code:
    """Obeys commands until the debugger ends."""
    code, terminal = Code.HALTED, _is_terminal()
    while not debugger.ended:
        try:
            code = max(code, _prompt_or_screen(debugger, console))
        except KeyboardInterrupt:
            # It came between two commands. Whoever holds the keys down shall not lose the sitting.
            if not terminal:
                raise
    return code


def _prompt_or_screen(debugger: Debugger, console: Console) -> Code:
    """Obeys commands at the prompt, or in the screen, until one is left for the other."""
    if not debugger.on_screen:
        return interact(debugger, console)
    if not _is_terminal():
        say(NO_TERMINAL)
        debugger.on_screen = False
        return Code.NOT_HALTED
    # Only now: a system without curses has the prompt all the same.
    from .debugger.screen import on_screen

    on_screen(debugger)
    return Code.HALTED


def _is_terminal() -> bool:
    """Whether this process has a terminal to show a screen on."""
    return sys.stdin.isatty() and sys.stdout.isatty()


def _sitting(options: argparse.Namespace) -> Sitting:
    """The sitting: of object files, or of a recording at its start."""
    check_use(options)
    if options.replay is not None:
        return Sitting.of(recording_of(options.replay, 0))
    examiner, candidate = object_files(options.with_files), object_files(options.files)
    return sitting_of(options, examiner, candidate)
