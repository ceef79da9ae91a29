"""Where keys come from and where the display goes: a terminal, a pipe, a file, or given keys.

Signals are noticed and not obeyed at once, so that a machine is never left between two steps, the
terminal is set back to what it was, and the end can be told.
"""

from __future__ import annotations

import errno
import os
import select
import signal
import stat
import sys
import termios
import threading
from fcntl import F_GETFL, fcntl
from types import FrameType
from typing import Any

from ..constants import MAX_STEPS
from ..running import NOTICED, Keyboard
from .messages import let_go, write_all

# The keys that are read at once. More are read when the program has taken these.
AT_ONCE = 65536


class Unblocked(Exception):
    """A signal has come while something was written, which may last for ever."""


class Signals:
    """Notices the signals that end a process: ``caught`` is the first one, or 0, and ``count`` how
    many have come. Where ``may_block`` is set they end what is done by an exception.

    What the host ignores, as under nohup, stays ignored. Only the main thread has signals.
    """

    def __init__(self) -> None:
        """Nothing is noticed yet."""
        self.caught = self.count = 0
        self.may_block = False
        self._usual: dict[int, Any] = {}
        self._pipe: tuple[int, int] | None = None
        self._waker = -1

    def __enter__(self) -> Signals:
        """Begins to notice. Each signal also writes to a pipe, which ends a wait for keys."""
        if threading.current_thread() is threading.main_thread():
            self._pipe = os.pipe()
            for end in self._pipe:
                os.set_blocking(end, False)
            self._waker = signal.set_wakeup_fd(self._pipe[1], warn_on_full_buffer=False)
            for number in NOTICED:
                if signal.getsignal(number) is not signal.SIG_IGN:
                    self._usual[number] = signal.signal(number, self._notice)
        return self

    def __exit__(self, *_: object) -> None:
        """Leaves the signals as they were."""
        for number, usual in self._usual.items():
            signal.signal(number, usual)
        if self._pipe is not None:
            signal.set_wakeup_fd(self._waker)
            for end in self._pipe:
                os.close(end)

    @property
    def name(self) -> str:
        """The signal that has come, as people call it."""
        return "Ctrl-C" if self.caught == signal.SIGINT else signal.Signals(self.caught).name

    @property
    def fatal(self) -> bool:
        """Whether the process is to end by the signal, and not only the run."""
        return self.caught not in (0, signal.SIGINT)

    def _notice(self, number: int, _frame: FrameType | None) -> None:
        """Takes a signal."""
        self.caught, self.count = self.caught or number, self.count + 1
        if self.may_block:
            self.may_block = False
            raise Unblocked

    def wait(self, fd: int, seconds: float | None) -> bool:
        """Whether there is something to read, at the latest when a signal has come."""
        wakers = [] if self._pipe is None else [self._pipe[0]]
        ready = select.select([fd, *wakers], [], [], seconds)[0]
        if wakers and wakers[0] in ready:
            os.read(wakers[0], 512)
        return fd in ready


def die(number: int) -> None:
    """Ends the process by a signal, so that whoever started it sees what ended it."""
    signal.signal(number, signal.SIG_DFL)
    os.kill(os.getpid(), number)


class File(Keyboard):
    """The bytes of a file, some at a time. So many are typed ahead that the program, which gets a
    key every 32 steps at most, never waits for those that are still to be read."""

    ahead = MAX_STEPS // 32 + 1

    def __init__(self, fd: int) -> None:
        """A file, open for reading."""
        super().__init__()
        self._fd = fd

    def poll(self) -> bytes:
        """The next bytes, or nothing at the end."""
        return _read(self._fd)

    def wait(self) -> bytes:
        """The same: a file has nothing to wait for."""
        return _read(self._fd)


class Stream(Keyboard):
    """The bytes of a pipe, as they come."""

    def __init__(self, fd: int, signals: Signals) -> None:
        """A pipe, open for reading."""
        super().__init__()
        self.fd, self._signals, self._ended = fd, signals, False

    def poll(self) -> bytes:
        """The bytes that are there."""
        return self._read() if not self._ended and self._signals.wait(self.fd, 0) else b""

    def wait(self) -> bytes:
        """Waits for bytes, for the end, or for a signal."""
        keys = b""
        while not keys and not self._ended and not self._signals.caught:
            if self._signals.wait(self.fd, None):
                keys = self._read()
        return keys

    def _read(self) -> bytes:
        """The bytes that are there, or nothing at the end."""
        try:
            data = _read(self.fd)
        except BlockingIOError:
            # Another process has read what was there.
            return b""
        self._ended = not data
        return data


class Terminal(Stream):
    """The keyboard of a terminal: each key as it is pressed, and not shown by the terminal.

    The terminal is set back when the run ends, and while it is suspended by Ctrl-Z.
    """

    def __enter__(self) -> Terminal:
        """Asks for keys instead of lines."""
        self._saved = termios.tcgetattr(self.fd)
        self._usual = signal.getsignal(signal.SIGTSTP)
        if self._usual is signal.SIG_DFL:
            signal.signal(signal.SIGTSTP, self._suspend)
        self._set()
        return self

    def __exit__(self, *_: object) -> None:
        """Sets the terminal back; keys that the program did not take are not for the shell."""
        if self._usual is signal.SIG_DFL:
            signal.signal(signal.SIGTSTP, self._usual)
        self._set_back()
        try:
            termios.tcflush(self.fd, termios.TCIFLUSH)
            # Where Ctrl-S stopped the display, the end could not be told; only who has stopped it
            # in this way can set it going.
            termios.tcflow(self.fd, termios.TCOOFF)
            termios.tcflow(self.fd, termios.TCOON)
        except termios.error:
            pass

    def _set(self) -> None:
        """Keys as they are pressed: no lines, no echo, and Enter as a line feed."""
        changed = termios.tcgetattr(self.fd)
        # A screen of curses has Enter as a carriage return.
        changed[0] |= termios.ICRNL
        changed[3] &= ~(termios.ICANON | termios.ECHO)
        changed[6][termios.VMIN], changed[6][termios.VTIME] = 1, 0
        # At once: to wait for the display first would wait for ever where Ctrl-S stopped it.
        termios.tcsetattr(self.fd, termios.TCSANOW, changed)

    def _set_back(self) -> None:
        """As it was before; a terminal whose window is closed needs nothing."""
        try:
            termios.tcsetattr(self.fd, termios.TCSANOW, self._saved)
        except termios.error:
            pass

    def _suspend(self, number: int, _frame: FrameType | None) -> None:
        """Stops the process with its terminal set back, and sets it again when it goes on."""
        self._set_back()
        die(number)
        signal.signal(number, self._suspend)
        self._set()


def _read(fd: int) -> bytes:
    """Some bytes of standard input, or nothing at its end."""
    try:
        return os.read(fd, AT_ONCE)
    except OSError as error:
        # A terminal whose window is closed can't be read.
        if error.errno == errno.EIO:
            return b""
        error.filename = "standard input"
        raise


def standard_keyboard(signals: Signals) -> Keyboard:
    """The keys of standard input, be it a terminal, a file or a pipe."""
    try:
        fd = sys.stdin.fileno()
        unreadable = fcntl(fd, F_GETFL) & os.O_ACCMODE == os.O_WRONLY
    except (OSError, ValueError):
        # It is no file at all.
        return Keyboard()
    if unreadable:
        # So nohup leaves a terminal.
        return Keyboard()
    if os.isatty(fd):
        return Terminal(fd, signals)
    return File(fd) if stat.S_ISREG(os.fstat(fd).st_mode) else Stream(fd, signals)


class Display:
    """The display on standard output: bytes as they are, at once."""

    def __init__(self, signals: Signals) -> None:
        """The stream of this process."""
        self._signals = signals
        self._stream = sys.stdout.buffer
        self.last, self.gone = b"\n", False

    def show(self, data: bytes) -> None:
        """Writes bytes. ``gone`` tells where nobody reads them any more."""
        if not data or self.gone or self._signals.fatal:
            return
        self.last = data[-1:]
        try:
            self._signals.may_block = True
            self._write(data)
            self._signals.may_block = False
        except Unblocked:
            pass

    def _write(self, data: bytes) -> None:
        """Writes bytes, or notices that nobody reads them."""
        try:
            write_all(self._stream, data)
        except OSError as error:
            self._signals.may_block = False
            let_go(self._stream)
            # The other end of the pipe, or the terminal's window, is closed.
            if error.errno not in (errno.EPIPE, errno.EIO):
                raise OSError(error.errno, error.strerror, "standard output") from None
            self.gone = True

    def line_feed(self) -> str:
        """A line feed where the cursor of the terminal is not at the start of a line."""
        return "\n" if self._stream.isatty() and self.last != b"\n" else ""
