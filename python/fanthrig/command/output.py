"""Standard output for results: each piece is written when it comes, and nothing is kept back. A bar
on the terminal tells how many have come."""

from __future__ import annotations

import errno
import fcntl
import os
import select
import sys
import time
from contextlib import suppress

from ..telling import of_os_error
from .messages import GONE, CommandError, let_go, tell
from .terminal import Signals

# A pipe that has room at all has room for so many bytes.
PIECE = select.PIPE_BUF

# The seconds after which a wait for a reader, or for another writer, looks for signals.
PATIENCE = 0.1

# The columns of the bar.
WIDTH = 30


class Output:
    """Writes text to standard output at once, so that a process that is killed leaves all of it.

    A reader that reads no more, or a terminal that is stopped by Ctrl-S, could keep the process for
    ever. After a signal what is not taken within a moment is dropped, with all that follows.
    """

    def __init__(self, signals: Signals) -> None:
        """The stream of this process."""
        self._signals, self._dropped = signals, False
        self._encoding = sys.stdout.encoding or "utf-8"
        try:
            self._fd: int | None = sys.stdout.fileno()
        except (OSError, ValueError):
            # It is no file at all.
            self._fd = None

    def write(self, text: str) -> None:
        """Writes text; where that fails, a ``CommandError`` says why."""
        data = text.encode(self._encoding, "backslashreplace")
        try:
            if self._fd is None:
                sys.stdout.write(data.decode(self._encoding))
                return
            while data and self._writable(self._fd):
                data = data[self._taken(self._fd, data[:PIECE]) :]
        except OSError as error:
            self._failed(error)

    @staticmethod
    def _taken(fd: int, data: bytes) -> int:
        """Writes some bytes, and answers how many were taken."""
        try:
            return os.write(fd, data)
        except BlockingIOError:
            # Others have set it not to wait, and have filled it meanwhile.
            return 0

    def _failed(self, error: OSError) -> None:
        """What a write that failed means: nothing more where a signal has ended the reader too."""
        let_go(sys.stdout)
        # The other end of the pipe, or the terminal's window, is closed.
        if error.errno not in (errno.EPIPE, errno.EIO):
            error.filename = "standard output"
            raise CommandError(of_os_error(error)) from None
        if not self._signals.caught:
            raise CommandError(GONE) from None

    def _writable(self, fd: int) -> bool:
        """Waits until a piece can be written; not where a signal has come and it can't."""
        while not self._dropped and not select.select([], [fd], [], PATIENCE)[1]:
            self._dropped = bool(self._signals.caught)
        return not self._dropped

    def lock(self) -> bool:
        """Waits until no other process writes a line; not where a signal has come and one does.
        Those that xargs starts share their output, as do markings that are added to one file, and
        only short lines are taken in one piece."""
        while self._fd is not None:
            try:
                fcntl.lockf(self._fd, fcntl.LOCK_EX | fcntl.LOCK_NB)
                break
            except (BlockingIOError, PermissionError):
                if self._signals.caught:
                    return False
                time.sleep(PATIENCE / 10)
            except OSError:
                # What can't be locked, as a file on some network, is written to all the same.
                break
        return True

    def unlock(self) -> None:
        """Lets other processes write."""
        if self._fd is not None:
            with suppress(OSError):
                fcntl.lockf(self._fd, fcntl.LOCK_UN)


class Bar:
    """A bar on the terminal of standard error. Where the results go to a terminal themselves, they
    are progress enough."""

    def __init__(self, count: int) -> None:
        """A bar that is full at a number."""
        self._count = count
        self._seen = sys.stderr.isatty() and not sys.stdout.isatty()

    def __enter__(self) -> Bar:
        """It is seen when something has come."""
        return self

    def grow(self, number: int) -> None:
        """So many have come."""
        if self._seen:
            full = WIDTH * number // self._count
            tell(f"\r[{'#' * full}{' ' * (WIDTH - full)}] {number}/{self._count}")

    def __exit__(self, *_: object) -> None:
        """Wipes the line: what is said next stands alone."""
        if self._seen:
            tell("\r\x1b[K")
