"""The files of a marking, opened so that none of them can keep a process waiting.

A FIFO without a writer, a terminal or a device may never answer, and to open some devices sets them
going. What is no regular file is refused without being opened. Where such a thing takes a file's
place between the look and the opening, it is opened without waiting, and then seen and refused.
"""

from __future__ import annotations

import os
import stat
from contextlib import contextmanager
from typing import BinaryIO, Iterator

from ..telling import FileError, of_os_error

# How shells name a pipe that is open already, as <(..) makes one. It has a writer, or its end is
# there.
OPEN_PIPES = ("/dev/fd/", "/proc/self/fd/", "/dev/stdin")

LINK = "it is a symbolic link: --follow-links has it followed"

_OTHERS = (
    (stat.S_ISLNK, LINK),
    (stat.S_ISDIR, "it is a folder, and not a file"),
    (stat.S_ISFIFO, "it is a FIFO, and not a regular file"),
    (stat.S_ISSOCK, "it is a socket, and not a regular file"),
    (stat.S_ISCHR, "it is a device, and not a regular file"),
    (stat.S_ISBLK, "it is a device, and not a regular file"),
)


def other_kind(mode: int) -> str:
    """What a file is by its mode that is no regular file; empty where it is one.

    >>> other_kind(os.stat(os.devnull).st_mode), other_kind(stat.S_IFREG)
    ('it is a device, and not a regular file', '')
    """
    return next((text for test, text in _OTHERS if test(mode)), "")


def _check(path: str, mode: int, pipes: bool) -> None:
    """That a mode is that of a regular file, or where ``pipes`` is set of an open pipe."""
    problem = other_kind(mode)
    pipe = pipes and stat.S_ISFIFO(mode) and path.startswith(OPEN_PIPES)
    if problem and not pipe:
        raise FileError(f"{path}: refused: {problem}")


@contextmanager
def opened(path: str, links: bool, pipes: bool = False) -> Iterator[BinaryIO]:
    """A regular file, opened to be read; symbolic links are followed where ``links`` is set, and
    the shell's pipes are read where ``pipes`` is. Whatever else it is, and whatever the system
    refuses, is a ``FileError``."""
    flags = os.O_RDONLY | os.O_NONBLOCK | os.O_NOCTTY | os.O_CLOEXEC
    try:
        _check(path, os.stat(path, follow_symlinks=links).st_mode, pipes)
        descriptor = os.open(path, flags if links else flags | os.O_NOFOLLOW)
        try:
            _check(path, os.fstat(descriptor).st_mode, pipes)
            os.set_blocking(descriptor, True)
            with open(descriptor, "rb", closefd=False) as stream:
                yield stream
        finally:
            os.close(descriptor)
    except OSError as error:
        error.filename = path
        raise FileError(of_os_error(error)) from None
    except ValueError as error:
        # A name with a byte 0 in it is no name of a file.
        raise FileError(f"{path!r}: {error}: check its name") from None
