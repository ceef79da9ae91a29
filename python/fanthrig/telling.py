"""How things are told to people, and what is wrong with a file: in one line that names it."""

from __future__ import annotations

import errno


class FileError(Exception):
    """A file or a folder that is refused, or that can't be read or written: one line that names it
    and says what to do."""


def plain(text: str) -> str:
    """Text without characters that would work on a terminal: names of files come from anybody.

    >>> plain("a\\nb\\x1b[2J.obj")
    'a\\\\nb\\\\x1b[2J.obj'
    """
    if text.isprintable():
        return text
    return "".join(c if c.isprintable() else repr(c)[1:-1] for c in text)


_TO_DO = {
    errno.ENOENT: "no such file: check its name",
    errno.EBADF: "it is closed: give it a file, a pipe or a terminal",
    errno.EISDIR: "it is a directory: name the files in it, as in DIRECTORY/*.obj",
    errno.ENOTDIR: "no such file: a part of its path is no directory",
    errno.EACCES: "permission denied: ask its owner for it, or change its mode by chmod",
    errno.ENOSPC: "no space is left: free some, or name another place",
    errno.ENAMETOOLONG: "the name is too long: check it",
    errno.ELOOP: "its symbolic links lead in a circle: name the file itself",
}


def of_os_error(error: OSError) -> str:
    """The file, what the system refused, and what to do.

    >>> of_os_error(FileNotFoundError(2, "No such file or directory", "hello.obj"))
    'hello.obj: no such file: check its name'
    """
    # An empty name is seen, as that of a variable which a script has not set.
    name = "" if error.filename is None else f"{error.filename or repr('')}: "
    plain = f"{error.strerror or error}: check the file and its place"
    return name + _TO_DO.get(error.errno or 0, plain)


def readable(byte: int | None) -> str:
    """A byte as a person reads it, or the end where there is none.

    >>> readable(0x41), readable(10), readable(None)
    ("'A' (x41)", "'\\\\n' (x0A)", 'the end')
    """
    return "the end" if byte is None else f"{repr(bytes([byte]))[1:]} (x{byte:02X})"


def counted(number: int, noun: str) -> str:
    """A number of things.

    >>> counted(1, "step"), counted(0, "step")
    ('1 step', '0 steps')
    """
    return f"{number} {noun}" if number == 1 else f"{number} {noun}s"
