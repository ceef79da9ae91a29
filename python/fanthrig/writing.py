"""Files that are written whole or not at all: a full disk leaves the old one."""

from __future__ import annotations

import os
import stat
from os import PathLike
from secrets import token_hex

# What has a name here belongs to whoever opened it: /dev/stdout may be any file.
SYSTEM = ("/dev/", "/proc/")


def write_file(path: str | PathLike[str], data: bytes) -> None:
    """Writes a file, in the place of the one that has the name. An ``OSError`` names the file.

    It is written under another name beside it, and renamed when it is whole. Owner and mode stay;
    so does a symbolic link, which leads to the new file. What a new file would not stand for is
    written in place: a device, a pipe, a file with other names (hard links), which are to have the
    same content, and a file whose folder takes no other.
    """
    try:
        old = os.stat(path) if os.path.exists(path) else None
        if _may_be_replaced(path, old):
            try:
                _replace(os.path.realpath(path), data, old)
                return
            except PermissionError:
                pass
        with open(path, "wb") as stream:
            stream.write(data)
    except OSError as error:
        # Whoever reads the message knows the file by the name that was given.
        raise OSError(error.errno, error.strerror, os.fspath(path)) from None


def _may_be_replaced(path: str | PathLike[str], old: os.stat_result | None) -> bool:
    """Whether a new file may stand in the place of what has a name."""
    if os.path.abspath(path).startswith(SYSTEM):
        return False
    if old is None:
        return True
    return stat.S_ISREG(old.st_mode) and old.st_nlink == 1 and os.access(path, os.W_OK)


def _replace(target: str, data: bytes, old: os.stat_result | None) -> None:
    """Writes a file beside the target, with its owner and its mode, and renames it."""
    temporary = os.path.join(os.path.dirname(target), f".lc3-{token_hex(8)}")
    mode = 0o666 if old is None else stat.S_IMODE(old.st_mode)
    file = os.open(temporary, os.O_WRONLY | os.O_CREAT | os.O_EXCL, mode)
    try:
        with open(file, "wb") as stream:
            if old is not None:
                os.fchown(file, old.st_uid, old.st_gid)
                os.fchmod(file, mode)
            stream.write(data)
            stream.flush()
            os.fsync(file)
        os.replace(temporary, target)
    except BaseException:
        os.unlink(temporary)
        raise
