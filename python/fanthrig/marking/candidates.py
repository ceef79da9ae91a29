"""The candidates of a marking: which files are marked, which are passed over, and how one is read.

A file that is named on the command line is a candidate whatever its name. A folder is walked with
all folders in it, in the order of the bytes of names: a file is a candidate if its name ends in
``.obj``, or as that of a program as text in ``.bin`` or ``.hex``, in small letters or capitals, and
else it is passed over with the reason. Names that end in ``.txt`` are for notes as well: they are
candidates only where that is asked for, and never those in ``.feedback.txt``, which an earlier
marking has written beside the hand-ins. Each file of a folder is one or the other. Symbolic links
are followed only where that is asked for; hard links are files like any other.
"""

from __future__ import annotations

import errno
import os
import stat
from dataclasses import dataclass, field, replace
from typing import TYPE_CHECKING, Iterator, Sequence

from ..loading import as_object_file
from ..programs import TEXT_SUFFIX, read_program
from ..telling import FileError, of_os_error
from .regular import LINK, opened

if TYPE_CHECKING:
    from .platforms import Student

SUFFIXES = (".obj", ".bin", ".hex")
NAMED = ".obj, .bin or .hex"

# So the files of feedback are named, which may lie beside the hand-ins.
FEEDBACK_SUFFIX = ".feedback.txt"

OTHER_SUFFIX = f"its name does not end in {NAMED}"
IS_FEEDBACK = f"its name ends in {FEEDBACK_SUFFIX}: it is feedback of a marking"
NOT_ASKED_FOR = f"its name ends in {TEXT_SUFFIX}: --texts has it marked"
EMPTY_FOLDER = "the folder is empty"
LOST_LINK = "it is a symbolic link that leads to nothing"
SEEN_FOLDER = "the same folder as one that is walked already"
NO_CANDIDATE = f"no file in it, or in the folders in it, has a name that ends in {NAMED}"


@dataclass(frozen=True)
class Found:
    """A file of the command line or of a folder: a candidate, unless ``passed_over`` has the reason
    why it is none. ``place`` is its path in the folder that was named, and ``student`` who handed
    it in, where that is known."""

    name: str
    passed_over: str = ""
    place: str = field(default="", compare=False)
    student: Student | None = field(default=None, compare=False)


def found_in(
    names: Sequence[str], links: bool, one: bool = False, texts: bool = False
) -> list[Found]:
    """All files that the names of a command line stand for, in order; with ``texts`` those of
    folders that are named .txt as well.

    A name that is not there, or no candidate at all, is a mistake of the command line, and nothing
    is marked. Where only some of the folders have no candidate, each of these stands in the list as
    a candidate itself, and to read it tells why it is refused. So does a symbolic link that is not
    followed; also where ``one`` file of many is marked by itself, whose line is looked for.
    """
    found: list[Found] = []
    without = []
    for name in names:
        _check_there(name)
        files = [_placed(file, name) for file in _walked(name, links, texts)]
        if all(file.passed_over for file in files):
            without.append((name, NO_CANDIDATE))
            files = [_placed(Found(name), name), *(file for file in files if file.name != name)]
        elif os.path.islink(name) and not (links or one):
            without.append((name, LINK))
        found += files
    if len(without) == len(names):
        raise FileError(": nothing to mark: ".join(without[0]))
    return found


def _check_there(name: str) -> None:
    """That there is something of this name."""
    try:
        os.lstat(name)
    except OSError as error:
        raise FileError(of_os_error(error)) from None
    except ValueError as error:
        raise FileError(f"{name!r}: {error}: check its name") from None


def _placed(file: Found, top: str) -> Found:
    """A file with its path in the folder that was named; one that was named itself has its own."""
    own = os.path.basename(os.path.abspath(file.name))
    return replace(file, place=own if file.name == top else os.path.relpath(file.name, top))


def _walked(top: str, links: bool, texts: bool) -> Iterator[Found]:
    """The file of a name, or every file of a folder and of the folders in it.

    With links one folder may be met again and again: it is walked once.
    """
    left, seen = [top], set()
    while left:
        path = left.pop()
        try:
            status = os.stat(path, follow_symlinks=links)
        except OSError as error:
            yield Found(path) if path == top else _unseen(path, error)
            continue
        folder = (status.st_dev, status.st_ino)
        if not stat.S_ISDIR(status.st_mode):
            yield Found(path) if path == top else _file(path, status.st_mode, texts)
        elif folder in seen:
            yield Found(path, SEEN_FOLDER)
        else:
            seen.add(folder)
            names = _names(path)
            if not names:
                # A folder that can't be read may have candidates: to read it tells why.
                yield Found(path) if names is None else Found(path, EMPTY_FOLDER)
            left += [os.path.join(path, name) for name in reversed(names or [])]


def _file(path: str, mode: int, texts: bool) -> Found:
    """What becomes of a file in a folder."""
    name = path.lower()
    if name.endswith(FEEDBACK_SUFFIX):
        return Found(path, IS_FEEDBACK)
    if name.endswith(SUFFIXES) or (texts and name.endswith(TEXT_SUFFIX)):
        return Found(path)
    if stat.S_ISREG(mode) and name.endswith(TEXT_SUFFIX):
        return Found(path, NOT_ASKED_FOR)
    return Found(path, LINK if stat.S_ISLNK(mode) else OTHER_SUFFIX)


def _unseen(path: str, error: OSError) -> Found:
    """What becomes of a file in a folder that can't be looked at. It may be a folder of candidates,
    so that it is one, and to read it tells why; but a link to nothing is passed over."""
    nothing, named = error.errno in (errno.ENOENT, errno.ELOOP), path.lower().endswith(SUFFIXES)
    return Found(path, LOST_LINK) if nothing and not named else Found(path)


def _names(folder: str) -> list[str] | None:
    """The names in a folder in order, or nothing where it can't be read."""
    try:
        return sorted(os.listdir(folder), key=os.fsencode)
    except OSError:
        return None


def candidate_file(path: str, links: bool) -> bytes:
    """The bytes of a candidate's file, which may be text; of a longer file no more than is needed
    to refuse it."""
    if os.path.isdir(path) and (links or not os.path.islink(path)):
        raise FileError(_why_none(path))
    with opened(path, links) as stream:
        return read_program(stream)


def shared_files(paths: Sequence[str]) -> list[tuple[str, bytes]]:
    """Object files that all candidates share, by their names, each with its bytes: none can keep a
    marking waiting for ever."""
    files = []
    for path in paths:
        with opened(path, links=True, pipes=True) as stream:
            data = read_program(stream)
        files.append((path, as_object_file(path, data)))
    return files


def _why_none(folder: str) -> str:
    """Why a folder stands among the candidates: it can't be read, or it has none."""
    try:
        os.listdir(folder)
    except OSError as error:
        return of_os_error(error)
    return f"{folder}: refused: {NO_CANDIDATE}"
