"""Object files and sittings as the command takes them: what is wrong with one is said in a line."""

from __future__ import annotations

import argparse
import os
import stat
from os import PathLike, fspath
from typing import Sequence

from ..loading import as_object_file, load
from ..places import PlaceError
from ..programs import read_program
from ..records import Edition, Mode
from ..recording import REPLAY_STEPS, Recording, RecordingError
from ..sitting import Sitting
from ..telling import of_os_error
from .messages import Code, CommandError

# A longer file of keys is taken for one that never ends.
LONGEST = 1 << 24

# Why our monitor is not put beside a program of the second edition, and what to do.
NO_SECOND_MONITOR = (
    "--edition 2: the ready-made monitor returns by RTI, and a TRAP of the second edition pushes "
    "nothing to return to; add --no-monitor, and name your class's monitor by --with, "
    "as in: lc3 run --edition 2 --no-monitor --with MONITOR.obj PROGRAM.obj"
)


def object_file(path: str) -> bytes:
    """The bytes of an object file, or of the one that a text stands for; it may be a pipe."""
    try:
        with open(path, "rb") as stream:
            data = read_program(stream)
    except OSError as error:
        # What is refused only when it is read has no name.
        error.filename = path
        raise CommandError(of_os_error(error)) from None
    except ValueError as error:
        # A name with a byte 0 in it is no name of a file.
        raise CommandError(f"{path!r}: {error}: check its name") from None
    return as_object_file(path, data)


def object_files(paths: Sequence[str]) -> list[tuple[str, bytes]]:
    """Object files by their names, each with its bytes."""
    return [(path, object_file(path)) for path in paths]


def whole_file(path: str | PathLike[str]) -> bytes:
    """The bytes of a file of keys or cases."""
    with open(path, "rb") as stream:
        data = stream.read(LONGEST + 1)
    if len(data) > LONGEST:
        text = f"{fspath(path)}: refused: it is longer than {LONGEST >> 20} MiB"
        raise CommandError(f"{text}: name a shorter file")
    return data


def check_edition(options: argparse.Namespace) -> None:
    """That our monitor is not asked to serve the second edition."""
    if options.edition == Edition.SECOND and options.monitor:
        raise CommandError(NO_SECOND_MONITOR, Code.WRONG_USE)


def sitting_of(
    options: argparse.Namespace,
    examiner_files: Sequence[tuple[str, bytes]],
    candidate_files: Sequence[tuple[str, bytes]],
) -> Sitting:
    """A sitting with files loaded, each given by its name and its bytes, as the options have it.
    The last of the candidate's runs."""
    sitting = Sitting(anywhere=options.anywhere, monitor=options.monitor, edition=options.edition)
    for path, data in examiner_files:
        load(sitting, path, data, examiner=True)
    for path, data in candidate_files:
        load(sitting, path, data, trusted=options.trusted)
    mode = Mode.SUPERVISOR if options.supervisor else Mode.USER
    try:
        sitting.start(options.pc, mode, options.stack)
    except PlaceError as error:
        raise CommandError(str(error), Code.WRONG_USE) from None
    return sitting


def same_file(one: str, other: str) -> bool:
    """Whether two names are those of one file: by links of either kind, too."""
    try:
        return os.path.samefile(one, other)
    except (OSError, ValueError):
        # One that is not there yet has no other name.
        return os.path.realpath(one) == os.path.realpath(other)


def is_fifo(path: str) -> bool:
    """Whether a name is that of a FIFO, or of a pipe of the shell's."""
    try:
        return stat.S_ISFIFO(os.stat(path).st_mode)
    except OSError:
        return False


def save(sitting: Sitting, path: str) -> None:
    """Saves a sitting, or says why it can't be."""
    try:
        sitting.save(path)
    except RecordingError as error:
        raise CommandError(str(error)) from None


def recording_of(path: str, steps: int | None) -> Recording:
    """A saved sitting, of which so many steps are asked for, or what is wrong with the file."""
    try:
        recording = Recording.load(path)
    except RecordingError as error:
        raise CommandError(f"{error}; name a file that --save-sitting wrote") from None
    except OSError as error:
        error.filename = path
        raise CommandError(of_os_error(error)) from None
    if steps is None and recording.steps > REPLAY_STEPS:
        text = f"{path}: refused: it has {recording.steps} steps, and to make so many takes long"
        raise CommandError(f"{text}: say by --steps how many to replay")
    return recording
