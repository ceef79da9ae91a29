"""``lc3 make``: an object file of a program as text."""

from __future__ import annotations

import argparse
import os

from ..formats import FormatError
from ..programs import LONGEST_TEXT, object_file
from ..telling import of_os_error
from ..writing import write_file
from .files import same_file
from .messages import Code, CommandError

SUFFIX = ".obj"


def command(options: argparse.Namespace) -> Code:
    """Makes the object file, and answers the exit code."""
    path = options.file
    output = options.output or os.path.splitext(path)[0] + SUFFIX
    if same_file(path, output):
        text = f"{output} would be overwritten by its own object file: name another by -o"
        raise CommandError(text, Code.WRONG_USE)
    try:
        with open(path, "rb") as stream:
            data = stream.read(LONGEST_TEXT + 1)
    except OSError as error:
        raise CommandError(of_os_error(error)) from None
    except ValueError as error:
        # A name with a byte 0 in it is no name of a file.
        raise CommandError(f"{path!r}: {error}: check its name") from None
    if len(data) > LONGEST_TEXT:
        raise CommandError(f"{path}: refused: it is longer than {LONGEST_TEXT >> 20} MiB")
    try:
        write_file(output, object_file(data, path))
    except FormatError as error:
        raise CommandError(str(error)) from None
    return Code.HALTED
