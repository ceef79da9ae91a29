"""``lc3 list``: the words of object files, with their addresses and lines."""

from __future__ import annotations

import argparse

from ..labels import Labels
from ..loading import load
from ..memory import Line
from ..programs import text_of
from ..sitting import Sitting
from ..telling import plain
from .files import object_file
from .messages import Code, registers
from .output import Output
from .symbols import labels_of
from .terminal import Signals

# The column at which a label is written, as a comment.
LABELS = 32


def command(options: argparse.Namespace) -> Code:
    """Lists the files one after the other, each by itself, and answers the exit code."""
    sitting, output = Sitting(anywhere=True), Output(Signals())
    for path in options.files:
        data = object_file(path)
        program = load(sitting, path, data)
        sitting.start()
        if len(options.files) > 1:
            output.write(f"{'; ' if options.form else ''}{plain(path)}:\n")
        if options.form is not None:
            output.write(text_of(data, options.form))
        # A file of an origin alone may have it anywhere, and a page of no lines is none.
        elif program.words:
            labels = labels_of(options.symbols, [path])
            lines = sitting.lines(program.origin, program.words)
            output.write("".join(f"{listed(line, labels)}\n" for line in lines))
    if options.registers:
        output.write(f"{registers(sitting)}\n")
    return Code.HALTED


def listed(line: Line, labels: Labels) -> str:
    """A line of a listing, with its labels as a comment.

    >>> listed(Line(0x3003, 0x0FFE, "BRnzp #-2"), Labels({"LOOP": 0x3002, "END": 0x3003}))
    'x3003  x0FFE  BRnzp #-2         ; END: LOOP'
    """
    comment = labels.comment(line.address, line.word)
    return f"{str(line):<{LABELS}}; {comment}" if comment else str(line)
