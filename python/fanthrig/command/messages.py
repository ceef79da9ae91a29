"""What the command says to people, and its exit codes."""

from __future__ import annotations

import os
import select
import sys
from enum import IntEnum
from typing import IO, Any, BinaryIO

from ..ending import Ending
from ..labels import Labels
from ..records import Record
from ..sitting import Sitting
from ..telling import counted, plain


GONE = "standard output can't be written to any more: whoever read it is gone"


class Code(IntEnum):
    """How the command ends."""

    HALTED = 0
    NOT_HALTED = 1
    WRONG_USE = 2
    REFUSED = 3
    CRASHED = 4
    OTHER_END = 5
    # What a shell tells of a process that Ctrl-C has ended.
    INTERRUPTED = 130


class CommandError(Exception):
    """What ends a command: one line for standard error, and the exit code."""

    def __init__(self, text: str, code: Code = Code.REFUSED) -> None:
        """The line without the command's name."""
        self.code = code
        super().__init__(text)


def say(text: str) -> None:
    """Writes a line to standard error, with the command's name."""
    tell(f"lc3: {plain(text)}\n")


def tell(text: str) -> None:
    """Writes text to standard error. A terminal whose window is closed takes none."""
    try:
        sys.stderr.flush()
        if hasattr(sys.stderr, "buffer"):
            data = text.encode(sys.stderr.encoding or "utf-8", "backslashreplace")
            write_all(sys.stderr.buffer, data)
        else:
            # It is a text of the host's, and no stream of bytes.
            sys.stderr.write(text)
    except OSError:
        let_go(sys.stderr)


def write_all(stream: BinaryIO, data: bytes) -> None:
    """Writes bytes at once. Where others have set the stream not to wait, as a terminal that is
    shared with them, it is waited for: Python's own stream would drop what is not taken."""
    try:
        fd = stream.fileno()
    except (OSError, ValueError):
        # It is no file at all.
        stream.write(data)
        return
    left = memoryview(data)
    while left:
        try:
            left = left[os.write(fd, left) :]
        except BlockingIOError:
            select.select([], [fd], [])


def let_go(stream: IO[Any]) -> None:
    """Whoever read a stream is gone: what is left in its buffer shall disturb nobody at the end."""
    try:
        nowhere = os.open(os.devnull, os.O_WRONLY)
        os.dup2(nowhere, stream.fileno())
        os.close(nowhere)
    except (OSError, ValueError):
        # A stream that is no file has nobody at its end.
        pass


def end_line(ending: Ending, steps: int, labels: Labels = Labels()) -> str:
    """The line at the end of a run: how it ended, the steps, and the program's PC with its label
    and its line.

    >>> sitting = Sitting(bytes.fromhex("3000 1021 0FFE"))
    >>> end_line(sitting.run(3).ending, 3)
    'all steps asked for were made; 3 steps; PC x3001: BRnzp #-2'
    >>> end_line(sitting.ending, 3, Labels({"LOOP": 0x3000}))
    'all steps asked for were made; 3 steps; PC x3001 (LOOP+1): BRnzp #-2'
    """
    name, place = labels.name(ending.pc), ending.place
    if name:
        place = place.replace(":", f" ({name}):", 1)
    return f"{ending.text}; {counted(steps, 'step')}; {place}"


# Said above the registers where a routine of the monitor made the last steps.
OWN_REGISTERS = "the program's own registers, before its last instruction:"

# The same where it has served for so long that the program's last instruction was not found.
FEW_REGISTERS = "PC, PSR and R6 are the program's own, R0 to R5 and R7 the serving routine's:"

DEVICES = ("KBSR", "KBDR", "MCR", "TSR", "TIR")


def registers(sitting: Sitting) -> str:
    """The registers in a few lines.

    >>> print(registers(Sitting(bytes.fromhex("3000 F025"))))
    R0 x0000      0    R1 x0000      0    R2 x0000      0    R3 x0000      0
    R4 x0000      0    R5 x0000      0    R6 xFDFF   -513    R7 x0000      0
    PC x3000  TRAP x25
    PSR x8002  User mode, priority 0, Z    Saved_SSP x3000    Saved_USP x0000
    KBSR x0000    KBDR x0000    MCR x8000    TSR x0000    TIR x0000
    """
    record, here = sitting.record, sitting.here()
    return "\n".join([*_processor(record, here.text), _devices(sitting)])


def own_registers(sitting: Sitting, ending: Ending) -> str:
    """The same as the program had them at its last instruction, where a routine of the monitor has
    made the last steps; the devices are as they stand.

    >>> sitting = Sitting(bytes.fromhex("3000 1021 F025"))
    >>> print(own_registers(sitting, sitting.run().ending))
    the program's own registers, before its last instruction:
    R0 x0001      1    R1 x0000      0    R2 x0000      0    R3 x0000      0
    R4 x0000      0    R5 x0000      0    R6 xFDFF   -513    R7 x0000      0
    PC x3001  TRAP x25
    PSR x8001  User mode, priority 0, P    Saved_SSP x3000    Saved_USP x0000
    KBSR x0000    KBDR x0000    MCR x0000    TSR x0000    TIR x0000
    """
    if not ending.served:
        return registers(sitting)
    own = _processor(ending.record, ending.line)
    heading = OWN_REGISTERS if ending.registers_known else FEW_REGISTERS
    return "\n".join([heading, *own, _devices(sitting)])


def _processor(record: Record, line: str) -> list[str]:
    """The registers of the processor, with the line at PC."""
    values = [
        f"R{number} x{value:04X} {value - ((value & 0x8000) << 1):6}"
        for number, value in enumerate(record.regs)
    ]
    mode, codes = record.mode.name.capitalize(), record.codes or "no code"
    saved = f"Saved_SSP x{record.saved_ssp:04X}    Saved_USP x{record.saved_usp:04X}"
    return [
        "    ".join(values[:4]),
        "    ".join(values[4:]),
        f"PC x{record.pc:04X}  {line}".rstrip(),
        f"PSR x{record.psr:04X}  {mode} mode, priority {record.priority}, {codes}    {saved}",
    ]


def _devices(sitting: Sitting) -> str:
    """The registers of the devices."""
    return "    ".join(f"{name} x{sitting[name]:04X}" for name in DEVICES)
