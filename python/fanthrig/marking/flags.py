"""What an examiner looks at in a run, whatever the program showed.

A flag is an exception, above all the access exception of a program that reaches for privileged
memory; a trap without a service; or a string that the monitor refused to show.

With the ready-made monitor each of these halts the machine, so that how the run ended tells all;
where the steps were made before it could, the entry that is open does.
A monitor of the class's own may go on after an exception or a trap without a service, and a
program in Supervisor mode may alter the monitor. There the run is made once more with a log, and
every exception and every such trap is counted. A trap is told by where it led, so that a service
that the program itself has installed is one. By the second edition's rules no run is logged, and
only what ended the run is told.

To count takes some five times as long as the run. Of a candidate whose time was over it is given up
after as much time again: the flags are then those of the first part of the run.
"""

from __future__ import annotations

import sys
import time
from array import array
from collections import Counter
from dataclasses import dataclass, replace
from typing import Sequence

from ..constants import LOG_WORDS
from ..ending import EXCEPTIONS, HALT_VECTOR, TRAPS, Ending, EndKind, has_service
from ..log import LoggedStep, logged_steps
from ..machine import LOGGED_AT_ONCE, Machine
from ..recording import Recording
from ..records import Edition, Reason
from ..running import Stopper
from ..sitting import Sitting
from .options import Options


# Of each reason what is left of it where only traps are looked at.
_TRAPS_ALONE = bytes(Reason.TRAP if number == Reason.TRAP else 0 for number in range(256))


@dataclass(frozen=True)
class Flag:
    """One kind of event in a run: what it is, address and line of the instruction by which it came
    first, and how many times it came. The line is empty where no instruction was fetched."""

    flag: str
    pc: int
    line: str
    times: int = 1

    @classmethod
    def of(cls, step: LoggedStep) -> Flag:
        """The flag of an exception, or of a trap without a service."""
        return cls(_name(step.reason), step.pc, step.line)

    def __str__(self) -> str:
        """The flag in words.

        >>> print(Flag("access exception", 0x3002, "LDI R0, #2", 3))
        access exception at x3002: LDI R0, #2 (3 times)
        """
        often = f" ({self.times} times)" if self.times > 1 else ""
        return f"{self.flag} at x{self.pc:04X}: {self.line or 'not fetched'}{often}"


@dataclass(frozen=True)
class _Until:
    """Stops what takes too long, at a time of the monotonic clock; so does another stopper."""

    time: float
    other: Stopper
    name = "the time"

    @property
    def caught(self) -> int:
        """Whether it is to stop."""
        return self.other.caught or int(time.monotonic() >= self.time)


def flags_of(
    options: Options, sitting: Sitting, ending: Ending, stopper: Stopper
) -> tuple[Flag, ...]:
    """The flags of a candidate's run that has ended, in the order in which they came first."""
    flags: list[Flag] = []
    halts_at_each = options.monitor and not options.supervisor
    counted = not halts_at_each and options.edition == Edition.THIRD
    if counted and options.seconds is not None and ending.kind is EndKind.INTERRUPTED:
        stopper = _Until(time.monotonic() + options.seconds, stopper)
    if counted:
        flags = counted_flags(sitting.recording(), stopper)
    last = _last(ending, array("H", sitting.memory[:TRAPS]))
    # Every exception is counted, also one in a routine that serves the program.
    told = counted and ending.kind is EndKind.EXCEPTION
    if last is not None and not told and last.flag not in {flag.flag for flag in flags}:
        flags.append(last)
    return tuple(flags)


def _last(ending: Ending, table: array[int]) -> Flag | None:
    """The flag of what ended a run, or of what was under way when its steps were made. It is told
    with the vector words of the traps."""
    name = ending.kind.value if ending.kind.crash else ""
    if ending.reason in EXCEPTIONS:
        name = ending.reason.text
    elif not name and ending.vector is not None and not has_service(table, ending.vector):
        name = EndKind.TRAP_WITHOUT_SERVICE.value
    return Flag(name, ending.pc, ending.line) if name else None


def counted_flags(recording: Recording, stopper: Stopper) -> list[Flag]:
    """The exceptions of a run and its traps that have led to no service of their own, counted in
    the log of the run made once more. Where a signal has come, what is answered means nothing."""
    machine, flags = _machine_of(recording), dict[str, Flag]()
    shared = _shared_routine(machine.words)
    left = recording.steps
    while left and not stopper.caught:
        log = machine.advance_logged(min(left, LOGGED_AT_ONCE))[1]
        left -= len(log) // LOG_WORDS
        for step, times in _flagged_in(log, machine.record.pc, shared):
            flag = flags.setdefault(_name(step.reason), replace(Flag.of(step), times=0))
            flags[flag.flag] = replace(flag, times=flag.times + times)
    return list(flags.values())


def _machine_of(recording: Recording) -> Machine:
    """A machine at the start of a recording, with its keys."""
    machine = Machine(recording.edition)
    machine.record, machine.words[:] = recording.start.to_c(), recording.memory
    machine.times = array("Q", [time for time, _ in recording.keys])
    machine.keys = array("B", [key for _, key in recording.keys])
    return machine


def _name(reason: Reason) -> str:
    """The name of a flag by the reason of its step."""
    return reason.text if reason in EXCEPTIONS else EndKind.TRAP_WITHOUT_SERVICE.value


def _shared_routine(words: array[int]) -> int:
    """Where the traps lead that have no service: the vector word of most of the 256, or x0000."""
    word, count = Counter(words[:TRAPS]).most_common(1)[0]
    return word if 2 * count > TRAPS else 0


def _flagged_in(log: array[int], after: int, shared: int) -> Sequence[tuple[LoggedStep, int]]:
    """The first step of each kind of event in a log that is flagged, with their number, in order.
    PC is ``after`` behind its last step; ``shared`` is where traps without a service lead.

    >>> log = array("H", [0x3000, 0xF026, 1, 0x3001, 0xA002, 4, 0x3002, 0xA002, 4])
    >>> [(hex(step.pc), times) for step, times in _flagged_in(log, 0x3003, 0x0280)]
    [('0x3001', 2)]
    >>> [(hex(step.pc), times) for step, times in _flagged_in(log, 0x3003, 0x3001)]
    [('0x3000', 1), ('0x3001', 2)]
    """
    reasons = _halves(log[LOG_WORDS - 1 :: LOG_WORDS])[1]
    kinds = dict.fromkeys(EXCEPTIONS, reasons)
    kinds[Reason.TRAP] = _unserved_traps(log, reasons, after, shared)
    found = []
    for reason, steps in kinds.items():
        at = steps.find(reason)
        if at >= 0:
            (step,) = logged_steps(log[at * LOG_WORDS : (at + 1) * LOG_WORDS])
            found.append((at, step, steps.count(reason)))
    return [(step, times) for _, step, times in sorted(found, key=lambda entry: entry[0])]


def _unserved_traps(log: array[int], reasons: bytes, after: int, shared: int) -> bytes:
    """Of each step of a log the reason where it is a trap without a service, and else 0. A trap
    has led to where PC is at the next step."""
    if Reason.TRAP not in reasons:
        return b""
    led_to = log[LOG_WORDS::LOG_WORDS]
    led_to.append(after)
    # As numbers of a byte for each step: to go through them one by one would take longer than to
    # make them. TRAP x25 is HALT wherever it leads but to x0000.
    halts = _same(_halves(log[1::LOG_WORDS])[1], HALT_VECTOR)
    nowhere = _where(led_to, shared) & ~halts | _where(led_to, 0)
    traps = int.from_bytes(reasons.translate(_TRAPS_ALONE), "little")
    return (traps & nowhere).to_bytes(len(reasons), "little")


def _where(words: array[int], word: int) -> int:
    """A number with a byte for each word, the first one lowest: xFF where it is this one, and 0.

    >>> hex(_where(array("H", [0x3000, 0x0030, 0x3000]), 0x3000))
    '0xff00ff'
    """
    high, low = _halves(words)
    return _same(high, word >> 8) & _same(low, word & 0xFF)


def _same(data: bytes, byte: int) -> int:
    """The same of bytes."""
    table = bytes(0xFF if other == byte else 0 for other in range(256))
    return int.from_bytes(data.translate(table), "little")


def _halves(words: array[int]) -> tuple[bytes, bytes]:
    """The high bytes of words, and the low ones.

    >>> [half.hex() for half in _halves(array("H", [0xF025, 1]))]
    ['f000', '2501']
    """
    data, high = words.tobytes(), int(sys.byteorder == "little")
    return data[high::2], data[1 - high :: 2]
