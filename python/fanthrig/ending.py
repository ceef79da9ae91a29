"""How a run ended, told in the terms of the program and not of the monitor that served it.

A program ends by HALT, by an exception, by a trap that nobody serves, or by a string that the
monitor refuses to show; in each case the machine is halted by a store to MCR, which a routine of
the monitor makes some steps later. Which it was is told by the step by which the program was left:
see ``fanthrig.own``. That is exact for the ready-made monitor, and for every other whose routines
return by RTI and whose HALT is TRAP x25.
"""

from __future__ import annotations

from array import array
from dataclasses import dataclass, field
from enum import Enum

from .calls import line, monitor
from .constants import MCR_CLOCK, MEMORY_WORDS, MONITOR_WORDS, PSR_USER, VECTOR_WORDS
from .log import LoggedStep, logged_steps
from .machine import Machine
from .own import Left, left_by, privileged, strayed_by
from .past import Past
from .records import Edition, Reason, Record, Report, Stop
from .steps import STORES

# The vectors of traps, at the start of the vector table.
TRAPS = VECTOR_WORDS // 2

HALT_VECTOR = 0x25

# The traps that show a string, by their vectors.
STRINGS = {0x22: "PUTS", 0x24: "PUTSP"}

# The vector words of the exceptions.
EXCEPTIONS = {Reason.PRIVILEGE: 0x0100, Reason.ILLEGAL: 0x0101, Reason.ACCESS: 0x0102}
INTERRUPTS = (Reason.KEYBOARD, Reason.TIMER)


class EndKind(Enum):
    """How a run ended. The values are the words for it in a file."""

    HALTED = "halted"
    EXCEPTION = "exception"
    TRAP_WITHOUT_SERVICE = "trap without service"
    STRING_REFUSED = "string refused"
    MCR = "store to MCR"
    STEPS = "steps made"
    WAITING = "waiting"
    LOOP = "endless loop"
    OUTPUT_LIMIT = "output limit"
    BREAKPOINT = "breakpoint"
    INTERRUPTED = "interrupted"

    @property
    def crash(self) -> bool:
        """Whether the program was stopped for what it did.

        >>> [kind.name for kind in EndKind if kind.crash]
        ['EXCEPTION', 'TRAP_WITHOUT_SERVICE', 'STRING_REFUSED']
        """
        return self in (
            EndKind.EXCEPTION,
            EndKind.TRAP_WITHOUT_SERVICE,
            EndKind.STRING_REFUSED,
        )


@dataclass(frozen=True)
class Ending:
    """How a run ended, and where the program stood.

    ``text`` says it in words. ``pc`` is the address of the program's own instruction that ended
    the run, or that is obeyed next where nothing did; ``word`` is its word, or nothing where User
    mode may not fetch it. ``reason`` is the trap, exception or interrupt by which the program was
    left, and ``vector`` the trap's vector. ``record`` is the record as the program had it at
    ``pc``; but where a routine has served for so long that the step is not found, R0 to R5 and R7
    are the routine's, and ``registers_known`` is false. ``strayed`` tells of a program that came
    into privileged memory otherwise than by an entry, as by a JMP: ``pc`` is that of its last
    instruction outside.
    """

    kind: EndKind
    text: str
    pc: int
    word: int | None
    reason: Reason | None = None
    vector: int | None = None
    record: Record = field(default_factory=Record, repr=False, compare=False)
    registers_known: bool = field(default=True, repr=False, compare=False)
    strayed: bool = field(default=False, repr=False)

    @property
    def line(self) -> str:
        """The line of the program's instruction; empty where there is none."""
        return "" if self.word is None else line(self.word)

    @property
    def place(self) -> str:
        """The address with its line."""
        return f"PC x{self.pc:04X}: {self.line or 'User mode fetches nothing there'}"

    @property
    def served(self) -> bool:
        """Whether the program was left for a routine of the monitor, which made the last steps."""
        return self.strayed or self.reason not in (None, Reason.INSTRUCTION)

    @property
    def finished(self) -> bool:
        """Whether the program was halted by HALT."""
        return self.kind is EndKind.HALTED

    def __str__(self) -> str:
        """The ending in one line.

        >>> print(Ending(EndKind.HALTED, "halted by HALT", 0x3002, 0xF025))
        halted by HALT; PC x3002: TRAP x25
        """
        return f"{self.text}; {self.place}"


@dataclass(frozen=True, eq=False)
class SittingReport(Report):
    """What a run of a sitting did. It is equal to a ``Report`` of the same numbers."""

    past: Past = field(repr=False)

    def __eq__(self, other: object) -> bool:
        """Whether the numbers are the same."""
        if not isinstance(other, Report):
            return NotImplemented
        mine = (self.steps, self.keys, self.shown, self.stop)
        return mine == (other.steps, other.keys, other.shown, other.stop)

    __hash__ = Report.__hash__

    @property
    def ending(self) -> Ending:
        """How the run ended, whatever the sitting has done since.

        >>> from .sitting import Sitting
        >>> print(Sitting(bytes.fromhex("3000 1021 F025")).run().ending)
        halted by HALT; PC x3001: TRAP x25
        """
        return ending_of(self.past, self.stop)


def vector_of(step: LoggedStep) -> int | None:
    """The vector of a TRAP by either edition's rules, or nothing for another step.

    >>> hex(vector_of(LoggedStep(0x3000, 0xF025, Reason.TRAP)))
    '0x25'
    """
    trap = step.word is not None and step.word >> 12 == 15
    return step.word & 0xFF if step.word is not None and trap else None


def ending_of(past: Past, stop: Stop) -> Ending:
    """How a run ended that led to the end of a past."""
    machine, left = past.machine_at(past.clock), left_by(past)
    halted = not machine.record.mcr & MCR_CLOCK
    crash = None if left is None else _crash(machine, left, halted)
    if crash is not None:
        return crash
    if halted:
        return _halted(past, machine, left)
    kind = {
        Stop.OUTPUT_FULL: EndKind.OUTPUT_LIMIT,
        Stop.BREAKPOINT: EndKind.BREAKPOINT,
        Stop.EVENT: EndKind.BREAKPOINT,
        Stop.INTERRUPTED: EndKind.INTERRUPTED,
    }.get(stop, EndKind.STEPS)
    return _at(kind, stop.text, machine, left or strayed_by(past))


def _at(kind: EndKind, text: str, machine: Machine, left: Left | None) -> Ending:
    """An ending where the program was left, or else where the machine stands."""
    if left is None:
        record = machine.plain_record()
        denied = machine.edition is Edition.THIRD and record.psr & PSR_USER
        word = None if denied and privileged(record.pc) else machine.words[record.pc]
        return Ending(kind, text, record.pc, word, record=record)
    step, vector = left.step, vector_of(left.step)
    reason = step.reason if vector is None else Reason.TRAP
    told = (kind, text, step.pc, step.word, reason, vector, left.record)
    return Ending(*told, registers_known=left.found, strayed=left.strayed)


def _crash(machine: Machine, left: Left, halted: bool) -> Ending | None:
    """The ending of a program that was stopped for what it did: by the entry that left it, or by
    one inside of that which has no routine of its own. A machine that runs on has crashed where
    the entry leads to no routine at all: to x0000, and the word there is x0000 too."""
    for step in (left.step, *left.inner):
        vector = vector_of(step)
        exception = step.reason in EXCEPTIONS
        if not exception and (vector is None or has_service(machine.words, vector)):
            continue
        word = machine.words[EXCEPTIONS[step.reason] if exception else vector or 0]
        if not halted and (word or machine.words[0]):
            continue
        if exception:
            text = f"stopped by the {step.reason.text}"
            return _at(EndKind.EXCEPTION, text, machine, left)
        text = f"stopped by TRAP x{vector:02X}, which has no service"
        return _at(EndKind.TRAP_WITHOUT_SERVICE, text, machine, left)
    return None


def _halted(past: Past, machine: Machine, left: Left | None) -> Ending:
    """How a machine came to be halted by a program that has not crashed otherwise."""
    if left is None:
        return _halted_itself(past, machine)
    vector = vector_of(left.step)
    if vector == HALT_VECTOR:
        return _at(EndKind.HALTED, "halted by HALT", machine, left)
    reasons = [step.reason for step in (left.step, *left.inner)]
    interrupt = next((reason for reason in reasons if reason in INTERRUPTS), None)
    if interrupt is None and vector in STRINGS and is_ready_made(machine.words, vector):
        text = f"stopped by {STRINGS[vector]}, whose string came to privileged memory"
        return _at(EndKind.STRING_REFUSED, text, machine, left)
    name = f"TRAP x{vector:02X}" if interrupt is None else f"the {interrupt.text}"
    text = f"halted by a store to MCR in the routine of {name}"
    return _at(EndKind.MCR, text, machine, left)


def _halted_itself(past: Past, machine: Machine) -> Ending:
    """A machine that was halted by the program itself, or from outside."""
    if past.clock > past.start:
        step = logged_steps(past.log(past.clock - 1))[0]
        if step.word is not None and step.word >> 12 in STORES:
            text, strayed = "halted by a store to MCR", strayed_by(past)
            if strayed is not None and privileged(step.pc):
                text += f" in privileged memory, at x{step.pc:04X}"
                return _at(EndKind.MCR, text, machine, strayed)
            before = past.machine_at(past.clock - 1).plain_record()
            return _at(EndKind.MCR, text, machine, Left(past.clock - 1, step, before))
    return _at(EndKind.MCR, "halted from outside", machine, None)


def has_service(words: array[int], vector: int) -> bool:
    """Whether a trap has a routine of its own: its vector word is not the one that most of the
    256 have, nor x0000. TRAP x25 is HALT wherever it leads."""
    table = words[:TRAPS]
    routine = table[vector]
    return routine != 0 and (vector == HALT_VECTOR or 2 * table.count(routine) <= len(table))


def is_ready_made(words: array[int], vector: int) -> bool:
    """Whether the ready-made monitor's own routine serves a trap."""
    made = array("H", bytes(2 * MEMORY_WORDS))
    monitor(made)
    routines = slice(VECTOR_WORDS, MONITOR_WORDS)
    return words[vector] == made[vector] and words[routines] == made[routines]
