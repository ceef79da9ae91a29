"""The numbers of lc3.h as enums, its structs as dataclasses, and its refusals as an exception."""

from __future__ import annotations

from dataclasses import dataclass, field, fields, replace
from enum import IntEnum
from operator import index
from typing import Any

from ._library import InstructionStruct, RecordStruct, RoutinesStruct
from .constants import MCR_CLOCK, PSR_PRIORITY, PSR_USER


class Mode(IntEnum):
    """The two modes of privilege. ``USER`` is true and ``SUPERVISOR`` is false, as ``user`` of
    ``start`` has it."""

    SUPERVISOR = 0
    USER = 1


class Edition(IntEnum):
    """The edition of the book by whose rules a machine runs."""

    SECOND = 2
    THIRD = 3


class Stop(IntEnum):
    """Why a run stopped. The negative ones are a sitting's own: no call answers them."""

    DONE = 0
    HALTED = 1
    OUTPUT_FULL = 2
    LOG_FULL = 3
    BREAKPOINT = -1
    INTERRUPTED = -2
    EVENT = -3

    @property
    def text(self) -> str:
        """The stop in words.

        >>> Stop.HALTED.text
        'the machine is halted'
        """
        return {
            Stop.DONE: "all steps asked for were made",
            Stop.HALTED: "the machine is halted",
            Stop.OUTPUT_FULL: "the output is full",
            Stop.LOG_FULL: "the log is full",
            Stop.BREAKPOINT: "the next instruction is at a breakpoint",
            Stop.INTERRUPTED: "interrupted by a signal",
            Stop.EVENT: "an event that the run was to stop at has happened",
        }[self]


class Reason(IntEnum):
    """By which rule a step was made."""

    INSTRUCTION = 0
    TRAP = 1
    PRIVILEGE = 2
    ILLEGAL = 3
    ACCESS = 4
    KEYBOARD = 5
    TIMER = 6

    @property
    def text(self) -> str:
        """The reason in words.

        >>> Reason.ACCESS.text
        'access exception'
        """
        return _REASON_TEXTS[self]


_REASON_TEXTS = {
    Reason.INSTRUCTION: "instruction",
    Reason.TRAP: "trap",
    Reason.PRIVILEGE: "privilege exception",
    Reason.ILLEGAL: "illegal opcode exception",
    Reason.ACCESS: "access exception",
    Reason.KEYBOARD: "keyboard interrupt",
    Reason.TIMER: "timer interrupt",
}


class Kind(IntEnum):
    """The kinds of instruction. The table of ``Instruction`` says what each takes."""

    BR = 0
    ADD_REGISTER = 1
    ADD_IMMEDIATE = 2
    LD = 3
    ST = 4
    JSR = 5
    JSRR = 6
    AND_REGISTER = 7
    AND_IMMEDIATE = 8
    LDR = 9
    STR = 10
    RTI = 11
    NOT = 12
    LDI = 13
    STI = 14
    JMP = 15
    RESERVED = 16
    LEA = 17
    TRAP = 18


class Refusal(IntEnum):
    """Why a call was refused."""

    REGISTER = 1
    FIELD = 2
    MASK = 3
    MEMORY = 11
    RECORD = 12
    STEPS = 13
    LISTS = 14
    TIME = 15
    OUTPUT = 16
    FILE = 17
    RANGE = 18
    ORDER = 19
    PAGE = 20
    USER = 21


_TEXTS = {
    Refusal.REGISTER: "a register is above 7: name R0 to R7 by 0 to 7",
    Refusal.FIELD: "a value is out of its field's range, or the kind is unknown: the table of "
    "Instruction has each kind's range",
    Refusal.MASK: "the mask of the BR is above 7: add up 4 for n, 2 for z and 1 for p",
    Refusal.MEMORY: "memory is not 65,536 words: lend array('H', bytes(131072)) or the like",
    Refusal.RECORD: "the record has an undefined bit, a busy or timer count out of range, or a "
    "clock above 2^48: set only the bits that PSR, KBSR, KBDR, MCR and TSR have",
    Refusal.STEPS: "more than 1,048,576 steps are asked for, or the clock would pass 2^48: make "
    "several calls of fewer steps",
    Refusal.LISTS: "the lists of key times and keys differ in length: give each key one time",
    Refusal.TIME: "times[{index}] is below the clock: leave out the keys that have arrived",
    Refusal.OUTPUT: "what is to be written does not fit the output: lend a longer one",
    Refusal.FILE: "the file has an odd number of bytes, or fewer than two: an object file is an "
    "origin and words, of two bytes each",
    Refusal.RANGE: "the range goes beyond the last word of memory, xFFFF: lower the origin, or "
    "take fewer words; a file of another format does not begin with its origin",
    Refusal.ORDER: "times[{index}] is below the time before it: put the keys in order of time",
    Refusal.PAGE: "the page goes beyond the last word of memory, xFFFF: take fewer lines",
    Refusal.USER: "the file does not lie in x3000 to xFDFF, where a candidate's belongs: give it "
    "another origin, or take fewer words",
}


class Refused(Exception):
    """A call that could not be obeyed. It has altered nothing.

    ``number`` says why, ``text`` says it in words with what to do, and ``index`` is the first entry
    of ``times`` at fault under 15 and 19, else 0. ``subject`` names the file at fault where there
    is one.

    >>> error = Refused(17, subject="hello.obj")
    >>> error.number, error.index
    (<Refusal.FILE: 17>, 0)
    >>> print(error)
    hello.obj: refused (17): the file has an odd number of bytes, or fewer than two: an object \
file is an origin and words, of two bytes each
    """

    def __init__(self, number: int, index: int = 0, subject: str = "") -> None:
        """The refusal of a number, with its index, of what is named."""
        self.number = Refusal(number)
        self.index = index
        self.subject = subject
        self.text = _TEXTS[self.number].format(index=index)
        super().__init__(number, index, subject)

    def __str__(self) -> str:
        """The subject, the number and the text."""
        before = f"{self.subject}: " if self.subject else ""
        return f"{before}refused ({self.number.value}): {self.text}"


def checked_int(value: Any, greatest: int, name: str) -> int:
    """A number from 0 to the greatest, or a ``TypeError`` or ``ValueError`` that names it.

    ctypes cuts a number to its field; a host that hands in 65,536 shall not get 0.

    >>> checked_int(70000, 0xFFFF, "pc")
    Traceback (most recent call last):
    ValueError: pc is 70000, and must be from 0 to 65535
    """
    return _between(value, 0, greatest, name)


def as_word(value: Any, name: str) -> int:
    """A word given as a number from 0 to 65,535, or as a negative one in two's complement.

    >>> as_word(-1, "R0")
    65535
    >>> as_word(-32769, "R0")
    Traceback (most recent call last):
    ValueError: R0 is -32769, and must be from -32768 to 65535
    """
    return _between(value, -0x8000, WORD_LIMIT, name) & WORD_LIMIT


def _between(value: Any, least: int, greatest: int, name: str) -> int:
    """A whole number in a range, or the error that names it."""
    try:
        number = index(value)
    except TypeError:
        raise TypeError(f"{name} must be a whole number, not {value!r}") from None
    if not least <= number <= greatest:
        raise ValueError(f"{name} is {number}, and must be from {least} to {greatest}")
    return number


WORD_LIMIT = 0xFFFF
LONG_LIMIT = (1 << 64) - 1


@dataclass
class Record:
    """The machine, apart from its memory. A host may read and alter every field between calls."""

    regs: list[int] = field(default_factory=lambda: [0] * 8)
    pc: int = 0
    psr: int = 0
    saved_ssp: int = 0
    saved_usp: int = 0
    kbsr: int = 0
    kbdr: int = 0
    mcr: int = 0
    busy: int = 0
    timer_status: int = 0
    timer_interval: int = 0
    timer_count: int = 0
    clock: int = 0

    @property
    def mode(self) -> Mode:
        """The mode in bit 15 of PSR.

        >>> Record(psr=0x8002).mode
        <Mode.USER: 1>
        """
        return Mode.USER if self.psr & PSR_USER else Mode.SUPERVISOR

    @property
    def priority(self) -> int:
        """The priority in bits 10 to 8 of PSR.

        >>> Record(psr=0x8402).priority
        4
        """
        return (self.psr & PSR_PRIORITY) >> 8

    @property
    def codes(self) -> str:
        """Those of N, Z and P that are set.

        >>> Record(psr=0x8002).codes
        'Z'
        """
        return "".join(code for bit, code in ((4, "N"), (2, "Z"), (1, "P")) if self.psr & bit)

    @property
    def halted(self) -> bool:
        """Whether the machine is halted: bit 15 of MCR is clear.

        >>> Record(mcr=0x8000).halted
        False
        """
        return not self.mcr & MCR_CLOCK

    def copy(self) -> Record:
        """A record of its own with the same fields."""
        return replace(self, regs=list(self.regs))

    def to_c(self) -> RecordStruct:
        """The record as the library takes it; a field that does not fit is a ``ValueError``."""
        if len(self.regs) != 8:
            raise ValueError(f"regs has {len(self.regs)} registers, and must have 8")
        struct = RecordStruct(clock=checked_int(self.clock, LONG_LIMIT, "clock"))
        for number, value in enumerate(self.regs):
            struct.regs[number] = checked_int(value, WORD_LIMIT, f"regs[{number}]")
        for name in SHORT_FIELDS:
            setattr(struct, name, checked_int(getattr(self, name), WORD_LIMIT, name))
        return struct

    def take(self, struct: RecordStruct) -> None:
        """Makes every field that of the library's record."""
        self.regs = list(struct.regs)
        for name in SHORT_FIELDS:
            setattr(self, name, getattr(struct, name))
        self.clock = struct.clock

    @classmethod
    def from_c(cls, struct: RecordStruct) -> Record:
        """The library's record."""
        record = cls()
        record.take(struct)
        return record


SHORT_FIELDS = tuple(f.name for f in fields(Record) if f.name not in ("regs", "clock"))


@dataclass(frozen=True)
class Instruction:
    """An instruction as numbers: its kind, registers in the assembler's order, and a value.

    Where a kind has nothing in a place, it is read as 0 and ignored when written.

    ==============  ====================  ======  ======  ======  ========================
    kind            assembler             a       b       c       value
    ==============  ====================  ======  ======  ======  ========================
    BR              BRnzp LABEL           mask                    PCoffset9, -256 to 255
    ADD_REGISTER    ADD DR, SR1, SR2      DR      SR1     SR2
    ADD_IMMEDIATE   ADD DR, SR1, imm5     DR      SR1             imm5, -16 to 15
    LD              LD DR, LABEL          DR                      PCoffset9, -256 to 255
    ST              ST SR, LABEL          SR                      PCoffset9, -256 to 255
    JSR             JSR LABEL                                     PCoffset11, -1024 to 1023
    JSRR            JSRR BaseR            BaseR
    AND_REGISTER    AND DR, SR1, SR2      DR      SR1     SR2
    AND_IMMEDIATE   AND DR, SR1, imm5     DR      SR1             imm5, -16 to 15
    LDR             LDR DR, BaseR, off6   DR      BaseR           offset6, -32 to 31
    STR             STR SR, BaseR, off6   SR      BaseR           offset6, -32 to 31
    RTI             RTI
    NOT             NOT DR, SR            DR      SR
    LDI             LDI DR, LABEL         DR                      PCoffset9, -256 to 255
    STI             STI SR, LABEL         SR                      PCoffset9, -256 to 255
    JMP             JMP BaseR             BaseR
    RESERVED        none, opcode 1101                             low 12 bits, 0 to 4095
    LEA             LEA DR, LABEL         DR                      PCoffset9, -256 to 255
    TRAP            TRAP trapvect8                                trapvect8, 0 to 255
    ==============  ====================  ======  ======  ======  ========================

    The mask of a BR is the sum of 4 for n, 2 for z and 1 for p. RET is JMP R7.
    """

    kind: Kind
    a: int = 0
    b: int = 0
    c: int = 0
    value: int = 0

    def to_c(self) -> InstructionStruct:
        """The instruction as the library takes it.

        A number that does not fit its C field becomes the field's greatest or least, which is out
        of range as well: it is the library that refuses it, in its own order.
        """
        small = [index(number) for number in (self.kind, self.a, self.b, self.c)]
        bytes_ = [number if 0 <= number <= 255 else 255 for number in small]
        value = max(-(1 << 31), min((1 << 31) - 1, index(self.value)))
        return InstructionStruct(*bytes_, value)

    @classmethod
    def from_c(cls, struct: InstructionStruct) -> Instruction:
        """The instruction that the library read."""
        return cls(Kind(struct.kind), struct.a, struct.b, struct.c, struct.value)


@dataclass(frozen=True)
class Reading:
    """A word as an instruction, and the fixed bits that are wrong in it: 0 for a proper word."""

    instruction: Instruction
    mask: int


class Finding(IntEnum):
    """What the test of a monitor finds: that it passes, or the first thing that is wrong."""

    CERTIFIED = 0
    WATCHED = 1
    ROOM = 2
    VECTOR = 3
    INTERRUPT = 4
    WORD = 5
    STACK = 6
    INSTRUCTION = 7

    @property
    def text(self) -> str:
        """The finding in words.

        >>> Finding.CERTIFIED.text
        'the table holds'
        """
        return _FINDING_TEXTS[self]


_FINDING_TEXTS = {
    Finding.CERTIFIED: "the table holds",
    Finding.WATCHED: "watched is not eight words",
    Finding.ROOM: "no four words are between the monitor's words and its stack, or the stack does "
    "not end at x2FFF",
    Finding.VECTOR: "the vector is not fixed, or leads to where the table does not know the entry",
    Finding.INTERRUPT: "the vector of the interrupt does not lead to a lone RTI",
    Finding.WORD: "the table has states for a word that is not fixed",
    Finding.STACK: "R6 is not known to lie in the stack, or a word below it is said to be known",
    Finding.INSTRUCTION: "the instruction is not allowed, or leads to what the table does not know",
}


@dataclass(frozen=True)
class Certified:
    """What the test of a monitor answers: its finding, and where there is one the address of the
    word and the number of the state in the table, counted from 0. A row past xFFFF is of no word:
    its address is 65,536."""

    finding: Finding
    address: int = 0
    state: int = 0

    def __bool__(self) -> bool:
        """Whether the monitor is certified."""
        return self.finding is Finding.CERTIFIED


@dataclass(frozen=True)
class Started:
    """A fresh machine at a file's origin, and the words loaded, the origin not counted."""

    record: Record
    words: int


@dataclass(frozen=True)
class Report:
    """What a step or a sitting's run did: steps made, keys that arrived, bytes shown, the stop."""

    steps: int
    keys: int
    shown: int
    stop: Stop


@dataclass(frozen=True)
class Run(Report):
    """What a run did, and the record after it."""

    record: Record


@dataclass(frozen=True)
class LoggedRun(Run):
    """What a logged run did, and the words of the log that it wrote, three for each step."""

    logged: int


@dataclass(frozen=True)
class Told:
    """What the next step of a run does: the word fetched and the reason, as in a log, and the
    addresses of the words of memory that it takes and stores to, in the step's order. Where
    ``stop`` is ``Stop.HALTED`` no step would be made, and nothing is told."""

    stop: Stop
    word: int
    reason: Reason
    reads: tuple[int, ...]
    writes: tuple[int, ...]


@dataclass(frozen=True)
class Routines:
    """The addresses of a monitor's routines: what the words x0000 to x01FF of memory hold.

    ``getc`` to ``halt`` are those of TRAP x20 to x25, ``trap`` of every other trap, ``exception``
    of the three exceptions, and ``interrupt`` of every other word of x0100 to x01FF.
    """

    getc: int
    out: int
    puts: int
    input: int
    putsp: int
    halt: int
    trap: int
    exception: int
    interrupt: int

    def to_c(self) -> RoutinesStruct:
        """The routines as the library takes them."""
        names = [f.name for f in fields(self)]
        numbers = (checked_int(getattr(self, name), WORD_LIMIT, name) for name in names)
        return RoutinesStruct(*numbers)

    @classmethod
    def from_c(cls, struct: RoutinesStruct) -> Routines:
        """The library's routines."""
        return cls(*(getattr(struct, f.name) for f in fields(cls)))
