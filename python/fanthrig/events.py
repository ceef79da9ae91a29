"""Events: what a run can be stopped at, forwards and backwards.

``At`` is PC at an address, where wanted under a condition; ``Holds`` a condition that comes to
hold; ``Written`` a store or a push to a word; ``Changed`` a register that gets another value.

An event is found without a look at every step. The log of some ten thousand steps, made by one
call, tells at which of them it may happen: by PC, by the opcode, by the register that an
instruction names. Only these steps are made once more, one after the other, and looked at.
"""

from __future__ import annotations

import re
from abc import ABC, abstractmethod
from array import array
from bisect import bisect_left
from functools import cached_property
from typing import Any, Iterable, Sequence

from .conditions import Condition, registers_of
from .constants import LOG_WORDS, PSR_USER
from .machine import Machine
from .records import Edition, Reason, as_word
from .steps import DEVICES, NAMES, STORES, value_of

# The opcodes that load from memory.
LOADS = (2, 6, 10)

# The opcodes that name in bits 11 to 9 the register that they set.
SETS = (1, 2, 5, 6, 9, 10, 14)

_ENTRY = re.compile(rb"[^\0]")


class Logged:
    """The log of some steps: the clock of the first, and the times of keys around them."""

    def __init__(self, log: array[int], clock: int, times: Sequence[int]) -> None:
        """The words of a log."""
        self.log, self.clock, self._times = log, clock, times

    def __len__(self) -> int:
        """The number of steps."""
        return len(self.log) // LOG_WORDS

    @cached_property
    def counters(self) -> bytes:
        """PC before each step, in two bytes."""
        return self.log[::LOG_WORDS].tobytes()

    @cached_property
    def _high(self) -> bytes:
        """The high byte of each word fetched: the opcode, and bits 11 to 8."""
        return self.log[1::LOG_WORDS].tobytes()[1::2]

    def step(self, place: int) -> tuple[int, int, int]:
        """PC, the word fetched and the reason of a step."""
        pc, word, reason = self.log[LOG_WORDS * place : LOG_WORDS * (place + 1)]
        return pc, word, reason

    def at(self, address: int) -> list[int]:
        """The steps before which PC is at an address."""
        found, place = [], first_at(self.counters, address)
        while place >= 0:
            found.append(place)
            place = first_at(self.counters, address, place + 1)
        return found

    def fetched(self, high: HighBytes) -> list[int]:
        """The steps whose word has one of some high bytes."""
        return high.places(self._high)

    def entries(self) -> list[int]:
        """The steps that are entries: by a trap, an exception or an interrupt."""
        reasons = self.log[2::LOG_WORDS].tobytes()[::2]
        if reasons.count(0) == len(reasons):
            return []
        return [found.start() for found in _ENTRY.finditer(reasons)]

    def arrivals(self) -> list[int]:
        """The steps in which a key arrives."""
        first = bisect_left(self._times, self.clock)
        end = bisect_left(self._times, self.clock + len(self), first)
        return sorted({time - self.clock for time in self._times[first:end]})


def first_at(counters: bytes, address: int, first: int = 0) -> int:
    """The place of the first word from a place on that is the address, or -1.

    >>> first_at(bytes([0x00, 0x30, 0x30, 0x30]), 0x3030)
    1
    """
    word = address.to_bytes(2, "little")
    at = counters.find(word, 2 * first)
    while at >= 0 and at % 2:
        at = counters.find(word, at + 1)
    return at // 2


class HighBytes:
    """High bytes of words: the opcode, and bits 11 to 8."""

    def __init__(self, opcodes: Iterable[int], register: int | None = None) -> None:
        """Those of these opcodes; with a register, of the words that name it in bits 11 to 9."""
        low = range(16) if register is None else (2 * register, 2 * register + 1)
        self._bytes = bytes(opcode << 4 | bits for opcode in opcodes for bits in low)
        self._pattern = re.compile(b"[" + re.escape(self._bytes) + b"]", re.DOTALL)

    def places(self, high: bytes) -> list[int]:
        """Where they stand among the high bytes of words."""
        # To see that there are none is several times faster than to look for each.
        if len(high.translate(None, self._bytes)) == len(high):
            return []
        return [found.start() for found in self._pattern.finditer(high)]


_STORES, _ST, _STR_STI = (HighBytes(opcodes) for opcodes in (STORES, (3,), (7, 11)))


class Event(ABC):
    """Something that a step may do, or that may hold before it."""

    # Whether a run stops after the step, and not before it.
    after = True
    # Whether it happens at each of its places, so that nothing is to be looked at.
    sure = False
    # Whether what it did is seen only when the step is made.
    by_step = True

    @abstractmethod
    def __str__(self) -> str:
        """The event in words."""

    def __repr__(self) -> str:
        """The same with its class.

        >>> At(0x3000)
        <At x3000>
        """
        return f"<{type(self).__name__} {self}>"

    @abstractmethod
    def places(self, logged: Logged, edition: Edition) -> Iterable[int]:
        """The steps of a log at which it may happen: all at which it does are among them."""

    def before(self, machine: Machine, reason: int) -> Any:
        """What is seen before such a step, which is made for a reason."""
        return True

    def happened(self, machine: Machine, seen: Any) -> bool:
        """Whether it has happened, from what was seen before; ``by_step``, from the machine after
        the step, too."""
        return bool(seen)


class At(Event):
    """The next instruction is at an address, and a condition holds if there is one."""

    after = by_step = False

    def __init__(self, address: int, condition: Condition | None = None) -> None:
        """An address, as PC has it."""
        self.address, self.condition = as_word(address, "an address"), condition
        self.sure = condition is None

    def __str__(self) -> str:
        """As it is written in the debugger."""
        more = "" if self.condition is None else f" if {self.condition}"
        return f"x{self.address:04X}{more}"

    def places(self, logged: Logged, edition: Edition) -> list[int]:
        """The steps before which PC is there."""
        return logged.at(self.address)

    def before(self, machine: Machine, reason: int) -> bool:
        """Whether the condition holds."""
        return self.condition is None or self.condition.holds(machine)


class Holds(Event):
    """A condition comes to hold: it did not before the step, and does after it."""

    def __init__(self, condition: Condition) -> None:
        """The condition."""
        self.condition = condition

    def __str__(self) -> str:
        """As it is written in the debugger."""
        return f"if {self.condition}"

    def places(self, logged: Logged, edition: Edition) -> Iterable[int]:
        """The steps that may change what it speaks of."""
        found: set[int] = set()
        for register in self.condition.registers:
            found.update(changing(register, logged, edition))
        if self.condition.words:
            found.update(logged.fetched(_STORES), logged.entries())
        return found

    def before(self, machine: Machine, reason: int) -> bool:
        """Whether it holds already."""
        return self.condition.holds(machine)

    def happened(self, machine: Machine, seen: bool) -> bool:
        """Whether it has come to hold."""
        return not seen and self.condition.holds(machine)


class Changed(Event):
    """A register has another value after the step."""

    def __init__(self, register: str) -> None:
        """A register by its name."""
        self.register = registers_of(register)

    def __str__(self) -> str:
        """The name."""
        return self.register

    def places(self, logged: Logged, edition: Edition) -> Iterable[int]:
        """The steps that may set it."""
        return changing(self.register, logged, edition)

    def before(self, machine: Machine, reason: int) -> int:
        """Its value."""
        return value_of(machine.record, self.register)

    def happened(self, machine: Machine, seen: int) -> bool:
        """Whether the value is another."""
        return value_of(machine.record, self.register) != seen


class Written(Event):
    """The step stores or pushes to a word, be its value another then or the same."""

    by_step = False

    def __init__(self, address: int) -> None:
        """The word's address."""
        self.address = as_word(address, "an address")

    def __str__(self) -> str:
        """The address."""
        return f"x{self.address:04X}"

    def places(self, logged: Logged, edition: Edition) -> Iterable[int]:
        """Entries, which push; ST that reach the word, and all STR and STI, whose address only the
        machine tells."""
        counters, words = logged.log[::LOG_WORDS], logged.log[1::LOG_WORDS]
        near = (
            place
            for place in logged.fetched(_ST)
            if _near(counters[place], words[place]) == self.address
        )
        return {*logged.entries(), *logged.fetched(_STR_STI), *near}

    def before(self, machine: Machine, reason: int) -> bool:
        """Whether the next step writes to the word."""
        return self.address in writes(machine, reason)


def _near(pc: int, word: int) -> int:
    """The address that the PCoffset9 of a word leads to."""
    return pc + 1 + ((word & 0x1FF) ^ 0x100) - 0x100 & 0xFFFF


def writes(machine: Machine, reason: int) -> Sequence[int]:
    """The addresses that the next step of a machine, which is made for a reason, writes to: that of
    a store, or the two of an entry, which pushes."""
    record = machine.record
    if reason != Reason.INSTRUCTION:
        stack = record.saved_ssp if record.psr & PSR_USER else record.regs[6]
        return (stack - 1 & 0xFFFF, stack - 2 & 0xFFFF)
    word = machine.words[record.pc]
    near = _near(record.pc, word)
    if word >> 12 == 3:
        return (near,)
    if word >> 12 == 7:
        return (record.regs[word >> 6 & 7] + ((word & 0x3F) ^ 0x20) - 0x20 & 0xFFFF,)
    if word >> 12 == 11:
        return (_loaded(machine) if near in DEVICES else machine.words[near],)
    return ()


def _loaded(machine: Machine) -> int:
    """What the next step loads from its PCoffset9, where a device register is: an LD in its place,
    which is made and taken back, tells it."""
    here, word = machine.snapshot(), machine.words[machine.record.pc]
    machine.words[machine.record.pc] = 0x2000 | word & 0x1FF
    machine.advance(1)
    loaded = int(machine.record.regs[0])
    machine.restore(here)
    return loaded


def changing(register: str, logged: Logged, edition: Edition) -> Iterable[int]:
    """The steps of a log that may change a register."""
    stacks = set(logged.entries()) | set(logged.fetched(HighBytes((8,))))
    place = NAMES[register]
    if isinstance(place, int):
        calls = HighBytes((4, 15) if edition is Edition.SECOND else (4,))
        found = set(logged.fetched(HighBytes(SETS, place)))
        found.update(logged.fetched(calls) if place == 7 else ())
        return found | stacks if place == 6 else found
    if register in ("Saved_SSP", "Saved_USP"):
        return stacks
    if register in ("MCR", "TIR"):
        return logged.fetched(_STORES)
    if register == "KBDR":
        return logged.arrivals()
    if register == "KBSR":
        return {*logged.arrivals(), *logged.fetched(HighBytes((*LOADS, *STORES)))}
    if register == "PSR":
        return stacks | set(logged.fetched(HighBytes((*SETS, *STORES))))
    # PC changes with nearly every step, and the timer counts with each.
    return range(len(logged))
