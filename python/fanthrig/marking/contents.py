"""Registers and words: what a case sets before the run, what it expects after it, and the random
contents of all that it leaves open."""

from __future__ import annotations

import hashlib
import re
from array import array
from dataclasses import dataclass
from typing import Any, Iterable, Iterator, Mapping, Sequence

from ..constants import MEMORY_WORDS, USER_ORIGIN, VECTOR_WORDS
from ..places import MONITOR, USER_WORDS, common
from ..records import Record, as_word
from ..recording import from_high_first
from ..sitting import Sitting
from ..steps import DEVICES

# The register of the user's stack: random contents leave it alone.
STACK = 6

# The words below User mode's; the vector words before them say where traps lead, and stay.
SYSTEM_WORDS = range(VECTOR_WORDS, USER_ORIGIN)

# The differences that are told of a case.
MOST_TOLD = 20

_REGISTER = re.compile("R([0-7])", re.IGNORECASE | re.ASCII)
_ADDRESS = re.compile("0?x([0-9A-F]{4})", re.IGNORECASE | re.ASCII)
_NUMBER = re.compile("#?([+-]?[0-9]{1,5})", re.ASCII)


@dataclass(frozen=True)
class Contents:
    """Registers by their numbers and words by their addresses, each with its value.

    >>> Contents.of({"R0": -1, "x4000": [1, "x0010"]})
    Contents(registers=((0, 65535),), words=((16384, 1), (16385, 16)))
    """

    registers: tuple[tuple[int, int], ...] = ()
    words: tuple[tuple[int, int], ...] = ()

    @classmethod
    def of(cls, places: Mapping[str, Any]) -> Contents:
        """The contents of a mapping. A register, R0 to R7, has a number; an address, as x4000, a
        number, or a list of them for that word and the next ones. Numbers are from -32768 to
        65535, or texts as x000A and #-3. Device registers are no words of memory."""
        registers: dict[int, int] = {}
        words: dict[int, int] = {}
        for place, value in places.items():
            register, address = _REGISTER.fullmatch(place), _ADDRESS.fullmatch(place)
            if register:
                _add(registers, place, [(int(register[1]), _value(place, value))])
            elif address:
                _add(words, place, _run_of_words(int(address[1], 16), place, value))
            else:
                known = "neither a register, R0 to R7, nor an address as x4000"
                raise ValueError(f"{place!r} is {known}")
        return cls(tuple(sorted(registers.items())), tuple(sorted(words.items())))

    def __bool__(self) -> bool:
        """Whether there are any."""
        return bool(self.registers or self.words)

    def put(self, sitting: Sitting) -> None:
        """Puts the contents into a machine before its first step."""
        for address, value in self.words:
            sitting.memory[address] = value
        for register, value in self.registers:
            sitting[f"R{register}"] = value

    def mismatches(self, record: Record, memory: Sequence[int]) -> Iterator[Mismatch]:
        """What is not as it is here: registers first, then words by address."""
        for register, value in self.registers:
            if record.regs[register] != value:
                yield Mismatch(f"R{register}", value, record.regs[register])
        for address, value in self.words:
            if memory[address] != value:
                yield Mismatch(f"x{address:04X}", value, memory[address])


@dataclass(frozen=True)
class Mismatch:
    """A register or a word that is not as expected."""

    place: str
    expected: int
    got: int

    def __str__(self) -> str:
        """The place and both values.

        >>> print(Mismatch("R0", 6, 65535))
        R0: expected x0006 (6), got xFFFF (-1)
        """
        return f"{self.place}: expected {_told(self.expected)}, got {_told(self.got)}"


def _told(value: int) -> str:
    """A word as a person reads it."""
    return f"x{value:04X} ({value - ((value & 0x8000) << 1)})"


def _add(found: dict[int, int], place: str, more: Iterable[tuple[int, int]]) -> None:
    """Adds what a place is given, unless it has a value already: r0 is R0, and lists overlap."""
    for number, value in more:
        if number in found:
            raise ValueError(f"{place!r} gives a value to what has one already")
        found[number] = value


def _run_of_words(first: int, place: str, value: Any) -> Iterator[tuple[int, int]]:
    """The words from an address on."""
    values = value if isinstance(value, (list, tuple)) else [value]
    if first + len(values) > MEMORY_WORDS:
        raise ValueError(f"{place!r} has words beyond xFFFF")
    for address, item in enumerate(values, first):
        if address in DEVICES:
            # The word of memory behind it is one that no program loads or stores.
            register = f"x{address:04X} is the device register {DEVICES[address]}"
            raise ValueError(f"{place!r}: {register}, and no word of memory: leave it out")
        yield address, _value(place, item)


def _value(place: str, value: Any) -> int:
    """The number that a register or a word is given."""
    if isinstance(value, str):
        hexadecimal, decimal = _ADDRESS.fullmatch(value), _NUMBER.fullmatch(value)
        value = int(hexadecimal[1], 16) if hexadecimal else int(decimal[1]) if decimal else None
    if type(value) is not int or not -32768 <= value <= 65535:
        raise ValueError(f"{place!r} has no number from -32768 to 65535, nor one as x000A or #-3")
    return as_word(value, place)


def put_random(
    sitting: Sitting, seed: int, case: str, supervisor: bool = False, monitor: bool = True
) -> None:
    """Fills the registers but R6, and the words of User mode that no file has, by random contents;
    for a program in Supervisor mode also the words x0200 to x2FFF that neither a file nor the
    ready-made ``monitor`` has. They follow from the seed and the name of the case alone, so that
    all candidates meet the same: SHAKE-256 of both, the registers first, then the words from x3000
    on, and then those from x0200 on."""
    source = hashlib.shake_256(f"{seed} {case}".encode("utf-8", "surrogatepass"))
    ranges = (USER_WORDS, SYSTEM_WORDS) if supervisor else (USER_WORDS,)
    drawn = from_high_first(source.digest(2 * (8 + sum(map(len, ranges)))))
    for register in set(range(8)) - {STACK}:
        sitting[f"R{register}"] = drawn[register]
    kept = [program.addresses for program in (*sitting.programs, *(MONITOR if monitor else ()))]
    first = 8
    for words in ranges:
        _fill(sitting, words, drawn[first : first + len(words)], kept)
        first += len(words)


def _fill(sitting: Sitting, words: range, drawn: array[int], kept: Sequence[range]) -> None:
    """Fills words by what was drawn for them, but for those that are kept."""
    for others in kept:
        both = common(words, others)
        if both:
            own = array("H", sitting.memory[both.start : both.stop])
            drawn[both.start - words.start : both.stop - words.start] = own
    sitting.memory[words.start : words.stop] = drawn
