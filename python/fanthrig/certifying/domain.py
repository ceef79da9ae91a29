"""What the table maker knows of values while a routine runs.

These are the values of the proved test, each as the number that a table has for it: its kind times
65,536, and the number of the kinds that have one. A state is a tuple of them: R0 to R7, the value
that the condition codes were set from, and the words that are watched.
"""

from __future__ import annotations

from typing import Iterable

# Nothing at all; some value; x8000 or more; less; an address that User mode may touch.
UNSET, ANY, HIGH, LOW, ALLOWED = 0 << 16, 1 << 16, 3 << 16, 4 << 16, 6 << 16

# This number, and R0 plus this number.
_IS, _SUM = 2, 5

CODES, WATCHED_FROM = 8, 9

State = tuple[int, ...]


def exactly(number: int) -> int:
    """The value that is this number.

    >>> hex(exactly(-1))
    '0x2ffff'
    """
    return _IS << 16 | number & 0xFFFF


def beyond_r0(number: int) -> int:
    """The value that is R0 plus this number."""
    return _SUM << 16 | number & 0xFFFF


def number_of(value: int) -> int | None:
    """The number that a value is, where that is known.

    >>> number_of(exactly(7)), number_of(ANY)
    (7, None)
    """
    return value & 0xFFFF if value >> 16 == _IS else None


def distance_of(value: int) -> int | None:
    """What a value is beyond R0, where that is known."""
    return value & 0xFFFF if value >> 16 == _SUM else None


def forget(value: int) -> int:
    """What is left of a value where R0 changes."""
    return ANY if value >> 16 == _SUM else value


def implies(value: int, other: int) -> bool:
    """Whether the first says all that the second says."""
    return value == other or other == UNSET or (other == ANY and value != UNSET)


def covers(state: State, other: State) -> bool:
    """Whether the first says all that the second says, of each place.

    >>> covers((exactly(1), HIGH), (ANY, HIGH)), covers((ANY, HIGH), (exactly(1), HIGH))
    (True, False)
    """
    for value, of_other in zip(state, other):
        # As implies has it; written out, for this is asked for more often than anything else.
        if value != of_other and of_other != UNSET and (of_other != ANY or value == UNSET):
            return False
    return True


def joined(states: Iterable[State]) -> State:
    """What all of some states say.

    >>> joined([(exactly(1), LOW, UNSET), (exactly(2), LOW, ANY)]) == (ANY, LOW, UNSET)
    True
    """
    return tuple(
        values[0] if len(set(values)) == 1 else UNSET if UNSET in values else ANY
        for values in zip(*states)
    )


def total(of_r0: bool, value: int, other: int) -> int:
    """The sum of two values: known where the second is a number. ``of_r0`` where the first is what
    R0 holds."""
    number = number_of(other)
    if number is None:
        return ANY
    first, distance = number_of(value), distance_of(value)
    if first is not None:
        return exactly(first + number)
    if distance is not None:
        return beyond_r0(distance + number)
    return beyond_r0(number) if of_r0 else ANY


def conjunction(value: int, other: int) -> int:
    """Two values bit by bit: known where the second is a number and the first is one too, or the
    second is 0."""
    number, first = number_of(other), number_of(value)
    if number is None or (first is None and number):
        return ANY
    return exactly(number & (first or 0))


def complement(value: int) -> int:
    """A value with every bit changed."""
    number = number_of(value)
    return ANY if number is None else exactly(~number)


def with_register(state: State, register: int, value: int) -> list[int]:
    """A state after a register takes a value; what was known beyond R0 is lost where that is R0."""
    values = list(state)
    if register == 0:
        values, value = [forget(each) for each in values], forget(value)
    values[register] = value
    return values


def moved(state: State, register: int, value: int) -> State:
    """The same with the codes set from the value."""
    values = with_register(state, register, value)
    values[CODES] = values[register]
    return tuple(values)
