"""Conditions on registers and words, as they are written in the debugger.

A condition compares two values by ``==``, ``!=``, ``<``, ``<=``, ``>`` or ``>=``; several are
joined by ``and`` and ``or``, of which ``and`` binds first. A value is

- a register: R0 to R7, PC, PSR and the others of ``fanthrig.steps.NAMES``;
- a word of memory: ``[x4000]``, ``[LABEL]``, ``[LABEL+2]``, ``[R6]`` or ``[R6-1]``;
- a number: ``x1F``, ``#31``, ``31``, ``-1``, or a character as ``'a'``; or a label's address.

Values have 16 bits and are compared as signed numbers, as the condition codes have them.

>>> from fanthrig import Sitting
>>> sitting = Sitting(bytes.fromhex("3000 F025"))
>>> sitting["R0"] = -1
>>> condition = Condition.of("R0 < 0 and [LOOP] == xF025", {"LOOP": 0x3000})
>>> str(condition), condition.holds(sitting._machine)
('R0 < 0 and [LOOP] == xF025', True)
"""

from __future__ import annotations

import operator
import re
from typing import Callable, Mapping, NamedTuple

from .machine import Machine
from .steps import NAMES, value_of

COMPARISONS: dict[str, Callable[[int, int], bool]] = {
    "==": operator.eq,
    "=": operator.eq,
    "!=": operator.ne,
    "<": operator.lt,
    "<=": operator.le,
    ">": operator.gt,
    ">=": operator.ge,
}

_BY_CAPITALS = {name.upper(): name for name in NAMES}
_NUMBER = re.compile(r"0?x([0-9a-f]{1,4})|#?([+-]?[0-9]{1,5})", re.IGNORECASE | re.ASCII)
_PLACE = re.compile(r"([^+\-]+?)\s*(?:([+-])\s*(\S+))?", re.ASCII)
_BEHIND = re.compile(r"(\S+?)\s*([+-])\s*([^+\-\s]+)", re.ASCII)
# A sign; not one that stands for itself, as '=' does.
_PART = re.compile(r"'.'|(==|!=|<=|>=|=|<|>)")
_JOINED = re.compile(r"\b(and|or)\b", re.IGNORECASE)

Labels = Mapping[str, int]


class ConditionError(ValueError):
    """A text that is no condition, no value or no address."""


def registers_of(name: str) -> str:
    """The name of a register as the book has it, or a ``ConditionError``.

    >>> registers_of("saved_ssp")
    'Saved_SSP'
    """
    found = _BY_CAPITALS.get(name.upper())
    if found is None:
        raise ConditionError(f"{name!r} is no register: one of {', '.join(NAMES)} expected")
    return found


def number_of(text: str) -> int | None:
    """The word of a number or of a character; nothing where the text is neither.

    >>> number_of("#-1") == number_of("xFFFF") == 0xFFFF, number_of("'a'"), number_of("a")
    (True, 97, None)
    """
    if len(text) == 3 and text[0] == text[2] == "'" and ord(text[1]) < 256:
        return ord(text[1])
    found = _NUMBER.fullmatch(text)
    if found is None:
        return None
    value = int(found[1], 16) if found[1] else int(found[2])
    return value & 0xFFFF if -0x8000 <= value <= 0xFFFF else None


def address_of(text: str, labels: Labels) -> int:
    """The address that a number, a label, or a label and a number behind it stand for.

    >>> hex(address_of("LOOP+2", {"LOOP": 0x3003}))
    '0x3005'
    """
    text = text.strip()
    if text in labels:
        return labels[text]
    number = number_of(text)
    if number is not None:
        return number
    found = _BEHIND.fullmatch(text)
    behind = number_of(found[3]) if found is not None and found[1] in labels else None
    if found is None or behind is None:
        known = "a label, or x0000 to xFFFF" if labels else "x0000 to xFFFF; no labels are loaded"
        raise ConditionError(f"{text!r} is no address: {known}")
    return labels[found[1]] + (behind if found[2] == "+" else -behind) & 0xFFFF


class Value(NamedTuple):
    """A value: a register, a word, or a number. A word's address is a number, to which a register
    is added where there is one."""

    register: str
    is_word: bool
    number: int

    @classmethod
    def of(cls, text: str, labels: Labels) -> Value:
        """The value of a text."""
        text = text.strip()
        if text.startswith("[") and text.endswith("]"):
            base, number = _place(text[1:-1].strip(), labels)
            return cls(base, True, number)
        if text.upper() in _BY_CAPITALS and text not in labels:
            return cls(_BY_CAPITALS[text.upper()], False, 0)
        try:
            return cls("", False, address_of(text, labels))
        except ConditionError:
            expected = "a register, a word as [x4000], a number or a label expected"
            raise ConditionError(f"{text!r} is no value: {expected}") from None

    def address(self, machine: Machine) -> int:
        """The address of a word."""
        base = value_of(machine.record, self.register) if self.register else 0
        return base + self.number & 0xFFFF

    def read(self, machine: Machine) -> int:
        """The value as it is now, from 0 to 65,535."""
        if self.is_word:
            return machine.words[self.address(machine)]
        return value_of(machine.record, self.register) if self.register else self.number


def _place(text: str, labels: Labels) -> tuple[str, int]:
    """The register and the number that a word's address is made of."""
    found = _PLACE.fullmatch(text)
    base = "" if found is None or found[1] in labels else _BY_CAPITALS.get(found[1].upper(), "")
    if not base or found is None:
        return "", address_of(text, labels)
    number = number_of(found[3]) if found[3] else 0
    if number is None:
        raise ConditionError(f"{found[3]!r} is no number")
    return base, -number & 0xFFFF if found[2] == "-" else number


class Comparison(NamedTuple):
    """Two values and how they are compared."""

    left: Value
    sign: str
    right: Value

    @classmethod
    def of(cls, text: str, labels: Labels) -> Comparison:
        """The comparison of a text."""
        sign = next((found for found in _PART.finditer(text) if found[1]), None)
        if sign is None:
            signs = ", ".join(COMPARISONS)
            raise ConditionError(f"{text.strip()!r} compares nothing: one of {signs} expected")
        left, right = text[: sign.start()], text[sign.end() :]
        return cls(Value.of(left, labels), sign[0], Value.of(right, labels))

    def holds(self, machine: Machine) -> bool:
        """Whether it holds now."""
        left, right = self.left.read(machine), self.right.read(machine)
        return COMPARISONS[self.sign](signed(left), signed(right))


def signed(value: int) -> int:
    """A word as a signed number."""
    return value - ((value & 0x8000) << 1)


class Condition:
    """Comparisons joined by ``and`` and ``or``."""

    def __init__(self, text: str, parts: tuple[tuple[Comparison, ...], ...]) -> None:
        """The text, and what holds where all of one of the parts do."""
        self._text, self._parts = text, parts
        values = [v for part in parts for one in part for v in (one.left, one.right)]
        # What it depends on: registers, and words of memory, if any.
        self.registers = sorted({value.register for value in values if value.register})
        self.words = any(value.is_word for value in values)

    @classmethod
    def of(cls, text: str, labels: Labels | None = None) -> Condition:
        """The condition of a text, or a ``ConditionError``."""
        parts: list[list[Comparison]] = [[]]
        for piece in _JOINED.split(text):
            if piece.lower() == "or":
                parts.append([])
            elif piece.lower() != "and":
                parts[-1].append(Comparison.of(piece, labels or {}))
        return cls(" ".join(text.split()), tuple(map(tuple, parts)))

    def __str__(self) -> str:
        """The text."""
        return self._text

    def holds(self, machine: Machine) -> bool:
        """Whether it holds now."""
        return any(all(one.holds(machine) for one in part) for part in self._parts)
