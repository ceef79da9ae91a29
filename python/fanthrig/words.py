"""A line of text as a word: the inverse of ``line``, for every word of memory.

>>> hex(word("ADD R2, R3, #7"))
'0x14e7'
>>> hex(word("  brnz   #-2 ")), hex(word(".fill xDEAD"))
('0xdfe', '0xdead')
"""

from __future__ import annotations

import re
from typing import Callable, NamedTuple

from .calls import write
from .records import Instruction, Kind


class LineError(ValueError):
    """A text that is no line. ``text`` is the text, ``problem`` what is wrong in it, and
    ``operand`` the place of the operand at fault, from 1, or 0 where no operand is.

    >>> try:
    ...     word("ADD R2, R3, #16")
    ... except LineError as error:
    ...     print(error.operand, error)
    3 'ADD R2, R3, #16': operand 3 of ADD: #16 is out of range; SR2 or imm5 from -16 to 15 expected
    """

    def __init__(self, text: str, problem: str, operand: int = 0) -> None:
        """The problem of a text, in one of its operands."""
        self.text, self.problem, self.operand = text, problem, operand
        super().__init__(text, problem, operand)

    def __str__(self) -> str:
        """The text, shortened where it is long, and what is wrong in it."""
        return f"{_short(self.text)!r}: {self.problem}"


def _short(text: str) -> str:
    """A text as an error shows it."""
    return text if len(text) <= 60 else text[:57] + "..."


class Place(NamedTuple):
    """The place of an operand: what the book calls it, and the range of a number there."""

    name: str
    register: bool = True
    least: int = 0
    greatest: int = 0

    @property
    def expected(self) -> str:
        """What may stand in the place."""
        if self.name == "SR2 or imm5" or not self.register:
            return f"{self.name} from {self.least} to {self.greatest} expected"
        return f"{self.name}, R0 to R7, expected"


DR, SR, SR1, BASE = Place("DR"), Place("SR"), Place("SR1"), Place("BaseR")
SECOND = Place("SR2 or imm5", True, -16, 15)
OFFSET6 = Place("offset6", False, -32, 31)
OFFSET9 = Place("PCoffset9", False, -256, 255)
OFFSET11 = Place("PCoffset11", False, -1024, 1023)
VECTOR = Place("trapvect8", False, 0, 255)
DATA = Place("a word", False, -32768, 65535)

# What each mnemonic takes, and how its word is made of its operands.
Maker = Callable[..., int]
FORMS: dict[str, tuple[tuple[Place, ...], Maker]] = {
    "NOT": ((DR, SR), lambda a, b: write(Instruction(Kind.NOT, a, b))),
    "LDR": ((DR, BASE, OFFSET6), lambda a, b, v: write(Instruction(Kind.LDR, a, b, 0, v))),
    "STR": ((SR, BASE, OFFSET6), lambda a, b, v: write(Instruction(Kind.STR, a, b, 0, v))),
    "LD": ((DR, OFFSET9), lambda a, v: write(Instruction(Kind.LD, a, value=v))),
    "LDI": ((DR, OFFSET9), lambda a, v: write(Instruction(Kind.LDI, a, value=v))),
    "LEA": ((DR, OFFSET9), lambda a, v: write(Instruction(Kind.LEA, a, value=v))),
    "ST": ((SR, OFFSET9), lambda a, v: write(Instruction(Kind.ST, a, value=v))),
    "STI": ((SR, OFFSET9), lambda a, v: write(Instruction(Kind.STI, a, value=v))),
    "JSR": ((OFFSET11,), lambda v: write(Instruction(Kind.JSR, value=v))),
    "JSRR": ((BASE,), lambda a: write(Instruction(Kind.JSRR, a))),
    "JMP": ((BASE,), lambda a: write(Instruction(Kind.JMP, a))),
    "RET": ((), lambda: write(Instruction(Kind.JMP, 7))),
    "RTI": ((), lambda: write(Instruction(Kind.RTI))),
    "TRAP": ((VECTOR,), lambda v: write(Instruction(Kind.TRAP, value=v))),
    ".FILL": ((DATA,), lambda v: int(v) & 0xFFFF),
}

# BR alone is BRnzp, as the book's assembler has it.
for _codes in ("", "n", "z", "p", "nz", "np", "zp", "nzp"):
    _mask = sum({"n": 4, "z": 2, "p": 1}[code] for code in _codes or "nzp")
    FORMS["BR" + _codes.upper()] = (
        (OFFSET9,),
        lambda v, mask=_mask: write(Instruction(Kind.BR, mask, value=v)),
    )


class Register(int):
    """The number of a register, told from other numbers by its type."""


def _binary(register: Kind, immediate: Kind) -> Maker:
    """The maker of ADD's or AND's words, whose last operand is a register or a number."""

    def make(a: int, b: int, last: int) -> int:
        """The word of DR, SR1 and the last operand."""
        if isinstance(last, Register):
            return write(Instruction(register, a, b, last))
        return write(Instruction(immediate, a, b, 0, last))

    return make


FORMS["ADD"] = ((DR, SR1, SECOND), _binary(Kind.ADD_REGISTER, Kind.ADD_IMMEDIATE))
FORMS["AND"] = ((DR, SR1, SECOND), _binary(Kind.AND_REGISTER, Kind.AND_IMMEDIATE))

# The names that Table A.3 of the book has for traps; a word's own line is TRAP x25.
TRAPS = {"GETC": 0x20, "OUT": 0x21, "PUTS": 0x22, "IN": 0x23, "PUTSP": 0x24, "HALT": 0x25}
for _name, _vector in TRAPS.items():
    FORMS[_name] = ((), lambda vector=_vector: write(Instruction(Kind.TRAP, value=vector)))

# Numbers have at most so many digits that none of any length is ever computed.
_REGISTER = re.compile(r"R([0-7])", re.IGNORECASE)
_DECIMAL = re.compile(r"#([+-]?[0-9]{1,9})")
_HEXADECIMAL = re.compile(r"(-?)0?x([0-9A-F]{1,8})", re.IGNORECASE)


def _number(operand: str) -> int | None:
    """The number that an operand is, decimal after # or hexadecimal after x or 0x; or none."""
    decimal = _DECIMAL.fullmatch(operand)
    if decimal:
        return int(decimal[1])
    hexadecimal = _HEXADECIMAL.fullmatch(operand)
    return int(hexadecimal[1] + hexadecimal[2], 16) if hexadecimal else None


def _operand(operand: str, place: Place) -> int:
    """The value of an operand, or a ``ValueError`` that says what is wrong with it."""
    if not operand:
        raise ValueError(f"it is empty; {place.expected}")
    register, number = _REGISTER.fullmatch(operand), _number(operand)
    if register and place.register:
        return Register(register[1])
    if register or (number is not None and place.register and place is not SECOND):
        what = "a register" if register else "a number"
        raise ValueError(f"{operand} is {what}; {place.expected}")
    if number is None:
        raise ValueError(f"{_short(operand)} is {_not_an_operand(operand)}; {place.expected}")
    if not place.least <= number <= place.greatest:
        raise ValueError(f"{operand} is out of range; {place.expected}")
    return number


def _not_an_operand(operand: str) -> str:
    """What an operand is that is neither a register nor a number."""
    if re.fullmatch(r"R[0-9]+", operand, re.IGNORECASE):
        return "no register"
    if ";" in operand:
        return "no operand: a line has no comment"
    if re.fullmatch(r"[+-]?[0-9]+", operand):
        return "no operand: a decimal number begins with # and a hexadecimal one with x"
    if re.fullmatch(r"#.*|-?0?x[0-9A-F]+", operand, re.IGNORECASE | re.DOTALL):
        return "no number that a word holds"
    if re.fullmatch(r"[A-Z_][A-Z_0-9]*", operand, re.IGNORECASE):
        return "no operand: a line has offsets in the place of labels"
    return "neither a register nor a number"


def _form(mnemonic: str) -> tuple[tuple[Place, ...], Maker]:
    """The operands and the maker of a mnemonic, or a ``ValueError`` that says what it is."""
    name = mnemonic.upper()
    if name in FORMS:
        return FORMS[name]
    if re.fullmatch("BR[NZP]+", name):
        raise ValueError(f"{mnemonic} is no branch; its codes are some of n, z, p in that order")
    if name in (".ORIG", ".END", ".BLKW", ".STRINGZ"):
        raise ValueError(f"{mnemonic} is for an assembler; the only one here is .FILL")
    known = "BR, ADD, LD, ST, JSR, JSRR, AND, LDR, STR, RTI, NOT, LDI, STI, JMP, RET, LEA, TRAP"
    traps = ", ".join(TRAPS)
    expected = f"one of {known}, {traps} or .FILL expected"
    raise ValueError(f"{_short(mnemonic)!r} is no mnemonic; {expected}")


def _parts(text: str) -> tuple[str, list[str]]:
    """The mnemonic and the operands of a text."""
    if not isinstance(text, str):
        raise TypeError(f"a line must be a str, not {text!r}")
    # Small letters outside ASCII may have capitals within it.
    strange = next((character for character in text if not " " <= character <= "~"), "")
    plain = text.strip(" \t\r\n").replace("\t", " ")
    if strange and not (plain.isascii() and plain.isprintable()):
        raise LineError(text, f"{strange!r} is no character of a line")
    mnemonic, _, rest = plain.partition(" ")
    if not mnemonic:
        raise LineError(text, "it is empty; a mnemonic and its operands expected")
    return mnemonic, [part.strip(" ") for part in rest.split(",")] if rest.strip(" ") else []


def _count_problem(name: str, places: tuple[Place, ...], given: int) -> str:
    """What is wrong where a mnemonic is given more or fewer operands than it takes."""
    if not places:
        return f"{name} takes no operand, and {given} {'is' if given == 1 else 'are'} given"
    takes = ", ".join(place.name for place in places)
    many = "operand" if len(places) == 1 else "operands parted by commas"
    return f"{name} takes {len(places)} {many} ({takes}), and {given or 'none'} given"


def word(text: str) -> int:
    """The word of a line of text: ``word(line(w)) == w`` for every word.

    Letters may be small or capital, and spaces and tabs may stand around each part, as may a line
    feed at the end. Numbers may be decimal after ``#`` or hexadecimal after ``x`` or ``0x`` in any
    place. ``JMP R7`` is ``RET``, ``BR`` is ``BRnzp``, and GETC, OUT, PUTS, IN, PUTSP and HALT are
    the traps that Table A.3 of the book calls so. Any other text is a ``LineError``.

    >>> hex(word("add r2,r3,#7")), hex(word("TRAP #37")), hex(word("HALT"))
    ('0x14e7', '0xf025', '0xf025')
    >>> word("LD R8, #0")
    Traceback (most recent call last):
    fanthrig.words.LineError: 'LD R8, #0': operand 1 of LD: R8 is no register; DR, R0 to R7, \
expected
    """
    mnemonic, operands = _parts(text)
    try:
        places, make = _form(mnemonic)
    except ValueError as error:
        raise LineError(text, str(error)) from None
    name = mnemonic.upper()
    if len(operands) != len(places):
        raise LineError(text, _count_problem(name, places, len(operands)))
    values = []
    for number, (operand, place) in enumerate(zip(operands, places), 1):
        try:
            values.append(_operand(operand, place))
        except ValueError as error:
            problem = f"operand {number} of {name}: {error}"
            raise LineError(text, problem, number) from None
    return make(*values)
