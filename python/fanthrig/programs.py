"""Programs as text: the words of an object file, one a line.

The first line is the origin, and each line after it the next word, in one of these forms:

- 16 binary digits, with spaces between fields where wanted: ``0001 010 011 1 00111``;
- ``x`` and four hexadecimal digits: ``x14E7``;
- a line as ``lc3 list`` writes it: ``x3000  x14E7  ADD R2, R3, #7``. Address, word and line must
  agree; where such a line is the first, its address is the origin.

What follows a ``;`` is a comment, and empty lines are left out. Letters may be small or capital.
There are no labels and no mnemonics but those of listed lines: this is no assembler.

>>> object_file("0011 0000 0000 0000  ; the origin\\nxF025  ; HALT\\n").hex(" ", 2)
'3000 f025'
>>> print(text_of(bytes.fromhex("3000 14E7 F025"), Form.FIELDS), end="")
0011000000000000  ; origin x3000
0001 010 011 1 00111  ; x3000  x14E7  ADD R2, R3, #7
1111 0000 00100101    ; x3001  xF025  TRAP x25
"""

from __future__ import annotations

import re
from array import array
from enum import Enum
from string import hexdigits
from typing import BinaryIO, Callable, Iterator, NamedTuple

from .calls import page, read, save, start
from .constants import MEMORY_WORDS, USER_STACK
from .formats import UTF16, FormatError, is_text, is_utf16, other_format
from .records import Kind
from .words import LineError, word

# A longer object file fits at no origin. No more of a file is read unless it is text.
LONGEST_FILE = 2 + 2 * MEMORY_WORDS + 2

# The bytes of the longest text that is read: 64 for each word of memory.
LONGEST_TEXT = 1 << 22

# Files of these names are text whatever is in them.
TEXT_SUFFIX = ".txt"

EXPECTED = (
    "16 binary digits, x and four hexadecimal digits, or a line as lc3 list writes it, expected"
)

_BINARY = re.compile(r"[01](?:[ \t]*[01]){15}")
_WORD = re.compile(r"0?x[0-9a-f]{4}", re.IGNORECASE | re.ASCII)
_LISTED = re.compile(rf"({_WORD.pattern})[ \t]+({_WORD.pattern})[ \t]+(\S.*)", _WORD.flags)
_LINE_END = re.compile(r"\r\n|\n|\r")

# The widths of the fields of Figure A.2, from bit 15 on.
_REGISTERS, _IMMEDIATE = (4, 3, 3, 1, 2, 3), (4, 3, 3, 1, 5)
_OFFSET9, _OFFSET6 = (4, 3, 9), (4, 3, 3, 6)
FIELDS = {
    Kind.BR: _OFFSET9,
    Kind.ADD_REGISTER: _REGISTERS,
    Kind.ADD_IMMEDIATE: _IMMEDIATE,
    Kind.LD: _OFFSET9,
    Kind.ST: _OFFSET9,
    Kind.JSR: (4, 1, 11),
    Kind.JSRR: (4, 1, 2, 3, 6),
    Kind.AND_REGISTER: _REGISTERS,
    Kind.AND_IMMEDIATE: _IMMEDIATE,
    Kind.LDR: _OFFSET6,
    Kind.STR: _OFFSET6,
    Kind.RTI: (4, 12),
    Kind.NOT: _OFFSET6,
    Kind.LDI: _OFFSET9,
    Kind.STI: _OFFSET9,
    Kind.JMP: _OFFSET6,
    Kind.RESERVED: (4, 12),
    Kind.LEA: _OFFSET9,
    Kind.TRAP: (4, 4, 8),
}


class Form(Enum):
    """How the words of a text are written."""

    BINARY = "binary"
    FIELDS = "fields"
    HEXADECIMAL = "hexadecimal"


class ProgramError(FormatError):
    """A text that is no program: ``name`` is its file, ``line`` and ``column`` the place of what is
    wrong, counted from 1, and ``problem`` what it is.

    >>> object_file("x3000\\n0001 0210\\n", "sum.txt")
    Traceback (most recent call last):
    fanthrig.programs.ProgramError: sum.txt: refused: line 2, column 7: '2' is no binary digit; \
16 binary digits, x and four hexadecimal digits, or a line as lc3 list writes it, expected
    """

    def __init__(self, name: str, line: int, column: int, problem: str, begun: bool) -> None:
        """A problem at a place; one before the origin was read may be one of another format."""
        self.name, self.line, self.column, self.problem = name, line, column, problem
        other = "" if begun else "it is text, and does not begin with the origin of a program: "
        where = f"refused: {other}line {line}, column {column}: {problem}"
        super().__init__(f"{name}: {where}" if name else where)


class _Wrong(ValueError):
    """What is wrong in a line, and at which column of it, counted from 0."""

    def __init__(self, at: int, problem: str) -> None:
        """The problem."""
        self.at = at
        super().__init__(problem)


class _Entry(NamedTuple):
    """What a line has: its word, and a listed one also its address."""

    word: int
    address: int | None = None


def _entry(text: str) -> _Entry:
    """What a line without its comment has, or the ``_Wrong`` that says why it is none."""
    if _BINARY.fullmatch(text):
        return _Entry(int(text.replace(" ", "").replace("\t", ""), 2))
    if _WORD.fullmatch(text):
        return _Entry(int(text[-4:], 16))
    listed = _LISTED.fullmatch(text)
    if listed is None:
        raise _problem(text)
    address, number = int(listed[1][-4:], 16), int(listed[2][-4:], 16)
    try:
        told = word(listed[3])
    except LineError as error:
        raise _Wrong(listed.start(3), error.problem) from None
    if told != number:
        raise _Wrong(listed.start(3), f"this line is of x{told:04X}, and not of x{number:04X}")
    return _Entry(number, address)


def _problem(text: str) -> _Wrong:
    """Why a line has no word, and where.

    >>> [(wrong.at, str(wrong).partition(";")[0]) for wrong in map(_problem, ("0101", "x12G4"))]
    [(4, '4 binary digits are here'), (3, "'G' is no hexadecimal digit")]
    """
    prefix = re.match("0?x", text, re.IGNORECASE)
    if prefix:
        return _problem_of_digits(text, prefix.end(), hexdigits, "hexadecimal", 4)
    if text[0] in "01":
        return _problem_of_digits(text, 0, "01", "binary", 16)
    if text.upper().startswith(".ORIG"):
        return _Wrong(0, f"{text.split()[0]} is for an assembler: assemble it first")
    return _Wrong(0, f"{_first(text)!r} is no word; {EXPECTED}")


def _first(text: str) -> str:
    """The first part of a line, shortened where it is long."""
    part = text.split()[0]
    return part if len(part) <= 20 else part[:17] + "..."


def _problem_of_digits(text: str, start: int, digits: str, kind: str, count: int) -> _Wrong:
    """What is wrong with the digits of a line: one that is none, too few, or too many. Spaces may
    stand between binary digits."""
    blank = " \t" if count == 16 else ""
    places = [place for place in range(start, len(text)) if text[place] not in blank]
    for place in places[:count]:
        if text[place] not in digits:
            return _Wrong(place, f"{text[place]!r} is no {kind} digit; {EXPECTED}")
    if len(places) < count:
        are = "digit is" if len(places) == 1 else "digits are"
        return _Wrong(len(text), f"{len(places)} {kind} {are} here; {EXPECTED}")
    rest = text[places[count] :].lstrip(" \t")
    return _Wrong(len(text) - len(rest), f"more than one word is in a line; {EXPECTED}")


def _entries(text: str, name: str) -> Iterator[tuple[int, int, _Entry]]:
    """The entries of a text, each with its line and its column."""
    begun = False
    for number, line in enumerate(_LINE_END.split(text), 1):
        content = line.partition(";")[0].rstrip()
        column = len(content) - len(content.lstrip())
        if column == len(content):
            continue
        try:
            yield number, column + 1, _entry(content[column:])
        except _Wrong as wrong:
            place = column + wrong.at + 1
            raise ProgramError(name, number, place, str(wrong), begun) from None
        begun = True


def words_of(text: str, name: str = "") -> tuple[int, array[int]]:
    """The origin and the words of a text."""
    origin, words = -1, array("H")
    for line, column, entry in _entries(text, name):
        if origin < 0:
            origin = entry.word if entry.address is None else entry.address
            if entry.address is None:
                continue
        place = origin + len(words)
        if entry.address not in (None, place):
            problem = f"the address of this word is x{place & 0xFFFF:04X}"
            raise ProgramError(name, line, column, problem, True)
        if place >= MEMORY_WORDS:
            problem = "this word would lie beyond the last one of memory, xFFFF"
            raise ProgramError(name, line, column, problem, True)
        words.append(entry.word)
    if origin < 0:
        raise ProgramError(name, 1, 1, "no word is in it: the origin expected", False)
    return origin, words


def object_file(text: str | bytes, name: str = "") -> bytes:
    """The object file of a program as text; bytes are UTF-8, or Latin-1 where they are not. What is
    wrong in it is a ``ProgramError``, which names the file; and text in UTF-16 a ``FormatError``.
    """
    if isinstance(text, bytes) and is_utf16(text):
        raise FormatError(f"{name}: refused: {UTF16}" if name else f"refused: {UTF16}")
    origin, words = words_of(text if isinstance(text, str) else _decoded(text), name)
    memory = array("H", bytes(2 * MEMORY_WORDS))
    memory[origin : origin + len(words)] = words
    return save(memory, origin, len(words))


def _decoded(data: bytes) -> str:
    """The characters of bytes."""
    try:
        return data.decode("utf-8-sig")
    except UnicodeDecodeError:
        return data.decode("latin-1")


def read_program(stream: BinaryIO) -> bytes:
    """The bytes of an object file or of a program as text; of a longer file no more than is needed
    to refuse it."""
    data = stream.read(LONGEST_FILE)
    # Only whole lines are looked at: a character may have several bytes.
    if len(data) == LONGEST_FILE and is_text(data[: data.rfind(b"\n") + 1]):
        data += stream.read(LONGEST_TEXT - len(data))
    return data


def object_bytes(data: bytes, name: str) -> bytes:
    """The object file that the bytes of a file are, or that they stand for as text. What is plainly
    something else is a ``FormatError``."""
    if is_text(data) or is_utf16(data) or name.lower().endswith(TEXT_SUFFIX):
        if len(data) >= LONGEST_TEXT:
            raise FormatError(f"{name}: refused: it is text of more than {LONGEST_TEXT >> 20} MiB")
        return object_file(data, name)
    problem = other_format(data)
    if problem:
        raise FormatError(f"{name}: refused: {problem}")
    return data


def fields(number: int) -> str:
    """A word in binary digits, with spaces between the fields of its instruction.

    >>> fields(0x14E7), fields(0xF025), fields(0x0BFE)
    ('0001 010 011 1 00111', '1111 0000 00100101', '0000 101 111111110')
    """
    digits, parts = f"{number:016b}", []
    for width in FIELDS[read(number).instruction.kind]:
        parts.append(digits[:width])
        digits = digits[width:]
    return " ".join(parts)


_WRITTEN: dict[Form, Callable[[int], str]] = {
    Form.BINARY: "{:016b}".format,
    Form.FIELDS: fields,
    Form.HEXADECIMAL: "x{:04X}".format,
}


def text_of(data: bytes, form: Form) -> str:
    """An object file as text in a form: its origin, and each word with a comment that has its
    address and its line. ``object_file`` of that is the same file again. Refused with 17, 18."""
    memory = array("H", bytes(2 * MEMORY_WORDS))
    started = start(data, memory, True, USER_STACK)
    origin = started.record.pc
    words = memory[origin : origin + started.words]
    told = [_WRITTEN[form](number) for number in words]
    width = max(map(len, told), default=0)
    first = f"x{origin:04X}" if form is Form.HEXADECIMAL else f"{origin:016b}"
    lines = [f"{first}  ; origin x{origin:04X}"]
    for place, text in enumerate(page(memory, origin, len(words)).splitlines()):
        about = f"x{origin + place:04X}  x{words[place]:04X}  {text}"
        lines.append(f"{told[place]:<{width}}  ; {about}")
    return "\n".join(lines) + "\n"
