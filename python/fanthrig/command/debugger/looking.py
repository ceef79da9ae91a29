"""The commands of the debugger that tell of the machine, or alter it."""

from __future__ import annotations

import re

from ...conditions import Value, address_of, number_of, signed
from ...constants import MEMORY_WORDS
from ...records import Refused
from ...sitting import Sitting
from ...telling import plain
from ...words import LineError, word
from ..files import save
from ..messages import CommandError, registers
from .motion import Wrong, count_of
from .names import Names
from .stops import Stops

# The lines that are told where no number is given.
LINES = 12

# The words in a line of memory.
IN_A_LINE = 8

_SETTING = re.compile(r"\s*(\[[^\]]*\]|[^\s=]+)(?:\s*=\s*|\s+)(.*)", re.DOTALL)
_ESCAPE = re.compile(r"\\(?:x([0-9A-Fa-f]{2})|(.))", re.DOTALL)
_ESCAPES = {"n": "\n", "r": "\r", "t": "\t", "\\": "\\", "e": "\x1b", "0": "\0"}


class Looking:
    """Tells of registers, words, steps and the display, and alters the machine."""

    def __init__(self, sitting: Sitting, names: Names, stops: Stops) -> None:
        """A sitting, with its labels and breakpoints. ``words_at`` is the address from which on the
        screen shows memory."""
        self.sitting, self.names, self.stops = sitting, names, stops
        self.words_at = sitting.programs[-1].origin if sitting.programs else sitting["PC"]

    def code(self, text: str) -> str:
        """Lines of memory: around PC, or from an address on."""
        where, _, number = text.partition(" ")
        count = min(count_of(number.strip(), 1), MEMORY_WORDS) if number else LINES
        if not where:
            return "\n".join(self.names.around(self.sitting, LINES, self.stops.addresses))
        first = address_of(where, self.names.labels)
        return "\n".join(self.names.lines(self.sitting, first, count, self.stops.addresses))

    def registers(self, text: str) -> str:
        """All registers, in words too."""
        if text:
            raise Wrong("registers takes nothing more: print R0 tells of one")
        return registers(self.sitting)

    def print(self, text: str) -> str:
        """A value: as a word, a number, a character, and a word of memory as a line."""
        if not text:
            raise Wrong("print takes a register, a word as [x4000], a label or a number")
        value = Value.of(text, self.names.labels)
        machine = self.sitting._machine
        number = value.read(machine)
        told = f"{text.strip()} = x{number:04X}  #{signed(number)}"
        told += f"  {chr(number)!r}" if 32 <= number < 127 else ""
        if value.is_word:
            address = value.address(machine)
            told += f"  {self.sitting.memory.line(address)}"
            if value.register:
                told += f"  at {self.names.place(address)}"
        return told

    def words(self, text: str) -> str:
        """Words of memory from an address on, with their characters."""
        where, _, number = text.partition(" ")
        if not where:
            raise Wrong("words takes an address, and a number where wanted")
        first = address_of(where, self.names.labels)
        count = count_of(number.strip(), 1) if number else 4 * IN_A_LINE
        self.words_at = first
        return "\n".join(self.rows(first, count))

    def rows(self, first: int, count: int, width: int = IN_A_LINE) -> list[str]:
        """Words of memory in rows, as many as there are."""
        told, end = [], min(first + count, MEMORY_WORDS)
        for begun in range(first, end, width):
            words = self.sitting.memory[begun : min(begun + width, end)]
            numbers = " ".join(f"x{number:04X}" for number in words)
            text = "".join(chr(number) if 32 <= number < 127 else "." for number in words)
            told.append(f"x{begun:04X}  {numbers:<{6 * width - 1}}  {text}  {self.names.of(begun)}")
        return [row.rstrip() for row in told]

    def set(self, text: str) -> str:
        """Sets a register or a word to a number, and a word also to a line."""
        name, rest = _parted(text)
        if not rest:
            raise Wrong("set takes a register or a word, and its new value")
        value = Value.of(name, self.names.labels)
        number = number_of(rest)
        try:
            if value.register and not value.is_word:
                self.sitting[value.register] = self._number(rest)
            else:
                address = value.address(self.sitting._machine)
                self.sitting.memory[address] = word(rest) if number is None else number
        except Refused as refused:
            raise Wrong(refused.text) from None
        except LineError as error:
            raise Wrong(f"neither a number nor a line: {error}") from None
        return self.print(name if value.register or value.is_word else f"[{name}]")

    def _number(self, text: str) -> int:
        """The value that a register is set to."""
        return Value.of(text, self.names.labels).read(self.sitting._machine)

    def type(self, text: str) -> str:
        """Types keys for the program."""
        if not text:
            raise Wrong("type takes text, where \\n is Enter")
        keys = _ESCAPE.sub(_unescaped, text)
        self.sitting.type(keys)
        return f"{len(self.sitting.typed)} keys are typed and have not arrived"

    def display(self, text: str) -> str:
        """All that the program has shown."""
        if text:
            raise Wrong("display takes nothing more")
        return "\n".join(plain(line) for line in self.sitting.display.split("\n"))

    def last(self, text: str) -> str:
        """The last steps."""
        steps = self.sitting.last_steps(min(count_of(text, 1), 1 << 16) if text else LINES)
        first = self.sitting.clock - len(steps)
        told = [f"{first + place:>8}  {step}" for place, step in enumerate(steps)]
        return "\n".join(told) or "no step has been made"

    def labels(self, text: str) -> str:
        """All labels, or those that begin so."""
        found = [f"x{at:04X}  {label}" for label, at in self.names.labels.items()]
        return "\n".join(line for line in found if line[7:].startswith(text)) or "no such labels"

    def save(self, text: str) -> str:
        """Saves the sitting, to be replayed by ``lc3 run --replay``."""
        if not text:
            raise Wrong("save takes the name of a file")
        try:
            save(self.sitting, text)
        except CommandError as error:
            raise Wrong(str(error)) from None
        return f"saved: {plain(text)}"


def _parted(text: str) -> tuple[str, str]:
    """What is set, and to what. A sign may stand between them; '=' is also a character.

    >>> _parted("R0 = x1F"), _parted("[R6 + 1]=5"), _parted("R0 '='")
    (('R0', 'x1F'), ('[R6 + 1]', '5'), ('R0', "'='"))
    """
    found = _SETTING.match(text)
    return (found[1], found[2].strip()) if found else (text, "")


def _unescaped(found: re.Match[str]) -> str:
    """The character of an escape."""
    if found[1]:
        return bytes([int(found[1], 16)]).decode("utf-8", "surrogateescape")
    if found[2] not in _ESCAPES:
        raise Wrong(f"\\{found[2]} is no escape: one of \\n \\r \\t \\e \\0 \\\\ \\x1F expected")
    return _ESCAPES[found[2]]
