"""Labels: the symbol table that the book's assembler writes beside an object file.

Such a file has a line for each label, with its address in hexadecimal digits::

    // Symbol table
    // Scope level 0:
    //      Symbol Name       Page Address
    //      ----------------  ------------
    //      LOOP              3003

>>> labels = Labels.of_text("//  LOOP  3003\\n//  DATA  3008\\n")
>>> labels.name(0x3003), labels.name(0x3005), labels["DATA"] == 0x3008
('LOOP', 'LOOP+2', True)
>>> labels.comment(0x3003, 0x2204)
'LOOP: DATA'
"""

from __future__ import annotations

import codecs
import re
from os import PathLike, fspath
from typing import Iterator, Mapping

from .calls import read
from .formats import UTF16, is_utf16
from .records import Kind

# A longer file is no symbol table: there are 65,536 addresses.
LONGEST = 1 << 22

SUFFIX = ".sym"

# The words from a label on that are told by it.
REACH = 256

_LABEL = re.compile(r"(?://)?\s*([A-Za-z_]\w*)\s+(?:0?x)?([0-9A-Fa-f]{4})\s*", re.ASCII)
_RELATIVE = (Kind.BR, Kind.LD, Kind.ST, Kind.JSR, Kind.LDI, Kind.STI, Kind.LEA)


class LabelError(ValueError):
    """A file that is no symbol table of the book's assembler."""


class Labels(Mapping[str, int]):
    """Labels with their addresses. The first label of an address names it."""

    def __init__(self, addresses: Mapping[str, int] | None = None) -> None:
        """The labels of a mapping, or none."""
        self._addresses = dict(addresses or {})
        self._names: dict[int, str] = {}
        for label, address in self._addresses.items():
            self._names.setdefault(address, label)

    @classmethod
    def of_text(cls, text: str, name: str = "") -> Labels:
        """The labels of a symbol table. Comments that have none are left out; any other line is a
        ``LabelError``, which names it, and so is one that gives a label a second address."""
        found: dict[str, int] = {}
        for number, line in enumerate(text.splitlines(), 1):
            label = _LABEL.fullmatch(line)
            if label:
                address = int(label[2], 16)
                if found.setdefault(label[1], address) != address:
                    problem = f"{label[1]} has another address in a line before"
                    raise LabelError(f"{name}: refused: line {number}, column 1: {problem}")
            elif line.strip() and not line.startswith("//"):
                problem = "a label and its address in four hexadecimal digits expected"
                raise LabelError(f"{name}: refused: line {number}, column 1: {problem}")
        return cls(found)

    @classmethod
    def load(cls, path: str | PathLike[str]) -> Labels:
        """The labels of a file."""
        with open(path, "rb") as stream:
            data = stream.read(LONGEST + 1)
        if len(data) > LONGEST:
            raise LabelError(f"{fspath(path)}: refused: it is too long for a symbol table")
        if is_utf16(data):
            raise LabelError(f"{fspath(path)}: refused: {UTF16}")
        mark = codecs.BOM_UTF8
        data = data[len(mark) :] if data.startswith(mark) else data
        return cls.of_text(data.decode("latin-1"), fspath(path))

    def __getitem__(self, label: str) -> int:
        """The address of a label, in the letters of the source."""
        return self._addresses[label]

    def __iter__(self) -> Iterator[str]:
        """The labels in the order of the file."""
        return iter(self._addresses)

    def __len__(self) -> int:
        """The number of labels."""
        return len(self._addresses)

    def joined(self, others: Mapping[str, int]) -> Labels:
        """These labels and others; where both have one, that of the others."""
        return Labels({**self._addresses, **others})

    def name(self, address: int) -> str:
        """An address as a label, or as a label and the words behind it; empty where no label is
        near before it."""
        for back in range(REACH):
            label = self._names.get(address - back)
            if label:
                return f"{label}+{back}" if back else label
        return ""

    def comment(self, address: int, word: int | None) -> str:
        """What labels say of a word: the one of its address, with a colon, and the one that its
        instruction refers to, if there is one of exactly that address."""
        own = self._names.get(address)
        target = None if word is None else self._names.get(_target(address, word))
        return " ".join([*([f"{own}:"] if own else []), *([target] if target else [])])


def _target(address: int, word: int) -> int:
    """The address that an instruction reckons from PC, or -1."""
    instruction = read(word).instruction
    return address + 1 + instruction.value & 0xFFFF if instruction.kind in _RELATIVE else -1
