"""What is claimed of the words of privileged memory: which never change, which are the monitor's
own, and which are secret.

Of the monitor's files a word is *fixed*: it never changes, and is no secret. It is *own* where a
routine stores to it. Of every other file, as of answers or of a marking routine, a word is
*secret*, and so is every word of privileged memory that no file has; it is fixed only where a
routine of the monitor's goes on to it, as an instruction. Whoever wants it otherwise declares a
word to be one or the other.
"""

from __future__ import annotations

import re
from array import array
from enum import IntEnum
from typing import Iterable, NamedTuple, Sequence

from ..constants import USER_ORIGIN
from ..loading import load
from ..places import addresses
from ..recording import Program
from ..sitting import Sitting

_RANGE = re.compile(r"0?x([0-9a-f]{1,4})(?:-0?x([0-9a-f]{1,4}))?", re.IGNORECASE | re.ASCII)


class Cell(IntEnum):
    """What a word is, by the number that the proved test takes for it."""

    SECRET = 0
    FIXED = 1
    OWN = 2


# An enum is slow to make of a number, and this is asked for at every step.
_CELLS = tuple(Cell)


class Declared(NamedTuple):
    """Words that are declared to be something."""

    words: range
    cell: Cell


def words_of(text: str) -> range:
    """The addresses of a word or of a range of words, below x3000.

    >>> words_of("x0227-x0229"), words_of("x2000")
    (range(551, 554), range(8192, 8193))
    """
    found = _RANGE.fullmatch(text)
    first = int(found[1], 16) if found else -1
    last = int(found[2], 16) if found and found[2] else first
    if not 0 <= first <= last < USER_ORIGIN:
        raise ValueError(f"{text!r} is no range of words below x3000: write x0227, or x0227-x0229")
    return range(first, last + 1)


class Claim:
    """Words of memory with what is claimed of each below x3000; what is above is secret where it is
    privileged. The claim grows while the routines are followed: see ``take``."""

    def __init__(
        self,
        memory: array[int],
        monitor: Sequence[Program],
        others: Sequence[Program],
        declared: Iterable[Declared] = (),
    ) -> None:
        """The claim of files that are in memory, before any routine was followed."""
        self.memory, self.monitor, self.others = memory, monitor, others
        self.cells = bytearray(USER_ORIGIN)
        for program in monitor:
            _fill(self.cells, program.addresses, Cell.FIXED)
        self.declared: set[int] = set()
        for words, cell in declared:
            _fill(self.cells, words, cell)
            self.declared.update(words)
        self._of_monitor = {word for program in monitor for word in _low(program.addresses)}
        self._of_others = {word for program in others for word in _low(program.addresses)}
        self.stored_by: dict[int, int] = {}

    def __getitem__(self, address: int) -> Cell:
        """What a word is."""
        return _CELLS[self.cells[address]] if address < USER_ORIGIN else Cell.SECRET

    def may_be_own(self, address: int) -> bool:
        """Whether a store makes a fixed word the monitor's own."""
        return address in self._of_monitor and address not in self.declared

    def may_be_fixed(self, address: int) -> bool:
        """Whether a fetch makes a secret word fixed."""
        return address in self._of_others and address not in self.declared

    def take(self, stored: dict[int, int], fetched: Iterable[int]) -> bool:
        """Takes over which words are stored to, each with an instruction that does it, and which
        are fetched; whether that is anything new."""
        before = bytes(self.cells)
        for address in fetched:
            self.cells[address] = Cell.FIXED
        for address in stored:
            self.cells[address] = Cell.OWN
        self.stored_by.update(stored)
        return before != self.cells

    @property
    def size(self) -> int:
        """The number of words up to the last one that is not secret."""
        return len(self.cells.rstrip(b"\0"))

    @property
    def owned(self) -> list[int]:
        """The words that are the monitor's own."""
        owned, cells = [], bytes(self.cells)
        address = cells.find(Cell.OWN)
        while address >= 0:
            owned.append(address)
            address = cells.find(Cell.OWN, address + 1)
        return owned


def _low(words: range) -> range:
    """Those of some words that lie below x3000."""
    return range(words.start, min(words.stop, USER_ORIGIN))


def _fill(cells: bytearray, words: range, cell: Cell) -> None:
    """Has words be something, those below x3000."""
    for address in _low(words):
        cells[address] = cell


def claim_of(
    monitor: Sequence[tuple[str, bytes]],
    others: Sequence[tuple[str, bytes]],
    declared: Iterable[Declared] = (),
) -> Claim:
    """The claim of files, given by their names and their bytes, or a ``FileError`` that says which
    is refused: each lies in privileged memory, and no two have a word in common."""
    sitting = Sitting(monitor=False)
    for name, data in (*monitor, *others):
        load(sitting, name, data, examiner=True)
    programs, words = sitting.programs, array("H", sitting.memory.words)
    return Claim(words, programs[: len(monitor)], programs[len(monitor) :], declared)


def ranges(words: Iterable[int]) -> list[range]:
    """Addresses, in order, as ranges.

    >>> ranges([1, 2, 3, 7])
    [range(1, 4), range(7, 8)]
    """
    found: list[range] = []
    for word in words:
        if found and found[-1].stop == word:
            found[-1] = range(found[-1].start, word + 1)
        else:
            found.append(range(word, word + 1))
    return found


def told(words: Iterable[int]) -> str:
    """Addresses as people write them.

    >>> told([1, 2, 3, 7])
    'x0001 to x0003, x0007'
    """
    return ", ".join(map(addresses, ranges(words)))
