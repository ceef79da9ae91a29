"""The memory of a sitting: words by address, readable and writable as numbers and as text."""

from __future__ import annotations

from array import array
from typing import Callable, Iterable, Iterator, NamedTuple, NoReturn, Union, overload

from .calls import line, page
from .constants import MEMORY_WORDS
from .records import WORD_LIMIT, as_word, checked_int
from .words import word

# A word as a number, or as a line of text.
Word = Union[int, str]


class Line(NamedTuple):
    """A word of memory with its address and its line of text.

    >>> print(Line(0x3000, 0x1021, "ADD R0, R0, #1"))
    x3000  x1021  ADD R0, R0, #1
    """

    address: int
    word: int
    text: str

    def __str__(self) -> str:
        """Address, word and line in columns."""
        return f"x{self.address:04X}  x{self.word:04X}  {self.text}"


def _number(value: Word) -> int:
    """The word that is given as a number or as a line of text."""
    return word(value) if isinstance(value, str) else as_word(value, "a word")


def _array(values: Iterable[Word]) -> array[int]:
    """Words as an array; one of words is taken as it is."""
    if isinstance(values, array) and values.typecode == "H":
        return values[:]
    return array("H", [_number(item) for item in values])


class Memory:
    """The 65,536 words of a sitting, by address. A word is given as a number from -32768 to 65,535
    or as a line of text. It is part of its sitting: while that is in use no word is altered, and it
    is copied with it.

    >>> from fanthrig import Sitting
    >>> memory = Sitting().memory
    >>> memory[0x3000] = "ADD R2, R3, #7"
    >>> hex(memory[0x3000]), memory.line(0x3000)
    ('0x14e7', 'ADD R2, R3, #7')
    >>> memory[0x3001:0x3003] = [0xF025, "BRnzp #-1"]
    >>> print(*memory.lines(0x3000, 3), sep="\\n")
    x3000  x14E7  ADD R2, R3, #7
    x3001  xF025  TRAP x25
    x3002  x0FFF  BRnzp #-1
    """

    def __init__(self, words: array[int], alter: Callable[[int, array[int]], None]) -> None:
        """The words, and what alters them: the sitting keeps each alteration for its recording."""
        self._words, self._alter = words, alter

    @property
    def words(self) -> memoryview:
        """All the words as a buffer that may be read and not written: for ``page``, ``save`` and
        whatever reads buffers."""
        return memoryview(self._words).toreadonly()

    def __len__(self) -> int:
        """65,536."""
        return MEMORY_WORDS

    def __iter__(self) -> Iterator[int]:
        """The words from x0000 on."""
        return iter(self._words)

    def __reduce__(self) -> NoReturn:
        """Whoever copies memory alone is told what to do."""
        raise TypeError("memory is part of its sitting: copy that, or take list(memory)")

    @overload
    def __getitem__(self, address: int) -> int: ...
    @overload
    def __getitem__(self, address: slice) -> list[int]: ...

    def __getitem__(self, address: int | slice) -> int | list[int]:
        """The word at an address, or the words of a range."""
        if isinstance(address, slice):
            first, end = self._range(address)
            return self._words[first:end].tolist()
        return self._words[self._address(address)]

    @overload
    def __setitem__(self, address: int, value: Word) -> None: ...
    @overload
    def __setitem__(self, address: slice, value: Iterable[Word]) -> None: ...

    def __setitem__(self, address: int | slice, value: Word | Iterable[Word]) -> None:
        """Replaces a word, or as many words as a range has. A word may be a line of text."""
        if not isinstance(address, slice):
            self._alter(self._address(address), array("H", [_number(value)]))  # type: ignore
            return
        first, end = self._range(address)
        words = _array(value)  # type: ignore[arg-type]
        if len(words) != end - first:
            raise ValueError(f"{len(words)} words are given for a range of {end - first}")
        self._alter(first, words)

    def line(self, address: int) -> str:
        """The line of the word at an address."""
        return line(self[address])

    def lines(self, first: int, count: int) -> list[Line]:
        """The lines of a range. Refused with 20 where it goes beyond xFFFF."""
        texts = page(self._words, first, count).split("\n")
        words = self._words[first : first + count]
        return [Line(first + at, number, texts[at]) for at, number in enumerate(words)]

    @staticmethod
    def _address(address: int) -> int:
        """An address, or the ``IndexError`` of a number that is none."""
        try:
            return checked_int(address, WORD_LIMIT, "an address")
        except ValueError as error:
            raise IndexError(str(error)) from None

    @staticmethod
    def _range(part: slice) -> tuple[int, int]:
        """The first address of a range and the one after its last."""
        if part.step not in (None, 1):
            raise ValueError("a range of memory has no steps")
        first = 0 if part.start is None else part.start
        end = MEMORY_WORDS if part.stop is None else part.stop
        if not 0 <= checked_int(first, MEMORY_WORDS, "the first address") <= end <= MEMORY_WORDS:
            raise IndexError(f"{first} to {end} is no range of memory")
        return first, end
