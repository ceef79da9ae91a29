"""Labels of a program, and lines of memory with them."""

from __future__ import annotations

from typing import Iterable, Mapping

from ...constants import MEMORY_WORDS
from ...labels import Labels
from ...sitting import Sitting


def unbracketed(text: str) -> str:
    """The address of a word, which may be written as the word itself.

    >>> unbracketed("[x4000]"), unbracketed("LOOP+1")
    ('x4000', 'LOOP+1')
    """
    text = text.strip()
    return text[1:-1].strip() if text.startswith("[") and text.endswith("]") else text


class Names:
    """Labels by their addresses, and addresses by their labels."""

    def __init__(self, labels: Mapping[str, int]) -> None:
        """The labels; the first one of an address names it."""
        self.labels = Labels(labels)
        self._names: dict[int, str] = {}
        for label, address in self.labels.items():
            self._names.setdefault(address, label)

    def of(self, address: int) -> str:
        """The label of an address, or nothing.

        >>> Names({"LOOP": 0x3003}).of(0x3003)
        'LOOP'
        """
        return self._names.get(address, "")

    def place(self, address: int) -> str:
        """An address, with its label where it has one.

        >>> Names({"LOOP": 0x3003}).place(0x3003)
        'LOOP x3003'
        """
        return f"{self.of(address)} x{address:04X}".strip()

    def lines(self, sitting: Sitting, first: int, count: int, stops: Iterable[int]) -> list[str]:
        """Lines of memory, as many as there are: ``=>`` is at PC, ``*`` at a breakpoint."""
        first = max(0, min(first, MEMORY_WORDS - 1))
        count, marked = min(count, MEMORY_WORDS - first), set(stops)
        told = []
        for line in sitting.lines(first, count):
            here = "=>" if line.address == sitting["PC"] else "  "
            stop = "*" if line.address in marked else " "
            told.append(f"{here}{stop} {line}    {self.of(line.address)}".rstrip())
        return told

    def around(self, sitting: Sitting, count: int, stops: Iterable[int]) -> list[str]:
        """The lines around PC."""
        first = min(max(0, sitting["PC"] - count // 3), MEMORY_WORDS - count)
        return self.lines(sitting, first, count, stops)
