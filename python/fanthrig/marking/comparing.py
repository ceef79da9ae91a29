"""What was shown beside what is expected: exactly, or lenient by named choices.

``halt-message``  the line ``Halted`` that HALT of the ready-made monitor shows at the end is left
                  out
``line-ends``     spaces, tabs and carriage returns at the ends of lines are left out, and so are
                  line feeds at the end of all
``case``          small letters and capitals are the same, those of ASCII
"""

from __future__ import annotations

from dataclasses import dataclass
from typing import Iterable

from ..choices import CASE, CHOICES, HALT_MESSAGE, LINE_ENDS
from ..telling import readable

# What HALT of the ready-made monitor shows.
HALTED = b"Halted\n"

# The bytes of both displays that are told around the first difference.
AROUND = 20


def check_choices(choices: Iterable[str]) -> None:
    """That all are choices of a comparison.

    >>> check_choices(["spaces"])
    Traceback (most recent call last):
    ValueError: 'spaces' is no choice of a comparison: choose of halt-message, line-ends, case
    """
    for choice in choices:
        if choice not in CHOICES:
            known = ", ".join(CHOICES)
            raise ValueError(f"{choice!r} is no choice of a comparison: choose of {known}")


def compared(display: bytes, choices: Iterable[str]) -> bytes:
    """A display as it is compared.

    >>> compared(b"Yes \\r\\nno\\n\\nHalted\\n", ["halt-message", "line-ends", "case"])
    b'yes\\nno'
    """
    chosen = set(choices)
    if HALT_MESSAGE in chosen and display.endswith(HALTED):
        display = display[: -len(HALTED)]
    if LINE_ENDS in chosen:
        # To look for the spaces before each line feed would take long where there are many.
        display = b"\n".join(line.rstrip(b" \t\r") for line in display.split(b"\n")).rstrip(b"\n")
    return display.lower() if CASE in chosen else display


def longest(expected: bytes | None, choices: Iterable[str]) -> int | None:
    """The most bytes that a candidate may show before it is stopped; nothing where it may go on.
    One byte more than expected is enough to know that there are too many; a lenient comparison
    leaves some out."""
    if expected is None:
        return None
    return 2 * len(expected) + 4096 if tuple(choices) else len(expected) + 1


@dataclass(frozen=True)
class Difference:
    """The first difference of two displays as they are compared. Bytes and lines are counted from
    1; a display that has ended there is told by nothing in the place of its byte.
    ``expected_text`` and ``got_text`` are the bytes around, one character each."""

    byte: int
    line: int
    expected: int | None
    got: int | None
    expected_text: str
    got_text: str

    def __str__(self) -> str:
        """The difference in words."""
        expected, got = readable(self.expected), readable(self.got)
        return f"byte {self.byte}, line {self.line}: expected {expected}, got {got}"


def difference(expected: bytes, got: bytes) -> Difference | None:
    """Where two displays differ first, or nothing.

    >>> print(difference(b"Hello", b"Help"))
    byte 4, line 1: expected 'l' (x6C), got 'p' (x70)
    >>> print(difference(b"a\\nb", b"a\\n"))
    byte 3, line 2: expected 'b' (x62), got the end
    """
    if expected == got:
        return None
    short = min(len(expected), len(got))
    pairs = zip(expected[:short], got[:short])
    at = next((place for place, (one, other) in enumerate(pairs) if one != other), short)
    first = max(at - AROUND, 0)
    around = [text[first : at + AROUND].decode("latin-1") for text in (expected, got)]
    wanted, came = [text[at] if at < len(text) else None for text in (expected, got)]
    return Difference(at + 1, expected[:at].count(b"\n") + 1, wanted, came, *around)
