"""Logs: what each step of a logged run did, and by which rule."""

from __future__ import annotations

from dataclasses import dataclass
from functools import lru_cache
from typing import TYPE_CHECKING

from .calls import line
from .constants import LOG_WORDS
from .records import Reason

if TYPE_CHECKING:
    from _typeshed import ReadableBuffer


@dataclass(frozen=True)
class LoggedStep:
    """One step, as a log tells of it.

    ``pc`` is PC before the step. ``word`` is the word fetched: none at an interrupt, and where the
    fetch itself raised the access exception.
    """

    pc: int
    word: int | None
    reason: Reason

    @property
    def line(self) -> str:
        """The line of the word fetched; empty where none was."""
        return "" if self.word is None else _line(self.word)

    def __str__(self) -> str:
        """PC, the word, its line and the reason, in columns.

        >>> print(LoggedStep(0x3000, 0x14E7, Reason.INSTRUCTION))
        x3000  x14E7  ADD R2, R3, #7    instruction
        """
        word = "-" if self.word is None else f"x{self.word:04X}"
        return f"x{self.pc:04X}  {word:<5}  {self.line:<16}  {self.reason.text}"


@lru_cache(maxsize=4096)
def _line(word: int) -> str:
    """The line of a word, kept for the next time: a program obeys few words many times."""
    return line(word)


def logged_steps(log: ReadableBuffer) -> list[LoggedStep]:
    """The steps that the words of a log tell of; words that make up no whole step are left out.

    >>> from array import array
    >>> print(*logged_steps(array("H", [0x3000, 0xF025, 1, 0x3001, 0, 5])), sep="\\n")
    x3000  xF025  TRAP x25          trap
    x3001  -                        keyboard interrupt
    """
    words = memoryview(log).tolist()
    whole_steps = len(words) // LOG_WORDS * LOG_WORDS
    places = range(0, whole_steps, LOG_WORDS)
    return [LoggedStep(*told(*words[at : at + LOG_WORDS])) for at in places]


REASONS = tuple(Reason)


def told(pc: int, word: int, number: int) -> tuple[int, int | None, Reason]:
    """What the three words of a step tell: PC, the word fetched, and the reason.

    A log has 0 for no word. At an access exception 0 is never a word fetched: x0000 as an
    instruction accesses nothing.
    """
    reason = REASONS[number]
    interrupt = reason is Reason.KEYBOARD or reason is Reason.TIMER
    none = interrupt or (reason is Reason.ACCESS and word == 0)
    return pc, None if none else word, reason
