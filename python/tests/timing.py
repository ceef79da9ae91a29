"""Times that hold on any host: the processor's, as multiples of a work that is always the same."""

from __future__ import annotations

from time import process_time
from typing import Callable

# The lines that are made to know how long one takes.
LINES = 200_000


def lines_long(work: Callable[[], object], turns: int = 3) -> float:
    """How long some work takes, by the lines of text that Python makes meanwhile. Of both the least
    time of several turns is taken, so that other work on the host tells least."""
    times = [(_time(work), _time(_lines)) for _ in range(turns)]
    ours, theirs = min(ours for ours, _ in times), min(theirs for _, theirs in times)
    return LINES * ours / theirs


def _time(work: Callable[[], object]) -> float:
    """The processor's time that some work takes."""
    begun = process_time()
    work()
    return process_time() - begun


def _lines() -> list[str]:
    """Lines of text, made as plainly as Python can."""
    return [f"{n:>8}  x{n & 0xFFFF:04X}  {'line':<16}  {n / 7:.3f}".rstrip() for n in range(LINES)]
