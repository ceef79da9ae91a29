"""The steps of a past from the last one back, in pieces whose logs can be held."""

from __future__ import annotations

from typing import Iterator, NamedTuple

from .machine import LOGGED_AT_ONCE
from .past import Mark, Past, Walk

# The pieces that a longer one is cut into at once. Each has a snapshot of 128 KiB meanwhile.
CUTS = 16


class Piece(NamedTuple):
    """Some steps of a past: it leads to the end of them, and has a snapshot before the first."""

    past: Past
    first: int


def pieces(past: Past, first: int) -> Iterator[Piece]:
    """The steps from a clock to the end of a past, in pieces of at most ``LOGGED_AT_ONCE``
    steps, the last piece first.

    From snapshot to snapshot the steps are made once more for the next shorter pieces, and at last
    by whoever asks for a log: some three times in all, and not as often as there are pieces.
    """
    end = past.clock
    for mark in reversed(past.marks):
        begun = max(mark.snapshot.clock, first)
        if begun < end:
            yield from _cut(past.until(end), mark, begun)
            end = begun
        if begun == first:
            return


def _cut(past: Past, mark: Mark, first: int) -> Iterator[Piece]:
    """The same from a clock on that has a snapshot shortly before it."""
    past, count = past._replace(marks=(mark,)), past.clock - first
    if count <= LOGGED_AT_ONCE:
        yield Piece(past.nearer(first), first)
        return
    apart = max(LOGGED_AT_ONCE, -(-count // CUTS))
    walk, marks = Walk(past, first), []
    for clock in range(first, past.clock, apart):
        walk.to(clock)
        marks.append(walk.mark())
    for begun in reversed(marks):
        yield from _cut(past, begun, begun.snapshot.clock)
        past = past.until(begun.snapshot.clock)
