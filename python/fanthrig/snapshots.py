"""Which snapshots of a sitting are kept: the fewer the further they lie back.

A snapshot has all of memory, 128 KiB. Between two that are kept there are at most an eighth of the
steps made since, or ``MARK_EVERY``; so to go back over some steps takes about an eighth of the time
that they took, and the snapshots of a sitting of n steps grow in number as the logarithm of n: some
40 for 100 million steps, and some 100 for 100 thousand million.
"""

from __future__ import annotations

from typing import Sequence

from .past import Mark

# Steps between two snapshots of the last steps.
MARK_EVERY = 1 << 20

# The part of the steps since a gap that the gap may be long.
PART = 8


def thinned(marks: Sequence[Mark]) -> list[Mark]:
    """The snapshots that are kept when the last one has just been taken: the start, the last one in
    User mode, the last two, for the log may reach back beyond the last, and enough of the others.
    """
    clocks = [mark.snapshot.clock for mark in marks]
    others = range(1, len(marks) - 2)
    user = next((place for place in reversed(others) if marks[place].in_user_mode), 0)
    kept, last = [marks[0]], clocks[0]
    for place in others:
        end = clocks[place + 1]
        if place == user or (end - last) * PART > clocks[-1] - end:
            kept.append(marks[place])
            last = clocks[place]
    return [*kept, *marks[max(1, len(marks) - 2) :]]
