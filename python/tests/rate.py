"""Steps a second through ``Sitting.run`` beside those of lc3_run itself, and through
``Sitting.step``: ``python3 -m tests.rate``.

The runs are of the same counting loop in calls of as many steps as one takes, turn by turn. The
ratio is that of their least times, so that other work on the host tells least; and so are the
single steps. The exit code is 1 where the ratio is above 1.05, or where fewer than 100,000 single
steps are made in a second.
"""

from __future__ import annotations

import ctypes
import sys
from time import perf_counter

import fanthrig
from fanthrig._library import LIBRARY

from .support import COUNTING, fresh, user

STEPS, TURNS, LIMIT = 16 * fanthrig.MAX_STEPS, 61, 1.05
SINGLE_STEPS, LEAST_SINGLE_STEPS_A_SECOND = 5000, 100_000


def direct() -> float:
    """The seconds that lc3_run takes, called through ctypes and nothing else."""
    memory, record, room = fresh(), user().to_c(), (ctypes.c_uint8 * 8)()
    memory[0x3000], memory[0x3001] = 0x1021, 0x0FFE
    address, empty = memory.buffer_info()[0], ctypes.addressof(room)
    begun, left = perf_counter(), STEPS
    while left:
        lists = (empty, 0, empty, 0, empty, len(room))
        answer = LIBRARY.lc3_run(
            record, address, len(memory), *lists, min(left, fanthrig.MAX_STEPS)
        )
        record, left = answer.record, left - answer.steps
    return perf_counter() - begun


def by_sitting() -> float:
    """The seconds that a sitting takes."""
    sitting = fanthrig.Sitting(COUNTING)
    begun = perf_counter()
    sitting.run(STEPS)
    return perf_counter() - begun


def by_single_steps() -> float:
    """The seconds that single steps of a sitting take."""
    sitting = fanthrig.Sitting(COUNTING)
    begun = perf_counter()
    for _ in range(SINGLE_STEPS):
        sitting.step()
    return perf_counter() - begun


def main() -> int:
    """Measures and prints."""
    times = [(direct(), by_sitting(), by_single_steps()) for _ in range(TURNS)]
    plain, ours, single = (min(column) for column in zip(*times))
    single_steps_a_second = SINGLE_STEPS / single
    print(
        f"million steps a second: {STEPS / plain / 1e6:.0f} by lc3_run, "
        f"{STEPS / ours / 1e6:.0f} by Sitting.run; ratio of times {ours / plain:.3f}\n"
        f"single steps a second by Sitting.step: {single_steps_a_second:,.0f}"
    )
    return int(ours / plain > LIMIT or single_steps_a_second < LEAST_SINGLE_STEPS_A_SECOND)


if __name__ == "__main__":
    sys.exit(main())
