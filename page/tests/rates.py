"""Million steps a second of the native library, for the program of engine.js.

    python3 rates.py

It prints an object of JSON with the best rate of each call that engine.js measures in a browser.
"""

from __future__ import annotations

import json
from array import array
from collections.abc import Callable
from time import perf_counter

from fanthrig import MAX_STEPS, MEMORY_WORDS, Record, calls

PROGRAM = [
    *(0x5020, 0x2207, 0x2407, 0x1021, 0x14BF, 0x03FD, 0x127F, 0x03FA, 0x0FF7, 0x012C, 0x03E8),
]
TURNS, LOGGED_STEPS = 40, 65536


def _rate(make: Callable[[Record, array[int]], Record], steps: int) -> float:
    """The best rate of a call that makes so many steps."""
    memory = array("H", bytes(2 * MEMORY_WORDS))
    memory[0x3000 : 0x3000 + len(PROGRAM)] = array("H", PROGRAM)
    record, best = Record(pc=0x3000, psr=0x8002, mcr=0x8000), 0.0
    for _ in range(TURNS):
        begun = perf_counter()
        for _ in range(MAX_STEPS // steps):
            record = make(record, memory)
        best = max(best, MAX_STEPS / (perf_counter() - begun) / 1e6)
    return best


def main() -> None:
    """Measures and prints."""
    none, room, log = array("Q"), bytearray(8), array("H", bytes(6 * LOGGED_STEPS))
    rates = {
        "run": _rate(lambda r, m: calls.run(r, m, none, b"", room, MAX_STEPS).record, MAX_STEPS),
        "runLong": _rate(
            lambda r, m: calls.run_long(r, m, none, b"", room, MAX_STEPS).record, MAX_STEPS
        ),
        "runLogged": _rate(
            lambda r, m: calls.run_logged(r, m, none, b"", room, log, LOGGED_STEPS).record,
            LOGGED_STEPS,
        ),
    }
    print(json.dumps(rates))


if __name__ == "__main__":
    main()
