"""The cost of a class: ``python3 -m tests.rate_marking [CANDIDATES]`` in the folder python.

It prints the time of a marking of 300 candidates, a third of them wrong, with 5 cases of 100,000
steps each and a feedback file for each, by one process and by as many as there are processors; and
as a ratio to the time that the library's own runs of the same machines take. The processor's time
is told as well, since other processes may share the processors.
"""

from __future__ import annotations

import ctypes
import json
import resource
import subprocess
import sys
import tempfile
import time
from functools import partial
from pathlib import Path
from typing import Callable, NamedTuple

import fanthrig
from fanthrig._library import LIBRARY
from fanthrig.command.options import processors

from .command_support import ENVIRONMENT, PYTHON
from .support import fresh, object_file

CASES, STEPS = 5, 100_000

# The rounds of the loop, of two steps each: with HALT some 100,000 steps.
ROUNDS = STEPS // 2 - 60


class Took(NamedTuple):
    """Seconds by the clock, and of the processor."""

    seconds: float
    processor: float


def timed(work: Callable[[], object]) -> Took:
    """The time of a work, with that of its processes."""
    begun, before = time.perf_counter(), used()
    work()
    return Took(time.perf_counter() - begun, used() - before)


def used() -> float:
    """The processor's time of this process and of those that have ended."""
    usages = [resource.getrusage(who) for who in (resource.RUSAGE_SELF, resource.RUSAGE_CHILDREN)]
    return sum(usage.ru_utime + usage.ru_stime for usage in usages)


def candidate(number: int) -> bytes:
    """A program that counts x4000 down, and adds 1 to R0; each third one adds nothing."""
    wrong = number % 3 == 2
    words = ["LDI R1, #5", f"ADD R0, R0, #{0 if wrong else 1}", "ADD R1, R1, #-1", "BRnp #-2"]
    return object_file(0x3000, *words, "TRAP x25", number, 0x4000)


def cases() -> str:
    """The cases."""
    made = [
        {
            "name": f"case {number}",
            "before": {"R0": number, "x4000": ROUNDS - number},
            "after": {"R0": number + 1, "R1": 0},
            "expected": "Halted\n",
            "points": 2,
        }
        for number in range(CASES)
    ]
    return json.dumps(made)


def alone(count: int) -> None:
    """The same machines, run by the library and nothing else."""
    for number in range(count):
        for case in range(CASES):
            memory, shown = fresh(), (ctypes.c_uint8 * 16)()
            fanthrig.monitor(memory)
            record = fanthrig.start_user(candidate(number), memory, fanthrig.USER_STACK).record
            memory[0x4000], record.regs[0] = ROUNDS - case, case
            room, run = ctypes.addressof(shown), record.to_c()
            lent = (memory.buffer_info()[0], len(memory), room, 0, room, 0, room, len(shown))
            while run.mcr:
                run = LIBRARY.lc3_run_long(run, *lent, fanthrig.MAX_STEPS).record
            assert 99_000 < run.clock < 101_000, run.clock


def marked(*arguments: object) -> None:
    """A marking by the command, which takes as long as it takes."""
    command = [*PYTHON, *map(str, arguments)]
    subprocess.run(command, env=ENVIRONMENT, stdout=subprocess.DEVNULL, check=False)


def main(count: int) -> int:
    """Prints the times."""
    with tempfile.TemporaryDirectory() as name:
        folder = Path(name)
        (folder / "students").mkdir()
        for number in range(count):
            (folder / f"students/{number:03}.obj").write_bytes(candidate(number))
        (folder / "cases.json").write_text(cases())
        base = timed(lambda: alone(count))
        print(f"{count} candidates, {CASES} cases of {STEPS} steps each")
        print(f"the library alone: {base.seconds:.2f} s, {base.processor:.2f} s of processor")
        for jobs in sorted({1, processors()}):
            options = ("--cases", folder / "cases.json", "--feedback", folder / f"back{jobs}")
            marking = ("mark", "--csv", "--jobs", jobs, *options, folder / "students")
            took = timed(partial(marked, *marking))
            assert len(list((folder / f"back{jobs}").iterdir())) == count
            ratio, spent = took.seconds / base.seconds, took.processor / base.processor
            print(
                f"marked with feedback by --jobs {jobs}: {took.seconds:.2f} s, "
                f"{took.processor:.2f} s of processor; {ratio:.1f}, {spent:.1f} times the library"
            )
    return 0


if __name__ == "__main__":
    sys.exit(main(int(sys.argv[1]) if len(sys.argv) > 1 else 300))
