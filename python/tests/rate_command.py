"""The cost of the command: ``python3 -m tests.rate_command [CANDIDATES]`` in the folder python.

It prints the least time of ``lc3 run`` of a hello, as it is installed and from the source; and that
of a marking of candidates of ten million steps as a ratio to that of ``lc3_run`` alone on the same
machines one after the other, by one process and by as many as there are processors. All are
measured turn by turn. The exit code is 1 where an installed hello takes more than 0.15 s.
"""

from __future__ import annotations

import ctypes
import json
import subprocess
import sys
import tempfile
import time
from functools import partial
from pathlib import Path
from typing import Callable

import fanthrig
from fanthrig._library import LIBRARY
from fanthrig.command.options import processors

from . import ROOT
from .command_support import ENVIRONMENT, HELLO, process
from .support import fresh, object_file

# Counts R0 through all its values 76 times: 76 * (2 * 65,536 + 2) + 6 steps and those of HALT.
LONG = object_file(
    0x3000, "LD R1, #5", "ADD R0, R0, #1", "BRnp #-2", "ADD R1, R1, #-1", "BRp #-4", "TRAP x25", 76
)

TURNS, HELLOS, LIMIT = 3, 15, 0.15


def least(works: dict[str, Callable[[], object]], turns: int) -> dict[str, float]:
    """The least time of each work, all done turn by turn."""
    times = dict.fromkeys(works, float("inf"))
    for _ in range(turns):
        for name, work in works.items():
            begun = time.perf_counter()
            work()
            times[name] = min(times[name], time.perf_counter() - begun)
    return times


def alone(count: int) -> None:
    """As many machines, run by calls of ``lc3_run`` and nothing else."""
    for _ in range(count):
        memory, shown = fresh(), (ctypes.c_uint8 * 16)()
        fanthrig.monitor(memory)
        record = fanthrig.start(LONG, memory, True, fanthrig.USER_STACK).record.to_c()
        room = ctypes.addressof(shown)
        lent = (memory.buffer_info()[0], len(memory), room, 0, room, 0, room, len(shown))
        while record.mcr:
            record = LIBRARY.lc3_run(record, *lent, fanthrig.MAX_STEPS).record


def hello(folder: Path) -> float:
    """Prints the time of a hello; answers that of the installed command."""
    standing = ["-o", "lib", "-o", "page"]
    install = ["make", "-s", "-C", str(ROOT), *standing, "install", f"DESTDIR={folder}"]
    subprocess.run(install, check=True)
    path = folder / "hello.obj"
    path.write_bytes(HELLO)
    command = [str(next(folder.glob("usr/local/bin/lc3"))), "run", str(path)]
    environment = {name: ENVIRONMENT[name] for name in ENVIRONMENT if name != "PYTHONPATH"}
    works: dict[str, Callable[[], object]] = {
        "installed": lambda: subprocess.run(
            command, env=environment, stdin=subprocess.DEVNULL, capture_output=True, check=True
        ),
        "from the source": lambda: process("run", path),
    }
    times = least(works, HELLOS)
    for name, took in times.items():
        print(f"lc3 run of a hello, {name}: {took:.3f} s")
    return times["installed"]


def marking(folder: Path, count: int) -> None:
    """Prints the times of markings, as ratios."""
    candidate = folder / "long.obj"
    candidate.write_bytes(LONG)
    works: dict[str, Callable[[], object]] = {"alone": lambda: alone(count)}
    for verdict, expected in (("right", "Halted\n"), ("wrong", "halted\n")):
        cases = folder / f"{verdict}.json"
        cases.write_text(json.dumps([{"name": "a", "expected": expected}]))
        for jobs in sorted({1, processors()}):
            options = ("mark", "--cases", cases, "--steps", 20_000_000, "--jobs", jobs)
            arguments = (*options, *[candidate] * count)
            works[f"{verdict}, --jobs {jobs}"] = partial(process, *arguments)
    times = least(works, TURNS)
    base = times.pop("alone")
    print(f"lc3_run alone, {count} machines of 10 million steps: {base:.3f} s")
    for name, took in times.items():
        print(f"{count} candidates marked, {name}: {took:.3f} s, {took / base:.2f} times lc3_run")


def main(count: int) -> int:
    """Prints the times."""
    with tempfile.TemporaryDirectory() as name:
        took = hello(Path(name))
        marking(Path(name), count)
    return int(took > LIMIT)


if __name__ == "__main__":
    sys.exit(main(int(sys.argv[1]) if len(sys.argv) > 1 else 200))
