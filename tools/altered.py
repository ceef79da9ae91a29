"""How strong the tests of the long run are: single instructions of it, as compiled, are altered at
random.

    python3 tools/altered.py COUNT SEED [AT_ONCE]

The test program of host/tests/both_runs.rs, with the library linked in, is altered in a copy: a
condition is reversed, a number or an address is another, an instruction is left out or another
stands for it, in the code of lc3_run_long and of nothing else. Of each alteration it is told
whether the sittings notice it: few of them at first, and more where those do not. The same count
and seed give the same alterations of the same library. AT_ONCE, 1 or more, are tried at a time. It
needs objdump and valgrind, takes long, and is no part of the gate.
"""

from __future__ import annotations

import json
import os
import random
import re
import resource
import subprocess
import sys
import tempfile
import threading
from collections import Counter
from collections.abc import Iterator
from concurrent.futures import ThreadPoolExecutor
from dataclasses import dataclass
from pathlib import Path
from typing import Union

ROOT = Path(__file__).resolve().parent.parent
EXPORT = "lc3_run_long"
TEST = "both_runs_come_to_what_the_reference_comes_to"
FEW, SOME, MANY = 500, 10_000, 100_000  # sittings: more where fewer notice nothing
SECONDS = 20  # of processor time for 500 sittings, which take less than half a second

LINE = re.compile(r"\s*([0-9a-f]+):\t((?:[0-9a-f]{2} )+)\s*(.*)")
FILLING = re.compile(r"(data16 |cs )*(nop|xchg +%ax,%ax)")
IMMEDIATE = re.compile(r"\$(-?0x[0-9a-f]+)")
DISPLACEMENT = re.compile(r"(?<![$\w])(-?0x[0-9a-f]+)\(")
PREFIXES = {0x66, 0xF2, 0xF3, *range(0x40, 0x50)}

# Opcodes that stand for each other, and the operations that are named in the byte after the opcode.
OTHERS = {0x01: 0x29, 0x03: 0x2B, 0x29: 0x01, 0x2B: 0x03, 0x21: 0x09, 0x23: 0x0B}
OTHERS.update({0x09: 0x21, 0x0B: 0x23, 0x31: 0x09, 0x33: 0x0B, 0x39: 0x3B, 0x3B: 0x39})
OPERATIONS = {0x81: {0: 5, 5: 0, 4: 1, 1: 4, 6: 1}, 0xFF: {0: 1, 1: 0}, 0xC1: {4: 5, 5: 4, 7: 5}}
OPERATIONS.update({0x83: OPERATIONS[0x81], 0xD1: OPERATIONS[0xC1]})


@dataclass(frozen=True)
class Instruction:
    """An instruction of the program."""

    address: int
    code: bytes
    text: str


@dataclass(frozen=True)
class Alteration:
    """Other bytes for an instruction, and what they are."""

    old: Instruction
    code: bytes
    kind: str


def said(*command: Union[str, Path]) -> str:
    """What a command says."""
    return subprocess.run(command, cwd=ROOT, capture_output=True, text=True, check=True).stdout


def built() -> Path:
    """The test program."""
    options = ["--offline", "--release", "--manifest-path", "host/Cargo.toml"]
    options += ["--target-dir", "build/cargo", "--no-run", "--message-format", "json"]
    for line in said("cargo", "test", *options, "--test", "both_runs").splitlines():
        message = json.loads(line)
        if message.get("executable") and message["target"]["name"] == "both_runs":
            return Path(message["executable"])
    raise SystemExit("cargo built no test program")


class Program:
    """The test program, and the instructions of the long run in it."""

    def __init__(self, path: Path) -> None:
        """Finds them by the names in the object of the library that has the export."""
        self.path, self._image = path, path.read_bytes()
        symbols = said("nm", "-A", "--defined-only", "build/libfanthrig.a")
        found = re.search(rf":([^:\s]+):\w+ T {EXPORT}$", symbols, re.M)
        if not found:
            raise SystemExit(f"no {EXPORT} in the library")
        names = re.findall(rf":{re.escape(found[1])}:\w+ [Tt] (.*)", symbols)
        self._functions = [self._linked(name) for name in names]
        self.instructions = [one for one in self._read(path) if not FILLING.match(one.text)]

    def _linked(self, name: str) -> tuple[int, int, str]:
        """Where a function is in the program, and its length."""
        symbols = said("nm", "-S", self.path)
        rows = re.findall(rf"^(\w+) (\w+) [Tt] {re.escape(name)}$", symbols, re.M)
        if len(rows) != 1:
            raise SystemExit(f"{len(rows)} functions {name} in {self.path}")
        return int(rows[0][0], 16), int(rows[0][1], 16), name

    def _read(self, path: Path) -> Iterator[Instruction]:
        """The instructions of the functions in a program, by objdump."""
        for start, size, _ in self._functions:
            limits = [f"--start-address={start}", f"--stop-address={start + size}"]
            for line in said("objdump", "-d", "-w", *limits, path).splitlines():
                found = LINE.fullmatch(line)
                if found:
                    text = " ".join(found[3].split())
                    yield Instruction(int(found[1], 16), bytes.fromhex(found[2]), text)

    def place(self, address: int) -> str:
        """The function that an address is in, and how far from its beginning."""
        inside = ((at, name) for at, size, name in self._functions if at <= address < at + size)
        start, name = next(inside)
        return f"{name}+{address - start:#x}"

    def _offset(self, address: int) -> int:
        """Where an address of the program is in its file, by the segments of an ELF file."""
        table, size, count = (self._number(*field) for field in ((32, 8), (54, 2), (56, 2)))
        for start in range(table, table + size * count, size):
            offset, first, length = (self._number(start + at, 8) for at in (8, 16, 32))
            if self._number(start, 4) == 1 and first <= address < first + length:
                return address - first + offset
        raise SystemExit(f"{address:#x} is in no segment")

    def _number(self, at: int, length: int) -> int:
        return int.from_bytes(self._image[at : at + length], "little")

    def write(self, alteration: Alteration, out: Path) -> None:
        """Writes the program with one instruction altered."""
        at, length = self._offset(alteration.old.address), len(alteration.code)
        if self._image[at : at + length] != alteration.old.code:
            raise SystemExit(f"other bytes at {alteration.old.address:#x} than objdump says")
        out.write_bytes(self._image[:at] + alteration.code + self._image[at + length :])
        out.chmod(0o755)

    def text_of(self, alteration: Alteration, altered: Path) -> str:
        """What stands in the place of the instruction in an altered program."""
        start, length = alteration.old.address, len(alteration.code)
        limits = [f"--start-address={start}", f"--stop-address={start + length}"]
        lines = map(LINE.fullmatch, said("objdump", "-d", "-w", *limits, altered).splitlines())
        return "; ".join(" ".join(found[3].split()) for found in lines if found)


# ---- alterations


def replaced(code: bytes, at: int, value: int, length: int = 1) -> bytes:
    """The bytes with a number of this length in them replaced."""
    number = (value % (1 << 8 * length)).to_bytes(length, "little")
    return code[:at] + number + code[at + length :]


def number_at(code: bytes, end: int, value: int) -> tuple[int, int]:
    """Where a number of 4, 2 or 1 bytes that ends there begins, and its length; 0 for none."""
    for length in (4, 2, 1):
        tail = code[end - length : end]
        numbers = {int.from_bytes(tail, "little"), int.from_bytes(tail, "little", signed=True)}
        wanted = {value, value - (1 << 64), value - (1 << 32), value - (1 << 16)}
        if end > length and numbers & wanted:
            return end - length, length
    return end, 0


def of_condition(code: bytes, at: int) -> Iterator[tuple[str, bytes]]:
    """A jump, a move or a byte that depends on a condition: on its opposite."""
    if 0x70 <= code[at] < 0x80:
        yield "condition", replaced(code, at, code[at] ^ 1)
    if code[at] == 0x0F and code[at + 1] & 0xF0 in (0x40, 0x80, 0x90):
        yield "condition", replaced(code, at + 1, code[at + 1] ^ 1)


def of_operation(code: bytes, at: int) -> Iterator[tuple[str, bytes]]:
    """Another operation for one of two operands."""
    if code[at] in OTHERS:
        yield "operation", replaced(code, at, OTHERS[code[at]])
    if code[at] in OPERATIONS:
        byte = code[at + 1]
        other = OPERATIONS[code[at]].get(byte >> 3 & 7)
        if other is not None:
            yield "operation", replaced(code, at + 1, byte & 0xC7 | other << 3)


def of_numbers(one: Instruction) -> Iterator[tuple[str, bytes]]:
    """An immediate operand, or the displacement of an address, that is 1 more, 1 less or 2 more."""
    end = len(one.code)
    immediate, displacement = IMMEDIATE.search(one.text), DISPLACEMENT.search(one.text)
    if immediate:
        value = int(immediate[1], 16)
        end, length = number_at(one.code, end, value)
        for step in (1, -1, 2) if length else ():
            yield "number", replaced(one.code, end, value + step, length)
    if displacement:
        value = int(displacement[1], 16)
        start, length = number_at(one.code, end, value)
        for step in (1, -1, 2) if length else ():
            yield "displacement", replaced(one.code, start, value + step, length)


def of_register(code: bytes, at: int) -> Iterator[tuple[str, bytes]]:
    """Another register for the first of the two that a move between registers or a sum names."""
    simple = code[at] in OTHERS or code[at] in (0x89, 0x8B, 0x8D, 0x85, 0x84)
    wide = code[at] == 0x0F and code[at + 1] in (0xB6, 0xB7, 0xBE, 0xBF)
    if simple or wide:
        byte = at + (2 if wide else 1)
        yield "register", replaced(code, byte, code[byte] ^ 0x08)


def alterations_of(one: Instruction) -> list[Alteration]:
    """What can be made of an instruction. What is called is not altered."""
    at = next(i for i, byte in enumerate(one.code) if byte not in PREFIXES)
    found = [*of_condition(one.code, at), *of_operation(one.code, at), *of_register(one.code, at)]
    if "%rip" not in one.text:
        found += of_numbers(one)
    if not one.text.startswith(("ret", "jmp", "ud2")):
        found.append(("left out", b"\x90" * len(one.code)))
    return [Alteration(one, code, kind) for kind, code in found if code != one.code]


# ---- trials


def limited(seconds: int) -> None:
    """Before a test: so many seconds of processor time, 2 GB of memory, and no core file."""
    resource.setrlimit(resource.RLIMIT_CPU, (seconds, seconds))
    resource.setrlimit(resource.RLIMIT_AS, (2 << 30, 2 << 30))
    resource.setrlimit(resource.RLIMIT_CORE, (0, 0))


def verdict(program: Path, sittings: int) -> str:
    """How the test ends: by a difference, by a crash, by taking too long, or well."""
    seconds = SECONDS * max(1, sittings // FEW // 8)
    settings = {**os.environ, "LC3_SEED": "1", "LC3_RUNS": str(sittings), "RUST_BACKTRACE": "0"}
    command = [str(program), "--exact", TEST]
    code = subprocess.run(
        command, env=settings, capture_output=True, preexec_fn=lambda: limited(seconds)
    ).returncode
    names = {0: "", 101: "difference", -9: "too long", -24: "too long"}
    return names.get(code, f"crash ({code})")


class Trial:
    """Alterations, tried by sittings."""

    def __init__(self, program: Program, folder: Path) -> None:
        """The altered programs are written to the folder. The program as it is must pass."""
        self._program, self._folder = program, folder
        if verdict(program.path, FEW):
            raise SystemExit("the program as it is does not pass")
        self.found: Counter[str] = Counter()

    def _judge(self, alteration: Alteration, stages: list[int]) -> str:
        """Tells by how many sittings an alteration is noticed, and how; empty if by none."""
        out = self._folder / f"altered-{threading.get_ident()}"
        self._program.write(alteration, out)
        ends = ((sittings, verdict(out, sittings)) for sittings in stages)
        noticed = next((f"by {sittings} sittings: {how}" for sittings, how in ends if how), "")
        place = self._program.place(alteration.old.address)
        change = f"{alteration.old.text} -> {self._program.text_of(alteration, out)}"
        ending = f"noticed {noticed}" if noticed else f"not noticed by {stages[-1]} sittings"
        print(f"{place}: {alteration.kind}: {change}: {ending}", flush=True)
        return noticed

    def run(self, some: list[Alteration], stages: list[int], at_once: int) -> list[Alteration]:
        """Judges alterations, and answers those that are not noticed."""
        with ThreadPoolExecutor(at_once) as pool:
            noticed = list(pool.map(lambda one: self._judge(one, stages), some))
        self.found.update(how.partition(" (")[0] for how in noticed if how)
        return [one for one, how in zip(some, noticed) if not how]


def obeyed(program: Program, folder: Path) -> dict[int, int]:
    """How often each instruction is obeyed in a few sittings, by callgrind."""
    out = folder / "callgrind"
    settings = {**os.environ, "LC3_SEED": "1", "LC3_RUNS": "300"}
    command = ["valgrind", "--tool=callgrind", "--dump-instr=yes", "--dump-line=no"]
    command += ["--compress-pos=no", f"--callgrind-out-file={out}"]
    command += [str(program.path), "--exact", TEST]
    subprocess.run(command, env=settings, capture_output=True, check=True)
    counts: dict[int, int] = {}
    lines = iter(out.read_text(encoding="utf-8").splitlines())
    for line in lines:
        if line.startswith("calls="):
            next(lines)  # what the function that is called takes
        found = re.fullmatch(r"0x([0-9a-f]+) (\d+)", line)
        if found:
            counts[int(found[1], 16)] = counts.get(int(found[1], 16), 0) + int(found[2])
    return counts


def main(count: int, seed: int, at_once: int = 1) -> None:
    """Makes so many alterations, and tells which of them nothing notices."""
    program, rng = Program(built()), random.Random(seed)
    choices = [found for one in program.instructions if (found := alterations_of(one))]
    number = sum(map(len, choices))
    print(f"{len(program.instructions)} instructions, {number} alterations of them, seed {seed}")
    alterations = [rng.choice(found) for found in rng.choices(choices, k=count)]
    with tempfile.TemporaryDirectory() as name:
        trial = Trial(program, Path(name))
        left = trial.run(alterations, [FEW, SOME], at_once)
        print(f"more sittings for the {len(left)} that {SOME} do not notice:", flush=True)
        left = trial.run(left, [MANY], at_once)
        counts = obeyed(program, Path(name))
    for how, number in trial.found.most_common():
        print(f"{number} noticed {how}")
    print(f"{len(left)} not noticed:")
    for one in left:
        times, place = counts.get(one.old.address, 0), program.place(one.old.address)
        print(f"{place}: {one.old.text}: obeyed {times} times in 300 sittings")


if __name__ == "__main__":
    main(*map(int, sys.argv[1:4]))
