"""What the tests share: object files, fresh memory, and random machines."""

from __future__ import annotations

import random
from array import array
from typing import List, Union

import fanthrig

from .reference import Simulator

COUNTING = bytes.fromhex("3000 1021 0FFE")  # ADD R0, R0, #1; BRnzp #-2
ECHO = bytes.fromhex("3000 F020 F021 0FFD")  # GETC; OUT; BRnzp #-3

# The words of a program, as numbers or as lines of text.
Words = List[Union[int, str]]

# Words that reach devices and stacks, beside words that are plain.
LIKELY = [0xFE00, 0xFE02, 0xFE04, 0xFE06, 0xFE08, 0xFE0A, 0xFFFC, 0xFFFE]
LIKELY += [0x2FFF, 0x3000, 0x3001, 0x3005, 0xFDFF, 0x0000, 0xFFFF, 0x8002, 0x0302]

# Loads to R1 and stores from R0 at each device register, by R5, which holds xFE00; and at MCR, by
# R4, which holds xFFF0.
AT_DEVICES = [0x6340, 0x6342, 0x6344, 0x6348, 0x634A, 0x7140, 0x7146, 0x7146, 0x7148, 0x714A]
AT_DEVICES += [0x710E, 0x630C, 0x710C]


def object_file(origin: int, *words: int | str) -> bytes:
    """The object file of words, given as numbers or as lines of text."""
    numbers = [fanthrig.word(item) if isinstance(item, str) else item for item in words]
    return b"".join(number.to_bytes(2, "big") for number in [origin, *numbers])


def fresh() -> array[int]:
    """Memory of zeros."""
    return array("H", bytes(2 * fanthrig.MEMORY_WORDS))


def user(pc: int = 0x3000) -> fanthrig.Record:
    """The record of the examples: User mode, at an address."""
    regs = [0, 0, 0, 0, 0, 0, 0xFDFF, 0]
    return fanthrig.Record(regs, pc, psr=0x8002, saved_ssp=0x3000, mcr=0x8000)


def random_word(rng: random.Random) -> int:
    """A word: any, or an address that matters, or a store or load through a register."""
    if rng.random() < 0.3:
        return rng.choice(LIKELY)
    if rng.random() < 0.2:
        return rng.choice(AT_DEVICES)
    if rng.random() < 0.3:
        return rng.choice([0x6000, 0x7000, 0xA000, 0xB000, 0x1000, 0xF000]) | rng.getrandbits(12)
    return rng.getrandbits(16)


def random_memory(rng: random.Random) -> array[int]:
    """Memory that is random around PC, stacks, vectors and devices, and has zeros elsewhere."""
    memory = fresh()
    for first, count in ((0x0000, 512), (0x2FE0, 0x90), (0x4000, 64), (0xFDF0, 0x210)):
        for address in range(first, first + count):
            memory[address] = random_word(rng)
    for address in [*range(0x20, 0x26), 0x100, 0x101, 0x102, 0x180, 0x181]:
        memory[address] = rng.choice([0x3000, 0x4000, 0x3010, 0x0200])
    return memory


def random_record(rng: random.Random) -> fanthrig.Record:
    """A record that every run takes."""
    interval = rng.choice([0, 0, 1, 5, 40])
    record = fanthrig.Record(
        regs=[random_word(rng) for _ in range(4)] + [0xFFF0, 0xFE00, 0x3010, random_word(rng)],
        pc=rng.choice([0x3000, 0x3004, 0x4000, 0xFE00, 0x0100]),
        psr=rng.choice([0x8002, 0x8002, 0x0002, 0x0401, 0x8304]),
        saved_ssp=rng.choice([0x3000, 0x3000, 0x0026, 0x0001]),
        saved_usp=rng.choice([0xFDFF, 0x3010]),
        kbsr=rng.choice([0, 0x4000, 0x8000, 0xC000]),
        kbdr=rng.getrandbits(8),
        mcr=0x8000,
        busy=rng.choice([0, 0, 3, 8]),
        timer_status=rng.choice([0, 0x4000, 0x8000]),
        timer_interval=interval,
        timer_count=rng.randint(1, interval) if interval else 0,
        clock=rng.choice([0, 0, 7, 1 << 40]),
    )
    return record


def random_keys(rng: random.Random, clock: int, steps: int) -> tuple[array[int], bytes]:
    """Keys at some times of a run."""
    times = sorted(clock + rng.randrange(steps + 20) for _ in range(rng.choice([0, 1, 5])))
    return array("Q", times), bytes(rng.getrandbits(8) for _ in times)


def simulator(record: fanthrig.Record, memory: array[int], second: bool = False) -> Simulator:
    """The second machine, with a record and a copy of memory."""
    return Simulator(
        memory.tolist(),
        second,
        list(record.regs),
        record.pc,
        record.psr,
        record.saved_ssp,
        record.saved_usp,
        record.kbsr,
        record.kbdr,
        record.mcr,
        record.busy,
        record.timer_status,
        record.timer_interval,
        record.timer_count,
        record.clock,
    )


def record_of(machine: Simulator) -> fanthrig.Record:
    """The record of the second machine."""
    return fanthrig.Record(
        list(machine.regs),
        machine.pc,
        machine.psr,
        machine.saved_ssp,
        machine.saved_usp,
        machine.kbsr,
        machine.kbdr,
        machine.mcr,
        machine.busy,
        machine.tsr,
        machine.interval,
        machine.count,
        machine.clock,
    )


def sitting_of(
    record: fanthrig.Record, memory: array[int], edition: int = fanthrig.Edition.THIRD
) -> fanthrig.Sitting:
    """A sitting at any record and memory."""
    sitting = fanthrig.Sitting(monitor=False, edition=edition)
    machine = sitting._machine
    machine.record, machine.words[:] = record.to_c(), memory
    return sitting


def whole_state(sitting: fanthrig.Sitting) -> tuple[object, ...]:
    """All that two equal sittings have in common."""
    return sitting.record, sitting.memory.words.tobytes(), sitting.display_bytes, sitting.keys
