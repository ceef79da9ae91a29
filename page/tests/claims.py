"""Claims about single instructions, for page/tests/native.py: a monitor of one instruction.

Each has one instruction with one state before it. After it the table has the very states that the
instruction leads to, as the plain test of python/tests/table_test.py knows them, or these with one
value altered. So the answer tells of every value of a state whether it comes out of the
instruction as it should.
"""

from __future__ import annotations

import random
from typing import Iterator

from fanthrig.certifying import Certificate
from tests.table_test import KINDS, NUMBERED, State, Test, Value

AT, SIZE, LOWEST = 0x0210, 0x0230, 0x2FF0
OWN = range(0x0220, 0x0228)
POINTERS = [0xFE06, 0xFFFE, 0xFE02, 0x0221, LOWEST - 1, LOWEST, 0x2FF5, 0x2FFE, 0x2FFF, 0x3000]
NUMBERS = [0, 1, 0x0200, 0x5000, 0x7FFF, 0x8000, 0x8200, 0xD000, 0xFFFF, AT, AT + 5, *POINTERS]

# Every vector leads to an RTI, before the instruction or behind it; some words behind it are
# addresses.
BEFORE, BEHIND = 0x0200, 0x021E
MEMORY = [BEFORE] * 0x40 + [BEHIND] * 0xC0 + [BEFORE] * 0x0100 + [0x8000] * (SIZE - 0x0200)
MEMORY[AT + 1 : AT + 1 + len(POINTERS)] = POINTERS
SPARE = range(0x022C, SIZE)  # secret words
FIXED = bytes(2 if at in OWN else 0 if at in SPARE else 1 for at in range(SIZE))
ANY = ("any", 0)
ENTRY = State((*[ANY] * 6, ("is", 0x2FFE), ANY), ("unset", 0), (ANY,) * 8)


class Asked(Test):
    """The test of a claim whose table accepts every state; what it was asked for is kept."""

    states: list[tuple[int, State]]

    def accepts(self, pc: int, state: State) -> bool:
        """Keeps what the table was to have."""
        self.states.append((pc, state))
        return True


def value(rng: random.Random) -> Value:
    """A value of any kind."""
    kind = rng.choice([*KINDS, "is", "sum"])
    near = rng.choice([0, 0, 0, 1, -1])
    return kind, (rng.choice(NUMBERS) + near) % 65536 if kind in NUMBERED else 0


def numbers(state: State) -> list[int]:
    """A state as a table has it."""
    values = [*state.regs, state.codes, *state.words]
    return [KINDS.index(kind) << 16 | number for kind, number in values]


def instruction(rng: random.Random) -> int:
    """A word, mostly with an offset that leads to a word of the monitor."""
    opcode = rng.randrange(16)
    low = rng.getrandbits(12)
    if opcode in (1, 2, 5, 6, 9, 10, 14) and rng.random() < 0.4:
        low &= 0x01FF  # R0, of which other values may be told
    if opcode in (0, 2, 3, 10, 11, 14) and rng.random() < 0.9:
        low = low & 0x0E00 | rng.randrange(32)
    elif opcode == 4 and low & 0x0800 and rng.random() < 0.9:
        low = 0x0800 | rng.randrange(32)
    elif opcode in (6, 7) and rng.random() < 0.8:
        low = low & 0x0FC0 | rng.choice([0, 0, 1, 2, 63])
    return opcode << 12 | low


def before(rng: random.Random, word: int, watched: list[int]) -> State:
    """A state before an instruction, mostly one that it is allowed from."""
    stack = rng.randrange(LOWEST, 0x2FFF)
    regs = [value(rng) for _ in range(8)]
    base = word >> 6 & 7
    if word >> 12 in (6, 7) and rng.random() < 0.8:
        regs[base] = rng.choice([("is", rng.choice(NUMBERS)), ("is", stack), ("allowed", 0)])
    elif word >> 12 in (4, 12) and rng.random() < 0.8:
        regs[base] = ("is", AT + 1 + rng.randrange(SIZE - AT))
    regs[6] = ("is", stack) if rng.random() < 0.95 else value(rng)
    words = [value(rng) if stack <= at < 0x3000 or at in OWN else ANY for at in watched]
    if word >> 12 == 8 and rng.random() < 0.8:  # what an RTI in a routine takes
        watched[:2], words[:2] = [stack, stack + 1], [("is", AT + rng.randrange(9)), ("low", 0)]
    return State(tuple(regs), value(rng), tuple(words))


def altered(rng: random.Random, state: State, was: State) -> State:
    """A state with another value: most often the one before the instruction that changed it."""
    old, new = ([*one.regs, one.codes, *one.words] for one in (was, state))
    changed = [at for at in range(17) if old[at] != new[at]]
    if changed and rng.random() < 0.7:
        at = rng.choice(changed)
        new[at] = old[at]
    else:
        new[rng.randrange(17)] = rng.choice([ANY, ("unset", 0), value(rng)])
    return State(tuple(new[:8]), new[8], tuple(new[9:]))


def claim(memory: list[int], watched: list[int], rows: dict[int, list[State]]) -> Certificate:
    """A claim with a table of rows by their addresses."""
    ends, table, count = [], [], 0
    for address in range(0x0200, SIZE):
        row = rows.get(address, [])
        count += len(row)
        ends.append(count)
        table += [number for state in row for number in numbers(state)]
    return Certificate(FIXED, tuple(memory), LOWEST, tuple(watched), tuple(ends), tuple(table))


def base() -> Certificate:
    """The claim without an instruction, which holds."""
    return claim(MEMORY, [0] * 8, {BEFORE: [ENTRY], BEHIND: [ENTRY]})


def claims(rng: random.Random, count: int) -> Iterator[Certificate]:
    """Claims about so many instructions."""
    for _ in range(count):
        word = instruction(rng)
        memory = [*MEMORY[:AT], word, *MEMORY[AT + 1 :]]
        places = [0, *OWN, *range(LOWEST, 0x3000), 0x0215, 0x3000]
        watched = [rng.choice(places) for _ in range(8)]
        state = before(rng, word, watched)
        asked = Asked(memory, FIXED, LOWEST, watched, [], [])
        asked.states = []
        asked.harmless(AT, word, state)
        rows = {BEFORE: [ENTRY], AT: [state], BEHIND: [ENTRY]}
        for pc, after in asked.states:
            there = altered(rng, after, state) if rng.random() < 0.5 else after
            rows.setdefault(pc, []).append(there)
        yield claim(memory, watched, rows)
