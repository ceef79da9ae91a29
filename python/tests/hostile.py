"""Random candidates for User mode, as those of host/tests/support/candidates.rs: they call the
monitor, hand it addresses that begin in privileged memory or run into it, reach for both borders,
alter themselves, and go wrong in every way. Random words alone go wrong within a few steps, so a
program is a row of short parts, most of which go on to the next.
"""

from __future__ import annotations

import random

from .support import object_file

# Privileged addresses that matter: vectors, routines, their borders, stack, devices, answers.
PRIVILEGED = [0x0000, 0x0022, 0x0102, 0x0200, 0x0211, 0x0260, 0x0261, 0x02A5, 0x0300, 0x0304]
PRIVILEGED += [0x2000, 0x2027, 0x2FF0, 0x2FF6, 0x2FFA, 0x2FFE, 0x2FFF, 0xFE00, 0xFE01, 0xFE02]
PRIVILEGED += [0xFE04, 0xFE06, 0xFE08, 0xFE0B, 0xFFFC, 0xFFFE, 0xFFFF]
BORDERS = [0x3000, 0x3001, 0xFDFC, 0xFDFD, 0xFDFE, 0xFDFF]

# The most words of a program.
LENGTH = 250

LD, ST, LDR, STR, LDI, STI, LEA, TRAP = 2, 3, 6, 7, 10, 11, 14, 0xF000
SHOWING, RETURNING, HALT = (0xF022, 0xF024, 0xF026), (0xF020, 0xF021, 0xF023, 0xF026), 0xF025


def by_pc(opcode: int, register: int, offset: int) -> int:
    """LD, ST, LDI, STI, LEA, and BR with its mask."""
    return opcode << 12 | register << 9 | offset & 0x1FF


def by_base(opcode: int, register: int, base: int, offset: int) -> int:
    """LDR and STR."""
    return opcode << 12 | register << 9 | base << 6 | offset & 0x3F


def branch(offset: int) -> int:
    """BRnzp."""
    return by_pc(0, 7, offset)


class Writer:
    """Writes one program; one part in ``care`` goes wrong."""

    def __init__(self, rng: random.Random) -> None:
        """Nothing is written yet."""
        self.rng, self.words = rng, [0][:0]
        self.origin = rng.choice([0x3000, 0xFDFF - rng.randrange(120), rng.randint(0x3000, 0xFD00)])
        self.care = rng.choice([4, 12, 40])

    def program(self) -> bytes:
        """A program within User mode's words, as an object file."""
        for _ in range(self.rng.randint(1, 14)):
            self.part()
        self.end()
        return object_file(self.origin, *self.words[: min(LENGTH, 0xFE00 - self.origin)])

    def part(self) -> None:
        """A part that most often goes on, or one of the many ways to go wrong."""
        rng = self.rng
        if not rng.randrange(self.care):
            return self.wrong()
        part = rng.choice(
            [self.compute, self.show_text, self.show_open, self.trap, self.access_open]
            + [self.alter, self.repeat, self.call]
        )
        return part()

    def wrong(self) -> None:
        """A reach for privileged words, a trap without a service, or what is no instruction."""
        address, any_word = self.privileged(), self.rng.getrandbits(16)
        kind = self.rng.randrange(16)
        if kind < 4:
            self.show(address)
        elif kind < 5:
            self.show(0xFDFF - any_word % 4)
        elif kind < 9:
            self.words.append(TRAP | any_word & 0xFF)
        elif kind < 12:
            self.access(address)
        elif kind < 13:
            self.jump(address)
        else:
            self.words.append(self.rng.choice([0x8000, 0xD000 | any_word & 0xFFF, HALT, any_word]))

    def privileged(self) -> int:
        """A privileged address."""
        others = [self.rng.randint(0xFE00, 0xFFFF), self.rng.randrange(0x3000)]
        return self.rng.choice([*others, *self.rng.choices(PRIVILEGED, k=2)])

    def open(self) -> int:
        """An address of User mode's: at a border, near the program, or any."""
        near = min(max(self.origin + self.rng.randint(-8, LENGTH), 0x3000), 0xFDFF)
        return self.rng.choice([self.rng.choice(BORDERS), self.rng.randint(0x3000, 0xFDFF), near])

    def compute(self) -> None:
        """ADD, AND, NOT or LEA on R0 to R3."""
        target, source, last = (self.rng.randrange(n) for n in (4, 8, 64))
        fields = target << 9 | source << 6
        word = self.rng.choice([0x1000 | fields | last & 0x27, 0x5000 | fields | last & 0x27])
        self.words.append(self.rng.choice([word, 0x903F | fields, by_pc(LEA, target, last)]))

    def point(self, register: int, address: int) -> None:
        """Puts an address into a register: from a word, or by a sum."""
        if self.rng.random() < 0.5:
            self.words += [by_pc(LD, register, 1), branch(1), address]
        else:
            more = self.rng.randrange(16)
            add = 0x1020 | register << 9 | register << 6 | more
            self.words += [by_pc(LD, register, 1), branch(1), address - more & 0xFFFF, add]

    def show(self, address: int) -> None:
        """Hands an address to a service."""
        self.point(0, address)
        self.words.append(self.rng.choice(SHOWING))

    def show_open(self) -> None:
        """Shows words of User mode's."""
        self.show(self.open())

    def show_text(self) -> None:
        """Shows a string of the program."""
        mask = self.rng.choice([0x007F, 0xFFFF, 0x7F7F, 0xFF00])
        text = [self.rng.getrandbits(16) & mask for _ in range(self.rng.randrange(6))] + [0]
        self.words += [by_pc(LEA, 0, 2), self.rng.choice(SHOWING), branch(len(text)), *text]

    def trap(self) -> None:
        """A service that comes back."""
        self.words.append(self.rng.choice(RETURNING))

    def access(self, address: int) -> None:
        """A load or a store at an address, by a register or by a pointer."""
        register, offset = self.rng.randrange(4), self.rng.randint(-32, 31)
        if self.rng.random() < 0.5:
            self.point(3, address - offset & 0xFFFF)
            self.words.append(by_base(self.rng.choice([LDR, STR]), register, 3, offset))
        else:
            self.words += [by_pc(self.rng.choice([LDI, STI]), register, 1), branch(1), address]

    def access_open(self) -> None:
        """The same at a word of User mode's."""
        self.access(self.open())

    def jump(self, address: int) -> None:
        """A jump to an address."""
        self.point(2, address)
        self.words.append(self.rng.choice([0xC080, 0x4080]))

    def alter(self) -> None:
        """Stores another instruction over one of the program."""
        word = self.rng.choice([self.rng.getrandbits(16), 0, *SHOWING, *RETURNING])
        offset = self.rng.choice([2, 2, 2, self.rng.randint(-20, -1)])
        self.words += [by_pc(LD, 1, 3), 0x1260, by_pc(ST, 1, offset), branch(1), word]

    def repeat(self) -> None:
        """A part that is obeyed several times, counted by R4."""
        self.words += [0x5920, 0x1921 + self.rng.randrange(5)]
        start = len(self.words)
        self.rng.choice([self.show_text, self.compute, self.alter])()
        self.words += [0x193F, by_pc(0, 1, start - len(self.words) - 2)]

    def call(self) -> None:
        """A subroutine that returns at once, or a jump to anywhere in User mode's words."""
        if self.rng.randrange(3):
            self.words += [0x4801, branch(1), 0xC1C0]
        else:
            self.jump(self.open())

    def end(self) -> None:
        """The program begins again, ends by a trap, or runs on into whatever comes next."""
        back = -len(self.words) - 1
        again = [branch(back)] if back >= -256 else []
        self.words += self.rng.choice([again, again, [HALT], [TRAP | self.rng.getrandbits(8)], []])


def hostile(rng: random.Random) -> bytes:
    """A random candidate's object file."""
    return Writer(rng).program()
