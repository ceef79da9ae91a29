"""Values on which statements about all values are tried, drawn by the name and the type of what is
quantified."""
from __future__ import annotations

import random
from typing import Any, Callable, Dict, List, Sequence, Tuple

from .values import Case, Function, Value, Words, signed

Variable = Tuple[str, str]

ADDRESSES = [0, 1, 0x25, 0xAF, 0x100, 0x101, 0x102, 0x180, 0x181, 0x2FFE, 0x2FFF, 0x3000, 0x3001,
             0x7FFF, 0x8000, 0xFDFE, 0xFDFF, *range(0xFE00, 0xFE0D), 0xFF00,
             *range(0xFFFA, 0x10000)]
REGISTERS = [0xFE00, 0xFE02, 0xFE04, 0xFE06, 0xFE08, 0xFE0A, 0xFFFC, 0xFFFE]
VALUES = [0, 1, 2, 7, 8, 0xFF, 0x100, 0x1FF, 0x700, 0x3FFF, 0x4000, 0x7FFF, 0x8000, 0x8001, 0xBFFF,
          0xC000, 0xFFFF, 0x55AA, 0xAA55]
LOW = [0, 1, 7, 8, 0x10, 0x18, 0x1F, 0x20, 0x3F, 0x40, 0x100, 0x1C0, 0x1FF, 0x200, 0x600, 0x7FF,
       0x800, 0x9C3, 0xA3F, 0xE3F, 0xF25, 0xFFF]
STATUS = [0, 0x4000, 0x8000, 0xC000]
CLOCKS = [0, 1, 41, 2 ** 32, 2 ** 48 - 1]
# What an instruction is made of: registers, a mask, signed and unsigned fields of so many bits.
REGISTER = ('r', 3)
NINE, SIX, FIVE = ('s', 9), ('s', 6), ('s', 5)
SHAPES: Dict[str, Sequence[Tuple[str, int]]] = {
    'Br': [('u', 3), NINE], 'AddRegister': [REGISTER] * 3,
    'AddImmediate': [REGISTER, REGISTER, FIVE],
    'Ld': [REGISTER, NINE], 'St': [REGISTER, NINE], 'Jsr': [('s', 11)], 'Jsrr': [REGISTER],
    'AndRegister': [REGISTER] * 3, 'AndImmediate': [REGISTER, REGISTER, FIVE],
    'Ldr': [REGISTER, REGISTER, SIX], 'Str': [REGISTER, REGISTER, SIX], 'Rti': [],
    'Not': [REGISTER] * 2, 'Ldi': [REGISTER, NINE], 'Sti': [REGISTER, NINE], 'Jmp': [REGISTER],
    'Reserved': [('u', 12)], 'Lea': [REGISTER, NINE], 'Trap': [('u', 8)],
}
NUMBERS: Dict[str, Sequence[int]] = {
    'a': ADDRESSES, 'k': range(7), 'j': range(7), 'i': range(7), 'q': range(4), 'r': range(5),
    'n': range(7), 'steps': range(7), 'b': range(4), 'kind': range(21),
    'count': [0, 1, 2, 3, 255, 256, 65535, 65536, 65537],
    'first': [0, 0x2FFF, 0x3000, 0xFFFF, 65536],
    'origin': [0, 0x30FE, 0x3000, 0xFDFF, 0xFFFF, 65536],
    'status': STATUS, 'psr': [0, 2, 0x8002, 0x8304, 0x0701],
    'high': [0, 1, 0x30, 0xFD, 0xFF], 'low': [0, 1, 0xFF], 'clock': [0, 5],
    'user_stack': [0x1234, 0xFDFF], 'index': [0, 1, 5, 0x81, 0x8001],
    'm': [0, 1, 9, 10, 11, 99, 100, 101, 1024],
}
ROUTINES = ('getc', 'out', 'puts', 'input', 'putsp', 'halt', 'trap', 'exception', 'interrupt')
KEY_TIMES = [(), (5,), (4,), (5, 5), (6, 5), (6, 4), (4, 6), (5, 6, 6), (7, 6, 4), (5, 7, 6),
             (9, 9, 8, 3), (5, 6, 7, 8)]
FILES = [(), (0x30,), (0x30, 0), (0x30, 0, 0x12), (0x30, 0, 0x12, 0x34), (0xFD, 0xFF, 1, 2),
         (0xFF, 0xFF), (0xFF, 0xFF, 0x12, 0x34), (0xFF, 0xFF, 1, 2, 3, 4),
         (0xFF, 0xFF, 1, 2, 3, 4, 5),
         (0x12, 0xFF, 0xFF, 0, 0, 0xFF)]
REASONS = [Case('trap', (0x25,)), Case('trap', (0x181,)), Case('privilege', ()),
           Case('illegal', ()), Case('access', ()), Case('interrupt', (0x180,)),
           Case('interrupt', (0x181,))]
REFUSALS = [Case('MemorySize', ()), Case('UndefinedRecord', ()), Case('UnequalLists', ()),
            Case('TimeBelowClock', (2,))]


class Draw:
    """Values at random, but the same each time."""

    def __init__(self, seed: int) -> None:
        self.random = random.Random(seed)
        self.machine: Dict[str, Any] = {}
        self.last_word = 0

    def one(self, values: Sequence[Any]) -> Any:
        return self.random.choice(values)

    def word(self) -> int:
        pool = self.one([ADDRESSES, VALUES, REGISTERS, [self.random.randrange(65536)]])
        return int(self.one(pool))

    def instruction_word(self) -> int:
        low = self.one([self.random.randrange(4096), self.one(LOW)])
        return int(self.random.randrange(16) * 4096 + low)

    def record(self) -> Dict[str, Any]:
        user = self.random.random() < .5
        interval = self.one([0, 1, 2, 3, 0x1234, 0xFFFF])
        inside = [0x3000, 0x4000, 0xFDFF, self.random.randrange(0x3000, 0xFE00)]
        return {
            'regs': tuple(self.word() for _ in range(8)),
            'pc': self.one(inside if user and self.random.random() < .85 else ADDRESSES),
            'psr': 0x8000 * user + self.random.randrange(8) * 256 + self.random.randrange(8),
            'saved_ssp': self.word(), 'saved_usp': self.word(), 'clock': self.one(CLOCKS),
            'devices': {
                'kbsr': self.one(STATUS), 'kbdr': self.one([0, 0x41, 0x80, 0xFF]),
                'mcr': self.one([0x8000] * 4 + [0]), 'busy': self.one([0, 0, 0, 1, 2, 8]),
                'timer_status': self.one(STATUS), 'timer_interval': interval,
                'timer_count': self.one([1, min(2, interval), interval]) if interval else 0}}

    def memory(self) -> Words:
        common = self.one([self.instruction_word(), self.word()])
        others = {self.machine['pc']: self.instruction_word()} if self.machine else {}
        for _ in range(self.random.randrange(4)):
            others[self.one(ADDRESSES)] = self.word()
        count = self.one([65536] * 12 + [65535, 65537, 0])
        return Words(count, common, {at: word for at, word in others.items() if at < count})

    def keys(self) -> Tuple[int, ...]:
        count = self.one([0, 0, 1, 1, 2, 3])
        return tuple(self.one([0, 0x41, 0x80, 0xE9, 0xFF]) for _ in range(count))

    def start(self) -> Dict[str, Any]:
        """What a run is handed, refused now and then."""
        self.machine = self.record()
        self.machine['clock'] = clock = self.one([0, 41, 1000])
        if self.random.random() < .1:
            self.machine[self.one(['psr', 'clock'])] += self.one([8, 2 ** 48])
        if self.random.random() < .1:
            self.machine['devices'][self.one(['kbsr', 'mcr', 'busy', 'timer_count'])] += 9
        times: List[int] = []
        for _ in range(self.one([0, 1, 2, 3, 4])):
            times.append(max(0, (times or [clock])[-1] + self.one([0, 0, 0, 1, 2, -1])))
        count = len(times) + self.one([0] * 9 + [1])
        return {'machine': self.machine, 'memory': self.memory(), 'times': tuple(times),
                'bytes': tuple(self.one([0, 0x41, 0x80, 0xFF]) for _ in range(count)),
                'output': (7,) * self.one([0, 1, 2, 3])}

    def part(self, kind: str, bits: int) -> Value:
        """A part of an instruction, at its ends, inside or just beyond."""
        if kind == 's':
            half = 2 ** (bits - 1)
            inside = self.random.randrange(-half, half)
            return signed(self.one([-half - 1, -half, -1, 0, 1, half - 1, half, inside]))
        return self.one([0, 1, 2 ** bits - 1, 2 ** bits, self.random.randrange(2 ** bits)])

    def instruction(self) -> Case:
        name = self.one(list(SHAPES))
        return Case(name, tuple(self.part(*shape) for shape in SHAPES[name]))

    def flat_instruction(self) -> Dict[str, Value]:
        value = self.part('s', self.one([5, 6, 9, 11, 13, 17]))
        return {'kind': self.random.randrange(20), 'a': self.one([0, 3, 7, 8]),
                'b': self.one([0, 5, 7, 8]), 'c': self.one([0, 7, 8, 255]), 'value': value}

    def cause(self) -> Case:
        entered = Case('entered', (self.one(REASONS), 0x8002, 0x3000))
        return Case('instruction', ()) if self.random.random() < .3 else entered

    def number(self, name: str) -> int:
        if name == 'v' and self.last_word:     # it differs from the word before in a few bits
            return self.last_word ^ int(self.one(LOW))
        if name in ('w', 'word', 'v'):
            self.last_word = self.instruction_word()
            return self.last_word
        return int(self.one(NUMBERS.get(name.rstrip('₁₂\''), VALUES)))

    def numbers(self, name: str) -> Value:
        """A list of numbers."""
        if name.startswith(('mem', 'other')):
            return self.memory()
        fixed: Dict[str, Sequence[Tuple[int, ...]]] = {'times': KEY_TIMES, 'file': FILES}
        if name in fixed:
            return self.one(fixed[name])
        if name in ('keys', 'bytes'):
            return self.keys()
        if name == 'regs':
            return tuple(self.word() for _ in range(8))
        return tuple(range(1, 1 + self.one([0, 1, 2, 3, 4, 5, 6, 9, 30])))

    def value(self, name: str, kind: str) -> Value:
        if kind == 'ℕ':
            return self.number(name)
        if kind == 'List ℕ':
            return self.numbers(name)
        if kind == 'Machine':
            self.machine = self.record()
            return self.machine
        makers: Dict[str, Callable[[], Value]] = {
            'Start': self.start,
            'Instruction': self.instruction,
            'Bool': lambda: self.one([False, True]),
            'ℤ': lambda: self.part('s', self.one([5, 6, 9, 11, 16])),
            'Edition': lambda: self.one([Case('third', ()), Case('second', ())]),
            'Cause': self.cause,
            'Reason': lambda: self.one(REASONS),
            'Refusal': lambda: self.one(REFUSALS),
            'Lc3Instruction': self.flat_instruction,
            'Routines': lambda: {name: self.word() for name in ROUTINES},
        }
        return makers[kind]()


# Statements about these alone are tried quickly, and so on many.
QUICK = ('ℕ', 'ℤ', 'Instruction', 'Lc3Instruction')


class Samples:
    """Says whether something holds for all values, by trying some."""

    def __init__(self, outer: int = 160, inner: int = 8) -> None:
        self.outer, self.inner, self.depth = outer, inner, 0
        self.drawn: Dict[Tuple[Variable, ...], List[Tuple[Value, ...]]] = {}
        self.step: Callable[..., Value] = lambda *_: None

    def of(self, variables: Tuple[Variable, ...]) -> List[Tuple[Value, ...]]:
        if variables not in self.drawn:
            draw = Draw(len(self.drawn))
            quick = all(kind in QUICK for _, kind in variables)
            count = self.outer * (12 if quick else 1)
            self.drawn[variables] = [self.values(draw, variables) for _ in range(count)]
        return self.drawn[variables]

    def values(self, draw: Draw, variables: Tuple[Variable, ...]) -> Tuple[Value, ...]:
        draw.machine, draw.last_word = {}, 0
        found = []
        for name, kind in variables:
            if kind == 'Step':
                edition = draw.value('', 'Edition')
                found.append(Function(3, lambda *rest, e=edition: self.step(e, *rest)))
            else:
                found.append(draw.value(name, kind))
        return tuple(found)

    def hold(self, variables: List[Variable], claim: Callable[..., Value]) -> bool:
        tried = self.of(tuple(variables))
        self.depth += 1
        try:
            tried = tried if self.depth == 1 else tried[:self.inner]
            return all(claim(*values) for values in tried)
        finally:
            self.depth -= 1
