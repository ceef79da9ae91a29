"""The test of a monitor's table once more, in plain Python, from the rules of
crates/sitting/specs/Test.antt and Values.antt alone: the library's call is held against it.

It shares nothing with ``fanthrig.certifying``. Values are pairs of a kind's name and a number.
"""

from __future__ import annotations

from typing import Iterator, NamedTuple, Sequence

DEVICES = (0xFE00, 0xFE02, 0xFE04, 0xFE06, 0xFE08, 0xFE0A, 0xFFFC, 0xFFFE)
DDR, MCR = 0xFE06, 0xFFFE
KINDS = ("unset", "any", "is", "high", "low", "sum", "allowed")
NUMBERED = ("is", "sum")

Value = tuple[str, int]
UNSET, ANY, HIGH, LOW = ("unset", 0), ("any", 0), ("high", 0), ("low", 0)
ALLOWED = ("allowed", 0)

# The findings of the call.
CERTIFIED, WATCHED, ROOM, VECTOR, INTERRUPT, WORD, STACK, INSTRUCTION = range(8)


def signed(word: int, bits: int) -> int:
    """The number in the low bits of a word."""
    number = word % (1 << bits)
    return number - (1 << bits) if number >= 1 << (bits - 1) else number


def exact(number: int) -> Value:
    """This number."""
    return ("is", number % 65536)


def value_of(number: int) -> Value:
    """A value as a table has it."""
    kind = KINDS[min(number >> 16, 6)]
    return (kind, number & 0xFFFF if kind in NUMBERED else 0)


def forget(value: Value) -> Value:
    """What is left where R0 changes."""
    return ANY if value[0] == "sum" else value


def implies(value: Value, other: Value) -> bool:
    """The first says all that the second says."""
    if other == UNSET:
        return True
    return value != UNSET if other == ANY else value == other


class State(NamedTuple):
    """What is known of the registers, of what the codes were set from, and of watched words."""

    regs: tuple[Value, ...]
    codes: Value
    words: tuple[Value, ...]

    def covers(self, other: State) -> bool:
        """It says all that the other says."""
        pairs = [*zip(self.regs, other.regs), (self.codes, other.codes)]
        return all(implies(a, b) for a, b in [*pairs, *zip(self.words, other.words)])

    def put(self, register: int, value: Value) -> State:
        """A register takes a value."""
        regs, codes, words = list(self.regs), self.codes, self.words
        if register == 0:
            regs, value, codes = [forget(v) for v in regs], forget(value), forget(codes)
            words = tuple(forget(v) for v in words)
        regs[register] = value
        return State(tuple(regs), codes, words)

    def moved(self, register: int, value: Value) -> State:
        """The same with the codes set from it."""
        after = self.put(register, value)
        return after._replace(codes=forget(value) if register == 0 else value)


class Test:
    """The test of one claim."""

    def __init__(
        self,
        memory: Sequence[int],
        kinds: Sequence[int],
        lowest: int,
        watched: Sequence[int],
        ends: Sequence[int],
        table: Sequence[int],
    ) -> None:
        """The claim as flat numbers."""
        self.size = min(len(memory), len(kinds))
        self.memory, self.kinds, self.lowest, self.watched = memory, kinds, lowest, watched
        self.rows: list[list[State]] = []
        self.firsts: list[int] = []
        whole, start = len(table) // 17, 0
        for end in ends:
            places = range(start, min(end, whole))
            self.rows.append([self._state(table[17 * at : 17 * at + 17]) for at in places])
            self.firsts.append(start)
            start = end

    @staticmethod
    def _state(numbers: Sequence[int]) -> State:
        """A state of 17 numbers."""
        values = [value_of(number) for number in numbers]
        return State(tuple(values[:8]), values[8], tuple(values[9:]))

    # Words.

    def fixed(self, address: int) -> int | None:
        """The word that never changes there, or nothing."""
        is_fixed = address < self.size and self.kinds[address] == 1
        return self.memory[address] if is_fixed else None

    def own(self, address: int) -> bool:
        """Whether it is the monitor's own."""
        return address < self.size and self.kinds[address] == 2

    def accepts(self, pc: int, state: State) -> bool:
        """The table knows no more at this address."""
        at = pc - 0x0200
        return 0 <= at < len(self.rows) and any(state.covers(row) for row in self.rows[at])

    # Loads and stores.

    def held(self, address: int, state: State) -> Value:
        """What is known of a watched word: of the first place that has its address."""
        for place, word in enumerate(self.watched):
            if word == address:
                return state.words[place]
        return ANY

    def loaded(self, address: int, state: State) -> Value:
        """What a load there gives."""
        if address in DEVICES:
            return ANY
        word = self.fixed(address)
        if word is not None:
            return exact(word)
        if address == 0x2FFF and not self.own(address):
            return HIGH
        return self.held(address, state)

    def loads_at(self, pc: int, register: int, address: int, state: State) -> bool:
        """A load at a known address."""
        known = self.fixed(address) is not None or self.own(address)
        if not (known or self.lowest <= address < 0x3000 or address in DEVICES):
            return False
        return self.accepts(pc + 1, state.moved(register, self.loaded(address, state)))

    def stored(self, address: int, value: Value, state: State) -> State:
        """The state after a store."""
        pairs = zip(self.watched, state.words)
        return state._replace(words=tuple(value if w == address else v for w, v in pairs))

    def stores_at(self, pc: int, value: Value, address: int, state: State) -> bool:
        """A store at a known address."""
        if address in (DDR, MCR):
            return self.accepts(pc + 1, state)
        if not (self.own(address) or self.lowest <= address < 0x2FFF):
            return False
        return self.accepts(pc + 1, self.stored(address, value, state))

    # Instructions.

    def branches(self, mask: int, there: int, here: int, state: State) -> bool:
        """A branch."""
        kind, number = state.codes
        if kind == "is":
            code = 2 if number == 0 else 1 if number < 0x8000 else 4
            return self.accepts(there if mask & code else here, state)
        if kind == "high":
            return self.accepts(there if mask & 4 else here, state)
        if kind == "low" and mask in (3, 4):
            return self.accepts(there if mask == 3 else here, state)
        taken = not_taken = state
        if kind == "sum":
            taken, not_taken = self.refined(mask, number, state)
        both = mask != 7 or kind == "unset"
        return self.accepts(there, taken) and (not both or self.accepts(here, not_taken))

    @staticmethod
    def refined(mask: int, number: int, state: State) -> tuple[State, State]:
        """What BRn and BRzp tell of R0, where they are taken and where not."""
        above, below = 0x0200 <= number <= 0x5000, 0x8200 <= number <= 0xD000
        allowed = state._replace(regs=(ALLOWED, *state.regs[1:]))
        if mask == 4:
            return (allowed if above else state), (allowed if below else state)
        if mask == 3:
            return (allowed if below else state), (allowed if above else state)
        return state, state

    def computes(self, pc: int, word: int, state: State) -> bool:
        """ADD, AND and NOT."""
        target, source = word >> 9 & 7, word >> 6 & 7
        value = state.regs[source]
        other = exact(signed(word, 5)) if word & 0x20 else state.regs[word & 7]
        if word >> 12 == 9:
            result = exact(65535 - value[1]) if value[0] == "is" else ANY
        elif other[0] != "is":
            result = ANY
        elif word >> 12 == 1:
            result = self.sum_of(source == 0, value, other[1])
        elif value[0] == "is":
            result = exact(value[1] & other[1])
        else:
            result = exact(0) if other[1] == 0 else ANY
        return self.accepts(pc + 1, state.moved(target, result))

    @staticmethod
    def sum_of(first: bool, value: Value, number: int) -> Value:
        """A value plus a number."""
        if value[0] in NUMBERED:
            return (value[0], (value[1] + number) % 65536)
        return ("sum", number) if first else ANY

    def by_base(self, pc: int, word: int, state: State) -> bool:
        """LDR and STR."""
        register, base, offset = word >> 9 & 7, state.regs[word >> 6 & 7], signed(word, 6)
        loads = word >> 12 == 6
        if base[0] == "is":
            address = (base[1] + offset) % 65536
            if loads:
                return self.loads_at(pc, register, address, state)
            return self.stores_at(pc, state.regs[register], address, state)
        if base != ALLOWED or offset:
            return False
        return self.accepts(pc + 1, state.moved(register, ANY) if loads else state)

    def by_pc(self, pc: int, word: int, state: State) -> bool:
        """LD, ST, LDI, STI and LEA."""
        opcode, register = word >> 12, word >> 9 & 7
        address = (pc + 1 + signed(word, 9)) % 65536
        if opcode == 14:
            return self.accepts(pc + 1, state.put(register, exact(address)))
        if opcode in (10, 11):
            pointer = self.fixed(address)
            if pointer is None:
                return False
            address = pointer
        if opcode in (2, 10):
            return self.loads_at(pc, register, address, state)
        return self.stores_at(pc, state.regs[register], address, state)

    def jumps(self, value: Value, state: State) -> bool:
        """A jump to a known address."""
        return value[0] == "is" and self.accepts(value[1], state)

    def calls(self, pc: int, word: int, state: State) -> bool:
        """TRAP in a routine."""
        target, stack = self.fixed(word & 0xFF), state.regs[6]
        if target is None or stack[0] != "is" or stack[1] < self.lowest + 2:
            return False
        after = self.stored(stack[1] - 1, LOW, state)
        after = self.stored(stack[1] - 2, exact(pc + 1), after)
        return self.accepts(target, after.put(6, exact(stack[1] - 2)))

    def returns(self, state: State) -> bool:
        """RTI."""
        kind, stack = state.regs[6]
        if kind != "is":
            return False
        if stack == 0x2FFE:
            return True
        after = state.put(6, ("is", stack + 2))._replace(codes=UNSET)
        return self.held(stack + 1, state) == LOW and self.jumps(self.held(stack, state), after)

    def harmless(self, pc: int, word: int, state: State) -> bool:
        """The instruction at pc is harmless, and leads to what the table says."""
        opcode = word >> 12
        link = state.put(7, exact(pc + 1))
        if opcode == 0:
            there = (pc + 1 + signed(word, 9)) % 65536
            return self.branches(word >> 9 & 7, there, pc + 1, state)
        if opcode in (1, 5, 9):
            return self.computes(pc, word, state)
        if opcode in (6, 7):
            return self.by_base(pc, word, state)
        if opcode in (2, 3, 10, 11, 14):
            return self.by_pc(pc, word, state)
        if opcode == 4 and word & 0x0800:
            return self.accepts((pc + 1 + signed(word, 11)) % 65536, link)
        if opcode in (4, 12):
            return self.jumps(state.regs[word >> 6 & 7], link if opcode == 4 else state)
        return self.returns(state) if opcode == 8 else opcode == 15 and self.calls(pc, word, state)

    # The whole.

    def sound(self, state: State) -> bool:
        """R6 is known, and what is known of words below it an interrupt does not change."""
        kind, stack = state.regs[6]
        if kind != "is" or not self.lowest <= stack <= 0x2FFE:
            return False
        return all(
            value in (UNSET, ANY) or self.own(word) or stack <= word < 0x3000
            for word, value in zip(self.watched, state.words)
        )

    def leads_in(self, vector: int) -> bool:
        """A vector leads to where the table knows the entry."""
        word = self.fixed(vector)
        entry = State((*[ANY] * 6, exact(0x2FFE), ANY), UNSET, (ANY,) * 8)
        return word is not None and self.accepts(word, entry)

    def leads_back(self, vector: int) -> bool:
        """An interrupt's vector leads to a lone RTI."""
        return self.leads_in(vector) and self.fixed(self.memory[vector]) == 0x8000

    def finding(self) -> tuple[int, int, int]:
        """What is wrong first, as the call answers it."""
        if len(self.watched) != 8:
            return WATCHED, 0, 0
        if self.size + 4 > self.lowest or self.lowest > 0x2FFE:
            return ROOM, 0, 0
        for vector in range(0x0103):
            if not self.leads_in(vector):
                return VECTOR, vector, 0
        for vector in (0x0180, 0x0181):
            if not self.leads_back(vector):
                return INTERRUPT, vector, 0
        wrong = (found for at in range(len(self.rows)) for found in self.wrong_in(at))
        return next(wrong, (CERTIFIED, 0, 0))

    def wrong_in(self, at: int) -> Iterator[tuple[int, int, int]]:
        """What is wrong in a row, state by state. Rows past xFFFF are of no word: 65,536."""
        pc = min(0x0200 + at, 65536)
        word = self.fixed(pc)
        for place, state in enumerate(self.rows[at], self.firsts[at]):
            if word is None:
                yield WORD, pc, place
            elif not self.sound(state):
                yield STACK, pc, place
            elif not self.harmless(pc, word, state):
                yield INSTRUCTION, pc, place
