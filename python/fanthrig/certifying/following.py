"""Follows the routines of a monitor from every vector on, and notes what is known at each word.

A worklist of states: each is taken through the instruction at its word, by the rules of the proved
test, and what comes out is noted at the next word unless that is known there already. Where a word
has many states, those that agree in R6, R7 and the watched words are joined to what all of them
say. Where a rule does not let an instruction pass, that is a problem, and the path ends there.
"""

from __future__ import annotations

from dataclasses import replace
from functools import lru_cache
from typing import Callable, Sequence

from ..calls import line, read
from ..constants import ADDRESS_DDR, ADDRESS_MCR, USER_ORIGIN
from ..records import Instruction, Kind
from . import problems
from .claims import Cell, Claim
from .domain import ALLOWED, ANY, CODES, HIGH, LOW, UNSET, WATCHED_FROM, State, complement
from .domain import conjunction, covers, distance_of, exactly, implies, joined, moved, number_of
from .domain import total, with_register
from .problems import DEVICES, Problem, wrong_load, wrong_store

# The first word of the routines, the vectors of traps and exceptions, and those of interrupts.
ROUTINES, VECTORS, INTERRUPTS = 0x0200, range(0x0103), (0x0180, 0x0181)

# R6 on entry, and the caller's PSR above it.
TOP, CALLERS_PSR = 0x2FFE, 0x2FFF

RTI = 0x8000

# The states of a word that a new one is compared with: where there are more, as for the characters
# of many texts, hardly any says all that another says.
COMPARED = 64

# The states of a word from which on what is known of watched words is given up, and the steps of
# one run after which a monitor is taken for one that can't be followed.
MOST_STATES, MOST_STEPS = 16_384, 400_000

# The numbers c by which the sign of R0 + c tells that R0 is an address of User mode's: where the
# sum is negative, and where it is not.
ABOVE, BELOW = range(0x0200, 0x5001), range(0x8200, 0xD001)


@lru_cache(1 << 12)
def instruction(word: int) -> Instruction:
    """The instruction that a word is; kept, for routines are followed several times."""
    return read(word).instruction


def codes_of(number: int) -> int:
    """The condition code of a number, as a bit of BR's mask.

    >>> codes_of(0), codes_of(7), codes_of(0xFFFF)
    (2, 1, 4)
    """
    return 2 if number == 0 else 1 if number < 0x8000 else 4


class Follower:
    """One run over the routines of a claim. ``watched`` are the words of which states tell
    something, ``lowest`` the lowest word that the stack may take, and ``most`` the states of a word
    before they are joined.

    Afterwards ``rows`` has the states of each word that is reached, ``problems`` what is wrong,
    ``least`` the lowest word of the stack in use, ``recalled`` the watched words whose value was
    put to use, and ``joins`` is true where states were joined; ``stored`` and ``fetched`` are for
    the claim to take over.
    """

    def __init__(self, claim: Claim, watched: Sequence[int], lowest: int, most: int) -> None:
        """Nothing is followed yet."""
        self._claim, self._lowest, self._most = claim, lowest, most
        self._places = {address: WATCHED_FROM + at for at, address in enumerate(watched)}
        # The watched words of the stack, highest first: an interrupt changes those below R6.
        of_stack = sorted((word for word in watched if claim[word] is not Cell.OWN), reverse=True)
        self._of_stack = [(word, self._places[word]) for word in of_stack]
        self._left: list[tuple[int, State]] = []
        self.rows: dict[int, dict[State, None]] = {}
        self.problems: dict[int, Problem] = {}
        self.least, self.joins = TOP, False
        self.recalled: set[int] = set()
        self.stored: dict[int, int] = {}
        self.fetched: set[int] = set()

    def follow(self) -> None:
        """Follows every routine to its end."""
        self._enter()
        steps = 0
        while self._left:
            pc, state = self._left.pop()
            # What was joined or covered since has a state of its own in the list.
            if state in self.rows[pc]:
                self._step(pc, state)
                steps += 1
            if steps > MOST_STEPS:
                text = f"is not followed to its end in {MOST_STEPS} steps"
                self._problem(pc, text, problems.SIMPLER)
                return

    def _enter(self) -> None:
        """Enters by every vector, as from User mode."""
        entry = (*[ANY] * 6, exactly(TOP), ANY, UNSET, *[ANY] * len(self._places))
        for vector in (*VECTORS, *INTERRUPTS):
            target = self._claim.memory[vector]
            if self._claim[vector] is not Cell.FIXED:
                text = f"the vector is {self._what(vector)}"
                self._problem(vector, text, problems.ALL_VECTORS, sure=True)
            elif vector in VECTORS or self._returns(vector, target):
                self._go(vector, target, entry)

    def _returns(self, vector: int, target: int) -> bool:
        """Whether an interrupt's vector leads to a lone RTI."""
        fixed = self._claim[target] is Cell.FIXED
        if not fixed or self._claim.memory[target] != RTI:
            text = f"the vector of an interrupt leads to x{target:04X}, where no lone RTI is"
            self._problem(vector, text, problems.LONE_RTI, sure=True)
            return False
        return True

    def _what(self, address: int) -> str:
        """What a word is that is not fixed, in words."""
        if self._claim[address] is Cell.OWN:
            by = self._claim.stored_by.get(address)
            return "a word of the monitor's own" if by is None else f"stored to by x{by:04X}"
        if address >= USER_ORIGIN:
            return "no word of a monitor's"
        return "in no file of the monitor's, or secret"

    def _problem(self, pc: int, text: str, instead: str, sure: bool = False) -> None:
        """Notes what is wrong at a word: the first thing."""
        if pc not in self.problems:
            written = line(self._claim.memory[pc]) if pc >= ROUTINES else ""
            self.problems[pc] = Problem(pc, text, instead, written, sure=sure)

    @property
    def sure(self) -> set[Problem]:
        """The problems that more knowledge would hardly solve."""
        return {problem for problem in self.problems.values() if problem.sure}

    # From word to word.

    def _go(self, source: int, target: int, state: State) -> None:
        """Goes on from an instruction, or from a vector, with a state."""
        stack = number_of(state[6])
        if stack is None or not self._lowest <= stack <= TOP:
            where = "an unknown number" if stack is None else f"x{stack:04X}"
            text = f"leaves {where} in R6"
            self._problem(source, text, problems.BALANCED, sure=stack is not None)
            return
        if not self._is_fetched(source, target):
            return
        self.least = min(self.least, stack)
        self._note(target, self._kept(state, stack))

    def _is_fetched(self, source: int, target: int) -> bool:
        """Whether a word may be fetched: it never changes, and lies among the routines."""
        cell = self._claim[target]
        if cell is Cell.SECRET and self._claim.may_be_fixed(target):
            self.fetched.add(target)
            cell = Cell.FIXED
        if cell is Cell.FIXED and target >= ROUTINES:
            return True
        what = "below x0200" if cell is Cell.FIXED else self._what(target)
        if source < ROUTINES:
            text = f"the vector leads to x{target:04X}, which is {what}"
            self._problem(source, text, problems.NAMED, sure=True)
        else:
            text = f"goes on at x{target:04X}, which is {what}"
            self._problem(source, text, problems.A_ROUTINE, sure=True)
        return False

    def _kept(self, state: State, stack: int) -> State:
        """A state without what an interrupt's two words could change: watched words of the stack
        that lie below R6."""
        lost = [
            place
            for address, place in self._of_stack
            if address < stack and state[place] != ANY and state[place] != UNSET
        ]
        if not lost:
            return state
        return tuple(ANY if place in lost else value for place, value in enumerate(state))

    def _note(self, pc: int, state: State) -> None:
        """Notes a state at a word, unless it is known there already."""
        row = self.rows.setdefault(pc, {})
        if state in row:
            return
        if len(row) <= COMPARED:
            if any(covers(state, other) for other in row):
                return
            for other in [other for other in row if covers(other, state)]:
                del row[other]
        row[state] = None
        self._left.append((pc, state))
        if len(row) > self._most:
            self._join(pc, row)

    def _join(self, pc: int, row: dict[State, None]) -> None:
        """Joins the states of a word that agree in R6, R7 and the watched words; where there are
        far too many, all that agree in R6 and R7."""
        few = len(row) <= MOST_STATES
        groups: dict[State, list[State]] = {}
        for state in row:
            key = state[6:8] + state[WATCHED_FROM:] if few else state[6:8]
            groups.setdefault(key, []).append(state)
        row.clear()
        for states in groups.values():
            whole = states[0] if len(states) == 1 else joined(states)
            row[whole] = None
            self._left.append((pc, whole))
            self.joins |= len(states) > 1
        self._most = max(self._most, 2 * len(row))

    # One instruction.

    def _step(self, pc: int, state: State) -> None:
        """Takes a state through the instruction at a word."""
        found = instruction(self._claim.memory[pc])
        _STEPS[found.kind](self, pc, found, state)

    def _branch(self, pc: int, found: Instruction, state: State) -> None:
        """BR, by what is known of the codes. Where no value is known to have set them, they may be
        of any pattern, none among them."""
        mask, there, here = found.a, pc + 1 + found.value & 0xFFFF, pc + 1
        codes = state[CODES]
        number = 0x8000 if codes == HIGH else number_of(codes)
        if number is not None:
            self._go(pc, there if mask & codes_of(number) else here, state)
        elif codes == LOW and mask in (3, 4):
            self._go(pc, there if mask == 3 else here, state)
        else:
            looked = self._looked(mask, distance_of(codes))
            self._go(pc, there, _allowed(state) if looked == "taken" else state)
            if mask != 7 or codes == UNSET:
                self._go(pc, here, _allowed(state) if looked == "not taken" else state)

    @staticmethod
    def _looked(mask: int, distance: int | None) -> str:
        """Where a branch tells that R0 is an address of User mode's: BRn and BRzp on R0 and a
        number do."""
        if mask not in (3, 4) or distance is None:
            return ""
        negative, positive = distance in ABOVE, distance in BELOW
        if negative or positive:
            return "taken" if (mask == 4) == negative else "not taken"
        return ""

    def _add(self, pc: int, found: Instruction, state: State) -> None:
        """ADD."""
        other = exactly(found.value) if found.kind is Kind.ADD_IMMEDIATE else state[found.c]
        value = total(found.b == 0, state[found.b], other)
        self._go(pc, pc + 1, moved(state, found.a, value))

    def _and(self, pc: int, found: Instruction, state: State) -> None:
        """AND."""
        other = exactly(found.value) if found.kind is Kind.AND_IMMEDIATE else state[found.c]
        self._go(pc, pc + 1, moved(state, found.a, conjunction(state[found.b], other)))

    def _not(self, pc: int, found: Instruction, state: State) -> None:
        """NOT."""
        self._go(pc, pc + 1, moved(state, found.a, complement(state[found.b])))

    def _lea(self, pc: int, found: Instruction, state: State) -> None:
        """LEA, which leaves the codes alone."""
        value = exactly(pc + 1 + found.value)
        self._go(pc, pc + 1, tuple(with_register(state, found.a, value)))

    # Loads and stores.

    def _ld(self, pc: int, found: Instruction, state: State) -> None:
        """LD."""
        self._load(pc, found.a, pc + 1 + found.value & 0xFFFF, state)

    def _st(self, pc: int, found: Instruction, state: State) -> None:
        """ST."""
        self._store(pc, state[found.a], pc + 1 + found.value & 0xFFFF, state)

    def _ldr(self, pc: int, found: Instruction, state: State) -> None:
        """LDR: at a known address, or at one of User mode's."""
        base = number_of(state[found.b])
        if base is not None:
            self._load(pc, found.a, base + found.value & 0xFFFF, state)
        elif self._reaches_user(pc, found, state, "loads from"):
            self._go(pc, pc + 1, moved(state, found.a, ANY))

    def _str(self, pc: int, found: Instruction, state: State) -> None:
        """STR in the same way."""
        base = number_of(state[found.b])
        if base is not None:
            self._store(pc, state[found.a], base + found.value & 0xFFFF, state)
        elif self._reaches_user(pc, found, state, "stores to"):
            self._go(pc, pc + 1, state)

    def _reaches_user(self, pc: int, found: Instruction, state: State, verb: str) -> bool:
        """Whether an access by an unknown base is known to reach User mode's words."""
        if state[found.b] == ALLOWED and found.value == 0:
            return True
        if state[found.b] == ALLOWED:
            text = f"{verb} an address beside the one in R{found.b} that was looked at"
            self._problem(pc, text, problems.BY_R0)
        else:
            instead = problems.BY_R0 if found.b == 0 else problems.KNOWN_BASE
            text = f"{verb} an address in R{found.b} that may be of any word"
            self._problem(pc, text, instead)
        return False

    def _ldi(self, pc: int, found: Instruction, state: State) -> None:
        """LDI, by a pointer that never changes."""
        pointer = self._pointer(pc, found)
        if pointer is not None:
            self._load(pc, found.a, pointer, state)

    def _sti(self, pc: int, found: Instruction, state: State) -> None:
        """STI in the same way."""
        pointer = self._pointer(pc, found)
        if pointer is not None:
            self._store(pc, state[found.a], pointer, state)

    def _pointer(self, pc: int, found: Instruction) -> int | None:
        """The pointer of LDI and STI."""
        address = pc + 1 + found.value & 0xFFFF
        if self._claim[address] is Cell.FIXED:
            return int(self._claim.memory[address])
        text = f"takes its pointer from x{address:04X}, which is {self._what(address)}"
        self._problem(pc, text, problems.FIXED_POINTER, sure=True)
        return None

    def _load(self, pc: int, register: int, address: int, state: State) -> None:
        """A load from a known address."""
        of_stack = self._lowest <= address < USER_ORIGIN
        secret = self._claim[address] is Cell.SECRET
        if secret and not of_stack and address not in DEVICES:
            self._problem(pc, *wrong_load(address), sure=True)
            return
        if of_stack:
            self.least = min(self.least, address)
        self._go(pc, pc + 1, moved(state, register, self._value_at(address, state)))

    def _value_at(self, address: int, state: State) -> int:
        """What a load from an address gives."""
        if address in DEVICES:
            return ANY
        if self._claim[address] is Cell.FIXED:
            return exactly(self._claim.memory[address])
        return HIGH if address == CALLERS_PSR else self._watched_at(address, state)

    def _watched_at(self, address: int, state: State) -> int:
        """What is known of a word that may change."""
        place = self._places.get(address)
        value = ANY if place is None else state[place]
        if not implies(ANY, value):
            self.recalled.add(address)
        return value

    def _store(self, pc: int, value: int, address: int, state: State) -> None:
        """A store to a known address."""
        if address in (ADDRESS_DDR, ADDRESS_MCR):
            self._go(pc, pc + 1, state)
            return
        of_stack = self._lowest <= address < CALLERS_PSR
        cell = self._claim[address]
        if cell is Cell.FIXED and self._claim.may_be_own(address):
            self.stored.setdefault(address, pc)
            cell = Cell.OWN
        if cell is not Cell.OWN and not of_stack:
            self._problem(pc, *wrong_store(address, cell is Cell.FIXED), sure=True)
            return
        if of_stack:
            self.least = min(self.least, address)
        self._go(pc, pc + 1, self._remembering(state, address, value))

    def _remembering(self, state: State, address: int, value: int) -> State:
        """A state after a word takes a value."""
        place = self._places.get(address)
        return state if place is None else (*state[:place], value, *state[place + 1 :])

    # Jumps, traps and returns.

    def _jmp(self, pc: int, found: Instruction, state: State) -> None:
        """JMP and RET."""
        self._jump(pc, state[found.a], state, f"jumps to an address in R{found.a}")

    def _jsr(self, pc: int, found: Instruction, state: State) -> None:
        """JSR."""
        after = tuple(with_register(state, 7, exactly(pc + 1)))
        self._go(pc, pc + 1 + found.value & 0xFFFF, after)

    def _jsrr(self, pc: int, found: Instruction, state: State) -> None:
        """JSRR: the base register is read before R7 changes."""
        after = tuple(with_register(state, 7, exactly(pc + 1)))
        self._jump(pc, state[found.a], after, f"jumps to an address in R{found.a}")

    def _jump(self, pc: int, value: int, state: State, text: str) -> None:
        """A jump to a known address."""
        target = number_of(value)
        if target is None:
            self._problem(pc, f"{text} that is not known", problems.KEPT)
        else:
            self._go(pc, target, state)

    def _trap(self, pc: int, found: Instruction, state: State) -> None:
        """TRAP in a routine: PSR, which is less than x8000, and the next address are pushed."""
        stack = (number_of(state[6]) or 0) - 2
        if self._claim[found.value] is not Cell.FIXED:
            text = f"traps by a vector that is {self._what(found.value)}"
            self._problem(pc, text, problems.ALL_VECTORS)
        else:
            pushed = self._remembering(state, stack + 1, LOW)
            pushed = self._remembering(pushed, stack, exactly(pc + 1))
            after = tuple(with_register(pushed, 6, exactly(stack)))
            self._go(pc, self._claim.memory[found.value], after)

    def _rti(self, pc: int, found: Instruction, state: State) -> None:
        """RTI: to User mode where R6 is as on entry, or back to a routine."""
        stack = number_of(state[6]) or 0
        if stack == TOP:
            return
        if self._watched_at(stack + 1, state) != LOW:
            text = f"returns with R6 x{stack:04X}, where no trap has pushed"
            self._problem(pc, text, problems.POPPED)
            return
        after = with_register(state, 6, exactly(stack + 2))
        after[CODES] = UNSET
        text = "returns to an address"
        self._jump(pc, self._watched_at(stack, state), tuple(after), text)

    def _reserved(self, pc: int, found: Instruction, state: State) -> None:
        """An opcode that is no instruction."""
        self._problem(pc, "is no instruction", problems.A_ROUTINE, sure=True)


def _allowed(state: State) -> State:
    """A state in which R0 is known to be an address of User mode's."""
    return (ALLOWED, *state[1:])


_STEPS: dict[Kind, Callable[[Follower, int, Instruction, State], None]] = {
    Kind.BR: Follower._branch,
    Kind.ADD_REGISTER: Follower._add,
    Kind.ADD_IMMEDIATE: Follower._add,
    Kind.LD: Follower._ld,
    Kind.ST: Follower._st,
    Kind.JSR: Follower._jsr,
    Kind.JSRR: Follower._jsrr,
    Kind.AND_REGISTER: Follower._and,
    Kind.AND_IMMEDIATE: Follower._and,
    Kind.LDR: Follower._ldr,
    Kind.STR: Follower._str,
    Kind.RTI: Follower._rti,
    Kind.NOT: Follower._not,
    Kind.LDI: Follower._ldi,
    Kind.STI: Follower._sti,
    Kind.JMP: Follower._jmp,
    Kind.RESERVED: Follower._reserved,
    Kind.LEA: Follower._lea,
    Kind.TRAP: Follower._trap,
}


def gathered(found: dict[int, Problem]) -> list[Problem]:
    """Problems in the order of their addresses, those of routines first. Vectors with the same
    problem are told of once."""
    vectors: dict[str, list[Problem]] = {}
    for address in sorted(address for address in found if address < ROUTINES):
        vectors.setdefault(found[address].text, []).append(found[address])
    routines = [found[address] for address in sorted(found) if address >= ROUTINES]
    for first, *others in vectors.values():
        routines.append(replace(first, more=len(others)))
    return routines
