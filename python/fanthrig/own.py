"""Which steps of a machine are the program's own, and by which one it was left last.

An entry (a trap, an exception or an interrupt) leads from the program to a routine of the monitor,
and RTI leads back. Entries from which no RTI has returned are *open*. A program in User mode is
easily told from what serves it: its steps are those made in User mode, which only an entry and an
RTI change. Of one in Supervisor mode the steps are those outside of all entries.

By the second edition's rules a TRAP is no entry but a call, from which RET returns in the same
mode: there the steps in privileged memory, x0000 to x2FFF and from xFE00 on, are the monitor's.

All is read from the log of the last steps, backwards, and no further than ``LOOKED_THROUGH`` says.
Where a routine has served a program in User mode for longer, its entry is looked for from the last
snapshot in User mode on: see ``fanthrig.entries``. Where that is too far back as well, the PC that
the entry saved on the supervisor stack still names the program's instruction. A program in User
mode can alter neither log nor stack.
"""

from __future__ import annotations

from array import array
from itertools import islice
from typing import Iterator, NamedTuple, Sequence

from .constants import LOG_WORDS, PSR_USER
from .entries import FARTHEST, entries_since, entry_places
from .log import LoggedStep, logged_steps
from .past import Past
from .records import Edition, Mode, Reason, Record
from .steps import TracedStep

# The steps that a log is looked through: few at first, for most entries are short.
LOOKED_THROUGH = (1 << 9, 1 << 16, 1 << 20)

# The open entries that are looked at: no monitor has more routines inside of one another.
MOST_OPEN = 16

# The steps of a log that are looked at together for an entry or a return.
BLOCK = 1 << 12

# The bits of a PSR.
PSR_BITS = 0x8707

# The exceptions that an opcode raises in User mode.
_RAISED = {8: Reason.PRIVILEGE, 13: Reason.ILLEGAL}

# What a step does to the routines that are open.
NOTHING, CALLS, ENTERS, RETURNS = range(4)


class Left(NamedTuple):
    """The step by which the program was left: its log, the registers before it, and the entries
    that are open inside of it, the first one first. Where the step was not ``found``, only PC, PSR
    and R6 are those before it, and its clock is that of the end. It is no entry where the program
    has ``strayed`` into privileged memory."""

    clock: int
    step: LoggedStep
    record: Record
    inner: tuple[LoggedStep, ...] = ()
    found: bool = True
    strayed: bool = False

    @property
    def in_user_mode(self) -> bool:
        """Whether the program runs in User mode."""
        return bool(self.record.psr & PSR_USER)


def privileged(address: int) -> bool:
    """Whether User mode may not access an address.

    >>> [privileged(address) for address in (0x2FFF, 0x3000, 0xFDFF, 0xFE00)]
    [True, False, False, True]
    """
    return not 0x3000 <= address <= 0xFDFF


def left_by(past: Past) -> Left | None:
    """The step by which the program was left and has not been returned to; nothing where the
    program itself runs."""
    found: Left | None = None
    if _in_user_mode(past, past.clock):
        return found
    for first in _beginnings(past):
        near = past.nearer(first)
        found = _left_since(near, first)
        if found is not None and found.in_user_mode:
            return found
    return _left_far_back(past) or _left_by_frame(past) or found


def strayed_by(past: Past) -> Left | None:
    """The step by which a program that no routine serves came into privileged memory, to obey what
    stands there: its last one outside. Nothing where it is not there or began there; and a program
    in User mode can't, but by the second edition's rules."""
    here = past.machine_at(past.clock).record.pc
    if past.stack_base is not None or privileged(past.first_pc) or not privileged(here):
        return None
    for first in _beginnings(past):
        near = past.nearer(first)
        log = near.log(first)
        outside = (place for place in _places(log) if not privileged(log[LOG_WORDS * place]))
        place = next(outside, None)
        if place is not None:
            record = near.machine_at(first + place).plain_record()
            return Left(first + place, _step(log, place), record, strayed=True)
    return None


def last_own_steps(past: Past, count: int) -> list[LoggedStep]:
    """The last steps of the program, at most so many. Fewer are told where routines of the monitor
    have served for longer than the log is looked through."""
    left = left_by(past)
    steps = list(_last_own(past, count, left).values())
    return [left.step] if left is not None and not steps else steps


def last_own_clocks(past: Past, count: int) -> list[int]:
    """The numbers of these steps."""
    return list(_last_own(past, count, left_by(past)))


def _last_own(past: Past, count: int, left: Left | None) -> dict[int, LoggedStep]:
    """The last steps of the program by their numbers, as far as the log is looked through."""
    steps: dict[int, LoggedStep] = {}
    third = past.edition is Edition.THIRD
    if third and left is not None and left.found and left.in_user_mode:
        past = _near_part(past.until(left.clock + 1))
    for first in _beginnings(past):
        near = past.nearer(first)
        log = near.log(first)
        places = list(islice(_own_places(near, log, first, left), count))
        steps = {first + place: _step(log, place) for place in reversed(places)}
        if len(steps) == count:
            break
    return steps


def _own_places(past: Past, log: array[int], first: int, left: Left | None) -> Iterator[int]:
    """The steps of the program in the log from a clock on, the last one first."""
    if past.edition is Edition.SECOND:
        return (place for place in _places(log) if not privileged(log[LOG_WORDS * place]))
    if _in_user_mode(past, past.clock) if left is None else left.in_user_mode:
        return _user_places(past, log, first)
    until = past.clock if left is None else left.clock + 1
    return _outer_places(log[: LOG_WORDS * (until - first)])


def _in_user_mode(past: Past, clock: int) -> bool:
    """Whether the machine is in User mode at a clock, and that tells the program from others."""
    third = past.edition is Edition.THIRD
    return third and bool(past.machine_at(clock).record.psr & PSR_USER)


def _beginnings(past: Past) -> Iterator[int]:
    """The clocks from which on the log is looked through, one after the other. It is worth to look
    far back only for a program in User mode, which is sure to be there."""
    for count in LOOKED_THROUGH[:2] if past.stack_base is None else LOOKED_THROUGH:
        yield max(past.clock - count, past.start)
        if past.clock - count <= past.start:
            return


def _near_part(past: Past) -> Past:
    """A past without its start where that is far back."""
    far = len(past.marks) > 1 and past.clock - past.start > FARTHEST
    return past._replace(marks=past.marks[1:]) if far else past


def _step(log: array[int], place: int) -> LoggedStep:
    """One step of a log."""
    return logged_steps(log[place * LOG_WORDS : (place + 1) * LOG_WORDS])[0]


def _left_since(past: Past, first: int) -> Left | None:
    """The step by which the program was left, from the log from a clock on."""
    return _left_in(past, past.log(first), range(first, past.clock))


def _left_far_back(past: Past) -> Left | None:
    """The same of a program in User mode, from all entries since the last snapshot in that mode."""
    marks = [mark.snapshot.clock for mark in past.marks if mark.in_user_mode]
    if past.edition is Edition.SECOND or not marks:
        return None
    entries = entries_since(past, marks[-1])
    left = None if entries is None else _left_in(past, entries.log, entries.clocks)
    return left if left is not None and left.in_user_mode else None


def _left_in(past: Past, log: array[int], clocks: Sequence[int]) -> Left | None:
    """The step by which the program was left, from a log of steps of these numbers: the last open
    one that was made in User mode; else the last one outside of privileged memory; else the
    first."""
    inner: list[LoggedStep] = []
    found: Left | None = None
    places = list(open_places(log, past.edition))
    # Where there are more, the first of all is looked at as well: with it the trouble began.
    for place in places[:MOST_OPEN] + places[MOST_OPEN:][-1:]:
        step, clock = _step(log, place), clocks[place]
        record = past.machine_at(clock).plain_record()
        here = Left(clock, step, record, tuple(reversed(inner)))
        if past.edition is Edition.THIRD and here.in_user_mode:
            return here
        if found is None or privileged(found.step.pc):
            found = here
        inner.append(step)
    return found


def _left_by_frame(past: Past) -> Left | None:
    """The same from what an entry in User mode has pushed first on the supervisor stack, PSR and
    then PC, where the stack is still filled that far. What an entry was is told by the word: a
    TRAP pushes the address behind it, and an exception that of the instruction."""
    base = past.stack_base
    if base is None:
        return None
    machine = past.machine_at(past.clock)
    pc, psr = machine.words[base - 2 & 0xFFFF], machine.words[base - 1 & 0xFFFF]
    filled = 2 <= base - machine.record.regs[6] & 0xFFFF < 0x8000
    if not filled or psr & ~PSR_BITS or not psr & PSR_USER:
        return None
    at, reason = pc - 1 & 0xFFFF, Reason.TRAP
    if machine.words[at] >> 12 != 15:
        at, reason = pc, _RAISED.get(machine.words[pc] >> 12, Reason.INSTRUCTION)
    record = machine.plain_record()
    record.pc, record.psr, record.regs[6] = at, psr, record.saved_usp
    step = LoggedStep(at, machine.words[at], reason)
    left = Left(past.clock, step, record, found=False)
    return None if reason is Reason.INSTRUCTION else left


def effect(word: int, reason: int, edition: Edition) -> int:
    """What a step does to the routines that are open. By the second edition's rules TRAP enters,
    JSR and JSRR call, and JMP R7 returns from either.

    >>> effect(0xF021, Reason.TRAP, Edition.THIRD) == ENTERS
    True
    """
    if reason != Reason.INSTRUCTION:
        return ENTERS
    opcode = word >> 12
    if opcode == 8:
        return RETURNS
    if edition is Edition.SECOND:
        if opcode == 12 and word >> 6 & 7 == 7:
            return RETURNS
        return {4: CALLS, 15: ENTERS}.get(opcode, NOTHING)
    return NOTHING


def open_places(log: array[int], edition: Edition) -> Iterator[int]:
    """The entries of a log from which nothing has returned, the last one first, each by its place
    among the steps.

    >>> trap, rti = (0x3000, 0xF021, Reason.TRAP), (0x0204, 0x8000, Reason.INSTRUCTION)
    >>> list(open_places(array("H", (*trap, *rti, *trap)), Edition.THIRD))
    [2]
    """
    returned = 0
    second = edition is Edition.SECOND
    for place in _places(log) if second else reversed(entry_places(log)):
        what = effect(log[LOG_WORDS * place + 1], log[LOG_WORDS * place + 2], edition)
        if what == RETURNS:
            returned += 1
        elif what and returned:
            returned -= 1
        elif what == ENTERS:
            yield place


def _user_places(past: Past, log: array[int], first: int) -> Iterator[int]:
    """The steps that were made in User mode, the last one first. An RTI leads back to the mode in
    which its entry was made; the mode of an open entry is looked up."""
    user = _in_user_mode(past, past.clock)
    returned_to: list[bool] = []
    for block in _blocks(log):
        if not user and not entry_places(log[LOG_WORDS * block.start : LOG_WORDS * block.stop]):
            continue
        for place in reversed(block):
            what = effect(log[LOG_WORDS * place + 1], log[LOG_WORDS * place + 2], Edition.THIRD)
            if what == RETURNS:
                returned_to.append(user)
                user = False
            elif what == ENTERS:
                open_ = not returned_to
                user = _in_user_mode(past, first + place) if open_ else returned_to.pop()
            if user:
                yield place


def _outer_places(log: array[int]) -> Iterator[int]:
    """The steps outside of all entries that are returned from, the last one first."""
    returned = 0
    for place in _places(log):
        what = effect(log[LOG_WORDS * place + 1], log[LOG_WORDS * place + 2], Edition.THIRD)
        returned += what == RETURNS
        returned -= what == ENTERS and returned > 0
        if not returned and what != RETURNS:
            yield place


def _places(log: array[int]) -> Iterator[int]:
    """The steps of a log, the last one first."""
    return reversed(range(len(log) // LOG_WORDS))


def _blocks(log: array[int]) -> Iterator[range]:
    """The steps of a log in blocks, the last one first."""
    end = len(log) // LOG_WORDS
    while end > 0:
        yield range(max(end - BLOCK, 0), end)
        end -= BLOCK


class OwnSteps:
    """Tells the program's steps from the monitor's while they are made, from the first one on."""

    def __init__(self, edition: Edition) -> None:
        """The program has not begun."""
        self._edition = edition
        self._in_user_mode, self._entered = False, 0

    def own(self, step: TracedStep) -> bool:
        """Whether the next step is the program's."""
        if self._edition is Edition.SECOND:
            return not privileged(step.pc)
        if step.mode is Mode.USER:
            self._in_user_mode = True
        if self._in_user_mode:
            return step.mode is Mode.USER
        what = effect(step.word or 0, step.reason, self._edition)
        outside = not self._entered
        self._entered += (what == ENTERS) - (what == RETURNS and not outside)
        return outside
