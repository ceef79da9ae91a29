"""Calls and returns: over a call, out of a routine, and the same backwards.

JSR and JSRR call, RET returns. A trap, an exception and an interrupt are entries, and RTI returns
from them; by the second edition's rules TRAP is a call, from which RET returns. A routine that ends
otherwise, as by a JMP to an address that it has kept elsewhere, is told of by where it comes to:
``over`` waits until PC is behind the call, as often as the call itself was made meanwhile.
"""

from __future__ import annotations

from .constants import LOG_WORDS
from .events import Event, HighBytes, Logged, first_at
from .own import CALLS, ENTERS, NOTHING, RETURNS
from .past import Past
from .pieces import pieces
from .records import Edition, Reason
from .log import LoggedStep, logged_steps

# The opcodes of JSR, RTI, JMP and TRAP.
_JSR, _RTI, _JMP, _TRAP = 4, 8, 12, 15

_MAY_TURN = HighBytes((_JSR, _RTI, _JMP, _TRAP))


def turn(word: int, reason: int, edition: Edition) -> int:
    """What a step does to the routines that are open: ``CALLS``, ``ENTERS``, ``RETURNS`` or
    ``NOTHING``.

    >>> turn(0xC1C0, Reason.INSTRUCTION, Edition.THIRD) == RETURNS
    True
    """
    if reason != Reason.INSTRUCTION:
        return ENTERS
    opcode = word >> 12
    if opcode == _RTI or (opcode == _JMP and word >> 6 & 7 == 7):
        return RETURNS
    if opcode == _JSR or (opcode == _TRAP and edition is Edition.SECOND):
        return CALLS
    return NOTHING


def turns(logged: Logged, edition: Edition) -> list[tuple[int, int]]:
    """The steps of a log that call, enter or return, each with what it does."""
    places = sorted({*logged.fetched(_MAY_TURN), *logged.entries()})
    told = ((place, turn(*logged.step(place)[1:], edition)) for place in places)
    return [(place, what) for place, what in told if what != NOTHING]


class Leaves(Event):
    """The routine is left in which the machine stood when the run began: by a return that belongs
    to no call and no entry made since. It is for one run."""

    sure = True

    def __init__(self) -> None:
        """Nothing is open."""
        self._open = 0

    def __str__(self) -> str:
        """In words."""
        return "the routine has returned"

    def places(self, logged: Logged, edition: Edition) -> list[int]:
        """The step that leaves it, where there is one."""
        for place, what in turns(logged, edition):
            self._open += -1 if what == RETURNS else 1
            if self._open < 0:
                return [place]
        return []


class Over(Event):
    """So many steps are made, each call and each entry with all that it does as one. It is for one
    run, which begins after the first of these steps, and which it stops before the next one."""

    after, sure = False, True

    def __init__(self, first: LoggedStep, edition: Edition, count: int = 1) -> None:
        """The first step of so many, which was just made."""
        self._left = count
        # What the routine that is open was begun by, at which address, and how often since.
        self._kind, self._call, self._open = NOTHING, 0, 0
        word = first.word or 0
        self._take(first.pc, word, turn(word, first.reason, edition))

    def __str__(self) -> str:
        """In words."""
        return "the steps are made"

    @property
    def made(self) -> bool:
        """Whether all of them are made."""
        return not self._left and self._kind == NOTHING

    def places(self, logged: Logged, edition: Edition) -> list[int]:
        """The step before which all are made, where there is one."""
        place = 0
        for at, what in [*turns(logged, edition), (len(logged), NOTHING)]:
            if self._kind == CALLS:
                place = self._behind(logged, place)
            if self._kind == NOTHING and place <= at:
                plain = min(at - place, self._left)
                self._left, place = self._left - plain, place + plain
                if not self._left:
                    break
            if place <= at < len(logged):
                self._take(*logged.step(at)[:2], what)
                place = at + 1
        return [place] if self.made and place < len(logged) else []

    def _take(self, pc: int, word: int, what: int) -> None:
        """Takes a step that calls, enters or returns. It is one of those to make, unless it is in
        the middle of one that an entry has begun."""
        if self._kind == ENTERS:
            if what == ENTERS or word >> 12 == _RTI:
                self._open += 1 if what == ENTERS else -1
            self._kind = ENTERS if self._open else NOTHING
            return
        self._left -= 1
        if what in (CALLS, ENTERS):
            self._kind, self._call, self._open = what, pc, 1

    def _behind(self, logged: Logged, place: int) -> int:
        """Where PC is behind the call that is open, as often as it was made, from a place on; the
        end of the log where it is not."""
        behind = self._call + 1 & 0xFFFF
        while True:
            ends, again = (first_at(logged.counters, pc, place) for pc in (behind, self._call))
            if ends < 0 and again < 0:
                return len(logged)
            is_call = ends < 0 or 0 <= again < ends
            self._open += 1 if is_call else -1
            if not self._open:
                self._kind = NOTHING
                return ends
            place = (again if is_call else ends) + 1


def call_of(past: Past) -> int | None:
    """The number of the step that called or entered the routine in which the machine stands: the
    last one that nothing has returned from."""
    returned = 0
    for near, first in pieces(past, past.start):
        logged = Logged(near.log(first), first, near.times)
        for place, what in reversed(turns(logged, past.edition)):
            returned += 1 if what == RETURNS else -1
            if returned < 0:
                return first + place
    return None


def before_last(past: Past) -> int:
    """The number of the last step; but where it has returned from a routine, that of the step which
    called or entered it."""
    last = past.clock - 1
    step = logged_steps(past.log(last))[0]
    if turn(step.word or 0, step.reason, past.edition) != RETURNS:
        return last
    if step.word is not None and step.word >> 12 == _RTI:
        found = _entry_of(past)
    else:
        found = _call_before(past, past.machine_at(past.clock).record.pc)
    return last if found is None else found


def _entry_of(past: Past) -> int | None:
    """The entry that the last step, an RTI, has returned from."""
    returned = 0
    for near, first in pieces(past, past.start):
        logged = Logged(near.log(first), first, near.times)
        for place, what in reversed(turns(logged, past.edition)):
            if what == ENTERS:
                returned -= 1
            elif logged.step(place)[1] >> 12 == _RTI:
                returned += 1
            if not returned:
                return first + place
    return None


def _call_before(past: Past, behind: int) -> int | None:
    """The call from which the last step has returned to the address behind it; nothing where no
    call stands before that address."""
    call, returned = behind - 1 & 0xFFFF, 1
    word = past.machine_at(past.clock).words[call]
    if turn(word, Reason.INSTRUCTION, past.edition) != CALLS:
        return None
    for near, first in pieces(past, past.start):
        log = near.log(first)
        counters = log[::LOG_WORDS]
        logged = Logged(log, first, near.times)
        for place in sorted({*logged.at(call), *logged.at(behind)}, reverse=True):
            returned += 1 if counters[place] == behind else -1
            if not returned:
                return first + place
    return None
