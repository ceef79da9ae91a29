"""The past of a sitting: enough to make its last steps once more, on a machine of their own."""

from __future__ import annotations

from array import array
from typing import Iterator, NamedTuple, Sequence

from ._library import RecordStruct
from .constants import MAX_STEPS, PSR_USER
from .machine import LOGGED_AT_ONCE, Machine, Snapshot
from .recording import Alteration, RecordingError
from .records import Edition, Stop


class Mark(NamedTuple):
    """A snapshot, and how many alterations were made before it."""

    snapshot: Snapshot
    made: int

    @property
    def in_user_mode(self) -> bool:
        """Whether the machine was in User mode."""
        return bool(RecordStruct.from_buffer_copy(self.snapshot.record).psr & PSR_USER)

    @property
    def saved_ssp(self) -> int:
        """The pointer of the supervisor's stack while the machine is in User mode."""
        return int(RecordStruct.from_buffer_copy(self.snapshot.record).saved_ssp)


class Past(NamedTuple):
    """What led to a clock: snapshots, the first of them at the start; keys; and the alterations
    made from outside.

    The lists are the sitting's own. It only adds behind what has happened, so a past stays what it
    is while the sitting goes on.
    """

    edition: Edition
    marks: tuple[Mark, ...]
    alterations: Sequence[Alteration]
    made: int
    times: array[int]
    keys: array[int]
    clock: int
    # The supervisor stack's pointer while the program runs in User mode, where it has done so.
    stack_base: int | None
    # PC before the first step.
    first_pc: int

    @property
    def start(self) -> int:
        """The clock of the first step."""
        return self.marks[0].snapshot.clock

    def machine_at(self, clock: int) -> Machine:
        """A machine of its own that stands at a clock, before the step of that number."""
        return Walk(self, clock).machine

    def nearer(self, clock: int) -> Past:
        """The same past with a snapshot at a clock, for whoever asks for several steps after it."""
        return self._replace(marks=(self.marks[0], Walk(self, clock).mark()))

    def until(self, clock: int) -> Past:
        """The past that led to an earlier clock, before anything was altered there."""
        made = self.made
        while made and self.alterations[made - 1].clock >= clock:
            made -= 1
        marks = tuple(mark for mark in self.marks if mark.snapshot.clock < clock)
        return self._replace(marks=marks, made=made, clock=clock)

    def log(self, first: int) -> array[int]:
        """The words of the log of the steps from a clock on, three for each step."""
        log: array[int] = array("H")
        for _, part in self.logs(first):
            log += part
        return log

    def logs(self, first: int) -> Iterator[tuple[Machine, array[int]]]:
        """The same in parts of at most ``LOGGED_AT_ONCE`` steps, each with the machine as it stands
        after them."""
        walk = Walk(self, first)
        machine = walk.machine
        for place in range(walk.made, self.made + 1):
            alteration = self.alterations[place] if place < self.made else None
            goal = self.clock if alteration is None else alteration.clock
            while machine.record.clock < goal:
                n = min(goal - machine.record.clock, LOGGED_AT_ONCE)
                yield machine, _whole(*machine.advance_logged(n))
            if alteration is not None:
                alteration.make(machine)


class Walk:
    """A machine of its own that goes through a past, from a clock on to later ones. ``made`` are
    the alterations made by then."""

    def __init__(self, past: Past, clock: int) -> None:
        """Begins at a clock, with all that was altered there."""
        snapshot, self.made = [mark for mark in past.marks if mark.snapshot.clock <= clock][-1]
        self._past, self._most = past, past.made
        self.machine = Machine(past.edition)
        self.machine.times, self.machine.keys = past.times[:], past.keys[:]
        self.machine.clear_display(snapshot.shown)
        self.machine.restore(snapshot)
        self.to(clock)

    def to(self, clock: int) -> Machine:
        """Goes on to a clock, with all that was altered there."""
        past, machine = self._past, self.machine
        while self.made < self._most and past.alterations[self.made].clock <= clock:
            _run_to(machine, past.alterations[self.made].clock)
            past.alterations[self.made].make(machine)
            self.made += 1
        _run_to(machine, clock)
        return machine

    def step(self) -> Machine:
        """Makes one step; what was altered after it is not yet."""
        _whole(self.machine.advance(1))
        return self.machine

    def mark(self) -> Mark:
        """A snapshot of where the machine stands."""
        return Mark(self.machine.snapshot(), self.made)


def _run_to(machine: Machine, clock: int) -> None:
    """Runs a machine to a clock."""
    while machine.record.clock < clock:
        _whole(machine.advance(min(clock - machine.record.clock, MAX_STEPS)))


def _whole(stop: Stop, log: array[int] = array("H")) -> array[int]:
    """The log of steps that were all made: what was run once runs again."""
    if stop is not Stop.DONE:
        raise RecordingError("the machine stops before the end of what is followed")
    return log
