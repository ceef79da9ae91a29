"""The commands of the debugger that go on and back."""

from __future__ import annotations

from typing import Sequence

from ...conditions import address_of, registers_of
from ...constants import MAX_CLOCK
from ...ending import EndKind, Ending
from ...events import Event
from ...routines import Leaves, Over
from ...sitting import Sitting
from ..log import row
from ..messages import end_line
from ..terminal import Display, Signals
from .console import Console
from .names import Names, unbracketed
from .stops import Stops

HALTED = "the machine is halted; go back, or set MCR"
HOW_TO_TYPE = "type gives it keys, as in type a or type 12\\n, and run goes on"
AT_START = "at the start: there is nothing before it"


class Wrong(Exception):
    """A command that can't be obeyed, and why."""


def count_of(text: str, least: int = 0) -> int:
    """A number of steps or lines."""
    digits = text.replace("_", "")
    if not (digits.isascii() and digits.isdigit() and len(digits) <= 18):
        raise Wrong(f"{text!r} is no number")
    if not least <= int(digits) <= MAX_CLOCK:
        raise Wrong(f"{text} is none of {least} to {MAX_CLOCK}")
    return int(digits)


class Motion:
    """Goes on and back, and tells where it has come to."""

    def __init__(self, sitting: Sitting, names: Names, stops: Stops, console: Console) -> None:
        """A sitting, what stops it, and the program's keyboard and display."""
        self.sitting, self.names, self.stops, self.console = sitting, names, stops, console
        self._begun = sitting.clock

    def here(self) -> str:
        """The step and the instruction that is obeyed next."""
        sitting = self.sitting
        text = f"step {sitting.clock}: {self.names.of(sitting['PC'])} {sitting.here()}"
        return text.replace(":  ", ": ")

    def step(self, text: str) -> str:
        """Makes one step or several, and tells what the last one did. What stops a run stops
        several: a breakpoint before each of them but the first."""
        steps = count_of(text, 1) if text else 1
        if steps > 1:
            ending = self._run(steps, self.stops.events)
            if self._stopped(steps):
                return self._told(ending)
            last = self.sitting.last_step()
        else:
            last = next(iter(self.sitting.trace_at_once(1)), None)
            self._show()
        if last is None:
            return HALTED if self.sitting.halted else self.sitting.ending.text
        return f"{row(last, self.names.labels)}\n{self.here()}"

    def over(self, text: str) -> str:
        """Makes one step or several, and takes calls and entries as one. What stops a run stops it
        as well, as does a wait for a key that does not come."""
        count = count_of(text, 1) if text else 1
        # It takes no keys from the terminal, where the next commands may be typed already.
        self._look()
        ending = self.sitting.run(1, until=self.stops.events).ending
        self._show()
        if self._stopped(1):
            return self._told(ending)
        over = Over(self.sitting.last_steps(1)[0], self.sitting.edition, count)
        if not over.made:
            ending = self._run(None, [over, *self.stops.events], here=True)
            if self.sitting.event is not over:
                return self._told(ending)
        return self.here()

    def out(self, text: str) -> str:
        """Runs until the routine has returned."""
        if text:
            raise Wrong("out takes nothing more")
        leaves = Leaves()
        ending = self._run(None, [leaves, *self.stops.events])
        return self.here() if self.sitting.event is leaves else self._told(ending)

    def run(self, text: str) -> str:
        """Runs until something stops the program, or so many steps."""
        steps = count_of(text) if text else None
        return self._told(self._run(steps, self.stops.events))

    def goto(self, text: str) -> str:
        """Goes to before the step of a number, forwards or backwards."""
        clock = count_of(text)
        if clock > self.sitting.clock:
            steps = clock - self.sitting.clock
            ending = self._run(steps, ())
            return self._told(ending) if self._stopped(steps) else self.here()
        self.sitting.back_to(clock)
        return self.here()

    def back(self, text: str) -> str:
        """Goes back, in one of several ways."""
        way, _, rest = text.partition(" ")
        ways = {"over": self._over, "out": self._out, "run": self._back_run, "to": self.goto}
        if way in ("write", "change"):
            return self._back_to_last(way, rest.strip())
        if way in ways:
            return ways[way](rest.strip())
        if text and not text.replace("_", "").isdigit():
            raise Wrong(f"{text!r} is no way back: help back tells the ways")
        gone = self.sitting.back(count_of(text, 1) if text else 1)
        return self.here() if gone else AT_START

    def _over(self, text: str) -> str:
        """Back over a call."""
        for _ in range(count_of(text, 1) if text else 1):
            if not self.sitting.back_over():
                return AT_START
        return self.here()

    def _out(self, text: str) -> str:
        """Back to before the call of the routine."""
        if text:
            raise Wrong("back out takes nothing more")
        return self.here() if self.sitting.back_out() else "in no routine: nothing has called it"

    def _back_run(self, text: str) -> str:
        """Back to the last breakpoint or watch, or else to the start."""
        if text:
            raise Wrong("back run takes nothing more")
        found = self.sitting.run_back_to(*self.stops.events) if self.stops.events else None
        if found is None:
            self.sitting.back(self.sitting.clock)
            return f"at the start: nothing before it stops a run\n{self.here()}"
        return f"{self.stops.name_of(found.event)}\n{self.here()}"

    def _back_to_last(self, way: str, text: str) -> str:
        """Back to the last write of a word, or the last change of a register."""
        sitting = self.sitting
        if way == "write":
            address = address_of(unbracketed(text), self.names.labels)
            moment, name = sitting.last_write(address), self.names.place(address)
        else:
            name = registers_of(text)
            moment = sitting.last_change(name)
        if moment is None:
            done = "written" if way == "write" else "changed"
            return f"{name} has not been {done} since the start"
        sitting.back_to(moment.clock)
        if moment.step is None:
            return f"{name} was altered from outside here\n{self.here()}"
        return f"{row(moment.step, self.names.labels)}\n{self.here()}"

    def _run(self, steps: int | None, until: Sequence[Event], here: bool = False) -> Ending:
        """Runs, and keeps what was watched before."""
        self._look()
        return self.console.run(self.sitting, steps, until, here)

    def _look(self) -> None:
        """Keeps what is watched as it stands before a run, and where that begins."""
        self.stops.look(self.sitting)
        self._begun = self.sitting.clock

    def _stopped(self, steps: int) -> bool:
        """Whether a run of so many steps was ended by something else."""
        return self.sitting.clock < self._begun + steps or self.sitting.event is not None

    def _told(self, ending: Ending) -> str:
        """How a run ended, and where it has come to."""
        event = self.sitting.event
        name = self.stops.name_of(event)
        if name:
            change = self.stops.change(self.sitting, event)
            return f"{name}{change}\n{self.here()}"
        if self.sitting.halted and self.sitting.clock == self._begun:
            return HALTED
        told = end_line(ending, self.sitting.clock, self.names.labels)
        return f"{told}\n{HOW_TO_TYPE}" if ending.kind is EndKind.WAITING else told

    def _show(self) -> None:
        """Shows what single steps have shown."""
        self.console.show(self.sitting, Display(Signals()))
