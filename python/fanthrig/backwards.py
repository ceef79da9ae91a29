"""What led to where a sitting stands: the step that wrote a word last, or changed a register."""

from __future__ import annotations

from typing import NamedTuple

from .conditions import registers_of
from .events import Changed, Event, Written
from .finding import last_event
from .past import Past
from .recording import RegisterAlteration, WordsAlteration
from .records import as_word
from .steps import TracedStep


class Moment(NamedTuple):
    """When something was done: ``clock`` is the number of the step that did it, and ``step`` what
    the step did; nothing where it was done from outside, before the step of that number."""

    clock: int
    step: TracedStep | None

    def __str__(self) -> str:
        """The step as a line of a log.

        >>> print(Moment(7, None))
             7  altered from outside
        """
        return f"{self.clock:>6}  altered from outside" if self.step is None else str(self.step)


def last_write(past: Past, address: int) -> Moment | None:
    """The last store or push to a word, be its value another then or the same; nothing where there
    was none since the start."""
    address = as_word(address, "an address")
    altered = [
        change.clock
        for change in past.alterations[: past.made]
        if isinstance(change, WordsAlteration)
        and change.address <= address < change.address + len(change.words)
    ]
    return _last(past, altered, Written(address))


def last_change(past: Past, register: str) -> Moment | None:
    """The last step after which a register had another value than before; nothing where it has the
    value of the start."""
    name = registers_of(register)
    altered = [
        change.clock
        for change in past.alterations[: past.made]
        if isinstance(change, RegisterAlteration) and change.register == name
    ]
    return _last(past, altered, Changed(name))


def _last(past: Past, altered: list[int], event: Event) -> Moment | None:
    """The last of an event and of what was altered at some clocks."""
    found = last_event(past, altered[-1] if altered else past.start, [event])
    if found is not None:
        step = past.machine_at(found.clock).step_traced()
        return Moment(found.clock, step if isinstance(step, TracedStep) else None)
    return Moment(altered[-1], None) if altered else None
