"""The entries of a past and the RTIs that return from them: they alone change the mode.

They are few, so a past can be looked through for them that is too long for its log to be held.
"""

from __future__ import annotations

import re
from array import array
from typing import NamedTuple

from .constants import LOG_WORDS
from .machine import Machine
from .past import Past

# The most steps that are made once more to find entries: half a second is enough for them.
FARTHEST = 1 << 23

# The steps of the longest loop that is noticed, so that it is not followed to its end.
LONGEST_LOOP = 64

# The high byte of an RTI, and the low byte of the reason of an entry.
_RTI = re.compile(rb"[\x80-\x8f]")
_ENTRY = re.compile(rb"[^\0]")


class Entries(NamedTuple):
    """Entries and RTIs: the numbers of these steps, and their log."""

    clocks: list[int]
    log: array[int]


def entry_places(log: array[int]) -> list[int]:
    """The entries and RTIs of a log by the third edition's rules, each by its place among the
    steps.

    >>> entry_places(array("H", (0x3000, 0x1021, 0, 0x3001, 0xF021, 1, 0x0204, 0x8000, 0)))
    [1, 2]
    """
    words, reasons = (log[part::LOG_WORDS].tobytes() for part in (1, 2))
    places = {found.start() for found in _RTI.finditer(words[1::2])}
    places.update(found.start() for found in _ENTRY.finditer(reasons[::2]))
    return sorted(places)


def entries_since(past: Past, first: int) -> Entries | None:
    """The same of a past from a clock on; nothing where that takes more than ``FARTHEST`` steps. A
    machine that does nothing but wait is not followed any further."""
    entries = Entries([], array("H"))
    for machine, log in past.logs(first):
        clock, places = machine.record.clock, entry_places(log)
        begun = clock - len(log) // LOG_WORDS
        for place in places:
            entries.clocks.append(begun + place)
            entries.log.extend(log[LOG_WORDS * place : LOG_WORDS * (place + 1)])
        if not places and _waits_to_the_end(past, machine):
            break
        if clock < past.clock and clock - first >= FARTHEST:
            return None
    return entries


def _waits_to_the_end(past: Past, machine: Machine) -> bool:
    """Whether a machine goes round in a few steps, without an entry or an RTI, and nothing
    comes from outside before the end of the past."""
    clock, arrived = machine.record.clock, machine.arrived
    if arrived < len(machine.times) and machine.times[arrived] < past.clock:
        return False
    if past.made and past.alterations[past.made - 1].clock >= clock:
        return False
    twin = Machine(machine.edition)
    twin.clear_display(machine.shown)
    twin.restore(machine.snapshot()._replace(arrived=0))
    return twin.goes_round(LONGEST_LOOP) and not entry_places(twin.advance_logged(LONGEST_LOOP)[1])
