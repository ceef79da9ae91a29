"""Breakpoints and watches, by their numbers."""

from __future__ import annotations

from ...conditions import Condition, ConditionError, Value, address_of
from ...events import At, Changed, Event, Holds, Written
from ...sitting import Sitting
from .names import Names, unbracketed


class Stops:
    """What stops a run, in the order in which it was set."""

    def __init__(self, names: Names) -> None:
        """None is set."""
        self._names = names
        self._events: dict[int, Event] = {}
        self._number = 0
        self._seen: dict[int, int] = {}

    @property
    def events(self) -> list[Event]:
        """The events of all."""
        return list(self._events.values())

    @property
    def addresses(self) -> list[int]:
        """The addresses of breakpoints."""
        return [event.address for event in self.events if isinstance(event, At)]

    def _add(self, event: Event) -> str:
        """Adds one, and tells it."""
        self._number += 1
        self._events[self._number] = event
        return self.told(self._number)

    def breakpoint(self, text: str) -> str:
        """Sets a breakpoint: ``ADDRESS``, ``ADDRESS if CONDITION`` or ``if CONDITION``."""
        where, condition = text.strip(), None
        words = where.split()
        if "if" in words:
            before, _, after = f" {where} ".partition(" if ")
            where, condition = before.strip(), Condition.of(after, self._names.labels)
        if not where and condition is not None:
            return self._add(Holds(condition))
        return self._add(At(address_of(where, self._names.labels), condition))

    def watch(self, text: str) -> str:
        """Sets a watch of a register, or of a word by its address or label."""
        text = unbracketed(text)
        value = Value.of(text, self._names.labels)
        if value.is_word:
            raise ConditionError(f"{text!r} is no register and no address")
        return self._add(Changed(value.register) if value.register else Written(value.number))

    def delete(self, text: str) -> str:
        """Deletes those of some numbers, or all."""
        named = self._events if text in ("", "all") else map(_number, text.split())
        # One that is named twice is deleted once.
        numbers = list(dict.fromkeys(named))
        unknown = [number for number in numbers if number not in self._events]
        if unknown:
            raise ConditionError(f"there is no breakpoint or watch {unknown[0]}")
        for number in numbers:
            del self._events[number]
        return "deleted: " + (", ".join(map(str, numbers)) or "none")

    def told(self, number: int) -> str:
        """One in words."""
        event = self._events[number]
        kind = "watch" if isinstance(event, (Written, Changed)) else "breakpoint"
        label = self._names.of(event.address) if isinstance(event, (At, Written)) else ""
        return f"{kind} {number}: {f'{label} {event}'.strip()}"

    def all_told(self) -> str:
        """All of them, one a line."""
        told = "\n".join(self.told(number) for number in self._events)
        return told or "no breakpoints and no watches"

    def name_of(self, event: Event | None) -> str:
        """The one whose event has happened, in words; nothing where it is none of them."""
        found = [number for number, one in self._events.items() if one is event]
        return self.told(found[0]) if found else ""

    def look(self, sitting: Sitting) -> None:
        """Keeps the values of what is watched, for the next ``changes``."""
        self._seen = {number: _value(sitting, one) for number, one in self._events.items()}

    def change(self, sitting: Sitting, event: Event | None) -> str:
        """The old and the new value of what was watched and has happened."""
        found = [number for number, one in self._events.items() if one is event]
        if not found or not isinstance(event, (Written, Changed)):
            return ""
        return f": x{self._seen.get(found[0], 0):04X} -> x{_value(sitting, event):04X}"


def _value(sitting: Sitting, event: Event) -> int:
    """What is watched, as it stands."""
    if isinstance(event, Changed):
        return sitting[event.register]
    return sitting.memory[event.address] if isinstance(event, Written) else 0


def _number(text: str) -> int:
    """The number of a breakpoint or a watch."""
    if not (text.isascii() and text.isdigit()):
        raise ConditionError(f"{text!r} is no number of a breakpoint or a watch")
    return int(text)
