"""The first event of steps that are about to be made, and the last one of a past."""

from __future__ import annotations

from typing import Iterable, NamedTuple, Sequence

from .constants import LOG_WORDS
from .events import Event, Logged
from .machine import LOGGED_AT_ONCE, Machine
from .past import Past, Walk
from .pieces import Piece, pieces
from .records import Edition, Stop

# The steps of a piece that are looked at together, from the last ones back.
BLOCK = 512


class Found(NamedTuple):
    """An event and the number of the step at which it happened."""

    clock: int
    event: Event


class _Candidates:
    """The steps of a log at which events may happen."""

    def __init__(
        self, logged: Logged, events: Sequence[Event], edition: Edition, begins: bool = False
    ) -> None:
        """Looks through the log. Where a run ``begins`` with it, nothing is to stop it before its
        first step."""
        self._reasons = logged.log[2::LOG_WORDS]
        self._events: dict[int, list[Event]] = {}
        self.sure: dict[int, Event] = {}
        for event in events:
            places: Iterable[int] = event.places(logged, edition)
            if begins and not event.after:
                places = (place for place in places if place)
            if event.sure:
                self.sure = {**dict.fromkeys(places, event), **self.sure}
                continue
            for place in places:
                self._events.setdefault(place, []).append(event)

    def doubtful(self, first: int, end: int) -> list[int]:
        """The steps from a place to another that are to be looked at, in order."""
        return sorted(place for place in self._events if first <= place < end)

    def happens(self, place: int, machine: Machine) -> Event | None:
        """The event that happens at such a step. The machine stands before it, and may then stand
        after it."""
        events, reason = self._events[place], self._reasons[place]
        if len(events) == 1 and not events[0].by_step:
            # So it is nearly always, and there may be millions.
            return events[0] if events[0].before(machine, reason) else None
        seen = [(event, event.before(machine, reason)) for event in events]
        if any(event.by_step for event in events):
            machine.advance(1)
        return next((event for event, value in seen if event.happened(machine, value)), None)


def advance_until(
    machine: Machine, n: int, events: Sequence[Event], begins: bool
) -> tuple[Stop, Event | None]:
    """Makes up to n steps, but stops before or after the one at which an event happens. Where a run
    ``begins`` so, nothing stops it before its first step."""
    before = machine.snapshot()
    stop, log = machine.advance_logged(min(n, LOGGED_AT_ONCE))
    logged = Logged(log, before.clock, machine.times)
    candidates = _Candidates(logged, events, machine.edition, begins)
    after = machine.snapshot()
    machine.restore(before)
    found = _first(machine, before.clock, len(logged), candidates)
    machine.restore(after if found is None else before)
    if found is None:
        return stop, None
    machine.advance(found.clock - before.clock + found.event.after)
    return Stop.EVENT if found.event.after else Stop.BREAKPOINT, found.event


def _first(machine: Machine, clock: int, count: int, candidates: _Candidates) -> Found | None:
    """The first event of so many steps from a clock on, where the machine stands."""
    end = min(candidates.sure, default=count)
    # Of two at one step the one comes first that stops before it.
    sure = candidates.sure.get(end)
    for place in candidates.doubtful(0, end if sure is None else end + sure.after):
        machine.advance(clock + place - machine.record.clock)
        event = candidates.happens(place, machine)
        if event is not None:
            return Found(clock + place, event)
    return None if sure is None else Found(clock + end, sure)


def last_event(past: Past, first: int, events: Sequence[Event]) -> Found | None:
    """The last event of a past from a clock on."""
    found = (_last(piece, events) for piece in pieces(past, first))
    return next((last for last in found if last is not None), None)


def _last(piece: Piece, events: Sequence[Event]) -> Found | None:
    """The last event of a piece."""
    past, first = piece
    logged = Logged(past.log(first), first, past.times)
    candidates = _Candidates(logged, events, past.edition)
    sure = max(candidates.sure, default=-1)
    places = candidates.doubtful(sure + 1, len(logged))
    for end in range(len(places), 0, -BLOCK):
        found = _last_of(piece, candidates, places[max(end - BLOCK, 0) : end])
        if found is not None:
            return found
    return Found(first + sure, candidates.sure[sure]) if sure >= 0 else None


def _last_of(piece: Piece, candidates: _Candidates, places: Sequence[int]) -> Found | None:
    """The last event at some steps of a piece."""
    walk, found = Walk(*piece), None
    for place in places:
        event = candidates.happens(place, walk.to(piece.first + place))
        if event is not None:
            found = Found(piece.first + place, event)
    return found
