"""A sitting that is run until something ends it: what run, log and mark have in common."""

from __future__ import annotations

import signal
import sys
from dataclasses import replace
from typing import Callable, NamedTuple, Protocol

from .constants import MAX_STEPS, VECTOR_WORDS
from .ending import EndKind, Ending
from .records import Stop
from .sitting import Sitting

WAITS = "the program waits for a key, and no more keys come"
LOOPS = "the program goes round in a loop that not even a key can end"
NOBODY_READS = "nobody reads the display any more"
MANY_KEYS = "stopped: a sitting with more keys is too long to be saved"

# The signals that end a process: Ctrl-C, the wish of another process, a closed window, and Ctrl-\.
NOTICED = (signal.SIGINT, signal.SIGTERM, signal.SIGHUP, signal.SIGQUIT)


class Stopper(Protocol):
    """Who may end a run from outside: ``caught`` is not 0 where the run is to end, and ``name``
    says by whom."""

    @property
    def caught(self) -> int:
        """A number that is not 0, as that of a signal, where the run is to end."""

    @property
    def name(self) -> str:
        """Who has ended it."""


class Unstopped:
    """Nobody ends a run."""

    caught, name = 0, ""


class Keyboard:
    """The keys that are given before the first step; no others come. Of another keyboard, more keys
    are asked for where fewer than ``ahead`` are typed and not taken."""

    ahead = 1
    # The most keys that are typed.
    most = sys.maxsize

    def __init__(self, first: bytes = b"") -> None:
        """The keys."""
        self.first = first

    def __enter__(self) -> Keyboard:
        """Nothing is to be set up."""
        return self

    def __exit__(self, *_: object) -> None:
        """Nothing is to be set back."""

    def poll(self) -> bytes:
        """The keys that have been pressed."""
        return b""

    def wait(self) -> bytes:
        """Waits for keys; nothing where no more come, or where a signal has come instead."""
        return b""


class Pace(NamedTuple):
    """How often a run is looked at, in steps.

    ``first`` are the steps until it is asked whether the program does nothing but wait for a key.
    Each time that it does not, there are ``growth`` times as many to the next time, up to
    ``longest``: to ask costs as much as some hundred thousand steps. Keys and display are seen to
    every ``chunk`` steps at the latest.
    """

    first: int
    growth: int
    longest: int
    chunk: int


RUNNING = Pace(1 << 8, 16, 1 << 24, MAX_STEPS)
TRACING = Pace(1 << 6, 4, 1 << 14, 1 << 10)
# Nobody waits for what a candidate shows.
MARKING = Pace(1 << 16, 16, 1 << 24, MAX_STEPS)


Advance = Callable[[int], Stop]


def sit(
    sitting: Sitting,
    keyboard: Keyboard,
    stopper: Stopper,
    end: int,
    advance: Advance,
    pace: Pace = RUNNING,
    patient: bool = False,
) -> Ending:
    """Runs to a clock unless something ends it before. ``advance`` makes so many steps.

    A program that waits for a key costs nothing: the process waits for keys as well. Where no more
    come, that is the end; so is a loop that no key can end, and a trap or an exception that leads
    to no routine. But who is ``patient`` has all steps made.
    """
    apart, keys = pace.first, keyboard.first
    look = sitting.clock + apart
    while True:
        keys = keys or (keyboard.poll() if len(sitting.typed) < keyboard.ahead else b"")
        if keyboard.most < len(keys):
            return replace(sitting.ending, kind=EndKind.INTERRUPTED, text=MANY_KEYS)
        if keys:
            keyboard.most -= len(keys)
            # Only then: even to type nothing is to depart from a replay.
            sitting.type(keys)
            apart, keys = pace.first, b""
            look = sitting.clock + apart
        goal = min(end, look, sitting.clock + pace.chunk)
        ending = _ended(sitting, stopper, advance(goal - sitting.clock), end)
        if ending is not None:
            return ending
        if sitting.clock < look:
            continue
        apart = min(apart * pace.growth, pace.longest)
        look, stuck = sitting.clock + apart, _stuck(sitting)
        if stuck is not None and stuck.kind is EndKind.WAITING:
            keys = keyboard.wait()
            ending = None if keys else _ended(sitting, stopper, Stop.DONE, end)
        if ending is None and stuck is not None and not (keys or patient):
            ending = stuck
        if ending is not None:
            return ending


def _stuck(sitting: Sitting) -> Ending | None:
    """Why a program will never end, where that is plain."""
    idle = sitting.idle()
    if idle is not None:
        text = WAITS if idle is EndKind.WAITING else LOOPS
        return replace(sitting.ending, kind=idle, text=text)
    # Only by a vector word of x0000 can a program be left that runs on.
    ending = sitting.ending if 0 in sitting.memory[:VECTOR_WORDS] else None
    return ending if ending is not None and ending.kind.crash else None


def _ended(sitting: Sitting, stopper: Stopper, stop: Stop, end: int) -> Ending | None:
    """How a run ended after some steps, if it did."""
    if stopper.caught:
        return replace(
            sitting.ending, kind=EndKind.INTERRUPTED, text=f"stopped by {stopper.name}"
        )
    if stop is Stop.INTERRUPTED and not sitting.halted:
        return replace(sitting.ending, kind=EndKind.INTERRUPTED, text=NOBODY_READS)
    if sitting.halted or stop is not Stop.DONE or sitting.clock >= end:
        return sitting.ending
    return None
