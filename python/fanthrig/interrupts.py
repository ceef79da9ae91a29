"""Handlers of signals, held back while a call is made, so that none ends it in the middle."""

from __future__ import annotations

import signal
from inspect import currentframe
from types import FrameType
from typing import Any, Callable

# The functions that ``signal`` itself calls. Its own make enums of what they answer, at a cost of
# several steps of a machine for each signal.
from _signal import getsignal, signal as set_handler  # type: ignore[import]

Handler = Callable[[int, "FrameType | None"], Any]

NUMBERS = tuple(sorted(int(number) for number in signal.valid_signals()))


class DeferredSigint:
    """Holds back the handlers in Python of all signals.

    A handler runs between any two instructions of Python's main thread, and may raise. A run
    alters memory, and its answer has the record that belongs to it: an exception between the two
    would leave a machine that never was. So signals are only caught between ``hold`` and
    ``release``, and their handlers are called after that. The system's own handlers, and signals
    that are ignored, stay as they are.

    Only the main thread may call this: no handler runs in another.

    To set a handler undoes what ``signal.siginterrupt`` has set for its signal, and Python tells
    nobody whether it has: a host that uses it calls it anew. Only C code of the host's own notices,
    for Python goes on by itself with what a signal has interrupted.

    >>> usual = signal.signal(signal.SIGUSR1, lambda number, frame: print("handled"))
    >>> held = DeferredSigint()
    >>> held.hold()
    >>> signal.raise_signal(signal.SIGUSR1)
    >>> held.caught == [signal.SIGUSR1]
    True
    >>> held.release()
    handled
    >>> _ = signal.signal(signal.SIGUSR1, usual)
    """

    def __init__(self) -> None:
        """Nothing is held yet."""
        self.caught: list[int] = []
        self._holds = False
        # One object for all calls, so that it is known again.
        self._catcher = self._catch
        self._usual: dict[int, Handler] = {}
        # What the handlers were found among: it is seldom another at the next call.
        self._seen: tuple[Any, ...] = ()

    def _catch(self, number: int, frame: FrameType | None) -> None:
        """Takes a signal in the place of its handler; while nothing is held that one is called."""
        if self._holds:
            self.caught.append(number)
        else:
            self._usual[number](number, frame)

    def hold(self) -> None:
        """Begins to hold. A signal that comes before takes its usual course."""
        seen = tuple(map(getsignal, NUMBERS))
        if seen != self._seen:
            self._find(seen)
        try:
            for number in self._usual:
                set_handler(number, self._catcher)
        except BaseException:
            self.release()
            raise
        self._holds = True

    def _find(self, seen: tuple[Any, ...]) -> None:
        """Finds the handlers in Python among those of all signals."""
        handlers = {number: usual for number, usual in zip(NUMBERS, seen) if callable(usual)}
        for number, usual in handlers.items():
            # It was not put back where an exception came in between.
            if usual is self._catcher:
                handlers[number] = self._usual[number]
        self._usual, self._seen = handlers, seen

    def release(self) -> None:
        """Ends holding, and calls the handlers of the signals that were caught."""
        self._holds = False
        try:
            self._put_back()
        except BaseException:
            # One that was back already has raised.
            self._put_back()
            raise
        finally:
            if self.caught:
                self.hand_on()

    def _put_back(self) -> None:
        """Puts the handlers back. Where one has set another in its place, that one stays."""
        for number, usual in self._usual.items():
            if getsignal(number) is self._catcher:
                set_handler(number, usual)

    def hand_on(self) -> None:
        """Calls the handlers of the signals that were caught, each once. Where signals are still
        held, those that come meanwhile are caught as before."""
        numbers = tuple(dict.fromkeys(self.caught))
        self.caught.clear()
        self._call(numbers)

    def _call(self, numbers: tuple[int, ...]) -> None:
        """Calls handlers, each of them also where another raises."""
        if numbers:
            try:
                self._usual[numbers[0]](numbers[0], currentframe())
            finally:
                self._call(numbers[1:])
