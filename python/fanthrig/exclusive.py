"""One call at a time: what is in use raises, and a call that has begun is finished."""

from __future__ import annotations

from functools import wraps
from threading import Lock, get_ident, main_thread
from typing import Any, Callable, TypeVar, cast

from .interrupts import DeferredSigint

Method = TypeVar("Method", bound=Callable[..., Any])


IN_USE = (
    "the sitting is in use: another thread, or this one in the middle of a call, has not finished "
    "with it; a sitting is for one call at a time"
)


class InUseError(RuntimeError):
    """A sitting that is used while another call of it is made: by another thread, or by a handler
    of a signal in the middle of a run. Nothing was altered."""

    def __init__(self, text: str = IN_USE) -> None:
        """The same words for every case: whose call it is that goes on is not known."""
        super().__init__(text)


class Exclusive:
    """The exclusive use of a sitting, for as long as a call lasts.

    Whoever comes while it is in use does not wait but gets an ``InUseError``. In the main thread
    the handlers of signals are held back meanwhile: the call is finished first.

    >>> use = Exclusive()
    >>> with use:
    ...     with use:
    ...         pass
    Traceback (most recent call last):
    fanthrig.exclusive.InUseError: the sitting is in use: another thread, or this one in the \
middle of a call, has not finished with it; a sitting is for one call at a time
    """

    def __init__(self) -> None:
        """Nobody uses it."""
        self._lock, self._held = Lock(), DeferredSigint()
        self._holds = False

    def __enter__(self) -> Exclusive:
        """Begins the use."""
        holds = get_ident() == main_thread().ident
        if holds:
            # In the middle of a call of this very thread nothing that it holds is touched.
            if self._holds:
                raise InUseError
            # The lock is taken with all handlers held: no exception can leave it locked.
            self._held.hold()
        if not self._lock.acquire(False):
            if holds:
                self._held.release()
            raise InUseError
        self._holds = holds
        return self

    def __exit__(self, *_: object) -> None:
        """Ends the use, and then calls the handlers that were held back."""
        holds, self._holds = self._holds, False
        self._lock.release()
        if holds:
            self._held.release()

    @property
    def caught(self) -> list[int]:
        """The signals that were caught and not handed on."""
        return self._held.caught if self._holds else []

    def hand_on(self) -> None:
        """Calls the handlers of what was caught, in the middle of a long call."""
        self._held.hand_on()


def exclusive(method: Method) -> Method:
    """A method that has the exclusive use of its object, by its ``_use``."""

    @wraps(method)
    def used(self: Any, *arguments: Any, **named: Any) -> Any:
        """The method, in exclusive use."""
        with self._use:
            return method(self, *arguments, **named)

    return cast(Method, used)
