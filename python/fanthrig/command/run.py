"""``lc3 run``: a program with the keyboard and display of this process."""

from __future__ import annotations

import argparse

from ..records import Stop
from ..running import sit
from .messages import Code
from .seat import finish, registers_of, seat_of
from .terminal import Display, Signals


def command(options: argparse.Namespace) -> Code:
    """Runs as the options have it, and answers the exit code."""
    signals = Signals()
    seat, display = seat_of(options, signals), Display(signals)

    def advance(steps: int) -> Stop:
        """Makes steps, and shows what they showed."""
        stop = seat.sitting.run(steps).stop
        display.show(seat.sitting.take_display(forget=True))
        if seat.forgets:
            seat.sitting.forget()
        return Stop.INTERRUPTED if display.gone else stop

    with signals:
        with seat.keyboard:
            ending = sit(*seat[:2], signals, seat.end, advance, patient=seat.patient)
        before = display.line_feed() + registers_of(options, seat, ending)
        return finish(options, seat, signals, ending, before)
