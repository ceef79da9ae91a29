"""``lc3 log``: what every step did, and by which rule."""

from __future__ import annotations

import argparse
from typing import Iterable

from ..ending import Ending
from ..labels import Labels
from ..log import LoggedStep
from ..own import OwnSteps
from ..records import Stop
from ..running import RUNNING, TRACING, sit
from ..sitting import Sitting
from ..steps import TracedStep
from .messages import Code
from .seat import Seat, finish, registers_of, seat_of
from .terminal import Display, Signals

# The last steps that are made and written together.
AT_ONCE = 1024

HEADER = "    step  PC     word   line              reason               what changed"


def row(step: TracedStep, labels: Labels = Labels()) -> str:
    """A step as a line of the log, with its labels as a comment.

    >>> from ..records import Reason
    >>> from ..steps import Change
    >>> row(TracedStep(0x3000, 0xF021, Reason.TRAP, 7, (Change("R6", 0, 1),), b"a", b""))
    "       7  x3000  xF021  TRAP x21          trap                 R6 x0000 -> x0001, key 'a'"
    """
    did = [str(change) for change in step.changes]
    did += [f"key {repr(bytes([key]))[1:]}" for key in step.keys]
    did += [f"shows {repr(step.shown)[1:]}"] if step.shown else []
    word = "-" if step.word is None else f"x{step.word:04X}"
    columns = f"{step.clock:>8}  x{step.pc:04X}  {word:<5}  {step.line:<16}  {step.reason.text:<19}"
    comment = labels.comment(step.pc, step.word)
    told = f"{columns}  {', '.join(did)}".rstrip()
    return f"{told}  ; {comment}" if comment else told


def unnumbered(step: LoggedStep) -> str:
    """The line of a step of which neither the number nor what it changed is known.

    >>> from ..records import Reason
    >>> unnumbered(LoggedStep(0x3000, 0xF021, Reason.TRAP))
    '       -  x3000  xF021  TRAP x21          trap'
    """
    return f"{'-':>8}  {step}"


def command(options: argparse.Namespace) -> Code:
    """Logs as the options have it, and answers the exit code."""
    signals = Signals()
    seat, display = seat_of(options, signals), Display(signals)
    with signals:
        _write(display, HEADER)
        with seat.keyboard:
            if options.last is None:
                ending = _every_step(options, seat, signals, display)
            else:
                ending = _run(seat, signals)
        if options.last is not None:
            _last_steps(options, seat, signals, display)
        display.show(registers_of(options, seat, ending).encode())
        return finish(options, seat, signals, ending)


def _write(display: Display, *lines: str) -> None:
    """Writes lines of the log."""
    display.show("".join(f"{line}\n" for line in lines).encode())


def _every_step(
    options: argparse.Namespace, seat: Seat, signals: Signals, display: Display
) -> Ending:
    """Runs a few steps at a time, and writes a line for each, or for each of the program's."""
    steps = OwnSteps(seat.sitting.edition)

    def advance(count: int) -> Stop:
        """Makes steps, and writes them."""
        told = seat.sitting.trace_at_once(count)
        seat.sitting.take_display(forget=True)
        if seat.forgets:
            seat.sitting.forget()
        if options.program:
            told = [step for step in told if steps.own(step)]
        _write(display, *(row(step, seat.labels) for step in told))
        return Stop.INTERRUPTED if display.gone else seat.sitting.stop

    return sit(seat.sitting, seat.keyboard, signals, seat.end, advance, TRACING, seat.patient)


def _run(seat: Seat, signals: Signals) -> Ending:
    """Runs at full speed, and writes nothing."""

    def advance(steps: int) -> Stop:
        """Makes steps."""
        stop = seat.sitting.run(steps).stop
        seat.sitting.take_display(forget=True)
        return stop

    return sit(seat.sitting, seat.keyboard, signals, seat.end, advance, RUNNING, seat.patient)


def _last_steps(
    options: argparse.Namespace, seat: Seat, signals: Signals, display: Display
) -> None:
    """Writes the last steps. What they changed is known when they are made once more."""
    sitting = seat.sitting
    again, before = Sitting.of(sitting.recording()), signals.count
    first = max(again.clock, sitting.clock - options.last)
    clocks: Iterable[int] = range(first, sitting.clock, AT_ONCE)
    at_once = AT_ONCE
    if options.program:
        clocks, at_once = sitting.last_program_clocks(options.last), 1
        if not clocks:
            # The last of all may be known though it lies too far back to be made once more.
            _write(display, *map(unnumbered, sitting.last_program_steps(options.last)))
    for clock in clocks:
        # Ctrl-C may have ended the run itself; one more ends this too.
        if signals.count != before or display.gone:
            return
        again.run(clock - again.clock)
        told = again.trace_at_once(min(at_once, sitting.clock - clock))
        _write(display, *(row(step, seat.labels) for step in told))
