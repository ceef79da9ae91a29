"""A sitting with its keyboard and display, as the options of run, log and debug have it."""

from __future__ import annotations

import argparse
import os
from typing import NamedTuple

from ..constants import MAX_CLOCK, USER_STACK
from ..ending import Ending
from ..labels import Labels
from ..recording import Recording, ReplayError
from ..running import Keyboard
from ..sitting import Sitting
from ..telling import of_os_error
from .files import check_edition, is_fifo, object_files, recording_of, same_file, save
from .files import sitting_of, whole_file
from .messages import Code, CommandError, end_line, own_registers, say, tell
from .symbols import labels_of
from .terminal import Signals, Unblocked, die, standard_keyboard

# The most keys of a sitting that is saved: a recording has to be read back.
MOST_SAVED_KEYS = 1 << 20


class Seat(NamedTuple):
    """What a command line asks for: a sitting, its keys, the clock at which it is over, and whether
    that is to be reached whatever happens: a number was given, or a recording has it. A sitting of
    which no recording is made ``forgets`` what lies far back. ``labels`` are for messages."""

    sitting: Sitting
    keyboard: Keyboard
    end: int
    patient: bool
    recording: Recording | None = None
    forgets: bool = False
    labels: Labels = Labels()


def seat_of(options: argparse.Namespace, signals: Signals) -> Seat:
    """The seat that the options of run and log ask for."""
    check_use(options)
    if options.replay is not None:
        recording = recording_of(options.replay, options.steps)
        sitting, keyboard, steps = Sitting.of(recording), Keyboard(), recording.steps
        steps = steps if options.steps is None else min(steps, options.steps)
        seat = Seat(sitting, keyboard, sitting.clock + steps, True, recording)
    else:
        examiner, candidate = object_files(options.with_files), object_files(options.files)
        sitting = sitting_of(options, examiner, candidate)
        keys = options.keys
        keyboard = standard_keyboard(signals) if keys is None else Keyboard(given_keys(keys))
        asked = options.steps is not None
        end, forgets = options.steps if asked else MAX_CLOCK, options.save_sitting is None
        seat = Seat(sitting, keyboard, end, asked, forgets=forgets)
    if options.save_sitting is not None:
        _check_saving(options)
        seat.keyboard.most = MOST_SAVED_KEYS
    return seat._replace(
        labels=labels_of(options.symbols, [*options.with_files, *options.files])
    )


def _check_saving(options: argparse.Namespace) -> None:
    """That the sitting can be saved, and that its file is none of those that are read: better to
    know before a long run than after it."""
    keys = [options.keys[1:]] if (options.keys or "").startswith("@") else []
    replayed = [options.replay] if options.replay is not None else []
    inputs = [*options.with_files, *options.files, *keys, *replayed]
    if any(same_file(path, options.save_sitting) for path in inputs):
        text = f"--save-sitting would overwrite {options.save_sitting}: name another file"
        raise CommandError(text, Code.WRONG_USE)
    if is_fifo(options.save_sitting):
        # Whoever reads it would take this for the end.
        return
    is_new = not os.path.lexists(options.save_sitting)
    with open(options.save_sitting, "ab"):
        pass
    if is_new:
        # A run that is killed, or can't be saved, leaves no empty file.
        os.unlink(options.save_sitting)


def check_use(options: argparse.Namespace) -> None:
    """That the options of run, log and debug go together."""
    if options.replay is None:
        if not options.files:
            text = "no file is named; name object files, or a sitting to replay by --replay"
            raise CommandError(text, Code.WRONG_USE)
        check_edition(options)
        return
    others = {
        "object files": bool(options.files),
        "--with": bool(options.with_files),
        "--anywhere": options.anywhere,
        "--keys": options.keys is not None,
        "--edition": options.edition != 3,
        "--supervisor": options.supervisor,
        "--pc": options.pc is not None,
        "--stack": options.stack != USER_STACK,
        "--no-monitor": not options.monitor,
    }
    wrong = [name for name, given in others.items() if given]
    if wrong:
        text = f"--replay has its own machine and keys; leave out {' and '.join(wrong)}"
        raise CommandError(text, Code.WRONG_USE)


def given_keys(keys: str) -> bytes:
    """The keys that are given by --keys, as they stand or from a file."""
    if not keys.startswith("@"):
        return os.fsencode(keys)
    try:
        return whole_file(keys[1:])
    except OSError as error:
        error.filename = keys[1:]
        raise CommandError(f"--keys: {of_os_error(error)}") from None


def finish(
    options: argparse.Namespace, seat: Seat, signals: Signals, ending: Ending, before: str = ""
) -> Code:
    """Tells of the end, saves the sitting where that is asked for, and answers the exit code."""
    tell(before)
    say(end_line(ending, seat.sitting.clock, seat.labels))
    if options.save_sitting is not None:
        _save(seat.sitting, options.save_sitting, signals)
    if signals.fatal:
        # The terminal is set back: whoever sent the signal shall see that it was obeyed.
        die(signals.caught)
    _check_replay(options.replay, seat, ending)
    if ending.kind.crash:
        return Code.CRASHED
    return Code.HALTED if ending.finished else Code.NOT_HALTED


def _save(sitting: Sitting, path: str, signals: Signals) -> None:
    """Saves a sitting. A FIFO may have no reader: there a signal ends the wait for one."""
    try:
        signals.may_block = is_fifo(path)
        save(sitting, path)
    except Unblocked:
        if not signals.fatal:
            text = f"{path}: nobody reads this FIFO: the sitting is not saved"
            raise CommandError(text) from None
    finally:
        signals.may_block = False


def _check_replay(path: str, seat: Seat, ending: Ending) -> None:
    """That a replay came where the sitting was, unless somebody stopped it on the way."""
    sitting, recording = seat.sitting, seat.recording
    if recording is None or not (sitting.halted or sitting.clock >= seat.end):
        return
    try:
        recording.check(sitting.recording().end, seat.end - recording.start.clock, ending.text)
    except ReplayError as error:
        text = f"{path}: {error}; the file was altered, or the library is another"
        raise CommandError(text, Code.OTHER_END) from None


def registers_of(options: argparse.Namespace, seat: Seat, ending: Ending) -> str:
    """The program's registers and a line feed, where they are asked for."""
    return own_registers(seat.sitting, ending) + "\n" if options.registers else ""
