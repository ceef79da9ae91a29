"""``lc3 mark``: many candidates against cases, in parallel processes.

Each result is written when it comes, in the order of the candidates. A signal leaves what was
written, adds what is marked by then, and ends the process by that signal.
"""

from __future__ import annotations

import argparse
import os
import secrets
import signal
import stat
import sys
from contextlib import closing
from dataclasses import fields, replace
from typing import Iterator, Sequence

from ..marking.candidates import Found, found_in
from ..marking.feedback import FeedbackFolder
from ..marking.forms import FORMS, SINGLE
from ..marking.marker import Marking, Result
from ..marking.options import Options
from ..marking.platforms import handed_in
from ..marking.report import Form, Total
from ..marking.resume import results_of, still_holds
from ..marking.workers import mark_all
from ..places import PlaceError
from .files import check_edition
from .messages import Code, CommandError, say
from .options import processors
from .output import Bar, Output
from .terminal import Signals, die

# The bits of a seed that nobody has named.
SEED_BITS = 32

# The forms of lines, to which several processes may add at once: each line is written whole.
LINES = ("json", "one")


def command(options: argparse.Namespace) -> Code:
    """Marks as the options have it, and answers the exit code."""
    single = options.form in SINGLE
    try:
        found = candidates_of(options)
        marking = marking_of(options)
        before = _before(options, marking, found)
        feedback = _feedback(options, marking)
    except KeyboardInterrupt:
        return _stopped(signal.SIGINT, "stopped by Ctrl-C; nothing is marked")
    form = FORMS[options.form](marking.audit, marking.cases, found)
    with Signals() as signals:
        total = _Writing(options, marking, form, feedback, signals).written(found, before)
        if signals.caught:
            done = f"{total.marked} of {total.candidates} candidates are marked"
            return _stopped(signals.caught, f"stopped by {signals.name}; {done}")
    return Code.HALTED if total.whole or single else Code.NOT_HALTED


def _stopped(number: int, text: str) -> Code:
    """Ends the process by the signal that has come: a loop of a shell, or a queue, ends as well."""
    say(text)
    die(number)
    return Code.INTERRUPTED


def candidates_of(options: argparse.Namespace) -> list[Found]:
    """The files that the command line names, and those of its folders."""
    single = options.form in SINGLE
    found = found_in(options.candidates, options.follow_links, single, options.texts)
    if options.export is not None:
        found = handed_in(found, options.export)
    marked = [file for file in found if not file.passed_over]
    if single and len(found if options.form == "one" else marked) != 1:
        many = f"{len(found)} are named or found in the folders"
        text = f"--{options.form} marks one file, and {many}; leave it out, or run it once for each"
        raise CommandError(text, Code.WRONG_USE)
    return found


def marking_of(options: argparse.Namespace) -> Marking:
    """What the candidates share. What is wrong with it is wrong with the marking, and not with a
    candidate."""
    if not options.monitor_files:
        check_edition(options)
    given = {field.name: getattr(options, field.name) for field in fields(Options)}
    given["lenient"] = tuple(options.lenient)
    given["monitor"] = options.monitor and not options.monitor_files
    if options.seed == "random":
        given["seed"] = secrets.randbits(SEED_BITS)
    try:
        chosen = Options(**given)
        files = options.with_files, options.data_files, options.monitor_files
        return Marking.of(options.cases, chosen, *files, options.uncertified)
    except (PlaceError, ValueError) as error:
        raise CommandError(str(error), Code.WRONG_USE) from None


def _before(
    options: argparse.Namespace, marking: Marking, found: Sequence[Found]
) -> dict[str, Result]:
    """The results that are there already, and still hold."""
    if options.resume is None:
        return {}
    _check_resume(options.resume)
    results = results_of(options.resume, marking.audit)
    named = {file.name for file in found if not file.passed_over}
    return {
        name: result
        for name, result in results.items()
        if name in named and still_holds(result, options.follow_links)
    }


def _check_resume(path: str) -> None:
    """That results are not written to the file that they are read from."""
    try:
        written, read = os.fstat(sys.stdout.fileno()), os.stat(path)
    except (OSError, ValueError):
        return
    if stat.S_ISREG(read.st_mode) and os.path.samestat(written, read):
        text = f"--resume: {path} is read, and can't be written to at once: name another file"
        raise CommandError(text, Code.WRONG_USE)


def _feedback(options: argparse.Namespace, marking: Marking) -> FeedbackFolder | None:
    """The folder of feedback files, where one is asked for."""
    if options.feedback is None:
        return None
    chosen = marking.options
    return FeedbackFolder(options.feedback, marking.cases, chosen.lenient, chosen.seed)


class _Writing:
    """Marks candidates, and writes what comes."""

    def __init__(
        self,
        options: argparse.Namespace,
        marking: Marking,
        form: Form,
        feedback: FeedbackFolder | None,
        signals: Signals,
    ) -> None:
        """Nothing is written yet."""
        self._options, self._marking, self._form = options, marking, form
        self._feedback, self._signals = feedback, signals
        self._output = Output(signals)

    def written(self, found: Sequence[Found], before: dict[str, Result]) -> Total:
        """Marks and writes, and answers the sums."""
        names = [file.name for file in found if not file.passed_over]
        left = [name for name in names if name not in before]
        total = Total(len(names))
        self._write(self._form.head())
        jobs = self._options.jobs or processors()
        by_processes = mark_all(self._marking, left, jobs, self._signals, say)
        with Bar(len(names)) as bar, closing(by_processes) as results:
            for file, result in _in_order(found, results, before):
                if not self._wrote(file, result, total):
                    break
                total.resumed += file.name in before and result is not None
                bar.grow(total.marked)
        total.stopped_by = self._signals.name if self._signals.caught else None
        self._write(self._form.end(total))
        return total

    def _write(self, text: str) -> bool:
        """Writes a piece of the results, which may be empty; whether it could be."""
        shared = bool(text) and self._options.form in LINES
        if shared and not self._output.lock():
            return False
        self._output.write(text)
        if shared:
            self._output.unlock()
        return True

    def _wrote(self, file: Found, result: Result | None, total: Total) -> bool:
        """Writes a result, or that a file was passed over; whether it could be."""
        if result is None:
            total.passed_over += 1
            return self._write(self._form.passed_over(file))
        if file.student is not None:
            result = replace(result, student=file.student.name, student_id=file.student.id)
        if not self._write(self._form.result(result)):
            return False
        total.add(result)
        if self._feedback is not None:
            self._feedback.write(result, file.place)
        return True


def _in_order(
    found: Sequence[Found], results: Iterator[Result], before: dict[str, Result]
) -> Iterator[tuple[Found, Result | None]]:
    """The files that are passed over and the results, each in its place. Where a signal has come,
    some candidates have no result."""
    waiting = next(results, None)
    for file in found:
        if file.passed_over:
            yield file, None
        elif file.name in before:
            yield file, before[file.name]
        elif waiting is not None and waiting.candidate == file.name:
            yield file, waiting
            waiting = next(results, None)
