"""Feedback: a file of text for each candidate, to be handed back. For each case that failed it has
what was expected, what was shown, the first difference, and the program's last lines."""

from __future__ import annotations

import errno
import hashlib
import os
from contextlib import suppress
from typing import Iterator, Sequence

from ..choices import CHOICES
from ..telling import FileError, counted, of_os_error, plain
from .candidates import FEEDBACK_SUFFIX as SUFFIX
from .cases import Case
from .marker import REFUSED, RIGHT, TOLD_BYTES, WRONG_END, CaseResult, Result

# The bytes of the longest name that a file may have.
LONGEST_NAME = 255

# What the system refuses because of names that candidates chose, or of their folders.
_BY_NAMES = (errno.EEXIST, errno.ENOTDIR, errno.ENAMETOOLONG, errno.EACCES)


def number(points: float) -> str:
    """Points as people write them.

    >>> number(2), number(0.1 + 0.2), number(3.0), number(1234567.25)
    ('2', '0.3', '3', '1234567.25')
    """
    return str(int(points)) if points == int(points) else f"{points:.12g}"


def points_of(one: CaseResult | Result) -> str:
    """The points of a case or of a candidate, in words."""
    return f"{number(one.points)} of {counted_points(one.most)}"


def counted_points(points: float) -> str:
    """A number of points.

    >>> counted_points(1), counted_points(2.5)
    ('1 point', '2.5 points')
    """
    return f"{number(points)} point{'' if points == 1 else 's'}"


def by_seed(seed: int | None) -> str:
    """How it is told that a case's contents were random; empty where they were not.

    >>> by_seed(7)
    'random contents by --seed 7'
    """
    return "" if seed is None else f"random contents by --seed {seed}"


def failure(one: CaseResult, case: Case | None) -> Iterator[str]:
    """The lines that tell of a case that failed, but for the displays."""
    steps, line = counted(one.steps, "step"), one.line or "not fetched"
    yield f"{one.ended}; {steps}; PC x{one.pc:04X}: {line}"
    if one.verdict == WRONG_END and case is not None:
        yield f"end: expected {case.end}, got {one.ending}"
    yield from (f"flagged: {flag}" for flag in one.flags)
    if one.difference is not None:
        yield str(one.difference)
        yield f"  expected: {one.difference.expected_text!r}"
        yield f"  got:      {one.difference.got_text!r}"
    yield from map(str, one.mismatches)
    if one.last:
        lines = "line" if len(one.last) == 1 else f"{len(one.last)} lines"
        yield f"the last {lines} obeyed:"
    yield from (f"  {last}" for last in one.last)


def case_text(one: CaseResult, case: Case | None, lenient: Sequence[str] = ()) -> str:
    """All that is told of a case, with the displays where it failed; ``lenient`` are the choices of
    the comparison."""
    if one.verdict == RIGHT:
        return "\n".join(f"flagged: {flag}" for flag in one.flags)
    expected = None if case is None else case.expected
    return "\n".join([*failure(one, case), *_displays(one, expected, lenient)])


def _displays(one: CaseResult, expected: bytes | None, lenient: Sequence[str]) -> Iterator[str]:
    """What was expected of the display of a case that failed, and what was shown."""
    got = _shown(one.display.encode("latin-1"), one.shown)
    if one.difference is None or expected is None:
        as_expected = "" if expected is None else ", as expected"
        yield from [f"shown in all{as_expected}:", *got] if got else []
        return
    yield from ["expected in all:", *_shown(expected), "shown in all:", *got]
    if lenient:
        chosen = ", ".join(choice for choice in CHOICES if choice in lenient)
        yield f"compared without regard to: {chosen}"


def _shown(display: bytes, length: int | None = None) -> list[str]:
    """A display in lines, each after a bar; control characters are written as escapes."""
    length = len(display) if length is None else length
    text = display[:TOLD_BYTES].decode("latin-1")
    lines = [f"  | {plain(line)}" for line in text.split("\n")]
    if lines and lines[-1] == "  | ":
        lines.pop()
    more = [f"  .. and {counted(length - len(text), 'more byte')}"] if length > len(text) else []
    return [*lines, *more]


def feedback(
    result: Result,
    cases: Sequence[Case],
    options_lenient: Sequence[str] = (),
    seed: int | None = None,
) -> str:
    """The feedback on a candidate; ``seed`` is that of random contents."""
    lines = [f"Feedback on {plain(os.path.basename(result.candidate))}"]
    if result.student is not None:
        lines.append(f"Handed in by {plain(result.student)} ({plain(result.student_id or '')})")
    lines.append(f"{points_of(result)}; {result.right} of {counted(result.cases, 'case')} passed")
    if result.verdict == REFUSED:
        lines += ["", plain(result.problem)]
    by_name = {case.name: case for case in cases}
    for one in result.results:
        case = by_name.get(one.case)
        lines += ["", f"Case {plain(one.case)}: {one.verdict}; {points_of(one)}"]
        lenient = (*options_lenient, *(case.lenient if case is not None else ()))
        text = case_text(one, case, lenient)
        lines += [f"  {line}" for line in text.split("\n")] if text else []
    made = [f"SHA-256 of the file: {result.sha256 or 'none'}", f"marked at {result.time}"]
    lines += ["", "; ".join(filter(None, [*made, by_seed(seed)]))]
    return "\n".join(lines) + "\n"


class FeedbackFolder:
    """A folder of feedback files. Each stands where its candidate stands in the folder of hand-ins,
    so that a course platform takes them back in the same order."""

    def __init__(
        self,
        folder: str,
        cases: Sequence[Case],
        lenient: Sequence[str],
        seed: int | None = None,
    ) -> None:
        """Makes the folder."""
        self._folder, self._told_by = folder, (cases, lenient, seed)
        self._taken: set[str] = set()
        try:
            os.makedirs(folder, exist_ok=True)
        except FileExistsError:
            raise FileError(f"{folder}: it is a file, and no folder: name another") from None
        except OSError as error:
            raise FileError(of_os_error(error)) from None

    def write(self, result: Result, place: str) -> str:
        """Writes the feedback on the candidate of a place, and answers the name of the file. Where
        the names of a candidate's folders do not allow it, the file lies at the top."""
        text = feedback(result, *self._told_by)
        try:
            try:
                return self._written(place, text)
            except RecursionError:
                # os.makedirs calls itself for each of the folders in one another.
                pass
            except OSError as error:
                if error.errno not in _BY_NAMES:
                    raise
            return self._written(place.replace(os.sep, "_"), text)
        except OSError as error:
            raise FileError(of_os_error(error)) from None

    def _written(self, place: str, text: str) -> str:
        """Writes a new file in the place of what has its name: a link or a pipe that a candidate
        has left there gets nothing."""
        path = self._path(place)
        os.makedirs(os.path.dirname(path), exist_ok=True)
        with suppress(FileNotFoundError):
            os.unlink(path)
        with open(path, "x", encoding="utf-8", errors="backslashreplace") as stream:
            stream.write(text)
        self._taken.add(path)
        return path

    def _path(self, place: str) -> str:
        """A name that no other candidate has, and no folder: of the same place there may be
        several."""
        folder, base = os.path.split(place)
        again = 1
        while True:
            path = os.path.join(self._folder, folder, _named(base, again))
            if path not in self._taken and not os.path.isdir(path):
                return path
            again += 1


def _named(base: str, again: int) -> str:
    """The name of a feedback file; one that would be too long is cut, and told from others by a
    hash."""
    name = base + (f"-{again}" if again > 1 else "") + SUFFIX
    raw = os.fsencode(name)
    if len(raw) <= LONGEST_NAME:
        return name
    digest = hashlib.sha256(raw).hexdigest()[:16]
    return os.fsdecode(raw[: LONGEST_NAME - len(digest) - len(SUFFIX) - 1]) + f"-{digest}{SUFFIX}"
