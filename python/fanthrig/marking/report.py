"""The results of a marking: a table for people, CSV for spreadsheets, JSON for programs.

A form of results makes text of each as it comes. JSON is one object a line (JSON Lines), so that a
marking that was cut off anywhere can still be read up to there.
"""

from __future__ import annotations

import csv
import io
import json
import os
from dataclasses import asdict, dataclass, field
from typing import Any, Iterator, Sequence

from ..telling import counted, plain
from .audit import Audit, now
from .candidates import Found
from .cases import Case
from .feedback import by_seed, failure, number
from .flags import Flag
from .marker import REFUSED, RIGHT, CaseResult, Result

PASSED_OVER = "passed over"

COLUMNS = (
    "candidate",
    "case",
    "verdict",
    "points",
    "most",
    "flags",
    "ending",
    "steps",
    "seconds",
    "pc",
    "line",
    "shown",
    "byte",
    "expected",
    "got",
    "mismatches",
    "problem",
    "student",
    "student_id",
    "sha256",
    "words_sha256",
    "time",
    "lc3",
    "interface",
    "options",
    "certificate",
)

# The columns that are the same for all cases of a candidate.
_OF_RESULT = (
    "candidate",
    "student",
    "student_id",
    "problem",
    "sha256",
    "words_sha256",
    "time",
)

# What a spreadsheet takes for the beginning of a formula, also as East Asian keyboards write it.
FORMULAS = ("=", "+", "-", "@", "\uff1d", "\uff0b", "\uff0d", "\uff20")


@dataclass
class Total:
    """The sums of a marking: the candidates that there are and those that have a result, the right
    and the flagged ones among these, those whose result was there already, the files that were
    passed over, and the signal that ended it, if any."""

    candidates: int
    marked: int = 0
    right: int = 0
    flagged: int = 0
    resumed: int = 0
    passed_over: int = 0
    stopped_by: str | None = None
    _by_words: dict[str, list[str]] = field(default_factory=dict)

    def add(self, result: Result) -> None:
        """Counts a result."""
        self.marked += 1
        self.right += result.verdict == RIGHT
        self.flagged += bool(result.flagged)
        if result.words_sha256 is not None:
            self._by_words.setdefault(result.words_sha256, []).append(result.candidate)

    @property
    def duplicates(self) -> list[list[str]]:
        """The candidates whose files have equal words, in groups."""
        groups = (list(dict.fromkeys(names)) for names in self._by_words.values())
        return [group for group in groups if len(group) > 1]

    def told(self) -> dict[str, Any]:
        """The members, as JSON has them."""
        sums = {name: value for name, value in vars(self).items() if name != "_by_words"}
        return {**sums, "duplicates": self.duplicates}

    @property
    def whole(self) -> bool:
        """Whether every candidate is right."""
        return self.right == self.candidates


class Form:
    """A form of results: the text before all, of each result, of each file that was passed over,
    and after all."""

    def __init__(self, audit: Audit, cases: Sequence[Case], found: Sequence[Found]) -> None:
        """What the marking is made with, and all files that it is about."""
        self.audit, self.cases = audit, cases
        self.names = [file.name for file in found if not file.passed_over]

    def head(self) -> str:
        """The text before all results."""
        return ""

    def result(self, result: Result) -> str:
        """The text of a result."""
        raise NotImplementedError

    def passed_over(self, file: Found) -> str:
        """The text of a file that was passed over."""
        return ""

    def end(self, total: Total) -> str:
        """The text after all results."""
        return ""


class One(Form):
    """One line of JSON for each result, and nothing else."""

    def result(self, result: Result) -> str:
        """The result with what it was marked with."""
        named = _named(result.candidate)
        return _line({"kind": "candidate", **named, **asdict(result), **vars(self.audit)})


class Json(One):
    """A line of JSON for each file, and one at the end."""

    def passed_over(self, file: Found) -> str:
        """The file, and the reason."""
        return _line({"kind": PASSED_OVER, **_named(file.name), "problem": file.passed_over})

    def end(self, total: Total) -> str:
        """The sums."""
        return _line({"kind": "end", **total.told(), "time": now()})


def _line(data: dict[str, Any]) -> str:
    """An object as a line of JSON."""
    return json.dumps(safe_text(data)) + "\n"


def _named(name: str) -> dict[str, str | None]:
    """The name of a file; where it is no text, also its bytes."""
    exact = name.encode("utf-8", "replace") == os.fsencode(name)
    return {"candidate": name, "name_hex": None if exact else os.fsencode(name).hex()}


def safe_text(value: Any) -> Any:
    """Data without lone surrogates, which many readers of JSON refuse: names of files that are no
    text have them. They are written as escapes.

    >>> safe_text({"name": ["a\\udcff.obj", 1]})
    {'name': ['a\\\\udcff.obj', 1]}
    """
    if isinstance(value, str):
        return value.encode("utf-8", "backslashreplace").decode("utf-8")
    if isinstance(value, dict):
        return {key: safe_text(item) for key, item in value.items()}
    return [safe_text(item) for item in value] if isinstance(value, (list, tuple)) else value


class Csv(Form):
    """A row for each case of each candidate, and one for each file that was passed over."""

    def head(self) -> str:
        """The names of the columns."""
        return _row(COLUMNS)

    def result(self, result: Result) -> str:
        """The rows of a result; a candidate that was refused has one for each case as well."""
        told: dict[str, Any] = {
            **{name: getattr(result, name) for name in _OF_RESULT},
            **vars(self.audit),
            "options": json.dumps(safe_text(self.audit.options)),
        }
        rows = [_cells(one) for one in result.results]
        if result.verdict == REFUSED:
            rows = [_refused(case) for case in self.cases]
        return "".join(self._written({**told, **row}) for row in rows)

    def passed_over(self, file: Found) -> str:
        """The row of a file that was passed over."""
        told = {"candidate": file.name, "verdict": PASSED_OVER, "problem": file.passed_over}
        return self._written(told)

    @staticmethod
    def _written(cells: dict[str, Any]) -> str:
        """A row of named cells; those that are not named are empty."""
        return _row([cells.get(name) for name in COLUMNS])


def _refused(case: Case) -> dict[str, Any]:
    """The cells of a case of a candidate that was refused."""
    return {"case": case.name, "verdict": REFUSED, "points": 0, "most": case.points}


def _cells(one: CaseResult) -> dict[str, Any]:
    """The cells of a case."""
    cells: dict[str, Any] = {**vars(one), "flags": "; ".join(map(str, one.flags))}
    cells["mismatches"] = "; ".join(map(str, one.mismatches))
    found = one.difference
    if found is not None:
        cells.update(byte=found.byte, expected=found.expected, got=found.got)
    return cells


def _row(values: Sequence[object]) -> str:
    """A row of CSV. Texts are quoted, so that no other separator than the comma divides them."""
    row = io.StringIO()
    csv.writer(row, lineterminator="\n", quoting=csv.QUOTE_NONNUMERIC).writerow(map(cell, values))
    return row.getvalue()


def cell(value: object) -> object:
    """A value as a cell of a spreadsheet: a text that would be taken for a formula gets an
    apostrophe before it, and characters that work on a terminal are written as escapes.

    >>> cell("=1+1"), cell("a\\nb"), cell(None), cell(7)
    ("'=1+1", 'a\\\\nb', '', 7)
    """
    if isinstance(value, (int, float)):
        return value
    text = plain(str("" if value is None else value))
    return f"'{text}" if text.lstrip().startswith(FORMULAS) else text


@dataclass
class _Told:
    """What the table keeps for its end."""

    failures: list[tuple[str, CaseResult]] = field(default_factory=list)
    passed_over: list[str] = field(default_factory=list)


class Table(Form):
    """A line for each candidate as it comes; then the sums, what was passed over, and each case
    that failed."""

    def head(self) -> str:
        """The names of the columns."""
        self._told = _Told()
        self._width = max(len(plain(name)) for name in ("candidate", *self.names))
        # Where each case is worth one point, the number of right ones tells all.
        self._pointed = any(case.points != 1 for case in self.cases)
        points = f"{'points':>9}  " if self._pointed else ""
        return f"{'candidate':<{self._width}}  {'right':>7}  {points}verdict\n"

    def result(self, result: Result) -> str:
        """The line of a candidate; the cases that failed are kept for the end."""
        name, share = plain(result.candidate), f"{result.right}/{result.cases}"
        failed = [(name, one) for one in result.results if one.verdict != RIGHT]
        self._told.failures += failed
        told = f"{number(result.points)}/{number(result.most)}"
        points = f"{told:>9}  " if self._pointed else ""
        return f"{name:<{self._width}}  {share:>7}  {points}{plain(_verdict(result))}\n"

    def passed_over(self, file: Found) -> str:
        """Nothing yet: it is kept for the end."""
        self._told.passed_over.append(f"  {plain(file.name)}: {file.passed_over}")
        return ""

    def end(self, total: Total) -> str:
        """The sums, what was passed over, and the cases that failed."""
        random = by_seed(self.audit.options["seed"])
        lines = ["", "; ".join(filter(None, [_sums(total), random]))]
        if self._told.passed_over:
            lines += ["", f"{PASSED_OVER}:", *self._told.passed_over]
        if total.duplicates:
            lines += ["", "equal words:", *map(_group, total.duplicates)]
        by_name = {case.name: case for case in self.cases}
        for name, one in self._told.failures:
            lines += ["", *_failure(name, one, by_name.get(one.case))]
        return "\n".join(lines) + "\n"


def _group(names: Sequence[str]) -> str:
    """The line of candidates that have equal words."""
    return "  " + ", ".join(map(plain, names))


def _sums(total: Total) -> str:
    """The line with the sums.

    >>> _sums(Total(9, 7, 5, flagged=1, passed_over=2, stopped_by="Ctrl-C"))
    '5 of 7 candidates right; 1 flagged; 2 files passed over; 2 not marked: stopped by Ctrl-C'
    """
    parts = [f"{total.right} of {total.marked} candidates right"]
    if total.flagged:
        parts.append(f"{total.flagged} flagged")
    if total.resumed:
        parts.append(f"{total.resumed} of them from before")
    if total.passed_over:
        parts.append(f"{counted(total.passed_over, 'file')} passed over")
    if total.stopped_by:
        left = total.candidates - total.marked
        parts.append(f"{left} not marked: stopped by {total.stopped_by}")
    return "; ".join(parts)


def _verdict(result: Result) -> str:
    """The verdict on a candidate, with the case or the problem that it is about, and the flags."""
    if result.verdict == REFUSED:
        problem = result.problem.removeprefix(f"{result.candidate}: ")
        return problem if problem.startswith(REFUSED) else f"{REFUSED}: {problem}"
    failed = [one.case for one in result.results if one.verdict != RIGHT]
    verdict = f"{result.verdict} in {failed[0]}" if failed else RIGHT
    flags = "; ".join(_flags(result.flagged))
    return f"{verdict}; flagged: {flags}" if flags else verdict


def _flags(flagged: Sequence[tuple[str, Flag]]) -> Iterator[str]:
    """Every flag of a candidate once, as it was in the first case that has it.

    >>> flag = Flag("privilege exception", 0x3000, "RTI")
    >>> list(_flags([("one", flag), ("two", flag)]))
    ['privilege exception at x3000: RTI in one and 1 more case']
    """
    cases: dict[tuple[str, int, str], list[tuple[str, Flag]]] = {}
    for case, flag in flagged:
        cases.setdefault((flag.flag, flag.pc, flag.line), []).append((case, flag))
    for (case, flag), *others in cases.values():
        more = f" and {counted(len(others), 'more case')}" if others else ""
        yield f"{flag} in {case}{more}"


def _failure(candidate: str, one: CaseResult, case: Case | None) -> Iterator[str]:
    """The lines that tell of a case that failed."""
    yield f"{candidate}, case {plain(one.case)}: {one.verdict}"
    yield from (f"  {line}" for line in failure(one, case))
