"""Results as JUnit XML, which build servers and course platforms read: a test suite for each
candidate, and a test case in it for each case. The members are those that the schema of Apache Ant
has."""

from __future__ import annotations

import platform
from html import escape
from typing import Sequence

from ..telling import plain
from .cases import Case
from .feedback import case_text, number as points
from .marker import REFUSED, RIGHT, CaseResult, Result
from .report import Form, Total

PACKAGE = "lc3"


class Junit(Form):
    """A document that grows by a suite with each result."""

    def head(self) -> str:
        """The beginning of the document."""
        self._number = 0
        return '<?xml version="1.0" encoding="UTF-8"?>\n<testsuites>\n'

    def result(self, result: Result) -> str:
        """The suite of a candidate."""
        self._number += 1
        chosen = self.audit.options
        return suite(result, self.cases, self._number - 1, chosen["lenient"], chosen["seed"])

    def end(self, total: Total) -> str:
        """The end of the document."""
        return "</testsuites>\n"


def suite(
    result: Result,
    cases: Sequence[Case],
    number: int = 0,
    lenient: Sequence[str] = (),
    seed: int | None = None,
) -> str:
    """The test suite of a candidate, whose number is told; ``seed`` is that of random contents."""
    by_name = {case.name: case for case in cases}
    refused = result.verdict == REFUSED
    failed = sum(one.verdict != RIGHT for one in result.results)
    tests = len(cases) if refused else len(result.results)
    lines = [
        f'  <testsuite name={_quoted(result.candidate)} package="{PACKAGE}" id="{number}"'
        f' timestamp="{result.time.rstrip("Z")}" hostname={_quoted(platform.node() or "localhost")}'
        f' tests="{tests}" failures="{0 if refused else failed}"'
        f' errors="{tests if refused else 0}" skipped="0" time="{result.seconds:.6f}">',
        "    <properties>",
        f'      <property name="sha256" value={_quoted(result.sha256 or "none")}/>',
        f'      <property name="points" value="{points(result.points)}"/>',
        *([] if seed is None else [f'      <property name="seed" value="{seed}"/>']),
        "    </properties>",
    ]
    for one in result.results:
        case = by_name.get(one.case)
        choices = (*lenient, *(case.lenient if case is not None else ()))
        lines += _case(result.candidate, one, case_text(one, case, choices))
    for case in cases if refused else ():
        problem = _element("error", REFUSED, result.problem)
        lines += _wrapped(result.candidate, case.name, 0.0, problem)
    return "\n".join([*lines, "    <system-out/>", "    <system-err/>", "  </testsuite>"]) + "\n"


def _case(candidate: str, one: CaseResult, text: str) -> list[str]:
    """The test case of a case."""
    problem = "" if one.verdict == RIGHT else _element("failure", one.verdict, text)
    return _wrapped(candidate, one.case, one.seconds, problem)


def _wrapped(candidate: str, name: str, seconds: float, problem: str) -> list[str]:
    """A test case with what is wrong in it, if anything is."""
    names = f"name={_quoted(name)} classname={_quoted(candidate)}"
    begins = f'    <testcase {names} time="{seconds:.6f}"'
    return [f"{begins}>", problem, "    </testcase>"] if problem else [f"{begins}/>"]


def _element(kind: str, verdict: str, text: str) -> str:
    """What is wrong with a test case."""
    first = text.partition("\n")[0]
    begins = f"      <{kind} message={_quoted(first)} type={_quoted(verdict)}>"
    return f"{begins}{_safe(text)}</{kind}>"


def _safe(text: str) -> str:
    """Text that XML takes: other characters than line feeds that work on a terminal are written as
    escapes, and others than those of ASCII as references, whatever the encoding of the output.

    >>> _safe("a < b\\x1b[2J\\udcff\\xe9")
    'a &lt; b\\\\x1b[2J\\\\udcff&#233;'
    """
    escaped = escape("\n".join(plain(line) for line in text.split("\n")))
    return escaped.encode("ascii", "xmlcharrefreplace").decode("ascii")


def _quoted(text: str) -> str:
    """The value of an attribute, in one line."""
    return f'"{_safe(plain(text))}"'
