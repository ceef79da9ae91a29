"""The results of one candidate as Gradescope's autograder takes them: results.json.

https://gradescope-autograders.readthedocs.io/en/latest/specs/ has the format.
"""

from __future__ import annotations

import json
from typing import Any, Sequence

from ..telling import plain
from .cases import Case
from .feedback import by_seed, case_text
from .marker import REFUSED, RIGHT, CaseResult, Result
from .report import Form, safe_text


class Gradescope(Form):
    """One object for one candidate."""

    def result(self, result: Result) -> str:
        """The object."""
        chosen = self.audit.options
        told = results_json(result, self.cases, chosen["lenient"], chosen["seed"])
        return json.dumps(safe_text(told), indent=2) + "\n"


def results_json(
    result: Result,
    cases: Sequence[Case],
    lenient: Sequence[str] = (),
    seed: int | None = None,
) -> dict[str, Any]:
    """The members of results.json; ``seed`` is that of random contents. Gradescope adds up the
    scores of the tests."""
    by_name = {case.name: case for case in cases}
    tests = [
        _test(number, one, by_name.get(one.case), lenient)
        for number, one in enumerate(result.results, 1)
    ]
    if result.verdict == REFUSED:
        tests = [_refused(number, case, result) for number, case in enumerate(cases, 1)]
    return {
        "score": result.points,
        "execution_time": round(result.seconds, 3),
        "output": "\n".join(filter(None, [plain(result.problem), by_seed(seed)])),
        "output_format": "text",
        "visibility": "visible",
        "tests": tests,
        "extra_data": {
            "sha256": result.sha256,
            "words_sha256": result.words_sha256,
            "seed": seed,
        },
    }


def _test(
    number: int, one: CaseResult, case: Case | None, lenient: Sequence[str]
) -> dict[str, Any]:
    """A case as a test."""
    choices = (*lenient, *(case.lenient if case is not None else ()))
    text = case_text(one, case, choices)
    return {
        "score": one.points,
        "max_score": one.most,
        "status": "passed" if one.verdict == RIGHT else "failed",
        "name": plain(one.case),
        "number": str(number),
        "output": "\n".join(filter(None, [one.verdict, text])),
        "output_format": "text",
        "visibility": "visible",
    }


def _refused(number: int, case: Case, result: Result) -> dict[str, Any]:
    """The same of a candidate whose file was refused."""
    return {
        "score": 0,
        "max_score": case.points,
        "status": "failed",
        "name": plain(case.name),
        "number": str(number),
        "output": plain(result.problem),
        "output_format": "text",
        "visibility": "visible",
    }
