"""Marking: programs against cases, as ``lc3 mark`` does it.

>>> from fanthrig import marking
>>> case = marking.Case(
...     "sum", before=marking.Contents.of({"x4000": [2, 3]}), after=marking.Contents.of({"R0": 5})
... )
>>> exercise = marking.Marking([case], marking.Options(steps=10_000))
>>> ada = bytes.fromhex("3000 2404 6080 6281 1001 F025 4000")  # adds the words at x4000
>>> exercise.mark_bytes("ada.obj", ada).verdict
'right'
>>> result = exercise.mark_bytes("bob.obj", bytes.fromhex("3000 F025"))
>>> print(result.verdict, *result.results[0].mismatches, sep="; ")
wrong contents; R0: expected x0005 (5), got x0000 (0)

``Marking.of`` takes cases and files by their names, ``mark`` a candidate's file, ``mark_all`` many
of them by several processes; ``found_in`` lists the candidates of folders, and ``handed_in`` tells
whose they are. ``feedback``, ``results_json`` and ``suite`` make text of a result for the student,
for Gradescope and for whoever reads JUnit's XML; ``results_of`` reads results back. ``Total`` has
the sums of many results and the candidates of equal words, and ``FORMS`` are the forms in which the
command writes all that. What is wrong with a file is a ``FileError``, in one line that names it.

Of each part one module has the work, and says more: ``cases``, ``contents`` (registers and words),
``comparing``, ``options``, ``candidates`` and ``regular`` (files), ``platforms`` (Moodle, Canvas),
``playing``, ``flags``, ``marker``, ``workers`` (processes), ``audit``, ``resume``, and the forms
of results: ``report``, ``feedback``, ``gradescope``, ``junit``.
"""

from ..telling import FileError
from .audit import Audit
from .candidates import Found, found_in
from .cases import Case, cases_of
from .comparing import Difference
from .contents import Contents, Mismatch
from .feedback import FeedbackFolder, feedback
from .flags import Flag
from .forms import FORMS
from .gradescope import results_json
from .junit import suite
from .marker import CaseResult, Marking, Result
from .options import Options
from .platforms import Student, handed_in, student_of
from .report import Form, Total
from .resume import results_of, still_holds
from .workers import mark_all

__all__ = [
    "Audit",
    "Case",
    "CaseResult",
    "Contents",
    "Difference",
    "FORMS",
    "FeedbackFolder",
    "FileError",
    "Flag",
    "Form",
    "Found",
    "Marking",
    "Mismatch",
    "Options",
    "Result",
    "Student",
    "Total",
    "cases_of",
    "feedback",
    "found_in",
    "handed_in",
    "mark_all",
    "results_json",
    "results_of",
    "still_holds",
    "student_of",
    "suite",
]
