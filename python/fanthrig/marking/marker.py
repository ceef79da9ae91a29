"""One candidate against the cases, and what became of it."""

from __future__ import annotations

import time
from dataclasses import dataclass
from typing import TYPE_CHECKING, Sequence

from ..ending import Ending, EndKind
from ..loading import as_object_file
from ..programs import LONGEST_FILE, LONGEST_TEXT
from ..running import Stopper, Unstopped
from ..sitting import Sitting
from ..telling import FileError
from .audit import Audit, audit_of, now, sha256
from .candidates import candidate_file, shared_files
from .cases import ANY_HALT, Case, cases_of
from .comparing import Difference, compared, difference
from .contents import MOST_TOLD, Mismatch
from .flags import Flag, flags_of
from .options import Options
from .playing import File, check_call, play, set_up, sitting_of

if TYPE_CHECKING:
    from ..certifying import Certificate

RIGHT, REFUSED = "right", "refused"
WRONG, WRONG_CONTENTS, WRONG_END = "wrong display", "wrong contents", "wrong end"
NOT_HALTED, NOT_RETURNED, LATE = "not halted", "not returned", "out of time"

# What is told of endings that only a marking has.
_ENDINGS = {EndKind.BREAKPOINT: "returned", EndKind.INTERRUPTED: LATE}

# The program's own lines obeyed last that are told of a case that failed.
LAST_LINES = 10

# The bytes of the display that are told of a case that failed.
TOLD_BYTES = 2000

Points = float


@dataclass(frozen=True)
class CaseResult:
    """What became of one case: the verdict, the points of as many at most, the flags, how the run
    ended, in a word or two and in a line, the steps and the seconds that it took, the program's own
    PC and its line, and the bytes shown. For a failing case also the first difference of the
    displays, registers and words that are not as expected, what was shown, one character for each
    byte, and the last lines obeyed."""

    case: str
    verdict: str
    points: Points
    most: Points
    flags: tuple[Flag, ...]
    ending: str
    ended: str
    steps: int
    seconds: float
    pc: int
    line: str
    shown: int
    difference: Difference | None = None
    mismatches: tuple[Mismatch, ...] = ()
    display: str = ""
    last: tuple[str, ...] = ()


@dataclass(frozen=True)
class Result:
    """What became of one candidate. ``verdict`` is ``right``, or that of the first case that
    failed; ``problem`` says why a file was refused. ``sha256`` is that of the file, and nothing
    where it could not be read or is longer than any program; ``words_sha256`` that of its words
    without the origin, the high byte first in each, and nothing where there are none. ``time`` is
    when the last case had ended. ``student`` and ``student_id`` are known of a course platform."""

    candidate: str
    verdict: str
    right: int
    cases: int
    points: Points
    most: Points
    sha256: str | None
    words_sha256: str | None
    time: str
    problem: str = ""
    results: tuple[CaseResult, ...] = ()
    student: str | None = None
    student_id: str | None = None

    @property
    def flagged(self) -> list[tuple[str, Flag]]:
        """The flags of all cases, each with the name of its case."""
        return [(one.case, flag) for one in self.results for flag in one.flags]

    @property
    def seconds(self) -> float:
        """The seconds that the cases took."""
        return sum(one.seconds for one in self.results)


@dataclass(frozen=True)
class Marking:
    """What all candidates of a marking share: the cases, the options, the examiner's files and
    those of ``data``, given by their names and their bytes. ``name`` is that of the cases. The
    files of ``monitor`` are those of the class's own monitor, in the place of the ready-made one;
    its ``certificate``, where there is one, is checked by the proved test.

    >>> marking = Marking([Case("sum", expected=b"Halted\\n")])
    >>> marking.mark_bytes("sum.obj", bytes.fromhex("3000 F025")).verdict
    'right'
    """

    cases: Sequence[Case]
    options: Options = Options()
    examiner: Sequence[File] = ()
    data: Sequence[File] = ()
    name: str = ""
    monitor: Sequence[File] = ()
    certificate: Certificate | None = None

    def __post_init__(self) -> None:
        """What is wrong with it is wrong with the marking, and not with a candidate."""
        if self.monitor and self.options.monitor:
            raise ValueError("a monitor of the class's own takes its place: set monitor=False")
        sitting = sitting_of(self.options, self.shared, self.data)
        for case in self.cases:
            check_call(self.options, case)
        if self.certificate is not None:
            # What certifies is loaded only where it is needed: most markings have no such monitor.
            from .certified import check_certificate

            beside = sitting.programs[len(self.monitor) : len(self.shared)]
            check_certificate(self.certificate, self.options, self.cases, sitting, beside)

    @classmethod
    def of(
        cls,
        cases: str,
        options: Options = Options(),
        examiner: Sequence[str] = (),
        data: Sequence[str] = (),
        monitor: Sequence[str] = (),
        uncertified: bool = False,
    ) -> Marking:
        """A marking by the names of its files; ``cases`` is a folder or a JSON file. A monitor that
        is not certified beside the examiner's files raises ``NotCertified``, unless it is to do
        ``uncertified``."""
        files = shared_files(examiner), shared_files(data)
        own, made = shared_files(monitor), None
        if own and not uncertified:
            from ..certifying import certificate_of

            made = certificate_of(own, files[0])
        return cls(cases_of(cases), options, *files, cases, own, made)

    @property
    def shared(self) -> list[File]:
        """The files of the monitor and of the examiner, which lie in privileged memory."""
        return [*self.monitor, *self.examiner]

    @property
    def audit(self) -> Audit:
        """What stands in every result."""
        files = self.monitor, self.examiner, self.data
        made = None if self.certificate is None else self.certificate.sha256
        return audit_of(self.options, self.name, self.cases, *files, made)

    @property
    def most(self) -> Points:
        """The points of all cases."""
        return sum(case.points for case in self.cases)

    def mark(self, candidate: str, stopper: Stopper = Unstopped()) -> Result:
        """Marks the file of a candidate. One that is refused is a result as well. Where the stopper
        has ended it, the result means nothing."""
        try:
            data = candidate_file(candidate, self.options.follow_links)
        except FileError as error:
            return self.refused(candidate, str(error))
        return self.mark_bytes(candidate, data, stopper)

    def mark_bytes(self, candidate: str, data: bytes, stopper: Stopper = Unstopped()) -> Result:
        """The same with the bytes of the file; the candidate is a name for it."""
        digest = None if len(data) in (LONGEST_FILE, LONGEST_TEXT) else sha256(data)
        try:
            file = as_object_file(candidate, data)
            results = self._results((candidate, file), stopper)
        except FileError as error:
            return self.refused(candidate, str(error), digest)
        verdicts = [one.verdict for one in results]
        failed = next((verdict for verdict in verdicts if verdict != RIGHT), RIGHT)
        points = sum(one.points for one in results)
        words = sha256(file[2:]) if len(file) > 2 else None
        counts = (verdicts.count(RIGHT), len(self.cases), points, self.most)
        return Result(candidate, failed, *counts, digest, words, now(), "", tuple(results))

    def refused(self, candidate: str, problem: str, digest: str | None = None) -> Result:
        """The result of a candidate whose file is refused."""
        counts = (0, len(self.cases), 0, self.most)
        return Result(candidate, REFUSED, *counts, digest, None, now(), problem)

    def _results(self, file: File, stopper: Stopper) -> list[CaseResult]:
        """What became of each case."""
        options, results = self.options, []
        until = None if options.seconds is None else time.monotonic() + options.seconds
        for case in self.cases:
            begun = time.monotonic()
            sitting = sitting_of(options, self.shared, [*self.data, file])
            set_up(options, case, sitting)
            ending = play(sitting, case, options, until, stopper)
            if stopper.caught:
                break
            seconds = time.monotonic() - begun
            results.append(result_of(options, sitting, case, ending, seconds, stopper))
        return results


def verdict_of(
    case: Case, options: Options, ending: Ending, halted: bool, same: bool, contents: bool
) -> str:
    """The verdict on a case: how its run ended, whether the machine is halted, and whether the
    display and the contents are those that are expected."""
    if ending.kind is EndKind.INTERRUPTED:
        return LATE
    if ending.kind is EndKind.OUTPUT_LIMIT:
        return WRONG
    wanted = case.end or ("returned" if case.call is not None else None)
    if wanted is None:
        wanted = ANY_HALT if options.any_halt else EndKind.HALTED.value
    if not halted if wanted == ANY_HALT else _ENDINGS.get(ending.kind, ending.kind.value) != wanted:
        if case.end is not None:
            return WRONG_END
        if case.call is not None:
            return NOT_RETURNED
        return str(ending.kind.value) if halted else NOT_HALTED
    if not same:
        return WRONG
    return RIGHT if contents else WRONG_CONTENTS


def result_of(
    options: Options,
    sitting: Sitting,
    case: Case,
    ending: Ending,
    seconds: float,
    stopper: Stopper,
) -> CaseResult:
    """What became of a case whose machine has stopped."""
    display, choices = sitting.display_bytes, (*options.lenient, *case.lenient)
    found = None
    if case.expected is not None:
        found = difference(compared(case.expected, choices), compared(display, choices))
    wrong = tuple(case.after.mismatches(ending.record, sitting.memory.words))
    verdict = verdict_of(case, options, ending, sitting.halted, found is None, not wrong)
    right = verdict == RIGHT
    return CaseResult(
        case=case.name,
        verdict=verdict,
        points=case.points if right else 0,
        most=case.points,
        flags=flags_of(options, sitting, ending, stopper),
        ending=_ENDINGS.get(ending.kind, ending.kind.value),
        ended=ending.text,
        steps=sitting.clock,
        seconds=round(seconds, 6),
        pc=ending.pc,
        line=ending.line,
        shown=len(display),
        difference=found,
        mismatches=wrong[:MOST_TOLD],
        display="" if right else display[:TOLD_BYTES].decode("latin-1"),
        last=() if right else tuple(map(str, sitting.last_program_steps(LAST_LINES))),
    )
