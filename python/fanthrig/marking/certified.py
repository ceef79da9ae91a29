"""That a certificate holds for a marking: for its files, its options and its cases."""

from __future__ import annotations

from typing import Sequence

from ..certifying.certificate import Certificate
from ..certifying.claims import Cell
from ..certifying.making import check_secret, check_test, check_whole, differences
from ..certifying.problems import OF_MONITOR, NotCertified
from ..recording import Program
from ..records import Edition
from ..sitting import Sitting
from .cases import Case
from .options import Options


def check_certificate(
    made: Certificate,
    options: Options,
    cases: Sequence[Case],
    sitting: Sitting,
    beside: Sequence[Program],
) -> None:
    """That the proved test accepts a certificate, and that every candidate begins as the theorem
    asks it: in User mode by the third edition's rules, with the fixed words in memory, and with the
    files ``beside`` the monitor clear of its stack. What is not so is a ``ValueError``, or
    ``NotCertified``."""
    if options.supervisor or options.edition != Edition.THIRD:
        raise ValueError(
            "a certificate is for programs in User mode by the third edition's rules: leave the "
            "other options out, or mark uncertified"
        )
    try:
        wrong = list(differences(made, sitting.memory.words))
        if wrong:
            raise NotCertified(wrong)
        check_test(made)
        check_secret(made, beside)
        check_whole(made, beside, OF_MONITOR)
    except NotCertified as error:
        raise NotCertified(error.problems, sitting.programs[0].subject) from None
    for case in cases:
        for address, _ in case.before.words:
            if made.kinds[address : address + 1] == bytes([Cell.FIXED]):
                raise ValueError(
                    f"case {case.name!r} sets x{address:04X}, a word of the monitor's that never "
                    "changes: leave it out"
                )
