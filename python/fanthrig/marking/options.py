"""What bears on the results of a marking beside the cases and the files."""

from __future__ import annotations

from dataclasses import dataclass

from ..choices import MOST_SEED
from ..constants import USER_STACK
from ..records import Edition
from .comparing import check_choices


@dataclass(frozen=True)
class Options:
    """How candidates are run and compared. ``steps`` are those of a case that sets none;
    ``edition``, ``supervisor``, ``pc``, ``stack`` and ``monitor`` set up the machine, as for
    ``Sitting``.

    ``any_halt`` has a case passed however the machine was halted; ``follow_links`` has symbolic
    links followed. ``lenient`` are choices of ``fanthrig.marking.comparing`` for every case.
    ``seed`` has all words that the program reaches and all registers that a case leaves open filled
    by random contents, the same for every candidate. ``seconds`` is the time that a candidate has
    for all its cases together.
    """

    steps: int = 10_000_000
    edition: int = Edition.THIRD
    supervisor: bool = False
    pc: int | None = None
    stack: int = USER_STACK
    monitor: bool = True
    any_halt: bool = False
    follow_links: bool = False
    lenient: tuple[str, ...] = ()
    seed: int | None = None
    seconds: float | None = None

    def __post_init__(self) -> None:
        """Refuses what no marking can be made with."""
        if self.edition == Edition.SECOND and self.monitor:
            raise ValueError("the ready-made monitor does not serve edition 2: set monitor=False")
        check_choices(self.lenient)
        if self.seed is not None and not 0 <= self.seed <= MOST_SEED:
            raise ValueError(f"a seed is a number from 0 to {MOST_SEED}")
        if self.seconds is not None and not 0 < self.seconds < 1e9:
            raise ValueError("seconds is a number above 0")
