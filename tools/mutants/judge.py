"""The verdict on an altered definition.

by a row        a computed example comes to something else
by a theorem    no row does, but a stated theorem is false on a sample: no proof of it can stand
survives        neither. It must stand in unchanged.txt, with the reason why it changes nothing

Rows that take long are asked last, after the theorems.
"""
from __future__ import annotations

import signal
from dataclasses import dataclass
from typing import List

from .alterations import Alteration
from .modules import Definition, Repository, with_text
from .program import Program
from .samples import Samples
from .statements import Found, Statement, statements

SECONDS = 10                                   # for one definition; one that has no end is noticed
SLOW = 1.0                                     # seconds beyond which a theorem is not tried
QUICK = 0.05                                   # seconds up to which a statement may be asked first
# Rows that take long, and the crates whose definitions they are for: no others are tried with them.
LONG, OF_RUNS = 'numbers/Counts.ManySteps', ('run', 'logging')
ROW, THEOREM, SURVIVES, NO_DEFINITION = 'row', 'theorem', 'survives', 'no definition'


@dataclass
class Verdict:
    alteration: Alteration
    kind: str
    by: str = ''


class Judge:
    def __init__(self, repository: Repository) -> None:
        self.repository, self.samples = repository, Samples()
        self.program = Program(repository, self.samples.hold)
        step = next(d for d in repository.definitions() if d.name == 'step_by')
        self.samples.step = lambda *given: self.program.names[f'f_{step.number}'](*given)
        self.found: Found = statements(repository, self.program)
        self.found.untried += [s.name for s in self.found.laws if s.seconds > SLOW]
        self.found.laws = [s for s in self.found.laws if s.seconds <= SLOW]
        self.long = [s for s in self.found.tables if s.name.startswith(LONG)]
        self.found.tables = [s for s in self.found.tables if not s.name.startswith(LONG)]

    def verdict(self, alteration: Alteration) -> Verdict:
        """Puts the altered definition in place of its original, and asks tables and theorems."""
        key = f'f_{alteration.definition.number}'
        original = self.program.names.get(key)
        try:
            self.exchange(alteration)
        except (SyntaxError, NameError, KeyError, IndexError):
            self.program.names[key] = original
            return Verdict(alteration, NO_DEFINITION)
        signal.setitimer(signal.ITIMER_VIRTUAL, SECONDS)
        try:
            for kind, tried in ((ROW, self.found.tables), (THEOREM, self.found.laws),
                                (ROW, self.long)):
                by = self.refusing(tried, alteration.definition)
                if by:
                    return Verdict(alteration, kind, by)
            return Verdict(alteration, SURVIVES)
        except TimeoutError:
            return Verdict(alteration, ROW, 'it has no end')
        finally:
            signal.setitimer(signal.ITIMER_VIRTUAL, 0)
            self.samples.depth = 0
            self.program.names[key] = original

    def exchange(self, alteration: Alteration) -> None:
        old = alteration.definition
        self.program.define(with_text(old, alteration.text(), alteration.start))
        if f'f_{old.number}' not in self.program.names:
            raise NameError(old.name)

    def refusing(self, tried: List[Statement], altered: Definition) -> str:
        """The first statement that does not hold; if quick, it is asked first the next time."""
        self.program.remembered.clear()
        if tried is self.long and altered.module.crate not in OF_RUNS:
            return ''
        for at, statement in enumerate(tried):
            if altered.number in statement.calls and not statement.holds():
                if statement.seconds <= QUICK:
                    tried.insert(0, tried.pop(at))
                return statement.name
        return ''
