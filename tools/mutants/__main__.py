"""python3 -m mutants [--root DIR] [--extra] [--list] [--known FILE ..] [CRATE/MODULE[.NAME] ..]

Alters every definition, or those named, and prints the score, what survives, and what of
unchanged.txt is out of date.
It ends with 1 where something survives that does not stand in unchanged.txt.
"""
from __future__ import annotations

import argparse
import os
import re
import resource
import sys
from collections import Counter
from dataclasses import replace
from pathlib import Path
from typing import Dict, Iterator, List, Optional, Set, Tuple

from .alterations import Alteration, Alterer
from .conditions import Conditions, allow_conditions
from .judge import NO_DEFINITION, ROW, SURVIVES, THEOREM, Judge, Verdict
from .modules import Repository
from .roots import altered

UNCHANGED = Path(__file__).with_name('unchanged.txt')
BEYOND = 'Beyond this tool:'                   # how the reason begins of what a proof alone refuses
DEEPEST, STACK = 200_000, 100 << 20            # frames of Python, and bytes
EACH = re.compile(r'(.*) \(numbers (\d+) to (\d+)\)')


def options() -> argparse.Namespace:
    parser = argparse.ArgumentParser(prog='mutants', description='Would a wrong rule be noticed?')
    parser.add_argument('names', nargs='*', metavar='CRATE/MODULE[.NAME]', help='alter these alone')
    parser.add_argument('--root', type=Path, default=Path('.'), help='the repository')
    parser.add_argument('--extra', action='store_true',
                        help='also values that lose bits, and needless conditions')
    parser.add_argument('--list', action='store_true', help='print the alterations and judge none')
    parser.add_argument('--verdicts', default=os.devnull, help='write each verdict to this file')
    parser.add_argument('--known', action='append', default=[], type=Path, metavar='FILE',
                        help='verdicts of an earlier run on the same files: not judged again')
    return parser.parse_args()


def all_alterations(repository: Repository, names: List[str], extra: bool) -> Iterator[Alteration]:
    alterer, conditions = Alterer(repository), Conditions(repository)
    for definition in altered(repository):
        place = f'{definition.module.crate}/{definition.module.name}'
        called = {place, f'{place}.{definition.name}', definition.module.crate}
        if names and not called & set(names):
            continue
        found = list(alterer.alterations(definition))
        if extra:
            found += conditions.alterations(definition)
        yield from numbered(found)


def numbered(alterations: List[Alteration]) -> Iterator[Alteration]:
    """Those of one definition that read alike, told apart by their order in the text."""
    seen: 'Counter[str]' = Counter()
    for alteration in sorted(alterations, key=lambda each: (each.start, each.end)):
        text = str(alteration)
        seen[text] += 1
        yield replace(alteration, number=seen[text])


def each(line: str) -> List[str]:
    """The alterations that a line of unchanged.txt names: one, or several that read alike."""
    several = EACH.fullmatch(line)
    if not several:
        return [line]
    numbers = range(int(several.group(2)), int(several.group(3)) + 1)
    text = several.group(1)
    return [text if number == 1 else f'{text} (number {number})' for number in numbers]


def reasons() -> Dict[str, str]:
    """The survivors that change nothing, each with the reason above it in unchanged.txt."""
    found: Dict[str, str] = {}
    reason: List[str] = []
    above = ''
    for line in UNCHANGED.read_text().splitlines():
        if line.startswith('#'):
            above = ' '.join(filter(None, [above, line[1:].strip()]))
        elif line.strip():
            reason, above = [above] if above else reason, ''
            found.update(dict.fromkeys(each(line.strip()), reason[0]))
        else:
            above = ''
    return found


def column_of(reason: Optional[str]) -> str:
    """Where a survivor is counted, by its reason."""
    if reason is None:
        return 'survive'
    return 'beyond the tool' if reason.startswith(BEYOND) else 'change nothing'


def score(verdicts: List[Verdict], known: Dict[str, str]) -> List[str]:
    """The figures, for each file and for all."""
    columns = ('tried', 'by a row', 'by a theorem', 'beyond the tool', 'change nothing', 'survive')
    counts: Dict[str, 'Counter[str]'] = {}
    for verdict in verdicts:
        module = verdict.alteration.definition.module
        names = {ROW: 'by a row', THEOREM: 'by a theorem'}
        column = names.get(verdict.kind, column_of(known.get(str(verdict.alteration))))
        for place in (f'{module.crate}/{module.name}', 'all'):
            counts.setdefault(place, Counter()).update(['tried', column])
    order = sorted(counts, key=lambda place: (place == 'all', place))
    lines = ['| File | ' + ' | '.join(columns) + ' |', '|---' * (len(columns) + 1) + '|']
    for place in order:
        lines.append(' | '.join([f'| {place}', *(str(counts[place][c]) for c in columns)]) + ' |')
    return lines


def earlier(files: List[Path]) -> Dict[str, Tuple[str, str]]:
    """The verdicts that earlier runs wrote down: kind and statement of each alteration."""
    found: Dict[str, Tuple[str, str]] = {}
    for line in (line for file in files for line in file.read_text().splitlines()):
        kind, by, alteration = line.split(' | ', 2)
        found[alteration] = (kind, by)
    return found


def judged(judge: Judge, alterations: Iterator[Alteration], chosen: argparse.Namespace
           ) -> Iterator[Verdict]:
    """The verdicts, each written down as soon as it is known."""
    known = earlier(chosen.known)
    with open(chosen.verdicts, 'w', buffering=1) as file:
        for alteration in alterations:
            verdict = (Verdict(alteration, *known[str(alteration)]) if str(alteration) in known
                       else judge.verdict(alteration))
            if verdict.kind != NO_DEFINITION:
                file.write(f'{verdict.kind} | {verdict.by} | {verdict.alteration}\n')
                yield verdict


def not_asked(repository: Repository, extra: bool) -> Set[str]:
    """What --extra alone alters, where it is not given."""
    if extra:
        return set()
    every, asked = (set(map(str, all_alterations(repository, [], more))) for more in (True, False))
    return every - asked


def judge_all(chosen: argparse.Namespace) -> int:
    repository = Repository(chosen.root)
    if chosen.extra:
        allow_conditions(repository)
    if chosen.list:
        print('\n'.join(map(str, all_alterations(repository, chosen.names, chosen.extra))))
        return 0
    judge = Judge(repository)
    found = judge.found
    print(f'{len(found.tables) + len(judge.long)} rows; {len(found.laws)} theorems on samples; '
          f'{len(found.untried)} not tried on samples')
    alterations = all_alterations(repository, chosen.names, chosen.extra)
    verdicts = list(judged(judge, alterations, chosen))
    known = reasons()
    print('\n'.join(score(verdicts, known)))
    surviving = {str(v.alteration) for v in verdicts if v.kind == SURVIVES}
    for line in sorted(surviving - set(known)):
        print('survives:', line)
    if not chosen.names:
        for line in sorted(set(known) - surviving - not_asked(repository, chosen.extra)):
            print('in unchanged.txt, and survives no longer:', line)
    return 1 if surviving - set(known) else 0


def main() -> int:
    sys.setrecursionlimit(DEEPEST)             # definitions recur as deep as a run has steps
    resource.setrlimit(resource.RLIMIT_STACK, (STACK, resource.getrlimit(resource.RLIMIT_STACK)[1]))
    return judge_all(options())


if __name__ == '__main__':
    sys.exit(main())
