"""Which definitions are altered: those that the contracts of the C functions name, those that the
stated theorems name, and all that these rest on. What only private functions or tables use is
not altered."""
from __future__ import annotations

import re
from typing import Dict, Iterator, List, Set, Tuple

from .modules import Definition, Meaning, Module, RecordType, Repository
from .syntax import Node

# The theorems that are promised, found by name in whatever crate they stand.
THEOREMS = (
    'Noninterference', 'EndsAsNewerRun', 'CommonStepsAgree', 'OneAlteredWord', 'StepReads',
    'StepWrites', 'LogTells', 'TimerTheorems', 'MaskInPlaces', 'WrittenDiffersInMaskedBits',
    'DistinctWordsGiveDistinctLines', 'SavedFileLoads', 'LoggedRunIsTheRun',
    'PrivilegedWordsStay', 'ReadAfterWrite', 'WriteAfterReadExactly', 'WindowTheorems')
# Statements of these are not tried: they speak of runs of the monitor, thousands of steps each.
LEFT_OUT = ('monitor', 'sitting', 'monitor_examples', 'sitting_examples')
# Of the monitor its words are not altered: they are a program, and what it does is proved of its
# routines. Its table of vectors and its calls are.
PROGRAM = 'Routines'
GHOST = re.compile(r'ghost use Rattle\.(\w+)\.specs\.(\w+)\.\{([^}]*)\}')


def named_by_contracts(repository: Repository) -> Iterator[Meaning]:
    for crate in repository.crates:
        for path in sorted((repository.root / 'crates' / crate / 'src').glob('**/*.rt')):
            code = path.read_text()
            if 'extern "C"' not in code:
                continue
            for source, module, names in GHOST.findall(code):
                if source not in repository.crates:
                    continue                   # a library's
                scope = repository.modules[source, module].scope
                called = [name.strip() for name in names.split(',')]
                yield from (scope[name] for name in called if name in scope)


def named_by_theorems(repository: Repository) -> Iterator[Meaning]:
    for module in repository.modules.values():
        for name in THEOREMS:
            found = module.definitions.get(name) or module.records.get(name)
            if found:
                yield found


def names_in(node: Node) -> Set[str]:
    found = {node.value} if node.kind == 'var' else set()
    return found.union(*(names_in(part) for part in node.parts + node.types))


def rests_on(meaning: Meaning) -> Iterator[Tuple[Module, Set[str]]]:
    if isinstance(meaning, Definition):
        for equation in meaning.equations:
            yield meaning.module, names_in(equation.body)
    elif isinstance(meaning, RecordType):
        for _, kind in meaning.fields:
            yield meaning.module, names_in(kind)


def is_rule(module: Module) -> bool:
    return module.crate not in LEFT_OUT or module.crate == 'monitor' and module.name != PROGRAM


def altered(repository: Repository) -> List[Definition]:
    """The definitions to alter, in the order of the files."""
    waiting: List[Meaning] = [*named_by_contracts(repository), *named_by_theorems(repository)]
    found: Dict[int, Meaning] = {}
    while waiting:
        meaning = waiting.pop()
        if id(meaning) not in found:
            found[id(meaning)] = meaning
            for module, names in rests_on(meaning):
                waiting += [module.scope[name] for name in names if name in module.scope]
    return [definition for definition in repository.definitions()
            if id(definition) in found and is_rule(definition.module)
            and (not definition.is_statement() or definition.module.name == 'Range')]
