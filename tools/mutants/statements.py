"""The statements of the specs: tables, which are computed, and laws, which are tried on samples."""
from __future__ import annotations

import dataclasses
import signal
import time
from dataclasses import dataclass
from types import FrameType
from typing import Callable, Iterator, List, Optional, Set, Tuple

from .modules import Definition, Module, RecordType, Repository
from .program import Program, Unknown
from .roots import LEFT_OUT
from .syntax import Node, bare
from .values import Value


@dataclass
class Statement:
    name: str
    test: Callable[[], Value]
    seconds: float = 0.0
    # The definitions that computing it calls: with any other one altered it comes to the same.
    calls: Set[int] = dataclasses.field(default_factory=set)

    def holds(self) -> bool:
        try:
            return bool(self.test())
        except TimeoutError:
            raise
        except Exception:                      # no value of its type, or no end
            return False


def asks_all(module: Module, node: Node, kinds: Tuple[str, ...],
             seen: Tuple[str, ...] = ()) -> bool:
    """Does it, or a statement that it names, speak of all values or of some value?"""
    if node.kind in kinds:
        return True
    if node.kind == 'var' and node.value not in seen:
        meaning = module.scope.get(node.value)
        if isinstance(meaning, RecordType):
            return any(asks_all(meaning.module, kind, kinds, seen + (node.value,))
                       for _, kind in meaning.fields)
        if isinstance(meaning, Definition) and meaning.is_statement() and meaning.equations:
            return asks_all(meaning.module, meaning.equations[0].body, kinds, seen + (node.value,))
    return any(asks_all(module, part, kinds, seen) for part in node.parts)


def uncertain(module: Module, node: Node) -> bool:
    """Is there a premise of all values or of some value? A sample cannot tell whether it holds."""
    if node.kind == 'bin' and node.value == '→' and asks_all(module, node.parts[0], ('pi', 'sig')):
        return True
    if node.kind == 'var':
        meaning = module.scope.get(node.value)
        if isinstance(meaning, RecordType):
            return any(uncertain(meaning.module, kind) for _, kind in meaning.fields)
        if isinstance(meaning, Definition) and meaning.is_statement() and meaning.equations:
            return uncertain(meaning.module, meaning.equations[0].body)
    return any(uncertain(module, part) for part in node.parts)


def rows(module: Module, path: str, node: Node) -> Iterator[Tuple[str, Module, Node]]:
    """A statement taken apart: each field of a record that has no parameters by itself."""
    inner = bare(node)
    meaning = module.scope.get(inner.value) if inner.kind == 'var' else None
    if isinstance(meaning, RecordType) and not meaning.parameters:
        for name, kind in meaning.fields:
            yield from rows(meaning.module, f'{path}.{name}', kind)
    else:
        yield path, module, node


def claims(repository: Repository) -> Iterator[Tuple[str, Module, Node]]:
    """Every statement without parameters, by its rows."""
    for (crate, name), module in repository.modules.items():
        if crate in LEFT_OUT:
            continue
        for record in module.records.values():
            if not record.parameters:
                for field, kind in record.fields:
                    yield from rows(module, f'{crate}/{name}.{record.name}.{field}', kind)
        for definition in module.definitions.values():
            if definition.equations and definition.is_statement() and len(definition.types()) == 1:
                body = definition.equations[0].body
                yield from rows(module, f'{crate}/{name}.{definition.name}', body)


@dataclass
class Found:
    tables: List[Statement]
    laws: List[Statement]
    untried: List[str]
    false: List[str]


LONGEST = 2                                    # seconds beyond which a statement is left untried


def out_of_time(number: int, frame: Optional[FrameType]) -> None:
    raise TimeoutError


def within(seconds: float, statement: Statement) -> Value:
    """What the statement comes to, and in what time."""
    signal.signal(signal.SIGVTALRM, out_of_time)
    signal.setitimer(signal.ITIMER_VIRTUAL, seconds)
    begin = time.process_time()
    try:
        return statement.test()
    finally:
        signal.setitimer(signal.ITIMER_VIRTUAL, 0)
        statement.seconds = time.process_time() - begin


def statements(repository: Repository, program: Program) -> Found:
    """Every statement that can be tried, in the order of the time that it takes."""
    found = Found([], [], [], [])
    seen = set()
    for name, module, node in claims(repository):
        place = (module.crate, module.name, node.start)
        if place in seen:
            continue
        seen.add(place)
        is_law = asks_all(module, node, ('pi',))
        try:
            if uncertain(module, node):
                raise Unknown(name)
            statement = Statement(name, program.test(module, node))
            program.forget()
            value = within(LONGEST, statement)
            statement.calls = program.calls()
        except Unknown:
            if is_law:
                found.untried.append(name)
        except Exception:
            found.untried.append(name)
        else:
            if value is not True and value is not False:
                continue                       # a type, and no claim
            kept = found.laws if is_law else found.tables
            (kept.append(statement) if value else found.false.append(name))
    for kept in (found.tables, found.laws):
        kept.sort(key=lambda statement: statement.seconds)
    return found
