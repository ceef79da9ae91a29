"""Alterations of a second kind: values that lose bits, and rules that hold only where something
else of the record does. They find rows that are too much alike."""
from __future__ import annotations

from typing import Iterator, List, Optional

from .alterations import Alteration
from .modules import Definition, Equation, Primitive, Repository
from .syntax import Node
from .types import Types, Typing

CRATES = ('machine', 'run', 'logging')
LOSSES = ('% 0x80', '% 0x8000', '/ 2 * 2')
OF_MACHINE = (
    'eqb {}.devices.busy 0', 'eqb {}.devices.timer_interval 0',
    'not (eqb {}.devices.timer_interval 0)',
    'ltb {}.devices.timer_status 0x8000', 'leb 0x8000 {}.devices.timer_status',
    'not (eqb {}.devices.timer_count {}.devices.timer_interval)',
    'ltb {}.devices.kbsr 0x8000', 'leb 0x8000 {}.devices.kbsr',
    'leb 0x8000 {}.devices.mcr',
    'ltb {}.psr 0x8000', 'leb 0x8000 {}.psr', 'ltb ({}.psr % 0x800) 0x400',
    'leb 0x400 ({}.psr % 0x800)',
    'ltb {}.pc 0x8000', 'ltb {}.devices.kbdr 0x80')
OF_END = ('eqb {}.keys 0', 'eqb {}.steps 0', 'eqb {}.shown 0', 'not (eqb {}.steps 0)',
          'leb 0x8000 {}.machine.devices.mcr', 'eqb {}.machine.devices.busy 0')
CONDITIONS = {'Machine': OF_MACHINE, 'End': OF_END}


def allow_conditions(repository: Repository) -> None:
    """What the conditions name is known everywhere."""
    outcome = next(m for (_, name), m in repository.modules.items() if name == 'Outcome')
    for module in repository.modules.values():
        for name in ('cond', 'not', 'eqb', 'leb', 'ltb', 'false', '[]'):
            module.scope.setdefault(name, Primitive(name))
        module.scope.setdefault('plain_outcome', outcome.definitions['plain_outcome'])


class Conditions:
    def __init__(self, repository: Repository) -> None:
        self.typing = Typing(repository)

    def alterations(self, definition: Definition) -> Iterator[Alteration]:
        if definition.module.crate not in CRATES or definition.is_statement():
            return
        for equation in definition.equations:
            types = self.typing.bound(definition, equation)
            yield from self.conditional(definition, equation, types)
            yield from self.narrowed(definition, equation.body, types)

    def conditional(self, definition: Definition, equation: Equation,
                    types: Types) -> Iterator[Alteration]:
        """The rule holds only under a condition that it has nothing to do with."""
        complete = len(equation.patterns) == len(definition.types()) - 1
        result = definition.types()[-1] if complete else ''
        start, end = equation.body.start, equation.body.end
        body = definition.module.text[start:end]
        for name, kind in types.items():
            otherwise = self.otherwise(result, name, kind, types)
            if body == otherwise:
                continue                       # the same on both sides
            for condition in CONDITIONS.get(kind or '', ()) if otherwise else ():
                new = f'cond ({condition.format(name, name)}) ({body}) {otherwise}'
                yield Alteration(definition, 'condition', start, end, new)

    @staticmethod
    def otherwise(result: str, name: str, kind: Optional[str], types: Types) -> Optional[str]:
        """What stands where the condition does not hold: nothing done."""
        if result == kind:
            return name
        if result == 'Outcome' and kind == 'Machine' and 'mem' in types:
            return f'(plain_outcome {name} mem)'
        simple = {'Bool': 'false', 'ℕ': '0', 'List ℕ': '[]', 'Option Interrupt': 'None'}
        return simple.get(result)

    def narrowed(self, definition: Definition, node: Node, types: Types) -> Iterator[Alteration]:
        """A number that loses bits."""
        bound = node.kind == 'proj' or node.kind == 'var' and node.value in types
        if bound and self.typing.of(definition.module, node, types) == 'ℕ':
            text = definition.module.text[node.start:node.end]
            for loss in LOSSES:
                yield Alteration(definition, 'bits lost', node.start, node.end, f'({text} {loss})')
        parts: List[Node] = node.parts
        if node.kind == 'let':
            yield from self.narrowed(definition, parts[0], types)
            value = self.typing.of(definition.module, parts[0], types)
            types, parts = {**types, node.value: value}, parts[1:]
        for part in parts:
            yield from self.narrowed(definition, part, types)
