"""The alterations of a definition: each changes it at one point, and leaves it one of its type."""
from __future__ import annotations

from dataclasses import dataclass
from typing import Callable, Dict, Iterator, List, Optional, Set, Tuple

from .modules import Constructor, Definition, Module, Repository
from .syntax import Node, bare
from .types import Types, Typing

INSTEAD = {'<': ['≤'], '+': ['-'], '-': ['+'], '*': ['/'], '/': ['%', '*'], '%': ['/'],
           '&&': ['||'], '||': ['&&']}
DROPPABLE = ('+', '-', '*', '/', '%', '&&', '||', '++', '×')
COMPARISONS = (('eqb', 'leb', 'ltb'), ('nat_eq', 'nat_le', 'nat_lt'), ('int_le', 'int_lt'),
               ('le_z', 'lt_z'), ('take', 'drop'))
ALWAYS_KNOWN = ('eqb', 'nat_eq')             # comparisons that stand in for each other even unnamed


@dataclass(frozen=True)
class Alteration:
    definition: Definition
    kind: str
    start: int
    end: int
    new: str
    number: int = 1                            # of those of a definition that read alike

    def place(self) -> str:
        module = self.definition.module
        return f'{module.crate}/{module.name}.{self.definition.name}'

    def __str__(self) -> str:
        old = self.definition.module.text[self.start:self.end]
        text = f'{self.place()}: {" ".join(old.split())} => {" ".join(self.new.split())}'
        return text if self.number == 1 else f'{text} (number {self.number})'

    def text(self) -> str:
        """The whole module, altered."""
        text = self.definition.module.text
        return text[:self.start] + self.new + text[self.end:]


def other_numbers(number: int) -> List[int]:
    """One more, one less, none, twice, half; and without its highest or its lowest bit."""
    found = [number + 1, number - 1, 0]
    if number > 1:
        found += [number * 2, number // 2]
    if number >= 256 and number & (number - 1):
        found += [number ^ (1 << (number.bit_length() - 1)), number ^ (number & -number)]
    return [other for other in dict.fromkeys(found) if other >= 0 and other != number]


class Alterer:
    def __init__(self, repository: Repository) -> None:
        self.repository, self.typing = repository, Typing(repository)
        self.walkers: Dict[str, Callable[[Node, Types], None]] = {
            'num': self.number, 'bin': self.binary, 'proj': self.projection, 'rec': self.record,
            'var': self.name, 'app': self.application}
        self.definition: Definition
        self.module: Module
        self.found: Dict[Tuple[int, int, str], Alteration] = {}
        self.lists: Set[int] = set()

    def alterations(self, definition: Definition) -> Iterator[Alteration]:
        self.definition, self.module = definition, definition.module
        self.found, self.lists = {}, set()
        if definition.type is None:
            return
        bound = [self.typing.bound(definition, equation) for equation in definition.equations]
        for at, equation in enumerate(definition.equations):
            self.walk(equation.body, bound[at])
            for other in (at - 1, at + 1):
                if 0 <= other < len(bound):
                    self.neighbour(at, other, bound)
        yield from self.found.values()

    def text(self, node: Node) -> str:
        return self.module.text[node.start:node.end]

    def argument(self, node: Node) -> str:
        """The text of a node as it can stand as an argument."""
        text = self.text(node)
        return text if node.kind in ('par', 'num', 'var', 'str', 'proj') else f'({text})'

    def put(self, kind: str, start: int, end: int, new: str) -> None:
        if self.module.text[start:end] != new:
            alteration = Alteration(self.definition, kind, start, end, new)
            self.found.setdefault((start, end, new), alteration)

    def replace(self, kind: str, node: Node, new: str) -> None:
        self.put(kind, node.start, node.end, new)

    def exchange(self, kind: str, left: Node, right: Node) -> None:
        between = self.module.text[left.end:right.start]
        if self.text(left) != self.text(right):
            new = self.argument(right) + between + self.argument(left)
            self.put(kind, left.start, right.end, new)

    def walk(self, node: Node, types: Types) -> None:
        walker = self.walkers.get(node.kind)
        if walker:
            walker(node, types)
        if node.kind == 'let':
            self.walk(node.parts[0], types)
            types = {**types, node.value: self.typing.of(self.module, node.parts[0], types)}
            self.walk(node.parts[1], types)
        elif node.kind != 'lam':
            applied = node.kind == 'app' and bare(node.parts[0]).kind == 'var'
            for part in node.parts[1:] if applied else node.parts:
                self.walk(part, types)

    def neighbour(self, at: int, other: int, bound: List[Types]) -> None:
        """The right-hand side of the case before or after, where it makes sense."""
        mine, theirs = self.definition.equations[at].body, self.definition.equations[other].body
        used = self.variables(theirs, bound[other])
        if all(name in bound[at] and bound[at][name] == bound[other][name] for name in used):
            self.replace('case of a neighbour', mine, self.text(theirs))

    def variables(self, node: Node, types: Types) -> Set[str]:
        found = {node.value} if node.kind == 'var' and node.value in types else set()
        return found.union(*(self.variables(part, types) for part in node.parts))

    def number(self, node: Node, types: Types) -> None:
        written = self.text(node)
        for other in other_numbers(node.value):
            as_hex = f'0x{other:0{max(len(written) - 2, 1)}X}'
            self.replace('number', node, as_hex if written.startswith('0x') else str(other))

    def binary(self, node: Node, types: Types) -> None:
        left, right = node.parts
        for operator in INSTEAD.get(node.value, []):
            new = f'({self.argument(left)} {operator} {self.argument(right)})'
            self.replace('operator', node, new)
        if node.value in DROPPABLE:
            self.replace('operand dropped', node, f'({self.text(left)})')
            self.replace('operand dropped', node, f'({self.text(right)})')
        if node.value == '-':
            new = f'({self.argument(right)} - {self.argument(left)})'
            self.replace('operands exchanged', node, new)
        if node.value == '==':
            for name in ('nat_le', 'nat_lt'):
                new = f'({name} {self.argument(left)} {self.argument(right)})'
                self.replace('comparison', node, new)
        if node.value == '∷':
            self.elements(node, types)

    def elements(self, node: Node, types: Types) -> None:
        found, rest = [], node
        while rest.kind == 'bin' and rest.value == '∷':
            found.append(rest.parts[0])
            rest = rest.parts[1]
        if bare(rest).value != '[]' or len(found) == 1:
            if rest is node.parts[1] and self.typing.of(self.module, rest, types):
                self.replace('element dropped', node, f'({self.text(rest)})')
        elif rest.start not in self.lists:
            self.lists.add(rest.start)
            for first, second in zip(found, found[1:]):
                self.exchange('elements exchanged', first, second)
            for first, second in zip(found, found[1:] + [rest]):
                self.put('element dropped', first.start, second.start, '')
            if len(found) > 2:
                backwards = ' ∷ '.join(self.argument(each) for each in reversed(found))
                self.put('list reversed', found[0].start, found[-1].end, backwards)

    def projection(self, node: Node, types: Types) -> None:
        record = self.typing.of(self.module, node.parts[0], types)
        for fields in self.repository.record_fields(record or '')[:1]:
            mine = dict(fields).get(node.value)
            alike = [name for name, kind in fields if kind == mine]
            if node.value in alike:
                at = alike.index(node.value)
                dot = self.module.text.rfind('.', node.parts[0].end, node.end)
                for name in (alike[other % len(alike)] for other in (at + 1, at - 1, at + 2)):
                    if name != node.value:
                        self.put('field', dot, node.end, f'.{name}')

    def record(self, node: Node, types: Types) -> None:
        known = self.repository.fields.values()
        alike = [fields for fields in known if [name for name, _ in fields] == node.value]
        fields = alike[0] if alike else []
        for at, (_, kind) in enumerate(fields):
            for other in range(at + 1, len(fields)):
                left, right = node.parts[at], node.parts[other]
                if fields[other][1] == kind and self.text(left) != self.text(right):
                    self.exchange_values(left, right)
                    break

    def exchange_values(self, left: Node, right: Node) -> None:
        between = self.module.text[left.end:right.start]
        new = self.text(right) + between + self.text(left)
        self.put('fields exchanged', left.start, right.end, new)

    def name(self, node: Node, types: Types) -> None:
        kind = self.typing.of(self.module, node, types)
        if node.value in types:
            others = [name for name, other in types.items()
                      if kind and other == kind and name != node.value]
            for name in others[:3]:
                self.replace('variable', node, name)
            if kind == 'ℕ' and not others:
                self.replace('variable', node, f'({node.value} + 1)')
        elif node.value in ('true', 'false'):
            self.replace('constant', node, 'false' if node.value == 'true' else 'true')
        else:
            self.siblings(node, kind)

    def siblings(self, node: Node, kind: Optional[str]) -> None:
        """Other constructors, constants and functions of the same type that are in scope."""
        meaning = self.module.scope.get(node.value)
        if isinstance(meaning, Constructor):
            alike = [name for name, other in self.module.scope.items()
                     if isinstance(other, Constructor) and other.type == meaning.type
                     and other.arguments == meaning.arguments]
            for name in [name for name in alike if name != node.value][:3]:
                self.replace('constructor', node, name)
        elif isinstance(meaning, Definition) and kind and (kind == 'ℕ' or '→' in kind):
            for name in self.alike(node):
                self.replace('function' if '→' in kind else 'constant', node, name)

    def alike(self, node: Node) -> List[str]:
        """The two nearest definitions of the same type that stand before this place."""
        signature = self.typing.signature(self.module, node.value)
        order = list(self.module.scope)
        found = []
        for name, meaning in self.module.scope.items():
            if name == node.value or not isinstance(meaning, Definition) or not meaning.equations:
                continue
            later = meaning.equations[0].start >= self.definition.equations[0].start
            alike = self.typing.signature(self.module, name) == signature
            if alike and not (later and meaning.module is self.module):
                found.append(name)
        found.sort(key=lambda name: abs(order.index(name) - order.index(node.value)))
        return found[:2]

    def application(self, node: Node, types: Types) -> None:
        head, arguments = bare(node.parts[0]), node.parts[1:]
        if head.kind != 'var' or head.value in types:
            return
        for group in COMPARISONS:
            for name in group if head.value in group else ():
                if name in self.module.scope or name != head.value and group[0] in ALWAYS_KNOWN:
                    self.replace('comparison', head, name)
        if head.value == 'cond' and len(arguments) == 3:
            self.exchange('branches exchanged', arguments[1], arguments[2])
            self.replace('branch taken always', node, f'({self.text(arguments[1])})')
            self.replace('branch never taken', node, f'({self.text(arguments[2])})')
        else:
            self.siblings(head, self.typing.of(self.module, head, types))
            self.arguments(node, head, arguments)

    def arguments(self, node: Node, head: Node, arguments: List[Node]) -> None:
        """Arguments of one type exchanged, or one of them in place of the result."""
        signature = self.typing.signature(self.module, head.value)
        if not signature or head.value in ALWAYS_KNOWN:
            return
        for at, kind in enumerate(signature[:-1][:len(arguments)]):
            for other in range(at + 1, min(len(signature) - 1, len(arguments))):
                if signature[other] == kind:
                    self.exchange('arguments exchanged', arguments[at], arguments[other])
            if kind == signature[-1] and len(arguments) == len(signature) - 1:
                self.replace('application dropped', node, self.argument(arguments[at]))
