"""Spec files: their definitions, record types and constructors, found by crate and module."""
from __future__ import annotations

import re
from dataclasses import dataclass, field
from pathlib import Path
from typing import Dict, Iterator, List, Optional, Tuple, Union

from .syntax import Node, Parser, Token, arrows, items, tokens, type_text

RUST = {'bool': 'Bool', 'i16': 'ℤ', 'i32': 'ℤ', 'i64': 'ℤ'}
RUST.update((name, 'ℕ') for name in ('u8', 'u16', 'u32', 'u64', 'usize'))
MARKS = ('abbrev', 'unfoldable', 'pub')
PATH = re.compile(r'Rattle\.(\w+)\.specs\.(.*)$')


@dataclass
class Equation:
    patterns: List[Node]
    body: Node
    start: int
    end: int


@dataclass
class Definition:
    module: Module
    name: str
    type: Optional[Node] = None
    equations: List[Equation] = field(default_factory=list)
    number: int = 0

    def types(self) -> List[str]:
        """The types of the arguments and of the result."""
        assert self.type
        found = [type_text(part) for part in arrows(self.type)]
        if found[-1] == 'Step':                # the one function type that has a name
            found[-1:] = ['List ℕ', 'Machine', 'List ℕ', 'Outcome']
        return found

    def is_statement(self) -> bool:
        return self.type is not None and self.types()[-1].startswith('Type')


@dataclass
class RecordType:
    module: Module
    name: str
    parameters: List[str]
    fields: List[Tuple[str, Node]]


@dataclass
class Constructor:
    name: str
    type: str
    arguments: List[str]
    place: int = -1


@dataclass
class Primitive:
    name: str


Meaning = Union[Definition, RecordType, Constructor, Primitive]
# The library's types that have constructors. A and E stand for any type.
LIBRARY = {case.name: case for case in (
    Constructor('None', 'Option A', []), Constructor('Some', 'Option A', ['A']),
    Constructor('Ok', 'Result A E', ['A']), Constructor('Err', 'Result A E', ['E']))}


@dataclass
class Module:
    crate: str
    name: str
    text: str
    uses: List[Tuple[str, List[Tuple[str, str]]]] = field(default_factory=list)
    definitions: Dict[str, Definition] = field(default_factory=dict)
    records: Dict[str, RecordType] = field(default_factory=dict)
    constructors: Dict[str, Constructor] = field(default_factory=dict)
    scope: Dict[str, Meaning] = field(default_factory=dict)

    def constructor(self, name: str, place: int) -> Optional[Constructor]:
        """The constructor that a name is at this place: one declared later is no constructor."""
        meaning = self.scope.get(name)
        later = name in self.constructors and self.constructors[name].place > place
        return meaning if isinstance(meaning, Constructor) and not later else None


def lines_of(words: List[Token], text: str) -> List[List[Token]]:
    """The tokens of a declaration's body, one list for each line that is indented as the first."""
    def column(token: Token) -> int:
        return token.start - text.rfind('\n', 0, token.start)

    groups: List[List[Token]] = []
    for token in words:
        leads = not text[text.rfind('\n', 0, token.start) + 1:token.start].strip()
        if leads and column(token) == column(words[0]):
            groups.append([])
        groups[-1].append(token)
    return groups


def used_names(words: List[str]) -> List[Tuple[str, str]]:
    """The names of a `use`, each with what it is called here."""
    inner = words[words.index('{') + 1:words.index('}')]
    found: List[Tuple[str, str]] = []
    for part in ' '.join(inner).split(' , '):
        name, _, alias = part.partition(' as ')
        found.append((name.strip(), (alias or name).strip()))
    return found


def add_data(module: Module, words: List[Token], texts: List[str]) -> None:
    for group in lines_of(words[texts.index('where') + 1:], module.text):
        parts = [type_text(part) for part in arrows(Parser(group[2:]).expression())]
        name = group[0].text
        module.constructors[name] = Constructor(name, texts[2], parts[:-1], group[0].start)


def add_record(module: Module, words: List[Token], texts: List[str]) -> None:
    where = texts.index('where')
    parameters, at = [], 3
    while texts[at] == '(':
        colon = texts.index(':', at)
        parameters += texts[at + 1:colon]
        at = colon
        depth = 1
        while depth:
            at += 1
            depth += (texts[at] == '(') - (texts[at] == ')')
        at += 1
    groups = lines_of(words[where + 1:], module.text)
    fields = [(group[1].text, Parser(group[3:]).expression()) for group in groups]
    module.records[texts[2]] = RecordType(module, texts[2], parameters, fields)


def add_equation(module: Module, start: int, end: int) -> None:
    words = tokens(module.text, start, end)
    texts = [token.text for token in words]
    depth, equals = 0, 1
    while texts[equals] != '=' or depth:
        depth += (texts[equals] in '({') - (texts[equals] in ')}')
        equals += 1
    left, right = Parser(words[1:equals]), Parser(words[equals + 1:])
    patterns = []
    while not left.finished():
        left.skip_braces()                     # a name for an implicit argument
        patterns.append(left.atom())
    body = right.expression()
    if not right.finished():
        raise SyntaxError(f'{module.name}.{texts[0]}: the rest is {right.peek()}')
    definition = module.definitions.setdefault(texts[0], Definition(module, texts[0]))
    definition.equations.append(Equation(patterns, body, start, end))


def parsed(crate: str, name: str, text: str) -> Module:
    module = Module(crate, name, text)
    for start, end in items(text):
        words = tokens(text, start, end)
        texts = [token.text for token in words]
        if 'use' in texts and set(texts[:texts.index('use')]) <= set(MARKS):
            if '{' in texts:
                path = texts[texts.index('use') + 1]
                module.uses.append((path.rstrip('.'), used_names(texts)))
        elif texts[:2] == ['pub', 'mod'] or texts[0] == 'unfolding':
            continue
        elif texts[:2] == ['pub', 'data']:
            add_data(module, words, texts)
        elif texts[:2] == ['pub', 'record']:
            add_record(module, words, texts)
        elif texts[0] in MARKS:
            at = next(i for i, word in enumerate(texts) if word not in MARKS)
            definition = module.definitions.setdefault(texts[at], Definition(module, texts[at]))
            definition.type = Parser(words[at + 2:]).expression()
        else:
            add_equation(module, start, end)
    return module


def with_text(old: Definition, text: str, after: int) -> Definition:
    """The definition as it stands in the altered text of its module. What came after this place
    has moved with the end of the text."""
    moved = len(text) - len(old.module.text)
    module = Module(old.module.crate, old.module.name, text)
    for equation in old.equations:
        start, end = (place + moved if place > after else place
                      for place in (equation.start, equation.end))
        add_equation(module, start, end)
    altered = module.definitions[old.name]
    altered.module, altered.number = old.module, old.number
    return altered


def rust_type(text: str) -> str:
    text = text.strip()
    return 'List ℕ' if text.startswith('[') else RUST.get(text, text)


class Repository:
    """Every spec file of the crates that crates.txt lists, with names resolved."""

    def __init__(self, root: Path) -> None:
        self.root = root
        self.modules: Dict[Tuple[str, str], Module] = {}
        self.fields: Dict[Tuple[str, str], List[Tuple[str, str]]] = {}
        self.enums: Dict[Tuple[str, str], List[Constructor]] = {}
        lines = (root / 'crates.txt').read_text().splitlines()
        self.crates = [re.split('[ :]', line)[0] for line in lines if line and line[0] != '#']
        for crate in self.crates:
            self.read(crate)
        for module in self.modules.values():
            for record in module.records.values():
                fields = [(name, type_text(kind)) for name, kind in record.fields]
                self.fields.setdefault((module.crate, record.name), fields)
        for module in self.modules.values():
            self.link(module)
        for number, definition in enumerate(self.definitions()):
            definition.number = number

    def definitions(self) -> Iterator[Definition]:
        for module in self.modules.values():
            yield from (d for d in module.definitions.values() if d.equations)

    def read(self, crate: str) -> None:
        folder = self.root / 'crates' / crate
        for path in sorted(folder.glob('src/**/*.rt')):
            self.declare(crate, re.sub(r'//[^\n]*', '', path.read_text()))
        for path in sorted(folder.glob('specs/**/*.antt')):
            if path.name != 'Lib.antt':
                self.modules[crate, path.stem] = parsed(crate, path.stem, path.read_text())

    def declare(self, crate: str, code: str) -> None:
        """The records and enums that code declares."""
        for name, body in re.findall(r'pub struct (\w+)\s*\{([^}]*)\}', code):
            parts = [part.split(':', 1) for part in re.split(r',\s*\n', body) if ':' in part]
            self.fields[crate, name] = [(field.replace('pub', '').strip(), rust_type(kind))
                                        for field, kind in parts]
        for name, body in re.findall(r'pub enum (\w+)\s*\{([^}]*)\}', code):
            cases = re.findall(r'(\w+)(?:\(([^)]*)\))?\s*,', body)
            self.enums[crate, name] = [
                Constructor(case, name, [rust_type(kind) for kind in given.split(',') if kind])
                for case, given in cases]

    def record_fields(self, name: str) -> List[List[Tuple[str, str]]]:
        """The fields of each record of this name."""
        return [fields for (_, record), fields in self.fields.items() if record == name]

    def link(self, module: Module) -> None:
        for path, names in module.uses:
            match = PATH.match(path)
            for name, alias in names:
                meaning: Optional[Meaning] = LIBRARY.get(name) or Primitive(name)
                if match and match.group(1) in self.crates:
                    meaning = self.imported(match.group(1), match.group(2), name)
                if meaning:
                    module.scope[alias] = meaning
        module.scope.update(module.definitions)
        module.scope.update(module.constructors)
        module.scope.update(module.records)
        for name in ('true', 'false', '[]', 'Unit', '⊥', 'tt'):
            module.scope.setdefault(name, Primitive(name))

    def imported(self, crate: str, path: str, name: str) -> Optional[Meaning]:
        if path.startswith('declared.'):
            cases = self.enums.get((crate, path.split('.')[-2]), [])
            return next((case for case in cases if case.name == name), None)
        source = self.modules[crate, path.split('.')[-1]]
        found = source.definitions.get(name) or source.constructors.get(name)
        return found or source.records.get(name) or self.passed_on(source, name)

    def passed_on(self, source: Module, name: str) -> Optional[Meaning]:
        """A name that a module has from another one, and passes on."""
        for path, names in source.uses:
            match = PATH.match(path)
            if match and match.group(1) in self.crates:
                for there, alias in names:
                    if alias == name:
                        return self.imported(match.group(1), match.group(2), there)
        return None
