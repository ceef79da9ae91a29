"""The types of expressions, as far as an alteration needs them to be a definition of its type."""
from __future__ import annotations

from typing import Dict, List, Optional

from .modules import LIBRARY, Constructor, Definition, Equation, Module, Primitive, Repository
from .syntax import Node, Parser, bare, tokens, type_text
from .values import BUILTINS

Types = Dict[str, Optional[str]]


def plain(kind: str) -> str:
    """A type without its outer parentheses."""
    return kind[1:-1] if kind.startswith('(') and kind.endswith(')') else kind


def parts(kind: str) -> List[str]:
    """The name of a type and what it is applied to."""
    node = Parser(tokens(kind, 0, len(kind))).expression()
    return list(map(type_text, node.parts)) if node.kind == 'app' else [kind]


class Typing:
    def __init__(self, repository: Repository) -> None:
        self.repository = repository

    def signature(self, module: Module, name: str) -> Optional[List[str]]:
        """The types of a global name: arguments and result."""
        meaning = module.scope.get(name)
        if isinstance(meaning, Definition) and meaning.type is not None:
            return meaning.types()
        if isinstance(meaning, Constructor) and meaning.name not in LIBRARY:
            return meaning.arguments + [meaning.type]
        if isinstance(meaning, Primitive) and meaning.name in BUILTINS:
            return BUILTINS[meaning.name].types()
        return None

    def of(self, module: Module, node: Node, types: Types) -> Optional[str]:
        node = bare(node)
        if node.kind == 'num':
            return 'ℕ'
        if node.kind == 'bin':
            return self.of_binary(module, node, types)
        if node.kind == 'proj':
            return self.of_field(self.of(module, node.parts[0], types), node.value)
        if node.kind == 'let':
            value = self.of(module, node.parts[0], types)
            return self.of(module, node.parts[1], {**types, node.value: value})
        if node.kind == 'var':
            if node.value in types:
                return types[node.value]
            if node.value in ('true', 'false'):
                return 'Bool'
            signature = self.signature(module, node.value)
            return ' → '.join(signature) if signature else None
        return self.of_application(module, node, types) if node.kind == 'app' else None

    def of_binary(self, module: Module, node: Node, types: Types) -> Optional[str]:
        if node.value in '+-*/%^':
            return 'ℕ'
        if node.value in ('&&', '||', '=='):
            return 'Bool'
        if node.value == '∷':
            element = self.of(module, node.parts[0], types)
            if element:
                return f'List ({element})' if ' ' in element else f'List {element}'
            return self.of(module, node.parts[1], types)
        if node.value == '++':
            return self.of(module, node.parts[0], types) or self.of(module, node.parts[1], types)
        return None

    def of_field(self, record: Optional[str], name: str) -> Optional[str]:
        for fields in self.repository.record_fields(record or ''):
            for field, kind in fields:
                if field == name:
                    return kind
        return None

    def of_application(self, module: Module, node: Node, types: Types) -> Optional[str]:
        head, given = bare(node.parts[0]), len(node.parts) - 1
        if head.kind != 'var' or head.value in types:
            return None
        if head.value == 'cond' and given == 3:
            return self.of(module, node.parts[2], types) or self.of(module, node.parts[3], types)
        if head.value in ('get_or', 'slice_index_or') and given == 3:
            return self.of(module, node.parts[3], types)
        signature = self.signature(module, head.value)
        return ' → '.join(signature[given:]) if signature and len(signature) > given else None

    def bound(self, definition: Definition, equation: Equation) -> Types:
        """The types of the names that an equation's patterns bind."""
        types: Types = {}
        for pattern, kind in zip(equation.patterns, definition.types()):
            self.bind(definition.module, pattern, kind, types)
        return types

    def bind(self, module: Module, pattern: Node, kind: Optional[str], types: Types) -> None:
        pattern = bare(pattern)
        if pattern.kind == 'num':
            return
        if pattern.kind == 'bin':
            element = plain(kind[5:]) if kind and kind.startswith('List ') else None
            self.bind(module, pattern.parts[0], element, types)
            self.bind(module, pattern.parts[1], kind, types)
            return
        head = str(bare(pattern.parts[0]).value if pattern.kind == 'app' else pattern.value)
        given = pattern.parts[1:] if pattern.kind == 'app' else []
        case = module.constructor(head, pattern.start)
        if head in ('suc', 'pos', 'negsuc') or case:
            held: List[Optional[str]] = self.held(module, case, kind) if case else ['ℕ']
            for part, inner in zip(given, held):
                self.bind(module, part, inner, types)
        elif head not in ('[]', 'true', 'false', 'zero', '_'):
            types[head] = kind

    @staticmethod
    def held(module: Module, case: Constructor, kind: Optional[str]) -> List[Optional[str]]:
        """The types of what a constructor holds in a value of this type, which may be the name of
        another one."""
        meaning = module.scope.get(kind or '')
        if isinstance(meaning, Definition) and meaning.is_statement() and meaning.equations:
            kind = type_text(meaning.equations[0].body)
        variables = parts(case.type)[1:]
        known = dict(zip(variables, parts(kind)[1:])) if kind else {}
        return [known.get(each) if each in variables else each for each in case.arguments]
