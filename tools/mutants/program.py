"""Definitions turned into Python functions, and statements into tests."""
from __future__ import annotations

from typing import Any, Callable, Dict, List, Set, Tuple

from . import values
from .modules import Constructor, Definition, Module, Primitive, RecordType, Repository
from .syntax import Node, bare, type_text
from .values import BUILTINS, Case, Function, Value

CONSTANTS = {'true': 'True', 'false': 'False', '[]': '()', 'zero': '0', 'Unit': 'True',
             '⊥': 'False', 'tt': 'None'}
BINARY = {
    '+': '({} + {})', '-': 'minus({}, {})', '*': '({} * {})', '/': 'divided({}, {})',
    '%': 'remainder({}, {})', '^': 'power({}, {})', '&&': '({} and {})', '||': '({} or {})',
    '∷': 'cons({}, {})', '++': 'append({}, {})', '≡': '({} == {})', '≢': '({} != {})',
    '==': '({} == {})', '<': '({} < {})', '≤': '({} <= {})', '×': '({} and {})',
    '↔': '(bool({}) == bool({}))', '→': '((not {}) or {})',
}


def which(test: Function, count: int, first: int) -> Value:
    return tuple(a for a in range(first, first + count) if values.apply(test, a))


# Recursion over a string, over memory and over all addresses: computed at once instead.
AT_ONCE: Dict[Tuple[str, str], Callable[..., Value]] = {
    ('Rows', 'with_word'): values.put,
    ('Registers', 'which'): which,
    ('Characters', 'codes_in'): lambda text: tuple(map(ord, text)),
}
# Runs by their last step ask for the same run again and again, and steps for the same words.
REMEMBERED = ('run_by', 'logged_run_by', 'next_step_by', 'entries_by', 'read_of')

Names = Dict[str, str]
Sampler = Callable[[List[Tuple[str, str]], Callable[..., Value]], bool]


def python_name(name: str) -> str:
    plain = (c if c.isascii() and c.isalnum() else f'_{ord(c):x}_' for c in name)
    return 'v_' + ''.join(plain)


class Unknown(Exception):
    """A name that has no computable meaning."""


class Program:
    def __init__(self, repository: Repository, for_all: Sampler) -> None:
        self.remembered: Dict[Any, Tuple[Value, Any]] = {}
        self.names: Dict[str, Any] = {
            name: getattr(values, name) for name in
            ('Case', 'Function', 'apply', 'cons', 'append', 'minus', 'divided', 'remainder',
             'power', 'tail')}
        self.names['for_all'] = for_all
        self.called = bytearray(sum(1 for _ in repository.definitions()))
        self.names['called'] = self.called
        self.names.update((python_name(name), b.function) for name, b in BUILTINS.items())
        for definition in repository.definitions():
            self.define(definition)

    def define(self, definition: Definition) -> None:
        """Puts a definition, or an altered one, in its place."""
        key = f'f_{definition.number}'
        at_once = AT_ONCE.get((definition.module.name, definition.name))
        if at_once:
            self.names[key] = self.marking(definition.number, at_once)
            return
        try:
            source = self.source(definition)
        except Unknown:
            self.names.pop(key, None)
            return
        exec(compile(source, definition.name, 'exec'), self.names)
        if definition.name in REMEMBERED:
            self.names[key] = self.remembering(definition.number, self.names[key])

    def forget(self) -> None:
        """What was computed, and which definitions were called for it."""
        self.remembered.clear()
        self.called[:] = bytes(len(self.called))

    def calls(self) -> Set[int]:
        """The definitions called since then."""
        return {number for number, called in enumerate(self.called) if called}

    def marking(self, number: int, function: Callable[..., Value]) -> Callable[..., Value]:
        def marked(*arguments: Value) -> Value:
            self.called[number] = 1
            return function(*arguments)
        return marked

    def remembering(self, number: int, function: Callable[..., Value]) -> Callable[..., Value]:
        def remembered(*arguments: Value) -> Value:
            key = (number,) + tuple(a if isinstance(a, int) else id(a) for a in arguments)
            if key not in self.remembered:
                self.remembered[key] = (function(*arguments), arguments)
            return self.remembered[key][0]
        return remembered

    def source(self, definition: Definition) -> str:
        count = len(definition.equations[0].patterns)
        arguments = [f'a{i}' for i in range(count)]
        lines = [f'def f_{definition.number}({", ".join(arguments)}):',
                 f'  called[{definition.number}] = 1']
        for equation in definition.equations:
            tests: List[str] = []
            names: Names = {}
            for pattern, argument in zip(equation.patterns, arguments):
                self.match(definition.module, pattern, argument, tests, names)
            lines.append('  while True:')
            lines += ['    ' + test for test in tests]
            lines.append('    return ' + self.expression(definition.module, equation.body, names))
        return '\n'.join(lines + ['  raise TypeError("no case")'])

    def match(self, module: Module, pattern: Node, value: str, tests: List[str],
              names: Names) -> None:
        """The tests of a pattern, and the names that it gives to parts of the value."""
        pattern = bare(pattern)
        head = bare(pattern.parts[0]).value if pattern.kind == 'app' else pattern.value
        parts = pattern.parts[1:] if pattern.kind == 'app' else []
        place = f'x{pattern.start}'
        case = module.constructor(str(head), pattern.start) if pattern.kind != 'num' else None
        if pattern.kind == 'num' or head == 'zero':
            tests.append(f'if {value} != {0 if head == "zero" else head}: break')
        elif pattern.kind == 'bin':
            tests += [f'if not len({value}): break', f'{place}h = {value}[0]',
                      f'{place}t = tail({value})']
            self.match(module, pattern.parts[0], place + 'h', tests, names)
            self.match(module, pattern.parts[1], place + 't', tests, names)
        elif head == '[]':
            tests.append(f'if len({value}): break')
        elif head in ('true', 'false'):
            tests.append(f'if {value} is not {CONSTANTS[head]}: break')
        elif head == 'suc':
            tests += [f'if {value} == 0: break', f'{place}s = {value} - 1']
            self.match(module, parts[0], place + 's', tests, names)
        elif head in ('pos', 'negsuc') or case:
            tests.append(f'if {value}.name != {(case.name if case else head)!r}: break')
            for i, part in enumerate(parts):
                tests.append(f'{place}c{i} = {value}.parts[{i}]')
                self.match(module, part, f'{place}c{i}', tests, names)
        elif head != '_':
            names[head] = python_name(head)
            tests.append(f'{names[head]} = {value}')

    def expression(self, module: Module, node: Node, names: Names) -> str:
        if node.kind in ('num', 'str'):
            return repr(node.value)
        if node.kind == 'sig':
            return 'True'
        if node.kind in ('var', 'app'):
            head = node if node.kind == 'var' else bare(node.parts[0])
            return self.applied(module, head, node.parts[1:] if node.kind == 'app' else [], names)
        if node.kind in ('let', 'pi', 'lam'):
            return self.binding(module, node, names)
        parts = [self.expression(module, part, names) for part in node.parts]
        if node.kind == 'bin':
            return BINARY[node.value].format(*parts)
        if node.kind == 'proj':
            return f'{parts[0]}[{node.value!r}]'
        if node.kind == 'rec':
            fields = (f'{name!r}: {part}' for name, part in zip(node.value, parts))
            return '{' + ', '.join(fields) + '}'
        return parts[0]

    def binding(self, module: Module, node: Node, names: Names) -> str:
        bound = [node.value] if node.kind == 'let' else node.value
        inner = {**names, **{name: python_name(name) for name in bound}}
        body = self.expression(module, node.parts[-1], inner)
        function = f'lambda {", ".join(map(python_name, bound))}: {body}'
        if node.kind == 'let':
            return f'({function})({self.expression(module, node.parts[0], names)})'
        if node.kind == 'lam':
            return f'Function({len(bound)}, {function})'
        kinds = list(zip(bound, map(type_text, node.types)))
        return f'for_all({kinds!r}, {function})'

    def applied(self, module: Module, head: Node, arguments: List[Node], names: Names) -> str:
        if head.kind == 'app':
            return self.applied(module, bare(head.parts[0]), head.parts[1:] + arguments, names)
        parts = [self.expression(module, argument, names) for argument in arguments]
        if head.kind != 'var':
            return self.call(self.expression(module, head, names), -1, parts)
        if head.value in names:
            return self.call(names[head.value], -1, parts)
        meaning = module.scope.get(head.value)
        if isinstance(meaning, Constructor):
            return f'Case({meaning.name!r}, ({"".join(part + ", " for part in parts)}))'
        if isinstance(meaning, RecordType):
            inner = dict(zip(meaning.parameters, (f'({part})' for part in parts)))
            tests = [self.expression(meaning.module, kind, inner) for _, kind in meaning.fields]
            return '(' + ' and '.join(tests) + ')'
        if isinstance(meaning, Definition) and meaning.equations:
            return self.call(f'f_{meaning.number}', len(meaning.equations[0].patterns), parts)
        return self.builtin(meaning.name if isinstance(meaning, Primitive) else head.value, parts)

    def builtin(self, name: str, parts: List[str]) -> str:
        if name in CONSTANTS:
            return self.call(CONSTANTS[name], -1, parts)
        if name == 'cond' and len(parts) == 3:
            return f'({parts[1]} if {parts[0]} else {parts[2]})'
        if name not in BUILTINS:
            raise Unknown(name)
        return self.call(python_name(name), BUILTINS[name].arity, parts)

    @staticmethod
    def call(function: str, arity: int, parts: List[str]) -> str:
        """A call with these arguments: all, too few or too many. Arity -1 is that of a value."""
        if arity < 0 or len(parts) < arity:
            function = function if arity < 0 else f'Function({arity}, {function})'
            return f'apply({", ".join([function] + parts)})' if parts else function
        called = f'{function}({", ".join(parts[:arity])})'
        return f'apply({", ".join([called] + parts[arity:])})' if len(parts) > arity else called

    def test(self, module: Module, node: Node) -> Callable[[], Value]:
        """A statement as a function that tells whether it holds."""
        made: Callable[[], Value] = eval('lambda: ' + self.expression(module, node, {}), self.names)
        return made


__all__ = ['Program', 'Unknown', 'Case', 'Function']
