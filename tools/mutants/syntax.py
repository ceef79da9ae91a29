"""Tokens and expressions of a spec file, each with its place in the text."""
from __future__ import annotations

import ast
import re
from dataclasses import dataclass, field
from typing import Any, List, Optional, Tuple

TOKEN = re.compile(r'\s+|--[^\n]*|"(?:[^"\\]|\\.)*"|[(){};,]|[^\s(){};,"]+')
PART = re.compile(r'\.?[^.]+')
NUMBER = re.compile(r'0x[0-9A-Fa-f]+|\d+')

# Binary operators: how tightly they bind, and whether they group to the right, left or not at all.
OPERATORS = {
    '→': (2, 'r'), '↔': (4, 'r'), '×': (6, 'r'), '≡': (8, 'n'), '≢': (8, 'n'), '<': (8, 'n'),
    '≤': (8, 'n'), '||': (10, 'r'), '&&': (12, 'r'), '==': (13, 'n'), '∷': (14, 'r'),
    '++': (14, 'r'), '+': (16, 'l'), '-': (16, 'l'), '*': (18, 'l'), '/': (18, 'l'),
    '%': (18, 'l'), '^': (20, 'r'),
}
CLOSING = (')', '}', ';', ',', '=', ':', 'in', 'where')


@dataclass(frozen=True)
class Token:
    text: str
    start: int
    end: int


@dataclass
class Node:
    """An expression. Its kind is one of num, str, var, app, proj, rec, let, lam, bin, pi, sig
    and par (parentheses); `value` is the number, the name, the operator or the field names, and
    `types` the types of what a pi or a sig binds."""
    kind: str
    value: Any
    parts: List[Node]
    start: int
    end: int
    types: List[Node] = field(default_factory=list)


def projections(token: Token) -> List[Token]:
    """A word and the projections tight behind it, as in m.devices.busy: each is a token."""
    found: List[Token] = []
    start = token.start
    for part in PART.findall(token.text):
        found.append(Token(part, start, start + len(part)))
        start += len(part)
    return found


def tokens(text: str, start: int, end: int) -> List[Token]:
    """The tokens of a stretch of text. The path of a `use` is one token."""
    found: List[Token] = []
    while start < end:
        match = TOKEN.match(text, start)
        assert match, text[start:start + 40]
        word, begin, start = match.group(), start, match.end()
        if word.isspace() or word.startswith('--'):
            continue
        token = Token(word, begin, start)
        whole = word[0] == '"' or word.endswith('.') or bool(found) and found[-1].text == 'use'
        found += [token] if whole else projections(token)
    return found


def items(text: str) -> List[Tuple[int, int]]:
    """The top-level items: stretches that begin in column 0 and go on in indented lines."""
    found: List[Tuple[int, int]] = []
    position = 0
    for line in text.splitlines(True):
        begin, position = position, position + len(line)
        if not line.strip() or line.startswith('--'):
            continue
        if line[0] not in ' }':
            found.append((begin, position))
        elif found:
            found[-1] = (found[-1][0], position)
    return found


class Parser:
    def __init__(self, words: List[Token]) -> None:
        self.words, self.at = words, 0

    def peek(self, ahead: int = 0) -> Optional[str]:
        at = self.at + ahead
        return self.words[at].text if at < len(self.words) else None

    def take(self, wanted: Optional[str] = None) -> Token:
        token = self.words[self.at]
        if wanted is not None and token.text != wanted:
            raise SyntaxError(f'expected {wanted}, found {token.text} at {token.start}')
        self.at += 1
        return token

    def finished(self) -> bool:
        return self.at == len(self.words)

    def at_binder(self) -> bool:
        """Is this '(' x y : T ')'?"""
        if self.peek() != '(':
            return False
        ahead = 1
        stops = (None, '(', ')', ':', '{', '}', ';', ',')
        while self.peek(ahead) not in stops and self.peek(ahead) not in OPERATORS:
            ahead += 1
        return ahead > 1 and self.peek(ahead) == ':'

    def expression(self, least: int = 0) -> Node:
        if self.peek() == 'let':
            return self.let()
        if self.peek() == 'λ':
            return self.abstraction()
        if self.at_binder():
            return self.quantified()
        if self.peek() == '{':                 # an implicit argument: no pattern stands for it
            self.skip_braces()
            if self.peek() == '→':
                self.take()
            return self.expression(least)
        left = self.application()
        while self.peek() in OPERATORS:
            binding, side = OPERATORS[str(self.peek())]
            if binding < least:
                break
            operator = self.take().text
            right = self.expression(binding if side == 'r' else binding + 1)
            left = Node('bin', operator, [left, right], left.start, right.end)
        return left

    def let(self) -> Node:
        start = self.take('let').start
        name = self.take().text
        if self.peek() == ':':
            self.take()
            self.expression(3)
        self.take('=')
        value = self.expression()
        self.take('in')
        body = self.expression()
        return Node('let', name, [value, body], start, body.end)

    def abstraction(self) -> Node:
        start = self.take('λ').start
        names: List[str] = []
        while True:
            if self.peek() == '(':
                names += [name for name, _ in self.binder()]
            else:
                names.append(self.take().text.rstrip('.'))
            if self.words[self.at - 1].text.endswith('.') or self.peek() == '.':
                break
        if self.peek() == '.':
            self.take()
        body = self.expression()
        return Node('lam', names, [body], start, body.end)

    def binder(self) -> List[Tuple[str, Node]]:
        self.take('(')
        names = []
        while self.peek() != ':':
            names.append(self.take().text)
        self.take(':')
        kind = self.expression()
        self.take(')')
        return [(name, kind) for name in names]

    def quantified(self) -> Node:
        start, bound = self.words[self.at].start, []
        while self.at_binder():
            bound += self.binder()
        operator = self.take().text
        body = self.expression(2 if operator == '→' else 6)
        kind = 'pi' if operator == '→' else 'sig'
        return Node(kind, [n for n, _ in bound], [body], start, body.end, [t for _, t in bound])

    def application(self) -> Node:
        function = self.atom()
        while True:
            word = self.peek()
            if word is None or word in OPERATORS or word in CLOSING:
                return function
            if word == '{':                    # a level, as in Unit {0}
                self.skip_braces()
            else:
                argument = self.atom()
                parts = function.parts if function.kind == 'app' else [function]
                function = Node('app', None, parts + [argument], function.start, argument.end)

    def skip_braces(self) -> None:
        while self.peek() == '{':
            while self.take().text != '}':
                pass

    def atom(self) -> Node:
        """The smallest expression, with the projections that stand tight behind it."""
        node = self.simple()
        while str(self.peek()).startswith('.') and self.words[self.at].start == node.end:
            token = self.take()
            node = Node('proj', token.text[1:], [node], node.start, token.end)
        return node

    def simple(self) -> Node:
        token = self.take()
        if token.text == '(':
            inner = self.expression()
            if self.peek() == ',':
                return self.pair(token.start, inner)
            return Node('par', None, [inner], token.start, self.take(')').end)
        if token.text == 'record':
            return self.record(token.start)
        if token.text[0] == '"':
            return Node('str', ast.literal_eval(token.text), [], token.start, token.end)
        if NUMBER.fullmatch(token.text):
            return Node('num', int(token.text, 0), [], token.start, token.end)
        return Node('var', token.text, [], token.start, token.end)

    def pair(self, start: int, first: Node) -> Node:
        """A pair is a record of its parts, .0 and .1."""
        self.take(',')
        second = self.expression()
        return Node('rec', ['0', '1'], [first, second], start, self.take(')').end)

    def record(self, start: int) -> Node:
        self.take('{')
        names, parts = [], []
        while self.peek() != '}':
            names.append(self.take().text)
            self.take('=')
            parts.append(self.expression())
            if self.peek() == ';':
                self.take()
        return Node('rec', names, parts, start, self.take('}').end)


def bare(node: Node) -> Node:
    """The expression inside its parentheses."""
    while node.kind == 'par':
        node = node.parts[0]
    return node


def arrows(node: Node) -> List[Node]:
    """The parts of a type A → B → C."""
    found = []
    while node.kind == 'bin' and node.value == '→':
        found.append(node.parts[0])
        node = node.parts[1]
    return found + [node]


def type_text(node: Node) -> str:
    """A type as text, without outer parentheses."""
    node = bare(node)
    if node.kind == 'app':
        return ' '.join(t if ' ' not in t else f'({t})' for t in map(type_text, node.parts))
    if node.kind == 'bin':
        left, right = map(type_text, node.parts)
        left = f'({left})' if '→' in left else left
        return f'{left} {node.value} {right}'
    return str(node.value) if node.kind in ('var', 'num') else '?'
