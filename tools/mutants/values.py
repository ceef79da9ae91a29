"""What definitions compute with: numbers, lists, records (as dictionaries), cases of a type."""
from __future__ import annotations

from dataclasses import dataclass
from typing import Any, Callable, Dict, Optional, Tuple

Value = Any
LONGEST = 3_000_000


@dataclass(frozen=True)
class Case:
    """A constructor with its arguments."""
    name: str
    parts: Tuple[Value, ...]


@dataclass(frozen=True)
class Function:
    arity: int
    body: Callable[..., Value]


def apply(function: Function, *arguments: Value) -> Value:
    while arguments:
        if len(arguments) < function.arity:
            first, given = function, arguments
            return Function(first.arity - len(given), lambda *rest: first.body(*given, *rest))
        arity = function.arity
        function, arguments = function.body(*arguments[:arity]), arguments[arity:]
    return function


class Words:
    """A long list: the same word again and again, but for a few."""
    __slots__ = ('count', 'common', 'others')
    __hash__ = None  # type: ignore[assignment]

    def __init__(self, count: int, common: int, others: Dict[int, int]) -> None:
        self.count, self.common, self.others = count, common, others

    def __len__(self) -> int:
        return self.count

    def __getitem__(self, at: int) -> int:
        return self.others.get(at, self.common)

    def all(self) -> Tuple[int, ...]:
        words = [self.common] * self.count
        for at, word in self.others.items():
            words[at] = word
        return tuple(words)

    def __eq__(self, other: object) -> bool:
        if isinstance(other, Words) and self.common == other.common:
            places = set(self.others) | set(other.others)
            return self.count == other.count and all(self[at] == other[at] for at in places)
        return self.all() == (other.all() if isinstance(other, Words) else other)


def elements(values: Value) -> Tuple[Value, ...]:
    found: Tuple[Value, ...] = values.all() if isinstance(values, Words) else values
    return found


def differing(values: Value, first: int, common: int) -> Dict[int, int]:
    """Where the elements, counted from `first` on, are not the common word, and what they are."""
    if isinstance(values, Words) and values.common == common:
        return {first + at: word for at, word in values.others.items()}
    return {at: word for at, word in enumerate(elements(values), first) if word != common}


def append(left: Value, right: Value) -> Value:
    if not isinstance(left, Words) and not isinstance(right, Words):
        return left + right
    common = right.common if isinstance(right, Words) else left.common
    others = {**differing(left, 0, common), **differing(right, len(left), common)}
    return Words(len(left) + len(right), common, others)


def cons(head: Value, rest: Value) -> Value:
    return append((head,), rest)


def tail(values: Value) -> Value:
    return drop(1, values)


def minus(a: int, b: int) -> int:
    return max(a - b, 0)


def divided(a: int, b: int) -> int:
    return a // b if b else 0


def remainder(a: int, b: int) -> int:
    return a % b if b else a


def power(a: int, b: int) -> int:
    if b > 4096:
        raise OverflowError('power')
    return int(a ** b)


def get(values: Value, at: int, otherwise: Value) -> Value:
    return values[at] if at < len(values) else otherwise


def put(values: Value, at: int, value: Value) -> Value:
    if at >= len(values):
        return values
    if isinstance(values, Words):
        return Words(values.count, values.common, {**values.others, at: value})
    return values[:at] + (value,) + values[at + 1:]


def put_all(values: Value, at: int, new: Value) -> Value:
    for place, value in enumerate(elements(new), at):
        values = put(values, place, value)
    return values


def take(count: int, values: Value) -> Value:
    if isinstance(values, Words):
        others = {at: word for at, word in values.others.items() if at < count}
        return Words(min(count, values.count), values.common, others)
    return values[:count]


def drop(count: int, values: Value) -> Value:
    if isinstance(values, Words):
        others = {at - count: word for at, word in values.others.items() if at >= count}
        return Words(max(values.count - count, 0), values.common, others)
    return values[count:]


def replicate(count: int, value: Value) -> Value:
    if count > LONGEST:
        raise OverflowError('a list too long')
    return Words(count, value, {}) if count > 64 and isinstance(value, int) else (value,) * count


def mapped(function: Function, values: Value) -> Value:
    return tuple(apply(function, value) for value in elements(values))


def integer(value: Case) -> int:
    number = int(value.parts[0])
    return number if value.name == 'pos' else -1 - number


def signed(number: int) -> Case:
    return Case('pos', (number,)) if number >= 0 else Case('negsuc', (-1 - number,))


def at_most(a: Case, b: Case) -> bool:
    return integer(a) <= integer(b)


def below(a: Case, b: Case) -> bool:
    return integer(a) < integer(b)


def ok_and(result: Case, claim: Function) -> Value:
    return result.name == 'Ok' and apply(claim, result.parts[0])


@dataclass(frozen=True)
class Builtin:
    arity: int
    function: Callable[..., Value]
    type: Optional[str] = None

    def types(self) -> Optional[list[str]]:
        return self.type.split(' → ') if self.type else None


TEST, SUM = 'ℕ → ℕ → Bool', 'ℕ → ℕ → ℕ'
BUILTINS: Dict[str, Builtin] = {
    'eqb': Builtin(2, lambda a, b: a == b, TEST),
    'leb': Builtin(2, lambda a, b: a <= b, TEST),
    'ltb': Builtin(2, lambda a, b: a < b, TEST),
    'nat_eq': Builtin(2, lambda a, b: a == b, TEST),
    'nat_le': Builtin(2, lambda a, b: a <= b, TEST),
    'nat_lt': Builtin(2, lambda a, b: a < b, TEST),
    'not': Builtin(1, lambda a: not a, 'Bool → Bool'),
    'suc': Builtin(1, lambda a: a + 1, 'ℕ → ℕ'),
    'min': Builtin(2, min, SUM),
    'bit_and': Builtin(2, lambda a, b: a & b, SUM),
    'bit_xor': Builtin(2, lambda a, b: a ^ b, SUM),
    'length': Builtin(1, len, 'List ℕ → ℕ'),
    'get_or': Builtin(3, get),
    'slice_index': Builtin(2, lambda values, at: get(values, at, 0), 'List ℕ → ℕ → ℕ'),
    'slice_index_or': Builtin(3, get),
    'set': Builtin(3, put, 'List ℕ → ℕ → ℕ → List ℕ'),
    'slice_set': Builtin(3, put, 'List ℕ → ℕ → ℕ → List ℕ'),
    'sets': Builtin(3, put_all, 'List ℕ → ℕ → List ℕ → List ℕ'),
    'take': Builtin(2, take, 'ℕ → List ℕ → List ℕ'),
    'drop': Builtin(2, drop, 'ℕ → List ℕ → List ℕ'),
    'replicate': Builtin(2, replicate),
    'map': Builtin(2, mapped),
    'cond': Builtin(3, lambda test, yes, no: yes if test else no),
    'int_le': Builtin(2, at_most, 'ℤ → ℤ → Bool'),
    'int_lt': Builtin(2, below, 'ℤ → ℤ → Bool'),
    'le_z': Builtin(2, at_most, 'ℤ → ℤ → Bool'),
    'lt_z': Builtin(2, below, 'ℤ → ℤ → Bool'),
    'neg_ℤ': Builtin(1, lambda a: signed(-integer(a)), 'ℤ → ℤ'),
    'pos': Builtin(1, lambda n: Case('pos', (n,)), 'ℕ → ℤ'),
    'negsuc': Builtin(1, lambda n: Case('negsuc', (n,)), 'ℕ → ℤ'),
    'IsOk': Builtin(1, lambda result: result.name == 'Ok'),
    'IsOkAnd': Builtin(2, ok_and),
    'IsErrOf': Builtin(2, lambda result, error: result == Case('Err', (error,))),
    'are_bytes': Builtin(1, lambda values: all(v < 256 for v in elements(values)), 'List ℕ → Bool'),
}
