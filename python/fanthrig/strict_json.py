"""JSON as our files have it: numbers of few digits, whole unless fractions are allowed, and no
member of an object twice.

Python's reader takes the last of two members with one name and drops the other, which another
reader may take; it takes numbers of any length, fractions and ``NaN``. Here each is an error.
"""

from __future__ import annotations

import json
from collections import Counter
from typing import Any, NoReturn

# As many as the greatest number of 64 bits has.
MOST_DIGITS = 20


def strict_json(text: str | bytes, fractions: bool = False) -> Any:
    """The data of a text, or a ``ValueError`` that says what is wrong in it. Where ``fractions``
    are allowed, they are written as 2.5.

    >>> strict_json('{"steps": 7}')
    {'steps': 7}
    >>> strict_json('{"steps": 7, "steps": 8}')
    Traceback (most recent call last):
    ValueError: the member 'steps' is there twice
    >>> strict_json('[1e3]')
    Traceback (most recent call last):
    ValueError: 1e3 is no whole number
    """
    return json.loads(
        text,
        object_pairs_hook=_members,
        parse_int=_number,
        parse_float=_fraction if fractions else _no_number,
        parse_constant=_no_number,
    )


def _members(pairs: list[tuple[str, Any]]) -> dict[str, Any]:
    """The members of an object, each name once."""
    members = dict(pairs)
    if len(members) < len(pairs):
        twice = Counter(name for name, _ in pairs).most_common(1)[0][0]
        raise ValueError(f"the member {twice!r} is there twice")
    return members


def _number(digits: str) -> int:
    """A whole number. One of many digits would cost much time before it is refused."""
    if len(digits.lstrip("-")) > MOST_DIGITS:
        raise ValueError(f"a number has more than {MOST_DIGITS} digits")
    return int(digits)


def _fraction(text: str) -> float:
    """A number with a fraction."""
    if len(text) > MOST_DIGITS or "e" in text.lower():
        raise ValueError(f"{text[:MOST_DIGITS]} is no number of a few digits")
    return float(text)


def _no_number(text: str) -> NoReturn:
    """A number with a fraction or an exponent, or one that is none."""
    raise ValueError(f"{text[:MOST_DIGITS]} is no whole number")
