"""A certificate: the words of a monitor, what is claimed of each, and the table that proves it.

It is a file of JSON in ASCII, one object with these members, in this order, indented by one space:

``format``    ``"lc3 certificate"``
``version``   1, the version of this format
``kinds``     a digit for each word from x0000 on: 0 secret, 1 fixed, 2 the monitor's own; every
              word behind the last digit is secret
``words``     the fixed words, four hexadecimal digits for each digit of ``kinds``, and 0000 for a
              word that is not fixed: no secret is in a certificate
``lowest``    the lowest word of the monitor's stack, which ends at x2FFF
``watched``   eight addresses of words of which the table tells something, 0 for none
``ends``      for each word from x0200 on where its states end, counted in states
``table``     17 numbers for each state: R0 to R7, what the codes were set from, the watched words

The SHA-256 of a certificate is that of the bytes of this file. A file that is not byte for byte as
it would be written is refused, so that one claim with one table has one hash.
"""

from __future__ import annotations

import hashlib
import json
import re
from array import array
from dataclasses import dataclass
from typing import Any, Sequence

from ..calls import certify
from ..constants import ADDRESS_KBSR, MEMORY_WORDS, STATE_NUMBERS, USER_ORIGIN, WATCHED_WORDS
from ..records import Certified
from ..strict_json import strict_json
from .claims import Cell, told

FORMAT, FORMAT_VERSION = "lc3 certificate", 1

# The words below the stack that interrupts may take, two of each device.
FOR_INTERRUPTS = 4

_MEMBERS = ("format", "version", "kinds", "words", "lowest", "watched", "ends", "table")
_MOST = {"lowest": 0xFFFF, "watched": 0xFFFF, "ends": 0xFFFFFFFF, "table": 0xFFFFFFFF}


class CertificateError(ValueError):
    """A file that is no certificate."""


@dataclass(frozen=True)
class Certificate:
    """The members of a certificate; ``words`` are 0 where they are not fixed. It is no more than a
    claim until the proved test has answered: see ``tested``."""

    kinds: bytes
    words: tuple[int, ...]
    lowest: int
    watched: tuple[int, ...]
    ends: tuple[int, ...]
    table: tuple[int, ...]

    def tested(self) -> Certified:
        """What the proved test answers."""
        return certify(
            array("H", self.words),
            self.kinds,
            self.lowest,
            array("H", self.watched),
            array("I", self.ends),
            array("I", self.table),
        )

    def data(self) -> bytes:
        """The file."""
        members = {
            "format": FORMAT,
            "version": FORMAT_VERSION,
            "kinds": "".join(map(str, self.kinds)),
            "words": "".join(f"{word:04X}" for word in self.words),
            "lowest": self.lowest,
            "watched": list(self.watched),
            "ends": list(self.ends),
            "table": list(self.table),
        }
        lines = ",\n".join(f' "{name}": {json.dumps(member)}' for name, member in members.items())
        return f"{{\n{lines}\n}}\n".encode("ascii")

    @property
    def sha256(self) -> str:
        """The SHA-256 of the file, as sha256sum writes it."""
        return hashlib.sha256(self.data()).hexdigest()

    @classmethod
    def of(cls, data: bytes) -> Certificate:
        """The certificate that a file is, or a ``CertificateError``."""
        try:
            members = strict_json(data)
            found = cls._of_members(members)
        except (ValueError, RecursionError) as error:
            raise CertificateError(f"it is no certificate: {error}") from None
        if found.data() != data:
            raise CertificateError("it is not byte for byte as lc3 certify writes it")
        return found

    @classmethod
    def _of_members(cls, members: Any) -> Certificate:
        """The certificate of the members of a file."""
        if not isinstance(members, dict) or tuple(members) != _MEMBERS:
            raise ValueError(f"its members are not {', '.join(_MEMBERS)}")
        if members["format"] != FORMAT or members["version"] != FORMAT_VERSION:
            raise ValueError(f"it is no {FORMAT!r} of version {FORMAT_VERSION}")
        kinds = _matching(members["kinds"], "[012]*", "kinds")
        words = _matching(members["words"], f"([0-9A-F]{{4}}){{{len(kinds)}}}", "words")
        [lowest] = _numbers([members["lowest"]], "lowest")
        return cls(
            bytes(map(int, kinds)),
            tuple(int(words[at : at + 4], 16) for at in range(0, len(words), 4)),
            lowest,
            *(tuple(_numbers(members[name], name)) for name in ("watched", "ends", "table")),
        )

    # What it says.

    def words_of(self, cell: Cell) -> list[int]:
        """The addresses of all words of a kind. Those of the stack, and of what interrupts may take
        of it, are of none; and the words of User mode are not secret."""
        size, stack = len(self.kinds), max(self.lowest - FOR_INTERRUPTS, 0)
        found = [address for address, kind in enumerate(self.kinds[:stack]) if kind == cell]
        if cell is Cell.SECRET:
            found += range(size, stack)
            found += range(ADDRESS_KBSR, MEMORY_WORDS)
        return found

    @property
    def stack(self) -> range:
        """The words of the monitor's stack, with those for interrupts."""
        return range(max(self.lowest - FOR_INTERRUPTS, 0), USER_ORIGIN)

    @property
    def states(self) -> int:
        """The states of the table."""
        return len(self.table) // STATE_NUMBERS

    def summary(self) -> list[str]:
        """What is certified, in lines."""
        own = told(self.words_of(Cell.OWN))
        rows = sum(end > before for before, end in zip((0, *self.ends), self.ends))
        return [
            f"secret: {told(self.words_of(Cell.SECRET))}",
            f"the monitor's, never changed: {told(self.words_of(Cell.FIXED))}",
            *([f"its own, which its routines write: {own}"] if own else []),
            f"its stack, with four words for interrupts: {told(self.stack)}",
            f"table: {self.states} states at {rows} words",
            f"SHA-256 of the certificate: {self.sha256}",
        ]


def _matching(text: Any, pattern: str, name: str) -> str:
    """A text of a form."""
    if not isinstance(text, str) or not re.fullmatch(pattern, text, re.ASCII):
        raise ValueError(f"{name} is not as it should be")
    return text


def _numbers(values: Any, name: str) -> Sequence[int]:
    """Numbers that fit what the test takes."""
    most = _MOST[name]
    if not isinstance(values, list) or not all(
        type(value) is int and 0 <= value <= most for value in values
    ):
        raise ValueError(f"{name} has something else than numbers from 0 to {most}")
    if name == "watched" and len(values) != WATCHED_WORDS:
        raise ValueError(f"{name} is not {WATCHED_WORDS} addresses")
    return values
