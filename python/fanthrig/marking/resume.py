"""Results that are there already: a marking that was cut off, or spread over hosts, goes on from
them. Nothing is marked twice, and what is missing is marked."""

from __future__ import annotations

import json
import os
from dataclasses import fields
from typing import Any, TypeVar

from ..constants import MAX_CLOCK
from ..telling import FileError
from .audit import Audit, sha256
from .candidates import candidate_file
from .comparing import Difference
from .contents import Mismatch
from .flags import Flag
from .marker import CaseResult, Result
from .regular import opened

# The bytes of a line that are looked at together: a longer one is no result.
LONGEST_LINE = 1 << 26

_Made = TypeVar("_Made", Result, CaseResult, Flag, Difference, Mismatch)

# The types of members as JSON has them, by their annotations.
_TYPES: dict[str, tuple[type, ...]] = {
    "str": (str,),
    "int": (int,),
    "float": (int, float),
    "Points": (int, float),
    "str | None": (str, type(None)),
    "int | None": (int, type(None)),
}


def results_of(path: str, audit: Audit) -> dict[str, Result]:
    """The results in a file of JSON Lines, as ``--json`` and ``--one`` write it, by the names of
    their candidates. What was made with other cases, options or versions is left out, and so is a
    line that was cut off; of two results the first counts.
    """
    results: dict[str, Result] = {}
    with opened(path, links=True, pipes=True) as stream:
        for line in iter(lambda: stream.readline(LONGEST_LINE), b""):
            result = _result(line, audit)
            if result is not None:
                results.setdefault(result.candidate, result)
    return results


def still_holds(result: Result, links: bool) -> bool:
    """Whether the file of a result is what it was. One that was refused is looked at anew where it
    was not even read."""
    if result.sha256 is None:
        return False
    try:
        return sha256(candidate_file(result.candidate, links)) == result.sha256
    except FileError:
        return False


def _result(line: bytes, audit: Audit) -> Result | None:
    """The result of a line, if it is one of this marking."""
    try:
        told = json.loads(line)
        if not isinstance(told, dict) or told.get("kind") != "candidate" or not audit.fits(told):
            return None
        if told.get("name_hex") is not None:
            told["candidate"] = os.fsdecode(bytes.fromhex(told["name_hex"]))
        told["results"] = tuple(map(_case_result, told["results"]))
        return _made(Result, told)
    except (ValueError, TypeError, KeyError, AttributeError, RecursionError):
        return None


def _case_result(told: dict[str, Any]) -> CaseResult:
    """The result of a case; what is told in bytes has to be bytes."""
    found = told["difference"]
    if found is not None:
        bytes(byte for byte in (found["expected"], found["got"]) if byte is not None)
    told["display"].encode("latin-1")
    parts = {
        "flags": tuple(_made(Flag, flag) for flag in told["flags"]),
        "difference": None if found is None else _made(Difference, found),
        "mismatches": tuple(_made(Mismatch, wrong) for wrong in told["mismatches"]),
        "last": tuple(map(str, told["last"])),
    }
    return _made(CaseResult, {**told, **parts})


def _made(kind: type[_Made], told: dict[str, Any]) -> _Made:
    """An object of members as JSON has them; a ``TypeError`` where one is of another type, and a
    ``ValueError`` where a number is none that a result can have, such as NaN."""
    members = {}
    for member in fields(kind):
        value = told[member.name]
        wanted = _TYPES.get(str(member.type))
        if wanted is not None and (not isinstance(value, wanted) or isinstance(value, bool)):
            raise TypeError(f"{member.name} is no {member.type}")
        if isinstance(value, (int, float)) and not 0 <= value <= MAX_CLOCK:
            raise ValueError(f"{member.name} is no number of a result")
        members[member.name] = value
    return kind(**members)
