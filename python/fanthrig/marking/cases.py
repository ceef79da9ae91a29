"""The cases of a marking: what is set before a run, and what is expected of it.

A JSON file is a list of objects, one for each case, in their order. Beside its ``name`` a case has
at least one of the members that say what is expected:

``expected``  the display, all that is to be shown; not compared where it is missing
``after``     registers and words after the run: ``{"R0": 6, "x4000": [1, 2, 3]}``
``end``       how the run is to end, as in ``ENDS``; ``halted``, by HALT, unless it is given
``call``      the address of a subroutine that is called in the place of the program, as
              ``"x3100"``, and is to come to its RET

and where wanted

``before``    registers and words before the run, as in ``after``: also a subroutine's arguments
``keys``      the keys
``steps``     the greatest number of steps, where it is not that of the marking
``points``    what a passed case is worth; 1 unless it is given
``lenient``   choices of the comparison, as in ``fanthrig.marking.comparing``, beside those of the
              marking

Keys and display are strings with one character for each byte, as in ``Sitting.type``.

A folder has for each case NAME the file ``NAME.expected``, the display byte for byte, or
``NAME.json``, an object with the other members, or both; and where wanted ``NAME.keys``, the keys,
and ``NAME.steps``, the number of steps in decimal digits. Other files are left alone. Cases come in
the order of their names.
"""

from __future__ import annotations

import json
import os
import math
import re
from collections import Counter
from dataclasses import dataclass
from pathlib import Path
from typing import Any, BinaryIO

from ..constants import MAX_CLOCK
from ..ending import EndKind
from ..strict_json import strict_json
from ..telling import FileError, of_os_error
from .comparing import check_choices
from .contents import Contents
from .regular import opened

# The members by which a case says what it expects.
STATES = ("expected", "after", "end", "call")
MEMBERS = {"name", *STATES, "before", "keys", "steps", "points", "lenient"}

ANY_HALT, RETURNED = "any halt", "returned"
_NOT_EXPECTED = (EndKind.OUTPUT_LIMIT, EndKind.BREAKPOINT, EndKind.INTERRUPTED)
ENDS = (*(kind.value for kind in EndKind if kind not in _NOT_EXPECTED), ANY_HALT, RETURNED)

# The most points of a case.
MOST_POINTS = 1_000_000

# The bytes that the files of a folder may have in all. What has more is taken for a mistake, as a
# file that never ends.
LONGEST_FOLDER = 1 << 26

# The bytes of a JSON file. Once it is read it may take some twenty times as many.
LONGEST_JSON = 1 << 24

# The bytes that are read at once.
PIECE = 1 << 16


@dataclass(frozen=True)
class Case:
    """One case. ``expected`` is nothing where the display is not compared, ``steps`` where the
    marking sets them, ``end`` where the run is to end by HALT or the call by its RET, and ``call``
    where the program itself is run."""

    name: str
    expected: bytes | None = None
    keys: bytes = b""
    steps: int | None = None
    before: Contents = Contents()
    after: Contents = Contents()
    end: str | None = None
    call: int | None = None
    points: int | float = 1
    lenient: tuple[str, ...] = ()


def cases_of(path: str) -> list[Case]:
    """The cases of a folder or of a JSON file, or what is wrong with them."""
    try:
        # A path of no name would be the current folder.
        os.stat(path)
        cases = _of_folder(Path(path)) if Path(path).is_dir() else _of_json(Path(path))
    except OSError as error:
        raise FileError(of_os_error(error)) from None
    except ValueError as error:
        raise FileError(f"{path}: no cases: {error}") from None
    if not cases:
        raise FileError(f"{path}: no cases: give each a NAME.expected, or a JSON object")
    counts = Counter(case.name for case in cases)
    twice = sorted(name for name, count in counts.items() if count > 1)
    if twice:
        raise FileError(f"{path}: two cases have the name {twice[0]!r}: rename one")
    return cases


class _Reader:
    """Reads files that have so many bytes in all at most."""

    def __init__(self, most: int) -> None:
        """Nothing is read yet."""
        self._most = self._left = most

    def read(self, path: Path, stream: BinaryIO) -> bytes:
        """The bytes of a file, piece by piece: one that is too long takes no memory."""
        data = bytearray()
        for piece in iter(lambda: stream.read(PIECE), b""):
            data += piece
            if len(data) > self._left:
                text = f"{path}: refused: it is longer than"
                if self._left < self._most:
                    text = f"{path}: refused: with the files before it, it is longer than"
                raise FileError(f"{text} {self._most >> 20} MiB: name shorter files")
        self._left -= len(data)
        return bytes(data)

    def file(self, path: Path) -> bytes:
        """The bytes of a file in a folder."""
        with opened(str(path), links=True) as stream:
            return self.read(path, stream)


def _of_folder(folder: Path) -> list[Case]:
    """The cases of a folder."""
    files = {file.name: file for file in folder.iterdir()}
    parts: dict[str, dict[str, Path]] = {}
    for name in sorted(files):
        stem, dot, kind = name.rpartition(".")
        if dot and kind in ("expected", "json", "keys", "steps"):
            parts.setdefault(stem, {})[kind] = files[name]
    for stem, part in parts.items():
        if not {"expected", "json"} & part.keys():
            there = next(iter(part.values())).name
            raise ValueError(f"{there} is there, and {stem}.expected is missing")
    reader = _Reader(LONGEST_FOLDER)
    return [_of_files(stem, part, reader) for stem, part in parts.items()]


def _of_files(stem: str, files: dict[str, Path], reader: _Reader) -> Case:
    """The case of the files of a name."""
    item: dict[str, Any] = {}
    if "json" in files:
        item = _parsed(reader.file(files["json"]))
        if not isinstance(item, dict):
            raise ValueError(f"{files['json'].name} is not an object")
    given: dict[str, Any] = {"name": stem}
    for kind in ("expected", "keys"):
        if kind in files:
            given[kind] = reader.file(files[kind]).decode("latin-1")
    if "steps" in files:
        given["steps"] = _steps(reader.file(files["steps"]), files["steps"].name)
    twice = sorted(given.keys() & item.keys())
    if twice:
        raise ValueError(f"{twice[0]!r} of {stem} is in {files['json'].name} and in its own file")
    return _of_object({**item, **given}, stem)


def _steps(digits: bytes, name: str) -> int:
    """The number of steps in a file."""
    text = digits.strip()
    if not text.isdigit() or len(text) > 18 or int(text) > MAX_CLOCK:
        raise ValueError(f"{name} is not a number of steps from 0 to {MAX_CLOCK}")
    return int(text)


def _of_json(file: Path) -> list[Case]:
    """The cases of a JSON file, which may be a pipe of the shell's."""
    with opened(str(file), links=True, pipes=True) as stream:
        text = _Reader(LONGEST_JSON).read(file, stream)
    data = _parsed(text)
    if not isinstance(data, list):
        raise ValueError("it is not a list of cases")
    return [_of_object(item, str(number)) for number, item in enumerate(data, 1)]


def _parsed(text: bytes) -> Any:
    """What a text is as JSON."""
    try:
        return strict_json(text, fractions=True)
    except (json.JSONDecodeError, UnicodeDecodeError, RecursionError) as error:
        raise ValueError(f"it is not JSON ({error})") from None


def _of_object(item: Any, which: str) -> Case:
    """The case of a JSON object."""
    if not isinstance(item, dict):
        raise ValueError(f"case {which} is not an object")
    stated = {"expected"} if not item.keys() & set(STATES) else set()
    missing, unknown = (stated | {"name"}) - set(item), set(item) - MEMBERS
    if missing:
        raise ValueError(f"case {which} has no {sorted(missing)[0]!r}")
    if unknown:
        allowed = ", ".join(sorted(MEMBERS))
        raise ValueError(f"case {which} has {sorted(unknown)[0]!r}; its members are {allowed}")
    if not isinstance(item["name"], str):
        raise ValueError(f"'name' of case {which} is no string")
    return Case(
        name=item["name"],
        expected=_bytes(item, "expected", which) if "expected" in item else None,
        keys=_bytes(item, "keys", which),
        steps=_steps_of(item, which),
        before=_contents(item, "before", which),
        after=_contents(item, "after", which),
        end=_end_of(item, which),
        call=_call_of(item, which),
        points=_points_of(item, which),
        lenient=_lenient_of(item, which),
    )


def _bytes(item: dict[str, Any], name: str, which: str) -> bytes:
    """The bytes of a string of a case."""
    try:
        return str.encode(item.get(name, ""), "latin-1")
    except (TypeError, UnicodeEncodeError):
        problem = "is no string with characters up to \\u00ff, one for each byte"
        raise ValueError(f"{name!r} of case {which} {problem}") from None


def _steps_of(item: dict[str, Any], which: str) -> int | None:
    """The greatest number of steps of a case."""
    steps = item.get("steps")
    if steps is not None and (type(steps) is not int or not 0 <= steps <= MAX_CLOCK):
        raise ValueError(f"'steps' of case {which} is no number from 0 to {MAX_CLOCK}")
    return steps


def _contents(item: dict[str, Any], name: str, which: str) -> Contents:
    """The registers and words of a member."""
    places = item.get(name, {})
    if not isinstance(places, dict):
        raise ValueError(f"{name!r} of case {which} is no object of registers and words")
    try:
        return Contents.of(places)
    except ValueError as error:
        raise ValueError(f"{name!r} of case {which}: {error}") from None


def _end_of(item: dict[str, Any], which: str) -> str | None:
    """How the run of a case is to end."""
    end = item.get("end")
    if end is None:
        return None
    if end not in ENDS or (end == RETURNED and "call" not in item):
        known = ", ".join(ENDS)
        raise ValueError(f"'end' of case {which} is none of {known}; returned needs a call")
    return str(end)


def _call_of(item: dict[str, Any], which: str) -> int | None:
    """The address of the subroutine of a case."""
    call = item.get("call")
    if call is None:
        return None
    found = re.fullmatch("0?x([0-9A-F]{4})", call, re.I | re.A) if isinstance(call, str) else None
    if found is None:
        raise ValueError(f"'call' of case {which} is no address as x3100")
    return int(found[1], 16)


def _points_of(item: dict[str, Any], which: str) -> int | float:
    """The points of a case."""
    points = item.get("points", 1)
    right = type(points) in (int, float) and math.isfinite(points) and 0 <= points <= MOST_POINTS
    if not right:
        raise ValueError(f"'points' of case {which} is no number from 0 to {MOST_POINTS}")
    number: int | float = points
    return number


def _lenient_of(item: dict[str, Any], which: str) -> tuple[str, ...]:
    """The choices of the comparison of a case."""
    choices = item.get("lenient", [])
    if not isinstance(choices, list):
        raise ValueError(f"'lenient' of case {which} is no list")
    try:
        check_choices(choices)
    except ValueError as error:
        raise ValueError(f"'lenient' of case {which}: {error}") from None
    return tuple(choices)
