"""Recordings: sittings as files, to be replayed exactly.

A sitting file is JSON in UTF-8, one object with these members:

``format``       ``"lc3 sitting"``
``version``      2, the version of this format; version 1, which has no ``digest``, is read too
``edition``      2 or 3, the book's edition by whose rules the machine runs
``programs``     what was loaded, for people: a list of ``{"name", "origin", "words"}``
``start``        the machine before the first step: ``record``, an object with the fields of
                 ``Record``, and ``memory``, its 65,536 words with the high byte first, compressed
                 by zlib, in base64
``keys``         a list of ``[time, byte]`` in order: each key with the clock at which it arrived,
                 or is to arrive where that is not below the clock at the end
``alterations``  what was altered from outside between two steps, in order: ``{"clock",
                 "register", "value"}`` for a register, ``{"clock", "address", "words"}`` for words
                 of memory, in hexadecimal digits, four each
``steps``        the steps made
``end``          the machine after them, to hold a replay against: ``record``; ``memory`` and
                 ``display``, the SHA-256 in hexadecimal digits of the words with the high byte
                 first and of the bytes shown; ``shown``, their number
``typed``        typed text that has not arrived: ``bytes`` in base64, and ``look`` and ``since``,
                 the clock at which the keyboard is looked at next and that of the last key
``digest``       the SHA-256 in hexadecimal digits of all other members, written as JSON in ASCII
                 with the members of each object in the order of their names and no white space

What a machine does follows from its start, its keys and these alterations alone, so a replay comes
to the same end in one run or in any pieces. A file that was damaged or altered is refused by its
digest; and whoever makes a file anew with a digest of its own must still have the end right. Who
made it, no file tells.
"""

from __future__ import annotations

import base64
import binascii
import hashlib
import json
import re
import zlib
from array import array
from dataclasses import asdict, dataclass, field
from os import PathLike
from sys import byteorder
from typing import Any, Sequence, Union

from ._library import RecordStruct
from .constants import MAX_CLOCK, MEMORY_WORDS
from .machine import MEMORY_BYTES, Machine
from .records import LONG_LIMIT, SHORT_FIELDS, WORD_LIMIT, Edition, Record, Refused, checked_int
from .steps import NAMES
from .strict_json import strict_json
from .writing import write_file

FORMAT, FORMAT_VERSION = "lc3 sitting", 2

# A longer file is neither written nor read. It has room for more than a million keys.
LONGEST = 1 << 26

# The steps of a replay to which nobody has set a number: a few minutes.
REPLAY_STEPS = 10_000_000_000


class RecordingError(ValueError):
    """A file that is no recording of a sitting, or one that can't be replayed."""


class ReplayError(RecordingError):
    """A replay that came to another end than its sitting."""


@dataclass(frozen=True)
class Program:
    """An object file that was loaded: its name, its origin and its number of words."""

    name: str
    origin: int
    words: int

    @property
    def addresses(self) -> range:
        """The addresses of its words."""
        return range(self.origin, self.origin + self.words)

    @property
    def subject(self) -> str:
        """The name, or else where it lies."""
        return self.name or f"the file at x{self.origin:04X}"


@dataclass(frozen=True)
class RegisterAlteration:
    """A register that was set from outside, before the step of this clock."""

    clock: int
    register: str
    value: int

    def altered(self, record: RecordStruct) -> RecordStruct:
        """A copy of the record with the register set; TIR begins to count, as after a store."""
        copy = RecordStruct.from_buffer_copy(record)
        place = NAMES[self.register]
        if isinstance(place, int):
            copy.regs[place] = self.value
        else:
            setattr(copy, place, self.value)
        if self.register == "TIR":
            copy.timer_count = self.value
        return copy

    def make(self, machine: Machine) -> None:
        """Makes the alteration, or raises ``Refused`` where no run would take the record."""
        record = self.altered(machine.record)
        machine.accepts(record)
        machine.record = record


@dataclass(frozen=True)
class WordsAlteration:
    """Words of memory that were replaced from outside, before the step of this clock."""

    clock: int
    address: int
    words: array[int]

    def make(self, machine: Machine) -> None:
        """Makes the alteration."""
        machine.words[self.address : self.address + len(self.words)] = self.words


Alteration = Union[RegisterAlteration, WordsAlteration]


@dataclass(frozen=True)
class Typed:
    """Typed text that has not arrived, and when the keyboard is looked at next."""

    text: bytes = b""
    look: int = 0
    since: int = 0


@dataclass(frozen=True)
class End:
    """The end of a sitting: its record, and digests of its memory and its display."""

    record: Record
    memory: str
    display: str
    shown: int

    @classmethod
    def of(cls, machine: Machine) -> End:
        """Where a machine stands."""
        memory = hashlib.sha256(high_first(machine.words)).hexdigest()
        return cls(machine.plain_record(), memory, machine.display_digest(), machine.shown)


def high_first(words: array[int]) -> bytes:
    """Words as bytes, the high byte first in each.

    >>> high_first(array("H", [0x3000, 0xF025])).hex()
    '3000f025'
    """
    copy = array("H", words)
    if byteorder == "little":
        copy.byteswap()
    return copy.tobytes()


def from_high_first(data: bytes) -> array[int]:
    """The words of bytes with the high byte first in each.

    >>> from_high_first(bytes.fromhex("3000f025")).tolist() == [0x3000, 0xF025]
    True
    """
    words = array("H", data)
    if byteorder == "little":
        words.byteswap()
    return words


@dataclass(frozen=True)
class Recording:
    """A sitting from its start to its end. ``save`` and ``load`` write and read it as a file."""

    edition: Edition
    start: Record
    memory: array[int]
    keys: tuple[tuple[int, int], ...]
    alterations: tuple[Alteration, ...]
    end: End
    typed: Typed = Typed()
    programs: tuple[Program, ...] = field(default=())

    @property
    def steps(self) -> int:
        """The steps from the start to the end."""
        return self.end.record.clock - self.start.clock

    def check(self, came: End, steps: int, why: str) -> None:
        """Nothing if a replay of so many steps came where the sitting was; else a ``ReplayError``
        that says in what it did not, or why it stopped before."""
        made = came.record.clock - self.start.clock
        if made < min(steps, self.steps):
            raise ReplayError(f"the replay stops after {made} of {self.steps} steps: {why}")
        for name in ("record", "memory", "display", "shown") if made == self.steps else ():
            if getattr(came, name) != getattr(self.end, name):
                raise ReplayError(f"the replay comes to another {name} than the sitting")

    def to_json(self) -> str:
        """The text of the file."""
        data = {
            "format": FORMAT,
            "version": FORMAT_VERSION,
            "edition": int(self.edition),
            "programs": [asdict(program) for program in self.programs],
            "start": {
                "record": asdict(self.start),
                "memory": _base64(zlib.compress(high_first(self.memory), 9)),
            },
            "keys": [list(key) for key in self.keys],
            "alterations": [_altered(alteration) for alteration in self.alterations],
            "steps": self.steps,
            "end": asdict(self.end),
            "typed": {
                "bytes": _base64(self.typed.text),
                "look": self.typed.look,
                "since": self.typed.since,
            },
        }
        return json.dumps(sealed(data), indent=1) + "\n"

    @classmethod
    def from_json(cls, text: str | bytes) -> Recording:
        """The recording of a file's text, or a ``RecordingError`` that says what is wrong in it.

        >>> Recording.from_json("{}")
        Traceback (most recent call last):
        fanthrig.recording.RecordingError: no recording of a sitting: 'format' is missing
        """
        try:
            return _recording(_unsealed(strict_json(text)))
        except (KeyError, TypeError, ValueError, RecursionError) as error:
            problem = f"{error.args[0]!r} is missing" if isinstance(error, KeyError) else error
            raise RecordingError(f"no recording of a sitting: {problem}") from None

    def save(self, path: str | PathLike[str]) -> None:
        """Writes the file, whole or not at all: see ``fanthrig.writing``."""
        text = self.to_json()
        if len(text) > LONGEST:
            raise RecordingError(f"{path}: the sitting is longer than {LONGEST >> 20} MiB")
        write_file(path, text.encode("utf-8"))

    @classmethod
    def load(cls, path: str | PathLike[str]) -> Recording:
        """Reads a file; what is wrong with it is said with its name."""
        with open(path, "rb") as stream:
            text = stream.read(LONGEST + 1)
        try:
            if len(text) > LONGEST:
                raise RecordingError(f"no recording of a sitting: over {LONGEST >> 20} MiB")
            return cls.from_json(text)
        except RecordingError as error:
            raise RecordingError(f"{path}: {error}") from None


def sealed(data: dict[str, Any]) -> dict[str, Any]:
    """The data of a file with their digest, in the place of any that they have."""
    others = {name: value for name, value in data.items() if name != "digest"}
    text = json.dumps(others, sort_keys=True, separators=(",", ":"))
    return {**others, "digest": hashlib.sha256(text.encode("ascii")).hexdigest()}


def _unsealed(data: Any) -> dict[str, Any]:
    """The data of a file of ours, if its digest is right."""
    if not isinstance(data, dict):
        raise ValueError("it is not an object")
    if data["format"] != FORMAT:
        raise ValueError(f"its format is {data['format']!r}, not {FORMAT!r}")
    version = _whole(data["version"], LONG_LIMIT, "version")
    if version not in (1, FORMAT_VERSION):
        raise ValueError(f"its version is {version}, and this reads 1 and {FORMAT_VERSION}")
    if (version > 1 or "digest" in data) and data["digest"] != sealed(data)["digest"]:
        raise ValueError("its digest is that of other data: it was damaged or altered")
    return data


def _base64(data: bytes) -> str:
    """Bytes as text in base64."""
    return base64.b64encode(data).decode("ascii")


def _altered(alteration: Alteration) -> dict[str, Any]:
    """An alteration as the file has it."""
    if isinstance(alteration, RegisterAlteration):
        return asdict(alteration)
    words = high_first(alteration.words).hex()
    return {"clock": alteration.clock, "address": alteration.address, "words": words}


def _decoded(text: Any, name: str) -> bytes:
    """The bytes of a text in base64."""
    try:
        return base64.b64decode(text, validate=True)
    except (binascii.Error, TypeError, ValueError):
        raise ValueError(f"{name} is not in base64") from None


def _memory(text: Any) -> array[int]:
    """The words of compressed memory."""
    inflater = zlib.decompressobj()
    try:
        # One byte more than memory has is enough to know that there are too many.
        data = inflater.decompress(_decoded(text, "memory"), MEMORY_BYTES + 1)
    except zlib.error:
        raise ValueError("memory is not compressed by zlib") from None
    if len(data) != MEMORY_BYTES:
        raise ValueError(f"memory is not {MEMORY_WORDS} words")
    return from_high_first(data)


def _whole(value: Any, greatest: int, name: str) -> int:
    """A number of the file. JSON's ``true`` is none, though Python takes it for 1."""
    if isinstance(value, bool):
        raise TypeError(f"{name} must be a whole number, not {value!r}")
    return checked_int(value, greatest, name)


def _record(data: Any) -> Record:
    """A record of the file that a run takes."""
    regs = [_whole(value, WORD_LIMIT, "a register") for value in data["regs"]]
    shorts = {name: _whole(data[name], WORD_LIMIT, name) for name in SHORT_FIELDS}
    record = Record(regs=regs, clock=_whole(data["clock"], MAX_CLOCK, "clock"), **shorts)
    _accepted(record.to_c())
    return record


def _accepted(record: RecordStruct) -> None:
    """Raises ``ValueError`` if a run would refuse the record, and says why."""
    try:
        Machine(Edition.THIRD).accepts(record)
    except Refused as refused:
        raise ValueError(refused.text) from None


def _alteration(data: Any) -> Alteration:
    """An alteration of the file."""
    clock = _whole(data["clock"], MAX_CLOCK, "clock")
    if "register" in data:
        if data["register"] not in NAMES:
            raise ValueError(f"{data['register']!r} is no register")
        value = _whole(data["value"], WORD_LIMIT, data["register"])
        alteration = RegisterAlteration(clock, data["register"], value)
        # Which bits a register has does not depend on the others.
        _accepted(alteration.altered(RecordStruct()))
        return alteration
    address, digits = _whole(data["address"], WORD_LIMIT, "address"), data["words"]
    if not isinstance(digits, str) or len(digits) % 4:
        raise ValueError("the words of an alteration have four hexadecimal digits each")
    words = from_high_first(bytes.fromhex(digits))
    if address + len(words) > MEMORY_WORDS:
        raise ValueError("an alteration goes beyond the last word of memory")
    return WordsAlteration(clock, address, words)


def _program(data: Any) -> Program:
    """A program of the file."""
    if not isinstance(data["name"], str):
        raise TypeError(f"the name of a program is {data['name']!r}")
    origin = _whole(data["origin"], WORD_LIMIT, "origin")
    return Program(data["name"], origin, _whole(data["words"], MEMORY_WORDS - origin, "words"))


def _digest(text: Any, name: str) -> str:
    """A SHA-256 of the file."""
    if not isinstance(text, str) or not re.fullmatch("[0-9a-f]{64}", text):
        raise ValueError(f"the {name} at the end is no SHA-256")
    return text


def _end(data: Any) -> End:
    """The end of the file."""
    memory, display = _digest(data["memory"], "memory"), _digest(data["display"], "display")
    return End(_record(data["record"]), memory, display, _whole(data["shown"], MAX_CLOCK, "shown"))


def _typed(data: Any) -> Typed:
    """The typed text of the file."""
    typed = Typed(
        _decoded(data["bytes"], "typed text"),
        _whole(data["look"], MAX_CLOCK * 2, "look"),
        _whole(data["since"], MAX_CLOCK, "since"),
    )
    if typed.look < typed.since:
        raise ValueError("the keyboard is not looked at before the last key")
    return typed


def _in_order(clocks: Sequence[int], least: int, name: str) -> None:
    """Nothing if the clocks are in order and none is below the least."""
    for before, clock in zip([least, *clocks], clocks):
        if clock < before:
            raise ValueError(f"the {name} are not in order of time from the start on")


def _recording(data: dict[str, Any]) -> Recording:
    """The recording of a file's data. What is missing is a ``KeyError``, and what is wrong a
    ``TypeError`` or ``ValueError``."""
    recording = Recording(
        edition=Edition(_whole(data["edition"], LONG_LIMIT, "edition")),
        start=_record(data["start"]["record"]),
        memory=_memory(data["start"]["memory"]),
        keys=tuple((_whole(t, LONG_LIMIT, "time"), _whole(k, 255, "key")) for t, k in data["keys"]),
        alterations=tuple(_alteration(item) for item in data["alterations"]),
        end=_end(data["end"]),
        typed=_typed(data["typed"]),
        programs=tuple(_program(item) for item in data["programs"]),
    )
    begun = recording.start.clock
    _in_order([time for time, _ in recording.keys], begun, "keys")
    # They may lie beyond the end, as in the first part of a replay that was saved.
    _in_order([change.clock for change in recording.alterations], begun, "alterations")
    if _whole(data["steps"], MAX_CLOCK, "steps") != recording.steps:
        raise ValueError("its steps are not those from its start to its end")
    if recording.end.shown > recording.steps:
        raise ValueError("more bytes are shown than steps made")
    return recording
