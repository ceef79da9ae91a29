"""The shared library: where it is found, and its structs and functions exactly as in lc3.h.

It is looked for in this order:

1. the file that the environment variable ``FANTHRIG_LIBRARY`` names; nothing else is tried then;
2. where ``make install`` has put it: the package's file ``libfanthrig.path`` names it, from the
   package's folder on;
3. beside the package: ``libfanthrig.so.7`` in its own folder, in the folder ``lib`` that the
   package is installed under, or in that one's folder ``x86_64-linux-gnu``;
4. ``build/libfanthrig.so`` of the source tree that the package stands in;
5. where the system's loader looks for ``libfanthrig.so.7``.

A library of another version is passed over. It is looked for when it is first needed: the package
is imported without it. Where there is none, whatever needs it fails with a ``LibraryError`` that
says what was tried and what to do.
"""

from __future__ import annotations

import ctypes
import os
from ctypes import Structure, c_bool, c_int32, c_size_t, c_uint8, c_uint16, c_uint32, c_uint64
from ctypes import c_void_p
from pathlib import Path
from typing import Any, Iterator

from .constants import VERSION

SONAME = f"libfanthrig.so.{VERSION}"

# The file of the package by which `make install` says where the library is.
INSTALLED = "libfanthrig.path"


class LibraryError(ImportError):
    """No library of this interface was found, or this is no host for it."""


class RecordStruct(Structure):
    """``lc3_record``."""

    _fields_ = [
        ("regs", c_uint16 * 8),
        ("pc", c_uint16),
        ("psr", c_uint16),
        ("saved_ssp", c_uint16),
        ("saved_usp", c_uint16),
        ("kbsr", c_uint16),
        ("kbdr", c_uint16),
        ("mcr", c_uint16),
        ("busy", c_uint16),
        ("timer_status", c_uint16),
        ("timer_interval", c_uint16),
        ("timer_count", c_uint16),
        ("clock", c_uint64),
    ]


class AnswerStruct(Structure):
    """``lc3_answer``."""

    _fields_ = [
        ("record", RecordStruct),
        ("steps", c_uint64),
        ("keys", c_uint64),
        ("shown", c_uint64),
        ("index", c_uint64),
        ("refusal", c_uint32),
        ("stop", c_uint32),
    ]


class ReportStruct(Structure):
    """``lc3_report``."""

    _fields_ = [
        ("steps", c_uint64),
        ("keys", c_uint64),
        ("shown", c_uint64),
        ("index", c_uint64),
        ("refusal", c_uint32),
        ("stop", c_uint32),
    ]


class LoggedAnswerStruct(Structure):
    """``lc3_logged_answer``."""

    _fields_ = [
        ("record", RecordStruct),
        ("steps", c_uint64),
        ("keys", c_uint64),
        ("shown", c_uint64),
        ("logged", c_uint64),
        ("index", c_uint64),
        ("refusal", c_uint32),
        ("stop", c_uint32),
    ]


class AddressesStruct(Structure):
    """``lc3_addresses``."""

    _fields_ = [("count", c_uint16), ("at", c_uint16 * 3)]


class ToldStruct(Structure):
    """``lc3_told``."""

    _fields_ = [
        ("index", c_uint64),
        ("refusal", c_uint32),
        ("stop", c_uint32),
        ("word", c_uint16),
        ("reason", c_uint16),
        ("reads", AddressesStruct),
        ("writes", AddressesStruct),
    ]


class InstructionStruct(Structure):
    """``lc3_instruction``."""

    _fields_ = [
        ("kind", c_uint8),
        ("a", c_uint8),
        ("b", c_uint8),
        ("c", c_uint8),
        ("value", c_int32),
    ]


class ReadingStruct(Structure):
    """``lc3_reading``."""

    _fields_ = [("instruction", InstructionStruct), ("mask", c_uint16)]


class WrittenStruct(Structure):
    """``lc3_written``."""

    _fields_ = [("word", c_uint16), ("refusal", c_uint32)]


class StartedStruct(Structure):
    """``lc3_started``."""

    _fields_ = [("record", RecordStruct), ("words", c_uint32), ("refusal", c_uint32)]


class CountedStruct(Structure):
    """``lc3_counted``."""

    _fields_ = [("count", c_uint64), ("refusal", c_uint32)]


class CertifiedStruct(Structure):
    """``lc3_certified``."""

    _fields_ = [("finding", c_uint32), ("address", c_uint32), ("state", c_uint32)]


class RoutinesStruct(Structure):
    """``lc3_routines``."""

    _fields_ = [
        (name, c_uint16)
        for name in (
            "getc",
            "out",
            "puts",
            "input",
            "putsp",
            "halt",
            "trap",
            "exception",
            "interrupt",
        )
    ]


# The sizes that the header asserts: a host that lays out otherwise must not make a call.
SIZES = {
    RecordStruct: 48,
    AnswerStruct: 88,
    ReportStruct: 40,
    LoggedAnswerStruct: 96,
    AddressesStruct: 8,
    ToldStruct: 40,
    InstructionStruct: 8,
    ReadingStruct: 12,
    WrittenStruct: 8,
    StartedStruct: 56,
    CountedStruct: 16,
    CertifiedStruct: 12,
    RoutinesStruct: 18,
}

# A buffer is its address and its number of elements.
_LENT: tuple[Any, ...] = (c_void_p, c_size_t)
_RUN: tuple[Any, ...] = (RecordStruct, *_LENT * 4, c_uint64)
_LOGGED: tuple[Any, ...] = (RecordStruct, *_LENT * 5, c_uint64)
_STEP: tuple[Any, ...] = (c_void_p, *_LENT * 4)
_TELL: tuple[Any, ...] = (RecordStruct, *_LENT * 3)

FUNCTIONS: dict[str, tuple[Any, tuple[Any, ...]]] = {
    "lc3_version": (c_uint32, ()),
    "lc3_start": (StartedStruct, (*_LENT, *_LENT, c_bool, c_uint16)),
    "lc3_start_user": (StartedStruct, (*_LENT, *_LENT, c_uint16)),
    "lc3_run": (AnswerStruct, _RUN),
    "lc3_run_long": (AnswerStruct, _RUN),
    "lc3_step": (ReportStruct, _STEP),
    "lc3_run_logged": (LoggedAnswerStruct, _LOGGED),
    "lc3_run_second": (AnswerStruct, _RUN),
    "lc3_step_second": (ReportStruct, _STEP),
    "lc3_run_logged_second": (LoggedAnswerStruct, _LOGGED),
    "lc3_tell": (ToldStruct, _TELL),
    "lc3_tell_second": (ToldStruct, _TELL),
    "lc3_read": (ReadingStruct, (c_uint16,)),
    "lc3_write": (WrittenStruct, (InstructionStruct,)),
    "lc3_line": (CountedStruct, (c_uint16, *_LENT)),
    "lc3_line_length": (c_size_t, (c_uint16,)),
    "lc3_page": (CountedStruct, (*_LENT, c_uint16, c_size_t, *_LENT)),
    "lc3_save": (CountedStruct, (*_LENT, c_uint16, c_size_t, *_LENT)),
    "lc3_monitor": (c_uint32, _LENT),
    "lc3_monitor_routines": (RoutinesStruct, ()),
    "lc3_vectors": (c_uint32, (RoutinesStruct, *_LENT)),
    "lc3_certify": (CertifiedStruct, (*_LENT, *_LENT, c_uint16, *_LENT * 3)),
}


class Library:
    """The functions of one shared library, each with its types. Calls release Python's lock."""

    def __init__(self, path: str) -> None:
        """Loads the library, or raises ``OSError`` where it is none of this interface."""
        self.path = path
        dll = ctypes.CDLL(path)
        for name, (result, arguments) in FUNCTIONS.items():
            try:
                function = getattr(dll, name)
            except AttributeError:
                raise OSError(f"it has no function {name}") from None
            function.restype, function.argtypes = result, arguments
            setattr(self, name, function)
        version = dll.lc3_version()
        if version != VERSION:
            raise OSError(f"its interface has version {version}, not {VERSION}")


class Needed:
    """The library, which is looked for when something of it is first asked for."""

    def __getattr__(self, name: str) -> Any:
        """A function of the library, or its path; from then on all of them are here."""
        if name != "path" and name not in FUNCTIONS:
            raise AttributeError(name)
        self.__dict__.update(vars(load()))
        return self.__dict__[name]


def places() -> Iterator[str]:
    """Where the library is looked for, first to last.

    >>> from unittest import mock
    >>> with mock.patch.dict("os.environ", FANTHRIG_LIBRARY="mine/libfanthrig.so"):
    ...     list(places())
    ['mine/libfanthrig.so']
    """
    named = os.environ.get("FANTHRIG_LIBRARY")
    if named:
        yield named
        return
    package = Path(__file__).resolve().parent
    if (package / INSTALLED).exists():
        installed = (package / INSTALLED).read_text(encoding="utf-8").rstrip("\n")
        yield os.path.normpath(package / installed)
    yield str(package / SONAME)
    for folder in package.parents:
        if folder.name == "lib":
            yield str(folder / SONAME)
            yield str(folder / "x86_64-linux-gnu" / SONAME)
    yield str(package.parent.parent / "build" / "libfanthrig.so")
    yield SONAME


def load() -> Library:
    """The first library of this interface, or a ``LibraryError`` that says what was tried."""
    for struct, size in SIZES.items():
        if ctypes.sizeof(struct) != size:
            raise LibraryError(
                f"{struct.__doc__} has {ctypes.sizeof(struct)} bytes here, not {size}: "
                "libfanthrig.so is for x86-64 with the System V calling convention"
            )
    tried = []
    for place in places():
        try:
            return Library(place)
        except OSError as error:
            tried.append(f"{place}: {error}")
    raise LibraryError(
        f"no libfanthrig.so of version {VERSION} was found; build it with `make lib`, or name it "
        "in the environment variable FANTHRIG_LIBRARY. Tried:\n  " + "\n  ".join(tried)
    )


LIBRARY = Needed()
