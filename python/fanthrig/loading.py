"""Files loaded into a sitting: what is wrong with one is said in a line that names it."""

from __future__ import annotations

from .formats import SWAPPED, FormatError, is_swapped
from .places import PlaceError
from .programs import object_bytes
from .records import Refusal, Refused
from .recording import Program
from .sitting import Sitting
from .telling import FileError


def as_object_file(path: str, data: bytes) -> bytes:
    """The object file that the bytes of a file are, or stand for as text."""
    try:
        return object_bytes(data, path)
    except FormatError as error:
        raise FileError(str(error)) from None


def load(
    sitting: Sitting, path: str, data: bytes, examiner: bool = False, trusted: str = ""
) -> Program:
    """Loads the bytes of an object file, or says what is wrong with it; and of one that would have
    to be trusted, how that is said."""
    try:
        return sitting.load(data, path, examiner)
    except PlaceError as error:
        raise FileError(str(error)) from None
    except Refused as refused:
        if not examiner and is_swapped(data):
            raise FileError(f"{path}: refused: {SWAPPED}") from None
        more = trusted if refused.number is Refusal.USER else ""
        raise FileError(f"{refused}{more}") from None
