"""Folders of hand-ins as course platforms export them: whose each file is.

Moodle (Download all submissions) has a folder for each student, or a prefix of each file's name:
``Ada Lovelace_12345_assignsubmission_file_/sum.obj``. Canvas (Download Submissions) has prefixes
alone: ``lovelaceada_12345_67890_sum.obj``, with ``LATE_`` before the numbers of a late one, and
with -1, -2 and so on at the end of the name where a file was handed in anew.
"""

from __future__ import annotations

import os
import re
from dataclasses import dataclass, replace
from typing import Sequence

from ..choices import MOODLE
from .candidates import Found

_MOODLE = re.compile(r"(?P<name>.+?)_(?P<id>\d+)_assignsubmission_[a-z]+(?:_.*)?", re.DOTALL)
_CANVAS = re.compile(
    r"(?P<name>[^_]+)_(?:LATE_)?(?P<id>\d+)_\d+_"
    r"(?P<file>.+?)(?:-(?P<again>\d+))?(?P<suffix>\.\w+)?",
    re.DOTALL | re.ASCII,
)


@dataclass(frozen=True)
class Student:
    """Who handed a file in: the name, and the number that the platform has."""

    name: str
    id: str


def student_of(place: str, platform: str) -> Student | None:
    """The student of a file, by its path in the folder that was exported; nothing where the path is
    not of the platform's form.

    >>> student_of("Ada Lovelace_7_assignsubmission_file_/sum.obj", "moodle")
    Student(name='Ada Lovelace', id='7')
    >>> student_of("lovelaceada_LATE_7_99_sum-1.obj", "canvas")
    Student(name='lovelaceada', id='7')
    """
    parts = place.split(os.sep) if platform == MOODLE else [os.path.basename(place)]
    form = _MOODLE if platform == MOODLE else _CANVAS
    found = next(filter(None, map(form.fullmatch, parts)), None)
    return None if found is None else Student(found["name"], found["id"])


def handed_in(found: Sequence[Found], platform: str) -> list[Found]:
    """The files with their students. Of a file that was handed in anew on Canvas, the others are
    passed over."""
    files = [replace(file, student=student_of(file.place, platform)) for file in found]
    if platform == MOODLE:
        return files
    last: dict[tuple[str, ...], tuple[int, str]] = {}
    for file in files:
        key, again = _handed_in_again(file)
        if not file.passed_over and again >= last.get(key, (0, ""))[0]:
            last[key] = again, file.name
    return [_unless_later(file, last) for file in files]


def _handed_in_again(file: Found) -> tuple[tuple[str, ...], int]:
    """What is the same of all versions of a file, and the number of this one."""
    found = _CANVAS.fullmatch(os.path.basename(file.place))
    if found is None:
        return (file.name,), 0
    folder = os.path.dirname(file.place)
    key = folder, found["name"], found["id"], found["file"], found["suffix"] or ""
    return key, int((found["again"] or "0")[:9])


def _unless_later(file: Found, last: dict[tuple[str, ...], tuple[int, str]]) -> Found:
    """A file, passed over where a later version of it is there."""
    key, _ = _handed_in_again(file)
    later = last.get(key, (0, file.name))[1]
    if file.passed_over or later == file.name:
        return file
    return replace(file, passed_over=f"it was handed in anew, as {later}")
