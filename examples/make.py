#!/usr/bin/env python3
"""Makes the object files of the listings beside this file, or checks that they agree.

    examples/make.py [--check] [NAME.lst...]

A listing is the source of its object file. Each line is empty, or a comment after a semicolon, or

    x3000  xE002  LEA R0, #2         ; R0 = x3003, where the text begins

with an address, the word there, the word as a line of text as fanthrig.word reads it, and what it
does. The addresses follow one another. Every difference is told with its file and line, and then
nothing is written; the exit status is 1.
"""

from __future__ import annotations

import argparse
import re
import sys
from pathlib import Path

FOLDER = Path(__file__).resolve().parent
sys.path.insert(0, str(FOLDER.parent / "python"))

import fanthrig  # noqa: E402

LINE = re.compile(r"x([0-9A-F]{4})  x([0-9A-F]{4})  (\S.*?) +; (\S.*)")


class ListingError(Exception):
    """What is wrong in a listing, with its file and line."""


def entries(listing: Path) -> list[tuple[int, int]]:
    """The addresses and words of a listing, each word compared with its line of text."""
    found: list[tuple[int, int]] = []
    for number, text in enumerate(listing.read_text(encoding="ascii").splitlines(), 1):
        if not text or text.startswith(";"):
            continue
        try:
            found.append(entry(text, found[-1][0] + 1 if found else None))
        except ValueError as error:
            raise ListingError(f"{listing}:{number}: {error}") from None
    if not found:
        raise ListingError(f"{listing}: it has no words")
    return found


def entry(text: str, expected: int | None) -> tuple[int, int]:
    """The address and the word of a line, or a ``ValueError`` that says what is wrong in it."""
    match = LINE.fullmatch(text)
    if not match:
        raise ValueError("an address, a word, a line of text and a comment expected")
    address, word, line = int(match[1], 16), int(match[2], 16), match[3]
    if expected is not None and address != expected:
        raise ValueError(f"the address is x{address:04X}, and x{expected:04X} expected")
    meant = fanthrig.word(line)
    if word != meant:
        raise ValueError(f"the word is x{word:04X}, and {line} is x{meant:04X}")
    return address, word


def object_file(listing: Path) -> bytes:
    """The object file of a listing: its first address, then its words, high byte first."""
    found = entries(listing)
    return b"".join(word.to_bytes(2, "big") for word in [found[0][0], *(w for _, w in found)])


def differences(files: dict[Path, bytes]) -> list[str]:
    """A line for each object file that is not the one of its listing."""
    told = []
    for path, made in files.items():
        if not path.exists():
            told.append(f"{path}: it is missing")
        elif path.read_bytes() != made:
            told.append(f"{path}: it is not the object file of {path.with_suffix('.lst').name}")
    return told


def main(arguments: list[str] | None = None) -> int:
    """Makes or checks the object files of the listings named, or of all."""
    parser = argparse.ArgumentParser(description="Makes object files from their listings.")
    parser.add_argument("--check", action="store_true", help="write nothing, and compare")
    parser.add_argument("listings", nargs="*", type=Path, metavar="NAME.lst", help="default: all")
    given = parser.parse_args(arguments)
    listings: list[Path] = given.listings or sorted(FOLDER.glob("*.lst"))
    try:
        files = {path.with_suffix(".obj"): object_file(path) for path in listings}
    except (ListingError, OSError, UnicodeDecodeError) as error:
        print(error, file=sys.stderr)
        return 1
    if not given.check:
        for path, made in files.items():
            path.write_bytes(made)
    told = differences(files)
    for line in told:
        print(line, file=sys.stderr)
    if not told:
        print(f"examples: {len(files)} object files agree with their listings")
    return 1 if told else 0


if __name__ == "__main__":
    sys.exit(main())
