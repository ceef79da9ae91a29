"""Releases: the archives of build/dist, made from one build of the library.

The bytes of an archive depend on the commit and the tools alone: files stand in the order of their
names, belong to root, and have the time of the commit.
"""

from __future__ import annotations

import os
import re
import subprocess
from pathlib import Path

ROOT = Path(__file__).resolve().parents[2]
BUILD = ROOT / "build"
DIST = BUILD / "dist"

VERSION = (ROOT / "VERSION").read_text(encoding="ascii").strip()
HEADER = ROOT / "include/fanthrig/lc3.h"
SUMMARY = "The LC-3 of Patt and Patel (third edition) as a proved library, and the command lc3"

# The oldest glibc that has every symbol the library asks for. A test holds it to that.
GLIBC = (2, 14)


def interface() -> str:
    """The version of the interface: what the name of the shared library ends in."""
    found = re.search(r"^#define LC3_VERSION (\d+)$", HEADER.read_text(encoding="utf-8"), re.M)
    assert found, f"{HEADER} has no LC3_VERSION"
    return found[1]


def said(*command: str | Path) -> str:
    """What a command writes, without the last line feed. It is obeyed at the root of the tree."""
    words = [str(word) for word in command]
    done = subprocess.run(words, cwd=ROOT, stdout=subprocess.PIPE, text=True, check=True)
    return done.stdout.rstrip("\n")


def time_of_sources() -> int:
    """The time that every file of an archive has: that of the commit, in seconds since 1970.

    A source tree without git has the times that its archive gave it.
    """
    if "SOURCE_DATE_EPOCH" in os.environ:
        return int(os.environ["SOURCE_DATE_EPOCH"])
    if (ROOT / ".git").exists():
        return int(said("git", "log", "-1", "--format=%ct"))
    return int((ROOT / "VERSION").stat().st_mtime)
