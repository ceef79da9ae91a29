"""PROVENANCE.txt: from which commit, by which kit and after which verdict a release was made."""

from __future__ import annotations

import hashlib
import re
import subprocess
from pathlib import Path

from . import BUILD, ROOT, VERSION, interface, said

LOG = BUILD / "ci.log"
VERDICT = re.compile(r"^\d+ passed, \d+ failed$")
# A crate that this run has proved, or that an earlier run has: rt keeps what it has passed.
PROVED = re.compile(r"^rt: (\w+) (?:proved$|is kept: )")


def hash_of(path: Path) -> str:
    """The SHA-256 of a file."""
    return hashlib.sha256(path.read_bytes()).hexdigest()


def altered() -> bool:
    """Whether the tree is not as its commit has it. Files that git does not know count: modules are
    packed as they stand. What Python compiles is packed nowhere."""
    lines = said("git", "status", "--porcelain", "--untracked-files=all").splitlines()
    return any("__pycache__/" not in line for line in lines)


def commit() -> str:
    """The commit, and whether the tree is as it has it."""
    return said("git", "rev-parse", "HEAD") + (", altered since" if altered() else "")


def kit() -> str:
    """What the Rattle kit says of itself."""
    try:
        return said("rt", "version")
    except (OSError, subprocess.CalledProcessError):
        return "not there when the release was packed"


def changed_after(log: Path) -> bool:
    """Whether a source of the crates is newer than a log."""
    names = said("git", "ls-files", "--", "crates").splitlines()
    return max((ROOT / name).stat().st_mtime for name in names) > log.stat().st_mtime


def verdict() -> list[str]:
    """The crates that `rt ci` has proved and its last line, where a log of it is there that is of
    these sources."""
    if not LOG.exists():
        return ["no log of `rt ci` is in build: this release was packed without its verdict"]
    if changed_after(LOG):
        return ["the log of `rt ci` is older than the sources: its verdict is left out"]
    lines = LOG.read_text(encoding="utf-8", errors="replace").splitlines()
    crates = [f"{found[1]} proved" for line in lines if (found := PROVED.match(line))]
    refused = sum(line.startswith("rt: must-fail ") and "refused" in line for line in lines)
    ended = [line for line in lines if VERDICT.match(line)][-1:]
    # Their order differs from one run to the next.
    return [*sorted(crates), f"{refused} wrong programs refused", *(ended or ["it came to no end"])]


def crates() -> list[str]:
    """The hash of each crate's sources: of the list of its files with the hash of each."""
    found = []
    for folder in sorted(path for path in (ROOT / "crates").iterdir() if path.is_dir()):
        names = said("git", "ls-files", "--", folder.relative_to(ROOT)).splitlines()
        listed = "".join(f"{hash_of(ROOT / name)}  {name}\n" for name in sorted(names))
        found.append(f"{hashlib.sha256(listed.encode()).hexdigest()}  {folder.name}")
    return found


def built() -> list[str]:
    """The hash of each archive that the kit wrote, and of the library that is made of them."""
    paths = [*sorted((BUILD / "archives").glob("*.a")), *sorted(BUILD.glob("libfanthrig.*"))]
    return [f"{hash_of(path)}  {path.relative_to(ROOT)}" for path in paths if not path.is_symlink()]


def text(folder: Path, names: list[str]) -> str:
    """The whole, with the hash of each archive of a folder."""
    sections = {
        "Commit": [commit()],
        "Kit": [kit()],
        "Verdict of `rt ci`": verdict(),
        "Sources of each crate: SHA-256 of the lines `hash  name` of its files": crates(),
        "The library as it was built": built(),
        "Archives": [f"{hash_of(folder / name)}  {name}" for name in names],
    }
    parts = [f"Fanthrig LC-3 {VERSION}, interface {interface()}\n"]
    for title, lines in sections.items():
        parts.append(f"{title}\n" + "".join(f"    {line}\n" for line in lines))
    return "\n".join(parts)
