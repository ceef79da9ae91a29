"""Checks that what documents name is in the tree; docs/check.py calls it.

- Each name in code font is a word of the code, of its definitions or of its proofs, comments left
  out, or the name of a file or folder; each path leads somewhere.
- Names before a path, as in `stepOf` (crates/machine/specs), stand in that file or folder; those
  after a crate, as in `step::planning`, stand in that crate.
- A statement that PROOFS.md names is proved, by a lemma that states it and has its name in snake
  case (with `_lem` where a definition has that name), or is among the parts of others that
  PROOFS.md lists.

Landing notes, the changelog, decisions, the port, the design pass and the look back at it tell of
what stood in their time: they are left out, but for what stands before the first decision.
"""

import os
import re
from functools import lru_cache
from pathlib import Path
from typing import Iterator

SOURCES = ("crates", "examples", "host", "include", "page", "python", "tools")
SUFFIXES = {".rt", ".antt", ".py", ".rs", ".c", ".h", ".sh", ".mjs", ".toml", ".in", ".edit"}
BUILT = {"target", "build", "out", "__pycache__"}
FENCE = re.compile(r"^```.*?^```$", re.MULTILINE | re.DOTALL)
COMMENT = re.compile(r"^\s*(?:--|//|#).*$|\s(?:--|//)\s.*$", re.MULTILINE)
# A name of Rattle may have hyphens and signs; one of another language is between other characters.
# What the check of a function names, as a goal, has hyphens: `returns-then-is_denied`.
WORD = re.compile(r"[^\s(){}\[\];,.:\"`'|&<>=+*/!\\@$%^~?·«»⌜⌝]+|[A-Za-z_]\w*")
SPAN = re.compile(r"`([^`\n]+)`")
NAME = re.compile(r"[A-Za-z_][\w-]*(?:(?:\.|::)[\w-]+)*")
FILE = re.compile(r"\b(?:crates|docs|host|include|python|tools|examples)/[\w./*-]*[\w*]")
# A path in a crate, as word/specs/Reading.antt.
IN_CRATE = re.compile(r"(?<![\w/])\w+/(?:src|specs|proofs|must-fail)/[\w./*-]*[\w*]")
PLACED = re.compile(r"((?:`[\w:.-]+`(?:,| and|,\s+and)?\s+)+)(?:\(|in\s+)(crates/[\w/.-]*\w)")
STATEMENT = re.compile(r"^abbrev pub ([A-Z]\w*) : Type", re.MULTILINE)
# A type that is no statement, and has the name of a file that PROOFS.md speaks of.
TYPES = {"Step"}
# A lemma, with the first line of its type.
PROOF = re.compile(r"^\s*(?:pub )?([a-z][\w'-]*)\s+:\s+([^\n]+)", re.MULTILINE)
HUMP = re.compile(r"(?<=[a-z])(?=[A-Z0-9])|(?<=[A-Z0-9])(?=[A-Z][a-z])")
PARTS = re.compile(r"A statement\s+that\s+is\s+a\s+part\b.*?\n\n", re.DOTALL)


@lru_cache(maxsize=None)
def code(path: Path) -> str:
    """A file of code, without its comments."""
    return COMMENT.sub("", path.read_text(encoding="utf-8"))


@lru_cache(maxsize=None)
def written(place: Path) -> tuple[Path, ...]:
    """The files in a folder, or the file, but for what is built."""
    found = [place] if place.is_file() else []
    for folder, inner, files in os.walk(place):
        inner[:] = [name for name in inner if name not in BUILT]
        found += [Path(folder, name) for name in files]
    return tuple(sorted(found))


def sources(place: Path) -> tuple[Path, ...]:
    """The files of code in a folder, or the file."""
    return tuple(path for path in written(place) if path.suffix in SUFFIXES)


def words(paths: tuple[Path, ...]) -> set[str]:
    """The words of files of code, with the names of these files and of the two folders above."""
    found: set[str] = set()
    for path in paths:
        above = [path.parent.name, path.parent.parent.name]
        found.update(WORD.findall(code(path)), [path.name, path.stem, *above])
    return found


def prose(document: Path) -> str:
    """A document without its blocks of code, and of decisions what stands before the first."""
    text = FENCE.sub("", document.read_text(encoding="utf-8"))
    return text.partition("\n1. **")[0] if document.name == "DECISIONS.md" else text


def pieces(name: str) -> list[str]:
    """The parts of a name as `sitting.py`, `Sitting.run` or `step::planning`."""
    return re.split(r"\.|::", name)


def names(root: Path, documents: list[Path]) -> list[str]:
    """Names in code font that no file has."""
    known = words(tuple(path for folder in SOURCES for path in sources(root / folder)))
    known.update(path.name for path in root.iterdir())
    known.update(path.name for path in (root / "docs").iterdir())
    known.update(path.name for path in (root / "crates").iterdir())
    known.update(WORD.findall((root / "Makefile").read_text(encoding="utf-8")))
    return [
        f"{path.relative_to(root)}: nothing is named {name}"
        for path in documents
        for name in sorted(set(SPAN.findall(prose(path))))
        if NAME.fullmatch(name) and name not in known and not known.issuperset(pieces(name))
        if not name.startswith("libfanthrig")  # packages, which check_numbers asks for
    ]


def files(root: Path, documents: list[Path]) -> list[str]:
    """Paths that lead nowhere; capitals, as in crates/CRATE, stand for any name."""
    return [
        f"{path.relative_to(root)}: no file {name}"
        for path in documents
        for pattern, place in ((FILE, root), (IN_CRATE, root / "crates"))
        for name in sorted(set(pattern.findall(prose(path))))
        if not re.search(r"/[A-Z]+\b", name)
        and not any(place.glob(name))
        and not (place / f"{name}.antt").exists()
    ]


def placed(root: Path, document: Path) -> Iterator[tuple[str, str]]:
    """Names of a document with the file or folder that each is said to be in."""
    text = prose(document)
    for spans, place in PLACED.findall(text):
        yield from ((name, place) for name in SPAN.findall(spans))
    for name in SPAN.findall(text):
        crate, parted, function = name.partition("::")
        if parted and NAME.fullmatch(name) and (root / "crates" / crate).is_dir():
            yield function, f"crates/{crate}"


def places(root: Path, documents: list[Path]) -> list[str]:
    """Names that are not in the file or folder that they are said to be in."""
    return [
        f"{path.relative_to(root)}: {place} has no {name}"
        for path in documents
        for name, place in sorted(set(placed(root, path)))
        if not words(sources(root / place)).issuperset(pieces(name))
    ]


def statements(root: Path) -> list[str]:
    """Statements that PROOFS.md names, and that are neither proved nor listed as parts."""
    text = prose(root / "docs/PROOFS.md")
    parts = "".join(PARTS.findall(text))
    stated = {
        name: path.relative_to(root)
        for path in sources(root / "crates")
        if "specs" in path.parts
        for name in STATEMENT.findall(code(path))
        if name not in TYPES
    }
    proofs = (path for path in sources(root / "crates") if "proofs" in path.parts)
    lemmas = {lemma for path in proofs for lemma in PROOF.findall(code(path))}
    proved = {
        (name.removesuffix("_lem"), word)
        for name, told in lemmas
        for word in WORD.findall(told)
    }
    return [
        f"docs/PROOFS.md: {name} ({stated[name]}) is not proved under its name"
        for name in sorted(stated.keys() & set(SPAN.findall(text)) - set(SPAN.findall(parts)))
        if not {(HUMP.sub("_", name).lower(), word) for word in (name, f"{name}By")} & proved
        and str(stated[name]) not in parts
    ]


def unknown(root: Path, documents: list[Path]) -> list[str]:
    """What is wrong with the names in the documents of a repository."""
    told = [
        path
        for path in documents
        if path.name not in ("CHANGELOG.md", "PORT.md", "DESIGN-PASS.md", "LOOK-BACK.md")
        and path.parent.name != "landings"
    ]
    return names(root, told) + files(root, told) + places(root, told) + statements(root)
