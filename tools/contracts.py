#!/usr/bin/env python3
"""Checks that each public function of a library crate promises something, that nothing which hosts
call requires anything, and that each function which crate NAME_c exports has the parameters and the
clauses of the one in crate NAME; exits 1 with a line for each that does not.

With an argument, the root of the repository to check; otherwise the one that this file is in.
"""

from __future__ import annotations

import re
import sys
from pathlib import Path
from typing import Iterator, NamedTuple

COMMENT = re.compile(r"//[^\n]*")
PUBLIC = re.compile(r'pub\s+(extern\s+"C"\s+)?fn\s+(\w+)')
# The word of a clause, with a star where it speaks of memory, and the clause's name.
CLAUSE = re.compile(r"\b(requires|ensures)\b\*?(?:\s+\w+)?\s*$")


class Function(NamedTuple):
    """A public function: its name, whether hosts call it, and its text before the body."""

    name: str
    exported: bool
    head: str

    def plain(self) -> str:
        """The text before the body without what the layout puts in."""
        return re.sub(r"\s+", "", self.head).replace(",)", ")")


def head(text: str, start: int) -> str:
    """The text from here to the brace of the body: a brace after a clause's word is not it."""
    depth = 0
    for place in range(start, len(text)):
        if text[place] == "{":
            if not depth and not CLAUSE.search(text[start:place]):
                return text[start:place]
            depth += 1
        elif text[place] == "}":
            depth -= 1
    return text[start:]


def clauses(text: str) -> list[str]:
    """The words of the clauses before the body of a function."""
    found = (CLAUSE.search(text[:brace.start()]) for brace in re.finditer("{", text))
    return [clause[1] for clause in found if clause]


def functions(text: str) -> Iterator[Function]:
    """The public functions of a source file."""
    code = COMMENT.sub("", text)
    for found in PUBLIC.finditer(code):
        yield Function(found[2], bool(found[1]), head(code, found.end()))


def offences(path: Path) -> Iterator[str]:
    """What is wrong with the contracts of a source file."""
    for function in functions(path.read_text(encoding="utf-8")):
        if "ensures" not in clauses(function.head):
            yield f"{function.name} promises nothing"
        if function.exported and "requires" in clauses(function.head):
            yield f"{function.name} is called by hosts, and requires something"


def exports(root: Path) -> Iterator[str]:
    """What a crate exports otherwise than the crate that it exports has it."""
    for path in sorted(root.glob("crates/*_c/src/lib.rt")):
        crate = root / "crates" / path.parts[-3].removesuffix("_c")
        texts = [source.read_text(encoding="utf-8") for source in crate.glob("src/**/*.rt")]
        heads = {found.name: found.plain() for text in texts for found in functions(text)}
        for function in functions(path.read_text(encoding="utf-8")):
            if function.exported and heads.get(function.name) != function.plain():
                yield f"{path.relative_to(root)}: {function.name} is not as in {crate.name}"


def main(words: list[str]) -> int:
    """Says what is wrong, or how many functions were read."""
    root = Path(words[0] if words else __file__).resolve()
    root = root if words else root.parent.parent
    sources = [
        path
        for path in sorted(root.glob("crates/*/src/**/*.rt"))
        if not (root / "crates" / path.relative_to(root).parts[1] / "src/main.rt").exists()
    ]
    wrong = [f"{path.relative_to(root)}: {text}" for path in sources for text in offences(path)]
    wrong += exports(root)
    count = sum(len(list(functions(path.read_text(encoding="utf-8")))) for path in sources)
    print("\n".join(wrong) or f"contracts: {count} public functions promise something")
    return 1 if wrong or not count else 0


if __name__ == "__main__":
    sys.exit(main(sys.argv[1:]))
