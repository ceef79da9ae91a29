#!/usr/bin/env python3
"""Checks what the documents say of the files beside them, and exits 1 with a line for each
difference.

- Each wrong program, crates/CRATE/must-fail/NAME.edit, has a comment, and stands once in the tables
  of docs/PROOFS.md that docs/wrong_programs.py makes of these comments.
- Each rule that a document, a crate, the header, the Rust wrapper or the Python module cites (M4.1)
  is in docs/MACHINE.md, once.
- Each crate is in docs/ARCHITECTURE.md, and crates.txt and the folders of crates/ have the same.
- Each relative link of a document leads to a file, and to a heading where it names one.
- No line of code, definitions, proofs or scripts has more than 120 characters.
- What documents name is in the tree (check_names.py), and numbers that they state are those of the
  code (check_numbers.py).

With an argument, the root of the repository to check; otherwise the one that this file is in.
"""

import re
import sys
from collections import Counter
from pathlib import Path

from check_names import unknown, written
from check_numbers import wrong
from wrong_programs import differences

RULE = re.compile(r"\bM\d+\.\d+\b")
DEFINED_RULE = re.compile(r"\*\*(M\d+\.\d+)\*\*")
# A crate of crates.txt; behind its name stands what is said of it, as `staticlib`.
CRATE = re.compile(r"^(\w+)(?: +[\w=+]+)* *:", re.MULTILINE)
LINK = re.compile(r"\]\(([^)\s]+)\)")
FENCE = re.compile(r"^```.*?^```$", re.MULTILINE | re.DOTALL)
# Folders that people write in, and the files there that are no data.
WRITTEN = ("crates", "docs", "examples", "host", "include", "page", "python", "tools")
TEXTS = {".rt", ".antt", ".py", ".rs", ".c", ".h", ".sh", ".mjs", ".js", ".css", ".html"}
CITING = (
    "crates/*/src/**/*.rt",
    "crates/*/specs/**/*.antt",
    "crates/*/proofs/**/*.antt",
    "include/**/*.h",
    "host/**/src/*.rs",
    "python/*/*.py",
)


def rules(root: Path, documents: list[Path]) -> list[str]:
    """Rules that are cited and not in MACHINE.md, or are there twice."""
    defined = Counter(DEFINED_RULE.findall((root / "docs/MACHINE.md").read_text(encoding="utf-8")))
    repeated = [(rule, count) for rule, count in defined.items() if count > 1]
    found = [f"docs/MACHINE.md: {rule} stands {count} times" for rule, count in repeated]
    for path in [*documents, *(path for pattern in CITING for path in sorted(root.glob(pattern)))]:
        cited = set(RULE.findall(path.read_text(encoding="utf-8"))) - defined.keys()
        name = path.relative_to(root)
        found += [f"{name}: docs/MACHINE.md has no {rule}" for rule in sorted(cited)]
    return found


def crates(root: Path) -> list[str]:
    """Crates that crates.txt, crates/ or ARCHITECTURE.md lacks."""
    text = (root / "crates.txt").read_text(encoding="utf-8")
    listed = set(CRATE.findall(text))
    folders = {path.parent.parent.name for path in root.glob("crates/*/src/*.rt")}
    told = (root / "docs/ARCHITECTURE.md").read_text(encoding="utf-8")
    untold = [name for name in sorted(listed) if not re.search(rf"\b{name}\b", told)]
    return [f"docs/ARCHITECTURE.md: no {name}" for name in untold] + [
        f"crates.txt: {name} is not in both it and crates/" for name in sorted(listed ^ folders)
    ]


def anchors(document: Path) -> set[str]:
    """What the headings of a document are linked by: lower case, words joined by hyphens."""
    text = FENCE.sub("", document.read_text(encoding="utf-8"))
    headings = [line.lstrip("#").strip().lower() for line in text.splitlines() if line[:1] == "#"]
    return {re.sub(r"[^\w\- ]", "", heading).replace(" ", "-") for heading in headings}


def links(root: Path, documents: list[Path]) -> list[str]:
    """Relative links that lead to no file, or to no heading of a document."""
    found = []
    for path in documents:
        for target in LINK.findall(FENCE.sub("", path.read_text(encoding="utf-8"))):
            file, _, anchor = target.partition("#")
            place = path.parent / file if file else path
            if re.match("[a-z]+:", target):
                continue
            if not place.exists():
                found.append(f"{path.relative_to(root)}: no file {target}")
            elif anchor and place.suffix == ".md" and anchor not in anchors(place):
                found.append(f"{path.relative_to(root)}: no heading {target}")
    return found


def long_lines(root: Path) -> list[str]:
    """Lines of more than 120 characters."""
    paths = [path for folder in WRITTEN for path in written(root / folder)]
    return [
        f"{path.relative_to(root)}:{number}: {len(line)} characters"
        for path in paths
        if path.suffix in TEXTS
        for number, line in enumerate(path.read_text(encoding="utf-8").splitlines(), 1)
        if len(line) > 120
    ]


def main() -> int:
    """Checks the documents of a repository."""
    root = Path(sys.argv[1] if len(sys.argv) > 1 else Path(__file__).parent.parent).resolve()
    documents = [*sorted(root.glob("*.md")), *sorted(root.glob("docs/**/*.md"))]
    found = differences(root) + crates(root) + rules(root, documents) + links(root, documents)
    found += long_lines(root) + unknown(root, documents) + wrong(root, documents)
    for line in found:
        print(line, file=sys.stderr)
    if not found:
        print(f"documents: {len(documents)} agree with the files beside them")
    return 1 if found else 0


if __name__ == "__main__":
    sys.exit(main())
