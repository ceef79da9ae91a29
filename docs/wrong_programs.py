#!/usr/bin/env python3
"""The tables of wrong programs in docs/PROOFS.md, made from the comments of the edits.

Above each table stands a line that names its wrong programs, each as CRATE/NAME, or a CRATE for all
of its edits that no such line names:

    <!-- wrong programs: installer monitor machine/idle_step -->

The comment at the head of crates/CRATE/must-fail/NAME.edit says what the wrong program does, and
after 'Refused at:' which fact it breaks. This command writes the tables; docs/check.py compares
them.
"""

import re
import sys
from pathlib import Path
from typing import Iterator

MARK = re.compile(r"<!-- wrong programs:\s([^>]*?)\s-->\n")
TABLE = re.compile(rf"(?P<mark>{MARK.pattern})\n?(?:\|.*\n)*")
REFUSED = "Refused at: "


def comment(path: Path) -> tuple[str, str]:
    """What an edit does, and where it is refused, if it says so."""
    lines = []
    for line in path.read_text(encoding="utf-8").splitlines():
        if not line.startswith("#"):
            break
        lines.append(line.lstrip("#").strip())
    what, _, where = " ".join(lines).partition(REFUSED)
    return what.strip().removesuffix("."), where.strip().removesuffix(".")


def edits(root: Path) -> dict[str, Path]:
    """Every wrong program by its name, CRATE/NAME."""
    paths = sorted(root.glob("crates/*/must-fail/*.edit"))
    return {f"{path.parts[-3]}/{path.stem}": path for path in paths}


def members(marks: list[str], files: dict[str, Path]) -> Iterator[list[str]]:
    """The wrong programs of each table, given what each line above a table names."""
    named = {word for mark in marks for word in mark.split() if "/" in word}
    for mark in marks:
        names: list[str] = []
        for word in mark.split():
            if "/" in word:
                names.append(word)
            else:
                rest = [name for name in files if name not in named]
                names += [name for name in rest if name.startswith(word + "/")]
        yield names


def table(names: list[str], files: dict[str, Path]) -> str:
    """The rows of these wrong programs; a third cell where one of them says what refuses it."""
    rows = [(name, *comment(files[name])) for name in names if name in files]
    whole = any(where for _, _, where in rows)
    head = ["Edit", "What it does", "Refused at"][: 3 if whole else 2]
    cells = [head, *([f"`{name}`", what, where][: len(head)] for name, what, where in rows)]
    lines = ["| " + " | ".join(row) + " |\n" for row in cells]
    lines.insert(1, "|" + "---|" * len(head) + "\n")
    return "".join(lines).replace("|  |", "| |")


def written(root: Path, text: str) -> str:
    """PROOFS.md with its tables made anew."""
    files = edits(root)
    tables = iter(list(members(MARK.findall(text), files)))
    return TABLE.sub(lambda m: f"{m['mark']}\n{table(next(tables), files)}", text)


def differences(root: Path) -> list[str]:
    """What is wrong with the tables of a repository, or with the comments that they come from."""
    path = root / "docs/PROOFS.md"
    text = path.read_text(encoding="utf-8")
    files = edits(root)
    listed = [name for names in members(MARK.findall(text), files) for name in names]
    silent = [name for name in files if not comment(files[name])[0]]
    repeated = sorted({name for name in listed if listed.count(name) > 1})
    found = (
        [f"crates: the edit {name} has no comment" for name in silent]
        + [f"docs/PROOFS.md: no table of edits has {name}" for name in files if name not in listed]
        + [f"docs/PROOFS.md: no edit is named {name}" for name in listed if name not in files]
        + [f"docs/PROOFS.md: {name} stands more than once" for name in repeated]
    )
    if not found and written(root, text) != text:
        found = ["docs/PROOFS.md: tables of edits differ; docs/wrong_programs.py writes them"]
    return found


def main() -> int:
    """Writes the tables."""
    root = Path(__file__).resolve().parent.parent
    path = root / "docs/PROOFS.md"
    path.write_text(written(root, path.read_text(encoding="utf-8")), encoding="utf-8")
    return 0


if __name__ == "__main__":
    sys.exit(main())
