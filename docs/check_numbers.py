"""Checks numbers that documents and comments state; docs/check.py calls it.

- The size that a comment gives above a struct for C is the one that the header asserts.
- Versions in names of files and packages are those of VERSION and of the header.
- Each call of the header is in the list at its head, and in docs/PROOFS.md.
- docs/PROOFS.md has as many rows of rules as it says, and all crates in its list of layers.
- The limits of docs/PERFORMANCE.md are those of host/bench/count.sh.
- Each decision has a number of its own, above that of the one before.
- Each landing note, from the first that has them on, tells times and what they were before.
"""

import re
from pathlib import Path

HEADER = "include/fanthrig/lc3.h"
SIZE = re.compile(r"sizeof\((lc3_\w+)\) == (\d+)")
# The lines of a comment that ends above a struct.
STRUCT = re.compile(r"((?://.*\n)+)(?:#.*\n)*pub struct (Lc3\w+)")
CALL = re.compile(r"^[a-z]\w* (lc3_\w+)\(", re.MULTILINE)
ROWS = re.compile(r"\((crates/[\w/]+\.antt), (\d+) rows")
ROW = re.compile(r"\b(?:supervisor|user) 0x[0-9A-F]{4}\b")
# Limits of a program's steps, of whole calls, and of all others: in the script, in the document.
LIMITS = [
    (r"^\w+ \$\w+ (\d+)\b", r"^\| [^|]+ \| [\d.]+ \| [\d.]+ \| (\d+) \|"),
    (r"^\d+ (\d+)$", r"^\| [\d,]+ \| [\d,]+ \| ([\d,]+) \|$"),
    (r"_LIMIT:-(\d+)", r"(?:takes|fails)\s+above\s+(\d+)\b(?!\.\d)|\bor (\d+) for"),
]
DECISION = re.compile(r"^(\d+)\. \*\*", re.MULTILINE)
TIME = re.compile(r"\d (?:s|min)\b")
FIRST_TIMED = 42


def read(root: Path, name: str) -> str:
    """A file of the repository."""
    return (root / name).read_text(encoding="utf-8")


def sizes(root: Path) -> list[str]:
    """Sizes in comments that are not the header's."""
    asserted = dict(SIZE.findall(read(root, HEADER)))
    found = []
    for path in sorted(root.glob("crates/*/src/**/*.rt")):
        for comment, struct in STRUCT.findall(path.read_text(encoding="utf-8")):
            size = asserted.get(re.sub(r"(?<!^)(?=[A-Z])", "_", struct).lower())
            told = re.findall(r"(\d+) bytes", comment)
            found += [
                f"{path.relative_to(root)}: {struct} has {size} bytes, not {number}"
                for number in told
                if number != size
            ]
    return found


def versions(root: Path, documents: list[Path]) -> list[str]:
    """Versions in names of files and packages that are not today's."""
    interface = re.findall(r"^#define LC3_VERSION (\d+)$", read(root, HEADER), re.MULTILINE)
    release = [read(root, "VERSION").strip()]
    found = []
    for path in [root / HEADER, *documents]:
        text = path.read_text(encoding="utf-8")
        wrong = {*re.findall(r"libfanthrig(?:\.so\.)?(\d+)", text)} - {*interface}
        wrong |= {*re.findall(r"fanthrig\S*[-_](\d+\.\d+\.\d+)", text)} - {*release}
        found += [f"{path.relative_to(root)}: no version {number}" for number in sorted(wrong)]
    return found


def calls(root: Path) -> list[str]:
    """Calls that the head of the header or PROOFS.md leaves out."""
    header = read(root, HEADER)
    head = header.partition("*/")[0]
    proofs = read(root, "docs/PROOFS.md")
    return [
        f"{name}: no {call}"
        for call in CALL.findall(header)
        for name, text in ((HEADER, head), ("docs/PROOFS.md", proofs))
        if not re.search(rf"\b{call}\b", text)
    ]


def layers(root: Path) -> list[str]:
    """What PROOFS.md says wrong of rows and crates."""
    text = read(root, "docs/PROOFS.md")
    listed = text.partition("The layers,")[2].partition("\nA theorem")[0]
    crates = sorted(path.parent.name for path in root.glob("crates/*/src"))
    lacking = [name for name in crates if not re.search(rf"\b{name}\b", listed)]
    return [f"docs/PROOFS.md: the layers lack {name}" for name in lacking] + [
        f"docs/PROOFS.md: {name} has not {told} rows"
        for name, told in ROWS.findall(text)
        if len(ROW.findall(read(root, name))) != int(told)
    ]


def limits(root: Path) -> list[str]:
    """Limits that PERFORMANCE.md states otherwise than the script that holds them."""
    script, text = read(root, "host/bench/count.sh"), read(root, "docs/PERFORMANCE.md")
    found = []
    for held, told in LIMITS:
        ours = re.findall(held, script, re.MULTILINE)
        theirs = ["".join(match.groups("")) for match in re.finditer(told, text, re.MULTILINE)]
        if sorted(ours) != sorted(number.replace(",", "") for number in theirs):
            found.append(f"docs/PERFORMANCE.md: limits {theirs}; host/bench/count.sh: {ours}")
    return found


def decisions(root: Path) -> list[str]:
    """Decisions whose number is not above that of the one before."""
    numbers = [int(number) for number in DECISION.findall(read(root, "docs/DECISIONS.md"))]
    return [
        f"docs/DECISIONS.md: {after} stands after {before}"
        for before, after in zip(numbers, numbers[1:])
        if after <= before
    ]


def notes(root: Path) -> list[str]:
    """Landing notes without times, or without those before."""
    return [
        f"{path.relative_to(root)}: no times before and after"
        for path in sorted(root.glob("docs/landings/*.md"))
        if int(path.name[:2]) >= FIRST_TIMED
        and not any(
            TIME.search(part) and "before" in part
            for part in path.read_text(encoding="utf-8").split("\n\n")
        )
    ]


def wrong(root: Path, documents: list[Path]) -> list[str]:
    """What is wrong with the numbers in the documents and comments of a repository."""
    today = [path for path in documents if path.name in ("README.md", "GUIDE.md")]
    told = sizes(root) + versions(root, today) + calls(root) + layers(root)
    return told + limits(root) + decisions(root) + notes(root)
