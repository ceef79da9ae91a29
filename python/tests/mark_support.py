"""What the tests of ``lc3 mark`` share: cases, candidates, and the results of a marking."""

from __future__ import annotations

import copy
import json
import random
from pathlib import Path
from typing import Any, Sequence

from .command_support import Folder, Ran, ran
from .support import COUNTING, object_file

Lines = list[dict[str, Any]]


def doubling(shown: int = 2, last: str = "TRAP x25") -> bytes:
    """The object file of a program that shows a key so many times, and then does a last thing."""
    return object_file(0x3000, "TRAP x20", *["TRAP x21"] * shown, last)


def lines_of(text: bytes | str) -> Lines:
    """The objects of JSON Lines."""
    return [json.loads(line) for line in text.splitlines()]


def of_kind(kind: str, lines: Lines) -> Lines:
    """The lines of a kind."""
    return [line for line in lines if line["kind"] == kind]


def untimed(lines: Lines) -> Lines:
    """The lines without what tells when they were written, and how long it took."""
    told = copy.deepcopy(lines)
    for line in told:
        line.pop("time", None)
        for one in line.get("results", []):
            one.pop("seconds")
    return told


class Marking(Folder):
    """Tests with two cases, each of a key that is to be shown twice."""

    def setUp(self) -> None:
        super().setUp()
        self.cases = self.folder / "cases"
        for name, key in (("one", "a"), ("two", "\n")):
            self.file(f"cases/{name}.keys", key)
            self.file(f"cases/{name}.expected", f"{key}{key}Halted\n")
        self.file("cases/two.steps", "20000")

    def mark(self, *arguments: object) -> Ran:
        """Marks in this process."""
        return ran("mark", "--cases", self.cases, *arguments)

    def lines(self, *arguments: object, code: int = 1) -> Lines:
        """The lines of a marking in JSON."""
        done = self.mark("--json", *arguments)
        self.assertEqual((done.code, done.err), (code, ""))
        return lines_of(done.out)

    def marked(self, *arguments: object, code: int = 1) -> Lines:
        """The candidates' lines of a marking, without their times."""
        return untimed(of_kind("candidate", self.lines(*arguments, code=code)))

    def planted(self, count: int) -> tuple[list[Path], list[str]]:
        """Candidates of each kind, in a random order, and the verdict on each."""
        rng, faults = random.Random(200), []
        for number in range(count):
            kind = ("right", "wrong display", "not halted", "exception", "refused")[number % 5]
            content = {
                "right": doubling(2) + rng.randbytes(2 * rng.randrange(9)),
                "wrong display": doubling(rng.choice([0, 1, 3])),
                "not halted": rng.choice(
                    [doubling(2, "BRnzp #-1"), doubling(2, "TRAP x20"), doubling(1, "TRAP x20")]
                    + [COUNTING]
                ),
                "exception": doubling(rng.choice([0, 1, 2]), rng.choice(["LD R0, #-256", "RTI"])),
                "refused": rng.choice([b"", b"\x30", doubling() + b"\x00", b"\xff\xff" * 3]),
            }[kind]
            faults.append((kind, content))
        rng.shuffle(faults)
        paths = [
            self.file(f"candidates/{number:03}.obj", content)
            for number, (_, content) in enumerate(faults)
        ]
        return paths, [kind for kind, _ in faults]


def names(lines: Sequence[dict[str, Any]]) -> list[str]:
    """The names in lines of results."""
    return [line["candidate"] for line in lines]


def verdicts(lines: Sequence[dict[str, Any]]) -> list[str]:
    """The verdicts in lines of results."""
    return [line["verdict"] for line in lines]
