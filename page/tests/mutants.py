"""How strong the tests of fanthrig.wasm are: single instructions of it are altered at random.

    python3 mutants.py COUNT SEED FOLDER [FUNCTION]

FOLDER has what the tests need: answers.jsonl, runs.txt and longs.txt, as page/tests/run.sh makes
them. Of each alteration it is told by which test it is found; FUNCTION, such as lc3_run_long, has
the instructions of this export and of what it calls alone altered. The same count and seed give the
same alterations of the same library: docs/landings/23-page.md used 110 and 40. It needs wasm2wat
and wat2wasm of Debian's package wabt, takes long, and is no part of the gate.
"""

from __future__ import annotations

import hashlib
import os
import random
import re
import subprocess
import sys
import threading
from collections import Counter
from collections.abc import Iterable
from concurrent.futures import ThreadPoolExecutor
from itertools import islice
from pathlib import Path
from typing import Tuple

ROOT = Path(__file__).resolve().parent.parent.parent
LIBRARY = ROOT / "build/fanthrig.wasm"

# Another instruction of the same type for each.
OTHERS = {
    "i32.add": "i32.sub",
    "i32.sub": "i32.add",
    "i64.add": "i64.sub",
    "i64.sub": "i64.add",
    "i32.and": "i32.or",
    "i32.or": "i32.and",
    "i32.xor": "i32.or",
    "i32.eq": "i32.ne",
    "i32.ne": "i32.eq",
    "i64.eq": "i64.ne",
    "i64.ne": "i64.eq",
    "i32.lt_u": "i32.le_u",
    "i32.gt_u": "i32.ge_u",
    "i32.le_u": "i32.lt_u",
    "i32.ge_u": "i32.gt_u",
    "i32.lt_s": "i32.ge_s",
    "i32.gt_s": "i32.le_s",
    "i64.lt_u": "i64.le_u",
    "i64.gt_u": "i64.ge_u",
    "i64.le_u": "i64.lt_u",
    "i64.ge_u": "i64.gt_u",
    "i32.shl": "i32.shr_u",
    "i32.shr_u": "i32.shl",
    "i32.eqz": "i32.clz",
    "i32.load16_u": "i32.load16_s",
    "i32.load8_u": "i32.load8_s",
    "i32.store16": "i32.store8",
    "i32.extend16_s": "i32.extend8_s",
}
CONSTANT = re.compile(r"(i(?:32|64)\.const) (-?\d+)")
FUNCTION = re.compile(r"  \(func \(;(\d+);\)")
EXPORT = re.compile(r'  \(export "(\w+)" \(func (\d+)\)\)')
CALL = re.compile(r"\bcall (\d+)")
AT_ONCE = os.cpu_count() or 1  # alterations that are tried at a time


class Text:
    """The library as text, with the function of each line."""

    def __init__(self, only: str = "") -> None:
        """The lines, and the places that can be altered: of one export and of what it calls alone,
        where one is named."""
        said = subprocess.run(["wasm2wat", LIBRARY], capture_output=True, text=True, check=True)
        self.lines = said.stdout.split("\n")
        names = {number: name for name, number in EXPORT.findall(said.stdout)}
        self.functions, current = [], ""
        for line in self.lines:
            found = FUNCTION.match(line)
            current = found[1] if found else current
            self.functions.append(names.get(current, f"function {current}"))
        wanted = self._called_by(only, names) if only else set(self.functions)
        self.places = [
            at
            for at, line in enumerate(self.lines)
            if self._may_be_altered(line) and self.functions[at] in wanted
        ]

    def _called_by(self, name: str, names: dict[str, str]) -> set[str]:
        """An export and the functions that it calls, and that these call."""
        calls: dict[str, set[str]] = {}
        for function, line in zip(self.functions, self.lines):
            called = CALL.findall(line)
            others = {names.get(number, f"function {number}") for number in called}
            calls.setdefault(function, set()).update(others)
        found, more = {name}, {name}
        while more:
            more = set().union(*(calls[one] for one in more)) - found
            found |= more
        return found

    @staticmethod
    def _may_be_altered(line: str) -> bool:
        """Whether a line is an instruction that another can stand for."""
        words = line.split()
        return bool(words) and (words[0] in OTHERS or bool(CONSTANT.match(line.strip())))

    def altered(self, rng: random.Random) -> tuple[int, str, str]:
        """A place, its line and another line for it."""
        at = rng.choice(self.places)
        line = self.lines[at]
        constant = CONSTANT.search(line)
        if constant:
            number = int(constant[2]) + rng.choice([1, -1, 2])
            return at, line, line.replace(constant[0], f"{constant[1]} {number}", 1)
        word = line.split()[0]
        return at, line, line.replace(word, OTHERS[word], 1)

    def write(self, at: int, line: str, out: Path) -> bool:
        """Writes the library with one line altered; whether it is one still."""
        text = out.with_suffix(".wat")
        text.write_text("\n".join([*self.lines[:at], line, *self.lines[at + 1 :]]))
        made = subprocess.run(["wat2wasm", text, "-o", out], capture_output=True)
        return made.returncode == 0


class Tests:
    """The tests, the shortest first."""

    def __init__(self, folder: Path, part: bool) -> None:
        """All that there is to compare, or a part of it that takes a tenth of the time."""
        self._folder = folder / ("part" if part else "all")
        self._folder.mkdir(exist_ok=True)
        self._seconds = 60 if part else 1200
        self._copy(folder, part)

    def _copy(self, folder: Path, part: bool) -> None:
        """The comparisons, those of sittings, which take long, by themselves."""
        lines = (folder / "answers.jsonl").read_text(encoding="utf-8").splitlines(True)
        memory = [line for line in lines if line.startswith('{"call":"memory"')]
        sittings = [line for line in lines if line.startswith('{"call":"sitting"')]
        calls = [line for line in lines if not line.startswith(('{"call":"m', '{"call":"sitting"'))]
        others = [line for line in lines if line.startswith('{"call":"monitor')]
        if part:
            claim = '{"call":"claim"'  # what is told of others is told of it
            calls = [line for at, line in enumerate(calls) if at % 8 == 0 or line.startswith(claim)]
            sittings = sittings[:50]
        for name, some in {"calls": [*calls, *others], "sittings": sittings}.items():
            text = "".join([*memory, *some])
            (self._folder / f"{name}.jsonl").write_text(text, encoding="utf-8")
        for name, count in {"runs.txt": 2000, "longs.txt": 1000}.items():
            with (folder / name).open(encoding="utf-8") as file:
                text = "".join(islice(file, count if part else None))
            (self._folder / name).write_text(text, encoding="utf-8")

    def _commands(self, library: Path) -> dict[str, list[str]]:
        """The command of each test, which ends after so many seconds of processor time."""
        node, to = ["prlimit", f"--cpu={self._seconds}", "node"], ["--library", str(library)]
        runs, native = [*node, "page/tests/runs.mjs"], [*node, "page/tests/native.mjs"]
        return {
            "300 stored runs": [*runs, "host/tests/reference/runs.txt", *to],
            "what programs replace and reach": [*node, "page/tests/windows.mjs", *to],
            "the native library's answers": [*native, str(self._folder / "calls.jsonl"), *to],
            "the long runs": [*runs, str(self._folder / "longs.txt"), *to],
            "the runs of the reference": [*runs, str(self._folder / "runs.txt"), *to],
            "Python's sittings": [*native, str(self._folder / "sittings.jsonl"), *to],
        }

    def finding(self, library: Path) -> str:
        """The first test that does not pass, or nothing."""
        for name, command in self._commands(library).items():
            if subprocess.run(command, cwd=ROOT, capture_output=True).returncode:
                return name
        return "nothing"


Alteration = Tuple[int, str, str]  # the place, its line, and another line for it


class Trial:
    """Alterations of the library, tried by tests, several at a time."""

    def __init__(self, text: Text, tests: Tests, folder: Path) -> None:
        """None yet; the altered libraries are written to the folder. All must pass without one."""
        self._text, self._tests, self._folder = text, tests, folder
        found = tests.finding(LIBRARY)
        if found != "nothing":
            sys.exit(f"the library as it is does not pass {found}")
        self.found: Counter[str] = Counter()
        self.survivors: list[Alteration] = []

    def _finding(self, alteration: Alteration) -> str:
        """By what an alteration is found; empty where it leaves no library."""
        at, _, new = alteration
        out = self._folder / f"altered-{threading.get_ident()}.wasm"
        return self._tests.finding(out) if self._text.write(at, new, out) else ""

    def run(self, alterations: Iterable[Alteration], count: int) -> None:
        """Tries alterations until so many were libraries, and tells by what each is found."""
        source = iter(alterations)
        with ThreadPoolExecutor(AT_ONCE) as pool:
            while sum(self.found.values()) < count:
                some = list(islice(source, count - sum(self.found.values())))
                for alteration, by in zip(some, pool.map(self._finding, some)):
                    self._tell(alteration, by)

    def _tell(self, alteration: Alteration, by: str) -> None:
        """Counts an alteration."""
        at, old, new = alteration
        if by:
            self.found[by] += 1
        if by == "nothing":
            self.survivors.append(alteration)
        where = f"line {at + 1}, {self._text.functions[at]}"
        print(f"{where}: {old.strip()} -> {new.strip()}: {by and 'found by ' + by}", flush=True)


def main(count: int, seed: int, folder: Path, only: str = "") -> None:
    """Makes so many alterations, and tells by what each is found."""
    rng, text, tests = random.Random(seed), Text(only), Tests(folder, True)
    digest = hashlib.sha256(LIBRARY.read_bytes()).hexdigest()
    print(f"{len(text.places)} places, seed {seed}, library {digest}", flush=True)
    trial = Trial(text, tests, folder)
    trial.run(iter(lambda: text.altered(rng), None), count)
    for name, number in trial.found.most_common():
        print(f"{number} found by {name}")
    if trial.survivors:
        print(f"all comparisons for the {len(trial.survivors)} that a part does not find:")
        everything = Trial(text, Tests(folder, False), folder)
        everything.run(trial.survivors, len(trial.survivors))


if __name__ == "__main__":
    main(int(sys.argv[1]), int(sys.argv[2]), Path(sys.argv[3]), *sys.argv[4:5])
