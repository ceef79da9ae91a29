#!/usr/bin/env python3
"""way.py [CALLS FILES]: the way of an ADD, from `lc3_run` down to the last function that it enters.

For the fast step and for the ordinary one this prints the functions from `lc3_run` to those that
deal with ADD, the deepest chain of calls below them, and the files in which all of that stands.
With two numbers it prints the counts alone, and fails where a way has more calls or files than
they say.
"""

from __future__ import annotations

import re
import sys
from pathlib import Path
from typing import Dict, Iterator, List, NamedTuple, Sequence, Tuple

CRATES = Path(__file__).resolve().parent.parent / "crates"
FIRST = "lc3_machine::lc3_run"

USE = re.compile(r"^use ([\w:]+?)(?:::\{([^}]*)\})?;", re.MULTILINE)
FUNCTION = re.compile(
    r"^(?:pub(?:\(crate\))? )?(?:extern \"C\" )?fn (\w+)\(.*?^}", re.DOTALL | re.MULTILINE
)
CALL = re.compile(r"\b([a-z_][\w:]*)\(")


class Arm(NamedTuple):
    """Where a function deals with ADD: from the line that begins so, to the one that ends it."""

    function: str
    begins: str
    ends: str


WAYS: Dict[str, Sequence[Arm]] = {
    "fast step": [Arm("fast_step::try_step", "1 =>", "2 =>")],
    "ordinary step": [
        Arm("word::reading::read", "1 =>", "2 =>"),
        Arm("step::planning::plan_for", "Instruction::AddRegister", "Instruction::Ld"),
        Arm("step::obeying::perform", "Plan::Move", "Plan::Put"),
    ],
}


class Function(NamedTuple):
    """A function of the crates: its file, its text, and what the names in it stand for."""

    path: Path
    body: str
    names: Dict[str, str]


def uses(text: str) -> Iterator[str]:
    """The paths of the names that a file brings in, each whole."""
    for path, names in USE.findall(text):
        yield from (f"{path}::{name.strip()}" for name in names.split(",") if name.strip())
        if not names:
            yield path


def functions() -> Dict[str, Function]:
    """Every function of the crates, by its path from the crate on."""
    found: Dict[str, Function] = {}
    for path in sorted(CRATES.glob("*/src/**/*.rt")):
        text = path.read_text(encoding="utf-8")
        crate = path.relative_to(CRATES).parts[0]
        module = "::".join([crate] + [p for p in (path.stem,) if p != "lib"])
        local = {m.group(1): f"{module}::{m.group(1)}" for m in FUNCTION.finditer(text)}
        used = [re.sub(r"^(crate|super)\b", crate, u) for u in uses(text)]
        names = {**{u.split("::")[-1]: u for u in used}, **local, "crate": crate}
        for m in FUNCTION.finditer(text):
            found[local[m.group(1)]] = Function(path, m.group().split("\n{\n", 1)[-1], names)
    return found


def called(text: str, function: Function, known: Dict[str, Function], crate: str) -> List[str]:
    """The functions of the crates that a part of a function calls, in their order."""
    calls: List[str] = []
    for name in CALL.findall(text):
        head, _, rest = name.partition("::")
        full = "::".join([function.names.get(head, head)] + ([rest] if rest else []))
        for path in (full, f"{crate}::{full}"):
            if path in known and path not in calls:
                calls.append(path)
    return calls


class Way:
    """The calls between the functions of the crates."""

    def __init__(self) -> None:
        self.known = functions()

    def calls(self, name: str, text: str = "") -> List[str]:
        """What a function, or this part of it, calls."""
        function = self.known[name]
        return called(text or function.body, function, self.known, name.partition("::")[0])

    def down_to(self, last: str) -> List[str]:
        """The shortest chain of calls from `lc3_run` to this function."""
        chains = [[FIRST]]
        seen = {FIRST}
        for chain in chains:
            if chain[-1] == last:
                return chain
            for name in self.calls(chain[-1]):
                if name not in seen:
                    seen.add(name)
                    chains.append(chain + [name])
        raise SystemExit(f"way.py: {FIRST} does not come to {last}")

    def below(self, name: str, text: str = "") -> List[List[str]]:
        """Every chain of calls below a function, or below this part of it."""
        chains = [[name]]
        for inner in self.calls(name, text):
            chains += [[name] + chain for chain in self.below(inner)]
        return chains

    def through(self, arms: Sequence[Arm]) -> List[List[str]]:
        """Every chain of calls from `lc3_run` by what these arms do."""
        chains: List[List[str]] = []
        for arm in arms:
            body = self.known[arm.function].body
            start = body.index(f"        {arm.begins}")
            text = body[start : body.index(f"        {arm.ends}", start)]
            upper = self.down_to(arm.function)
            chains += [upper[:-1] + chain for chain in self.below(arm.function, text)]
        return chains

    def files(self, chains: Sequence[Sequence[str]]) -> List[str]:
        """The files of the functions in these chains, in the order in which they are met."""
        paths = [self.known[name].path for chain in chains for name in chain]
        return [str(p.relative_to(CRATES.parent)) for p in dict.fromkeys(paths)]


def main(arguments: Sequence[str]) -> int:
    """Prints both ways. With limits, whether they are kept."""
    limits = [int(a) for a in arguments]
    way = Way()
    longest: Tuple[int, int] = (0, 0)
    for kind, arms in WAYS.items():
        chains = way.through(arms)
        deepest = max(chains, key=len)
        files = way.files(chains)
        print(f"{kind}: {len(deepest) - 1} calls, {len(files)} files")
        if not limits:
            print("\n".join([f"    {name}" for name in deepest] + [f"  {path}" for path in files]))
        longest = (max(longest[0], len(deepest) - 1), max(longest[1], len(files)))
    if limits and (longest[0] > limits[0] or longest[1] > limits[1]):
        print(f"way.py: more than {limits[0]} calls or {limits[1]} files", file=sys.stderr)
        return 1
    return 0


if __name__ == "__main__":
    sys.exit(main(sys.argv[1:]))
