#!/usr/bin/env python3
"""archives.py NAME..: writes build/archives/libNAME.a of each static library NAME_c, and keeps the
LLVM module that it is compiled from in build/wasm.

What they rest on is proved first, by `rt lib`, which proves nothing twice. Where `rt ci` has just
passed on these very files (build/ci.passed), what it has proved is taken. The archives are then
compiled by the kit's rattle, as many at a time as there are processors: it proves a static library
itself, and compiles nothing that is not proved. They run on every x86-64.
"""

from __future__ import annotations

import concurrent.futures
import os
import subprocess
import sys
import tempfile
import time
from pathlib import Path
from typing import Dict, Iterator, List, NamedTuple

ROOT = Path(__file__).resolve().parent.parent
CRATES = ROOT / "crates"
ARCHIVES = ROOT / "build/archives"
MODULES = ROOT / "build/wasm"
PASSED = ROOT / "build/ci.passed"
# The compiler of the kit, but that it keeps the LLVM module that it is handed. rattle hands it no
# environment, so that the paths are written into it.
CLANG = """#!/bin/sh
for word in "$@"; do case $word in *.bc) cp "$word" "{module}" ;; esac; done
exec "{clang}" "$@"
"""


class Ended(NamedTuple):
    """What rattle said of an archive, and the status that it ended with."""

    name: str
    said: str
    status: int


def kit() -> Path:
    """The folder of the kit: rt says where its first page is."""
    page = subprocess.run(["rt", "doc"], stdout=subprocess.PIPE, text=True, check=True).stdout
    return Path(page.strip()).parent


def graph() -> Dict[str, List[str]]:
    """What each crate of crates.txt rests on, but for the libraries of the kit."""
    lines = (ROOT / "crates.txt").read_text(encoding="utf-8").splitlines()
    found = {
        name.split()[0]: rest.split()
        for name, colon, rest in (line.split("#")[0].partition(":") for line in lines)
        if colon
    }
    return {name: [other for other in rest if other in found] for name, rest in found.items()}


def below(needs: Dict[str, List[str]], crates: List[str]) -> List[str]:
    """All that crates rest on, each once."""
    found: List[str] = []
    waiting = [*crates]
    while waiting:
        for crate in needs[waiting.pop()]:
            if crate not in found:
                found.append(crate)
                waiting.append(crate)
    return sorted(found)


def library(crate: str) -> Path:
    """Where rt has what is proved of a crate, for those that rest on it."""
    return CRATES / crate / "out/rlib" / f"{crate}.rlib"


def sources() -> Iterator[Path]:
    """What a proof is made of."""
    yield ROOT / "crates.txt"
    for part in ("src", "specs", "proofs"):
        for path in CRATES.glob(f"*/{part}/**/*"):
            yield path


def passed_by_ci(crates: List[str]) -> bool:
    """Whether what is proved of these crates is what `rt ci` has left of the sources as they stand.
    What a session has built itself, rt puts back when `rt ci` ends; it has a stamp beside it."""
    whole = all((library(crate) / "format").exists() for crate in crates)
    if not whole or any((library(crate).parent / "stamp").exists() for crate in crates):
        return False
    return PASSED.exists() and PASSED.stat().st_mtime > max(it.stat().st_mtime for it in sources())


def prove(crates: List[str]) -> int:
    """Has rt prove these libraries and what they rest on. The status to exit with."""
    for crate in crates:
        ran = subprocess.run(["rt", "lib"], cwd=CRATES / crate, check=False)
        if ran.returncode:
            return ran.returncode
    return 0


def toolchain_that_keeps(module: Path, installed: Path, room: Path) -> Path:
    """A toolchain that is the kit's but for that compiler."""
    (room / "bin").mkdir(parents=True)
    for path in [*installed.iterdir(), *(installed / "bin").iterdir()]:
        link = room / path.relative_to(installed)
        if path.name not in ("bin", "clang"):
            link.symlink_to(path)
    clang = room / "bin/clang"
    clang.write_text(CLANG.format(module=module, clang=installed / "bin/clang"))
    clang.chmod(0o755)
    return room


def words(name: str, needs: Dict[str, List[str]], place: Path, toolchain: Path) -> List[str]:
    """What rattle is called with for an archive."""
    crate = f"{name}_c"
    found = ["--crate-name", crate, "src/lib.rt", "--extern", f"std={place}/rlibs/std.rlib"]
    found += ["-L", f"dependency={place}/rlibs"]
    for other in needs[crate]:
        found += ["--extern", f"{other}={library(other)}"]
    for other in below(needs, [crate]):
        found += ["-L", f"dependency={library(other).parent}"]
    found += ["--antt-project", f"{place}/rattle/logic/antt-project.json"]
    found += ["--logic-built", f"{place}/logic_built", "--links", f"{crate}="]
    found += ["--crate-type", "staticlib", "--cpu", "x86-64", "--backend", "llvm"]
    return found + ["--toolchain", str(toolchain), "-o", str(ARCHIVES / f"lib{name}.a")]


def compiled(name: str, needs: Dict[str, List[str]], place: Path) -> Ended:
    """Has rattle prove a static library and write its archive."""
    with tempfile.TemporaryDirectory() as room:
        module = MODULES / f"{name}.bc"
        toolchain = toolchain_that_keeps(module, place / "toolchain", Path(room) / "toolchain")
        ran = subprocess.run(
            [str(place / "bin/rattle"), "build", *words(name, needs, place, toolchain)],
            cwd=CRATES / f"{name}_c",
            stdout=subprocess.PIPE,
            stderr=subprocess.STDOUT,
            text=True,
            check=False,
        )
    return Ended(name, ran.stdout, ran.returncode)


def main(names: List[str]) -> int:
    """Proves what is not yet proved, and writes the archives."""
    if not names or names[0].startswith("-"):
        print(__doc__, file=sys.stderr)
        return 2
    began = time.monotonic()
    needs, place = graph(), kit()
    status = 0 if passed_by_ci(below(needs, [f"{name}_c" for name in names])) else prove(names)
    for folder in (ARCHIVES, MODULES):
        folder.mkdir(parents=True, exist_ok=True)
    with concurrent.futures.ThreadPoolExecutor(os.cpu_count()) as pool:
        asked = [] if status else [pool.submit(compiled, name, needs, place) for name in names]
        for future in concurrent.futures.as_completed(asked):
            ended = future.result()
            status = status or ended.status
            wrote = f"rt: build/archives/lib{ended.name}.a"
            print(ended.said if ended.status else wrote, flush=True)
    if not status:
        print(f"{len(names)} archives in {time.monotonic() - began:.0f} s")
    return status


if __name__ == "__main__":
    sys.exit(main(sys.argv[1:]))
