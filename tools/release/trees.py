"""Trees as `make install` puts them, for the binary archive and for the Debian packages."""

from __future__ import annotations

import shutil
import subprocess
from pathlib import Path

from . import ROOT, SUMMARY, VERSION, archives, interface

BINARY = f"fanthrig-{VERSION}-x86_64-linux"

READ_ME = f"""\
Fanthrig LC-3 {VERSION}, interface {{interface}}, for x86-64 Linux with glibc 2.14 or later.

{SUMMARY}.

    bin/lc3 run share/doc/fanthrig/examples/hello.obj

The folder may stand anywhere and be moved. The command and the module need python3, from 3.9 on.

Python   PYTHONPATH=lib/python3/dist-packages
C        gcc -Iinclude program.c lib/libfanthrig.a
         or by pkg-config, with PKG_CONFIG_PATH=lib/pkgconfig
Rust     FANTHRIG_LIB_DIR=this folder's lib, with the crates of the source archive
Browser  share/fanthrig/lc3.html, one file that may be handed out as it is
Manual   man -l share/man/man1/lc3.1, share/man/man1/lc3-debug.1, share/man/man5/lc3-mark.5
"""


def install(folder: Path, **settings: str) -> None:
    """`make install` to a folder, with the library as it stands, and without compiled modules."""
    words = [f"{name}={value}" for name, value in settings.items()]
    command = ["make", "-s", "-o", "lib", "-o", "page", "install", f"DESTDIR={folder}", *words]
    subprocess.run(command, cwd=ROOT, check=True)
    for cache in list(folder.rglob("__pycache__")):
        shutil.rmtree(cache)


def replace(path: Path, old: str, new: str) -> None:
    """Replaces a text that must stand in a file."""
    text = path.read_text(encoding="utf-8")
    if old not in text:
        raise SystemExit(f"{path} has no {old!r}")
    path.write_text(text.replace(old, new), encoding="utf-8")


def binary(folder: Path, seconds: int) -> Path:
    """The tree of the binary archive: it may be put anywhere."""
    install(folder, PREFIX=f"/{BINARY}")
    tree = folder / BINARY
    # The command finds its module from where it stands; python3 is the first on the PATH.
    command = tree / "bin/lc3"
    first = command.read_text(encoding="utf-8").splitlines()[0]
    options = first.split()[1:]
    words = ["#!/usr/bin/env", *(["-S"] if options else []), "python3", *options]
    replace(command, first, " ".join(words))
    configuration = tree / "lib/pkgconfig/fanthrig.pc"
    replace(configuration, f"prefix=/{BINARY}\n", "prefix=${pcfiledir}/../..\n")
    # pkg-config itself writes the spaces of its folder as a shell reads them: no quotes then.
    replace(configuration, '"', "")
    (tree / "README").write_text(READ_ME.format(interface=interface()), encoding="utf-8")
    shutil.copy(ROOT / "CHANGELOG.md", tree / "share/doc/fanthrig")
    archives.settle(folder, seconds)
    return tree
