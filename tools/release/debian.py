"""The Debian packages: the library, what programs are built with, the module, and the command."""

from __future__ import annotations

import hashlib
import shutil
import subprocess
from dataclasses import dataclass, field
from email.utils import formatdate
from pathlib import Path

from . import GLIBC, VERSION, archives, interface, trees

REVISION = f"{VERSION}-1"
MAINTAINER = "Fanthrig maintainers <maintainers@users.noreply.fanthrig.example>"
LIBRARIES = "usr/lib/x86_64-linux-gnu"
LIBRARY = f"libfanthrig{interface()}"
ABOUT = """\
 The LC-3 is the teaching computer of Patt and Patel, Introduction to
 Computing Systems, third edition: with privilege, interrupts, a console
 and a timer. This library is proved against definitions of the machine.
 A candidate's program runs in User mode, and the examiner's words stay
 secret."""

COMPILE = """\
#!/bin/sh
set -e
if [ "$1" = configure ] && command -v py3compile >/dev/null; then
    py3compile -p python3-fanthrig
fi
"""
CLEAN = """\
#!/bin/sh
set -e
if command -v py3clean >/dev/null; then
    py3clean -p python3-fanthrig
fi
"""


@dataclass(frozen=True)
class Package:
    """One package: what is said of it, and which files of the installed tree it has."""

    name: str
    section: str
    architecture: str
    depends: str
    summary: str
    holds: str
    patterns: tuple[str, ...]
    more: dict[str, str] = field(default_factory=dict)
    scripts: dict[str, str] = field(default_factory=dict)


PACKAGES = (
    Package(
        LIBRARY,
        "libs",
        "amd64",
        f"libc6 (>= {GLIBC[0]}.{GLIBC[1]})",
        "LC-3 machine of Patt and Patel as a proved library",
        "the shared library",
        (f"{LIBRARIES}/libfanthrig.so.{interface()}",),
        {"Multi-Arch": "same"},
        {
            "shlibs": f"libfanthrig {interface()} {LIBRARY} (>= {VERSION})\n",
            "triggers": "activate-noawait ldconfig\n",
        },
    ),
    Package(
        "libfanthrig-dev",
        "libdevel",
        "amd64",
        f"{LIBRARY} (= {REVISION})",
        "LC-3 machine of Patt and Patel as a proved library (development)",
        "the header, the static library and the file for pkg-config",
        (
            "usr/include/fanthrig/lc3.h",
            f"{LIBRARIES}/libfanthrig.a",
            f"{LIBRARIES}/libfanthrig.so",
            f"{LIBRARIES}/pkgconfig/fanthrig.pc",
        ),
        {"Multi-Arch": "same"},
    ),
    Package(
        "python3-fanthrig",
        "python",
        "all",
        f"python3 (>= 3.9), {LIBRARY} (>= {REVISION})",
        "LC-3 machine of Patt and Patel (Python 3)",
        "the Python module",
        ("usr/lib/python3/dist-packages/fanthrig/**/*",),
        {},
        {"postinst": COMPILE, "prerm": CLEAN},
    ),
    Package(
        "fanthrig-tools",
        "education",
        "all",
        f"python3, python3-fanthrig (= {REVISION})",
        "run, list, make, log, debug and mark programs for the LC-3",
        "the command lc3, the page for browsers, manuals and examples",
        (
            "usr/bin/lc3",
            "usr/share/man/man1/lc3.1.gz",
            "usr/share/man/man1/lc3-debug.1.gz",
            "usr/share/man/man5/lc3-mark.5.gz",
            "usr/share/bash-completion/completions/lc3",
            "usr/share/fanthrig/*",
            "usr/share/doc/fanthrig-tools/examples/*",
        ),
    ),
)


def copyright_notice() -> str:
    """Whose work it is. The repository grants no licence; whoever hands a package on needs one."""
    return f"""\
Fanthrig LC-3 {VERSION}

Copyright 2026 Fanthrig. All rights reserved.

This package comes with no licence of its own: it may be used as agreed with
Fanthrig.
"""


def changelog(package: Package, seconds: int) -> bytes:
    """The list of changes as Debian has it; what changed is told in CHANGELOG.md."""
    date = formatdate(seconds)
    text = f"""\
{package.name} ({REVISION}) unstable; urgency=medium

  * Release {VERSION}.

 -- {MAINTAINER}  {date}
"""
    return archives.compressed(text.encode())


def control(package: Package, size: int) -> str:
    """What dpkg is told of a package, whose files take so many bytes."""
    fields = {
        "Package": package.name,
        "Source": "fanthrig",
        "Version": REVISION,
        "Architecture": package.architecture,
        "Maintainer": MAINTAINER,
        "Installed-Size": str((size + 1023) // 1024),
        "Depends": package.depends,
        "Section": package.section,
        "Priority": "optional",
        **package.more,
        "Description": f"{package.summary}\n{ABOUT}\n .\n This package has {package.holds}.",
    }
    return "".join(f"{name}: {value}\n" for name, value in fields.items())


def installed(folder: Path) -> None:
    """The tree that the packages share out: `make install`, with manual pages compressed."""
    trees.install(
        folder,
        PREFIX="/usr",
        LIBDIR=f"/{LIBRARIES}",
        PYTHON="/usr/bin/python3",
        DOC="/usr/share/doc/fanthrig-tools",
    )
    for manual in sorted(folder.glob("usr/share/man/man?/*.?")):
        compressed = manual.with_name(f"{manual.name}.gz")
        compressed.write_bytes(archives.compressed(manual.read_bytes()))
        manual.unlink()


def take(package: Package, tree: Path, folder: Path) -> None:
    """Moves the files of a package from the shared tree to its own."""
    for pattern in package.patterns:
        names = sorted(tree.glob(pattern)) if "*" in pattern else [tree / pattern]
        found = [path for path in names if path.is_symlink() or path.is_file()]
        if not found:
            raise SystemExit(f"{package.name}: nothing is installed as {pattern}")
        for path in found:
            place = folder / path.relative_to(tree)
            place.parent.mkdir(parents=True, exist_ok=True)
            shutil.move(path, place)


def describe(package: Package, folder: Path, seconds: int) -> None:
    """Writes what a package says of itself: documents, control file, scripts, sums."""
    documents = folder / "usr/share/doc" / package.name
    documents.mkdir(parents=True, exist_ok=True)
    (documents / "copyright").write_text(copyright_notice(), encoding="utf-8")
    (documents / "changelog.Debian.gz").write_bytes(changelog(package, seconds))
    files = [path for path in archives.files(folder) if not path.is_symlink()]
    sums = [
        f"{hashlib.md5(path.read_bytes()).hexdigest()}  {path.relative_to(folder)}\n"
        for path in files
    ]
    archives.settle(folder, seconds)
    told = folder / "DEBIAN"
    told.mkdir()
    told.chmod(0o755)
    size = sum(path.stat().st_size for path in files)
    texts = {"control": control(package, size), "md5sums": "".join(sums), **package.scripts}
    for name, text in texts.items():
        (told / name).write_text(text, encoding="utf-8")
        (told / name).chmod(0o755 if text.startswith("#!") else 0o644)


def write(work: Path, destination: Path, seconds: int) -> list[str]:
    """Writes the packages, and answers their names."""
    tree = work / "debian"
    installed(tree)
    names = []
    for package in PACKAGES:
        folder = work / package.name
        take(package, tree, folder)
        describe(package, folder, seconds)
        name = f"{package.name}_{REVISION}_{package.architecture}.deb"
        command = ["dpkg-deb", "--root-owner-group", "-Zxz", "--build", folder, destination / name]
        environment = {"PATH": "/usr/sbin:/usr/bin:/sbin:/bin", "SOURCE_DATE_EPOCH": str(seconds)}
        subprocess.run(
            [str(word) for word in command], env=environment, check=True, stdout=subprocess.DEVNULL
        )
        names.append(name)
    left = [path.relative_to(tree).as_posix() for path in archives.files(tree)]
    if left:
        raise SystemExit(f"in no package: {', '.join(left)}")
    return names
