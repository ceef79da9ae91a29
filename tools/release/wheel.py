"""The wheel: the module with the library in its folder, the command, manual pages and examples."""

from __future__ import annotations

import base64
import hashlib
from pathlib import Path

from . import BUILD, ROOT, SUMMARY, VERSION, archives, interface, time_of_sources

# The library is loaded by ctypes, so that any Python 3 will do. It needs glibc 2.14, and the oldest
# of auditwheel's policies that has it is that of glibc 2.17, of 2014.
TAG = "py3-none-manylinux_2_17_x86_64.manylinux2014_x86_64"
NAME = f"fanthrig-{VERSION}-{TAG}.whl"
INFO = f"fanthrig-{VERSION}.dist-info"
DATA = f"fanthrig-{VERSION}.data/data"


def metadata() -> str:
    """What pip shows of the distribution: headers, and the README."""
    headers = f"""\
Metadata-Version: 2.1
Name: fanthrig
Version: {VERSION}
Summary: {SUMMARY}
Requires-Python: >=3.9
Classifier: Operating System :: POSIX :: Linux
Classifier: Programming Language :: Python :: 3
Classifier: Topic :: Education
Classifier: Topic :: System :: Emulators
Classifier: Typing :: Typed
Description-Content-Type: text/markdown

"""
    return headers + (ROOT / "README.md").read_text(encoding="utf-8")


def tags() -> str:
    """The tags that the file's name has, one to a line, and what made the wheel."""
    python, abi, platforms = TAG.split("-")
    lines = [f"Tag: {python}-{abi}-{platform}\n" for platform in platforms.split(".")]
    return "Wheel-Version: 1.0\nGenerator: fanthrig\nRoot-Is-Purelib: false\n" + "".join(lines)


def package() -> dict[str, bytes]:
    """The files of the module, and the library beside them."""
    folder = ROOT / "python/fanthrig"
    found = {
        f"fanthrig/{path.relative_to(folder).as_posix()}": path.read_bytes()
        for path in archives.files(folder)
        if "__pycache__" not in path.parts
    }
    soname = f"libfanthrig.so.{interface()}"
    library = BUILD / soname
    if not library.exists():
        raise SystemExit(f"no build/{soname}: `make lib` makes it; a released wheel has it inside")
    return {**found, f"fanthrig/{soname}": library.read_bytes()}


def _page() -> Path:
    """The LC-3 in a browser."""
    page = BUILD / "page/lc3.html"
    if not page.exists():
        raise SystemExit("no build/page/lc3.html: `make page` makes it; a released wheel has it")
    return page


def beside() -> dict[str, bytes]:
    """What goes to the folder share of where the wheel is installed."""
    examples = archives.files(ROOT / "examples")
    shared = {
        "man/man1/lc3.1": ROOT / "docs/lc3.1",
        "man/man1/lc3-debug.1": ROOT / "docs/lc3-debug.1",
        "man/man5/lc3-mark.5": ROOT / "docs/lc3-mark.5",
        "bash-completion/completions/lc3": ROOT / "tools/completion.bash",
        "fanthrig/lc3.html": _page(),
        **{
            f"doc/fanthrig/examples/{path.name}": path
            for path in examples
            if path.suffix in (".lst", ".obj", ".keys")
        },
    }
    return {f"{DATA}/share/{name}": shared[name].read_bytes() for name in sorted(shared)}


def distribution_info() -> dict[str, bytes]:
    """What says which distribution this is, but for the list of its files."""
    return {
        f"{INFO}/METADATA": metadata().encode(),
        f"{INFO}/WHEEL": tags().encode(),
        f"{INFO}/entry_points.txt": b"[console_scripts]\nlc3 = fanthrig.__main__:main\n",
    }


def recorded(members: dict[str, bytes]) -> bytes:
    """The list of the files, with the hash and the length of each."""
    lines = []
    for name, content in members.items():
        digest = base64.urlsafe_b64encode(hashlib.sha256(content).digest()).rstrip(b"=").decode()
        lines.append(f"{name},sha256={digest},{len(content)}\n")
    return "".join([*lines, f"{INFO}/RECORD,,\n"]).encode()


def write(folder: Path) -> str:
    """Writes the wheel to a folder, and answers its name."""
    members = {**package(), **beside(), **distribution_info()}
    members[f"{INFO}/RECORD"] = recorded(members)
    archives.write_zip(folder / NAME, members, time_of_sources())
    return NAME
