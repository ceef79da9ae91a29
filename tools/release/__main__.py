"""`make dist`: writes every archive to build/dist, or to the folder that is named."""

from __future__ import annotations

import shutil
import subprocess
import sys
import tempfile
from pathlib import Path

from . import BUILD, DIST, ROOT, VERSION, archives, debian, provenance, time_of_sources
from . import trees, wheel

SOURCE = f"fanthrig-{VERSION}"

# What a user's own settings of git would alter in a source archive: modes, and the ends of lines.
SETTINGS = ("tar.umask=0022", "core.autocrlf=false", "core.eol=lf")


def emptied(folder: Path) -> Path:
    """A folder for a release: an older release goes, and nothing that is anything else."""
    release = folder == DIST or (folder / "SHA256SUMS").exists()
    if not release and folder.is_dir() and any(folder.iterdir()):
        raise SystemExit(f"{folder} has files, and they are no release")
    shutil.rmtree(folder, ignore_errors=True)
    folder.mkdir(parents=True)
    return folder


def write_source(folder: Path) -> str:
    """Writes the source archive: the files of the commit."""
    name = f"{SOURCE}.tar.gz"
    settings = [word for setting in SETTINGS for word in ("-c", setting)]
    command = ["git", *settings, "archive", "--format=tar", f"--prefix={SOURCE}/", "HEAD"]
    packed = subprocess.run(command, cwd=ROOT, check=True, stdout=subprocess.PIPE).stdout
    (folder / name).write_bytes(archives.compressed(packed))
    return name


def write_binary(work: Path, folder: Path, seconds: int) -> str:
    """Writes the binary archive."""
    name = f"{trees.BINARY}.tar.gz"
    archives.write_tar(folder / name, trees.binary(work / "binary", seconds), seconds)
    return name


def main() -> int:
    """Makes a release."""
    if not (ROOT / ".git").exists():
        raise SystemExit("a release names its commit, and this tree is no clone; pip wheel . works")
    folder = emptied(Path(sys.argv[1]).resolve() if len(sys.argv) > 1 else DIST)
    seconds = time_of_sources()
    with tempfile.TemporaryDirectory(dir=BUILD) as place:
        work = Path(place)
        names = [write_source(folder), write_binary(work, folder, seconds), wheel.write(folder)]
        names += debian.write(work, folder, seconds)
    told = provenance.text(folder, names)
    (folder / "PROVENANCE.txt").write_text(told, encoding="utf-8")
    sums = [f"{provenance.hash_of(folder / name)}  {name}\n" for name in [*names, "PROVENANCE.txt"]]
    (folder / "SHA256SUMS").write_text("".join(sums), encoding="utf-8")
    for name in [*names, "PROVENANCE.txt", "SHA256SUMS"]:
        print(f"{(folder / name).stat().st_size:10,}  {name}")
    if provenance.altered():
        print("The tree is not as its commit has it, and PROVENANCE.txt says so.", file=sys.stderr)
    return 0


if __name__ == "__main__":
    sys.exit(main())
