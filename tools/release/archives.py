"""Archives whose bytes depend on names, contents, modes and one time alone."""

from __future__ import annotations

import gzip
import io
import os
import stat
import tarfile
import time
import zipfile
from pathlib import Path


def files(folder: Path) -> list[Path]:
    """The files and links of a folder, in the order of their names."""
    found = [path for path in folder.rglob("*") if path.is_symlink() or path.is_file()]
    return sorted(found, key=lambda path: path.relative_to(folder).as_posix())


def settle(folder: Path, seconds: int) -> None:
    """Gives all that is in a folder one time and the modes that a system has."""
    for path in [*sorted(folder.rglob("*"), reverse=True), folder]:
        if not path.is_symlink():
            runs = path.is_dir() or path.stat().st_mode & stat.S_IXUSR
            path.chmod(0o755 if runs else 0o644)
        os.utime(path, (seconds, seconds), follow_symlinks=False)


def compressed(content: bytes) -> bytes:
    """Bytes as gzip has them, without name and time."""
    packed = io.BytesIO()
    with gzip.GzipFile(fileobj=packed, mode="wb", filename="", mtime=0) as file:
        file.write(content)
    return packed.getvalue()


def write_tar(archive: Path, folder: Path, seconds: int) -> None:
    """Writes a folder, with its own name before all others, as a compressed tar archive."""
    packed = io.BytesIO()
    with tarfile.open(fileobj=packed, mode="w", format=tarfile.GNU_FORMAT) as tar:
        for path in [folder, *sorted(folder.rglob("*"))]:
            member = tar.gettarinfo(path, path.relative_to(folder.parent).as_posix())
            member.uid = member.gid = 0
            member.uname = member.gname = "root"
            member.mtime = seconds
            if member.isreg():
                with path.open("rb") as file:
                    tar.addfile(member, file)
            else:
                tar.addfile(member)
    archive.write_bytes(compressed(packed.getvalue()))


def write_zip(archive: Path, members: dict[str, bytes], seconds: int) -> None:
    """Writes files as a zip archive, in the order in which they are given."""
    # A zip archive knows no time before 1980.
    date = time.gmtime(max(seconds, 315532800))[:6]
    with zipfile.ZipFile(archive, "w", zipfile.ZIP_DEFLATED) as packed:
        for name, content in members.items():
            member = zipfile.ZipInfo(name, date)
            member.compress_type = zipfile.ZIP_DEFLATED
            member.create_system = 3
            member.external_attr = (stat.S_IFREG | 0o644) << 16
            packed.writestr(member, content)
