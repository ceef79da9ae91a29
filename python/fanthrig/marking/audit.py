"""What a marking was made with: versions, options, and the SHA-256 of what was handed in. It stands
in every result, so that each can be held against another, and made once more, years later."""

from __future__ import annotations

import hashlib
import json
from dataclasses import asdict, dataclass
from datetime import datetime, timezone
from typing import Any, Sequence

from ..constants import VERSION, __version__
from .cases import Case
from .options import Options

# Of these results are the same wherever the files lie.
_PLACES = ("cases", "follow_links")


@dataclass(frozen=True)
class Audit:
    """The versions of the product and of its interface, the options with the files that they name,
    and the SHA-256 of the certificate of the class's own monitor, where it has one."""

    lc3: str
    interface: int
    options: dict[str, Any]
    certificate: str | None = None

    def fits(self, told: dict[str, Any]) -> bool:
        """Whether a result that tells of these versions and options is one of this marking: the
        names of files do not matter, and what is in them does."""
        versions = told.get("lc3") == self.lc3 and told.get("interface") == self.interface
        same = versions and told.get("certificate") == self.certificate
        return same and _bearing(told.get("options")) == _bearing(self.options)


def _bearing(options: Any) -> Any:
    """What of the options bears on results."""
    if not isinstance(options, dict):
        return None
    bearing = {name: value for name, value in options.items() if name not in _PLACES}
    for name in ("monitor_files", "with", "data"):
        files = bearing.get(name)
        bearing[name] = [file.get("sha256") for file in files] if isinstance(files, list) else None
    return json.loads(json.dumps(bearing))


def audit_of(
    options: Options,
    name: str,
    cases: Sequence[Case],
    monitor_files: Sequence[tuple[str, bytes]],
    with_files: Sequence[tuple[str, bytes]],
    data_files: Sequence[tuple[str, bytes]],
    certificate: str | None,
) -> Audit:
    """What a marking is made with; files are given by their names and their bytes."""
    told: dict[str, Any] = {
        "cases": name,
        "cases_sha256": cases_sha256(cases),
        "monitor_files": [_hashed(*file) for file in monitor_files],
        "with": [_hashed(*file) for file in with_files],
        "data": [_hashed(*file) for file in data_files],
    }
    return Audit(__version__, VERSION, {**told, **asdict(options)}, certificate)


def sha256(data: bytes) -> str:
    """The SHA-256 of bytes, as sha256sum writes it."""
    return hashlib.sha256(data).hexdigest()


def _hashed(path: str, data: bytes) -> dict[str, str]:
    """A file that every candidate has beside it."""
    return {"file": path, "sha256": sha256(data)}


def cases_sha256(cases: Sequence[Case]) -> str:
    """The SHA-256 of cases, be they a folder or a JSON file: that of all their members in order."""
    parts = []
    for case in cases:
        told: dict[str, Any] = {**asdict(case), "keys": sha256(case.keys)}
        told["expected"] = None if case.expected is None else sha256(case.expected)
        parts.append(told)
    return sha256(json.dumps(parts).encode("ascii"))


def now() -> str:
    """The time in UTC, to the second."""
    return datetime.now(timezone.utc).strftime("%Y-%m-%dT%H:%M:%SZ")
