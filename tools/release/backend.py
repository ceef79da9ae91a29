"""What `pip install .` calls: the hooks of PEP 517 and PEP 660. A build needs Python alone."""

from __future__ import annotations

from pathlib import Path
from typing import Any

from . import ROOT, archives, time_of_sources, wheel


def build_wheel(folder: str, settings: Any = None, metadata: str | None = None) -> str:
    """Writes the wheel to a folder, and answers its name."""
    return wheel.write(Path(folder))


def build_editable(folder: str, settings: Any = None, metadata: str | None = None) -> str:
    """Writes a wheel that leads to the module of this tree, which finds the library in build/."""
    members = {"fanthrig.pth": f"{ROOT / 'python'}\n".encode(), **wheel.distribution_info()}
    members[f"{wheel.INFO}/RECORD"] = wheel.recorded(members)
    archives.write_zip(Path(folder) / wheel.NAME, members, time_of_sources())
    return wheel.NAME
