"""The forms in which results are written, by their names; without a name they are a table."""

from __future__ import annotations

from .gradescope import Gradescope
from .junit import Junit
from .report import Csv, Form, Json, One, Table

FORMS: dict[str | None, type[Form]] = {
    None: Table,
    "csv": Csv,
    "json": Json,
    "one": One,
    "gradescope": Gradescope,
    "junit": Junit,
}

# The forms of one candidate alone.
SINGLE = ("one", "gradescope")
