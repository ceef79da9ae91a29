"""The labels of the files that a command is about."""

from __future__ import annotations

import os
from typing import Sequence

from ..labels import SUFFIX, LabelError, Labels
from ..telling import of_os_error
from .messages import CommandError, say


def labels_of(named: str | None, files: Sequence[str]) -> Labels:
    """The labels of the symbol table that is named, or else of those beside the files. One that is
    not named and can't be read is told of, and left out."""
    if named is not None:
        try:
            return Labels.load(named)
        except LabelError as error:
            raise CommandError(str(error)) from None
        except OSError as error:
            raise CommandError(of_os_error(error)) from None
    labels = Labels()
    for path in files:
        beside = os.path.splitext(path)[0] + SUFFIX
        try:
            # What is no regular file may keep its reader waiting.
            if os.path.isfile(beside) and beside != path:
                labels = labels.joined(Labels.load(beside))
        except LabelError as error:
            say(f"{error}: its labels are left out")
        except OSError as error:
            say(f"{of_os_error(error)}: its labels are left out")
    return labels
