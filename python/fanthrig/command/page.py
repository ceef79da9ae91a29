"""``lc3 page``: the LC-3 in a browser, as one file that needs no installation and no network."""

from __future__ import annotations

import argparse
import os
import webbrowser
from pathlib import Path

from .messages import Code, CommandError

# Where the page is from the folders above this module: as it is installed, or built in the source.
INSTALLED, BUILT = "share/fanthrig/lc3.html", "build/page/lc3.html"

# The folders that may be the prefix: that of the module is at most
# PREFIX/lib/python3.11/site-packages/fanthrig/command.
ABOVE = 6

# Without one of these no browser has a screen, but for those of a terminal, in which nothing runs.
SCREENS = ("DISPLAY", "WAYLAND_DISPLAY", "BROWSER")


def page_file() -> Path:
    """The page as it is installed with this module, or built beside it."""
    folders = list(Path(__file__).resolve().parents)[:ABOVE]
    places = [folder / INSTALLED for folder in folders] + [folders[3] / BUILT]
    for place in places:
        if place.is_file():
            return place
    raise CommandError("no page is installed: make install and releases put it in share/fanthrig")


def command(options: argparse.Namespace) -> Code:
    """Opens the page in the default browser; where there is none, or only the path is asked for,
    writes its path."""
    path = page_file()
    screen = any(os.environ.get(name) for name in SCREENS)
    if options.path or not screen or not webbrowser.open(path.as_uri()):
        print(path)
    return Code.HALTED
