"""Tests of the package: ``python3 -m unittest discover -s python/tests -t python``.

The library is that of the source tree, unless ``FANTHRIG_LIBRARY`` names another.
"""

import os
import signal
from pathlib import Path

ROOT = Path(__file__).resolve().parent.parent.parent

os.environ.setdefault("FANTHRIG_LIBRARY", str(ROOT / "build" / "libfanthrig.so"))

# The tests may run where Ctrl-C is ignored, as in the background of a shell; some press it.
signal.signal(signal.SIGINT, signal.default_int_handler)
