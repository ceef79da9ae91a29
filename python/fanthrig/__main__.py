"""The command ``lc3``, as ``python3 -m fanthrig``. An installed script calls ``main`` too."""

import sys

from .command import main

if __name__ == "__main__":
    sys.exit(main())
