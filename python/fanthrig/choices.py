"""The named choices of a marking: the command line has them without loading what marks."""

from __future__ import annotations

# What a lenient comparison leaves out: see ``fanthrig.marking.comparing``.
HALT_MESSAGE, LINE_ENDS, CASE = "halt-message", "line-ends", "case"
CHOICES = (HALT_MESSAGE, LINE_ENDS, CASE)

# The course platforms whose folders are known: see ``fanthrig.marking.platforms``.
MOODLE, CANVAS = "moodle", "canvas"
PLATFORMS = (MOODLE, CANVAS)

# The greatest seed of random contents: every reader of JSON has it exactly.
MOST_SEED = 2**53 - 1
