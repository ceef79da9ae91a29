"""Takes the current folder off the path of ``python3 -m fanthrig``, before anything is imported
from it.

``python3 -m`` looks for modules in the current folder first, and whoever marks stands in a folder
of submissions: one of them may be called json.py. Python's own beginnings, as runpy, come before
this; so there the command as it is installed is the one to use, or ``python3 -P -m fanthrig``,
which look in no such folder.
"""

# Nothing is imported here that Python has not imported by itself: not even __future__.
import os
import sys

# The options of Python that are followed by a word.
WITH_A_WORD = ("-X", "-W", "--check-hash-based-pycs")


def module_of(words: list[str]) -> str:
    """The module that a command line of Python names by -m, or nothing.

    >>> module_of(["python3", "-X", "dev", "-um", "fanthrig"]), module_of(["python3", "-mpdb"])
    ('fanthrig', 'pdb')
    >>> module_of(["python3", "mark.py", "-m", "fanthrig"])
    ''
    """
    rest = iter(words[1:])
    for word in rest:
        if word in WITH_A_WORD:
            next(rest, "")
        elif not word.startswith("-"):
            break
        elif not word.startswith(WITH_A_WORD) and "m" in word:
            return word.partition("m")[2] or next(rest, "")
    return ""


def command_line() -> list[str]:
    """The command line of this process, which Python tells from 3.10 on."""
    if sys.version_info >= (3, 10):
        return sys.orig_argv
    with open("/proc/self/cmdline", "rb") as file:
        return [os.fsdecode(word) for word in file.read().split(b"\0")]


# What was found there already, as the package itself, is still found.
if sys.argv[:1] == ["-m"] and module_of(command_line()) == "fanthrig":
    sys.path[:] = [place for place in sys.path if os.path.abspath(place) != os.getcwd()]
