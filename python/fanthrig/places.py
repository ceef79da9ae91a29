"""Where the words of object files may lie.

A candidate's file lies in x3000 to xFDFF, which is what User mode reaches, with its origin too. The
library sees to that: ``fanthrig.start_user``.

An examiner's file lies in privileged memory alone, below x3000 and from xFE00 on, so that no
program in User mode reads it; and not on the words of the ready-made monitor or of its stack.

Files that are loaded for one start have no word in common. Else the one that is loaded later would
replace words of the other, and nobody would be told.
"""

from __future__ import annotations

from typing import Sequence

from .constants import ADDRESS_KBSR, MONITOR_WORDS, USER_ORIGIN
from .recording import Program

USER_WORDS = range(USER_ORIGIN, ADDRESS_KBSR)

# Six words of PUTSP, and two each of a keyboard's and a timer's interrupt on the way.
MONITOR_STACK = 10

MONITOR = (
    Program("the ready-made monitor", 0, MONITOR_WORDS),
    Program("the stack of the ready-made monitor", USER_ORIGIN - MONITOR_STACK, MONITOR_STACK),
)


class PlaceError(ValueError):
    """A file, or a PC, that is where it may not be. Nothing was altered."""


def addresses(words: range) -> str:
    """A range of addresses as people write it.

    >>> addresses(range(0x3000, 0x3002)), addresses(range(0x3000, 0x3001))
    ('x3000 to x3001', 'x3000')
    """
    first = f"x{words[0]:04X}"
    return first if len(words) == 1 else f"{first} to x{words[-1]:04X}"


def common(some: range, others: range) -> range:
    """The addresses that two ranges have in common.

    >>> common(range(0, 5), range(3, 9)), len(common(range(0, 5), range(5, 9)))
    (range(3, 5), 0)
    """
    return range(max(some.start, others.start), min(some.stop, others.stop))


def check_examiner(program: Program, monitor: bool) -> None:
    """That an examiner's file lies in privileged memory alone, and beside the ready-made monitor
    where that is in memory.

    >>> check_examiner(Program("answers.obj", 0x2000, 4), monitor=True)
    >>> check_examiner(Program("answers.obj", 0x2FFE, 4), monitor=False)
    Traceback (most recent call last):
    fanthrig.places.PlaceError: answers.obj: refused: it has x3000 to x3001, which every program \
reads and replaces: an examiner's file lies below x3000 or from xFE00 on
    """
    # A file of an origin alone has its place there.
    reached = common(program.addresses or range(program.origin, program.origin + 1), USER_WORDS)
    if reached:
        raise PlaceError(
            f"{program.subject}: refused: it has {addresses(reached)}, which every program reads "
            "and replaces: an examiner's file lies below x3000 or from xFE00 on"
        )
    check_apart(program, MONITOR if monitor else ())


def check_apart(program: Program, others: Sequence[Program]) -> None:
    """That a file has no word in common with others.

    >>> check_apart(Program("b.obj", 0x3000, 9), [Program("a.obj", 0x3004, 2)])
    Traceback (most recent call last):
    fanthrig.places.PlaceError: b.obj: refused: it overlaps a.obj at x3004 to x3005: give one of \
them another origin, or leave one out
    """
    for other in others:
        both = common(program.addresses, other.addresses)
        if both:
            raise PlaceError(
                f"{program.subject}: refused: it overlaps {other.subject} at {addresses(both)}: "
                "give one of them another origin, or leave one out"
            )


def check_pc(pc: int) -> None:
    """That a program in User mode starts in words that it can reach.

    >>> check_pc(0x0200)
    Traceback (most recent call last):
    fanthrig.places.PlaceError: PC x0200 is refused: a program in User mode starts in x3000 to xFDFF
    """
    if pc not in USER_WORDS:
        raise PlaceError(
            f"PC x{pc:04X} is refused: a program in User mode starts in {addresses(USER_WORDS)}"
        )
