"""Why a monitor is not certified: where, in words, and what could be written instead."""

from __future__ import annotations

from dataclasses import dataclass

from ..constants import ADDRESS_DDR, ADDRESS_DSR, ADDRESS_KBDR, ADDRESS_KBSR, ADDRESS_MCR
from ..constants import ADDRESS_PSR, ADDRESS_TIR, ADDRESS_TSR
from ..places import USER_WORDS
from ..telling import FileError

DEVICES = {
    ADDRESS_KBSR: "KBSR",
    ADDRESS_KBDR: "KBDR",
    ADDRESS_DSR: "DSR",
    ADDRESS_DDR: "DDR",
    ADDRESS_TSR: "TSR",
    ADDRESS_TIR: "TIR",
    ADDRESS_PSR: "PSR",
    ADDRESS_MCR: "MCR",
}

HOW_ELSE = "lc3 certify tells more, and --uncertified has lc3 mark go on all the same"

# What could be written instead, by what is wrong.
SECRET_LOAD = (
    "mark after the sitting, by a routine that no trap leads to, or on the host's side; or say by "
    "--fixed or --own that the word is no secret"
)
BY_R0 = (
    "have the address in R0, look at it before each access as PUTS of docs/monitor.lst does (R0 + "
    "x0200 negative, or R0 - x3000 not negative and R0 + x0200 negative), and use LDR or STR with "
    "R0 and #0"
)
KNOWN_BASE = (
    "have the address in a register that LEA or LD has set, or in R0 after a look at it as PUTS of "
    "docs/monitor.lst makes it; other pointers to the candidate's words are not followed"
)
OWN_WORD = "store to a word of the monitor's own (.BLKW), to the stack, to DDR or to MCR"
SECRET_STORE = "store to the monitor's own words; or say by --own that this is one of them"
KEPT = (
    "keep the return address in a word of the monitor's own, or on the stack, before another JSR "
    "or JSRR, and load it back before RET; lower R6 before the store, for an interrupt writes "
    "below it"
)
BALANCED = "change R6 by ADD with numbers, or load it by LD, so that it is known at every word"
POPPED = "before RTI have R6 where it was on entry: x2FFE for a trap by a program in User mode"
FIXED_POINTER = "have the pointer in a word that no routine stores to"
A_ROUTINE = "end the routine by RTI, RET, JMP or BRnzp, and have its words in a file of the monitor"
NAMED = "have the routine in a file of the monitor's, and name that by --monitor"
ALL_VECTORS = (
    "have every word x0000 to x0102 in a file of the monitor's, and lead those without a service "
    "to a routine that halts"
)
LONE_RTI = "lead x0180 and x0181 to a word x8000, RTI: a candidate enables no device"
ANEW = "name the monitor that the certificate was made of, or make it anew"
NOT_BESIDE = "leave the file out if its words need not be secret, or make the certificate anew"
OF_MONITOR = "name the file by --monitor, if a routine goes on to it"
LOWER = "give it an origin below"
FEWER = (
    "keep return addresses and pointers on the stack, where different routines use the same words: "
    "eight words are followed at most"
)
SIMPLER = "have it in fewer or shorter loops with known numbers"


@dataclass(frozen=True)
class Problem:
    """What is wrong at an address, and what could be written instead; ``line`` is the instruction
    there, and empty where it is about no instruction. The same may be wrong at ``more`` vectors. It
    is ``sure`` where every address is known, so that to know more of values would hardly help.

    >>> print(Problem(0x0275, "loads the secret word x0227", SECRET_LOAD, "LD R0, #-79"))
    x0275: loads the secret word x0227 (LD R0, #-79)
    """

    address: int
    text: str
    instead: str
    line: str = ""
    more: int = 0
    sure: bool = False

    def __str__(self) -> str:
        """The address, what is wrong, and the line."""
        where = f"x{self.address:04X}" + (f" and {self.more} more" if self.more else "")
        return f"{where}: {self.text}" + (f" ({self.line})" if self.line else "")


class NotCertified(FileError):
    """A monitor that is not certified: the file that is its ``subject``, and the reasons.

    >>> print(NotCertified([Problem(0x0300, "is no instruction", A_ROUTINE)], "monitor.obj"))
    monitor.obj: refused: it is not certified: x0300: is no instruction: lc3 certify tells more, \
and --uncertified has lc3 mark go on all the same
    """

    def __init__(self, problems: list[Problem], subject: str = "") -> None:
        """At least one reason."""
        self.problems, self.subject = problems, subject
        before = f"{subject}: refused: " if subject else ""
        super().__init__(f"{before}it is not certified: {problems[0]}: {HOW_ELSE}")


def named(address: int) -> str:
    """An address as people know it.

    >>> named(0xFE00), named(0x2FFF), named(0x0227)
    ('KBSR, xFE00', 'x2FFF', 'x0227')
    """
    name = DEVICES.get(address)
    return f"x{address:04X}" if name is None else f"{name}, x{address:04X}"


def wrong_load(address: int) -> tuple[str, str]:
    """Why a load from a known address is none of a certified monitor's, and what to do instead."""
    if address in USER_WORDS:
        return f"loads {named(address)}, a word of the candidate's, by a fixed address", BY_R0
    return f"loads the secret word {named(address)}", SECRET_LOAD


def wrong_store(address: int, executed: bool) -> tuple[str, str]:
    """The same of a store; ``executed`` where an instruction is there."""
    if address in USER_WORDS:
        return f"stores to {named(address)}, a word of the candidate's, by a fixed address", BY_R0
    if address in DEVICES:
        return f"stores to {named(address)}", OWN_WORD
    if address == 0x2FFF:
        return "stores to x2FFF, where the caller's PSR is", OWN_WORD
    if executed:
        return f"stores to {named(address)}, which is fixed", OWN_WORD
    return f"stores to the secret word {named(address)}", SECRET_STORE
