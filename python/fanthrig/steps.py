"""What one step did: by which rule it was made, and which registers and words it changed."""

from __future__ import annotations

from array import array
from dataclasses import dataclass
from struct import Struct

from ._library import RecordStruct
from .constants import ADDRESS_DDR, ADDRESS_DSR, ADDRESS_KBDR, ADDRESS_KBSR, ADDRESS_MCR
from .constants import ADDRESS_PSR, ADDRESS_TIR, ADDRESS_TSR
from .log import LoggedStep
from .records import Mode

# The registers of the record under the names of the book. What only counts steps is left out.
NAMES: dict[str, int | str] = {
    **{f"R{number}": number for number in range(8)},
    "PC": "pc",
    "PSR": "psr",
    "Saved_SSP": "saved_ssp",
    "Saved_USP": "saved_usp",
    "KBSR": "kbsr",
    "KBDR": "kbdr",
    "MCR": "mcr",
    "TSR": "timer_status",
    "TIR": "timer_interval",
}

# The bytes of a record's fields of 16 bits, which stand before its clock.
SHORT_BYTES = RecordStruct.timer_count.offset + 2

# The place of each register among them.
_PLACES = {
    name: place if isinstance(place, int) else getattr(RecordStruct, place).offset // 2
    for name, place in NAMES.items()
}

_SHORTS, _PC = Struct(f"={SHORT_BYTES // 2}H"), _PLACES["PC"]

# The opcodes of ST, STR and STI.
STORES = (3, 7, 11)

# The device registers by their addresses: loads and stores there never touch the words of memory.
DEVICES = {
    ADDRESS_KBSR: "KBSR",
    ADDRESS_KBDR: "KBDR",
    ADDRESS_DSR: "DSR",
    ADDRESS_DDR: "DDR",
    ADDRESS_TSR: "TSR",
    ADDRESS_TIR: "TIR",
    ADDRESS_PSR: "PSR",
    ADDRESS_MCR: "MCR",
}


def value_of(record: RecordStruct, name: str) -> int:
    """The register of a record that has one of the ``NAMES``."""
    place = NAMES[name]
    return int(record.regs[place] if isinstance(place, int) else getattr(record, place))


@dataclass(frozen=True)
class Change:
    """A register or a word of memory that a step changed, as ``R0`` or ``x3000``."""

    name: str
    before: int
    after: int

    def __str__(self) -> str:
        """The name and both values.

        >>> print(Change("R0", 1, 2))
        R0 x0001 -> x0002
        """
        return f"{self.name} x{self.before:04X} -> x{self.after:04X}"


@dataclass(frozen=True)
class TracedStep(LoggedStep):
    """One step with all that it did.

    ``clock`` is the step's number. ``changes`` are the registers and words that are not what they
    were, PC only where it is not simply the next address. ``keys`` are the bytes that arrived and
    ``shown`` the byte that was shown, if any. ``mode`` is the mode in which the step was made.
    """

    clock: int
    changes: tuple[Change, ...]
    keys: bytes
    shown: bytes
    mode: Mode = Mode.USER

    def __str__(self) -> str:
        """The step as one line of a log.

        >>> from fanthrig import Reason
        >>> print(TracedStep(0x3000, 0xF021, Reason.TRAP, 7, (Change("R6", 0, 1),), b"a", b""))
             7  x3000  xF021  TRAP x21          trap  R6 x0000 -> x0001, key 'a'
        """
        did = [str(change) for change in self.changes]
        did += [f"key {repr(bytes([key]))[1:]}" for key in self.keys]
        did += [f"shows {repr(self.shown)[1:]}"] if self.shown else []
        return f"{self.clock:>6}  {super().__str__()}  {', '.join(did)}".rstrip()


def changes(
    before: RecordStruct, after: RecordStruct, old: dict[int, int], words: array[int]
) -> tuple[Change, ...]:
    """What is not as it was: registers in the order of ``NAMES``, then words by address. ``old``
    are the words that the step stored to, as they were."""
    was, now = _SHORTS.unpack_from(before), _SHORTS.unpack_from(after)
    found = [
        Change(name, was[at], now[at])
        for name, at in _PLACES.items()
        if was[at] != now[at] and not (at == _PC and now[at] == (was[at] + 1) & 0xFFFF)
    ]
    replaced = [address for address in old if old[address] != words[address]]
    for address in sorted(replaced):
        found.append(Change(f"x{address:04X}", old[address], words[address]))
    return tuple(found)
