"""The breakpoints of a sitting."""

from __future__ import annotations

from typing import Iterable, Iterator, MutableSet, NoReturn

from .exclusive import Exclusive
from .records import WORD_LIMIT, checked_int


class Breakpoints(MutableSet[int]):
    """A set of addresses, which is part of its sitting: while that is in use it is not altered.

    >>> from fanthrig import Sitting
    >>> breakpoints = Sitting().breakpoints
    >>> breakpoints.add(0x3001)
    >>> breakpoints |= {0x3002}
    >>> breakpoints == {0x3001, 0x3002}
    True
    >>> breakpoints.add(65536)
    Traceback (most recent call last):
    ValueError: a breakpoint is 65536, and must be from 0 to 65535
    """

    def __init__(self, use: Exclusive, addresses: Iterable[int] = ()) -> None:
        """The addresses, and the use of the sitting that they belong to."""
        self._use = use
        checked = (checked_int(address, WORD_LIMIT, "a breakpoint") for address in addresses)
        self._addresses = set(checked)

    def __reduce__(self) -> NoReturn:
        """Whoever copies breakpoints alone is told what to do."""
        raise TypeError("breakpoints are part of a sitting: copy that, or take set(breakpoints)")

    @classmethod
    def _from_iterable(cls, addresses: Iterable[int]) -> set[int]:
        """What ``&``, ``|``, ``-`` and ``^`` make: a set that is no sitting's."""
        return set(addresses)

    def __contains__(self, address: object) -> bool:
        """Whether there is a breakpoint at an address."""
        return address in self._addresses

    def __iter__(self) -> Iterator[int]:
        """The addresses, of which others may be altered meanwhile."""
        return iter(tuple(self._addresses))

    def __len__(self) -> int:
        """How many there are."""
        return len(self._addresses)

    def __repr__(self) -> str:
        """The addresses as the book writes them."""
        return "{" + ", ".join(f"x{address:04X}" for address in sorted(self)) + "}"

    def add(self, address: int) -> None:
        """Sets a breakpoint."""
        number = checked_int(address, WORD_LIMIT, "a breakpoint")
        with self._use:
            self._addresses.add(number)

    def discard(self, address: int) -> None:
        """Takes a breakpoint away, where there is one."""
        with self._use:
            self._addresses.discard(address)

    def clear(self) -> None:
        """Takes all breakpoints away."""
        with self._use:
            self._addresses.clear()
