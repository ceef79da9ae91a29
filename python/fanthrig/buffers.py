"""Buffers, checked and handed over to the library without copying.

A buffer is anything with Python's buffer protocol: ``array.array``, ``bytes``, ``bytearray``,
``memoryview``, ctypes arrays, ``mmap``, numpy arrays. What a call writes must be writable. Each
must be one-dimensional, contiguous, aligned, and of the element that the call takes:

=======  ===========================  ==================================================
element  for                          made by
=======  ===========================  ==================================================
WORD     memory, log, vector words    ``array("H", ...)``, numpy ``uint16``
TIME     the times of keys            ``array("Q", ...)``, numpy ``uint64``
NUMBER   tables of ``certify``        ``array("I", ...)``, numpy ``uint32``
BYTE     keys, files, output          ``bytes``, ``bytearray``, ``array("B", ...)``
=======  ===========================  ==================================================

Anything else is a ``TypeError``, or a ``ValueError`` where the type is right and the shape is not.
"""

from __future__ import annotations

import ctypes
from contextlib import ExitStack, contextmanager
from ctypes import c_char_p, c_int, c_ssize_t, c_void_p, py_object
from typing import Any, Iterator, NamedTuple


class Element(NamedTuple):
    """The type of a buffer's elements: its size in bytes, and struct's letters for it."""

    size: int
    codes: str
    words: str


WORD = Element(2, "H", "unsigned 16-bit words, as of array('H')")
TIME = Element(8, "QL", "unsigned 64-bit numbers, as of array('Q')")
NUMBER = Element(4, "IL", "unsigned 32-bit numbers, as of array('I')")
BYTE = Element(1, "Bc", "bytes, as of bytearray or array('B')")


class Lent(NamedTuple):
    """What a call is handed for a buffer."""

    address: int
    elements: int


class _View(ctypes.Structure):
    """Python's ``Py_buffer``: ctypes alone can't give the address of what is read-only."""

    _fields_ = [
        ("buf", c_void_p),
        ("obj", c_void_p),
        ("len", c_ssize_t),
        ("itemsize", c_ssize_t),
        ("readonly", c_int),
        ("ndim", c_int),
        ("format", c_char_p),
        ("shape", ctypes.POINTER(c_ssize_t)),
        ("strides", ctypes.POINTER(c_ssize_t)),
        ("suboffsets", ctypes.POINTER(c_ssize_t)),
        ("internal", c_void_p),
    ]


_STRIDES_AND_FORMAT = 0x0018 | 0x0004  # PyBUF_STRIDES | PyBUF_FORMAT

_get = ctypes.pythonapi.PyObject_GetBuffer
_get.argtypes = (py_object, ctypes.POINTER(_View), c_int)
_release = ctypes.pythonapi.PyBuffer_Release
_release.argtypes, _release.restype = (ctypes.POINTER(_View),), None

# The address for a buffer of no elements, whose own may be NULL, which the library does not take.
_NOTHING = (ctypes.c_uint64 * 1)()
NOWHERE = ctypes.addressof(_NOTHING)


def _checked(view: _View, element: Element, name: str, write: bool) -> Lent:
    """The lent buffer of a view, or the error that says what is wrong with it."""
    given = (view.format or b"B").decode()
    # A prefix > is for the other byte order; = and < are this machine's own.
    if view.itemsize != element.size or given.lstrip("@=<") not in tuple(element.codes):
        raise TypeError(
            f"{name} must hold {element.words}; it holds elements of format {given!r} and "
            f"{view.itemsize} bytes"
        )
    if write and view.readonly:
        raise TypeError(f"{name} is written by the call, and this buffer is read-only")
    if view.ndim != 1:
        raise ValueError(f"{name} must have one dimension, not {view.ndim}")
    count = view.len // view.itemsize
    if count == 0:
        return Lent(NOWHERE, 0)
    # Who gives no strides has none: ctypes arrays are always contiguous.
    if count > 1 and view.strides and view.strides[0] != view.itemsize:
        raise ValueError(f"{name} must be contiguous: copy the slice before it is lent")
    if view.buf % element.size:
        raise ValueError(f"{name} must be aligned to {element.size} bytes: lend a copy of it")
    return Lent(view.buf, count)


@contextmanager
def lent(buffer: Any, element: Element, name: str, write: bool = False) -> Iterator[Lent]:
    """Lends a buffer: its address and number of elements, held in place until the end.

    >>> from array import array
    >>> words = array("H", [1, 2, 3])
    >>> with lent(words, WORD, "memory", write=True) as (address, count):
    ...     address == words.buffer_info()[0], count
    (True, 3)
    >>> with lent([1, 2, 3], WORD, "memory"):
    ...     pass
    Traceback (most recent call last):
    TypeError: memory must be a buffer of unsigned 16-bit words, as of array('H'), not a list
    """
    view = _View()
    try:
        _get(buffer, ctypes.byref(view), _STRIDES_AND_FORMAT)
    except TypeError:
        kind = type(buffer).__name__
        article = "an" if kind[:1] in "aeiou" else "a"
        raise TypeError(
            f"{name} must be a buffer of {element.words}, not {article} {kind}"
        ) from None
    try:
        yield _checked(view, element, name, write)
    finally:
        _release(ctypes.byref(view))


class Lending(ExitStack):
    """The buffers of one call, held in place until it is over and known to lie apart."""

    def __init__(self) -> None:
        """Nothing is lent yet."""
        super().__init__()
        self._written: list[tuple[int, int, str]] = []
        self._read: list[tuple[int, int, str]] = []

    def read(self, buffer: Any, element: Element, name: str) -> Lent:
        """Lends a buffer that the call only reads."""
        return self._lend(buffer, element, name, False)

    def write(self, buffer: Any, element: Element, name: str) -> Lent:
        """Lends a buffer that the call may write.

        >>> both = bytearray(4)
        >>> with Lending() as lending:
        ...     _ = lending.read(both, BYTE, "keys")
        ...     lending.write(both, BYTE, "output")
        Traceback (most recent call last):
        ValueError: output overlaps keys: the buffers of a call must lie apart
        """
        return self._lend(buffer, element, name, True)

    def _lend(self, buffer: Any, element: Element, name: str, write: bool) -> Lent:
        """Lends a buffer that does not overlap another where one of the two is written."""
        part = self.enter_context(lent(buffer, element, name, write))
        first, last = part.address, part.address + part.elements * element.size
        for start, end, other in self._written + (self._read if write else []):
            if first < end and start < last:
                raise ValueError(f"{name} overlaps {other}: the buffers of a call must lie apart")
        if part.elements:
            (self._written if write else self._read).append((first, last, name))
        return part
