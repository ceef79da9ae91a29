"""Buffers of every kind, right and wrong, and that none is copied."""

from __future__ import annotations

import ctypes
import mmap
import unittest
from array import array
from typing import Any

import fanthrig

from .support import fresh, user

try:
    import numpy
except ImportError:
    numpy = None

NO_TIMES = array("Q")
ADD = 0x1021  # ADD R0, R0, #1
STORE = 0x3001  # ST R0, #1


def words_of_every_kind() -> list[Any]:
    """Memory of zeros in buffers of all kinds."""
    size = 2 * fanthrig.MEMORY_WORDS
    kinds: list[Any] = [
        fresh(),
        memoryview(fresh()),
        memoryview(bytearray(size)).cast("H"),
        memoryview(bytearray(size + 2)).cast("H")[1:],
        (ctypes.c_uint16 * fanthrig.MEMORY_WORDS)(),
        memoryview(mmap.mmap(-1, size)).cast("H"),
    ]
    if numpy is not None:
        kinds.append(numpy.zeros(fanthrig.MEMORY_WORDS, numpy.uint16))
    return kinds


class RightBuffers(unittest.TestCase):
    """What is lent is what the call works on."""

    def test_memory_of_every_kind_is_altered_in_place(self) -> None:
        for memory in words_of_every_kind():
            memory[0x3000] = STORE
            record = user()
            record.regs[0] = 0x1234
            fanthrig.run(record, memory, NO_TIMES, b"", bytearray(), 1)
            self.assertEqual(memory[0x3002], 0x1234, type(memory))
            fanthrig.monitor(memory)
            self.assertEqual(memory[0x0020], 0x0200)

    def test_keys_and_times_of_every_kind(self) -> None:
        times: list[Any] = [array("Q", [0]), array("L", [0]), (ctypes.c_uint64 * 1)(0)]
        times.append(memoryview(bytes(8)).cast("Q"))
        if numpy is not None:
            times.append(numpy.zeros(1, numpy.uint64))
        keys: list[Any] = [b"a", bytearray(b"a"), memoryview(b"a"), array("B", b"a")]
        keys += [(ctypes.c_uint8 * 1)(97), memoryview(b"a").cast("c")]
        for lent_times in times:
            for lent_keys in keys:
                ran = fanthrig.run(user(), fresh(), lent_times, lent_keys, bytearray(), 1)
                self.assertEqual((ran.keys, ran.record.kbdr), (1, 97))

    def test_outputs_of_every_kind(self) -> None:
        outputs: list[Any] = [bytearray(17), array("B", bytes(17)), memoryview(bytearray(17))]
        outputs += [(ctypes.c_uint8 * 17)(), memoryview(bytearray(40))[3:20], mmap.mmap(-1, 17)]
        for output in outputs:
            self.assertEqual(fanthrig.line(0x14E7, output), 15)
            self.assertEqual(bytes(output)[:15], b"ADD R2, R3, #7\n")

    def test_empty_buffers(self) -> None:
        buffers: list[Any] = [b"", bytearray(), array("B"), memoryview(b"")]
        for empty in [*buffers, memoryview(bytearray(4))[4:]]:
            self.assertEqual(fanthrig.run(user(), fresh(), NO_TIMES, empty, bytearray(), 1).keys, 0)

    def test_what_is_only_read_may_be_shared(self) -> None:
        shared, memory = bytes(8), fresh()
        fanthrig.run(user(), memory, memoryview(shared).cast("Q"), shared[:1], bytearray(), 1)
        self.assertEqual(fanthrig.page(memoryview(memory).toreadonly(), 0x3000, 1), ".FILL x0000\n")

    def test_a_lent_buffer_is_free_again_after_the_call(self) -> None:
        output = bytearray(17)
        fanthrig.line(0x14E7, output)
        output += b"more"
        with self.assertRaises(fanthrig.Refused):
            fanthrig.line(0x14E7, bytearray(3))
        with self.assertRaises(TypeError):
            fanthrig.line(0x14E7, memoryview(output).cast("H")[:2])
        output += b"and more"


class WrongBuffers(unittest.TestCase):
    """A clear error, and no call."""

    def wrong(self, error: type[Exception], text: str, memory: Any = None, times: Any = NO_TIMES,
              keys: Any = b"", output: Any = None) -> None:
        """That a run with these buffers is an error, and makes no step."""
        lent = fresh() if memory is None else memory
        room = bytearray(4) if output is None else output
        with self.assertRaisesRegex(error, text):
            fanthrig.run(user(), lent, times, keys, room, 1)

    def test_things_that_are_no_buffers(self) -> None:
        for thing in ([0] * fanthrig.MEMORY_WORDS, None, "text", 7, object(), range(65536)):
            text = "memory must be a buffer of unsigned 16-bit words"
            with self.assertRaisesRegex(TypeError, text):
                fanthrig.monitor(thing)  # type: ignore[arg-type]
        self.wrong(TypeError, "times must be a buffer", times=[1, 2])
        self.wrong(TypeError, "keys must be a buffer.*not a str", keys="abc")

    def test_elements_of_another_type(self) -> None:
        size, big_endian = 2 * fanthrig.MEMORY_WORDS, getattr(ctypes.c_uint16, "__ctype_be__")
        for memory in (bytearray(size), array("h", bytes(size)), array("I", bytes(2 * size)),
                       array("f", bytes(2 * size)), memoryview(bytearray(size)).cast("h"),
                       (big_endian * fanthrig.MEMORY_WORDS)()):
            self.wrong(TypeError, "memory must hold unsigned 16-bit words", memory)
        self.wrong(TypeError, "times must hold unsigned 64-bit", times=array("q", [1]), keys=b"a")
        self.wrong(TypeError, "times must hold unsigned 64-bit", times=array("I", [1]), keys=b"a")
        self.wrong(TypeError, "output must hold bytes", output=array("H", [0]))
        self.wrong(TypeError, "keys must hold bytes", keys=array("b", [0]))

    def test_what_is_written_must_be_writable(self) -> None:
        read_only = memoryview(fresh()).toreadonly()
        self.wrong(TypeError, "memory is written by the call, and this buffer is", read_only)
        self.wrong(TypeError, "output is written by the call", output=b"....")

    def test_shape_and_place(self) -> None:
        twice = memoryview(array("H", bytes(4 * fanthrig.MEMORY_WORDS)))
        self.wrong(ValueError, "memory must be contiguous", twice[::2])
        self.wrong(ValueError, "memory must be contiguous", memoryview(fresh())[::-1])
        square = memoryview(bytearray(2 * fanthrig.MEMORY_WORDS)).cast("H", (256, 256))
        self.wrong(ValueError, "memory must have one dimension, not 2", square)
        odd = (ctypes.c_uint16 * 4).from_buffer(bytearray(9), 1)
        self.wrong(ValueError, "memory must be aligned to 2 bytes", odd)

    def test_buffers_that_overlap(self) -> None:
        data = bytearray(2 * fanthrig.MEMORY_WORDS)
        memory = memoryview(data).cast("H")
        self.wrong(ValueError, "output overlaps memory", memory, output=memoryview(data)[-1:])
        key = memoryview(data)[:1]
        self.wrong(ValueError, "keys overlaps memory", memory, array("Q", [0]), key)
        with self.assertRaisesRegex(ValueError, "log overlaps memory"):
            fanthrig.run_logged(user(), memory, NO_TIMES, b"", bytearray(), memory[8:], 1)
        with self.assertRaisesRegex(ValueError, "memory overlaps file"):
            fanthrig.start(memoryview(data)[:4], memory, True, 0)
        self.assertEqual(data, bytes(len(data)))


if __name__ == "__main__":
    unittest.main()
