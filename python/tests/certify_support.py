"""What the tests of certificates share: monitors, their alterations, and pairs of sittings."""

from __future__ import annotations

import ctypes
import random
from array import array
from typing import Sequence

import fanthrig
from fanthrig._library import LIBRARY, AnswerStruct, RecordStruct
from fanthrig.certifying import Cell, Certificate
from fanthrig.certifying.claims import ranges

from . import ROOT
from .support import fresh, object_file

EXAMPLES = ROOT / "examples"

File = tuple[str, bytes]

# The bytes of a record without those that belong to no field.
RECORD_BYTES = RecordStruct.timer_count.offset + 2, RecordStruct.clock.offset

OUTPUT_BYTES, STEPS = 64, 400


def example(name: str) -> File:
    """An object file of examples/, by its name."""
    return f"{name}.obj", (EXAMPLES / f"{name}.obj").read_bytes()


def ready_made() -> File:
    """The ready-made monitor as an object file."""
    memory = fresh()
    fanthrig.monitor(memory)
    return "ready-made.obj", fanthrig.save(memory, 0, fanthrig.MONITOR_WORDS)


def of_class() -> list[File]:
    """The class's monitor of examples/, with its service."""
    return [example("monitor"), example("service")]


def large(services: int) -> File:
    """The class's monitor with many services from TRAP x26 on, each with a text that it shows by a
    subroutine and by PUTS: 47 words a service."""
    routine: list[int | str] = ["ADD R6, R6, #-2", "STR R7, R6, #1", "STR R0, R6, #0", "JSR #4"]
    routine += ["LDR R0, R6, #0", "LDR R7, R6, #1", "ADD R6, R6, #2", "RTI"]
    routine += ["ADD R6, R6, #-1", "STR R7, R6, #0", "LEA R0, #4", "TRAP x22"]
    routine += ["LDR R7, R6, #0", "ADD R6, R6, #1", "RET"]
    one = object_file(0, *routine)[2:]
    name, data = example("monitor")
    words, first = bytearray(data.ljust(2 + 2 * 0x0300, b"\0")), 0x0300
    for number in range(services):
        text = f"Service {number:04} of a large monitor\n\0".encode("utf-16-be")
        vector = 2 + 2 * (0x26 + number)
        words[vector : vector + 2] = (first + len(one + text) // 2 * number).to_bytes(2, "big")
        words += one + text
    return name, bytes(words)


def with_words(file: File, words: dict[int, int | str]) -> File:
    """An object file with other words at some addresses, given as numbers or as lines."""
    name, data = file
    changed = bytearray(data)
    origin = int.from_bytes(data[:2], "big")
    for address, word in words.items():
        number = fanthrig.word(word) if isinstance(word, str) else word
        at = 2 * (address - origin) + 2
        assert 2 <= at < len(data)
        changed[at : at + 2] = number.to_bytes(2, "big")
    return name, bytes(changed)


def randomly_altered(rng: random.Random, files: Sequence[File]) -> list[File]:
    """Files of a monitor with one to three words altered: by a bit, by a small number, or to the
    word of another address; most often words of the routines."""
    altered = list(files)
    for _ in range(rng.choice([1, 1, 1, 2, 3])):
        place = rng.randrange(len(altered))
        name, data = altered[place]
        origin, count = int.from_bytes(data[:2], "big"), len(data) // 2 - 1
        first = 0x0200 if origin < 0x0200 and rng.randrange(8) else origin
        address = rng.randrange(first, origin + count)
        at = 2 * (address - origin) + 2
        word = int.from_bytes(data[at : at + 2], "big")
        other = 2 * rng.randrange(count) + 2
        word = rng.choice(
            [word ^ 1 << rng.randrange(16), word ^ 1 << rng.randrange(9), word + 1, word - 1]
            + [int.from_bytes(data[other : other + 2], "big"), rng.getrandbits(16)]
        )
        altered[place] = with_words((name, data), {address: word & 0xFFFF})
    return altered


def memory_with(files: Sequence[File]) -> array[int]:
    """Memory with files in it, and zeros elsewhere."""
    sitting = fanthrig.Sitting(monitor=False)
    for name, data in files:
        sitting.load(data, name, examiner=True)
    return array("H", sitting.memory.words)


class Side:
    """One of two sittings: memory, output and log at fixed places, called without copies."""

    def __init__(self, memory: array[int]) -> None:
        """A machine that is not started."""
        self.memory, self.output = memory, bytearray(OUTPUT_BYTES)
        self.log = array("H", bytes(2 * fanthrig.LOG_WORDS * STEPS))
        self.bytes = memoryview(memory).cast("B")
        self.at = memory.buffer_info()[0], len(memory)
        self._output = (ctypes.c_uint8 * OUTPUT_BYTES).from_buffer(self.output)
        self.room = ctypes.addressof(self._output), OUTPUT_BYTES
        self.lines = self.log.buffer_info()[0], len(self.log)
        self.record = RecordStruct()

    def start(
        self, file: ctypes.Array[ctypes.c_char], length: int, kbsr: int, interval: int
    ) -> None:
        """Starts a candidate's file; where there is an interval the timer may interrupt."""
        at = ctypes.addressof(file), length
        started = LIBRARY.lc3_start_user(*at, *self.at, fanthrig.USER_STACK)
        assert started.refusal == 0
        self.record = started.record
        self.record.kbsr = kbsr
        if interval:
            self.record.timer_status = 0x4000
            self.record.timer_interval = self.record.timer_count = interval

    def run(self, times: array[int], keys: array[int], logged: bool) -> tuple[object, ...]:
        """Runs on, and answers all that a host sees of it."""
        lists = times.buffer_info(), keys.buffer_info()
        buffers = (*self.at, *lists[0], *lists[1], *self.room)
        if logged:
            answer = LIBRARY.lc3_run_logged(self.record, *buffers, *self.lines, STEPS)
        else:
            answer = LIBRARY.lc3_run_long(self.record, *buffers, STEPS)
        self.record = answer.record
        return self._seen(answer)

    def _seen(self, answer: AnswerStruct) -> tuple[object, ...]:
        """Every field of an answer, the output and the log."""
        record, (end, clock) = bytes(answer.record), RECORD_BYTES
        numbers = answer.steps, answer.keys, answer.shown, answer.refusal, answer.stop
        return record[:end], record[clock:], numbers, bytes(self.output), self.log.tobytes()


class Pair:
    """Two sittings beside a monitor, in memories that differ in every secret word of a certificate
    and are alike but for them."""

    def __init__(self, rng: random.Random, made: Certificate, memory: array[int]) -> None:
        """Draws own words, stack, User mode's words, and two contents of the secret words."""
        self.rng = rng
        drawn = array("H", rng.randbytes(2 * fanthrig.MEMORY_WORDS))
        for address in range(0, fanthrig.MEMORY_WORDS, 4):
            drawn[address] = 0
        for address in made.words_of(Cell.FIXED):
            drawn[address] = memory[address]
        self.secret = ranges(made.words_of(Cell.SECRET))
        other = array("H", drawn)
        for words in self.secret:
            for address in words:
                other[address] ^= rng.choice([1, 0xFFFF, 0x8000, drawn[address] or 7])
        self.sides = Side(drawn), Side(other)
        self.kept = [self._secrets(side) for side in self.sides]

    def _secrets(self, side: Side) -> list[bytes]:
        """The secret words of a side."""
        return [bytes(side.bytes[2 * words.start : 2 * words.stop]) for words in self.secret]

    def _others(self, side: Side) -> list[bytes]:
        """All other words of a side."""
        starts = [0, *(2 * words.stop for words in self.secret)]
        ends = [*(2 * words.start for words in self.secret), 2 * fanthrig.MEMORY_WORDS]
        return [bytes(side.bytes[start:end]) for start, end in zip(starts, ends)]

    def differs(self, program: bytes) -> str:
        """Has both sit with a program for a few calls; tells what differs, or nothing."""
        rng, length = self.rng, len(program)
        file = ctypes.create_string_buffer(program, length)
        kbsr = rng.choice([0] * 7 + [0x4000])
        interval = rng.choice([0] * 7 + [rng.randint(1, 40)])
        for side in self.sides:
            side.start(file, length, kbsr, interval)
        for _ in range(rng.randint(1, 2)):
            clock = int(self.sides[0].record.clock)
            times = array("Q", sorted(clock + rng.randrange(STEPS) for _ in range(3)))
            keys, logged = array("B", rng.randbytes(3)), not rng.randrange(4)
            one, other = (side.run(times, keys, logged) for side in self.sides)
            if one != other:
                return "what a host sees"
        if self._others(self.sides[0]) != self._others(self.sides[1]):
            return "a word that is not secret"
        if self.kept != [self._secrets(side) for side in self.sides]:
            return "a secret word has changed"
        return ""
