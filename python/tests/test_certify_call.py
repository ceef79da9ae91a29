"""The library's test of tables against the same test in plain Python (tests/table_test.py), on
tables that hold, on tables that are altered, and on hostile ones of every length."""

from __future__ import annotations

import random
import unittest
from array import array
from dataclasses import replace
from typing import Any, Sequence

import fanthrig
from fanthrig import Certified, Finding
from fanthrig.certifying import Certificate, certificate_of

from .certify_support import of_class, ready_made
from .support import fresh
from .table_test import Test

# The values that tables have most often: kinds, and numbers that matter.
NUMBERS = [0, 1, 0x0200, 0x0300, 0x2FFC, 0x2FFE, 0x2FFF, 0x3000, 0xD000, 0xFE06, 0xFFFF]


def by_call(made: Certificate) -> Certified:
    """What the library answers."""
    return made.tested()


def by_python(made: Certificate) -> Certified:
    """What the plain test answers."""
    parts = made.words, made.kinds, made.lowest, made.watched, made.ends, made.table
    finding, address, state = Test(*parts).finding()
    return Certified(Finding(finding), address, state)


def changed(rng: random.Random, numbers: Sequence[int], most: int) -> tuple[int, ...]:
    """Numbers of which one is another; or fewer, or more."""
    some = list(numbers)
    kind = rng.randrange(8)
    if kind == 0 and some:
        del some[rng.randrange(len(some)) :]
    elif kind == 1:
        some += [rng.randrange(most + 1)] * rng.randint(1, 20)
    elif some:
        number = rng.choice([0x10000 * rng.randrange(8), 0x20000 | rng.choice(NUMBERS)])
        some[rng.randrange(len(some))] = number % (most + 1)
    return tuple(some)


def altered(rng: random.Random, made: Certificate) -> Certificate:
    """A claim with something else in it."""
    part = rng.randrange(6)
    if part == 0:
        return replace(made, table=changed(rng, made.table, 0xFFFFFFFF))
    if part == 1:
        return replace(made, ends=changed(rng, made.ends, 0xFFFFFFFF))
    if part == 2:
        words = list(made.words)
        words[rng.randrange(len(words))] ^= 1 << rng.randrange(16)
        return replace(made, words=tuple(words))
    if part == 3:
        kinds = bytearray(made.kinds)
        kinds[rng.randrange(len(kinds))] = rng.choice([0, 1, 2, 3, 255])
        return replace(made, kinds=bytes(kinds))
    if part == 4:
        return replace(made, lowest=rng.choice([*NUMBERS, made.lowest - 1, made.lowest + 1]))
    return replace(made, watched=changed(rng, made.watched, 0xFFFF))


class AgainstPython(unittest.TestCase):
    """Both tests answer the same: the finding, the address and the state."""

    def same(self, made: Certificate) -> Finding:
        """That both answer the same, and what."""
        answer = by_call(made)
        self.assertEqual(answer, by_python(made), made)
        return answer.finding

    def test_tables_that_hold(self) -> None:
        for files in ([ready_made()], of_class()):
            self.assertIs(self.same(certificate_of(files)), Finding.CERTIFIED)

    def test_altered_tables(self) -> None:
        rng = random.Random(2)
        whole = [certificate_of([ready_made()]), certificate_of(of_class())]
        found = {self.same(altered(rng, rng.choice(whole))) for _ in range(150)}
        self.assertEqual(found, set(Finding))

    def test_random_tables(self) -> None:
        rng = random.Random(3)
        for _ in range(200):
            words = tuple(rng.choice([0x0200, rng.getrandbits(16)]) for _ in range(0x210))
            values = [rng.randrange(8) << 16 | rng.choice(NUMBERS) for _ in range(17 * 30)]
            entry = [*[1 << 16] * 6, 0x22FFE, 1 << 16, 0, *[1 << 16] * 8]
            ends = sorted(rng.randrange(40) for _ in range(16))
            made = Certificate(
                bytes(rng.choice([1, 1, 1, 2, 0]) if at >= 0x200 else 1 for at in range(0x210)),
                words,
                rng.choice([0x2F00, 0x2FF0, 0x2FFE]),
                tuple(rng.choice([0, 0x0208, 0x2FFC, 0x2FFD]) for _ in range(8)),
                tuple(ends),
                tuple(entry * rng.randint(1, 3) + values),
            )
            self.same(made)


class Hostile(unittest.TestCase):
    """Whatever is lent, the call ends, says no, and writes nothing."""

    def test_random_numbers_of_every_length(self) -> None:
        rng = random.Random(4)
        memory = fresh()
        fanthrig.monitor(memory)
        kinds = bytes([1]) * fanthrig.MONITOR_WORDS
        for length in [*range(70), 1000, 100_000]:
            ends, table = (array("I", rng.randbytes(4 * length)) for _ in range(2))
            watched = array("H", rng.randbytes(2 * rng.choice([0, 7, 8, 8, 8, 9, 1000])))
            part = memory[: rng.choice([0, 1, 0x200, 0x300, 0x10000])]
            some = rng.choice([kinds, rng.randbytes(length), kinds[:length], kinds + kinds])
            before = part[:], ends[:], table[:], watched[:]
            answer = fanthrig.certify(part, some, rng.getrandbits(16), watched, ends, table)
            self.assertFalse(answer)
            self.assertEqual((part, ends, table, watched), before)

    def test_every_shorter_claim(self) -> None:
        """A claim that holds, with each of its parts cut to every shorter length."""
        made = certificate_of(of_class())
        parts = [
            array("H", made.words),
            array("B", made.kinds),
            array("H", made.watched),
            array("I", made.ends),
            array("I", made.table),
        ]

        def tested(words: Any, kinds: Any, *rest: Any) -> Certified:
            return fanthrig.certify(words, kinds, made.lowest, *rest)

        self.assertTrue(tested(*parts))
        for at, part in enumerate(parts):
            for length in range(len(part)):
                self.assertFalse(tested(*parts[:at], part[:length], *parts[at + 1 :]))

    def test_rows_past_the_last_word(self) -> None:
        """A state that is of no word is told as such, and not as one of another word's."""
        made = certificate_of([ready_made()])
        count, entry = made.states, (*[1 << 16] * 6, 0x22FFE, 1 << 16, 0, *[1 << 16] * 8)
        for row, address in ((0xFDFF, 0xFFFF), (0xFE00, 65536), (0x10000, 65536), (0x20000, 65536)):
            ends = (*made.ends, *[count] * (row - len(made.ends)))
            empty = replace(made, ends=ends)
            self.assertTrue(empty.tested())
            wrong = replace(made, ends=(*ends, count + 1), table=(*made.table, *entry))
            answer = by_call(wrong)
            self.assertEqual(answer, Certified(Finding.WORD, address, count))
            self.assertEqual(answer, by_python(wrong))

    def test_nothing_at_all(self) -> None:
        nothing, numbers = array("H"), array("I")
        answer = fanthrig.certify(nothing, b"", 0x2FFE, nothing, numbers, numbers)
        self.assertEqual(answer, Certified(Finding.WATCHED))

    def test_other_buffers_are_refused_by_python(self) -> None:
        words, numbers, watched = array("H"), array("I"), array("H", bytes(16))
        with self.assertRaisesRegex(TypeError, "table must hold unsigned 32-bit numbers"):
            fanthrig.certify(words, b"", 0, watched, numbers, array("H"))
        with self.assertRaisesRegex(ValueError, "lowest is 65536"):
            fanthrig.certify(words, b"", 65536, watched, numbers, numbers)


if __name__ == "__main__":
    unittest.main()
