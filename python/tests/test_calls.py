"""The interface against the header, and every call with every refusal that it has."""

from __future__ import annotations

import ctypes
import re
import unittest
from array import array
from dataclasses import replace
from typing import Any, Callable

import fanthrig
from fanthrig import _library, constants
from fanthrig.records import SHORT_FIELDS

from . import ROOT
from .support import fresh, user

HEADER = (ROOT / "include/fanthrig/lc3.h").read_text(encoding="utf-8")
NO_TIMES = array("Q")


def number(text: str) -> int:
    """A number as the header writes it."""
    shifted = re.fullmatch(r"\(UINT64_C\((\d+)\) << (\d+)\)", text)
    return int(shifted[1]) << int(shifted[2]) if shifted else int(text, 0)


def header_constants() -> dict[str, int]:
    """What the header defines with a value, and its enumerators."""
    plain = re.sub(r"/\*.*?\*/", "", HEADER, flags=re.DOTALL)
    found = {
        name: number(value.strip())
        for name, value in re.findall(r"^#define LC3_(\w+) ([^\n]+)$", plain, re.MULTILINE)
    }
    for body in re.findall(r"enum \{(.*?)\}", plain, re.DOTALL):
        following = 0
        for item in re.findall(r"\w[^,]*\w", body):
            name, _, value = item.partition(" = ")
            found[name[4:]] = following = number(value) if value else following
            following += 1
    return found


class TheHeader(unittest.TestCase):
    """Constants, layouts and functions are those of lc3.h."""

    def test_the_constants(self) -> None:
        ours = {
            name: value
            for name, value in vars(constants).items()
            if name.isupper() and name not in ("USER_ORIGIN", "USER_STACK")
        }
        ours["ACCEPTED"] = 0
        ours.update({f"REFUSED_{refusal.name}": refusal.value for refusal in fanthrig.Refusal})
        ours.update({f"REASON_{reason.name}": reason.value for reason in fanthrig.Reason})
        ours.update({kind.name: kind.value for kind in fanthrig.Kind})
        ours.update({stop.name: stop.value for stop in fanthrig.Stop if stop >= 0})
        findings = list(fanthrig.Finding)
        ours[findings[0].name] = findings[0].value
        ours.update({f"WRONG_{finding.name}": finding.value for finding in findings[1:]})
        self.assertEqual(ours, header_constants())

    def test_the_layouts(self) -> None:
        structs = {
            "lc3_" + re.sub(r"(?<!^)([A-Z])", r"_\1", struct.__name__[:-6]).lower(): struct
            for struct in _library.SIZES
        }
        sizes = dict(re.findall(r"sizeof\((lc3_\w+)\) == (\d+)", HEADER))
        self.assertEqual(sizes.pop("lc3_bool"), str(ctypes.sizeof(ctypes.c_bool)))
        self.assertEqual({n: str(ctypes.sizeof(s)) for n, s in structs.items()}, sizes)
        offsets = re.findall(r"offsetof\((lc3_\w+), (\w+)\) == (\d+)", HEADER)
        for struct, name, offset in offsets:
            self.assertEqual(getattr(structs[struct], name).offset, int(offset), (struct, name))
        fields = sum(len(struct._fields_) for struct in structs.values())
        self.assertEqual(fields, len(offsets))

    def test_every_function_is_a_call(self) -> None:
        functions = set(re.findall(r"^[\w ]+ \*?(lc3_\w+)\(", HEADER, re.MULTILINE))
        self.assertEqual(set(_library.FUNCTIONS), functions)
        for name in functions:
            self.assertIn(name[4:], fanthrig.__all__)

    def test_the_version(self) -> None:
        self.assertEqual(fanthrig.version(), fanthrig.VERSION)

    def test_all_that_is_exported_is_there(self) -> None:
        self.assertEqual(fanthrig.__all__, sorted(fanthrig.__all__))
        for name in fanthrig.__all__:
            self.assertTrue(hasattr(fanthrig, name), name)


class RefusedCalls(unittest.TestCase):
    """Each call, each of its refusals; and a refused call alters nothing."""

    def refused(self, expected: int, call: Callable[..., Any], *arguments: Any) -> fanthrig.Refused:
        """That a call is refused, and leaves its buffers and its record."""
        before = [
            a.copy() if isinstance(a, fanthrig.Record) else bytes(a) if hasattr(a, "__len__") else a
            for a in arguments
        ]
        with self.assertRaises(fanthrig.Refused) as caught:
            call(*arguments)
        for old, new in zip(before, arguments):
            self.assertEqual(old, bytes(new) if isinstance(old, bytes) else new)
        error = caught.exception
        self.assertEqual(error.number, expected)
        self.assertIn(f"({expected})", str(error))
        self.assertGreater(len(error.text), 20)
        return error

    def runs(self) -> list[tuple[Callable[..., Any], bool]]:
        """Every call that runs, as one of record, memory, times, keys and n."""

        def of(run: Callable[..., Any]) -> Callable[..., Any]:
            return lambda r, m, t, k, n: run(r, m, t, k, bytearray(1), n)

        def one(step: Callable[..., Any]) -> Callable[..., Any]:
            return lambda r, m, t, k, n: step(r, m, t, k, bytearray(1))

        def logged(run: Callable[..., Any]) -> Callable[..., Any]:
            return lambda r, m, t, k, n: run(r, m, t, k, bytearray(1), array("H", bytes(6)), n)

        takes_n = [
            (of(fanthrig.run), True),
            (of(fanthrig.run_long), True),
            (of(fanthrig.run_second), True),
            (logged(fanthrig.run_logged), True),
            (logged(fanthrig.run_logged_second), True),
        ]
        return takes_n + [(one(fanthrig.step), False), (one(fanthrig.step_second), False)]

    def test_runs_and_steps(self) -> None:
        for call, takes_n in self.runs():
            memory, record = fresh(), user()
            self.refused(11, call, record, memory[1:], NO_TIMES, b"", 1)
            self.refused(11, call, record, memory + array("H", [0]), NO_TIMES, b"", 1)
            self.refused(11, call, record, array("H"), NO_TIMES, b"", 1)
            self.refused(14, call, record, memory, array("Q", [1]), b"", 1)
            self.refused(14, call, record, memory, NO_TIMES, b"a", 1)
            record.clock = 5
            error = self.refused(15, call, record, memory, array("Q", [5, 4]), b"ab", 1)
            self.assertEqual((error.index, "times[1]" in error.text), (1, True))
            error = self.refused(19, call, record, memory, array("Q", [7, 9, 8]), b"abc", 1)
            self.assertEqual((error.index, "times[2]" in error.text), (2, True))
            if takes_n:
                self.refused(13, call, record, memory, NO_TIMES, b"", fanthrig.MAX_STEPS + 1)
            record.clock = fanthrig.MAX_CLOCK
            self.refused(13, call, record, memory, NO_TIMES, b"", 1)

    def test_every_wrong_field_of_a_record(self) -> None:
        wrong: dict[str, int] = {"psr": 0x0008, "kbsr": 1, "kbdr": 0x0100, "mcr": 1, "busy": 9}
        wrong.update(timer_status=1, timer_count=1, clock=fanthrig.MAX_CLOCK + 1)
        for call, _ in self.runs():
            for name, value in wrong.items():
                record = user()
                setattr(record, name, value)
                self.refused(12, call, record, fresh(), NO_TIMES, b"", 1)
            record = user()
            record.timer_interval = 5
            self.refused(12, call, record, fresh(), NO_TIMES, b"", 1)

    def test_the_first_that_applies_is_answered(self) -> None:
        record = user()
        record.psr, record.clock = 0xFFFF, 7
        early, memory = array("Q", [0]), fresh()
        self.refused(11, fanthrig.run, record, memory[1:], early, b"", bytearray(), 1 << 63)
        self.refused(12, fanthrig.run, record, memory, early, b"", bytearray(), 1 << 63)
        record.psr = 0
        self.refused(13, fanthrig.run, record, memory, early, b"", bytearray(), 1 << 63)
        self.refused(14, fanthrig.run, record, memory, early, b"", bytearray(), 1)
        self.refused(15, fanthrig.run, record, memory, early, b"a", bytearray(), 1)

    def test_start(self) -> None:
        memory = fresh()
        self.refused(11, fanthrig.start, b"\x30\x00", memory[1:], True, 0)
        for file in (b"", b"\x30", b"\x30\x00\x00"):
            self.refused(17, fanthrig.start, file, memory, True, 0)
        self.refused(18, fanthrig.start, b"\xFF\xFF" + bytes(4), memory, True, 0)
        started = fanthrig.start(b"\xFF\xFF\x12\x34", memory, False, 0xFDFF)
        self.assertEqual((started.words, memory[0xFFFF], started.record.psr), (1, 0x1234, 2))
        self.assertEqual((started.record.regs[6], started.record.saved_usp), (0x3000, 0xFDFF))

    def test_write(self) -> None:
        def refused(expected: int, *fields: int) -> None:
            instruction = fanthrig.Instruction(*fields)  # type: ignore[arg-type]
            self.refused(expected, fanthrig.write, instruction)

        ld, br = fanthrig.Kind.LD, fanthrig.Kind.BR
        refused(1, ld, 8, 0, 0, 256)
        for register in (-1, 255, 256, 1 << 40):
            refused(1, ld, register)
        for value in (256, -257, 1 << 16, 1 << 31, 1 << 32, -(1 << 70)):
            refused(2, ld, 7, 0, 0, value)
        refused(2, br, 8, 0, 0, -257)
        refused(3, br, 8, 0, 0, -256)
        for kind in (19, 255, 256, -1):
            refused(2, kind)

    def test_line_page_save_and_vectors(self) -> None:
        memory = fresh()
        self.refused(16, fanthrig.line, 0x14E7, bytearray(14))
        self.refused(16, fanthrig.line, 0x14E7, bytearray())
        self.refused(11, fanthrig.page, memory[1:], 0x3000, 1)
        self.refused(20, fanthrig.page, memory, 0xFFFF, 2)
        self.refused(20, fanthrig.page, memory, 0, 1 << 63)
        self.refused(16, fanthrig.page, memory, 0, 1, bytearray(5))
        self.refused(11, fanthrig.save, memory[1:], 0x3000, 1)
        self.refused(18, fanthrig.save, memory, 0xFFFF, 2)
        self.refused(18, fanthrig.save, memory, 0, 1 << 63)
        self.refused(16, fanthrig.save, memory, 0, 1, bytearray(3))
        self.refused(16, fanthrig.vectors, fanthrig.monitor_routines(), array("H", bytes(1022)))
        self.refused(11, fanthrig.monitor, memory[1:])

    def test_every_refusal_was_met(self) -> None:
        texts = {fanthrig.Refused(refusal).text for refusal in fanthrig.Refusal}
        self.assertEqual(len(texts), len(fanthrig.Refusal))


class AcceptedCalls(unittest.TestCase):
    """What calls answer beside what the doctests show."""

    def test_every_word_is_read_and_written_back(self) -> None:
        for word in range(0, 65536, 7):
            reading = fanthrig.read(word)
            self.assertEqual(fanthrig.write(reading.instruction) ^ word, reading.mask)
            self.assertEqual(fanthrig.line_length(word), len(fanthrig.line(word)) + 1)

    def test_outputs_that_are_lent_are_filled_from_their_start(self) -> None:
        memory = fresh()
        memory[0x3000:0x3002] = array("H", [0x1021, 0x0FFE])
        output = bytearray(b"." * 40)
        self.assertEqual(fanthrig.page(memory, 0x3000, 2, output), 25)
        self.assertEqual(output, b"ADD R0, R0, #1\nBRnzp #-2\n" + b"." * 15)
        output = bytearray(b"." * 8)
        self.assertEqual(fanthrig.save(memory, 0x3000, 2, output), 6)
        self.assertEqual(output, bytes.fromhex("3000 1021 0FFE") + b"..")
        self.assertEqual(fanthrig.save(memory, 0xFFFF, 0), b"\xFF\xFF")
        self.assertEqual(fanthrig.page(memory, 0xFFFF, 0), "")
        self.assertEqual(len(fanthrig.save(memory, 0, 65536)), 2 + 2 * 65536)
        self.assertEqual(fanthrig.page(memory, 0, 65536).count("\n"), 65536)

    def test_the_monitor_has_the_vectors_of_its_routines(self) -> None:
        memory, routines = fresh(), fanthrig.monitor_routines()
        fanthrig.monitor(memory)
        self.assertEqual(fanthrig.vectors(routines), memory[: fanthrig.VECTOR_WORDS])
        self.assertFalse(any(memory[fanthrig.MONITOR_WORDS :]))
        other = fresh()
        self.assertIsNone(fanthrig.vectors(routines, other))
        self.assertEqual(other[: fanthrig.VECTOR_WORDS], memory[: fanthrig.VECTOR_WORDS])

    def test_numbers_that_do_not_fit_are_never_cut(self) -> None:
        memory = fresh()
        calls: list[Callable[[Any], object]] = [fanthrig.read, fanthrig.line, fanthrig.line_length]
        for call in calls:
            for word in (-1, 65536):
                with self.assertRaisesRegex(ValueError, "word is"):
                    call(word)
            with self.assertRaisesRegex(TypeError, "whole number"):
                call(1.5)
        for name in SHORT_FIELDS:
            with self.assertRaisesRegex(ValueError, f"{name} is 65536"):
                wrong = replace(fanthrig.Record(), **{name: 65536})
                fanthrig.run(wrong, memory, NO_TIMES, b"", bytearray(), 0)
        for record in (fanthrig.Record(regs=[0] * 7), fanthrig.Record(regs=[1 << 16] + [0] * 7)):
            with self.assertRaises(ValueError):
                fanthrig.step(record, memory, NO_TIMES, b"", bytearray())
        for n in (-1, 1 << 64):
            with self.assertRaisesRegex(ValueError, "n is"):
                fanthrig.run(user(), memory, NO_TIMES, b"", bytearray(), n)

    def test_a_refused_error_survives_pickling(self) -> None:
        import pickle

        error = pickle.loads(pickle.dumps(fanthrig.Refused(15, 3, "a.obj")))
        self.assertEqual((error.number, error.index, error.subject), (15, 3, "a.obj"))


if __name__ == "__main__":
    unittest.main()
