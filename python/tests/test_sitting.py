"""``Sitting``: loading, long runs, pieces, breakpoints, keys, display, alterations, the past."""

from __future__ import annotations

import copy
import os
import pickle
import random
import signal
import tempfile
import threading
import unittest
from array import array
from pathlib import Path
from time import process_time
from typing import Any

import fanthrig
from fanthrig import Refused, Sitting, Stop
from fanthrig.sitting import File

from .support import COUNTING, ECHO, Words, fresh, object_file, random_keys, random_memory
from .support import random_record, simulator, sitting_of, user, whole_state
from .timing import lines_long

THIRD, SECOND = fanthrig.Edition.THIRD, fanthrig.Edition.SECOND


class Loading(unittest.TestCase):
    """Files as paths and as bytes, and machines to start."""

    def test_paths_and_bytes(self) -> None:
        with tempfile.TemporaryDirectory() as folder:
            path = Path(folder) / "count.obj"
            path.write_bytes(COUNTING)
            files: list[File] = [path, str(path), COUNTING]
            for file in [*files, bytearray(COUNTING), memoryview(COUNTING)]:
                sitting = Sitting(file)
                self.assertEqual((sitting["PC"], sitting.memory[0x3001]), (0x3000, 0x0FFE))
            self.assertEqual(Sitting(path).programs, [fanthrig.Program(str(path), 0x3000, 2)])

    def test_refused_files_are_named(self) -> None:
        with tempfile.TemporaryDirectory() as folder:
            for content, number in ((b"", 17), (b"\x30", 17), (b"\xFF\xFF" * 3, 18)):
                path = Path(folder) / "bad.obj"
                path.write_bytes(content)
                with self.assertRaises(Refused) as caught:
                    Sitting(COUNTING, path)
                self.assertEqual(caught.exception.number, number)
                self.assertTrue(str(caught.exception).startswith(f"{path}: refused ({number})"))
            with self.assertRaises(FileNotFoundError):
                Sitting(Path(folder) / "none.obj")
            with self.assertRaises(IsADirectoryError):
                Sitting(folder)
        with self.assertRaises(Refused) as caught:
            Sitting("/dev/zero")
        self.assertEqual((caught.exception.number, caught.exception.subject), (18, "/dev/zero"))

    def test_a_refused_file_leaves_memory(self) -> None:
        sitting = Sitting()
        before = sitting.memory.words.tobytes()
        with self.assertRaises(Refused):
            sitting.load(b"\xFF\xFF" * 3)
        self.assertEqual((sitting.memory.words.tobytes(), sitting.programs), (before, []))

    def test_the_last_file_runs(self) -> None:
        sitting = Sitting(object_file(0x4000, 0xF025), COUNTING)
        self.assertEqual((sitting["PC"], sitting.memory[0x4000]), (0x3000, 0xF025))
        self.assertEqual([program.origin for program in sitting.programs], [0x4000, 0x3000])

    def test_mode_pc_stack_and_monitor(self) -> None:
        sitting = Sitting(COUNTING)
        self.assertEqual((sitting["PSR"], sitting["R6"], sitting["Saved_SSP"]),
                         (0x8002, 0xFDFF, 0x3000))
        self.assertEqual(sitting.memory[0x25], 0x026D)
        mode = fanthrig.Mode.SUPERVISOR
        sitting = Sitting(COUNTING, mode=mode, pc=0x3001, stack=0x5000, monitor=False)
        self.assertEqual((sitting["PSR"], sitting["R6"], sitting["Saved_USP"]), (2, 0x3000, 0x5000))
        self.assertEqual((sitting["PC"], sitting.memory[0x25]), (0x3001, 0))
        self.assertEqual(Sitting()["PC"], 0x3000)
        for wrong in ({"pc": 65536}, {"stack": -1}, {"edition": 4}, {"display_limit": -1}):
            with self.assertRaises(ValueError):
                Sitting(**wrong)  # type: ignore[arg-type]

    def test_start_begins_anew(self) -> None:
        sitting = Sitting(ECHO)
        sitting.type("abc")
        sitting.run(1000)
        sitting.start()
        self.assertEqual((sitting.clock, sitting.display, sitting.keys), (0, "", []))
        sitting.type("de")
        sitting.run(1000)
        self.assertEqual(sitting.display, "de")
        sitting.start(0x3001, fanthrig.Mode.SUPERVISOR, 0x5000)
        sitting.start()
        self.assertEqual((sitting["PC"], sitting["PSR"], sitting["Saved_USP"]), (0x3000, 2, 0x5000))


class Running(unittest.TestCase):
    """Steps, stops and going on."""

    def test_long_runs(self) -> None:
        sitting = Sitting(COUNTING)
        steps = 3 * fanthrig.MAX_STEPS + 5
        self.assertEqual(sitting.run(steps), fanthrig.Report(steps, 0, 0, Stop.DONE))
        self.assertEqual((sitting.clock, sitting["R0"]), (steps, (steps + 1) // 2 & 0xFFFF))

    def test_the_time_of_single_steps(self) -> None:
        # A step takes as long as 9 to 11 lines of text, which is 100,000 a second or more; it took
        # as long as 21.
        sitting, steps = Sitting(COUNTING), 20_000
        took = lines_long(lambda: [sitting.step() for _ in range(steps)])
        self.assertLess(took / steps, 15)

    def test_a_run_without_a_number_goes_on_to_the_halt(self) -> None:
        sitting = Sitting(object_file(0x3000, "ADD R0, R0, #1", "BRnp #-2", 0xF025))
        self.assertEqual(sitting.run().stop, Stop.HALTED)
        self.assertTrue(sitting.halted)
        self.assertEqual(sitting.display, "Halted\n")
        self.assertEqual(sitting.run(), fanthrig.Report(0, 0, 0, Stop.HALTED))
        self.assertEqual(sitting.run(0).stop, Stop.DONE)

    def test_steps_that_are_refused(self) -> None:
        sitting = Sitting(COUNTING)
        for steps in (fanthrig.MAX_CLOCK + 1, (1 << 64) - 1):
            with self.assertRaises(Refused) as caught:
                sitting.run(steps)
            self.assertEqual(caught.exception.number, 13)
        for wrong in (-1, 1 << 64):
            with self.assertRaises(ValueError):
                sitting.run(wrong)
        self.assertEqual(sitting.clock, 0)

    def test_the_end_of_the_clock(self) -> None:
        record = user()
        record.clock = fanthrig.MAX_CLOCK - 10
        sitting = sitting_of(record, fresh())
        self.assertEqual(sitting.run().steps, 10)
        self.assertEqual(sitting.run().steps, 0)

    def test_pieces_equal_the_whole_on_random_machines(self) -> None:
        for seed in range(60):
            for edition in (THIRD, SECOND):
                rng = random.Random(seed)
                record, memory = random_record(rng), random_memory(rng)
                times, keys = random_keys(rng, record.clock, 200)
                text = bytes(rng.getrandbits(8) for _ in range(rng.choice([0, 3])))
                sittings = [sitting_of(record, memory, edition) for _ in range(3)]
                for sitting in sittings:
                    for time, key in zip(times, keys):
                        sitting.press(bytes([key]), time)
                    sitting.type(text)
                whole, pieces, single = sittings
                stop, made = whole.run(200).stop, whole.clock - record.clock
                while pieces.clock < record.clock + made:
                    pieces.run(min(rng.randrange(50), record.clock + made - pieces.clock))
                for _ in range(made):
                    single.step()
                self.assertEqual(whole_state(pieces), whole_state(whole), seed)
                self.assertEqual(whole_state(single), whole_state(whole), seed)
                self.assertEqual(pieces.run(200 - made).stop, stop)

    def test_the_machine_is_the_second_simulator_s(self) -> None:
        for seed in range(40):
            for edition in (THIRD, SECOND):
                rng = random.Random(seed)
                record, memory = random_record(rng), random_memory(rng)
                other = simulator(record, memory, edition is SECOND)
                sitting = sitting_of(record, memory, edition)
                made, stop = other.run(150)
                traced = list(sitting.trace(150))
                self.assertEqual((len(traced), int(sitting.stop)), (made, stop), seed)
                log = [n for t in traced for n in (t.pc, t.word or 0, int(t.reason))]
                self.assertEqual(log, other.log, seed)
                self.assertEqual(b"".join(t.shown for t in traced), other.shown, seed)
                self.assertEqual(sitting.last_steps(150), [
                    fanthrig.LoggedStep(t.pc, t.word, t.reason) for t in traced
                ], seed)

    def test_interrupted_runs_are_whole(self) -> None:
        sitting = Sitting(COUNTING)
        threading.Timer(0.05, os.kill, (os.getpid(), signal.SIGINT)).start()
        with self.assertRaises(KeyboardInterrupt):
            sitting.run()
        made = sitting.clock
        self.assertEqual(sitting["R0"], (made + 1) // 2 & 0xFFFF)
        sitting.run(10)
        self.assertEqual(sitting.clock, made + 10)
        self.assertIs(signal.getsignal(signal.SIGINT), signal.default_int_handler)

    def test_a_handler_of_the_host_s_own(self) -> None:
        pressed: list[int] = []
        usual = signal.signal(signal.SIGINT, lambda number, frame: pressed.append(number))
        try:
            sitting = Sitting(COUNTING)
            threading.Timer(0.05, os.kill, (os.getpid(), signal.SIGINT)).start()
            self.assertEqual(sitting.run().stop, Stop.INTERRUPTED)
        finally:
            signal.signal(signal.SIGINT, usual)
        self.assertEqual(pressed, [signal.SIGINT])
        self.assertEqual(sitting["R0"], (sitting.clock + 1) // 2 & 0xFFFF)

    def test_threads_may_run_sittings(self) -> None:
        sittings = [Sitting(COUNTING) for _ in range(3)]
        threads = [threading.Thread(target=s.run, args=(200_000,)) for s in sittings]
        for thread in threads:
            thread.start()
        for thread in threads:
            thread.join()
        self.assertEqual({sitting["R0"] for sitting in sittings}, {100_000 & 0xFFFF})


class Breakpoints(unittest.TestCase):
    """A run stops before each of them, and skips none."""

    # R0 counts from 0 to 99 in an inner loop; x3003 is met once in a hundred rounds.
    WORDS = ["ADD R0, R0, #1", "ADD R1, R0, R2", "BRn #-3", "AND R0, R0, #0", "BRnzp #-5"]

    def sitting(self, edition: int) -> Sitting:
        sitting = Sitting(object_file(0x3000, *self.WORDS), edition=edition)
        sitting["R2"] = -100 & 0xFFFF
        return sitting

    def test_each_is_met(self) -> None:
        for edition in (THIRD, SECOND):
            sitting = self.sitting(edition)
            sitting.breakpoints = {0x3003}
            clocks = []
            for _ in range(5):
                self.assertEqual(sitting.run().stop, Stop.BREAKPOINT)
                self.assertEqual((sitting["PC"], sitting["R0"]), (0x3003, 100))
                clocks.append(sitting.clock)
            self.assertEqual(clocks, [300 + 302 * n for n in range(5)])

    def test_at_the_start_and_at_the_end_of_a_run(self) -> None:
        for edition in (THIRD, SECOND):
            sitting = self.sitting(edition)
            sitting.breakpoints = {0x3000, 0x3002}
            self.assertEqual(sitting.run(), fanthrig.Report(0, 0, 0, Stop.BREAKPOINT))
            # All steps were made: that comes first. The breakpoint is met by the run that follows.
            self.assertEqual(sitting.run(2), fanthrig.Report(2, 0, 0, Stop.DONE))
            self.assertEqual(sitting.run(2), fanthrig.Report(0, 0, 0, Stop.BREAKPOINT))
            self.assertEqual(sitting.run(2), fanthrig.Report(1, 0, 0, Stop.BREAKPOINT))
            self.assertEqual(sitting["PC"], 0x3000)
            self.assertEqual(sitting.step().steps, 1)
            sitting.breakpoints.add(0x3001)
            self.assertEqual(sitting.step(), fanthrig.Report(1, 0, 0, Stop.DONE))

    def test_the_same_as_in_single_steps_on_random_machines(self) -> None:
        met = 0
        for seed in range(80):
            for edition in (THIRD, SECOND):
                rng = random.Random(seed)
                record, memory = random_record(rng), random_memory(rng)
                times, keys = random_keys(rng, record.clock, 300)
                fast, slow = (sitting_of(record, memory, edition) for _ in range(2))
                for sitting in (fast, slow):
                    sitting.press(keys, int(times[-1])) if keys else None
                    sitting.type("xy")
                places = {0x3005, 0x3001, 0x4000, 0x0200, 0xFE00}
                fast.breakpoints = places
                end = record.clock + 300
                while fast.clock < end:
                    stop = fast.run(end - fast.clock).stop
                    while slow.clock < fast.clock:
                        at_start = slow.clock
                        slow.step()
                        inside = at_start < slow.clock < fast.clock
                        self.assertFalse(inside and slow["PC"] in places, seed)
                    if stop is not Stop.BREAKPOINT:
                        break
                    met += 1
                    self.assertIn(fast["PC"], places)
                self.assertEqual(whole_state(fast), whole_state(slow), seed)
        self.assertGreater(met, 500)

    def test_far_off(self) -> None:
        words = ["ADD R0, R0, #1", "BRnp #-2", "ADD R1, R1, #1", "BRnzp #-4"]
        sitting = Sitting(object_file(0x3000, *words))
        sitting.breakpoints.add(0x3002)
        for round_ in range(1, 4):
            self.assertEqual(sitting.run().stop, Stop.BREAKPOINT)
            self.assertEqual((sitting["PC"], sitting["R1"]), (0x3002, round_ - 1))

    def test_addresses_that_are_none(self) -> None:
        sitting = Sitting(COUNTING)
        for wrong in (-1, 65536):
            with self.assertRaisesRegex(ValueError, "a breakpoint is"):
                sitting.breakpoints = {0x3000, wrong}
            with self.assertRaisesRegex(ValueError, "a breakpoint is"):
                sitting.breakpoints.add(wrong)
        self.assertEqual(sitting.breakpoints, set())

    def test_they_are_a_set(self) -> None:
        sitting = Sitting(COUNTING)
        sitting.breakpoints |= {0x3001, 0x3000}
        sitting.breakpoints.remove(0x3000)
        self.assertEqual((sitting.breakpoints, repr(sitting.breakpoints)), ({0x3001}, "{x3001}"))
        self.assertEqual(sitting.breakpoints & {0x3001, 5}, {0x3001})
        with self.assertRaises(KeyError):
            sitting.breakpoints.remove(0x3000)
        sitting.breakpoints.clear()
        self.assertFalse(sitting.breakpoints)

    def test_a_trace_stops_there_too(self) -> None:
        sitting = self.sitting(THIRD)
        sitting.breakpoints = {0x3002}
        self.assertEqual([step.pc for step in sitting.trace(10)], [0x3000, 0x3001])
        self.assertEqual(sitting.stop, Stop.BREAKPOINT)
        self.assertEqual([step.pc for step in sitting.trace(2)], [0x3002, 0x3000])
        self.assertEqual(sitting.stop, Stop.DONE)


class Keyboard(unittest.TestCase):
    """Typed text, a key at a time."""

    def test_a_key_arrives_when_the_last_was_read(self) -> None:
        # It waits 5,000 steps between two keys: LDI R0, KBSR; BRzp; LDI R0, KBDR; count down.
        words: Words = ["LDI R0, #8", "BRzp #-2", "LDI R0, #7", "ADD R2, R2, R0", "LD R1, #6"]
        words += ["ADD R1, R1, #-1", "BRp #-2", "ADD R3, R3, #1", "BRnzp #-9"]
        words += [0xFE00, 0xFE02, 2500]
        sitting = Sitting(object_file(0x3000, *words), mode=fanthrig.Mode.SUPERVISOR)
        sitting.type(bytes(range(1, 11)))
        for _ in range(60_000):
            before = sitting.record
            if sitting.step().keys:
                self.assertFalse(before.kbsr & 0x8000, "a key replaced one that was not read")
        self.assertEqual((sitting["R2"], sitting["R3"], sitting.typed), (55, 10, b""))
        times = [key.time for key in sitting.keys]
        for earlier, later in zip(times, times[1:]):
            # It is read as soon as the program comes round, and found out soon after.
            self.assertLess(later - earlier, 5100 * 9 // 8)

    def test_when_the_keyboard_is_looked_at(self) -> None:
        # R1 counts down from a number, then KBDR is loaded once: at step 2 * number + 1.
        words: Words = ["LD R1, #5", "ADD R1, R1, #-1", "BRp #-2", "LDI R0, #3", "BRnzp #-1"]
        words += [0, 0, 0xFE02]
        for number in (1, 15, 16, 100, 1000, 30_000):
            words[6] = number
            sitting = Sitting(object_file(0x3000, *words), mode=fanthrig.Mode.SUPERVISOR)
            sitting.type("ab")
            sitting.run(100_000)
            # As the docstring of Sitting has it: 32 steps after a key, then an eighth more each.
            look = 32
            while look < 2 * number + 2:
                look += max(32, look // 8)
            self.assertEqual([key.time for key in sitting.keys], [0, look])

    def test_pieces_of_any_size_make_no_difference(self) -> None:
        text = "to be, or not to be"
        whole = Sitting(ECHO)
        whole.type(text)
        whole.run(3000)
        self.assertEqual(whole.display, text)
        for seed in range(20):
            rng, pieces = random.Random(seed), Sitting(ECHO)
            pieces.type(text)
            while pieces.clock < 3000:
                pieces.run(min(rng.choice([1, 2, 31, 33, 100]), 3000 - pieces.clock))
            self.assertEqual(whole_state(pieces), whole_state(whole))

    def test_text_typed_while_it_runs(self) -> None:
        sitting = Sitting(ECHO)
        for letter in "interactive":
            sitting.run(200)
            self.assertTrue(sitting.waits())
            sitting.type(letter)
            self.assertFalse(sitting.waits())
            # It waits for a key: the key arrives in the very next step.
            self.assertEqual(sitting.run(1).keys, 1)
        sitting.run(200)
        self.assertEqual(sitting.display, "interactive")

    def test_a_million_keys_are_pressed_at_once(self) -> None:
        sitting, keys = Sitting(ECHO), random.Random(1).randbytes(1 << 20)
        begun = process_time()
        sitting.press(keys, 1000)
        sitting.press(b"first", 1000 - 1)
        sitting.press(b"last", 1000)
        self.assertLess(process_time() - begun, 5)
        recorded = bytes(byte for _, byte in sitting.recording().keys)
        self.assertEqual(recorded, b"first" + keys + b"last")

    def test_pressed_keys_come_at_their_times(self) -> None:
        sitting = Sitting(ECHO)
        sitting.press(b"b", 500)
        sitting.press(b"a", 100)
        sitting.press(b"xc", 900)
        sitting.run(2000)
        self.assertEqual(sitting.keys, [(100, 97), (500, 98), (900, 120), (900, 99)])
        self.assertEqual(sitting.display, "abc")
        with self.assertRaises(Refused) as caught:
            sitting.press(b"d", 1999)
        self.assertEqual(caught.exception.number, 15)

    def test_what_can_be_typed(self) -> None:
        sitting = Sitting(ECHO)
        sitting.type("")
        sitting.type("\xe9\x00")
        sitting.type(b"\x80")
        sitting.type(os.fsdecode(b"\xff"))
        sitting.run(2000)
        self.assertEqual(sitting.display_bytes, b"\xc3\xa9\x00\x80\xff")
        with self.assertRaises(UnicodeEncodeError):
            sitting.type("\ud800")
        for wrong in (5, None, [1]):
            with self.assertRaises(TypeError):
                sitting.type(wrong)  # type: ignore[arg-type]
            with self.assertRaises(TypeError):
                sitting.press(wrong, 5000)  # type: ignore[arg-type]

    def test_steps_traced_at_once_are_those_of_a_trace(self) -> None:
        keys, none = bytes(range(40)), set[int]()
        for breakpoints in (none, {0x0204}):
            one, other = Sitting(ECHO), Sitting(ECHO)
            told: list[fanthrig.TracedStep] = []
            for sitting in (one, other):
                sitting.type(keys)
                sitting.breakpoints = breakpoints
            while len(told) < 3000:
                told += other.trace_at_once(min(777, 3000 - len(told)))
            traced: list[fanthrig.TracedStep] = []
            while len(traced) < 3000:
                traced += one.trace(3000 - len(traced))
            self.assertEqual(told, traced)
            self.assertEqual(one.record, other.record)

    def test_waiting(self) -> None:
        self.assertFalse(Sitting(COUNTING).waits())
        sitting = Sitting(object_file(0x3000, 0xF025))
        sitting.run()
        self.assertFalse(sitting.waits())
        # An endless loop waits for nothing, whether a key is there to be read or not.
        sitting = Sitting(object_file(0x3000, "BRnzp #-1"))
        for typed in ("", "a", "b"):
            sitting.type(typed)
            sitting.run(100)
            self.assertEqual((sitting.waits(), sitting.idle()), (False, fanthrig.EndKind.LOOP))
        # A loop that leaves its registers as they were and counts in memory.
        words: Words = ["LD R0, #5", "ADD R0, R0, #1", "ST R0, #3", "AND R0, R0, #0", "BRnzp #-5"]
        words += [0, 0]
        sitting = Sitting(object_file(0x3000, *words))
        self.assertFalse(sitting.waits())


class Display(unittest.TestCase):
    """It grows, or it is limited."""

    # For ever: wait for DSR, then show R0's low byte and count on.
    WORDS: Words = ["LDI R1, #4", "BRzp #-2", "STI R0, #3", "ADD R0, R0, #1", "BRnzp #-5"]

    def sitting(self, display_limit: int | None = None) -> Sitting:
        file = object_file(0x3000, *self.WORDS, 0xFE04, 0xFE06)
        mode = fanthrig.Mode.SUPERVISOR
        return Sitting(file, mode=mode, monitor=False, display_limit=display_limit)

    def test_what_is_taken_may_be_forgotten(self) -> None:
        whole, sitting, taken = self.sitting(), self.sitting(), b""
        whole.run(300_000)
        for _ in range(30):
            sitting.run(10_000)
            taken += sitting.take_display(forget=True)
        self.assertGreater(len(taken), 20_000)
        self.assertEqual((taken, sitting.display), (whole.display_bytes, ""))
        self.assertLess(len(sitting._machine.output), 10_000)
        # The recording is that of the whole, and so is that of a copy.
        self.assertEqual(sitting.recording().end, whole.recording().end)
        self.assertEqual(sitting.last_steps(50), whole.last_steps(50))
        for other in (copy.copy(sitting), copy.deepcopy(sitting)):
            other.run(1000)
            other.take_display(forget=True)
            self.assertEqual(sitting.recording().end, whole.recording().end)
        self.assertRaisesRegex(TypeError, "forgotten its display", pickle.dumps, sitting)
        sitting.display_limit = len(taken) + 3
        self.assertEqual(sitting.run().stop, fanthrig.Stop.OUTPUT_FULL)
        self.assertEqual(len(sitting.display_bytes), 3)
        sitting.start()
        self.assertEqual((sitting.display, sitting.run(1000).shown > 10), ("", True))

    def test_what_lies_far_back_may_be_forgotten(self) -> None:
        keys = bytes(range(1, 251)) * 400
        whole, sitting = Sitting(ECHO), Sitting(ECHO)
        whole.type(keys)
        sitting.type(keys)
        for _ in range(40):
            self.assertEqual(whole.run(100_000), sitting.run(100_000))
            sitting.forget()
        self.assertEqual(sitting.record, whole.record)
        self.assertLess(len(sitting.keys), len(whole.keys))
        self.assertEqual(sitting.keys, whole.keys[-len(sitting.keys) :])
        self.assertEqual(sitting.last_steps(1000), whole.last_steps(1000))
        self.assertEqual(sitting.ending, whole.ending)
        self.assertRaises(ValueError, sitting.recording)
        sitting.start()
        self.assertEqual(sitting.recording().steps, 0)

    def test_it_grows(self) -> None:
        sitting = self.sitting()
        expected = bytes(n & 0xFF for n in range(10_000))
        self.assertEqual(sitting.run(9_999 * 11 + 3).shown, 10_000)
        self.assertEqual(sitting.display_bytes, expected)
        self.assertEqual(sitting.display, expected.decode("latin-1"))

    def test_it_is_taken_as_it_comes(self) -> None:
        sitting, taken = self.sitting(), b""
        for _ in range(100):
            sitting.run(500)
            part = sitting.take_display()
            self.assertTrue(part)
            taken += part
        self.assertEqual((taken, sitting.take_display()), (sitting.display_bytes, b""))

    def test_a_limit_stops_the_run(self) -> None:
        for limit in (0, 1, 4095, 4096, 4097, 5000):
            sitting = self.sitting(display_limit=limit)
            self.assertEqual(sitting.run().stop, Stop.OUTPUT_FULL)
            self.assertEqual(len(sitting.display), limit)
            self.assertEqual(sitting.run(), fanthrig.Report(0, 0, 0, Stop.OUTPUT_FULL))
            sitting.display_limit = limit + 3
            self.assertEqual(sitting.run().shown, 3)
            sitting.display_limit = None
            self.assertEqual(sitting.run(1000).stop, Stop.DONE)

    def test_limits_with_breakpoints_and_traces(self) -> None:
        sitting = self.sitting(display_limit=20)
        sitting.breakpoints = {0x3100}
        self.assertEqual((sitting.run().stop, len(sitting.display)), (Stop.OUTPUT_FULL, 20))
        sitting = self.sitting(display_limit=2)
        shown = b"".join(step.shown for step in sitting.trace(1000))
        self.assertEqual((shown, sitting.stop), (b"\0\1", Stop.OUTPUT_FULL))
        sitting = self.sitting()
        sitting.breakpoints = {0x3100}
        self.assertEqual(sitting.run(66_000).shown, 6000)


class Altering(unittest.TestCase):
    """Registers by name and memory by address."""

    def test_registers_by_name(self) -> None:
        sitting = Sitting(COUNTING)
        values = {f"R{n}": n * 3 for n in range(8)}
        values.update(PC=0x4000, PSR=0x0701, Saved_SSP=1, Saved_USP=2, KBSR=0xC000, KBDR=0xFF)
        values.update(MCR=0, TSR=0x4000, TIR=9)
        for name, value in values.items():
            sitting[name.lower()] = value
        for name, value in values.items():
            self.assertEqual(sitting[name], value)
        self.assertEqual(sitting.record.timer_count, 9)
        sitting["TIR"] = 0
        self.assertEqual(sitting.record.timer_count, 0)

    def test_negative_numbers_are_two_s_complements(self) -> None:
        sitting = Sitting(COUNTING)
        sitting["R0"], sitting["x4000"], sitting.memory[0x4001] = -1, -32768, -2
        sitting.memory[0x4002:0x4004] = [-3, 3]
        self.assertEqual((sitting["R0"], sitting.memory[0x4000]), (0xFFFF, 0x8000))
        self.assertEqual(sitting.memory[0x4001:0x4004], [0xFFFE, 0xFFFD, 3])
        with self.assertRaises(Refused):
            sitting["PSR"] = -1

    def test_words_by_name(self) -> None:
        sitting = Sitting(COUNTING)
        self.assertEqual((sitting["x3000"], sitting["X3001"]), (0x1021, 0x0FFE))
        sitting["xfffF"] = "TRAP x25"
        self.assertEqual((sitting["xFFFF"], sitting.memory[0xFFFF]), (0xF025, 0xF025))
        sitting.run(1)
        sitting["x4000"] = 7
        self.assertEqual(Sitting.replay(sitting.recording()).memory[0x4000], 7)

    def test_memory_keeps_its_place(self) -> None:
        sitting = Sitting(COUNTING)
        with self.assertRaises(BufferError):
            sitting._machine.words.append(0)

    def test_what_no_register_takes(self) -> None:
        sitting = Sitting(COUNTING)
        before = sitting.record
        for register, value in {"PSR": 8, "KBSR": 1, "KBDR": 256, "MCR": 1, "TSR": 1}.items():
            with self.assertRaises(Refused) as caught:
                sitting[register] = value
            self.assertEqual(caught.exception.number, 12)
        for value in (-32769, 65536):
            with self.assertRaisesRegex(ValueError, "R0 is .* from -32768 to 65535"):
                sitting["R0"] = value
            with self.assertRaisesRegex(ValueError, "a word is .* from -32768 to 65535"):
                sitting["x3000"] = value
        wrong: list[Any] = ["R8", "", "clock", "DSR", "x300", "x10000", "3000", "x300G"]
        for name in [*wrong, None, 0x3000]:
            with self.assertRaises(KeyError):
                sitting[name]
            with self.assertRaises(KeyError):
                sitting[name] = 0
        self.assertEqual(sitting.record, before)

    def test_memory_by_address(self) -> None:
        memory = Sitting(COUNTING).memory
        self.assertEqual(memory[0x3000:0x3002], [0x1021, 0x0FFE])
        memory[0x3000:0x3002] = ["not r0, r0", 5]
        self.assertEqual((memory[0x3000], memory.line(0x3001)), (0x903F, ".FILL x0005"))
        memory[0xFFFF] = 0xABCD
        self.assertEqual((memory[0xFFFF:], len(memory)), ([0xABCD], 65536))
        self.assertEqual(list(memory)[0xFFFF:], [0xABCD])
        self.assertEqual(memory.words[0xFFFF], 0xABCD)
        with self.assertRaises(TypeError):
            memory.words[0] = 1
        for address in (-1, 65536):
            with self.assertRaises(IndexError):
                memory[address]
            with self.assertRaises(IndexError):
                memory[address] = 0
        memory[0x3000] = "HALT"
        self.assertEqual(memory.line(0x3000), "TRAP x25")
        with self.assertRaises(fanthrig.LineError):
            memory[0x3000] = "STOP"
        with self.assertRaisesRegex(ValueError, "3 words are given for a range of 2"):
            memory[0x3000:0x3002] = [1, 2, 3]
        with self.assertRaises(ValueError):
            memory[0x3000:0x3004:2]
        with self.assertRaises(IndexError):
            memory[5:3]

    def test_lines(self) -> None:
        sitting = Sitting(COUNTING)
        lines = sitting.lines(0x3000, 2)
        self.assertEqual(lines, [(0x3000, 0x1021, "ADD R0, R0, #1"), (0x3001, 0x0FFE, "BRnzp #-2")])
        self.assertEqual(sitting.here(), lines[0])
        self.assertEqual(len(sitting.lines(0, 65536)), 65536)
        self.assertEqual(sitting.lines(0xFFFF, 0), [])
        with self.assertRaises(Refused) as caught:
            sitting.lines(0xFFFF, 2)
        self.assertEqual(caught.exception.number, 20)


class ThePast(unittest.TestCase):
    """The log of the last steps, and what each step of a trace changed."""

    def test_the_last_steps_of_a_long_run(self) -> None:
        words = ["ADD R0, R0, #1", "BRnp #-2", "ADD R1, R1, #1", "BRnzp #-4"]
        sitting = Sitting(object_file(0x3000, *words))
        sitting.run(9_000_001)
        before = whole_state(sitting)
        expected = Sitting(object_file(0x3000, *words))
        expected.run(9_000_001 - 50)
        steps = [fanthrig.LoggedStep(t.pc, t.word, t.reason) for t in expected.trace(50)]
        self.assertEqual(sitting.last_steps(50), steps)
        self.assertEqual(whole_state(sitting), before)
        self.assertEqual(whole_state(expected), before)
        sitting.run(5)
        self.assertEqual(len(sitting.last_steps(70)), 70)

    def test_fewer_steps_than_asked_for(self) -> None:
        sitting = Sitting(COUNTING)
        self.assertEqual(sitting.last_steps(10), [])
        sitting.run(3)
        self.assertEqual([step.pc for step in sitting.last_steps(10)], [0x3000, 0x3001, 0x3000])
        self.assertEqual(sitting.last_steps(0), [])

    def test_alterations_are_part_of_it(self) -> None:
        sitting = Sitting(COUNTING)
        sitting.run(4)
        sitting.memory[0x3000] = "ADD R0, R0, #2"
        sitting.run(2)
        sitting["PC"] = 0x3000
        sitting.run(2)
        words = [step.word for step in sitting.last_steps(6)]
        self.assertEqual(words, [0x1021, 0x0FFE, 0x1022, 0x0FFE, 0x1022, 0x0FFE])

    def test_a_trace_names_every_change(self) -> None:
        kinds = set()
        for seed in range(150):
            rng = random.Random(seed)
            edition = rng.choice([THIRD, SECOND])
            sitting = sitting_of(random_record(rng), random_memory(rng), edition)
            sitting.type(bytes([rng.getrandbits(8)]))
            record, words = sitting.record, sitting.memory.words.tobytes()
            for step in sitting.trace(25):
                after, changed = sitting.record, sitting.memory.words.tobytes()
                expected = {f"R{n}" for n in range(8) if record.regs[n] != after.regs[n]}
                for name, field in (("PSR", "psr"), ("Saved_SSP", "saved_ssp"), ("MCR", "mcr"),
                                    ("Saved_USP", "saved_usp"), ("KBSR", "kbsr"), ("KBDR", "kbdr"),
                                    ("TSR", "timer_status"), ("TIR", "timer_interval")):
                    if getattr(record, field) != getattr(after, field):
                        expected.add(name)
                if after.pc != (record.pc + 1) & 0xFFFF and after.pc != record.pc:
                    expected.add("PC")
                if changed != words:
                    pairs = enumerate(zip(array("H", words), array("H", changed)))
                    expected |= {f"x{at:04X}" for at, (old, new) in pairs if old != new}
                self.assertEqual({change.name for change in step.changes}, expected, seed)
                self.assertTrue(str(step))
                record, words = after, changed
                kinds.add(step.reason)
        self.assertEqual(kinds, set(fanthrig.Reason))


if __name__ == "__main__":
    unittest.main()
