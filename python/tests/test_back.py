"""Going back: every step of a sitting once more, what lay ahead, and which step did something."""

from __future__ import annotations

import copy
import random
import time
import unittest
from dataclasses import dataclass, field

import fanthrig
from fanthrig import At, Changed, Condition, ConditionError, Holds, Sitting, Written
from fanthrig.machine import Snapshot
from fanthrig.past import Mark
from fanthrig.routines import Over
from fanthrig.snapshots import MARK_EVERY, thinned
from fanthrig.steps import NAMES

from .reference import Simulator
from .support import COUNTING, ECHO, Words, object_file, random_keys, random_memory
from .support import random_record, simulator, sitting_of, whole_state

# Keeps counts in words, by ST, STR and STI, and calls a routine: x3000 is a loop of 10 words.
BUSY = object_file(
    0x3000,
    "ADD R1, R1, #1",
    "ST R1, #14",
    "LEA R2, #13",
    "STR R1, R2, #1",
    "STI R1, #13",
    "JSR #3",
    "AND R4, R4, #0",
    "BRnzp #-8",
    0,
    "ADD R6, R6, #-1",
    "STR R7, R6, #0",
    "ADD R5, R5, #1",
    "LDR R7, R6, #0",
    "ADD R6, R6, #1",
    "RET",
    0,
    0,
    0,
    0x4000,
)


def calling(seed: int, edition: int) -> Sitting:
    """A sitting at random code with many calls, traps, returns and branches, whose vectors lead
    into it."""
    rng = random.Random(seed)
    words = ("ADD R0, R0, #1", "AND R0, R0, #0", "ST R0, #5", "RET", "RTI")
    file = [rng.choice(words) for _ in range(20)]
    file += [f"JSR #{rng.randrange(-8, 12)}" for _ in range(8)]
    file += [f"TRAP x0{rng.randrange(4)}" for _ in range(6)]
    file += [f"BR{rng.choice(['nzp', 'p'])} #{rng.randrange(-6, 6)}" for _ in range(6)]
    rng.shuffle(file)
    code = object_file(0x3000, *file)
    mode = fanthrig.Mode.SUPERVISOR
    sitting = Sitting(code, anywhere=True, monitor=False, edition=edition, mode=mode)
    for vector in (*range(4), *range(0x100, 0x104)):
        sitting.memory[vector] = 0x3000 + rng.randrange(len(file))
    sitting["R6"] = 0x5000
    return sitting


def random_sitting(rng: random.Random, edition: int = 3) -> Sitting:
    """A sitting at a random machine, with keys at some times."""
    record = random_record(rng)
    sitting = sitting_of(record, random_memory(rng), edition)
    for at, key in zip(*random_keys(rng, record.clock, 300)):
        sitting.press(bytes([key]), at)
    return sitting


def every_state(sitting: Sitting, steps: int) -> list[tuple[object, ...]]:
    """The states of a sitting before each of so many steps and after the last, all of them."""
    states = [whole_state(sitting)]
    while len(states) <= steps and sitting.step().steps:
        states.append(whole_state(sitting))
    return states


class Back(unittest.TestCase):
    """Every step once more."""

    def test_random_programs_to_every_step(self) -> None:
        for seed in range(40):
            rng = random.Random(seed)
            sitting = random_sitting(rng, rng.choice([2, 3, 3]))
            start = sitting.clock
            states = every_state(sitting, 120)
            for place in reversed(range(len(states))):
                sitting.back_to(start + place)
                self.assertEqual(whole_state(sitting), states[place], (seed, place))
            # And in any order, forwards too.
            for place in rng.choices(range(len(states)), k=20):
                steps = start + place - sitting.clock
                sitting.run(steps) if steps > 0 else sitting.back(-steps)
                self.assertEqual(whole_state(sitting), states[place], (seed, place))

    def test_keys_and_alterations_come_again(self) -> None:
        sitting = Sitting(ECHO)
        sitting.type("abcdefghij")
        states = every_state(sitting, 150)
        sitting["R3"] = 7
        sitting.memory[0x4000] = 5
        sitting.press(b"!", sitting.clock + 30)
        states[-1:] = every_state(sitting, 150)
        sitting.type("xyz")
        states[-1:] = every_state(sitting, 300)
        typed = sitting.typed
        for clock in [*range(0, len(states), 7), *range(len(states) - 1, -1, -5)]:
            steps = clock - sitting.clock
            sitting.run(steps) if steps > 0 else sitting.back(-steps)
            self.assertEqual(whole_state(sitting), states[clock], clock)
        sitting.run(len(states) - 1 - sitting.clock)
        self.assertEqual(sitting.typed, typed)
        # What is typed and has not arrived comes as it would have.
        twin = Sitting.replay(sitting.recording())
        self.assertEqual(sitting.run(2000).steps, twin.run(2000).steps)
        self.assertEqual(whole_state(sitting), whole_state(twin))

    def test_beyond_the_start(self) -> None:
        sitting = Sitting(COUNTING)
        self.assertEqual((sitting.back(), sitting.back_over(), sitting.back_out()), (0, 0, 0))
        self.assertIsNone(sitting.run_back_to(0x3000))
        sitting.run(10)
        self.assertEqual((sitting.back(11), sitting.clock), (10, 0))
        for clock in (-1, 1, 1 << 64):
            with self.assertRaises(ValueError):
                sitting.back_to(clock)
        with self.assertRaises(ValueError):
            sitting.back(-1)

    def test_another_future(self) -> None:
        sitting = Sitting(ECHO)
        sitting.type("abc")
        report = sitting.run(1000)
        ending = str(report.ending)
        sitting["R5"] = 9
        sitting.run(10)
        sitting.back_to(sitting.keys[1].time)
        # What is altered lets the typed keys be, and forgets what was altered later.
        sitting["R4"] = 4
        sitting.run(1000)
        self.assertEqual((sitting.display, sitting["R4"], sitting["R5"]), ("abc", 4, 0))
        # What is typed takes their place.
        sitting.back_to(sitting.keys[1].time)
        sitting.type("xyz")
        sitting.run(1000)
        self.assertEqual((sitting.display, sitting["R4"]), ("axyz", 4))
        # A key that was pressed at a time stays at it.
        clock = sitting.clock
        sitting.press(b"!", clock + 5000)
        sitting.run(10)
        sitting.back(20)
        sitting["R4"] = 5
        sitting.run(6000)
        self.assertEqual(sitting.keys[-1], (clock + 5000, ord("!")))
        # Reports of what was done before tell the same as ever.
        self.assertEqual(str(report.ending), ending)

    def test_a_sitting_that_went_back_is_saved_as_it_stands(self) -> None:
        sitting = Sitting(ECHO)
        sitting.type("abcd")
        sitting.run(1000)
        sitting["R5"] = 9
        sitting.run(1)
        sitting.back_to(sitting.keys[2].time)
        again = Sitting.replay(sitting.recording())
        self.assertEqual(whole_state(again), whole_state(sitting))
        again.run(1000)
        self.assertEqual((again.display, again["R5"]), ("abcd", 0))
        other = copy.deepcopy(sitting)
        self.assertEqual((other.run(2000).shown, other.display), (2, "abcd"))
        self.assertEqual(whole_state(sitting)[2], b"ab")

    def test_back_in_a_replay(self) -> None:
        sitting = Sitting(ECHO)
        sitting.type("abcd")
        sitting.run(500)
        sitting.type("ef")
        again = Sitting.of(sitting.recording())
        again.run(300)
        again.back(250)
        again["R5"] = 1
        again.run(3000)
        self.assertEqual((again.display, again["R5"]), ("abcdef", 1))

    def test_what_is_forgotten(self) -> None:
        sitting = Sitting(object_file(0x3000, "TRAP x21", "BRnzp #-2"))
        sitting.run(1000)
        sitting.take_display(forget=True)
        with self.assertRaises(ValueError):
            sitting.back(900)
        self.assertEqual((sitting.clock, sitting.back(1)), (1000, 1))
        sitting = Sitting(COUNTING)
        for _ in range(4):
            sitting.run(MARK_EVERY)
            sitting.forget()
        self.assertLess(sitting.back(1 << 40), 4 * MARK_EVERY)
        self.assertEqual(sitting["R0"], (sitting.clock + 1) // 2 & 0xFFFF)

    def test_a_display_goes_back_too(self) -> None:
        sitting = Sitting(object_file(0x3000, "LEA R0, #2", "TRAP x22", "TRAP x25", 72, 105, 0))
        sitting.run()
        self.assertEqual((sitting.display, sitting.take_display()), ("HiHalted\n", b"HiHalted\n"))
        while sitting.display != "H":
            sitting.back()
        self.assertFalse(sitting.halted)
        sitting.run()
        self.assertEqual((sitting.display, sitting.take_display()), ("HiHalted\n", b"iHalted\n"))


class Long(unittest.TestCase):
    """Long sittings."""

    def test_back_from_100_million_steps(self) -> None:
        sitting = Sitting(BUSY)
        sitting.run(100_000_000)
        for clock in (99_999_999, 99_000_001, 77_777_777, 50_000_000, 12_345_678, 1_000_000, 3):
            twin = copy.copy(sitting)
            # The processor's time: others may be at work on this computer.
            begun = time.process_time()
            twin.back_to(clock)
            self.assertLess(time.process_time() - begun, 0.2, clock)
            # The loop has 14 steps, of which the ninth counts in R5.
            self.assertEqual(twin["R5"], (clock + 5) // 14 & 0xFFFF)
        self.assertLess(len(sitting._marks), 60)

    def test_few_snapshots_and_no_long_gap(self) -> None:
        marks = [Mark(Snapshot(0, bytes(48), b"", 0, 0), 0)]
        for place in range(1, 10_001):
            marks.append(Mark(Snapshot(place * MARK_EVERY, bytes(48), b"", 0, 0), 0))
            marks = thinned(marks)
        clocks = [mark.snapshot.clock for mark in marks]
        self.assertLess(len(marks), 100)
        self.assertEqual((clocks[0], clocks[-2:]), (0, [9_999 * MARK_EVERY, 10_000 * MARK_EVERY]))
        for one, other in zip(clocks, clocks[1:]):
            gap, since = other - one, clocks[-1] - other
            self.assertLessEqual(gap, max(MARK_EVERY, since // 8 + MARK_EVERY))


@dataclass
class Noting(Simulator):
    """The second machine, which notes at which clock each word was written last."""

    written: dict[int, int] = field(default_factory=dict)

    def store(self, address: int, value: int) -> None:
        """A store that is not denied."""
        super().store(address, value)
        self.written[address] = self.clock

    def enter(self, vector: int, pc: int, priority: int | None = None) -> None:
        """An entry, which pushes two words."""
        super().enter(vector, pc, priority)
        for address in (self.regs[6], self.regs[6] + 1 & 0xFFFF):
            self.written[address] = self.clock


class Which(unittest.TestCase):
    """Which step did something, against a look at every step."""

    def test_changes_of_registers(self) -> None:
        for seed in range(25):
            edition = 2 if seed % 4 == 3 else 3
            changed: dict[str, int] = {}
            for step in random_sitting(random.Random(seed), edition).trace(150):
                changed.update((change.name, step.clock) for change in step.changes)
            sitting = random_sitting(random.Random(seed), edition)
            sitting.run(150)
            # A trace leaves out PC where it is simply the next address.
            for name in sorted({*NAMES} - {"PC"}):
                found = sitting.last_change(name)
                self.assertEqual(found and found.clock, changed.get(name), (seed, name))
                if found is not None and found.step is not None:
                    self.assertIn(name, [change.name for change in found.step.changes])

    def test_writes_of_words(self) -> None:
        for seed in range(60):
            rng, edition = random.Random(seed), 2 if seed % 4 == 3 else 3
            record, memory = random_record(rng), random_memory(rng)
            times, keys = random_keys(rng, record.clock, 150)
            sitting = sitting_of(record, memory, edition)
            other = Noting(**vars(simulator(record, memory, edition == 2)))
            for time_, key in zip(times, keys):
                sitting.press(bytes([key]), time_)
                other.keys.append((time_, key))
            sitting.run(150)
            other.run(150)
            for address in {*other.written, 0x3000, 0x2FFF, 0xFE06, 0x4000}:
                found = sitting.last_write(address)
                self.assertEqual(found and found.clock, other.written.get(address), (seed, address))

    def test_writes_of_the_same_value(self) -> None:
        for store in ("ST R0, #7", "STR R0, R1, #0", "STI R0, #6"):
            words: Words = [store, "ADD R2, R2, #1", "ADD R2, R2, #1", "BRnzp #-4", 0, 0, 0, 0x4000]
            sitting = Sitting(object_file(0x3000, *words))
            target = 0x3008 if store.startswith("ST ") else 0x4000
            sitting["R1"] = 0x4000
            sitting.run(1003)
            found = sitting.last_write(target)
            assert found is not None and found.step is not None
            self.assertEqual((found.clock, found.step.changes), (1000, ()))
            self.assertIsNone(sitting.last_write(0x4001))

    def test_pushes_devices_and_alterations(self) -> None:
        sitting = Sitting(object_file(0x3000, "ADD R0, R0, #1", "TRAP x21", "BRnzp #-3"))
        sitting.run(1000)
        push, shown = sitting.last_write(0x2FFE), sitting.last_write(0xFE06)
        assert push is not None and push.step is not None
        assert shown is not None and shown.step is not None
        self.assertEqual((push.step.line, len(shown.step.shown)), ("TRAP x21", 1))
        clock = sitting.clock
        sitting.memory[0x5000] = 0
        sitting["R5"] = 1
        sitting.run(1)
        for found in (sitting.last_write(0x5000), sitting.last_change("R5")):
            self.assertEqual(found, (clock, None))
        self.assertEqual(str(found), f"{clock:>6}  altered from outside")

    def test_a_pointer_in_a_device_register(self) -> None:
        # STI by KBDR: the key that arrives in this very step is the address.
        sitting = Sitting(object_file(0xFDF0, "STI R0, #17"), mode=fanthrig.Mode.SUPERVISOR)
        sitting["R0"] = 7
        sitting.press(b"a", 0)
        sitting.run(1)
        self.assertEqual((sitting.memory[97], sitting.last_write(97).clock), (7, 0))  # type: ignore
        self.assertIsNone(sitting.last_write(98))

    def test_far_back(self) -> None:
        words = ["ST R0, #4", "ADD R1, R1, #1", "BRnzp #-2"]
        sitting = Sitting(object_file(0x3000, *words))
        sitting.run(5_000_000)
        found = sitting.last_write(0x3005)
        self.assertEqual(found and found.clock, 0)
        self.assertIsNone(sitting.last_change("R0"))
        sitting.run_back_to(Written(0x3005))
        self.assertEqual(sitting.clock, 0)


class Events(unittest.TestCase):
    """What a run stops at, forwards and backwards."""

    def test_forwards(self) -> None:
        sitting = Sitting(BUSY)
        event = Holds(Condition.of("R1 == 50"))
        report = sitting.run(10_000, until=[event])
        self.assertEqual((report.stop, sitting["R1"]), (fanthrig.Stop.EVENT, 50))
        self.assertIs(sitting.event, event)
        self.assertEqual(sitting.here().text, "ST R1, #14")
        at = At(0x3009, Condition.of("[x3010] == 53"))
        report = sitting.run(10_000, until=[event, at])
        self.assertIs(sitting.event, at)
        self.assertEqual((report.stop, sitting["PC"]), (fanthrig.Stop.BREAKPOINT, 0x3009))
        written = Written(0x4000)
        sitting.run(10_000, until=[written, Changed("R4")])
        self.assertIs(sitting.event, written)
        self.assertEqual(sitting.memory[0x4000], 54)
        # The run after goes on, and a breakpoint counts as well.
        sitting.breakpoints.add(0x3006)
        self.assertEqual(sitting.run(until=[written]).stop, fanthrig.Stop.BREAKPOINT)
        self.assertIsNone(sitting.event)
        self.assertIn("all steps", sitting.run(1, until=[written]).ending.text)

    def test_what_is_altered_at_the_clock_of_an_event(self) -> None:
        sitting = Sitting(BUSY)
        sitting.run(100)
        sitting["R3"] = 3
        sitting.run(100)
        sitting.back_to(90)
        sitting.run(until=[Changed("PC")])
        sitting.run(8)
        sitting.run(until=[Changed("PC")])
        self.assertEqual((sitting.clock, sitting["R3"]), (100, 3))
        self.assertEqual(repr(sitting.event), "<Changed PC>")

    def test_forwards_as_backwards(self) -> None:
        conditions = ("R1 > 30 and R5 != 31", "[x3010] = 40 or R1 == x21", "[R2+1] >= 60")
        for text in conditions:
            sitting = Sitting(BUSY)
            event = Holds(Condition.of(text))
            stops = []
            while sitting.run(3000, until=[event]).stop is fanthrig.Stop.EVENT:
                stops.append(sitting.clock)
            found = []
            while (last := sitting.run_back_to(event)) is not None:
                found.append(last.clock + 1)
            self.assertEqual(found, stops[::-1], text)
            self.assertTrue(stops)

    def test_breakpoints_backwards(self) -> None:
        sitting = Sitting(BUSY)
        sitting.breakpoints = {0x3006, 0x300E}
        stops = []
        for _ in range(5):
            sitting.run()
            stops.append(sitting.clock)
        found = []
        while (last := sitting.run_back_to()) is not None:
            found.append(last.clock)
        self.assertEqual(found, stops[-2::-1])
        # Forwards the breakpoint where it stands is passed, as after any other stop.
        sitting.run()
        self.assertEqual(sitting.clock, stops[1])

    def test_over_and_out(self) -> None:
        sitting = Sitting(BUSY)
        sitting.run(5)
        self.assertEqual((sitting.over().steps, sitting["PC"]), (7, 0x3006))
        self.assertEqual((sitting.back_over(), sitting["PC"]), (7, 0x3005))
        self.assertEqual((sitting.back_over(), sitting["PC"]), (1, 0x3004))
        sitting.run(4)
        self.assertEqual((sitting.out().steps, sitting["PC"]), (4, 0x3006))
        sitting.back(2)
        self.assertEqual((sitting.back_out(), sitting["PC"]), (5, 0x3005))
        self.assertEqual(sitting.back_out(), 0)

    def test_over_a_trap_and_a_recursion(self) -> None:
        # A routine that calls itself R0 times, and keeps R7 on the stack.
        recursive = object_file(
            0x3000,
            "JSR #1",
            "TRAP x25",
            "ADD R6, R6, #-1",
            "STR R7, R6, #0",
            "ADD R0, R0, #-1",
            "BRn #1",
            "JSR #-5",
            "LDR R7, R6, #0",
            "ADD R6, R6, #1",
            "RET",
        )
        sitting = Sitting(recursive)
        sitting["R0"] = 5
        self.assertEqual((sitting.over().stop, sitting["PC"]), (fanthrig.Stop.BREAKPOINT, 0x3001))
        self.assertEqual((sitting.back_over(), sitting.clock), (48, 0))
        sitting.run(until=[At(0x3006)])
        inner = sitting.over().steps
        self.assertEqual((sitting["PC"], sitting.back_over()), (0x3007, inner))
        sitting.run(until=[At(0x3001)])
        self.assertEqual(sitting.over().stop, fanthrig.Stop.HALTED)

    def test_many_over_are_those_one_after_the_other(self) -> None:
        compared = 0
        for seed in range(40):
            rng = random.Random(seed)
            edition, count, piece = rng.choice([2, 3]), rng.randrange(2, 30), rng.choice([7, 9999])
            sitting, other = calling(seed, edition), calling(seed, edition)
            made = 0
            while made < count and sitting.step().steps:
                over = Over(sitting.last_steps(1)[0], sitting.edition)
                if not over.made:
                    sitting.run(9999, until=[over], here=True)
                    if sitting.event is not over:
                        break
                made += 1
            if made == count:
                other.step()
                over = Over(other.last_steps(1)[0], other.edition, count)
                while other.event is not over and other.clock <= sitting.clock:
                    other.run(piece, until=[over], here=True)
                self.assertEqual((other.clock, other["PC"]), (sitting.clock, sitting["PC"]), seed)
                compared += 1
        self.assertGreater(compared, 10)

    def test_every_sign(self) -> None:
        sitting, values = Sitting(BUSY), (0, 1, -1, 61, 0x7FFF, -0x8000)
        signs = {"==": "==", "=": "==", "!=": "!=", "<": "<", "<=": "<=", ">": ">", ">=": ">="}
        for left in values:
            for right in values:
                sitting["R0"], sitting["x4000"] = left, right
                for sign, python in signs.items():
                    held = eval(f"{left} {python} {right}")
                    for text in (f"R0 {sign} [x4000]", f"R0{sign}{right}", f"{left}{sign}#{right}"):
                        self.assertEqual(Condition.of(text).holds(sitting._machine), held, text)
        # A sign between quotes is a character.
        sitting["R0"] = ord("=")
        for text in ("R0 == '='", "'=' == R0", "'<'<R0", "'=' = '=' and ' ' != R0"):
            self.assertTrue(Condition.of(text).holds(sitting._machine), text)

    def test_what_is_no_condition(self) -> None:
        texts = ("", "R0", "R9 == 1", "R0 == ", "[x4000", "R0 == 70000", "R0 = 1 and", "[R0+y] = 1")
        for text in texts:
            with self.assertRaises(ConditionError, msg=text):
                Condition.of(text)
        with self.assertRaises(ConditionError):
            Changed("R8")
        with self.assertRaises(ValueError):
            Written(70000)
