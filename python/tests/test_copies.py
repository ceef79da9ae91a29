"""Copies of a sitting: they stand where it stands, with its past, and go their own way."""

from __future__ import annotations

import copy
import pickle
import random
import unittest
from functools import partial
from typing import Callable
from unittest import mock

import fanthrig
from fanthrig import Sitting

from .support import COUNTING, ECHO, object_file, random_keys, random_memory, random_record
from .support import sitting_of, whole_state


def pickled(sitting: Sitting, protocol: int) -> Sitting:
    """A copy of a sitting by a protocol of pickle."""
    made = pickle.loads(pickle.dumps(sitting, protocol))
    assert isinstance(made, Sitting)
    return made


COPIES: dict[str, Callable[[Sitting], Sitting]] = {"copy": copy.copy, "deepcopy": copy.deepcopy}
for _protocol in range(pickle.HIGHEST_PROTOCOL + 1):
    COPIES[f"pickle {_protocol}"] = partial(pickled, protocol=_protocol)

MAKERS: tuple[Callable[[object], object], ...] = (copy.copy, copy.deepcopy, pickle.dumps)


def everything(sitting: Sitting) -> tuple[object, ...]:
    """All that can be seen of a sitting, its past included."""
    seen = (sitting.typed, sitting.programs, sitting.stop, sitting.display_limit)
    past = (sitting.last_steps(50), sitting.ending, sitting.recording().to_json())
    return (*whole_state(sitting), *seen, *past, set(sitting.breakpoints), sitting.edition)


class Copies(unittest.TestCase):
    """Equal and independent, whatever makes them."""

    def check(self, sitting: Sitting, steps: int = 500) -> None:
        """That copies are equal, run as the sitting does, and leave it alone."""
        before = everything(sitting)
        copies = {name: make(sitting) for name, make in COPIES.items()}
        for name, made in copies.items():
            with self.subTest(name):
                self.assertEqual(everything(made), before)
                made.run(steps)
                made.step()
        self.assertEqual(everything(sitting), before)
        sitting.run(steps)
        sitting.step()
        after = everything(sitting)
        for name, made in copies.items():
            with self.subTest(name):
                self.assertEqual(everything(made), after)
                self.assertEqual(everything(Sitting.replay(made.recording())), everything(
                    Sitting.replay(sitting.recording())
                ))

    def test_typed_text_keys_and_display(self) -> None:
        sitting = Sitting(ECHO)
        sitting.type("to be, or not to be")
        sitting.press(b"late", 5000)
        sitting.run(300)
        self.assertTrue(sitting.typed and sitting.display)
        self.check(sitting, 6000)

    def test_before_the_first_step_and_after_the_halt(self) -> None:
        self.check(Sitting(COUNTING))
        sitting = Sitting(object_file(0x3000, 0xF025))
        sitting.run()
        self.check(sitting)

    def test_alterations_and_a_long_past(self) -> None:
        sitting = Sitting(COUNTING)
        sitting.run(1000)
        sitting["R3"], sitting.memory[0x4000] = 5, 7
        sitting.load(object_file(0x5000, 1, 2, 3), name="data.obj")
        sitting.run(3_000_000)
        self.check(sitting)

    def test_breakpoints_and_limits(self) -> None:
        sitting = Sitting(ECHO, display_limit=3)
        sitting.breakpoints = {0x3001}
        sitting.type("abcdef")
        sitting.run()
        self.assertIs(sitting.stop, fanthrig.Stop.BREAKPOINT)
        self.check(sitting, 3000)

    def test_in_the_middle_of_a_replay(self) -> None:
        first = Sitting(ECHO)
        first.type("abc")
        first.run(500)
        first["R5"] = 9
        first.run(500)
        replay = Sitting.of(first.recording())
        replay.run(300)
        self.check(replay, 700)

    def test_random_machines(self) -> None:
        for seed in range(10):
            rng = random.Random(seed)
            edition = rng.choice(list(fanthrig.Edition))
            sitting = sitting_of(random_record(rng), random_memory(rng), edition)
            times, keys = random_keys(rng, sitting.clock, 200)
            for time, key in zip(times, keys):
                sitting.press(bytes([key]), time)
            sitting.run(100)
            self.check(sitting, 100)

    def test_each_goes_its_own_way(self) -> None:
        for name, make in COPIES.items():
            with self.subTest(name):
                sitting = Sitting(ECHO)
                sitting.type("ab")
                sitting.run(300)
                before, made = everything(sitting), make(sitting)
                made["R0"], made.memory[0x3000] = 77, "HALT"
                made.type("more")
                made.press(b"x", 10_000)
                made.breakpoints.add(0x3002)
                made.programs.append(fanthrig.Program("", 0, 0))
                made.display_limit = 9
                made.run(100)
                self.assertEqual(everything(sitting), before)
                made.start()
                self.assertEqual((made.clock, made.display), (0, ""))
                self.assertEqual(everything(sitting), before)

    def test_what_was_taken_of_the_display(self) -> None:
        sitting = Sitting(ECHO)
        sitting.type("ab")
        sitting.run(200)
        self.assertEqual(sitting.take_display(), b"ab")
        sitting.type("c")
        sitting.run(200)
        for make in COPIES.values():
            self.assertEqual(make(sitting).take_display(), b"c")
        self.assertEqual(sitting.take_display(), b"c")

    def test_a_sitting_that_forgets(self) -> None:
        sitting = Sitting(ECHO)
        for letter in b"abcd":
            sitting.type(bytes([letter]))
            sitting.run(1 << 20)
            sitting.take_display(forget=True)
            sitting.forget()
        sitting.type("e")
        sitting.run(200)
        copies = [copy.copy(sitting), copy.deepcopy(sitting)]
        for one in [*copies, sitting]:
            self.assertEqual((one.take_display(), one.display, one.clock), (b"e", "e", 4194504))
            one.type("f")
            one.run(200)
            self.assertEqual(one.take_display(), b"f")
        for made in copies:
            self.assertEqual(whole_state(made), whole_state(sitting))
            self.assertEqual(made.last_steps(50), sitting.last_steps(50))
        with self.assertRaisesRegex(TypeError, "has forgotten its display can't be pickled"):
            pickle.dumps(sitting)

    def test_pickles_of_another_version_are_refused(self) -> None:
        with mock.patch("fanthrig.sitting.__version__", "0.0.9"):
            other = pickle.dumps(Sitting(COUNTING))
        expected = f"pickled by version 0.0.9 of fanthrig, and this is {fanthrig.__version__}"
        with self.assertRaisesRegex(ValueError, expected):
            pickle.loads(other)

    def test_memory_and_breakpoints_belong_to_their_sitting(self) -> None:
        sitting = Sitting(COUNTING)
        for part in (sitting.memory, sitting.breakpoints):
            for make in MAKERS:
                with self.assertRaisesRegex(TypeError, "part of (its|a) sitting"):
                    make(part)


if __name__ == "__main__":
    unittest.main()
