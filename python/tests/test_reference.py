"""Random runs against a second simulator, in both editions, with keys, logs and full outputs."""

from __future__ import annotations

import random
import unittest
from array import array

import fanthrig

from .support import random_keys, random_memory, random_record, record_of, simulator

RUNS, STEPS = 250, 60


class RandomRuns(unittest.TestCase):
    """What the calls answer and leave is what the second simulator does."""

    def check(self, seed: int, second: bool) -> int:
        """One random run; answers its stop."""
        rng = random.Random(seed)
        memory, record = random_memory(rng), random_record(rng)
        times, keys = random_keys(rng, record.clock, STEPS)
        other = simulator(record, memory, second)
        other.keys, other.room = list(zip(times, keys)), rng.choice([0, 1, 3, 100])
        output = bytearray(other.room)
        steps, stop = other.run(STEPS)
        run = fanthrig.run_second if second else fanthrig.run
        ran = run(record, memory, times, keys, output, STEPS)
        self.assertEqual((ran.steps, int(ran.stop)), (steps, stop), seed)
        self.assertEqual(ran.record, record_of(other), seed)
        self.assertEqual(output[: ran.shown], other.shown, seed)
        self.assertEqual(ran.keys, len(times) - len(other.keys), seed)
        self.assertTrue(memory.tolist() == other.words, seed)
        return stop

    def test_runs_by_the_third_edition(self) -> None:
        stops = {self.check(seed, second=False) for seed in range(RUNS)}
        self.assertEqual(stops, {0, 1, 2})

    def test_runs_by_the_second_edition(self) -> None:
        stops = {self.check(seed, second=True) for seed in range(RUNS)}
        self.assertEqual(stops, {0, 1, 2})

    def test_logged_runs(self) -> None:
        reasons = set()
        for seed in range(RUNS):
            rng = random.Random(~seed)
            memory, record = random_memory(rng), random_record(rng)
            times, keys = random_keys(rng, record.clock, STEPS)
            other = simulator(record, memory)
            other.keys = list(zip(times, keys))
            other.run(STEPS)
            log = array("H", bytes(6 * STEPS))
            ran = fanthrig.run_logged(record, memory, times, keys, bytearray(STEPS), log, STEPS)
            self.assertEqual(log[: ran.logged].tolist(), other.log, seed)
            self.assertEqual(ran.record, record_of(other), seed)
            reasons |= {step.reason for step in fanthrig.logged_steps(log[: ran.logged])}
        self.assertEqual(reasons, set(fanthrig.Reason))

    def test_single_steps_equal_a_run(self) -> None:
        for seed in range(60):
            for run, step in (
                (fanthrig.run, fanthrig.step),
                (fanthrig.run_second, fanthrig.step_second),
            ):
                rng = random.Random(seed)
                memory, record = random_memory(rng), random_record(rng)
                times, keys = random_keys(rng, record.clock, STEPS)
                whole = memory[:]
                expected = run(record, whole, times, keys, bytearray(STEPS), STEPS)
                arrived, output = 0, bytearray()
                for _ in range(expected.steps):
                    byte = bytearray(1)
                    report = step(record, memory, times[arrived:], keys[arrived:], byte)
                    arrived += report.keys
                    output += byte[: report.shown]
                self.assertEqual((record, memory), (expected.record, whole), seed)
                self.assertEqual((arrived, len(output)), (expected.keys, expected.shown), seed)


if __name__ == "__main__":
    unittest.main()
