"""The module against the stored runs of the reference simulator: host/tests/stored.rs says how they
are written down, and holds the file against the simulator."""

from __future__ import annotations

import random
import unittest
from array import array
from typing import Any, NamedTuple

import fanthrig
from fanthrig.records import SHORT_FIELDS

from . import ROOT
from .support import sitting_of

FILE = ROOT / "host/tests/reference/runs.txt"


class Stored(NamedTuple):
    """One stored run: what is lent, and what the reference answers and leaves."""

    edition: fanthrig.Edition
    record: fanthrig.Record
    memory: array[int]
    times: array[int]
    keys: bytes
    output: bytes
    n: int
    answer: tuple[int, ...]
    after: fanthrig.Record
    words: array[int]
    left: bytes
    log: list[int]

    @property
    def refused(self) -> bool:
        """Whether the reference turns the run down."""
        return self.answer[0] != 0


def parts(text: str) -> list[str]:
    """The items of a list."""
    return text.split(",") if text else []


def record(text: str) -> fanthrig.Record:
    """A record of the file: words, and the clock."""
    *words, clock = parts(text)
    numbers = [int(word, 16) for word in words]
    shorts = dict(zip(SHORT_FIELDS, numbers[8:]))
    return fanthrig.Record(regs=numbers[:8], clock=int(clock), **shorts)


def planted(memory: array[int], text: str) -> array[int]:
    """A copy of memory with words planted; those outside it are left out."""
    copy = memory[:]
    for address, word in (item.split(":") for item in parts(text)):
        if int(address, 16) < len(copy):
            copy[int(address, 16)] = int(word, 16)
    return copy


TEMPLATE = array("H", [(at * 0x9E37 + 0x79B9) & 0xFFFF for at in range(fanthrig.MEMORY_WORDS + 1)])


def stored(line: str) -> Stored:
    """The run of a line."""
    part = dict(item.split("=") for item in line.split(" "))
    memory = planted(TEMPLATE[: int(part["length"])], part["words"])
    return Stored(
        fanthrig.Edition(int(part["edition"])),
        record(part["record"]),
        memory,
        array("Q", map(int, parts(part["times"]))),
        bytes.fromhex(part["bytes"]),
        bytes.fromhex(part["output"]),
        int(part["n"]),
        tuple(map(int, parts(part["answer"]))),
        record(part["after"]),
        planted(memory, part["changed"]),
        bytes.fromhex(part["left"]),
        [int(word, 16) for word in parts(part["log"])],
    )


# The calls that make a run by each edition.
CALLS = {
    fanthrig.Edition.THIRD: [fanthrig.run, fanthrig.run_long],
    fanthrig.Edition.SECOND: [fanthrig.run_second],
}

# The calls that log one.
LOGGED = {
    fanthrig.Edition.THIRD: fanthrig.run_logged,
    fanthrig.Edition.SECOND: fanthrig.run_logged_second,
}

# The calls that make a step and tell of it.
STEPS: dict[fanthrig.Edition, tuple[Any, Any]] = {
    fanthrig.Edition.THIRD: (fanthrig.step, fanthrig.tell),
    fanthrig.Edition.SECOND: (fanthrig.step_second, fanthrig.tell_second),
}

RUNS = [stored(line) for line in FILE.read_text(encoding="ascii").splitlines()]
ACCEPTED = [run for run in RUNS if not run.refused]


class StoredRuns(unittest.TestCase):
    """What the reference answered and left is what the calls answer and leave."""

    def test_enough_is_met(self) -> None:
        self.assertEqual([run.edition for run in RUNS], [3, 2] * 150)
        self.assertEqual({run.answer[0] for run in RUNS}, {0, 11, 12, 13, 14, 15, 19})
        self.assertEqual({run.answer[5] for run in ACCEPTED}, {0, 1, 2})
        reasons = {reason for run in RUNS for reason in run.log[2::3]}
        self.assertEqual(reasons, {int(reason) for reason in fanthrig.Reason})
        self.assertGreater(sum(run.answer[2] for run in RUNS), 5000)

    def answer_of(self, call: Any, *lent: Any) -> tuple[tuple[int, ...], Any]:
        """What a call answers, in the order of the file, and the run itself."""
        try:
            ran = call(*lent)
        except fanthrig.Refused as refused:
            return (int(refused.number), refused.index, 0, 0, 0, 0), None
        return (0, 0, ran.steps, ran.keys, ran.shown, int(ran.stop)), ran

    def test_runs(self) -> None:
        for number, run in enumerate(RUNS):
            for call in CALLS[run.edition]:
                memory, output = run.memory[:], bytearray(run.output)
                lent = (run.record, memory, run.times, run.keys, output, run.n)
                answer, ran = self.answer_of(call, *lent)
                self.assertEqual(answer, run.answer, number)
                self.assertEqual(run.after, ran.record if ran else run.record, number)
                self.assertTrue((memory, output) == (run.words, run.left), number)

    def test_logged_runs(self) -> None:
        for number, run in enumerate(RUNS):
            memory, output = run.memory[:], bytearray(run.output)
            log = array("H", bytes(2 * len(run.log) + 6))
            lent = (run.record, memory, run.times, run.keys, output, log, run.n)
            answer, ran = self.answer_of(LOGGED[run.edition], *lent)
            self.assertEqual(answer, run.answer, number)
            self.assertEqual(log[: len(run.log)].tolist(), run.log, number)
            self.assertEqual(ran.logged if ran else 0, len(run.log), number)
            self.assertTrue((memory, output) == (run.words, run.left), number)

    def test_single_steps(self) -> None:
        for number, run in enumerate(ACCEPTED):
            step, tell = STEPS[run.edition]
            at, memory, output = run.record.copy(), run.memory[:], bytearray(run.output)
            arrived = shown = 0
            for made in range(run.answer[2]):
                free, keys = memoryview(output)[shown:], (run.times[arrived:], run.keys[arrived:])
                told, pc, before = tell(at, memory, *keys), at.pc, memory[:]
                report = step(at, memory, *keys, free)
                self.assertEqual(report.steps, 1, number)
                self.assertEqual([pc, told.word, told.reason], run.log[3 * made : 3 * made + 3])
                for address in told.writes:
                    before[address] = memory[address]
                self.assertTrue(before == memory, number)
                arrived, shown = arrived + report.keys, shown + report.shown
            self.assertEqual((at, arrived, shown), (run.after, *run.answer[3:5]), number)
            self.assertTrue((memory, output) == (run.words, run.left), number)


class StoredSittings(unittest.TestCase):
    """The same runs as sittings: in whole, in pieces, traced, and replayed."""

    def sitting(self, run: Stored) -> fanthrig.Sitting:
        """A sitting at the start of a run."""
        sitting = sitting_of(run.record, run.memory, run.edition)
        sitting.display_limit = len(run.output)
        for time, key in zip(run.times, run.keys):
            sitting.press(bytes([key]), time)
        return sitting

    def check(self, sitting: fanthrig.Sitting, run: Stored, number: int) -> None:
        """That a sitting has come to the end of a run."""
        self.assertEqual(sitting.record, run.after, number)
        self.assertEqual(sitting.memory.words, memoryview(run.words), number)
        self.assertEqual(sitting.display_bytes, run.left[: run.answer[4]], number)
        self.assertEqual(len(sitting.keys), run.answer[3], number)
        words = [word for s in sitting.last_steps(run.n) for word in (s.pc, s.word or 0, s.reason)]
        self.assertEqual(words, run.log, number)

    def test_in_whole_in_pieces_and_replayed(self) -> None:
        for number, run in enumerate(ACCEPTED):
            whole, pieces = self.sitting(run), self.sitting(run)
            steps, keys, shown, stop = run.answer[2:6]
            expected = fanthrig.Report(steps, keys, shown, fanthrig.Stop(stop))
            self.assertEqual(whole.run(run.n), expected)
            self.check(whole, run, number)
            rng = random.Random(number)
            while pieces.clock < run.after.clock:
                pieces.run(min(rng.choice([1, 2, 7, 40]), run.after.clock - pieces.clock))
            pieces.run(0)
            self.check(pieces, run, number)
            self.check(fanthrig.Sitting.replay(whole.recording()), run, number)

    def test_traced(self) -> None:
        for number, run in enumerate(ACCEPTED):
            sitting = self.sitting(run)
            traced = list(sitting.trace(run.n))
            self.assertEqual((len(traced), int(sitting.stop)), (run.answer[2], run.answer[5]))
            self.check(sitting, run, number)
            self.assertEqual([t.clock for t in traced], [*range(run.record.clock, run.after.clock)])

    def test_at_breakpoints(self) -> None:
        for number, run in enumerate(ACCEPTED):
            sitting = self.sitting(run)
            counters = run.log[::3]
            places = sorted(set(counters))
            sitting.breakpoints = set(random.Random(number).sample(places, min(2, len(places))))
            met = [at for at, pc in enumerate(counters) if pc in sitting.breakpoints]
            found, end = [], run.record.clock + run.n
            while sitting.run(end - sitting.clock).stop is fanthrig.Stop.BREAKPOINT:
                found.append(sitting.clock - run.record.clock)
            # Where the run stops before a step at a breakpoint, that is met as well.
            self.assertEqual(found[: len(met)], met, number)
            self.assertLessEqual(len(found), len(met) + 1, number)
            self.check(sitting, run, number)


if __name__ == "__main__":
    unittest.main()
