"""One call of a sitting at a time: threads, nested calls, and handlers of signals that raise."""

from __future__ import annotations

import copy
import os
import pickle
import random
import signal
import subprocess
import sys
import tempfile
import threading
import unittest
from array import array
from pathlib import Path
from time import monotonic, sleep
from typing import Any, Callable
from unittest import mock

import fanthrig
from fanthrig import InUseError, Sitting, Stop
from fanthrig._library import LIBRARY

from . import ROOT
from .support import COUNTING, ECHO, fresh, object_file, user, whole_state

# R0 counts, and x3004 has the same number after each round of three steps.
STORING = object_file(0x3000, "ADD R0, R0, #1", "ST R0, #2", "BRnzp #-3", 0, 0)

# Two threads with runs of different lengths: the log of one grew under the other.
BOTH_RUN = """
import sys, threading, time
import fanthrig

sys.setswitchinterval(1e-5)

def run(sitting, steps):
    for _ in range(3):
        try:
            sitting.run(steps)
        except fanthrig.InUseError:
            pass

for turn in range(150):
    sitting = fanthrig.Sitting(bytes.fromhex("3000 1021 0FFE"))
    sitting.breakpoints.add(0x4000)
    threads = [threading.Thread(target=run, args=(sitting, n)) for n in (60_000, 200_000)]
    for thread in threads:
        thread.start()
        time.sleep(0.0002 * (turn % 10))
    for thread in threads:
        thread.join()
    assert sitting["R0"] == (sitting.clock + 1) // 2 & 0xFFFF
    assert sitting.clock in {60_000 * a + 200_000 * b for a in range(4) for b in range(4)}
"""

USES: dict[str, Callable[[Sitting], object]] = {
    "run": lambda s: s.run(1),
    "step": lambda s: s.step(),
    "trace": lambda s: next(s.trace(1)),
    "trace_at_once": lambda s: s.trace_at_once(1),
    "load": lambda s: s.load(COUNTING),
    "start": lambda s: s.start(),
    "type": lambda s: s.type("a"),
    "press": lambda s: s.press(b"a", 1 << 40),
    "take_display": lambda s: s.take_display(),
    "forget": lambda s: s.forget(),
    "a register": lambda s: s.__setitem__("R0", 1),
    "a word by name": lambda s: s.__setitem__("x3000", 1),
    "a word": lambda s: s.memory.__setitem__(0x3000, 1),
    "words": lambda s: s.memory.__setitem__(slice(0x3000, 0x3002), [1, 2]),
    "display_limit": lambda s: setattr(s, "display_limit", 1),
    "breakpoints": lambda s: setattr(s, "breakpoints", {1}),
    "breakpoints.add": lambda s: s.breakpoints.add(1),
    "breakpoints.discard": lambda s: s.breakpoints.discard(0x4000),
    "breakpoints.clear": lambda s: s.breakpoints.clear(),
    "recording": lambda s: s.recording(),
    "save": lambda s: s.save(os.devnull),
    "last_steps": lambda s: s.last_steps(1),
    "last_step": lambda s: s.last_step(),
    "last_program_steps": lambda s: s.last_program_steps(1),
    "last_program_clocks": lambda s: s.last_program_clocks(1),
    "ending": lambda s: s.ending,
    "waits": lambda s: s.waits(),
    "idle": lambda s: s.idle(),
    "copy": copy.copy,
    "deepcopy": copy.deepcopy,
    "pickle": pickle.dumps,
}

LOOKS: dict[str, Callable[[Sitting], object]] = {
    "record": lambda s: (s.record, s.clock, s.halted, s["R0"], s["x3000"], s.stop),
    "memory": lambda s: (s.memory[0x3000], s.memory[:16], s.memory.words[0], s.here()),
    "lines": lambda s: s.lines(0x3000, 2),
    "keys and display": lambda s: (s.keys, s.typed, s.display, s.display_limit),
    "the rest": lambda s: (sorted(s.breakpoints), s.programs, s.edition),
}


def in_the_middle(sitting: Sitting, act: Callable[[], object]) -> None:
    """Has something done in the middle of the next call of the library: memory is altered then,
    and the record is not."""
    machine = sitting._machine
    usual = machine._run

    def run(*lent: Any) -> Any:
        """The call, and what is done before its answer is booked."""
        machine._run = usual
        answer = usual(*lent)
        act()
        return answer

    machine._run = run


class InUse(unittest.TestCase):
    """What is used while a call goes on raises, and alters nothing."""

    def setUp(self) -> None:
        self.sitting, self.other = Sitting(STORING), Sitting(STORING)
        for sitting in (self.sitting, self.other):
            sitting.breakpoints = {0x4000}
            sitting.breakpoints.clear()
            sitting.run(10)

    def uses(self) -> None:
        """Uses the sitting in every way."""
        for name, use in USES.items():
            with self.subTest(name), self.assertRaisesRegex(InUseError, "the sitting is in use"):
                use(self.sitting)
        for name, look in LOOKS.items():
            with self.subTest(name):
                look(self.sitting)

    def check(self) -> None:
        """That the run went on as if nothing had been tried."""
        self.other.run(1000)
        self.assertEqual(whole_state(self.sitting), whole_state(self.other))
        self.assertEqual(self.sitting.recording(), self.other.recording())
        for name, use in {**USES, **LOOKS}.items():
            with self.subTest(name):
                use(self.sitting)

    def test_by_another_thread(self) -> None:
        begun, over = threading.Event(), threading.Event()

        def act() -> None:
            """Lets the other thread try."""
            begun.set()
            over.wait()

        in_the_middle(self.sitting, act)
        thread = threading.Thread(target=self.sitting.run, args=(1000,))
        thread.start()
        begun.wait()
        self.uses()
        over.set()
        thread.join()
        self.check()

    def test_while_the_main_thread_runs(self) -> None:
        def act() -> None:
            """Tries it in a thread of its own."""
            thread = threading.Thread(target=self.uses)
            thread.start()
            thread.join()

        in_the_middle(self.sitting, act)
        self.sitting.run(1000)
        self.check()

    def test_in_the_middle_of_a_call_of_the_same_thread(self) -> None:
        in_the_middle(self.sitting, self.uses)
        self.sitting.run(1000)
        self.check()

    def test_the_error_goes_to_other_processes(self) -> None:
        self.assertEqual(str(pickle.loads(pickle.dumps(InUseError()))), str(InUseError()))

    def test_two_threads_never_corrupt(self) -> None:
        environment = {**os.environ, "PYTHONPATH": str(ROOT / "python")}
        command = [sys.executable, "-c", BOTH_RUN]
        said = subprocess.run(command, env=environment, capture_output=True, text=True)
        self.assertEqual((said.returncode, said.stderr), (0, ""))

    def test_a_use_that_ends_by_an_error_is_over(self) -> None:
        sitting = Sitting(COUNTING)
        wrong: dict[str, Callable[[], object]] = {
            "steps": lambda: sitting.run(-1),
            "a time": lambda: sitting.press(b"a", -1),
            "a file": lambda: sitting.load(b"\x30"),
            "a value": lambda: sitting.__setitem__("PSR", 8),
        }
        for name, use in wrong.items():
            with self.subTest(name), self.assertRaises((ValueError, fanthrig.Refused)):
                use()
        self.assertEqual(sitting.run(5).steps, 5)


class Late(Exception):
    """What the handlers of the tests raise."""


class Handlers(unittest.TestCase):
    """A handler of a signal runs when the call is over, and not in the middle of it."""

    SIGNALS = (signal.SIGINT, signal.SIGALRM, signal.SIGTERM, signal.SIGHUP, signal.SIGUSR1)

    def setUp(self) -> None:
        self.handled: list[int] = []
        self.armed = True
        for number in (*self.SIGNALS, signal.SIGRTMIN):
            self.addCleanup(signal.signal, number, signal.getsignal(number))
            signal.signal(number, self.handle)

    def handle(self, number: int, _frame: object) -> None:
        """The handler of every signal: it raises where it is armed, once."""
        self.handled.append(number)
        if self.armed:
            self.armed = False
            raise Late

    def test_a_handler_that_raises_leaves_a_whole_machine(self) -> None:
        for number in (*self.SIGNALS, signal.SIGRTMIN):
            sitting, other = Sitting(STORING), Sitting(STORING)
            other.run(600)
            in_the_middle(sitting, lambda: signal.raise_signal(number))
            self.armed = True
            with self.assertRaises(Late):
                sitting.run(600)
            self.assertEqual(whole_state(sitting), whole_state(other))
            self.assertEqual(sitting.memory[0x3004], sitting["R0"])
        self.assertEqual(self.handled, [*self.SIGNALS, signal.SIGRTMIN])

    def test_at_any_time_of_any_call(self) -> None:
        text, raised = "to be, or not to be" * 5, 0
        self.armed = False
        self.addCleanup(signal.setitimer, signal.ITIMER_REAL, 0)
        for edition in fanthrig.Edition:
            late, plain = self.runs(edition, text), self.runs(edition, text)
            plain.run(6000)
            signal.setitimer(signal.ITIMER_REAL, 0.0003, 0.0003)
            for turn in range(100_000):
                try:
                    self.armed = True
                    self.go_on(late, turn % 4, 6000 - late.clock)
                    self.armed = False
                except Late:
                    raised += 1
                if late.clock >= 6000:
                    break
            signal.setitimer(signal.ITIMER_REAL, 0)
            self.assertEqual(whole_state(late), whole_state(plain))
            self.assertEqual((late.typed, late.recording()), (plain.typed, plain.recording()))
        self.assertGreater(raised, 10)

    @staticmethod
    def runs(edition: fanthrig.Edition, text: str) -> Sitting:
        """A sitting with keys to come. By the second edition's rules a loop shows them."""
        words = ["LDI R0, #5", "BRzp #-2", "LDI R0, #4", "STI R0, #4", "BRnzp #-5"]
        file = object_file(0x3000, *words, 0, 0xFE00, 0xFE02, 0xFE06)
        sitting = Sitting(file, mode=fanthrig.Mode.SUPERVISOR, edition=edition, monitor=False)
        sitting.breakpoints = {0x5000}
        sitting.type(text)
        return sitting

    @staticmethod
    def go_on(sitting: Sitting, way: int, left: int) -> None:
        """Makes some steps in one of four ways."""
        if way == 0:
            sitting.run(min(left, 300))
        elif way == 1:
            for _ in range(min(left, 20)):
                sitting.step()
        elif way == 2:
            sitting.trace_at_once(min(left, 20))
            list(sitting.trace(min(left - 20, 20) if left > 20 else 0))
        else:
            sitting.breakpoints = set(sitting.breakpoints)
            copy.copy(sitting)

    def test_handlers_that_raise_nothing_let_the_run_go_on(self) -> None:
        self.armed = False
        sitting = Sitting(STORING)
        for number in (signal.SIGALRM, signal.SIGRTMIN):
            in_the_middle(sitting, lambda: signal.raise_signal(number))
            self.assertEqual(sitting.run(3 * fanthrig.MAX_STEPS).steps, 3 * fanthrig.MAX_STEPS)
        self.assertEqual(self.handled, [signal.SIGALRM, signal.SIGRTMIN])

    def test_a_long_run_is_ended_by_a_handler(self) -> None:
        sitting = Sitting(STORING)

        def send() -> None:
            """Sends the signal once the run has begun, however late that is."""
            while not sitting.clock:
                sleep(0.01)
            os.kill(os.getpid(), signal.SIGALRM)

        thread = threading.Thread(target=send)
        thread.start()
        self.addCleanup(thread.join)
        with self.assertRaises(Late):
            sitting.run()
        self.assertIs(sitting.stop, Stop.INTERRUPTED)
        self.assertIn(sitting["R0"] - sitting.memory[0x3004], (0, 1))
        self.assertIs(sitting.ending.kind, fanthrig.EndKind.INTERRUPTED)
        self.assertEqual(sitting.ending.text, "interrupted by a signal")
        self.armed = False
        in_the_middle(sitting, lambda: signal.raise_signal(signal.SIGUSR1))
        self.assertIs(sitting.run(3 * fanthrig.MAX_STEPS).ending.kind, fanthrig.EndKind.STEPS)
        self.assertIs(sitting.ending.kind, fanthrig.EndKind.STEPS)

    def test_each_handler_is_called_once_and_put_back(self) -> None:
        sitting = Sitting(STORING)

        def act() -> None:
            """Three signals, one of them twice."""
            for number in (signal.SIGALRM, signal.SIGUSR1, signal.SIGALRM, signal.SIGTERM):
                signal.raise_signal(number)

        in_the_middle(sitting, act)
        with self.assertRaises(Late):
            sitting.run(1000)
        self.assertEqual(self.handled, [signal.SIGALRM, signal.SIGUSR1, signal.SIGTERM])
        for number in self.SIGNALS:
            self.assertEqual(signal.getsignal(number), self.handle)

    def test_a_handler_may_set_another(self) -> None:
        sitting = Sitting(STORING)

        def change(number: int, _frame: object) -> None:
            """Sets another handler in its place."""
            signal.signal(number, signal.SIG_IGN)

        signal.signal(signal.SIGUSR1, change)
        in_the_middle(sitting, lambda: signal.raise_signal(signal.SIGUSR1))
        sitting.run(3 * fanthrig.MAX_STEPS)
        self.assertIs(signal.getsignal(signal.SIGUSR1), signal.SIG_IGN)

    def test_a_handler_that_uses_the_sitting(self) -> None:
        sitting = Sitting(STORING)
        told: list[object] = []

        def use(_number: int, _frame: object) -> None:
            """Makes a step more, where it may."""
            try:
                told.append(sitting.step().steps)
            except InUseError:
                told.append("in use")

        signal.signal(signal.SIGUSR1, use)
        in_the_middle(sitting, lambda: signal.raise_signal(signal.SIGUSR1))
        # In the middle of a long run it may not; when the call is over it may.
        sitting.run(3 * fanthrig.MAX_STEPS)
        in_the_middle(sitting, lambda: signal.raise_signal(signal.SIGUSR1))
        sitting.run(1000)
        self.assertEqual((told, sitting.clock), (["in use", 1], 3 * fanthrig.MAX_STEPS + 1001))

    def test_a_run_in_another_thread_is_not_disturbed(self) -> None:
        sitting, other = Sitting(STORING), Sitting(STORING)
        self.armed, raised, reports = False, 0, []
        thread = threading.Thread(target=lambda: reports.append(sitting.run(30_000_000)))
        thread.start()
        self.addCleanup(signal.setitimer, signal.ITIMER_REAL, 0)
        signal.setitimer(signal.ITIMER_REAL, 0.001, 0.001)
        while not reports:
            try:
                self.armed = True
                sleep(0.1)
                self.armed = False
            except Late:
                raised += 1
        signal.setitimer(signal.ITIMER_REAL, 0)
        self.assertEqual(reports, [other.run(30_000_000)])
        self.assertGreater(raised, 3)
        self.assertEqual(whole_state(sitting), whole_state(other))

    def test_a_step_of_the_host_s_own_record(self) -> None:
        memory, record = fresh(), user()
        memory[0x3000] = fanthrig.word("ST R6, #5")

        def act(*lent: Any) -> Any:
            """The call, and a signal before its answer is booked."""
            answer = usual(*lent)
            signal.raise_signal(signal.SIGUSR1)
            return answer

        usual = LIBRARY.lc3_step
        with mock.patch.object(LIBRARY, "lc3_step", act), self.assertRaises(Late):
            fanthrig.step(record, memory, array("Q"), b"", bytearray())
        self.assertEqual((memory[0x3006], record.pc, record.clock), (0xFDFF, 0x3001, 1))

    def test_a_pipe_that_nobody_writes_can_be_left(self) -> None:
        with tempfile.TemporaryDirectory() as folder:
            path = Path(folder) / "pipe.obj"
            os.mkfifo(path)
            sitting = Sitting(ECHO)
            with self.assertRaises(Late):
                signal.setitimer(signal.ITIMER_REAL, 0.05)
                sitting.load(path)
        self.assertEqual(sitting.run(10).steps, 10)

    def test_random_uses_by_threads_and_a_handler(self) -> None:
        self.addCleanup(sys.setswitchinterval, sys.getswitchinterval())
        self.addCleanup(signal.setitimer, signal.ITIMER_REAL, 0)
        sys.setswitchinterval(1e-5)
        self.armed = False
        for seed in range(4):
            sitting, over = Sitting(ECHO), threading.Event()
            sitting.run(1)
            others = [Uses(sitting, random.Random(f"{seed} {n}"), over) for n in range(2)]
            uses, begun, raised = Uses(sitting, random.Random(seed), over), monotonic(), 0
            for thread in others:
                thread.start()
            signal.setitimer(signal.ITIMER_REAL, 0.0005, 0.0005)
            # On a host with much other work it takes longer until each thread has had its turn.
            while monotonic() < begun + (0.3 if raised and any(n.refused for n in others) else 20):
                try:
                    self.armed = True
                    uses.use()
                    self.armed = False
                except Late:
                    raised += 1
            signal.setitimer(signal.ITIMER_REAL, 0)
            over.set()
            for thread in others:
                thread.join()
            self.assertTrue(raised and sum(thread.refused for thread in others))
            # Record, memory, keys, display and recording agree: the replay comes to the same end.
            sitting.breakpoints.clear()
            again = Sitting.replay(sitting.recording())
            self.assertEqual(whole_state(again), whole_state(sitting), seed)
            self.assertEqual(again.typed, sitting.typed, seed)


class Uses(threading.Thread):
    """A thread that uses a sitting in random ways, until an event is set."""

    def __init__(self, sitting: Sitting, rng: random.Random, over: threading.Event) -> None:
        super().__init__()
        self.sitting, self.rng, self.over, self.refused = sitting, rng, over, 0

    def run(self) -> None:
        while not self.over.is_set():
            self.use()

    def use(self) -> None:
        """One use. That the sitting is in use is counted; so may a key's time have passed."""
        sitting, number = self.sitting, self.rng.randrange(0x8000)
        ways: list[Callable[[], object]] = [
            lambda: sitting.run(number % 3000),
            lambda: sitting.step(),
            lambda: sitting.trace_at_once(number % 30),
            lambda: list(sitting.trace(5)),
            lambda: sitting.type(bytes([number & 0xFF])),
            lambda: sitting.press(b"xy", sitting.clock + number % 500),
            lambda: sitting.__setitem__(f"R{number % 6}", -number),
            lambda: sitting.memory.__setitem__(0x4000 + number % 99, number),
            lambda: setattr(sitting, "breakpoints", {0x3001} if number % 4 == 0 else set()),
            lambda: copy.copy(sitting).run(100),
            lambda: sitting.last_steps(5),
        ]
        try:
            self.rng.choice(ways)()
        except InUseError:
            self.refused += 1
        except fanthrig.Refused as refused:
            assert refused.number is fanthrig.Refusal.TIME


if __name__ == "__main__":
    unittest.main()
