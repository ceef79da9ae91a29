"""``lc3 mark`` by one and by several processes: the order of results, signals, killed workers."""

from __future__ import annotations

import fcntl
import json
import os
import signal
import subprocess
import sys
import termios
import time
import unittest
from pathlib import Path
from typing import IO, Callable, Sequence

from .command_support import ENVIRONMENT, PYTHON, OnTerminal, takes_signals
from .mark_support import Lines, Marking, doubling, lines_of, names, of_kind, verdicts
from .support import COUNTING

SIGNALS: dict[int, str] = {
    signal.SIGINT: "Ctrl-C",
    signal.SIGTERM: "SIGTERM",
    signal.SIGHUP: "SIGHUP",
    signal.SIGQUIT: "SIGQUIT",
}

# So many steps that no marking comes to their end.
ENDLESS = 10**12


class Running(Marking):
    """Tests of a marking that runs as a process of its own."""

    def start(
        self, *arguments: object, begin: Callable[[], object] = takes_signals
    ) -> subprocess.Popen[bytes]:
        """Starts a marking in a group of its own."""
        command = [*PYTHON, "mark", "--cases", self.cases, "--steps", ENDLESS, *arguments]
        running = subprocess.Popen(
            list(map(str, command)),
            stdout=subprocess.PIPE,
            stderr=subprocess.PIPE,
            env=ENVIRONMENT,
            start_new_session=True,
            preexec_fn=begin,
        )
        self.addCleanup(self.end, running)
        return running

    @staticmethod
    def end(running: subprocess.Popen[bytes]) -> None:
        """Ends a marking that a failed test has left."""
        with running:
            if running.poll() is None:
                os.killpg(running.pid, signal.SIGKILL)

    def children(self, running: subprocess.Popen[bytes], count: int) -> list[str]:
        """The workers of a marking, as soon as so many are there."""
        children = Path(f"/proc/{running.pid}/task/{running.pid}/children")
        until = time.monotonic() + 20
        while len(children.read_text().split()) < count and time.monotonic() < until:
            time.sleep(0.001)
        return children.read_text().split()

    def gone(self, children: Sequence[str]) -> None:
        """That processes have ended."""
        for child in children:
            self.assertFalse(Path(f"/proc/{child}").exists())


def pipe(stream: IO[bytes] | None) -> IO[bytes]:
    """A stream of a process that is a pipe."""
    assert stream is not None
    return stream


def waiting(stream: IO[bytes]) -> int:
    """The bytes in a pipe that nobody has read."""
    return int.from_bytes(fcntl.ioctl(stream, termios.FIONREAD, bytes(4)), sys.byteorder)


class AsTheyCome(Running):
    """Results are written when they are there, and signals leave them."""

    def setUp(self) -> None:
        super().setUp()
        self.file("cases/two.steps", str(ENDLESS))
        self.right, self.count = self.file("r.obj", doubling()), self.file("c.obj", COUNTING)

    def test_signals_leave_what_was_written(self) -> None:
        for number in SIGNALS:
            for jobs in (1, 2):
                end = self.stopped(number, jobs, "--json", lines=2)
                told = (end.count("\n"), *lines_of(end)[0].values())
                self.assertEqual(told[:5], (1, "end", 4, 2, 2))
                self.assertEqual(lines_of(end)[0]["stopped_by"], SIGNALS[number])

    def test_ctrl_c_leaves_every_form(self) -> None:
        for jobs in (1, 2):
            self.assertEqual(self.stopped(signal.SIGINT, jobs, "--csv", lines=5), "")
            end = self.stopped(signal.SIGINT, jobs, lines=3)
            self.assertIn("\n2 of 2 candidates right; 2 not marked: stopped by Ctrl-C\n", end)

    def stopped(self, number: int, jobs: int, *form: str, lines: int) -> str:
        """What a marking writes after a signal: two candidates are marked and written in so many
        lines by then, and two are under way or wait."""
        files = (self.right, self.right, self.count, self.count)
        running = self.start(*form, "--jobs", jobs, *files)
        children = self.children(running, jobs) if jobs > 1 else []
        for _ in range(lines):
            pipe(running.stdout).readline()
        self.assertIsNone(running.poll())
        os.killpg(running.pid, number)
        # It ends at once, and leaves no process behind that holds the pipe open.
        out, err = running.communicate(timeout=20)
        self.assertEqual(running.returncode, -number)
        said = f"lc3: stopped by {SIGNALS[number]}; 2 of 4 candidates are marked\n"
        self.assertEqual(err.decode(), said)
        self.gone(children)
        return out.decode()

    def test_a_shell_sees_130(self) -> None:
        out, mark = self.folder / "out", f"{' '.join(PYTHON)} mark --jobs 1 --cases {self.cases}"
        marking = f"{mark} --steps {ENDLESS} {self.right} {self.count} >{out}"
        begun = f"until grep -q 2/2 {out}; do sleep 0.05; done"
        # The shell sends the signal to the marking alone, and tells how that ended.
        script = f"set -m; {marking} & {begun}; kill -INT $!; wait $!; echo $?"
        ended = subprocess.run(
            ["bash", "-c", script], env=ENVIRONMENT, capture_output=True, preexec_fn=takes_signals
        )
        self.assertEqual(ended.stdout.split()[-1], b"130")

    def test_a_result_that_waits_for_its_turn_is_written(self) -> None:
        # The first candidate never ends; the others are marked meanwhile, and come at the signal.
        # Nothing tells when they are: a host with much other work is given more time.
        for seconds in (2, 10, 30):
            running = self.start("--json", "--jobs", 2, self.count, self.right, self.right)
            children = self.children(running, 2)
            time.sleep(seconds)
            os.killpg(running.pid, signal.SIGINT)
            out, err = running.communicate(timeout=20)
            self.assertEqual(running.returncode, -2)
            self.gone(children)
            marked = verdicts(lines_of(out)[:-1])
            if len(marked) == 2:
                break
        self.assertEqual(marked, ["right"] * 2)
        self.assertIn(b"2 of 3 candidates are marked", err)

    def test_a_reader_that_reads_no_more(self) -> None:
        # The pipe is full, and a signal ends the marking all the same.
        files = [self.file(f"{'n' * 200}{number}.obj", doubling(1)) for number in range(150)]
        for jobs in (1, 2):
            running = self.start("--json", "--jobs", jobs, *files)
            first = pipe(running.stdout).readline()
            self.wait_until_full(pipe(running.stdout))
            self.assertIsNone(running.poll())
            os.killpg(running.pid, signal.SIGINT)
            self.assertEqual(running.wait(20), -2)
            rest = pipe(running.stdout).read().rpartition(b"\n")[0]
            self.assertEqual(json.loads(first)["verdict"], "wrong display")
            self.assertGreater(len(lines_of(rest)), 10)

    def wait_until_full(self, stream: IO[bytes]) -> None:
        """Waits until a pipe takes no more lines: nothing is added to some tens of thousands of
        bytes for a while."""
        until, before = time.monotonic() + 60, -1
        while before < 30_000 or waiting(stream) > before:
            self.assertLess(time.monotonic(), until)
            before = waiting(stream)
            time.sleep(0.5)

    def test_a_closed_window(self) -> None:
        for jobs in (1, 2):
            arguments = ("mark", "--cases", self.cases, "--steps", ENDLESS, "--jobs", jobs)
            with OnTerminal(*arguments, self.right, self.count, self.count) as shown:
                shown.see(b"right\r\n")
                shown.close()
                self.assertEqual(shown.process.wait(20), -signal.SIGHUP)

    def test_a_stopped_terminal(self) -> None:
        arguments = ("mark", "--cases", self.cases, "--steps", ENDLESS, "--jobs", 2)
        with OnTerminal(*arguments, self.right, self.count, self.count) as shown:
            shown.see(b"right\r\n")
            shown.press(b"\x13\x03")
            shown.see(b"2 not marked: stopped by Ctrl-C")
            self.assertEqual(shown.process.wait(20), -signal.SIGINT)

    def test_the_order_is_that_of_the_candidates(self) -> None:
        paths, _ = self.planted(40)
        (self.cases / "two.steps").unlink()
        whole = [self.marked("--steps", 5000, "--jobs", jobs, *paths) for jobs in (1, 2, 7)]
        self.assertEqual(whole[0], whole[1])
        self.assertEqual(whole[0], whole[2])
        self.assertEqual(names(whole[0]), list(map(str, paths)))

    def test_ctrl_c_before_anything_is_marked(self) -> None:
        # A pipe into which the cases are never written to their end.
        command = [*PYTHON, "mark", "--cases", "/dev/stdin", str(self.right)]
        with subprocess.Popen(
            command,
            stdin=subprocess.PIPE,
            stderr=subprocess.PIPE,
            env=ENVIRONMENT,
            preexec_fn=takes_signals,
        ) as running:
            # It waits for the cases once it has taken their first byte.
            pipe(running.stdin).write(b"[")
            pipe(running.stdin).flush()
            until = time.monotonic() + 60
            while waiting(pipe(running.stdin)) and time.monotonic() < until:
                time.sleep(0.01)
            running.send_signal(signal.SIGINT)
            self.assertEqual(running.wait(20), -2)
            said = b"lc3: stopped by Ctrl-C; nothing is marked\n"
            self.assertEqual(pipe(running.stderr).read(), said)


class Killed(Running):
    """Processes that are killed, and signals that are ignored."""

    def killed(
        self, files: list[str], when: str, *options: str
    ) -> subprocess.CompletedProcess[bytes]:
        """A marking in which the worker is killed that comes to a candidate, where a condition on
        its ``name`` holds."""
        program = (
            "import os, signal; from fanthrig.command import main\n"
            "from fanthrig.marking import Marking\n"
            "usual = Marking.mark\n"
            "def killed(marking, name):\n"
            f"    if {when}: os.kill(os.getpid(), signal.SIGKILL)\n"
            "    return usual(marking, name)\n"
            "Marking.mark = killed\n"
            f"options = ['mark', '--cases', {str(self.cases)!r}, '--jobs', '2', *{options!r}]\n"
            f"raise SystemExit(main([*options, *{files!r}]))\n"
        )
        command = [PYTHON[0], "-c", program]
        return subprocess.run(command, env=ENVIRONMENT, capture_output=True, timeout=60)

    def test_a_worker_that_is_killed(self) -> None:
        paths, planted = self.planted(20)
        files = [str(path) for path in paths]
        bad = planted.index("right")
        ended = self.killed(files, f"name == {files[bad]!r}", "--json", "--steps", "20000")
        self.assertEqual((ended.returncode, ended.stderr), (1, b""))
        results: Lines = of_kind("candidate", lines_of(ended.stdout))
        self.assertEqual(names(results), files)
        self.assertEqual(verdicts(results), [*planted[:bad], "refused", *planted[bad + 1 :]])
        self.assertIn("the process that marked it was killed", results[bad]["problem"])
        self.assertIsNone(results[bad]["sha256"])

    def test_the_first_process_is_killed(self) -> None:
        count = self.file("c.obj", COUNTING)
        running = self.start("--jobs", 2, count, count)
        children = self.children(running, 2)
        running.kill()
        # Whoever reads the results comes to their end: no worker holds the pipe open for ever.
        running.communicate(timeout=20)
        until = time.monotonic() + 20
        while any(Path(f"/proc/{child}").exists() for child in children):
            self.assertLess(time.monotonic(), until)
            time.sleep(0.1)

    def test_what_is_ignored_stays_ignored(self) -> None:
        count = self.file("c.obj", COUNTING)

        # As nohup starts it.
        def ignoring() -> None:
            """In the new process."""
            signal.signal(signal.SIGHUP, signal.SIG_IGN)

        files = (count, count)
        running = self.start("--json", "--steps", 10**9, "--jobs", 2, *files, begin=ignoring)
        children = self.children(running, 2)
        os.killpg(running.pid, signal.SIGHUP)
        time.sleep(0.2)
        self.assertEqual(self.children(running, 2), children)
        out, err = running.communicate(timeout=60)
        self.assertEqual((running.returncode, err), (1, b""))
        self.assertEqual(verdicts(lines_of(out)[:-1]), ["not halted"] * 2)

    def test_every_worker_is_killed(self) -> None:
        files = [str(self.file(name, doubling())) for name in ("a.obj", "b.obj", "c.obj")]
        ended = self.killed(files, "True")
        self.assertEqual((ended.returncode, ended.stderr), (1, b""))
        self.assertEqual(ended.stdout.count(b"  0/2  refused: the process that marked it"), 3)


if __name__ == "__main__":
    unittest.main()
