"""Ten thousand files that anybody may hand in, through run, log and mark themselves: each command
ends with a code and a line of the manual, all three tell the same, no word outside User mode's is
altered, and what is refused leaves nothing behind."""

from __future__ import annotations

import io
import json
import os
import random
import re
import resource
import select
import signal
import socket
import stat
import subprocess
import time
import unittest
from concurrent.futures import ThreadPoolExecutor
from pathlib import Path
from typing import Any, Iterator
from unittest import mock

import fanthrig
from fanthrig import Sitting
from fanthrig.command import main
from fanthrig.command.options import parser
from fanthrig.formats import SWAPPED, is_swapped, other_format

from .command_support import ENVIRONMENT, HELLO, PYTHON, UNTIL_Q, Folder, Ran, process, ran
from .command_support import takes_signals
from .mark_support import lines_of
from .support import object_file
from .test_confined import ANSWERS, CHOSEN, USER_WORDS, is_confined, outside, random_file

COUNT = 10_000
BY_PROCESSES = 70

# No file shows more in so many steps.
STEPS, EXPECTED = 100, "x" * 1000

# How a run may end by the manual, and its exit code.
ENDS = {
    "halted by HALT": 0,
    "all steps asked for were made": 1,
    "stopped by the (privilege|illegal opcode|access) exception": 4,
    "stopped by TRAP x[0-9A-F]{2}, which has no service": 4,
    "stopped by PUTSP?, whose string came to privileged memory": 4,
}


class Watched(Sitting):
    """A sitting that looks after each run whether a word outside User mode's was altered."""

    fresh = outside(Sitting(examiner=[ANSWERS]).memory.words)
    looks, altered = 0, 0

    def look(self) -> None:
        """Looks."""
        Watched.looks += 1
        Watched.altered += outside(self.memory.words) != self.fresh

    def run(self, *arguments: Any, **named: Any) -> Any:
        """Runs, and looks."""
        report = super().run(*arguments, **named)
        self.look()
        return report

    def trace_at_once(self, steps: int) -> list[fanthrig.TracedStep]:
        """The same a step at a time."""
        told = super().trace_at_once(steps)
        self.look()
        return told


def at_the_borders() -> Iterator[bytes]:
    """Files that begin and end at each border of memory, one word beyond it, and cut in a word."""
    for origin in (*CHOSEN, 0x2FFE, 0xFFFD):
        for end in (origin, origin + 1, 0x3000, 0x3001, 0xFE00, 0xFE01, 0x10000, 0x10001):
            if end >= origin:
                file = origin.to_bytes(2, "big") + bytes(2 * (end - origin))
                yield from (file, file[:-1], file + b"\xf0")


def files() -> Iterator[bytes]:
    """All files: at borders, of any bytes, cut short, too long, and random programs."""
    rng, made = random.Random(330), 0
    for file in at_the_borders():
        made += 1
        yield file
    for length in (*range(40), 131_073, 131_074, 131_075, 131_076, 131_077, 1 << 20):
        made += 1
        yield rng.randbytes(length)
    while made < COUNT:
        made += 1
        yield random_file(rng)


def refusal(file: bytes) -> str:
    """What is said of a file that is refused; of others nothing."""
    if other_format(file):
        return other_format(file)
    if is_confined(file):
        return ""
    if len(file) < 2 or (len(file) % 2 and len(file) < 131_076):
        return "refused (17)"
    if int.from_bytes(file[:2], "big") + len(file) // 2 - 1 > 0x10000:
        return "refused (18)"
    return SWAPPED if is_swapped(file) else "refused (21)"


class Commands(Folder):
    """The commands, with the examiner's answers beside each file."""

    def setUp(self) -> None:
        super().setUp()
        self.answers = self.file("answers.obj", ANSWERS)
        case = {"name": "one", "keys": "ab", "expected": EXPECTED}
        self.cases = self.file("cases.json", json.dumps([case]))
        self.saved = self.folder / "saved.json"
        Watched.looks = Watched.altered = 0

    def command(self, name: str, *options: object) -> tuple[object, ...]:
        """The words of a command, up to its files."""
        common = (name, "--steps", STEPS, "--with", self.answers)
        if name == "mark":
            return (*common, "--cases", self.cases, *options)
        return (*common, "--keys", "ab", *options)


class AnyBytes(Commands):
    """Regular files, whatever is in them."""

    def check_refused(self, path: Path, done: Ran, said: str) -> None:
        """That a file is refused in one line, and nothing else is written."""
        self.assertEqual((done.code, done.out), (3, b""), (path, done))
        self.assertEqual((done.err.count("\n"), self.saved.exists()), (1, False), done.err)
        self.assertTrue(done.err.startswith(f"lc3: {path}: refused"), done.err)
        self.assertIn(said, done.err)

    def check_run(self, path: Path, done: Ran) -> str:
        """That a run ends as the manual has it, in one line, which is answered."""
        end = done.err.removeprefix("lc3: ").partition("; ")[0]
        codes = [code for text, code in ENDS.items() if re.fullmatch(text, end)]
        self.assertEqual(codes, [done.code], (path, done.err))
        self.assertRegex(done.err, r"\Alc3: .*; \d+ steps?; PC x[0-9A-F]{4}: .+\n\Z")
        return done.err.removeprefix("lc3: ")

    def check_all(self, path: Path, file: bytes, marked: dict[str, Any]) -> bool:
        """That run and log do with a file what they should, and the same as mark; whether they
        took it."""
        said = refusal(file)
        if said:
            for name in ("run", "log"):
                words = self.command(name, "--save-sitting", self.saved)
                self.check_refused(path, ran(*words, path), said)
            self.assertEqual((marked["verdict"], marked["results"]), ("refused", []))
            self.assertIn(said, marked["problem"])
            return False
        shown, logged = ran(*self.command("run"), path), ran(*self.command("log"), path)
        end = self.check_run(path, shown)
        self.assertEqual((logged.code, logged.err), (shown.code, shown.err), path)
        (one,) = marked["results"]
        line = one["line"] or "User mode fetches nothing there"
        steps = "1 step" if one["steps"] == 1 else f"{one['steps']} steps"
        self.assertEqual(f"{one['ended']}; {steps}; PC x{one['pc']:04X}: {line}\n", end)
        self.assertEqual(logged.out.count(b"\n"), 1 + one["steps"], path)
        self.assertEqual(one["shown"], len(shown.out), path)
        return True

    def test_ten_thousand_files(self) -> None:
        contents = list(files())
        paths = [self.file(f"all/{n:05}.obj", file) for n, file in enumerate(contents)]
        before, taken, whole = sorted(self.folder.rglob("*")), 0, parser()
        open_files = len(os.listdir("/proc/self/fd"))
        # To make the parser takes longer than all the rest of a command.
        with mock.patch("fanthrig.command.parser", lambda: whole):
            with mock.patch("fanthrig.command.files.Sitting", Watched), mock.patch(
                "fanthrig.marking.playing.Sitting", Watched
            ):
                done = ran(*self.command("mark", "--json", "--jobs", 1), self.folder / "all")
                self.assertEqual((done.code, done.err), (1, ""))
                marked = lines_of(done.out)
                self.assertEqual([line["candidate"] for line in marked[:-1]], list(map(str, paths)))
                for path, file, line in zip(paths, contents, marked):
                    taken += self.check_all(path, file, line)
        self.assertEqual(len(paths), COUNT)
        self.assertGreater(taken, COUNT // 3)
        self.assertLess(taken, COUNT * 2 // 3)
        self.assertGreaterEqual(Watched.looks, 3 * taken)
        self.assertEqual(Watched.altered, 0)
        self.assertEqual(sorted(self.folder.rglob("*")), before)
        self.assertEqual(len(os.listdir("/proc/self/fd")), open_files)

    def test_hundreds_of_processes(self) -> None:
        # Each says what the same command says in this one.
        rng = random.Random(331)
        contents = rng.sample(list(files()), BY_PROCESSES)
        paths = [self.file(f"some/{n:03}.obj", file) for n, file in enumerate(contents)]
        words = [self.command(name) for name in ("run", "log")] + [self.command("mark", "--one")]
        lines = [(*command, path) for path in paths for command in words]
        with ThreadPoolExecutor(2) as pool:
            by_processes = list(pool.map(lambda line: process(*line), lines))
        when = re.compile(rb'"time": "[^"]*"|"seconds": [0-9.e-]+')
        for line, done in zip(lines, by_processes):
            same = ran(*line)
            self.assertEqual((done.code, done.err), (same.code, same.err), line)
            self.assertEqual(when.sub(b"", done.out), when.sub(b"", same.out), line)


class NoRegularFiles(Commands):
    """What stands in a folder and is no file of words at all."""

    def special(self) -> dict[Path, str]:
        """Things of each kind that may be made here, and what run and log say of them."""
        huge, plug = self.file("huge.obj", b"\x30\x00"), self.folder / "plug.obj"
        os.truncate(huge, 1 << 40)
        with socket.socket(socket.AF_UNIX) as listening:
            listening.bind(str(plug))
        made = {
            huge: "refused (18)",
            plug: "No such device or address",
            Path("/dev/null"): "refused (17)",
            Path("/dev/full"): "refused (18)",
            Path("/dev/urandom"): "refused (18)",
            self.folder: "it is a directory",
        }
        device = self.folder / "device.obj"
        try:
            os.mknod(device, stat.S_IFCHR | 0o600, os.makedev(1, 5))
            with open(device, "rb"):
                made[device] = "refused (18)"
        except OSError:
            # Only root makes devices, and not in every folder.
            pass
        return made

    def test_each_is_refused_at_once(self) -> None:
        for path, said in self.special().items():
            for name in ("run", "log"):
                done = process(*self.command(name, "--save-sitting", self.saved), path)
                self.assertEqual((done.code, done.out), (3, b""), (path, done))
                self.assertTrue(done.err.startswith(f"lc3: {path}: "), done.err)
                self.assertEqual((said in done.err, done.err.count("\n")), (True, 1), done.err)
            hello = self.file("beside/hello.obj", HELLO)
            done = process(*self.command("mark", "--json"), hello, path)
            verdicts = [line.get("verdict") for line in lines_of(done.out)]
            self.assertEqual((done.code, done.err), (1, ""))
            self.assertIn("refused", verdicts)
        self.assertFalse(self.saved.exists())

    def test_the_longest_files(self) -> None:
        for words, code in ((len(USER_WORDS), 1), (len(USER_WORDS) + 1, 3)):
            path = self.file("long.obj", object_file(0x3000, *[0] * words))
            for name in ("run", "log"):
                self.assertEqual(process(*self.command(name), path).code, code)

    def test_files_that_fail_when_they_are_read(self) -> None:
        bad, hello = "/proc/self/mem", self.file("hello.obj", HELLO)
        for words in (
            ("run", bad),
            ("list", bad),
            ("log", bad),
            ("run", "--with", bad, hello),
            ("run", "--keys", f"@{bad}", hello),
            ("run", "--replay", bad),
            ("mark", "--cases", self.cases, "--with", bad, hello),
            ("mark", "--cases", bad, hello),
        ):
            done = process(*words)
            said = f"{bad}: Input/output error: check the file and its place\n"
            self.assertEqual((done.code, done.out), (3, b""), done)
            self.assertTrue(done.err.endswith(said) and done.err.count("\n") == 1, done.err)

    def test_names_that_are_empty(self) -> None:
        # As of a variable that a script has not set. The current folder has cases.
        hello = self.file("here/hello.obj", HELLO)
        self.file("here/a.expected", "Hi\nHalted\n")
        for words in (
            ("run", ""),
            ("list", ""),
            ("log", "--with", "", hello),
            ("run", "--keys", "@", hello),
            ("run", "--replay", ""),
            ("run", "--save-sitting", "", hello),
            ("mark", "--cases", "", hello),
            ("mark", "--cases", hello.parent, ""),
            ("mark", "--cases", hello.parent, "--with", "", hello),
        ):
            done = process(*words, cwd=hello.parent)
            self.assertEqual((done.code, done.out), (3, b""), (words, done))
            self.assertTrue(done.err.endswith("'': no such file: check its name\n"), done.err)


class Streams(Commands):
    """Standard output and files of other kinds, as others have left them."""

    def read_slowly(self, *words: object, **more: str) -> bytes:
        """What a command writes to a pipe that others have set not to wait."""
        reading, writing = os.pipe()
        os.set_blocking(writing, False)
        running = subprocess.Popen(
            [*PYTHON, *map(str, words)],
            stdin=subprocess.DEVNULL,
            stdout=writing,
            stderr=writing,
            env={**ENVIRONMENT, **more},
        )
        os.close(writing)
        with running, open(reading, "rb") as stream:
            # It is full before anything is read.
            select.select([stream], [], [])
            time.sleep(0.5)
            return stream.read()

    def test_an_output_that_does_not_wait(self) -> None:
        flood = self.file("flood.obj", object_file(0x3000, "TRAP x21", "BRnzp #-2"))
        long = self.file("long.obj", object_file(0x3000, *[0x1021] * 20_000))
        for words in (
            ("list", long),
            ("run", "--steps", 4_000_000, flood),
            ("log", "--steps", 5000, flood),
            # The table, which has no times.
            ("mark", "--steps", 9, "--cases", self.cases, "--jobs", 1, *[flood] * 300),
        ):
            usual = process(*words)
            self.assertGreater(len(usual.out), 100_000)
            for unbuffered in ("", "1"):
                seen = self.read_slowly(*words, PYTHONUNBUFFERED=unbuffered)
                self.assertEqual(len(seen), len(usual.out) + len(usual.err))
                self.assertTrue(seen.endswith(usual.err.encode()), seen[-300:])

    def test_a_host_s_own_text(self) -> None:
        hello, said = self.file("hello.obj", HELLO), io.StringIO()
        out = io.TextIOWrapper(io.BytesIO(), "utf-8")
        with mock.patch("sys.stderr", said), mock.patch("sys.stdout", out):
            self.assertEqual(main(["run", "--keys", "", str(hello)]), 0)
        self.assertTrue(said.getvalue().startswith("lc3: halted by HALT; "))

    def test_a_listing_that_may_not_grow(self) -> None:
        long = self.file("long.obj", object_file(0x3000, *[0x1021] * 20_000))
        with open(self.folder / "listing", "wb") as stream:
            ended = subprocess.run(
                [*PYTHON, "list", str(long)],
                stdout=stream,
                stderr=subprocess.PIPE,
                env=ENVIRONMENT,
                preexec_fn=lambda: resource.setrlimit(resource.RLIMIT_FSIZE, (5000, 5000)),
            )
        said = b"lc3: standard output: File too large: check the file and its place\n"
        self.assertEqual((ended.returncode, ended.stderr), (3, said))

    def test_a_sitting_goes_to_whoever_reads_a_fifo(self) -> None:
        program, pipe = self.file("until.obj", UNTIL_Q), self.folder / "sitting"
        os.mkfifo(pipe)
        reading = os.open(pipe, os.O_RDONLY | os.O_NONBLOCK)
        self.addCleanup(os.close, reading)
        seen = select.poll()
        seen.register(reading, select.POLLIN)
        with subprocess.Popen(
            [*PYTHON, "run", "--save-sitting", str(pipe), str(program)],
            stdin=subprocess.PIPE,
            stdout=subprocess.PIPE,
            stderr=subprocess.PIPE,
            env=ENVIRONMENT,
        ) as running:
            assert running.stdin is not None and running.stdout is not None
            os.write(running.stdin.fileno(), b"a")
            self.assertEqual(os.read(running.stdout.fileno(), 1), b"a")
            # While the program runs, nobody has opened the pipe and closed it again.
            self.assertEqual(seen.poll(0), [])
            os.write(running.stdin.fileno(), b"q")
            self.assertEqual(running.wait(60), 0)
        saved = self.file("sitting.json", os.read(reading, 65536))
        self.assertEqual(fanthrig.Sitting.replay(saved).display, "aqHalted\n")

    def test_a_fifo_that_nobody_reads(self) -> None:
        hello, pipe = self.file("hello.obj", HELLO), self.folder / "sitting"
        os.mkfifo(pipe)
        said = f"lc3: {pipe}: nobody reads this FIFO: the sitting is not saved\n"
        for number, code, rest in ((signal.SIGINT, 3, said), (signal.SIGTERM, -15, "")):
            with subprocess.Popen(
                [*PYTHON, "run", "--save-sitting", str(pipe), str(hello)],
                stdin=subprocess.DEVNULL,
                stdout=subprocess.DEVNULL,
                stderr=subprocess.PIPE,
                env=ENVIRONMENT,
                preexec_fn=takes_signals,
            ) as running:
                assert running.stderr is not None
                self.assertIn(b"halted by HALT", running.stderr.readline())
                until = time.monotonic() + 60
                while running.poll() is None and time.monotonic() < until:
                    running.send_signal(number)
                    time.sleep(0.2)
                running.kill()
                self.assertEqual(running.wait(), code)
                self.assertEqual(running.stderr.read().decode(), rest)


class FewProcesses(Commands):
    """A system that has no more processes, or no more pipes for them."""

    def check(self, ended: subprocess.CompletedProcess[bytes], why: str) -> None:
        """That all candidates are marked all the same, and it is said by whom."""
        said = f"lc3: no more processes can be started ({why}): one marks all candidates\n"
        self.assertEqual((ended.returncode, ended.stderr.decode()), (1, said))
        verdicts = [line.get("verdict") for line in lines_of(ended.stdout)]
        self.assertEqual(verdicts, ["wrong display"] * 5 + [None])

    def marking(self) -> list[str]:
        """The words of a marking by several processes."""
        hello = self.file("hello.obj", HELLO)
        options = ("--json", "--jobs", 4, "--steps", 1000)
        return list(map(str, ("mark", "--cases", self.cases, *options, *[hello] * 5)))

    def test_processes(self) -> None:
        for left in (0, 1, 3):
            program = (
                "import errno, os; from fanthrig.command import main\n"
                f"usual, left = os.fork, [None] * {left}\n"
                "def fork():\n"
                "    if not left: raise BlockingIOError(errno.EAGAIN, os.strerror(errno.EAGAIN))\n"
                "    left.pop()\n"
                "    return usual()\n"
                "os.fork = fork\n"
                f"raise SystemExit(main({self.marking()!r}))\n"
            )
            command = [PYTHON[0], "-c", program]
            ended = subprocess.run(command, env=ENVIRONMENT, capture_output=True, timeout=60)
            self.check(ended, "Resource temporarily unavailable")

    def test_pipes(self) -> None:
        ended = subprocess.run(
            [*PYTHON, *self.marking()],
            env=ENVIRONMENT,
            capture_output=True,
            timeout=60,
            preexec_fn=lambda: resource.setrlimit(resource.RLIMIT_NOFILE, (8, 8)),
        )
        self.check(ended, "Too many open files")


if __name__ == "__main__":
    unittest.main()
