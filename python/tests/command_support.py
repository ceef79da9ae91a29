"""What the tests of the command share: commands in this process, in their own, and on terminals."""

from __future__ import annotations

import fcntl
import io
import os
import select
import signal
import subprocess
import sys
import tempfile
import termios
import time
import unittest
from contextlib import ExitStack
from pathlib import Path
from typing import Any, NamedTuple
from unittest import mock

from fanthrig.command import main
from fanthrig.running import NOTICED

from . import ROOT
from .support import object_file

HELLO = bytes.fromhex("3000 E002 F022 F025 0048 0069 000A 0000")
ENDLESS = object_file(0x3000, "BRnzp #-1")

# Echoes each key until q, which halts: GETC, OUT, R0 - 'q', loop, HALT.
UNTIL_Q = object_file(
    0x3000,
    "TRAP x20",
    "TRAP x21",
    "LD R1, #4",
    "ADD R0, R0, R1",
    "BRnp #-5",
    "TRAP x25",
    0,
    -ord("q") & 0xFFFF,
)

PYTHON = [sys.executable, "-m", "fanthrig"]
ENVIRONMENT = {**os.environ, "PYTHONPATH": str(ROOT / "python")}


def takes_signals() -> None:
    """In a new process: no signal that ends or stops a process is ignored, though the tests may run
    where some are, as in the background of a shell or under nohup."""
    for number in (*NOTICED, signal.SIGTSTP):
        signal.signal(number, signal.SIG_DFL)


class Ran(NamedTuple):
    """The end of a command: its exit code, and what it wrote."""

    code: int
    out: bytes
    err: str


def ran(*arguments: object, keys: bytes | None = None) -> Ran:
    """Runs the command in this process; ``keys`` come by a pipe, and without them none."""
    written = io.BytesIO(), io.BytesIO()
    out, err = (io.TextIOWrapper(stream, "utf-8") for stream in written)
    with ExitStack() as stack:
        stdin: Any = stack.enter_context(open(os.devnull))
        if keys is not None:
            reading, writing = os.pipe()
            os.write(writing, keys)
            os.close(writing)
            stdin = stack.enter_context(open(reading))
        for name, stream in (("stdin", stdin), ("stdout", out), ("stderr", err)):
            stack.enter_context(mock.patch(f"sys.{name}", stream))
        code = main([str(argument) for argument in arguments])
    out.flush()
    err.flush()
    return Ran(code, written[0].getvalue(), written[1].getvalue().decode())


def process(*arguments: object, keys: bytes = b"", **settings: Any) -> Ran:
    """Runs the command as a process of its own; its input is a pipe."""
    ended = subprocess.run(
        [*PYTHON, *map(str, arguments)],
        input=keys,
        capture_output=True,
        env=ENVIRONMENT,
        timeout=60,
        **settings,
    )
    return Ran(ended.returncode, ended.stdout, ended.stderr.decode())


class Folder(unittest.TestCase):
    """Tests with a folder of files."""

    def setUp(self) -> None:
        """Makes the folder."""
        folder = tempfile.TemporaryDirectory()
        self.addCleanup(folder.cleanup)
        self.folder = Path(folder.name)

    def file(self, name: str, content: bytes | str) -> Path:
        """Writes a file in the folder."""
        path = self.folder / name
        path.parent.mkdir(parents=True, exist_ok=True)
        path.write_bytes(content.encode() if isinstance(content, str) else content)
        return path


class OnTerminal:
    """A command on a pseudo-terminal of its own, as in a window."""

    def __init__(self, *arguments: object, stdout: int | None = None) -> None:
        """Starts the command; ``stdout`` may go elsewhere."""
        self.window, self.end = os.openpty()
        self.before = termios.tcgetattr(self.end)
        self.seen = b""
        self.process = subprocess.Popen(
            [*PYTHON, *map(str, arguments)],
            stdin=self.end,
            stdout=self.end if stdout is None else stdout,
            stderr=self.end,
            env=ENVIRONMENT,
            start_new_session=True,
            preexec_fn=self._begin,
        )

    @staticmethod
    def _begin() -> None:
        """In the new process: the terminal is to be the one that sends the signals of its keys and
        of its closing."""
        fcntl.ioctl(0, termios.TIOCSCTTY, 0)
        takes_signals()

    def __enter__(self) -> OnTerminal:
        """The command runs."""
        return self

    def __exit__(self, *_: object) -> None:
        """Ends the command if it has not ended, and closes the window."""
        if self.process.poll() is None:
            self.process.kill()
        self.process.wait()
        self.close()

    def close(self) -> None:
        """Closes the window."""
        for fd in {self.window, self.end} - {-1}:
            os.close(fd)
        self.window = self.end = -1

    def press(self, keys: bytes) -> None:
        """Presses keys."""
        os.write(self.window, keys)

    def see(self, text: bytes, seconds: float = 20) -> bytes:
        """Waits until a text is in the window, and answers all that is; or fails."""
        until = time.monotonic() + seconds
        while text not in self.seen:
            left = until - time.monotonic()
            if left < 0 or not select.select([self.window], [], [], left)[0]:
                raise AssertionError(f"{text!r} is not seen in {self.seen[-2000:]!r}")
            self.seen += os.read(self.window, 65536)
        return self.seen

    def attributes(self) -> list[Any]:
        """How the terminal is set."""
        return termios.tcgetattr(self.end)

    def ready(self) -> OnTerminal:
        """Waits until keys are handed over as they are pressed."""
        until = time.monotonic() + 20
        while self.attributes()[3] & termios.ICANON and time.monotonic() < until:
            time.sleep(0.01)
        return self

    def seconds(self) -> float:
        """The processor's time that the command has taken."""
        fields = Path(f"/proc/{self.process.pid}/stat").read_text().rpartition(")")[2].split()
        return (int(fields[11]) + int(fields[12])) / os.sysconf("SC_CLK_TCK")
