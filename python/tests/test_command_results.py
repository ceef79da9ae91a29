"""The results of ``lc3 mark``: their members, safe texts, and streams that can't be written to."""

from __future__ import annotations

import csv
import fcntl
import hashlib
import io
import json
import os
import re
import resource
import select
import shutil
import signal
import subprocess
import time
import unittest
from datetime import datetime, timezone
from pathlib import Path
from typing import Any

import fanthrig
from fanthrig.marking.report import COLUMNS, cell
from fanthrig.running import NOBODY_READS, WAITS

from . import ROOT
from .command_support import ENVIRONMENT, PYTHON, process, ran, takes_signals
from .mark_support import Lines, Marking, doubling, lines_of, of_kind
from .support import object_file

# Where GNU parallel is not installed: what it does with COMMAND ::: ARGUMENTS, by two processes.
STAND_IN = r"""
command=()
while [ "$1" != ::: ]; do command+=("$1"); shift; done
shift
printf '%s\0' "$@" | xargs -0 -n 1 -P 2 "${command[@]}"
"""


def manual(page: str = "lc3.1") -> str:
    """The text of a manual page."""
    return (ROOT / "docs" / page).read_text(encoding="ascii")


def members_of_the_manual() -> dict[str, list[str]]:
    """The names that each section on results lists."""
    text = manual("lc3-mark.5").partition("\n.SH RESULTS\n")[2].partition("\n.SH ")[0]
    _, *parts = re.split(r'\n\.SS "(.*)"\n', text)
    return {title: re.findall(r"\.TP\n\.B (.*)\n", body) for title, body in zip(*[iter(parts)] * 2)}


class Members(Marking):
    """What the manual says of the members is what is written."""

    def lines_of_all_kinds(self) -> list[dict[str, Any]]:
        """A marking with a candidate of each kind."""
        for name, content in (
            ("right.obj", doubling()),
            ("wrong.obj", doubling(1)),
            ("crash.obj", doubling(1, "RTI")),
            ("other.obj", doubling(2, "AND R0, R0, #0") + doubling(0)[-2:]),
            ("refused.obj", b""),
            ("notes.txt", b""),
        ):
            self.file(f"students/{name}", content)
        self.file("cases/two.json", '{"after": {"x5000": 1, "R0": 10}}')
        self.file("with.obj", object_file(0x2000, 1))
        self.file("data.obj", object_file(0x5000, 1))
        options = ("--with", self.folder / "with.obj", "--data", self.folder / "data.obj")
        return self.lines(*options, self.folder / "students")

    def test_json(self) -> None:
        lines, told = self.lines_of_all_kinds(), members_of_the_manual()
        results = [one for line in lines for one in line.get("results", [])]
        written: dict[str, Lines] = {
            "JSON: a candidate": of_kind("candidate", lines),
            "JSON: a case in results": results,
            "JSON: a flag in flags": [flag for one in results for flag in one["flags"]],
            "JSON: difference": [one["difference"] for one in results if one["difference"]],
            "JSON: a mismatch in mismatches": sum((one["mismatches"] for one in results), []),
            "JSON: options": [line["options"] for line in of_kind("candidate", lines)],
            "JSON: a file that was passed over": of_kind("passed over", lines),
            "JSON: the end": of_kind("end", lines),
        }
        self.assertEqual([*written, "CSV: columns"], list(told))
        for title, objects in written.items():
            self.assertTrue(objects, title)
            for item in objects:
                self.assertEqual(list(item), told[title], title)
        for file in (*lines[0]["options"]["with"], *lines[0]["options"]["data"]):
            self.assertEqual(list(file), ["file", "sha256"])

    def test_one(self) -> None:
        self.lines_of_all_kinds()
        for name in ("right.obj", "refused.obj"):
            (line,) = lines_of(self.mark("--one", self.folder / "students" / name).out)
            self.assertEqual(list(line), members_of_the_manual()["JSON: a candidate"])

    def test_csv(self) -> None:
        self.lines_of_all_kinds()
        text = self.mark("--csv", self.folder / "students").out.decode()
        rows = list(csv.reader(io.StringIO(text)))
        self.assertEqual(rows[0], members_of_the_manual()["CSV: columns"])
        self.assertEqual({len(row) for row in rows}, {len(COLUMNS)})
        self.assertEqual(len(rows), 1 + 5 * 2 + 1)

    def test_endings_and_verdicts_are_in_the_manual(self) -> None:
        text = " ".join(manual("lc3-mark.5").partition("\n.SH RESULTS\n")[2].split())
        for kind in fanthrig.EndKind:
            # A marking has no breakpoints, and one that is interrupted has no result.
            if kind not in (fanthrig.EndKind.BREAKPOINT, fanthrig.EndKind.INTERRUPTED):
                self.assertIn(kind.value, text)

    def test_every_end_of_a_run_is_in_the_manual(self) -> None:
        text = " ".join(manual().partition('\n.SH "HOW A RUN ENDS"\n')[2].split())
        stops = [fanthrig.Stop.DONE.text, fanthrig.Stop.OUTPUT_FULL.text]
        for told in (*stops, WAITS.partition(",")[0], "stopped by Ctrl-C", NOBODY_READS):
            self.assertIn(told, text)

    def test_what_a_result_is_held_against(self) -> None:
        lines = self.lines_of_all_kinds()
        right = next(line for line in lines if line["candidate"].endswith("right.obj"))
        self.assertEqual(right["sha256"], hashlib.sha256(doubling()).hexdigest())
        self.assertEqual(right["interface"], fanthrig.VERSION)
        self.assertEqual(right["lc3"], fanthrig.__version__)
        (beside,) = right["options"]["with"]
        digest = hashlib.sha256(object_file(0x2000, 1)).hexdigest()
        self.assertEqual(beside, {"file": str(self.folder / "with.obj"), "sha256": digest})
        time = datetime.strptime(right["time"], "%Y-%m-%dT%H:%M:%SZ").replace(tzinfo=timezone.utc)
        self.assertLess(abs((datetime.now(timezone.utc) - time).total_seconds()), 60)

    def test_the_hash_of_cases_is_that_of_what_they_say(self) -> None:
        path = self.file("right.obj", doubling())

        def digest(cases: object) -> str:
            """The hash by a marking."""
            done = ran("mark", "--cases", cases, "--one", path)
            return str(json.loads(done.out)["options"]["cases_sha256"])

        same: list[dict[str, Any]] = [
            {"name": "one", "keys": "a", "expected": "aaHalted\n"},
            {"name": "two", "keys": "\n", "expected": "\n\nHalted\n", "steps": 20000},
        ]
        first = digest(self.cases)
        self.assertEqual(digest(self.file("same.json", json.dumps(same))), first)
        self.assertNotEqual(digest(self.file("same.json", json.dumps(same[::-1]))), first)
        for member, value in (("name", "x"), ("keys", "b"), ("expected", "x"), ("steps", 9)):
            other = [{**same[0], member: value}, same[1]]
            self.assertNotEqual(digest(self.file("other.json", json.dumps(other))), first)


class Texts(Marking):
    """Names that spreadsheets, terminals and readers of JSON would stumble over."""

    def test_cells_are_no_formulas(self) -> None:
        for text in ("=1+1", "+1", "-1", "@SUM(A1)", "\uff1d1", " =1"):
            self.assertEqual(cell(text), f"'{text}")
        for text in ("\t=1", "\r=1", "\n=1"):
            self.assertEqual(cell(text), repr(text)[1:-1])
        for text in ("a=1", "students/=1.obj", ""):
            self.assertEqual(cell(text), text)
        names = ["=cmd|' '!A1.obj", "@x.obj", "-x.obj", "a;=1+1;.obj", 'a","=1.obj', "\t=1.obj"]
        for name in names:
            self.file(f"s/{name}", doubling())
        self.file("cases/=1+1.expected", "")
        command = [*PYTHON, "mark", "--cases", str(self.cases), "--csv", "--", *names]
        ended = subprocess.run(
            command, env=ENVIRONMENT, capture_output=True, cwd=self.folder / "s"
        )
        for separator in ",;\t":
            for row in csv.reader(io.StringIO(ended.stdout.decode()), delimiter=separator):
                for value in row:
                    self.assertFalse(value.startswith(("=", "+", "-", "@", "\t", "\r")), value)
        rows = list(csv.DictReader(io.StringIO(ended.stdout.decode())))
        self.assertEqual({row["case"] for row in rows}, {"'=1+1", "one", "two"})
        self.assertEqual(len({row["candidate"] for row in rows}), len(names))

    def test_names_that_are_no_text(self) -> None:
        raw = os.fsencode(self.folder) + b"/\xff\xfe\xc3\xa9.obj"
        name = os.fsdecode(raw)
        with open(name, "wb") as stream:
            stream.write(doubling())
        literal = self.file("\\udcff\\udcfe\u00e9.obj", doubling())
        case = [{"name": "\ud800", "keys": "a", "expected": "aaHalted\n"}]
        cases = self.file("cases.json", json.dumps(case))
        done = process("mark", "--cases", cases, "--json", name, literal)
        done.out.decode("ascii")
        first, second, _ = lines_of(done.out)
        # No reader of JSON meets a lone surrogate.
        json.dumps([first, second], ensure_ascii=False).encode("utf-8")
        self.assertEqual(first["candidate"], second["candidate"])
        self.assertEqual((first["name_hex"], second["name_hex"]), (raw.hex(), None))
        self.assertEqual(first["results"][0]["case"], "\\ud800")
        for form in ((), ("--csv",)):
            done = process("mark", "--cases", cases, *form, name)
            self.assertIn("\\udcff\\udcfe\u00e9.obj", done.out.decode("utf-8"))


class Streams(Marking):
    """Results are written as they come, or it is said why not."""

    def setUp(self) -> None:
        super().setUp()
        self.command = [*PYTHON, "mark", "--cases", str(self.cases), "--json", "--steps", "9999"]

    def test_a_full_disk(self) -> None:
        right = self.file("right.obj", doubling())
        for form in ((), ("--json",), ("--csv",), ("--one",)):
            for jobs in (1, 2):
                command = [*PYTHON, "mark", "--cases", str(self.cases), *form, "--jobs", str(jobs)]
                files = [str(right)] * (1 if form == ("--one",) else 3)
                with open("/dev/full", "w") as full:
                    ended = subprocess.run(
                        [*command, *files], stdout=full, stderr=subprocess.PIPE, env=ENVIRONMENT
                    )
                said = "lc3: standard output: no space is left: free some, or name another place\n"
                self.assertEqual((ended.returncode, ended.stderr.decode()), (3, said))

    def test_a_file_that_may_not_grow(self) -> None:
        paths, _ = self.planted(20)
        out = self.folder / "marks.jsonl"
        with open(out, "wb") as stream:
            ended = subprocess.run(
                [*self.command, *map(str, paths)],
                stdout=stream,
                stderr=subprocess.PIPE,
                env=ENVIRONMENT,
                preexec_fn=lambda: resource.setrlimit(resource.RLIMIT_FSIZE, (5000, 5000)),
            )
        self.assertEqual(ended.returncode, 3)
        self.assertIn(b"lc3: standard output: File too large", ended.stderr)
        # What was written before can be read.
        whole = out.read_bytes().rpartition(b"\n")[0]
        self.assertEqual(lines_of(whole)[0]["candidate"], str(paths[0]))

    def test_a_reader_that_is_gone(self) -> None:
        paths, _ = self.planted(20)
        for jobs in (1, 2):
            with subprocess.Popen(
                [*self.command, "--jobs", str(jobs), *map(str, paths)],
                stdout=subprocess.PIPE,
                stderr=subprocess.PIPE,
                env=ENVIRONMENT,
            ) as running:
                assert running.stdout is not None and running.stderr is not None
                self.assertEqual(json.loads(running.stdout.readline())["kind"], "candidate")
                running.stdout.close()
                said = "standard output can't be written to any more: whoever read it is gone"
                self.assertEqual(running.stderr.read().decode(), f"lc3: {said}\n")
                self.assertEqual(running.wait(20), 3)

    def test_closed_streams(self) -> None:
        right = self.file("right.obj", doubling())
        command = f'{" ".join(PYTHON)} mark --cases {self.cases} {right}'
        said = b"lc3: standard output: it is closed: give it a file, a pipe or a terminal\n"
        for closed, code, err in (
            ("2>&-", 0, b""),
            ("<&-", 0, b""),
            # Results that nobody can have are no success.
            (">&-", 3, said),
            ("--json >&-", 3, said),
            ("--csv >&-", 3, said),
            ("--one >&-", 3, said),
            ("<&- >&-", 3, said),
            ("<&- >&- 2>&-", 3, b""),
            # Open, but to be read.
            ("1</dev/null", 3, said),
        ):
            ended = subprocess.run(
                ["bash", "-c", f"{command} {closed}"], env=ENVIRONMENT, capture_output=True
            )
            self.assertEqual((ended.returncode, ended.stderr), (code, err), closed)

    def test_a_latin_terminal(self) -> None:
        path = self.file("\u4e2d\u00e9.obj", doubling())
        environment = {**ENVIRONMENT, "PYTHONIOENCODING": "latin-1"}
        command = [*PYTHON, "mark", "--cases", str(self.cases), str(path)]
        ended = subprocess.run(command, env=environment, capture_output=True)
        self.assertEqual(ended.returncode, 0)
        self.assertIn(b"\\u4e2d\xe9.obj", ended.stdout)


def catches(pid: int, number: int) -> bool:
    """Whether a process has a handler of its own for a signal."""
    status = Path(f"/proc/{pid}/status").read_text()
    return bool(int(status.partition("SigCgt:")[2].split()[0], 16) >> number - 1 & 1)


class ByMany(Marking):
    """One line each, by processes that share their output."""

    def test_one_line_each_by_two_workers(self) -> None:
        paths, planted = self.planted(10)
        # Many failing cases make lines that a pipe does not take in one piece.
        for number in range(12):
            self.file(f"cases/more{number}.expected", "x" * 50)
        command = ["xargs", "-0", "-n", "1", "-P", "2", *PYTHON]
        command += ["mark", "--cases", str(self.cases), "--steps", "20000", "--one"]
        given = "\0".join(map(str, paths)).encode()
        ended = subprocess.run(command, input=given, capture_output=True, env=ENVIRONMENT)
        self.assertEqual((ended.returncode, ended.stderr), (0, b""))
        results = sorted(lines_of(ended.stdout), key=lambda result: str(result["candidate"]))
        self.assertEqual([result["candidate"] for result in results], [str(path) for path in paths])
        for result, verdict in zip(results, planted):
            if verdict == "refused":
                self.assertEqual(result["verdict"], verdict)
            else:
                ones = {one["case"]: one["verdict"] for one in result["results"]}
                self.assertEqual((ones["one"], ones["two"]), (verdict, verdict))
        self.assertGreater(max(map(len, ended.stdout.splitlines())), 4096)

    def test_a_line_waits_until_another_is_written(self) -> None:
        path = self.file("double.obj", doubling())
        reading, writing = os.pipe()
        with open(reading, "rb") as lines, open(writing, "wb") as others:
            fcntl.lockf(others, fcntl.LOCK_EX)
            command = [*PYTHON, "mark", "--cases", str(self.cases), "--one", str(path)]
            with subprocess.Popen(command, stdout=others, env=ENVIRONMENT) as marking_one:
                self.assertEqual(select.select([lines], [], [], 1)[0], [])
                fcntl.lockf(others, fcntl.LOCK_UN)
                self.assertEqual(json.loads(lines.readline())["verdict"], "right")
                self.assertEqual(marking_one.wait(20), 0)
            # One that is stopped while it waits writes nothing into the line of another.
            fcntl.lockf(others, fcntl.LOCK_EX)
            with subprocess.Popen(
                command,
                stdout=others,
                stderr=subprocess.PIPE,
                env=ENVIRONMENT,
                preexec_fn=takes_signals,
            ) as marking_one:
                # It has begun to notice signals before it comes to the line.
                until = time.monotonic() + 60
                while not catches(marking_one.pid, signal.SIGTERM) and time.monotonic() < until:
                    time.sleep(0.01)
                self.assertEqual(select.select([lines], [], [], 1)[0], [])
                marking_one.send_signal(signal.SIGINT)
                self.assertEqual(marking_one.wait(20), -signal.SIGINT)
                self.assertEqual(select.select([lines], [], [], 0)[0], [])

    def commands_of_the_manual(self) -> list[str]:
        """The lines of the manual page that spread a marking over processes of this host."""
        lines = manual().replace("\\-", "-").replace("\\e", "\\").splitlines()
        return [line for line in lines if "lc3 mark --one" in line and " > " in line][:2]

    def tools(self) -> str:
        """A folder of programs: the command, and GNU parallel or else a stand-in for it."""
        programs = {"lc3": f'exec {" ".join(PYTHON)} "$@"'}
        found = shutil.which("parallel")
        told = found and subprocess.run([found, "--version"], capture_output=True).stdout
        if not told or b"GNU" not in told:
            programs["parallel"] = STAND_IN
        for name, text in programs.items():
            self.file(f"bin/{name}", f"#!/bin/bash\n{text}\n").chmod(0o755)
        return str(self.folder / "bin")

    def test_the_manual_s_commands_by_two_workers(self) -> None:
        paths, planted = self.planted(12)
        paths[0].parent.rename(self.folder / "students")
        path = f"{self.tools()}:{os.environ['PATH']}"
        own = {"PATH": path, "PARALLEL": "--jobs 2", "HOME": str(self.folder)}
        environment = {**ENVIRONMENT, **own}
        commands = self.commands_of_the_manual()
        self.assertEqual([command.split()[0] for command in commands], ["parallel", "printf"])
        for command in commands:
            ended = subprocess.run(
                ["bash", "-c", command], cwd=self.folder, env=environment, capture_output=True
            )
            self.assertEqual(ended.returncode, 0, ended.stderr)
            lines = lines_of((self.folder / "marks.jsonl").read_text())
            found = {result["candidate"]: result["verdict"] for result in lines}
            expected = {f"students/{n:03}.obj": verdict for n, verdict in enumerate(planted)}
            self.assertEqual((len(lines), found), (12, expected))


if __name__ == "__main__":
    unittest.main()
