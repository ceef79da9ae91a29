"""The cases of a marking: folders and JSON files, and what is wrong with some."""

from __future__ import annotations

import json
import os
import resource
import subprocess
import unittest
from pathlib import Path
from unittest import mock

from fanthrig.marking import cases as of_cases
from fanthrig.marking.cases import Case, cases_of
from fanthrig.telling import FileError

from .command_support import ENVIRONMENT, HELLO, PYTHON, Folder, ran


class Cases(Folder):
    """Folders and JSON files of cases, and what is wrong with some."""

    def test_a_folder(self) -> None:
        self.file("cases/b.expected", b"\x00\xff")
        self.file("cases/a.expected", "")
        self.file("cases/a.keys", b"\n\xfe")
        self.file("cases/a.steps", "1000\n")
        self.file("cases/README", "nothing")
        self.file("cases/dotted.name.expected", "x")
        expected = [
            Case("a", b"", b"\n\xfe", 1000),
            Case("b", b"\x00\xff"),
            Case("dotted.name", b"x"),
        ]
        self.assertEqual(cases_of(str(self.folder / "cases")), expected)

    def test_a_json_file(self) -> None:
        data = [
            {"name": "z", "expected": "\u00ff\n", "keys": "k", "steps": 5},
            {"name": "a", "expected": ""},
        ]
        path = self.file("cases.json", json.dumps(data))
        expected = [Case("z", b"\xff\n", b"k", 5), Case("a", b"")]
        self.assertEqual(cases_of(str(path)), expected)

    def test_wrong_folders(self) -> None:
        wrong: tuple[tuple[dict[str, str], str], ...] = (
            ({}, "no cases"),
            ({"a.keys": "x"}, "a.expected is missing"),
            ({"a.steps": "1", "b.expected": ""}, "a.expected is missing"),
            ({"a.expected": "", "a.steps": "many"}, "a.steps is not a number"),
            ({"a.expected": "", "a.steps": "-1"}, "a.steps is not a number"),
            ({"a.expected": "", "a.steps": "9" * 17}, "a.steps is not a number"),
            ({"a.expected": "", "a.steps": "9" * 9999}, "a.steps is not a number"),
        )
        for files, said in wrong:
            folder = self.folder / f"cases{said}{len(files)}{len(str(files))}"
            folder.mkdir()
            for name, content in files.items():
                (folder / name).write_text(content)
            self.refused(folder, said)
        odd = self.folder / "odd"
        (odd / "a.expected").mkdir(parents=True)
        self.refused(odd, "it is a folder, and not a file")

    def test_what_is_no_regular_file_in_a_folder(self) -> None:
        self.file("cases/a.expected", "")
        os.mkfifo(self.folder / "cases/a.keys")
        self.refused(self.folder / "cases", "it is a FIFO, and not a regular file")
        (self.folder / "cases/a.keys").unlink()
        # The folder is the examiner's own, and so are the links in it.
        (self.folder / "cases/a.keys").symlink_to(self.file("keys", "k"))
        self.assertEqual(cases_of(str(self.folder / "cases")), [Case("a", b"", b"k")])

    def test_a_json_file_may_be_a_pipe(self) -> None:
        command = f'{" ".join(PYTHON)} mark --cases <(echo "$CASES") "$FILE"'
        cases = json.dumps([{"name": "a", "expected": "Hi\nHalted\n"}])
        environment = {**ENVIRONMENT, "CASES": cases, "FILE": str(self.file("hello.obj", HELLO))}
        ended = subprocess.run(["bash", "-c", command], env=environment, capture_output=True)
        self.assertEqual((ended.returncode, ended.stderr), (0, b""))

    def test_wrong_json_files(self) -> None:
        case = {"name": "a", "expected": ""}
        for text, said in (
            ("", "not JSON"),
            ("[" * 100_000, "not JSON"),
            ("\xff\xfe", "not JSON"),
            ("{}", "not a list"),
            ("[]", "no cases"),
            ("[1]", "case 1 is not an object"),
            (json.dumps([case, case]), "two cases have the name 'a'"),
            (json.dumps([case, {"name": "b"}]), "case 2 has no 'expected'"),
            (json.dumps([{**case, "expcted": ""}]), "case 1 has 'expcted'; its members are"),
            (json.dumps([{**case, "keys": "\u0100"}]), "'keys' of case 1 is no string"),
            (json.dumps([{**case, "keys": 5}]), "'keys' of case 1 is no string"),
            (json.dumps([{**case, "steps": "5"}]), "'steps' of case 1 is no number"),
            (json.dumps([{**case, "steps": True}]), "'steps' of case 1 is no number"),
            (json.dumps([{**case, "steps": -1}]), "'steps' of case 1 is no number"),
            (json.dumps([{**case, "name": None}]), "'name' of case 1 is no string"),
            ('[{"name": "a", "expected": "x", "expected": ""}]', "'expected' is there twice"),
            ("[" + "9" * 5000 + "]", "no cases: "),
        ):
            self.refused(self.file("cases.json", text.encode("latin-1")), said)

    def test_very_many_cases(self) -> None:
        many = [{"name": str(number), "expected": ""} for number in range(100_000)]
        path = self.file("cases.json", json.dumps(many))
        self.assertEqual(len(cases_of(str(path))), 100_000)
        self.refused(self.file("cases.json", json.dumps([*many, many[7]])), "the name '7'")

    def test_files_that_are_too_long(self) -> None:
        self.file("cases/a.expected", b"x" * 600)
        self.file("cases/b.expected", b"x" * 600)
        with mock.patch.object(of_cases, "LONGEST_FOLDER", 1 << 10):
            self.refused(self.folder / "cases", "with the files before it, it is longer than")
        with mock.patch.object(of_cases, "LONGEST_FOLDER", 1200):
            self.assertEqual(len(cases_of(str(self.folder / "cases"))), 2)

    def test_memory_is_bounded(self) -> None:
        sparse, long = self.file("sparse/a.expected", ""), self.file("long.json", "")
        os.truncate(sparse, 1 << 36)
        os.truncate(long, 1 << 36)
        # As many objects as a file of this length can have.
        dense = self.file("dense.json", b"[" + b"{}," * ((1 << 24) // 3 - 2) + b"{}]")
        for cases, said in (
            (long, "it is longer than 16 MiB"),
            (sparse.parent, "it is longer than 64 MiB"),
            (dense, "case 1 has no 'expected'"),
        ):
            ended = subprocess.run(
                [*PYTHON, "mark", "--cases", str(cases), str(self.file("hello.obj", HELLO))],
                env=ENVIRONMENT,
                capture_output=True,
                preexec_fn=lambda: resource.setrlimit(resource.RLIMIT_AS, (1 << 30, 1 << 30)),
            )
            self.assertEqual((ended.returncode, ended.stdout), (3, b""), ended.stderr)
            self.assertIn(said, ended.stderr.decode())

    def refused(self, path: Path, said: str) -> None:
        """That cases are refused, by the command as well."""
        with self.assertRaises(FileError) as caught:
            cases_of(str(path))
        self.assertIn(said, str(caught.exception))
        self.assertTrue(str(caught.exception).startswith(str(path)))
        code, out, err = ran("mark", "--cases", path, self.file("hello.obj", HELLO))
        self.assertEqual((code, out, err.count("\n")), (3, b"", 1))


if __name__ == "__main__":
    unittest.main()
