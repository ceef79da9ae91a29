"""Results for Gradescope, as JUnit XML and as feedback; markings that go on from others; folders of
course platforms; files of equal words."""

from __future__ import annotations

import fcntl
import json
import os
import re
import subprocess
import time
import unittest
from pathlib import Path
from typing import Any
from xml.etree import ElementTree

from fanthrig import marking
from fanthrig.marking import Found, student_of
from fanthrig.marking.platforms import handed_in

from .command_support import ENVIRONMENT, PYTHON, Ran
from .mark_support import Marking, doubling, lines_of, names, of_kind, untimed
from .support import object_file

# Gradescope's results.json, from https://gradescope-autograders.readthedocs.io/en/latest/specs/:
# the members of the object and of each test, with their types. Without "score" every test has one.
NUMBER, TEXT = (int, float), (str,)
VISIBILITY = {"hidden", "after_due_date", "after_published", "visible"}
FORMAT = {"text", "html", "simple_format", "md", "ansi"}
RESULTS: dict[str, tuple[type, ...]] = {
    "score": NUMBER,
    "execution_time": NUMBER,
    "output": TEXT,
    "output_format": TEXT,
    "test_output_format": TEXT,
    "test_name_format": TEXT,
    "visibility": TEXT,
    "stdout_visibility": TEXT,
    "extra_data": (dict,),
    "tests": (list,),
    "leaderboard": (list,),
}
TEST: dict[str, tuple[type, ...]] = {
    "score": NUMBER,
    "max_score": NUMBER,
    "status": TEXT,
    "name": TEXT,
    "name_format": TEXT,
    "number": TEXT,
    "output": TEXT,
    "output_format": TEXT,
    "tags": (list,),
    "visibility": TEXT,
    "extra_data": (dict,),
}

# The schema of Apache Ant's JUnit report (JUnit.xsd of windyroad): of each element its attributes,
# those that are needed with the form of their values, and the order of its children.
NAME, COUNT, DECIMAL = ".+", "[0-9]+", r"[0-9]+(\.[0-9]+)?"
JUNIT: dict[str, tuple[dict[str, str], set[str], str]] = {
    "testsuites": ({}, set(), "(testsuite )*"),
    "testsuite": (
        {
            "package": NAME,
            "id": COUNT,
            "name": NAME,
            "timestamp": r"\d{4}-\d{2}-\d{2}T\d{2}:\d{2}:\d{2}",
            "hostname": NAME,
            "tests": COUNT,
            "failures": COUNT,
            "errors": COUNT,
            "time": DECIMAL,
        },
        {"skipped"},
        "properties (testcase )*system-out system-err ",
    ),
    "properties": ({}, set(), "(property )*"),
    "property": ({"name": NAME, "value": ".*"}, set(), ""),
    "testcase": (
        {"name": NAME, "classname": NAME, "time": DECIMAL},
        set(),
        "(skipped |error |failure )?",
    ),
    "failure": ({"type": NAME}, {"message"}, ""),
    "error": ({"type": NAME}, {"message"}, ""),
    "system-out": ({}, set(), ""),
    "system-err": ({}, set(), ""),
}


class Forms(Marking):
    """Candidates of each kind."""

    def setUp(self) -> None:
        super().setUp()
        self.file("cases/two.json", '{"points": 2.5, "after": {"x5000": 1}}')
        self.file("data.obj", object_file(0x5000, 1))
        for name, content in (
            ("ada/right.obj", doubling()),
            ("bob/wrong.obj", doubling(1)),
            ("cyd/crash.obj", doubling(1, "RTI")),
            ("dan/refused.obj", b"\x30"),
            ("eve/x\x1b<&>\u00e9.obj", doubling()),
        ):
            self.file(f"students/{name}", content)
        self.top = self.folder / "students"

    def mark(self, *arguments: object) -> Ran:
        return super().mark("--data", self.folder / "data.obj", *arguments)


class Gradescope(Forms):
    """results.json."""

    def check(self, data: dict[str, Any], schema: dict[str, tuple[type, ...]]) -> None:
        """That an object is as the documentation has it."""
        for name, value in data.items():
            self.assertIn(name, schema)
            self.assertIsInstance(value, schema[name], name)
            self.assertNotIsInstance(value, bool)
        self.assertIn(data.get("visibility", "visible"), VISIBILITY)
        self.assertIn(data.get("output_format", "text"), FORMAT)
        self.assertIn(data.get("status", "passed"), {"passed", "failed"})

    def test_the_schema(self) -> None:
        scores = {}
        for path in sorted(self.top.glob("*/*.obj")):
            # The autograder has a folder with what was handed in.
            done = self.mark("--gradescope", path.parent)
            self.assertEqual((done.code, done.err), (0, ""))
            data = json.loads(done.out)
            self.check(data, RESULTS)
            for test in data["tests"]:
                self.check(test, TEST)
            self.assertEqual([test["max_score"] for test in data["tests"]], [1, 2.5])
            self.assertEqual(sum(test["score"] for test in data["tests"]), data["score"])
            scores[path.parent.name] = data["score"]
        self.assertEqual(scores, {"ada": 3.5, "bob": 0, "cyd": 0, "dan": 0, "eve": 3.5})

    def test_what_is_told(self) -> None:
        tests = json.loads(self.mark("--gradescope", self.top / "bob").out)["tests"]
        self.assertEqual(tests[0]["output"].splitlines()[0], "wrong display")
        self.assertIn("byte 2, line 1: expected 'a' (x61), got 'H' (x48)", tests[0]["output"])
        refused = json.loads(self.mark("--gradescope", self.top / "dan").out)
        self.assertIn("refused (17)", refused["output"])
        self.assertEqual({test["status"] for test in refused["tests"]}, {"failed"})
        self.assertEqual(self.mark("--gradescope", self.top).code, 2)


class Junit(Forms):
    """JUnit XML."""

    def check(self, element: ElementTree.Element) -> None:
        """That an element is as the schema has it."""
        needed, allowed, children = JUNIT[element.tag]
        self.assertLessEqual(set(element.attrib), set(needed) | allowed)
        for name, form in needed.items():
            self.assertRegex(element.attrib[name], f"^(?:{form})$")
        tags = "".join(f"{child.tag} " for child in element)
        self.assertRegex(tags, f"^(?:{children})$")
        for child in element:
            self.check(child)

    def test_the_schema(self) -> None:
        done = self.mark("--junit", self.top)
        self.assertEqual((done.code, done.err), (1, ""))
        suites = ElementTree.fromstring(done.out)
        self.assertEqual(suites.tag, "testsuites")
        self.check(suites)
        counts = [(s.get("tests"), s.get("failures"), s.get("errors")) for s in suites]
        passed, failed, refused = ("2", "0", "0"), ("2", "2", "0"), ("2", "0", "2")
        self.assertEqual(counts, [passed, failed, failed, refused, passed])
        for suite in suites:
            self.assertEqual(len(suite.findall("testcase/failure")), int(suite.get("failures", "")))
            self.assertEqual(len(suite.findall("testcase/error")), int(suite.get("errors", "")))
        self.assertTrue(suites[4].get("name", "").endswith("x\\x1b<&>\u00e9.obj"))
        # The document says that it is UTF-8, whatever the terminal's encoding.
        self.assertTrue(done.out.isascii())
        points = [suite.findall("properties/property")[1].get("value") for suite in suites]
        self.assertEqual(points, ["3.5", "0", "0", "0", "3.5"])
        types = [failure.get("type") for failure in suites.iter("failure")]
        self.assertEqual(types, ["wrong display", "wrong display", "exception", "exception"])


class Feedback(Forms):
    """Files that are handed back."""

    def test_one_file_for_each(self) -> None:
        done = self.mark("--feedback", self.folder / "back", self.top)
        self.assertEqual((done.code, done.err), (1, ""))
        back = self.folder / "back"
        found = {str(path.relative_to(back)) for path in back.rglob("*.txt")}
        given = {str(path.relative_to(self.top)) for path in self.top.rglob("*.obj")}
        self.assertEqual(found, {f"{name}.feedback.txt" for name in given})
        right = (self.folder / "back/ada/right.obj.feedback.txt").read_text()
        self.assertIn("Feedback on right.obj\n3.5 of 3.5 points; 2 of 2 cases passed\n", right)
        self.assertIn("Case two: right; 2.5 of 2.5 points\n", right)
        wrong = (self.folder / "back/bob/wrong.obj.feedback.txt").read_text()
        for text in (
            "Case one: wrong display; 0 of 1 point\n",
            "  halted by HALT; ",
            "  byte 2, line 1: expected 'a' (x61), got 'H' (x48)\n",
            "  the last 3 lines obeyed:\n",
            "  expected in all:\n    | aaHalted\n  shown in all:\n    | aHalted\n",
        ):
            self.assertIn(text, wrong)
        refused = (self.folder / "back/dan/refused.obj.feedback.txt").read_text()
        self.assertIn("refused (17)", refused)

    def feedback_on(self, file: bytes, *cases: marking.Case, seed: int | None = None) -> str:
        """The feedback on a file."""
        options = marking.Options(steps=1000, seed=seed)
        result = marking.Marking(cases, options).mark_bytes("a.obj", file)
        return marking.feedback(result, cases, (), seed)

    def test_what_was_expected_and_shown_whatever_failed(self) -> None:
        # The display is right, and the end is not.
        crash, word = object_file(0x3000, "TRAP x20", "TRAP x21", "RTI"), {"R1": 5}
        shown = marking.Case("a", b"k", b"k")
        told = self.feedback_on(crash, shown)
        self.assertIn("stopped by the privilege exception; ", told)
        self.assertIn("\n  shown in all, as expected:\n    | k\n", told)
        # The display is not compared.
        told = self.feedback_on(doubling(), marking.Case("a", None, b"k", end="exception"))
        self.assertIn("\n  end: expected exception, got halted\n", told)
        self.assertIn("\n  shown in all:\n    | kkHalted\n", told)
        silent = marking.Case("a", after=marking.Contents.of(word), end="steps made", steps=0)
        told = self.feedback_on(crash, silent)
        self.assertIn("\n  R1: expected x0005 (5), got x0000 (0)\n", told)
        self.assertNotIn("shown in all", told)
        self.assertNotIn("seed", told)
        self.assertIn("; random contents by --seed 7\n", self.feedback_on(crash, shown, seed=7))

    def test_the_end_that_was_expected_is_in_the_table(self) -> None:
        self.file("cases/two.json", '{"end": "waiting"}')
        table = self.mark(self.top / "bob").out.decode()
        self.assertIn("wrong.obj, case two: wrong end\n  halted by HALT; ", table)
        self.assertIn("\n  end: expected waiting, got halted\n", table)

    def test_the_seed_is_told_in_every_form(self) -> None:
        for chosen in ("random", "41"):
            options, top = ("--seed", chosen, "--feedback", self.folder / "back"), self.top / "ada"
            for form in ("--json", "--csv", "--one", "--gradescope", "--junit", None):
                out = self.mark(*options, *filter(None, [form]), top).out.decode()
                (text,) = (self.folder / "back").rglob("right.obj.feedback.txt")
                (seed,) = re.findall(r"random contents by --seed (\d+)\n", text.read_text())
                self.assertIn(chosen, ("random", seed))
                pattern = rf'"seed"+: {seed}\b|name="seed" value="{seed}"|; random contents by'
                self.assertRegex(out, pattern, form)
                self.assertIn(seed, out)

    def test_names(self) -> None:
        top, other = self.top / "ada", self.folder / "other"
        self.file("other/right.obj", doubling())
        long = self.file(f"other/{'n' * 250}.obj", doubling())
        done = self.mark("--feedback", self.folder / "back", top, other, long)
        self.assertEqual((done.code, done.err), (0, ""))
        written = sorted(os.listdir(self.folder / "back"))
        self.assertEqual(len(written), 4)
        self.assertIn("right.obj-2.feedback.txt", written)
        blocked = self.file("file", "")
        said = f"lc3: {blocked}: it is a file, and no folder: name another\n"
        self.assertEqual(self.mark("--feedback", blocked, top), (3, b"", said))
        self.assertEqual(self.mark("--feedback", blocked / "below", top).code, 3)

    def test_names_that_candidates_chose(self) -> None:
        # A folder of the name that a feedback file is to have.
        for name in ("a.obj", "a.obj.feedback.txt/b.obj", "z.obj"):
            self.file(f"mean/{name}", doubling())
        back = self.folder / "back"
        done = self.mark("--feedback", back, self.folder / "mean")
        self.assertEqual((done.code, done.err), (0, ""))
        beside = "a.obj.feedback.txt_b.obj.feedback.txt"
        written = ["a.obj.feedback.txt", beside, "z.obj.feedback.txt"]
        self.assertEqual(sorted(os.listdir(back)), written)
        # Many folders in one another, and too long a path.
        result = marking.Marking([marking.Case("a", b"")]).refused("a.obj", "refused")
        folder = marking.FeedbackFolder(str(back), [], ())
        for place in ("d/" * 1200 + "a.obj", ("d" * 200 + "/") * 50 + "a.obj"):
            path = Path(folder.write(result, place))
            self.assertEqual(path.parent, back)
            self.assertIn("Feedback on a.obj", path.read_text())

    def test_what_candidates_planted(self) -> None:
        # Feedback beside the hand-ins: links and pipes among these get nothing, and stop nothing.
        top = self.folder / "planted"
        for name in ("a", "b", "c"):
            self.file(f"planted/{name}.obj", doubling())
        own = self.file("own", "precious")
        os.symlink(own, top / "a.obj.feedback.txt")
        os.mkfifo(top / "b.obj.feedback.txt")
        os.mkdir(top / "c.obj.feedback.txt")
        done = self.mark("--feedback", top, top)
        self.assertEqual((done.code, done.err), (0, ""))
        self.assertEqual(own.read_text(), "precious")
        for name in ("a.obj", "b.obj", "c.obj-2"):
            path = top / f"{name}.feedback.txt"
            self.assertTrue(path.is_file() and not path.is_symlink())
            self.assertIn("2 of 2 cases passed", path.read_text())

    def test_feedback_is_no_candidate(self) -> None:
        # Texts are marked, and feedback lies beside them: a second marking marks the same.
        top = self.folder / "texts"
        words = "\n".join(f"x{word:04X}" for word in (0x3000, 0xF020, 0xF021, 0xF021, 0xF025))
        for name in ("a.txt", "deep/b.TXT", f"{'n' * 240}.txt"):
            self.file(f"texts/{name}", f"{words}\n")
        marked = [self.lines("--texts", "--feedback", top, top, code=0) for _ in range(3)]
        first, *others = ([c["candidate"] for c in of_kind("candidate", m)] for m in marked)
        self.assertEqual((len(first), others), (3, [first, first]))
        passed = of_kind("passed over", marked[2])
        self.assertEqual(len(passed), 3)
        for file in passed:
            self.assertIn("it is feedback of a marking", file["problem"])
        # Who names one has it marked.
        named = str(top / "a.txt.feedback.txt")
        self.assertEqual(self.mark("--texts", named).code, 1)


# A difference of displays by what is no byte.
NO_BYTE = {"byte": 1, "line": 1, "expected": 256, "got": 1, "expected_text": "", "got_text": ""}


class Resume(Forms):
    """Going on from results that are there."""

    def test_only_what_is_missing_is_marked(self) -> None:
        whole = self.mark("--json", self.top).out
        lines = whole.splitlines(keepends=True)
        # Cut off in the third line.
        before = self.file("before.jsonl", b"".join(lines[:2]) + lines[2][:100])
        done = self.mark("--json", "--resume", before, self.top)
        again = lines_of(done.out)
        self.assertEqual((done.code, done.err), (1, ""))
        self.assertEqual(untimed(again)[:-1], untimed(lines_of(whole))[:-1])
        self.assertEqual((again[-1]["marked"], again[-1]["resumed"]), (5, 2))
        self.assertEqual(again[:2], lines_of(whole)[:2])
        # In any form, and with feedback.
        for form in ("--csv", "--junit"):
            self.assertEqual(self.mark(form, "--resume", before, self.top).code, 1)
        options = ("--resume", before, "--feedback", self.folder / "b")
        table = self.mark(*options, self.top).out.decode()
        self.assertIn("2 of 5 candidates right; 1 flagged; 2 of them from before", table)
        self.assertEqual(len(list((self.folder / "b").rglob("*.txt"))), 5)

    def resumed(self, before: Path, *options: object) -> int:
        """The results that are taken over."""
        lines = lines_of(self.mark("--json", "--resume", before, *options, self.top).out)
        return int(of_kind("end", lines)[0]["resumed"])

    def test_what_is_marked_anew(self) -> None:
        before = self.file("before.jsonl", self.mark("--json", self.top).out)
        # The one that is refused has no words, but a file: it is what it was.
        self.assertEqual(self.resumed(before), 5)
        self.assertEqual(self.resumed(before, "--steps", 5000), 0)
        self.assertEqual(self.resumed(before, "--seed", 1), 0)
        self.file("students/ada/right.obj", doubling(3))
        self.assertEqual(self.resumed(before), 4)
        self.file("cases/one.keys", "b")
        self.assertEqual(self.resumed(before), 0)

    def test_files_that_are_no_results(self) -> None:
        whole = self.mark("--json", self.top / "ada").out.decode()
        altered = [
            whole.replace('"points": 3.5', '"points": "3"'),
            whole.replace('"last": []', '"last": 5'),
            whole.replace('"flags": []', '"flags": [{}]'),
            whole.replace('"points": 3.5', '"points": NaN'),
            whole.replace('"most": 3.5', '"most": 1e999'),
            whole.replace('"seconds": ', '"seconds": 1' + "0" * 400),
            whole.replace('"display": ""', '"display": "\\u0100"'),
            re.sub('"difference": null', f'"difference": {json.dumps(NO_BYTE)}', whole),
            "[]\n7\n\n{\n",
            "\0" * 100,
            "[" * 100_000,
        ]
        for content in altered:
            self.assertNotEqual(content, whole)
            before = self.file("before.jsonl", content)
            done = self.mark("--json", "--resume", before, self.top / "ada")
            self.assertEqual((done.code, done.err), (0, ""), content[:50])
            self.assertEqual(lines_of(done.out)[-1]["resumed"], 0)
        os.mkfifo(self.folder / "pipe")
        for path in (self.folder / "none", self.folder, self.folder / "pipe", "/dev/zero"):
            done = self.mark("--resume", path, self.top)
            self.assertEqual((done.code, done.out), (3, b""))
            self.assertIn(f"lc3: {path}: ", done.err)

    def test_lines_of_two_markings_that_add_to_one_file(self) -> None:
        # Many cases that fail make lines that are not written in one piece.
        for number in range(12):
            self.file(f"cases/more{number}.expected", "x" * 50)
        options = ["--cases", str(self.cases), "--steps", "20000", "--json", str(self.top)]
        path = self.folder / "both.jsonl"
        with open(path, "ab") as stream:
            command = [*PYTHON, "mark", *options]
            fcntl.lockf(stream, fcntl.LOCK_EX)
            both = [subprocess.Popen(command, stdout=stream, env=ENVIRONMENT) for _ in range(2)]
            # Nothing is written into a line of another.
            time.sleep(1.5)
            self.assertEqual(path.stat().st_size, 0)
            fcntl.lockf(stream, fcntl.LOCK_UN)
            self.assertEqual([marking.wait(60) for marking in both], [1, 1])
        lines = lines_of(path.read_bytes())
        self.assertEqual(len(of_kind("candidate", lines)), 10)
        self.assertGreater(max(map(len, path.read_bytes().splitlines())), 4096)

    def test_not_onto_itself(self) -> None:
        before = self.file("before.jsonl", self.mark("--json", self.top).out)
        command = ["mark", "--cases", str(self.cases), "--resume", str(before), str(self.top)]
        with open(before, "ab") as stream:
            done = subprocess.run(
                [*PYTHON, *command], stdout=stream, stderr=subprocess.PIPE, env=ENVIRONMENT
            )
        self.assertEqual(done.returncode, 2)
        self.assertIn(b"can't be written to at once", done.stderr)
        self.assertEqual(len(before.read_bytes().splitlines()), 6)


class Platforms(Marking):
    """Moodle and Canvas."""

    def test_moodle(self) -> None:
        for name in (
            "Ada Lovelace_12_assignsubmission_file_/sum.obj",
            "Bob_Builder_13_assignsubmission_file_/deep/sum.obj",
            "Cyd C_14_assignsubmission_file_sum.obj",
        ):
            self.file(f"moodle/{name}", doubling())
        self.file("moodle/Ada Lovelace_12_assignsubmission_onlinetext_/onlinetext.html", "<p>")
        lines = self.lines("--export", "moodle", self.folder / "moodle", code=0)
        found = [(line["student"], line["student_id"]) for line in of_kind("candidate", lines)]
        self.assertEqual(found, [("Ada Lovelace", "12"), ("Bob_Builder", "13"), ("Cyd C", "14")])
        self.assertEqual(len(of_kind("passed over", lines)), 1)
        text = self.mark("--csv", "--export", "moodle", self.folder / "moodle").out.decode()
        self.assertIn('"Ada Lovelace","12"', text)
        plain = self.marked(self.folder / "moodle", code=0)
        self.assertEqual({line["student"] for line in plain}, {None})

    def test_canvas(self) -> None:
        for name in (
            "lovelaceada_7_100_sum.obj",
            "lovelaceada_LATE_7_101_sum-1.obj",
            "lovelaceada_7_102_sum-10.obj",
            "lovelaceada_7_103_other-2.obj",
            "builderbob_8_104_sum.obj",
            "notes.obj",
        ):
            self.file(f"canvas/{name}", doubling())
        lines = self.lines("--export", "canvas", self.folder / "canvas", code=0)
        marked = of_kind("candidate", lines)
        found = {Path(line["candidate"]).name: line["student_id"] for line in marked}
        expected = {
            "builderbob_8_104_sum.obj": "8",
            "lovelaceada_7_102_sum-10.obj": "7",
            "lovelaceada_7_103_other-2.obj": "7",
            "notes.obj": None,
        }
        self.assertEqual(found, expected)
        for line in of_kind("passed over", lines):
            self.assertRegex(line["problem"], "it was handed in anew, as .*sum-10.obj")

    def test_names_that_are_none(self) -> None:
        for place in ("sum.obj", "a_b_c.obj", "a_1_assignsubmission_", "_1_2_x.obj", ""):
            self.assertIsNone(student_of(place, "canvas"), place)
            self.assertIsNone(student_of(place, "moodle"), place)
        self.assertEqual(handed_in([Found("x")], "canvas"), [Found("x")])


class Duplicates(Marking):
    """Files of equal words."""

    def test_are_listed(self) -> None:
        self.file("students/a.obj", doubling())
        self.file("students/b.obj", doubling(1))
        self.file("students/c.txt", "x3000\n" + "\n".join(self.words(doubling())))
        self.file("students/d.obj", b"\x40\x00" + doubling()[2:])
        self.file("students/e.obj", b"\x30\x00")
        self.file("students/f.obj", b"\x30\x00")
        lines = self.lines("--texts", self.folder / "students")
        (end,) = of_kind("end", lines)
        groups = [[Path(name).name for name in group] for group in end["duplicates"]]
        self.assertEqual(groups, [["a.obj", "c.txt", "d.obj"]])
        table = self.mark("--texts", self.folder / "students").out.decode()
        self.assertRegex(table, "\nequal words:\n  .*a.obj, .*c.txt, .*d.obj\n")
        self.assertNotIn("equal words", self.mark(self.folder / "students/a.obj").out.decode())
        self.assertEqual(len(names(self.marked(self.folder / "students"))), 5)

    @staticmethod
    def words(file: bytes) -> list[str]:
        """The words of an object file as text."""
        return [f"x{word.upper()}" for word in re.findall("....", file[2:].hex())]


if __name__ == "__main__":
    unittest.main()
