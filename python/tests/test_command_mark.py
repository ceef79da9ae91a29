"""``lc3 mark``: planted faults, differences, steps, exit codes, and the options of the machine."""

from __future__ import annotations

import csv
import io
import json
import random
import unittest
from collections import Counter
from typing import Any
from unittest import mock

import fanthrig
from fanthrig import marking
from fanthrig.marking import Case

from .command_support import UNTIL_Q, ran
from .mark_support import Marking, doubling, names, verdicts
from .support import COUNTING, object_file

# Shows R0 for ever.
FLOOD = object_file(0x3000, "TRAP x21", "BRnzp #-2")


class Verdicts(Marking):
    """Candidates against cases."""

    def test_200_candidates_with_planted_faults(self) -> None:
        paths, planted = self.planted(200)
        options = ("--steps", 20000, "--jobs", 2)
        results = self.marked(*options, *paths)
        self.assertEqual(names(results), [str(path) for path in paths])
        self.assertEqual(verdicts(results), planted)
        self.assertEqual(set(Counter(planted).values()), {40})
        self.assertEqual(results, self.marked("--steps", 20000, "--jobs", 1, *paths))
        for result in results:
            self.check(result)
        table = self.mark(*options, *paths).out.decode()
        self.assertIn("\n40 of 200 candidates right; 40 flagged\n", table)
        for verdict in ("wrong display", "not halted", "exception"):
            self.assertEqual(table.count(f"  0/2  {verdict} in one"), 40)
            self.assertEqual(table.count(f": {verdict}\n"), 80)
        self.assertEqual(table.count("  0/2  refused ("), 40)
        self.assertEqual(table.count("  2/2  right\n"), 40)
        text = self.mark("--csv", *options, *paths).out.decode()
        rows = list(csv.DictReader(io.StringIO(text)))
        self.assertEqual(len(rows), 400)
        self.assertEqual(set(Counter(row["verdict"] for row in rows).values()), {80})

    def check(self, result: dict[str, Any]) -> None:
        """That a result has what its verdict needs."""
        self.assertEqual(result["cases"], 2)
        self.assertEqual(result["right"], 2 if result["verdict"] == "right" else 0)
        self.assertEqual(bool(result["problem"]), result["verdict"] == "refused")
        for one in result["results"]:
            self.assertEqual(bool(one["last"]), one["verdict"] != "right")
            self.assertEqual(bool(one["flags"]), one["verdict"] == "exception")
            self.assertLessEqual(len(one["last"]), 10)
            if one["verdict"] in ("wrong display", "exception"):
                self.assertIsNotNone(one["difference"])

    def test_the_first_difference_and_the_last_lines(self) -> None:
        self.file("cases/one.expected", "aaHolted\n")
        path = self.file("double.obj", doubling())
        (result,) = self.marked(path)
        self.assertEqual((result["verdict"], result["right"]), ("wrong display", 1))
        one = result["results"][0]
        found = one["difference"]
        self.assertEqual((found["byte"], found["line"]), (4, 1))
        self.assertEqual((found["expected"], found["got"]), (ord("o"), ord("a")))
        table = self.mark(path).out.decode()
        self.assertIn("byte 4, line 1: expected 'o' (x6F), got 'a' (x61)", table)
        self.assertIn("expected: 'aaHolted\\n'", table)
        sitting = fanthrig.Sitting(path)
        sitting.type("a")
        sitting.run()
        own = [step for step in sitting.last_steps(1000) if step.pc >= 0x3000]
        last = [str(step) for step in own]
        self.assertEqual(one["last"], last)
        self.assertIn("the last 4 lines obeyed:\n    " + "\n    ".join(last), table)

    def test_displays_that_are_too_short_or_too_long(self) -> None:
        paths = [self.file(f"{n}.obj", doubling(n)) for n in (1, 3)] + [self.file("f.obj", FLOOD)]
        short, long, flood = self.marked(*paths)
        self.assertEqual(short["results"][0]["difference"]["got"], ord("H"))
        self.assertEqual(long["results"][0]["difference"]["expected"], ord("H"))
        self.assertEqual(flood["verdict"], "wrong display")
        self.assertEqual(flood["results"][0]["ending"], "output limit")
        self.assertEqual(flood["results"][0]["ended"], "more was shown than is expected")
        self.assertLess(flood["results"][0]["steps"], 1000)
        # All that is expected, and one byte more.
        self.file("cases/one.expected", "aa")
        found = self.marked(paths[1])[0]["results"][0]["difference"]
        self.assertEqual((found["byte"], found["expected"], found["got"]), (3, None, ord("a")))

    def test_right_bytes_without_a_halt(self) -> None:
        self.file("cases/one.expected", "aa")
        path = self.file("wait.obj", doubling(2, "TRAP x20"))
        (result,) = self.marked(path)
        one = result["results"][0]
        self.assertEqual((one["verdict"], one["difference"]), ("not halted", None))
        self.assertEqual((one["ending"], one["line"]), ("waiting", "TRAP x20"))

    def test_steps(self) -> None:
        path = self.file("double.obj", doubling())
        for steps, expected in ((1, ["not halted", "right"]), (20000, ["right", "right"])):
            (result,) = self.marked("--steps", steps, path, code=int("not halted" in expected))
            self.assertEqual(verdicts(result["results"]), expected)
        table = self.mark("--steps", 1, path).out.decode()
        self.assertIn("; 1 step; PC x3000: TRAP x20\n", table)
        self.assertIn("  the last line obeyed:\n    x3000  xF020  TRAP x20 ", table)
        count = self.file("count.obj", COUNTING)
        (result,) = self.marked("--steps", 12345, count)
        self.assertEqual([one["steps"] for one in result["results"]], [12345, 20000])

    def test_exit_codes(self) -> None:
        right, wrong = self.file("right.obj", doubling()), self.file("wrong.obj", doubling(1))
        for form in ((), ("--json",), ("--csv",)):
            self.assertEqual(self.mark(*form, right, right).code, 0)
            self.assertEqual(self.mark(*form, right, wrong).code, 1)
        self.assertEqual(self.mark("--one", wrong).code, 0)
        done = self.mark("--one", right, wrong)
        self.assertEqual((done.code, "--one marks one file" in done.err), (2, True))
        folder = self.file("some/right.obj", doubling()).parent
        self.assertEqual(self.mark("--one", folder).code, 0)
        self.file("some/notes.txt", "")
        self.assertEqual(self.mark("--one", folder).code, 2)


class Machines(Marking):
    """The options of the machine, and what all candidates share."""

    def test_options_of_the_machine(self) -> None:
        data = self.file("data.obj", object_file(0x4000, ord("z"), 0))
        reader = object_file(0x3001, "LD R0, #2", "TRAP x22", "TRAP x25", 0x4000)
        path, cases = self.file("reader.obj", reader), self.file(
            "cases.json", json.dumps([{"name": "z", "expected": "zHalted\n"}])
        )
        arguments = ["mark", "--cases", cases, "--one", "--data", data]
        wanted: tuple[tuple[list[str], str], ...] = (
            ([], "right"),
            (["--pc", "x3001", "--stack", "x5000", "--supervisor"], "right"),
            (["--pc", "x3003"], "wrong display"),
            (["--no-monitor", "--steps", "1000"], "not halted"),
            (["--edition", "2", "--no-monitor", "--steps", "1000"], "not halted"),
        )
        for more, verdict in wanted:
            done = ran(*arguments, *more, path)
            self.assertEqual((done.code, json.loads(done.out)["verdict"]), (0, verdict), more)
        self.assertEqual(ran(*arguments, "--edition", 2, path).code, 2)

    def test_what_is_wrong_with_a_marking_is_no_candidate_s_fault(self) -> None:
        right = self.file("right.obj", doubling())
        examiner = self.file("examiner.obj", object_file(0x2000, 1, 2, 3))
        for option, content, said in (
            ("--with", b"\x20", "refused (17)"),
            ("--with", b".ORIG x2000\n.END\n", "it is text"),
            ("--with", object_file(0x3000, 1), "an examiner's file lies below x3000"),
            ("--with", object_file(0x0102, 1), "it overlaps the ready-made monitor"),
            ("--with", object_file(0x2002, 1), f"it overlaps {examiner} at x2002"),
            ("--data", object_file(0x2000, 1), "refused (21)"),
            ("--data", b"\xfd\xff" * 3, "refused (21)"),
            ("--data", b"", "refused (17)"),
        ):
            broken = self.file("broken.obj", content)
            for jobs in (1, 2):
                done = self.mark("--jobs", jobs, "--with", examiner, option, broken, right, right)
                self.assertEqual((done.code, done.out), (3, b""), (option, content))
                self.assertTrue(done.err.startswith(f"lc3: {broken}: refused"), done.err)
                self.assertIn(said, done.err)
        for option in ("--with", "--data"):
            self.assertEqual(self.mark(option, self.folder, right)[:2], (3, b""))
            self.assertEqual(self.mark(option, self.folder / "none", right)[:2], (3, b""))
        self.assertEqual(self.mark("--pc", "x0200", right)[:2], (2, b""))

    def test_files_that_all_share_are_read_once(self) -> None:
        data = self.file("data.obj", object_file(0x4000, ord("z")))
        shared = marking.Marking(
            [Case("z", b"zHalted\n")], data=[(str(data), data.read_bytes())]
        )
        reader = object_file(0x3000, "LDI R0, #2", "TRAP x21", "TRAP x25", 0x4000)
        path = self.file("reader.obj", reader)
        data.write_bytes(b"")
        self.assertEqual(shared.mark(str(path)).verdict, "right")

    def test_a_candidate_is_confined(self) -> None:
        # The vector of the access exception, with which a candidate once took over the machine.
        attack = bytes.fromhex("01020103a002b0020e022000fe065260b2010ffffffe")
        self.file("cases/one.expected", "B")
        (result,) = self.marked(self.file("attack.obj", attack))
        self.assertEqual((result["verdict"], result["results"]), ("refused", []))
        self.assertIn("refused (21)", result["problem"])
        self.assertEqual(self.mark("--anywhere", self.folder / "attack.obj").code, 2)

    def test_the_expected_display_is_never_in_the_machine(self) -> None:
        secret = bytes(random.Random(1).choices(range(33, 127), k=24))
        path = self.file("until.obj", UNTIL_Q)
        seen = []

        def spy(self_: fanthrig.Sitting, *arguments: int | None) -> fanthrig.Report:
            """A run, with all that the machine has before and after it kept."""
            for _ in range(2):
                words = self_.memory.words
                seen.append((bytes(word & 255 for word in words), words.tobytes(), self_.typed))
                report = None if len(seen) % 2 else usual(self_, *arguments)
            return report if report is not None else usual(self_, *arguments)

        usual = fanthrig.Sitting.run
        shared = marking.Marking([Case("a", secret, b"kq")])
        with mock.patch.object(fanthrig.Sitting, "run", spy):
            shared.mark(str(path))
        self.assertTrue(seen)
        for places in seen:
            for at in range(0, len(secret) - 3):
                self.assertFalse(any(secret[at : at + 4] in place for place in places))


if __name__ == "__main__":
    unittest.main()
