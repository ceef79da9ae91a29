"""Cases with registers and words, subroutines, ends, points, lenient comparisons, random contents
and a limit of time; by the command and as an API."""

from __future__ import annotations

import json
import time
import unittest
from dataclasses import replace
from typing import Any

from fanthrig.marking import FORMS, Case, Contents, FileError, Found, Marking, Options, Result
from fanthrig.marking import Total, cases_of, mark_all
from fanthrig.marking.cases import ENDS

from .command_support import ENDLESS, Folder, ran
from .mark_support import lines_of
from .support import object_file

# Adds the words at x4000 and x4001, and puts the sum to R0 and x4002.
SUM = object_file(
    0x3000, "LD R2, #5", "LDR R0, R2, #0", "LDR R1, R2, #1", "ADD R0, R0, R1", "STR R0, R2, #2",
    "TRAP x25", 0x4000,
)

# At x3000 HALT, at x3001 a subroutine: R0 = R0 + R0, which shows nothing.
DOUBLE = object_file(0x3000, "TRAP x25", "ADD R0, R0, R0", "RET")

# The same with a subroutine that calls another one, saves R7, and shows a letter.
DEEP = object_file(
    0x3000, "TRAP x25", "ST R7, #6", "JSR #2", "LD R7, #4", "RET", "ADD R0, R0, R0", "TRAP x21",
    "RET", 0,
)


def contents(**places: Any) -> Contents:
    """Contents by keywords."""
    return Contents.of(places)


def one(data: bytes, *cases: Case, **options: Any) -> Result:
    """The result of a candidate."""
    return Marking(cases, Options(**options)).mark_bytes("ada.obj", data)


def verdict(data: bytes, case: Case, **options: Any) -> str:
    """The verdict on a candidate by one case."""
    return one(data, case, **options).verdict


class States(unittest.TestCase):
    """Registers and words before and after."""

    def test_words_and_registers(self) -> None:
        case = Case(
            "sum", before=contents(x4000=[2, -3]), after=contents(R0=-1, R1="xFFFD", x4002="#-1")
        )
        self.assertEqual(verdict(SUM, case), "right")
        result = one(object_file(0x3000, "TRAP x25"), case)
        self.assertEqual((result.verdict, result.right), ("wrong contents", 0))
        told = [str(wrong) for wrong in result.results[0].mismatches]
        self.assertEqual(told[0], "R0: expected xFFFF (-1), got x0000 (0)")
        self.assertEqual(told[2], "x4002: expected xFFFF (-1), got x0000 (0)")
        # The display is compared where it is given, and only there.
        shown = Case("sum", b"?", before=case.before, after=case.after)
        self.assertEqual(verdict(SUM, shown), "wrong display")

    def test_registers_are_the_program_s_own(self) -> None:
        # HALT's routine uses the supervisor's stack and R0.
        program = object_file(0x3000, "ADD R6, R6, #-3", "ADD R0, R0, #5", "TRAP x25")
        after = contents(R0=9, R6=0xFDFF - 3)
        self.assertEqual(verdict(program, Case("a", after=after, before=contents(R0=4))), "right")

    def test_words_of_the_candidate_may_be_replaced(self) -> None:
        data = object_file(0x3000, "LD R0, #1", "TRAP x25", 1)
        case = Case("a", before=contents(x3002=7), after=contents(R0=7))
        self.assertEqual(verdict(data, case), "right")

    def test_device_registers_are_no_words(self) -> None:
        devices = (0xFE00, 0xFE02, 0xFE04, 0xFE06, 0xFE08, 0xFE0A, 0xFFFC, 0xFFFE)
        for address in range(0xFDF0, 0x10000):
            if address in devices:
                with self.assertRaisesRegex(ValueError, "is the device register"):
                    Contents.of({f"x{address:04X}": 1})
            else:
                # Others are plain words, though privileged from xFE00 on.
                self.assertEqual(Contents.of({f"x{address:04X}": 1}).words, ((address, 1),))

    def test_many_mismatches(self) -> None:
        case = Case("a", after=Contents.of({"x4000": [1] * 100}))
        result = one(object_file(0x3000, "TRAP x25"), case)
        self.assertEqual(len(result.results[0].mismatches), 20)

    def test_ends(self) -> None:
        programs = {
            "halted": object_file(0x3000, "TRAP x25"),
            "exception": object_file(0x3000, "RTI"),
            "trap without service": object_file(0x3000, "TRAP x30"),
            "string refused": object_file(0x3000, "TRAP x22"),
            "steps made": object_file(0x3000, "ADD R0, R0, #1", "BRnzp #-2"),
            "waiting": object_file(0x3000, "TRAP x20", "TRAP x25"),
            "endless loop": ENDLESS,
        }
        self.assertEqual(set(ENDS) - set(programs), {"store to MCR", "any halt", "returned"})
        for end, data in programs.items():
            for other in programs:
                expected = "right" if end == other else "wrong end"
                case = Case("a", end=other, steps=100_000)
                self.assertEqual(verdict(data, case), expected, (end, other))
            halts = end in ("halted", "exception", "trap without service", "string refused")
            found = verdict(data, Case("a", end="any halt", steps=100_000))
            self.assertEqual(found, "right" if halts else "wrong end")


class Calls(unittest.TestCase):
    """Subroutines."""

    def test_a_call_to_its_ret(self) -> None:
        for data, display in ((DOUBLE, b""), (DEEP, b"*")):
            case = Case(
                "double", display, call=0x3001, before=contents(R0=21), after=contents(R0=42)
            )
            result = one(data, case)
            self.assertEqual(result.verdict, "right", result)
            self.assertEqual(result.results[0].ending, "returned")
            self.assertEqual(verdict(data, case, seed=5), "right")
        wrong = Case("double", call=0x3001, before=contents(R0=2), after=contents(R0=5))
        self.assertEqual(verdict(DOUBLE, wrong), "wrong contents")

    def test_a_call_that_does_not_return(self) -> None:
        for data in (object_file(0x3000, "TRAP x25"), ENDLESS, object_file(0x3000, "RTI")):
            self.assertEqual(verdict(data, Case("a", call=0x3000, steps=9999)), "not returned")
        halts = Case("a", call=0x3000, end="halted")
        self.assertEqual(verdict(object_file(0x3000, "TRAP x25"), halts), "right")
        self.assertEqual(verdict(DOUBLE, Case("a", call=0x3001, end="halted")), "wrong end")

    def test_a_call_without_a_ret(self) -> None:
        # Words of 0 do nothing, so that PC comes to the return address in the end: that is no RET.
        missing, other = object_file(0x3000, "ADD R0, R0, R0"), object_file(0x3200, "TRAP x25")
        steps = 0xFDFF - 0x3000
        for data, doubled in ((missing, 4), (other, 2)):
            before, after = contents(R0=2, x3200=0), contents(R0=doubled)
            case = Case("a", call=0x3000, before=before, after=after)
            result = one(data, case).results[0]
            self.assertEqual((result.verdict, result.ending), ("not returned", "exception"))
            found = one(data, replace(case, steps=steps)).results[0]
            self.assertEqual((found.verdict, found.ending), ("not returned", "steps made"))
            second = one(data, replace(case, steps=steps + 9), edition=2, monitor=False)
            self.assertEqual(second.verdict, "not returned")
        by_another = object_file(0x3000, "ADD R5, R7, #0", "AND R7, R7, #0", "JMP R5")
        settings: list[dict[str, Any]] = [{}, {"edition": 2, "monitor": False}]
        for options in settings:
            self.assertEqual(verdict(by_another, Case("a", call=0x3000), **options), "right")

    def test_recursion(self) -> None:
        # Counts R0 down by calls of itself, with R7 on the user's stack, and R1 up.
        data = object_file(
            0x3000, "ADD R6, R6, #-1", "STR R7, R6, #0", "ADD R1, R1, #1", "ADD R0, R0, #-1",
            "BRz #1", "JSR #-6", "LDR R7, R6, #0", "ADD R6, R6, #1", "RET",
        )
        before, after = contents(R0=50, R1=0), contents(R1=50, R6=0xFDFF)
        case = Case("deep", call=0x3000, before=before, after=after)
        self.assertEqual(verdict(data, case), "right")
        self.assertEqual(verdict(data, case, seed=1), "right")

    def test_a_file_up_to_the_last_word(self) -> None:
        data = object_file(0xFDFE, "ADD R0, R0, R0", "RET")
        case = Case("a", call=0xFDFE, before=contents(R0=2), after=contents(R0=4))
        self.assertEqual(verdict(data, case), "right")


class Comparing(unittest.TestCase):
    """Exactly, and by each choice."""

    def test_choices(self) -> None:
        text = [*map(ord, "Yes \r\nNo\n"), 0]
        data = object_file(0x3000, "LEA R0, #2", "TRAP x22", "TRAP x25", *text)
        for expected, choices in (
            (b"Yes \r\nNo\nHalted\n", ()),
            (b"Yes \r\nNo\n", ("halt-message",)),
            (b"Yes\nNo\nHalted", ("line-ends",)),
            (b"yes \r\nno\nhalted\n", ("case",)),
            (b"YES\nNO", ("halt-message", "line-ends", "case")),
        ):
            case = Case("a", expected)
            self.assertEqual(verdict(data, case, lenient=choices), "right", choices)
            self.assertEqual(verdict(data, Case("a", expected, lenient=choices)), "right")
            for fewer in range(len(choices)):
                left = choices[:fewer] + choices[fewer + 1 :]
                self.assertEqual(verdict(data, case, lenient=left), "wrong display")
        with self.assertRaises(ValueError):
            Options(lenient=("spaces",))

    def test_a_flood_is_stopped(self) -> None:
        flood = object_file(0x3000, "TRAP x21", "BRnzp #-2")
        for choices in ((), ("line-ends",)):
            result = one(flood, Case("a", b"x", lenient=choices))
            self.assertEqual(result.verdict, "wrong display")
            self.assertEqual(result.results[0].ending, "output limit")
            self.assertLess(result.results[0].shown, 9000)


class Randomly(unittest.TestCase):
    """Random contents of what a case leaves open."""

    def test_the_same_for_all_and_told(self) -> None:
        # Shows R1's and x5000's low bytes.
        data = object_file(
            0x3000, "ADD R0, R1, #0", "TRAP x21", "LDI R0, #2", "TRAP x21", "TRAP x25", 0x5000
        )
        relies = object_file(0x3000, "ADD R0, R0, #1", "TRAP x25")
        case = Case("a", b"", after=contents(R0=1))
        seen = set()
        for seed in (1, 1, 2):
            result = one(data, case, seed=seed)
            seen.add((seed, result.results[0].display))
            relied = verdict(relies, Case("a", after=contents(R0=1)), seed=seed)
            self.assertEqual(relied, "wrong contents")
        self.assertEqual(len(seen), 2)
        self.assertEqual(len({display for _, display in seen}), 2)
        self.assertEqual(verdict(relies, Case("a", after=contents(R0=1))), "right")
        self.assertEqual(Marking([case], Options(seed=7)).audit.options["seed"], 7)

    def test_files_stack_and_what_a_case_sets_stay(self) -> None:
        data = object_file(0x3000, "LDI R0, #2", "LD R1, #2", "TRAP x25", 0x5000, 77)
        after = contents(R0=5, R1=77, R3=9, R6=0xFDFF)
        case = Case("a", before=contents(x5000=5, R3=9), after=after)
        for seed in range(20):
            self.assertEqual(verdict(data, case, seed=seed), "right")

    def test_what_supervisor_mode_reaches(self) -> None:
        # R0 is x1000, R1 the first word after the monitor's, R2 one of the examiner's.
        data = object_file(
            0x3000, "LDI R0, #3", "LDI R1, #3", "LDI R2, #3", "TRAP x25", 0x1000, 0x02A5, 0x2000
        )
        zeros = Case("a", after=contents(R0=0, R1=0, R2=7))
        file = ("answers.obj", object_file(0x2000, 7))
        for monitor, steps in ((True, 1000), (False, 3)):
            options = Options(steps=steps, supervisor=True, monitor=monitor, seed=3)
            (result,) = Marking([zeros], options, [file]).mark_bytes("a.obj", data).results
            self.assertEqual([wrong.place for wrong in result.mismatches], ["R0", "R1"])
            # The words of the monitor are what they were: HALT halts.
            self.assertEqual(result.ending, "halted" if monitor else "steps made")
        self.assertEqual(verdict(data, Case("a", end="exception"), seed=3), "right")

    def test_the_contents_are_what_they_were_in_every_version(self) -> None:
        data = object_file(0x3000, "LDI R0, #1", "TRAP x25", 0x5000)
        result = one(data, Case("a", after=contents(R0=0, R1=0)), seed=41)
        told = {wrong.place: wrong.got for wrong in result.results[0].mismatches}
        self.assertEqual(told, {"R0": FIXED[1], "R1": FIXED[0]})


# R1 and x5000 of seed 41 and case a: whoever marks once more years later meets the same.
FIXED = (0x22F8, 0xBA68)


# A loop that is not seen to be one before 2^33 steps are made.
SLOW = ("ADD R0, R0, #1", "BRnp #-2", "ADD R1, R1, #1", "BRnzp #-4")


class Late(unittest.TestCase):
    """A limit of time."""

    def test_out_of_time(self) -> None:
        slow = object_file(0x3000, *SLOW)
        cases = [Case("a", b""), Case("b", b"")]
        begun = time.monotonic()
        result = Marking(cases, Options(steps=1 << 40, seconds=0.2)).mark_bytes("slow.obj", slow)
        self.assertLess(time.monotonic() - begun, 20)
        self.assertEqual([part.verdict for part in result.results], ["out of time"] * 2)
        self.assertEqual(result.results[1].steps, 0)
        self.assertIn("the time of the candidate was over", result.results[0].ended)

    def test_to_count_flags_takes_no_longer_than_the_run(self) -> None:
        # The monitor goes on after an exception, and then there are so many steps that to count all
        # that are flagged would take seconds.
        slow = object_file(0x3000, "RTI", *SLOW)
        returns = object_file(0x0200, "LD R6, #1", "RTI", 0x0203, 0x3001, 0x8002)
        shared = [("vector.obj", object_file(0x0100, 0x0200)), ("returns.obj", returns)]
        options = Options(steps=1 << 40, seconds=0.5, monitor=False)
        made = Marking([Case("a", b"")], options, shared)
        begun = time.process_time()
        (result,) = made.mark_bytes("slow.obj", slow).results
        self.assertLess(time.process_time() - begun, 1.8)
        self.assertEqual(result.verdict, "out of time")
        self.assertGreater(result.steps, 10_000_000)
        self.assertEqual([*map(str, result.flags)], ["privilege exception at x3000: RTI"])


class Files(Folder):
    """Cases of files, and the command."""

    def test_all_members(self) -> None:
        item = {
            "name": "a",
            "expected": "x",
            "keys": "k",
            "steps": 5,
            "before": {"r0": 1, "X4000": [2]},
            "after": {"0x4001": "x0003"},
            "end": "exception",
            "call": "x3100",
            "points": 2.5,
            "lenient": ["case"],
        }
        states = contents(R0=1, x4000=2), contents(x4001=3)
        expected = Case("a", b"x", b"k", 5, *states, "exception", 0x3100, 2.5, ("case",))
        self.assertEqual(cases_of(str(self.file("c.json", json.dumps([item])))), [expected])
        del item["name"], item["expected"], item["keys"]
        self.file("cases/a.json", json.dumps(item))
        self.file("cases/a.expected", "x")
        self.file("cases/a.keys", "k")
        self.assertEqual(cases_of(str(self.folder / "cases")), [expected])
        self.file("cases/a.json", json.dumps({**item, "keys": "k"}))
        with self.assertRaisesRegex(FileError, "'keys' of a is in a.json and in its own file"):
            cases_of(str(self.folder / "cases"))

    def test_wrong_members(self) -> None:
        wrong: tuple[tuple[dict[str, Any], str], ...] = (
            ({}, "has no 'expected'"),
            ({"before": {"R0": 1}}, "has no 'expected'"),
            ({"after": {"R8": 1}}, "'after' of case 1: 'R8' is neither a register"),
            ({"after": {"PC": 1}}, "is neither a register"),
            ({"after": {"x4000": [[1]]}}, "'x4000' has no number"),
            ({"after": {"R0": 65536}}, "'R0' has no number"),
            ({"after": {"R0": True}}, "'R0' has no number"),
            ({"after": {"R0": [1]}}, "'R0' has no number"),
            ({"after": {"R0": "12x"}}, "'R0' has no number"),
            ({"after": {"xFFFF": [1, 2]}}, "'xFFFF' has words beyond xFFFF"),
            ({"after": {"xFE02": 1}}, "case 1: 'xFE02': xFE02 is the device register KBDR, and"),
            (
                {"before": {"xFDFF": [1, 2]}, "expected": ""},
                "cases.json: no cases: 'before' of case 1: 'xFDFF': xFE00 is the device register "
                "KBSR, and no word of memory: leave it out",
            ),
            ({"after": [1]}, "'after' of case 1 is no object"),
            ({"end": "well"}, "'end' of case 1 is none of halted, exception"),
            ({"end": "returned"}, "returned needs a call"),
            ({"after": {"R0": 1, "r0": 2}}, "'r0' gives a value to what has one already"),
            ({"after": {"x4000": [1, 2], "x4001": 2}}, "'x4001' gives a value to what has one"),
            ({"call": 12288}, "'call' of case 1 is no address"),
            ({"call": "3000"}, "'call' of case 1 is no address"),
            ({"expected": "", "points": -1}, "'points' of case 1 is no number"),
            ({"expected": "", "points": "2"}, "'points' of case 1 is no number"),
            ({"expected": "", "points": 1e300}, "1e+300 is no number of a few digits"),
            ({"expected": "", "points": 1000001}, "'points' of case 1 is no number"),
            ({"expected": "", "lenient": "case"}, "'lenient' of case 1 is no list"),
            ({"expected": "", "lenient": ["x"]}, "'x' is no choice"),
        )
        for members, said in wrong:
            path = self.file("cases.json", json.dumps([{"name": "a", **members}]))
            done = ran("mark", "--cases", path, self.file("sum.obj", SUM))
            self.assertEqual((done.code, done.out, said in done.err), (3, b"", True), done.err)
        refused: list[tuple[dict[str, Any], str]] = [
            ({"call": "x0200"}, "x0200"),
            ({"call": "x3000", "before": {"R7": 1}}, "case 'a' sets R7"),
        ]
        for members, said in refused:
            path = self.file("cases.json", json.dumps([{"name": "a", **members}]))
            done = ran("mark", "--cases", path, self.folder / "sum.obj")
            self.assertEqual((done.code, done.out, said in done.err), (2, b"", True), done.err)

    def test_the_command(self) -> None:
        cases = self.file(
            "cases.json",
            json.dumps(
                [
                    {"name": "sum", "before": {"x4000": [2, 3]}, "after": {"R0": 5}, "points": 3},
                    {"name": "none", "after": {"R0": 0}, "points": 1.5},
                ]
            ),
        )
        right = self.file("sum.obj", SUM)
        wrong = self.file("wrong.obj", object_file(0x3000, 0xF025))
        done = ran("mark", "--cases", cases, right, wrong)
        table = done.out.decode()
        self.assertEqual((done.code, done.err), (1, ""))
        self.assertRegex(table, r"sum.obj +2/2 +4.5/4.5  right\n")
        self.assertRegex(table, r"wrong.obj +1/2 +1.5/4.5  wrong contents in sum\n")
        self.assertIn("  R0: expected x0005 (5), got x0000 (0)\n", table)
        told = json.loads(ran("mark", "--cases", cases, "--one", wrong).out)
        self.assertEqual((told["points"], told["most"]), (1.5, 4.5))
        seeded = [
            lines_of(ran("mark", "--cases", cases, "--json", "--seed", seed, right, wrong).out)
            for seed in ("random", "random", 5)
        ]
        seeds = [lines[0]["options"]["seed"] for lines in seeded]
        self.assertEqual((len(set(seeds)), seeds[2]), (3, 5))
        self.assertEqual([lines[1]["verdict"] for lines in seeded], ["wrong contents"] * 3)
        slow = self.file("slow.obj", object_file(0x3000, "ADD R0, R0, #1", "BRnzp #-2"))
        late = ("--seconds", 0.1, "--steps", 10**12, "--one", slow)
        told = json.loads(ran("mark", "--cases", cases, *late).out)
        self.assertEqual(told["verdict"], "out of time")
        for option in ("--seed=-1", "--seconds=0", "--lenient=all", "--export=x"):
            self.assertEqual(ran("mark", "--cases", cases, option, right).code, 2)

    def test_the_api_on_files(self) -> None:
        cases = self.file("cases.json", '[{"name": "a", "after": {"R0": 0}}]')
        marking = Marking.of(str(cases), Options(steps=1000))
        names = [str(self.file(f"{name}.obj", SUM)) for name in "abc"]
        for jobs in (1, 2):
            results = list(mark_all(marking, names, jobs))
            self.assertEqual([result.candidate for result in results], names)
            self.assertEqual({result.verdict for result in results}, {"right"})
        self.assertEqual(marking.mark("no/such.obj").verdict, "refused")
        total = Total(len(names))
        for result in results:
            total.add(result)
        self.assertEqual((total.right, total.whole, total.duplicates), (3, True, [names]))
        form = FORMS["csv"](marking.audit, marking.cases, [Found(name) for name in names])
        rows = form.head() + form.result(results[0]) + form.end(total)
        self.assertIn(f'"{names[0]}","a","right",1,1,', rows)
        with self.assertRaises(FileError):
            Marking.of(str(self.folder / "none"))
        with self.assertRaises(FileError):
            Marking([], examiner=[("low.obj", SUM)])
        with self.assertRaises(ValueError):
            Options(edition=2)


if __name__ == "__main__":
    unittest.main()
