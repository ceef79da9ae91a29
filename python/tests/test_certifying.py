"""Certificates for monitors: which words are claimed to be what, what is refused and why, the file
of a certificate, and the command."""

from __future__ import annotations

import hashlib
import json
import random
import unittest
from dataclasses import replace

import fanthrig
from fanthrig.certifying import Cell, Certificate, CertificateError, Declared, NotCertified
from fanthrig.certifying import certificate_of, words_of

from .certify_support import EXAMPLES, File, example, large, of_class, ready_made, with_words
from .command_support import Folder, process, ran
from .support import Words, object_file

# In the class's monitor: where TRAP x26 leads to, and two words of PUTS.
SERVICE, PUTS_LOOK, PUTS_GET = 0x0300, 0x020E, 0x0215


def serving(*lines: int | str) -> list[File]:
    """The class's monitor with another service at TRAP x26."""
    return [example("monitor"), ("service.obj", object_file(SERVICE, *lines))]


def altered(address: int, line: int | str) -> list[File]:
    """The class's monitor with another word."""
    return [with_words(example("monitor"), {address: line}), example("service")]


class Accepted(unittest.TestCase):
    """Monitors that are certified, and what is claimed of their words."""

    def test_the_ready_made_monitor(self) -> None:
        made = certificate_of([ready_made()])
        self.assertTrue(made.tested())
        self.assertEqual((made.lowest, made.watched), (0x2FFA, (0,) * 8))
        self.assertEqual(made.words_of(Cell.FIXED), list(range(fanthrig.MONITOR_WORDS)))
        secret = [*range(fanthrig.MONITOR_WORDS, 0x2FF6), *range(0xFE00, 0x10000)]
        self.assertEqual(made.words_of(Cell.SECRET), secret)
        self.assertEqual(made.words_of(Cell.OWN), [])

    def test_the_monitor_of_the_examples(self) -> None:
        made = certificate_of(of_class(), [example("marking")])
        self.assertTrue(made.tested())
        own = [0x0208, *range(0x0222, 0x0227), 0x0231, 0x0232, 0x023C, 0x0249, 0x0304]
        self.assertEqual(made.words_of(Cell.OWN), own)
        self.assertLessEqual({0x2000, 0x2027, 0x202A}, set(made.words_of(Cell.SECRET)))
        self.assertEqual(made, certificate_of(of_class(), [example("marking")]))

    def test_the_same_without_the_secrets_in_memory(self) -> None:
        files = of_class()
        other = with_words(example("marking"), {0x2027: 0x1234})
        kept = certificate_of(files, [example("marking")]).sha256
        self.assertEqual(certificate_of(files).sha256, kept)
        self.assertEqual(certificate_of(files, [other]).sha256, kept)

    def test_services_of_many_kinds(self) -> None:
        services: list[Words] = [
            ["RTI"],
            ["AND R0, R0, #0", "ADD R0, R0, #7", "RTI"],
            ["LEA R1, #3", "LDR R1, R1, #0", "JSRR R1", "RTI", 0x0305, "RET"],
            ["STR R1, R6, #-1", "LDR R1, R6, #-1", "RTI"],
            ["LEA R0, #2", "TRAP x22", "RTI", ord("a"), 0],
            ["ADD R1, R0, #0", "BRnzp #-2"],
            ["JSR #0", "RET"],
        ]
        for lines in services:
            with self.subTest(lines):
                self.assertTrue(certificate_of(serving(*lines)).tested())

    def test_a_file_beside_it_that_is_executed(self) -> None:
        beside = "service.obj", object_file(SERVICE, "AND R0, R0, #0", "RTI", 0x0042)
        made = certificate_of([example("monitor")], [beside])
        self.assertEqual(made.words_of(Cell.FIXED)[-2:], [0x0300, 0x0301])
        self.assertIn(0x0302, made.words_of(Cell.SECRET))

    def test_own_words_beside_the_stack(self) -> None:
        lines = ["LDI R0, #5", "ADD R0, R0, #1", "STI R0, #3", "LEA R0, #3", "TRAP x22", "RTI"]
        counting = serving(*lines, 0x2FE5, 0)
        made = certificate_of([*counting, ("count.obj", object_file(0x2FE5, 0))])
        self.assertEqual(made.words_of(Cell.OWN)[-1], 0x2FE5)
        self.assertGreaterEqual(made.lowest, 0x2FEA)

    def test_a_long_text(self) -> None:
        text = [*map(ord, "a text of some length, " * 8), 0]
        self.assertTrue(certificate_of(serving("LEA R0, #2", "TRAP x22", "RTI", *text)).tested())

    def test_a_large_monitor(self) -> None:
        made = certificate_of([large(27)])
        self.assertGreater(len(made.kinds), 2000)
        self.assertNotIn(0, made.watched)


class Refused(unittest.TestCase):
    """Monitors that are not certified: where, and why."""

    def refused(self, files: list[File], *texts: str, declared: str = "") -> None:
        """That a monitor is refused with these reasons, beside the marking routine."""
        told = [Declared(words_of(declared), Cell.SECRET)] if declared else []
        with self.assertRaises(NotCertified) as caught:
            certificate_of(files, [example("marking")], told)
        problems = list(map(str, caught.exception.problems))
        for text in texts:
            self.assertIn(text, problems)
        self.assertTrue(all(problem.instead for problem in caught.exception.problems))

    def test_leaks(self) -> None:
        cases: list[tuple[Words, str]] = [
            (["LDI R0, #1", "RTI", 0x2027], "x0300: loads the secret word x2027 (LDI R0, #1)"),
            (["LD R0, #-101", "RTI"], "x0300: loads the secret word x029C (LD R0, #-101)"),
            (
                ["LDR R0, R0, #0", "RTI"],
                "x0300: loads from an address in R0 that may be of any word (LDR R0, R0, #0)",
            ),
            (
                ["STR R1, R0, #0", "RTI"],
                "x0300: stores to an address in R0 that may be of any word (STR R1, R0, #0)",
            ),
            (
                ["LDI R0, #1", "RTI", 0x4000],
                "x0300: loads x4000, a word of the candidate's, by a fixed address (LDI R0, #1)",
            ),
            (["STI R0, #1", "RTI", 0xFE00], "x0300: stores to KBSR, xFE00 (STI R0, #1)"),
            (
                ["STR R1, R6, #1", "RTI"],
                "x0300: stores to x2FFF, where the caller's PSR is (STR R1, R6, #1)",
            ),
            (
                ["STI R0, #1", "RTI", 0x2027],
                "x0300: stores to the secret word x2027 (STI R0, #1)",
            ),
        ]
        for lines, text in cases:
            with self.subTest(text):
                self.refused(serving(*lines), text)

    def test_what_cannot_be_followed(self) -> None:
        cases: list[tuple[Words, str]] = [
            (["JMP R1"], "x0300: jumps to an address in R1 that is not known (JMP R1)"),
            (["ADD R6, R6, R0", "RTI"], "x0300: leaves an unknown number in R6 (ADD R6, R6, R0)"),
            (["ADD R6, R6, #1", "RTI"], "x0300: leaves x2FFF in R6 (ADD R6, R6, #1)"),
            (
                ["ADD R6, R6, #-2", "RTI"],
                "x0301: returns with R6 x2FFC, where no trap has pushed (RTI)",
            ),
            ([0xD000], "x0300: is no instruction (.FILL xD000)"),
            (
                ["ADD R0, R0, #1"],
                "x0300: goes on at x0301, which is in no file of the monitor's, or secret "
                "(ADD R0, R0, #1)",
            ),
            (
                ["LD R1, #1", "JMP R1", 0x3000],
                "x0301: goes on at x3000, which is no word of a monitor's (JMP R1)",
            ),
        ]
        for lines, text in cases:
            with self.subTest(text):
                self.refused(serving(*lines), text)

    def test_alterations_of_the_class_monitor(self) -> None:
        get = "x0215: loads from an address in R0 that may be of any word (LDR R1, R0, #0)"
        self.refused(altered(PUTS_LOOK, "BRnzp #6"), get)
        self.refused(altered(0x025E, 0xD001), get)
        beside = "x0215: loads from an address beside the one in R0 that was looked at"
        self.refused(altered(PUTS_GET, "LDR R1, R0, #1"), f"{beside} (LDR R1, R0, #1)")
        self.refused(
            altered(0x0180, 0x0200),
            "x0180: the vector of an interrupt leads to x0200, where no lone RTI is",
        )
        low = "x0030: the vector leads to x0100, which is below x0200"
        self.refused(altered(0x0030, 0x0100), low)

    def test_code_that_is_altered(self) -> None:
        files = serving("ST R1, #-234", "RTI")
        stored = "which is stored to by x0300"
        self.refused(files, f"x0216: goes on at x0217, {stored} (BRz #6)")

    def test_secrets_in_the_midst_of_the_monitor(self) -> None:
        files = serving("LD R0, #1", "RTI", 0x0042)
        self.assertTrue(certificate_of(files).tested())
        text = "x0300: loads the secret word x0302 (LD R0, #1)"
        self.refused(files, text, declared="x0302")
        declared = [Declared(range(0x2027, 0x2028), Cell.FIXED)]
        leaky = [example("monitor"), example("leaky")]
        made = certificate_of(leaky, [example("marking")], declared)
        self.assertNotIn(0x2027, made.words_of(Cell.SECRET))
        self.assertIn(0x2028, made.words_of(Cell.SECRET))

    def test_words_above_the_candidates(self) -> None:
        high = "high.obj", object_file(0xFE10, "RTI", 7)
        jumping = serving("LD R1, #1", "JMP R1", 0xFE10)
        text = "x0301: goes on at xFE10, which is no word of a monitor's (JMP R1)"
        for more in (0, 1):
            with self.assertRaises(NotCertified) as caught:
                certificate_of([*jumping, high][: 2 + more], [high][more:])
            self.assertIn(text, str(caught.exception))
        loading = serving("LDI R1, #1", "RTI", 0xFE11)
        self.refused([*loading, high], "x0300: loads the secret word xFE11 (LDI R1, #1)")

    def test_no_room(self) -> None:
        high = "high.obj", object_file(0x2FF0, *[0] * 12)
        with self.assertRaisesRegex(NotCertified, "x2FFB: leaves no room for the stack"):
            certificate_of([*of_class(), high])
        beside = "answers.obj", object_file(0x2FF7, 1, 2)
        with self.assertRaisesRegex(NotCertified, "x2FF8: answers.obj has x2FF8, words of the mon"):
            certificate_of(of_class(), [beside])

    def test_it_ends_on_any_words(self) -> None:
        rng, refused = random.Random(7), 0
        for _ in range(20):
            words = rng.randbytes(2 * 0x400)
            vectors = b"".join(rng.randrange(0x200, 0x400).to_bytes(2, "big") for _ in range(512))
            file = "random.obj", b"\0\0" + vectors + words[: 2 * 0x200]
            try:
                self.assertTrue(certificate_of([file]).tested())
            except NotCertified:
                refused += 1
        self.assertEqual(refused, 20)


class Saved(unittest.TestCase):
    """The file of a certificate."""

    made: Certificate

    @classmethod
    def setUpClass(cls) -> None:
        cls.made = certificate_of(of_class())

    def test_it_is_read_back(self) -> None:
        data = self.made.data()
        self.assertEqual(Certificate.of(data), self.made)
        self.assertEqual(self.made.sha256, hashlib.sha256(data).hexdigest())

    def test_no_secret_is_in_it(self) -> None:
        secret = with_words(example("marking"), {0x2027: 0xBEEF})
        declared = [Declared(range(0x0259, 0x025A), Cell.SECRET)]
        made = certificate_of(serving("RTI"), [secret], [Declared(range(0x0261, 0x0262), Cell.OWN)])
        self.assertNotIn(b"BEEF", made.data())
        self.assertEqual(made.words[0x0261], 0)
        with self.assertRaises(NotCertified):
            certificate_of(of_class(), [], declared)

    def test_other_files_are_refused(self) -> None:
        data = self.made.data()
        members = json.loads(data)
        for other in (
            b"",
            b"[]",
            b"\xff\xfe",
            data[:-1],
            data + b"\n",
            data.replace(b" ", b""),
            data.replace(b'"version": 1', b'"version": 2'),
            data.replace(b"lc3 certificate", b"lc3 sitting"),
            json.dumps({**members, "lowest": -1}).encode(),
            json.dumps({**members, "lowest": 65536}).encode(),
            json.dumps({**members, "kinds": members["kinds"] + "3"}).encode(),
            json.dumps({**members, "words": members["words"][:-4]}).encode(),
            json.dumps({**members, "watched": members["watched"][:-1]}).encode(),
            json.dumps({**members, "table": [1 << 32]}).encode(),
            json.dumps({**members, "ends": [True]}).encode(),
            json.dumps({**members, "more": 1}).encode(),
            b"[" * 100_000,
        ):
            with self.subTest(other[:40]), self.assertRaises(CertificateError):
                Certificate.of(other)

    def test_every_altered_claim_is_tested(self) -> None:
        made = self.made
        for other in (
            replace(made, lowest=made.lowest + 1),
            replace(made, lowest=0x2FFF),
            replace(made, table=made.table[:-1]),
            replace(made, ends=made.ends[:-1]),
            replace(made, watched=(*made.watched[1:], made.watched[0])),
            replace(made, kinds=bytes([2, *made.kinds[1:]])),
            replace(made, words=(0, *made.words[1:])),
        ):
            self.assertFalse(other.tested())


class Command(Folder):
    """``lc3 certify``, and ``lc3 mark --monitor``."""

    def certify(self, *arguments: object, code: int = 0) -> str:
        """What the command says."""
        done = ran("certify", *arguments)
        self.assertEqual((done.code, done.err), (code, ""))
        return done.out.decode()

    def test_certified_and_saved(self) -> None:
        table = self.folder / "monitor.cert"
        names = ["--monitor", EXAMPLES / "service.obj", EXAMPLES / "monitor.obj"]
        said = self.certify("--save", table, *names, EXAMPLES / "marking.obj")
        self.assertIn(hashlib.sha256(table.read_bytes()).hexdigest(), said)
        self.assertIn("marking.obj: every word is secret\n", said)
        self.assertEqual(self.certify("--table", table, *names, EXAMPLES / "marking.obj"), said)
        self.assertEqual(said.startswith(self.certify("--table", table)), True)
        other = ["--monitor", EXAMPLES / "leaky.obj", EXAMPLES / "monitor.obj"]
        text = self.certify("--table", table, *other, code=1)
        self.assertIn("x0300: is x320C, and x2003 in the certificate\n", text)

    def test_texts_are_monitors_too(self) -> None:
        listing = (EXAMPLES / "monitor.lst").read_text(encoding="ascii")
        text = self.file("monitor.txt", listing.replace("x0215  x6200  LDR R1, R0, #0", "x6201"))
        said = self.certify("--monitor", EXAMPLES / "service.lst", text, code=1)
        self.assertIn("x0215: loads from an address beside the one in R0 that was looked at", said)

    def test_wrong_use(self) -> None:
        monitor = str(EXAMPLES / "monitor.obj")
        copy = self.file("m.obj", (EXAMPLES / "monitor.obj").read_bytes())
        cases: list[tuple[list[object], int, str]] = [
            ([], 2, "name the object file of a monitor"),
            (["--table", "x", "--secret", "x0200", monitor], 2, "--table checks a certificate as"),
            (["--secret", "x4000", monitor], 2, "'x4000' is no range of words below x3000"),
            (["--secret", "x0229-x0227", monitor], 2, "is no range of words below x3000"),
            (["--save", copy, copy], 2, "would be overwritten by its own certificate"),
            (["--table", monitor], 3, "monitor.obj: refused: it is no certificate"),
            (["no-such.obj"], 3, "no-such.obj: no such file"),
            ([monitor, monitor], 3, "refused: it overlaps"),
            ([EXAMPLES / "hello.obj"], 3, "which every program reads and replaces"),
        ]
        for arguments, code, text in cases:
            with self.subTest(text):
                done = ran("certify", *arguments)
                self.assertEqual((done.code, done.out), (code, b""))
                self.assertIn(text, done.err)

    def test_declared_words(self) -> None:
        leaky = ["--monitor", EXAMPLES / "leaky.obj", EXAMPLES / "monitor.obj"]
        marking = EXAMPLES / "marking.obj"
        self.certify(*leaky, marking, code=1)
        said = self.certify("--fixed", "x2027", *leaky, marking)
        self.assertIn("marking.obj: every word is secret but x2027\n", said)

    def forged(self, made: Certificate, *files: object) -> str:
        """What is said of a certificate that somebody has handed over, beside the answers."""
        table = self.file("forged.cert", made.data())
        names = [*files, EXAMPLES / "monitor.obj"]
        self.assertIn("\nsecret: ", self.certify("--table", table, *names))
        return self.certify("--table", table, *names, EXAMPLES / "marking.obj", code=1)

    def test_certificates_that_claim_less(self) -> None:
        """The proved test holds for what they claim; but the answers are no secrets by them."""
        leaky = ["--monitor", EXAMPLES / "leaky.obj"]
        files = [example("monitor"), example("leaky")]
        for cell in (Cell.OWN, Cell.FIXED):
            declared = [Declared(range(0x2027, 0x2028), cell)]
            made = certificate_of(files, [example("marking")], declared)
            if cell is Cell.FIXED:
                beside = "x2027: is x0000, and x0042 in the certificate"
                table = self.file("fixed.cert", made.data())
                names = [*leaky, EXAMPLES / "monitor.obj"]
                self.assertIn(beside, self.certify("--table", table, *names, code=1))
                said = self.certify("--table", table, *names, EXAMPLES / "marking.obj", code=1)
            else:
                said = self.forged(made, *leaky)
            text = "x2027: .*marking.obj has this word, and the certificate does not keep it secret"
            self.assertRegex(said, text)

    def test_certificates_with_a_stack_over_secrets(self) -> None:
        made = replace(certificate_of(of_class()), lowest=0x1000)
        self.assertTrue(made.tested())
        said = self.forged(made, "--monitor", EXAMPLES / "service.obj")
        self.assertIn("marking.obj has x2000 to x202A, words of the monitor's stack", said)

    def test_certificates_of_other_words(self) -> None:
        """Each fixed word of a certificate is compared with the monitor's that is named."""
        made = certificate_of(of_class())
        for address in (0x0000, 0x0102, 0x0215, 0x0303):
            words = list(made.words)
            words[address] ^= 1
            table = self.file("other.cert", replace(made, words=tuple(words)).data())
            names = ["--monitor", EXAMPLES / "service.obj", EXAMPLES / "monitor.obj"]
            said = self.certify("--table", table, *names, code=1)
            self.assertIn(f"x{address:04X}: is x", said)

    def test_certificates_that_are_too_long(self) -> None:
        table = self.file("long.cert", b" " * ((1 << 24) + 1))
        done = ran("certify", "--table", table)
        self.assertEqual((done.code, done.out), (3, b""))
        self.assertIn("it is longer than 16 MiB", done.err)

    def mark(self, *arguments: object) -> tuple[int, str, str]:
        """What ``lc3 mark`` says of hello.obj beside the class's monitor."""
        expected = '[{"name": "one", "expected": "Hello, world!\\nHalted\\n"}]'
        cases = self.file("cases.json", expected)
        monitor = ["--monitor", EXAMPLES / "monitor.obj"]
        done = ran("mark", "--cases", cases, *monitor, *arguments, EXAMPLES / "hello.obj")
        return done.code, done.out.decode(), done.err

    def test_marking_beside_a_certified_monitor(self) -> None:
        files = ["--monitor", EXAMPLES / "service.obj", "--with", EXAMPLES / "marking.obj"]
        sha256 = certificate_of(of_class(), [example("marking")]).sha256
        code, said, err = self.mark("--one", *files)
        told = json.loads(said)
        self.assertEqual((code, err, told["verdict"]), (0, "", "right"))
        self.assertEqual(told["certificate"], sha256)
        names = [file["file"] for file in told["options"]["monitor_files"]]
        self.assertEqual(names, [str(EXAMPLES / f"{name}.obj") for name in ("monitor", "service")])
        rows = self.mark("--csv", *files)[1].splitlines()
        self.assertTrue(rows[0].endswith(',"certificate"'))
        self.assertTrue(rows[1].endswith(f',"{sha256}"'))

    def test_resumed_by_the_certificate(self) -> None:
        good = ["--monitor", EXAMPLES / "service.obj"]
        lines = self.file("marks.jsonl", self.mark("--json", *good)[1])
        self.assertIn('"resumed": 1', self.mark("--json", "--resume", lines, *good)[1])
        other = ["--uncertified", *good]
        self.assertIn('"resumed": 0', self.mark("--json", "--resume", lines, *other)[1])

    def test_what_is_not_certified_is_refused(self) -> None:
        good = ["--monitor", EXAMPLES / "service.obj"]
        leaky = ["--monitor", EXAMPLES / "leaky.obj", "--with", EXAMPLES / "marking.obj"]
        stack = self.file("stack.obj", object_file(0x2FF8, 7))
        service = ["--with", EXAMPLES / "service.obj"]
        cases: list[tuple[list[object], int, str]] = [
            (leaky, 3, "it is not certified: x0301: loads the secret word x2027"),
            ([*good, "--with", stack], 3, "has x2FF8, words of the monitor's stack"),
            (service, 3, "it is not certified: x0300: loads the secret word x0304"),
            ([*good, "--supervisor"], 2, "a certificate is for programs in User mode"),
            ([*good, "--edition", "2"], 2, "by the third edition's rules"),
        ]
        for arguments, code, text in cases:
            with self.subTest(text):
                done = self.mark(*arguments)
                self.assertEqual(done[:2], (code, ""))
                self.assertIn(text, done[2])
        code, said, err = self.mark("--one", "--uncertified", *leaky)
        self.assertEqual((code, err, json.loads(said)["certificate"]), (0, "", None))

    def test_files_that_are_executed_are_no_secrets(self) -> None:
        rti = self.file("rti.obj", object_file(SERVICE, "RTI"))
        said = self.mark("--with", rti)
        self.assertEqual(said[:2], (3, ""))
        self.assertIn("rti.obj has this word, and the certificate does not keep it secret", said[2])

    def test_cases_leave_the_monitor_alone(self) -> None:
        case = '[{"name": "one", "end": "any halt", "before": {"%s": 7}}]'
        for address, code in (("x0215", 2), ("x0208", 0), ("x4000", 0)):
            cases = self.file("cases.json", case % address)
            monitor = ["--monitor", EXAMPLES / "monitor.obj", "--monitor", EXAMPLES / "service.obj"]
            done = ran("mark", "--cases", cases, *monitor, EXAMPLES / "hello.obj")
            self.assertEqual(done.code, code, done.err)

    def test_as_a_process(self) -> None:
        done = process("certify", EXAMPLES / "monitor.obj")
        self.assertEqual((done.code, done.err), (1, ""))
        self.assertIn(b"x0026: the vector leads to x0300", done.out)


if __name__ == "__main__":
    unittest.main()
