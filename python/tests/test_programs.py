"""Programs as text: every word in every form, what is wrong in a text, and every command."""

from __future__ import annotations

import os
import random
import subprocess
import unittest
from array import array

import fanthrig
from fanthrig.formats import is_utf16
from fanthrig.programs import FIELDS, Form, ProgramError, fields, object_file, text_of

from .command_support import ENVIRONMENT, HELLO, PYTHON, Folder, ran
from .support import object_file as of_words

TEXT = """\
; shows A, and halts
0011 0000 0000 0000     ; the origin, x3000
0010 000 000000010      ; LD R0, #2
xF021
x3002  xF025  TRAP x25
x0041 ; A
"""
FILE = of_words(0x3000, "LD R0, #2", "TRAP x21", "TRAP x25", ord("A"))


class EveryWord(unittest.TestCase):
    """All 65,536 of them, there and back."""

    file: bytes

    @classmethod
    def setUpClass(cls) -> None:
        cls.file = of_words(0, *range(fanthrig.MEMORY_WORDS))

    def test_each_form(self) -> None:
        for form in Form:
            text = text_of(self.file, form)
            self.assertEqual(text.count("\n"), 1 + fanthrig.MEMORY_WORDS)
            self.assertEqual(object_file(text), self.file, form)

    def test_a_listing(self) -> None:
        memory = array("H", range(fanthrig.MEMORY_WORDS))
        lines = fanthrig.page(memory, 0, fanthrig.MEMORY_WORDS).splitlines()
        listing = "".join(
            f"x{word:04X}  x{word:04X}  {line}\n" for word, line in enumerate(lines)
        )
        self.assertEqual(object_file(listing), self.file)

    def test_fields_are_those_of_the_instruction(self) -> None:
        self.assertEqual({sum(widths) for widths in FIELDS.values()}, {16})
        for text, expected in {
            "BRnz #-2": "0000 110 111111110",
            "ADD R1, R2, R3": "0001 001 010 0 00 011",
            "AND R1, R2, #-1": "0101 001 010 1 11111",
            "JSR #1": "0100 1 00000000001",
            "JSRR R3": "0100 0 00 011 000000",
            "LDR R1, R2, #-3": "0110 001 010 111101",
            "NOT R1, R2": "1001 001 010 111111",
            "RET": "1100 000 111 000000",
            "RTI": "1000 000000000000",
            "TRAP x25": "1111 0000 00100101",
            "LEA R7, #5": "1110 111 000000101",
            ".FILL xD00F": "1101 000000001111",
        }.items():
            self.assertEqual(fields(fanthrig.word(text)), expected)


class Texts(unittest.TestCase):
    """What a text may have, and what is wrong in some."""

    def test_all_forms_together(self) -> None:
        self.assertEqual(object_file(TEXT), FILE)
        self.assertEqual(object_file(TEXT.replace("\n", "\r\n").encode("utf-8-sig")), FILE)
        self.assertEqual(object_file(TEXT.replace("A,", "\u00c4,").encode("latin-1")), FILE)
        self.assertEqual(object_file("0X3000\r\rXf025;\t;"), of_words(0x3000, 0xF025))
        self.assertEqual(object_file("x3000"), of_words(0x3000))
        self.assertEqual(object_file("xFFFF\nx0001"), of_words(0xFFFF, 1))
        self.assertEqual(object_file("x4000 xF025 halt"), of_words(0x4000, 0xF025))

    def test_what_is_wrong_has_a_place(self) -> None:
        for text, line, column, said in (
            ("", 1, 1, "no word is in it"),
            ("; only this\n\n", 1, 1, "no word is in it"),
            ("\n  .ORIG x3000\n", 2, 3, ".ORIG is for an assembler"),
            ("Dear Ada,\n", 1, 1, "'Dear' is no word"),
            ("x3000\n 0001 000 000 1 0000\n", 2, 21, "15 binary digits are here"),
            ("x3000\n0001 000 000 1 000011\n", 2, 21, "more than one word"),
            ("x3000\n0001 000 002 1 00001\n", 2, 12, "'2' is no binary digit"),
            ("x3000\n0\n", 2, 2, "1 binary digit is here"),
            ("x3000\nxF0G5\n", 2, 4, "'G' is no hexadecimal digit"),
            ("x3000\nxF02\n", 2, 5, "3 hexadecimal digits are here"),
            ("x3000\nxF0250\n", 2, 6, "more than one word"),
            ("x3000 xF025\n", 1, 7, "more than one word"),
            ("x3000\nHALT\n", 2, 1, "'HALT' is no word"),
            ("x3000\nLOOP xF025\n", 2, 1, "'LOOP' is no word"),
            ("x3000\nF025\n", 2, 1, "'F025' is no word"),
            ("x3000\nx3001  xF025  TRAP x25\n", 2, 1, "the address of this word is x3000"),
            ("x3000  xF025  TRAP x21\n", 1, 15, "this line is of xF021, and not of xF025"),
            ("x3000  xF025  TRAPS\n", 1, 15, "'TRAPS' is no mnemonic"),
            ("xFFFF\nx0001\nx0002\n", 3, 1, "beyond the last one of memory"),
        ):
            with self.assertRaises(ProgramError) as caught:
                object_file(text, "sum.txt")
            error = caught.exception
            self.assertEqual((error.line, error.column), (line, column), text)
            self.assertIn(said, error.problem)
            self.assertTrue(str(error).startswith("sum.txt: refused: "))
            self.assertIn(f"line {line}, column {column}: ", str(error))

    def test_random_texts_end_in_words_or_an_error(self) -> None:
        rng = random.Random(41)
        for _ in range(3000):
            text = list(TEXT)
            for _ in range(rng.randrange(1, 4)):
                text[rng.randrange(len(text))] = rng.choice("01x \t;\n,Rg#\u00e9\0")
            try:
                self.assertGreaterEqual(len(object_file("".join(text))), 2)
            except ProgramError as error:
                self.assertGreaterEqual(min(error.line, error.column), 1)


class Commands(Folder):
    """Texts in the place of object files."""

    def test_every_command_reads_a_text(self) -> None:
        text, file = self.file("show.txt", TEXT), self.file("show.obj", FILE)
        for command in (("run",), ("run", "--registers"), ("list",), ("log",)):
            self.assertEqual(ran(*command, text), ran(*command, file))
        cases = self.file("cases.json", '[{"name": "a", "expected": "AHalted\\n"}]')
        self.assertEqual(ran("mark", "--cases", cases, text, file).code, 0)
        self.assertEqual(fanthrig.Sitting(text).memory[0x3000], 0x2002)
        piped = [*PYTHON, "run", "/dev/stdin"]
        done = subprocess.run(piped, input=TEXT.encode(), env=ENVIRONMENT, capture_output=True)
        self.assertEqual((done.returncode, done.stdout), (0, b"AHalted\n"))

    def test_a_text_is_confined_as_its_object_file(self) -> None:
        answers = self.file("answers.txt", "x2000\nx0042\n")
        for text, said in (
            ("x0102\nx0103\n", "refused (21)"),
            ("xFDFF\nxF025\nxF025\n", "refused (21)"),
            ("x3000\n" * 2 + "zzzz", "line 3, column 1"),
        ):
            done = ran("run", "--with", answers, self.file("attack.txt", text))
            self.assertEqual((done.code, done.out, said in done.err), (3, b"", True), done.err)
        self.assertEqual(ran("run", answers).code, 3)
        self.assertEqual(ran("run", "--with", answers, self.file("show.txt", TEXT)).code, 0)

    def test_text_in_utf_16_is_called_that(self) -> None:
        cases = self.file("cases.json", '[{"name": "a", "expected": "AHalted\\n"}]')
        told = "refused: it is text in UTF-16, which some editors call Unicode: save it as UTF-8"
        source = ".ORIG x3000\n; Gr\u00fc\u00dfe\nHALT\n.END\n"
        marked = [(text, text.encode("utf-16")) for text in (TEXT, f"; \u00fc\n{TEXT}", source)]
        marked += [(text, b"\xfe\xff" + text.encode("utf-16-be")) for text, _ in marked]
        bare = [text.encode(f"utf-16-{end}") for text, _ in marked[:2] for end in ("le", "be")]
        for data in [*bare, *(data for _, data in marked)]:
            for name in ("show.txt", "show.bin", "show.obj"):
                path = self.file(name, data)
                for command in ("run", "list", "log", "debug", "make"):
                    more = ("-o", self.folder / "made.obj") if command == "make" else ()
                    done = ran(command, path, *more)
                    self.assertEqual((done.code, done.out), (3, b""), (command, name, data))
                    self.assertIn(f"{path}: {told}\n", done.err)
                self.assertIn(told, ran("mark", "--cases", cases, path).out.decode())
        # What could be an object file is none of it.
        for words in ("3000 1021 000A 4E00", "FEFF 0041 0042", "FFFE 000A", "0A00 4100"):
            self.assertFalse(is_utf16(bytes.fromhex(words)), words)

    def test_text_in_utf_8_with_a_mark(self) -> None:
        for text in (TEXT, f"; \u00fc\n{TEXT}"):
            path = self.file("show.txt", b"\xef\xbb\xbf" + text.encode())
            self.assertEqual(ran("run", path).out, b"AHalted\n")
            self.assertEqual(ran("make", path).code, 0)
            self.assertEqual((self.folder / "show.obj").read_bytes(), FILE)
        script = b"\xef\xbb\xbfstep\nstep\n"
        self.assertIn("step 2: ", ran("debug", self.file("show.obj", FILE), keys=script).err)

    def test_make(self) -> None:
        text = self.file("show.txt", TEXT)
        self.assertEqual(ran("make", text, "-o", self.folder / "made.obj"), (0, b"", ""))
        self.assertEqual((self.folder / "made.obj").read_bytes(), FILE)
        self.assertEqual(ran("make", text).code, 0)
        self.assertEqual((self.folder / "show.obj").read_bytes(), FILE)
        self.assertEqual(ran("make", text, "-o", text).code, 2)
        self.assertEqual(ran("make", self.folder / "made.obj").code, 2)
        other = self.folder / "other.obj"
        for content, said in ((b"x3000\nHALT\n", "line 2, column 1"), (HELLO, "line 1, column 2")):
            done = ran("make", self.file("wrong.txt", content), "-o", other)
            self.assertEqual((done.code, done.out, other.exists()), (3, b"", False))
            self.assertIn("wrong.txt: refused: ", done.err)
            self.assertIn(said, done.err)
        for path, said in (("none.txt", "no such file"), ("", "it is a directory")):
            self.assertIn(said, ran("make", self.folder / path, "-o", other).err)
        os.truncate(self.file("long.txt", ""), 1 << 30)
        self.assertIn("longer than 4 MiB", ran("make", self.folder / "long.txt").err)

    def test_lists_are_read_back(self) -> None:
        hello = self.file("hello.obj", HELLO)
        for options in ((), ("--binary",), ("--fields",), ("--hexadecimal",)):
            text = self.file("hello.txt", ran("list", *options, hello).out)
            self.assertEqual(ran("make", text, "-o", self.folder / "again.obj").code, 0)
            self.assertEqual((self.folder / "again.obj").read_bytes(), HELLO)
        out = ran("list", "--fields", hello).out.decode().splitlines()
        self.assertEqual(out[0], "0011000000000000  ; origin x3000")
        self.assertEqual(out[1], "1110 000 000000010  ; x3000  xE002  LEA R0, #2")
        self.assertEqual(ran("list", "--binary", "--fields", hello).code, 2)

    def test_a_long_text(self) -> None:
        words = [number & 0xFFFF for number in range(0x3000, 0xFE00)]
        file = of_words(0x3000, *words)
        text = self.file("long.bin", text_of(file, Form.FIELDS).encode())
        self.assertGreater(text.stat().st_size, 1 << 21)
        self.assertEqual(ran("make", text, "-o", self.folder / "long.obj").code, 0)
        self.assertEqual((self.folder / "long.obj").read_bytes(), file)
        self.assertEqual(fanthrig.Sitting(text).memory[0xFDFF], 0xFDFF)


SYMBOLS = """\
// Symbol table
// Scope level 0:
//\tSymbol Name       Page Address
//\t----------------  ------------
//\tSTART             3000
//\tLETTER            3003

"""


class Symbols(Folder):
    """Labels of the book's assembler."""

    def setUp(self) -> None:
        super().setUp()
        self.show = self.file("show.obj", FILE)

    def test_beside_and_named(self) -> None:
        plain = ran("list", self.show).out.decode().splitlines()
        named = self.file("other.sym", SYMBOLS)
        listed = ran("list", "--symbols", named, self.show).out.decode().splitlines()
        self.assertEqual(listed[0], "x3000  x2002  LD R0, #2         ; START: LETTER")
        self.assertEqual(listed[3], f"{plain[3]:<32}; LETTER:")
        self.assertEqual(listed[1:3], plain[1:3])
        named.rename(self.folder / "show.sym")
        self.assertEqual(ran("list", self.show).out.decode().splitlines(), listed)
        # A listing with labels is a program as text still.
        text = self.file("again.txt", "\n".join(listed))
        self.assertEqual(ran("make", text).code, 0)
        self.assertEqual((self.folder / "again.obj").read_bytes(), FILE)

    def test_log_and_messages(self) -> None:
        self.file("show.sym", SYMBOLS)
        done = ran("log", self.show)
        self.assertIn("; START: LETTER\n", done.out.decode())
        self.assertIn("PC x3002 (START+2): TRAP x25\n", done.err)
        last = ran("log", "--last", 200, self.show).out
        self.assertEqual(last, done.out)
        self.assertIn("(START+2)", ran("run", self.show).err)

    def test_broken_tables(self) -> None:
        beside = self.file("show.sym", "LOOP\n")
        done = ran("run", self.show)
        self.assertEqual((done.code, done.out), (0, b"AHalted\n"))
        self.assertIn("show.sym: refused: line 1, column 1: a label", done.err)
        self.assertIn("its labels are left out", done.err)
        self.assertEqual(ran("run", "--symbols", beside, self.show).code, 3)
        self.assertEqual(ran("run", "--symbols", self.folder / "none.sym", self.show).code, 3)
        beside.write_text("// A 3000\n// B 3000\n// A 3000\n")
        self.assertIn("PC x3002 (A+2): ", ran("run", self.show).err)
        beside.write_text("// A 3000\n// A 3001\n")
        said = "line 2, column 1: A has another address in a line before: its labels are left out"
        self.assertIn(said, ran("run", self.show).err)
        beside.write_bytes(SYMBOLS.encode("utf-16"))
        self.assertIn("show.sym: refused: it is text in UTF-16", ran("run", self.show).err)
        beside.write_bytes(b"\xef\xbb\xbf" + SYMBOLS.encode())
        self.assertIn("(START+2)", ran("run", self.show).err)
        beside.unlink()
        os.mkfifo(beside)
        self.assertEqual(ran("list", self.show).code, 0)


if __name__ == "__main__":
    unittest.main()
