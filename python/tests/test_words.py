"""``word``: the inverse of ``line`` for every word, and an error for every other text."""

from __future__ import annotations

import random
import unittest

import fanthrig
from fanthrig import LineError, line, word

from .support import fresh


class EveryWord(unittest.TestCase):
    """All 65,536 of them."""

    lines: list[str]

    @classmethod
    def setUpClass(cls) -> None:
        memory = fresh()
        for number in range(fanthrig.MEMORY_WORDS):
            memory[number] = number
        cls.lines = fanthrig.page(memory, 0, fanthrig.MEMORY_WORDS).splitlines()

    def test_a_line_is_the_word_s_own(self) -> None:
        for number, text in enumerate(self.lines):
            if word(text) != number:
                self.fail(f"{text!r} is {word(text):04X}, not {number:04X}")

    def test_letters_and_spaces_are_free(self) -> None:
        rng = random.Random(1)
        for number, text in enumerate(self.lines[::5]):
            spaced = text.replace(",", rng.choice([",", " ,", ",  ", "\t,\t"]))
            spaced = rng.choice(["", " ", "\t"]) + spaced + rng.choice(["", " ", "\n", "\r\n"])
            spaced = rng.choice([spaced, spaced.lower(), spaced.upper(), spaced.swapcase()])
            self.assertEqual(word(spaced.replace(" #", rng.choice([" #", "   #"]))), number * 5)

    def test_as_the_book_writes_them(self) -> None:
        for text, expected in {
            "JMP R7": "RET",
            "BR #-1": "BRnzp #-1",
            "TRAP #37": "TRAP x25",
            "ADD R0, R0, xF": "ADD R0, R0, #15",
            "ADD R0, R0, -x10": "ADD R0, R0, #-16",
            "TRAP 0x25": "TRAP x25",
            "LD R0, -0x1": "LD R0, #-1",
            "GETC": "TRAP x20",
            "out": "TRAP x21",
            "PUTS": "TRAP x22",
            "IN": "TRAP x23",
            "PUTSP": "TRAP x24",
            " halt ": "TRAP x25",
            ".FILL #-1": ".FILL xFFFF",
            ".FILL #65535": ".FILL xFFFF",
            "LD R1, #+5": "LD R1, #5",
            ".FILL x1021": "ADD R0, R0, #1",
        }.items():
            self.assertEqual(line(word(text)), expected if text[0] != "." else line(word(text)))
            self.assertEqual(word(text), word(expected))


HOSTILE = {
    # text: what the problem says, and the operand at fault
    "": ("it is empty", 0),
    " \t\r\n": ("it is empty", 0),
    "FOO": ("'FOO' is no mnemonic", 0),
    "HALT x25": ("HALT takes no operand, and 1 is given", 0),
    "PUTC": ("'PUTC' is no mnemonic; one of BR, ADD, ", 0),
    "TRAP 00x25": ("neither a register nor a number", 1),
    "TRAP 0x" + "F" * 9: ("no number", 1),
    "BRzn #1": ("n, z, p in that order", 0),
    "BRnn #1": ("n, z, p in that order", 0),
    ".ORIG x3000": (".ORIG is for an assembler", 0),
    "ADD": ("takes 3 operands parted by commas (DR, SR1, SR2 or imm5), and none given", 0),
    "ADD R1, R2": ("and 2 given", 0),
    "ADD R1 R2 #3": ("and 1 given", 0),
    "ADD R1, R2, R3, R4": ("and 4 given", 0),
    "RET R7": ("RET takes no operand, and 1 is given", 0),
    "RTI,": ("no mnemonic", 0),
    "ADD R1,, R3": ("operand 2 of ADD: it is empty; SR1, R0 to R7, expected", 2),
    "ADD R8, R2, R3": ("operand 1 of ADD: R8 is no register; DR, R0 to R7, expected", 1),
    "ADD R1, R2, R33333333333333333": ("is no register; SR2 or imm5 from -16 to 15", 3),
    "ADD R1, R2, #16": ("operand 3 of ADD: #16 is out of range; SR2 or imm5 from -16", 3),
    "ADD R1, R2, #-17": ("#-17 is out of range", 3),
    "ADD R1, R2, 5": ("5 is no operand: a decimal number begins with #", 3),
    "ADD R1, #2, #3": ("operand 2 of ADD: #2 is a number; SR1, R0 to R7, expected", 2),
    "LD R1, R2": ("R2 is a register; PCoffset9 from -256 to 255 expected", 2),
    "LD R1, LOOP": ("LOOP is no operand: a line has offsets in the place of labels", 2),
    "LD R1, #256": ("PCoffset9 from -256 to 255 expected", 2),
    "LDR R1, R2, #32": ("offset6 from -32 to 31 expected", 3),
    "STR R1, R2, #-33": ("offset6 from -32 to 31 expected", 3),
    "JSR #1024": ("PCoffset11 from -1024 to 1023 expected", 1),
    "JSRR #1": ("BaseR, R0 to R7, expected", 1),
    "NOT R1, #2": ("operand 2 of NOT: #2 is a number; SR, R0 to R7, expected", 2),
    "TRAP x100": ("trapvect8 from 0 to 255 expected", 1),
    "TRAP -x1": ("out of range", 1),
    ".FILL x10000": ("a word from -32768 to 65535 expected", 1),
    ".FILL #-32769": ("out of range", 1),
    ".FILL 'A'": ("neither a register nor a number", 1),
    ".FILL x": ("no operand", 1),
    ".FILL #": ("no number", 1),
    ".FILL #" + "9" * 10_000: ("no number", 1),
    ".FILL x" + "F" * 10_000: ("no number", 1),
    "ADD R1, R2, #1 ; a comment": ("a line has no comment", 3),
    "ADD R1, R2, (R3)": ("(R3) is neither a register nor a number", 3),
    "X" * 10_000: ("is no mnemonic", 0),
    "ADD R1, R2, #1\nRET": ("'\\n' is no character of a line", 0),
    "ADD R1, R2, #1\0": ("'\\x00' is no character of a line", 0),
    "\u017fT R1, #1": ("'\u017f' is no character of a line", 0),
    "ADD R\u0663, R2, #1": ("'\u0663' is no character of a line", 0),
    "ADD\u00a0R1, R2, #1": ("no character of a line", 0),
    "x3000": ("no mnemonic", 0),
    ",": ("no mnemonic", 0),
    "#5": ("no mnemonic", 0),
}


class HostileTexts(unittest.TestCase):
    """Texts that are no lines."""

    def test_the_error_names_what_is_wrong(self) -> None:
        for text, (problem, operand) in HOSTILE.items():
            with self.subTest(text[:40]), self.assertRaises(LineError) as caught:
                word(text)
            error = caught.exception
            self.assertIn(problem, error.problem)
            self.assertEqual((error.operand, error.text), (operand, text))
            self.assertLess(len(str(error)), 300)

    def test_random_texts_are_lines_or_errors(self) -> None:
        rng = random.Random(2)
        alphabet = "ADRLBRnzpST.FILx0127#-+, \t;'é"
        for _ in range(20_000):
            text = "".join(rng.choice(alphabet) for _ in range(rng.randrange(14)))
            try:
                number = word(text)
            except LineError:
                continue
            self.assertEqual(word(line(number)), number)

    def test_lines_with_one_character_altered(self) -> None:
        rng = random.Random(3)
        for _ in range(5_000):
            text = list(line(rng.getrandbits(16)))
            text[rng.randrange(len(text))] = chr(rng.randrange(1, 0x250))
            try:
                self.assertIn(word("".join(text)), range(65536))
            except LineError as error:
                self.assertTrue(str(error))

    def test_what_is_no_text(self) -> None:
        for thing in (None, 5, b"RET", ["RET"]):
            with self.assertRaisesRegex(TypeError, "a line must be a str"):
                word(thing)  # type: ignore[arg-type]


if __name__ == "__main__":
    unittest.main()
