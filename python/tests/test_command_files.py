"""Hostile files: each is refused in one line that names it, and no traceback is ever seen."""

from __future__ import annotations

import errno
import io
import json
import os
import random
import unittest
import zipfile
from pathlib import Path
from unittest import mock

import fanthrig
from fanthrig.formats import is_text, other_format

from .command_support import HELLO, Folder, Ran, ran
from .support import object_file

TEXT = b".ORIG x3000\nLEA R0, HELLO\nPUTS\nHALT\nHELLO .STRINGZ \"Hi\"\n.END\n"


# As lc3tools writes it: its name, its version, and an entry for each word with its source line.
LC3TOOLS = bytes.fromhex("1C30 15C0 01 01 01 01000000 0030 01 00000000 25F0 00 04000000") + b"HALT"


def zipped() -> bytes:
    """An archive with an object file in it."""
    archive = io.BytesIO()
    with zipfile.ZipFile(archive, "w") as file:
        file.writestr("hello.obj", HELLO)
    return archive.getvalue()


ZIPPED = zipped()


def swapped(file: bytes) -> bytes:
    """A file with the bytes of each word swapped."""
    return bytes(byte for pair in zip(file[1::2], file[::2]) for byte in pair)


class Hostile(Folder):
    """Files that are no object files."""

    def hostile(self) -> dict[Path, str]:
        """The files, and what is said of each."""
        link = self.folder / "circle.obj"
        link.symlink_to(link)
        return {
            self.file("empty.obj", b""): "refused (17)",
            self.file("one.obj", b"\x30"): "refused (17)",
            self.file("odd.obj", HELLO + b"\x00"): "refused (17)",
            self.file("long.obj", b"\x30\x00" + bytes(2 * 0xD000 + 2)): "refused (18)",
            self.file("tools.obj", LC3TOOLS): "it is an object file of lc3tools",
            self.file("odd-tools.obj", LC3TOOLS + b"\x00"): "it is an object file of lc3tools",
            self.file("longer.obj", bytes(1 << 20)): "refused (18)",
            self.file("high.obj", b"\xFF\xFF" + bytes(4)): "refused (18)",
            self.file("hello.asm", TEXT): "it is text",
            self.file("accents.asm", TEXT + "; sí, señor\n".encode()): "it is text",
            self.file("hello.bin", b"0011000000000000\n1111000000100102\n"): "line 2, column 16",
            self.file("notepad.asm", b"\xef\xbb\xbf; a program\r\n" + TEXT): "it is text",
            self.file("latin.asm", "; sí, señor\n".encode("latin-1") + TEXT): "it is text",
            self.file("elf", b"\x7fELF\x02\x01\x01" + bytes(200)): "ELF",
            self.file("hello.zip", ZIPPED): "it is a ZIP archive",
            self.folder: "it is a directory",
            self.folder / "none.obj": "no such file",
            self.file("file", HELLO) / "below.obj": "no such file",
            self.folder / ("n" * 300): "name is too long",
            link: "symbolic links",
            Path("/dev/zero"): "refused (18)",
            Path("/dev/null"): "refused (17)",
        }

    def check(self, done: Ran, path: Path, said: str) -> None:
        """That a refusal is one line that names the file, and nothing else is written."""
        self.assertEqual((done.code, done.out), (3, b""), (path, done))
        self.assertEqual(done.err.count("\n"), 1, done.err)
        self.assertTrue(done.err.startswith(f"lc3: {path}: "), done.err)
        self.assertIn(said, done.err)

    def test_every_command(self) -> None:
        good = self.file("good.obj", HELLO)
        for path, said in self.hostile().items():
            self.check(ran("run", path), path, said)
            self.check(ran("run", path, good), path, said)
            self.check(ran("run", good, path), path, said)
            self.check(ran("list", path), path, said)
            self.check(ran("log", path), path, said)
            self.check(ran("log", "--last", 3, path), path, said)

    def test_keys_sittings_and_cases(self) -> None:
        good, folder = self.file("good.obj", HELLO), self.folder
        sitting = self.folder / "sitting.json"
        self.assertEqual(ran("run", "--save-sitting", sitting, good).code, 0)
        cut = self.file("cut.json", sitting.read_bytes()[:1000])
        for arguments, said in (
            (("run", "--keys", f"@{folder}", good), f"--keys: {folder}: it is a directory"),
            (("run", "--keys", "@", good), "no such file"),
            (("run", "--save-sitting", folder, good), f"{folder}: it is a directory"),
            (("run", "--save-sitting", folder / "a" / "b", good), "no such file"),
            (("run", "--replay", folder), f"{folder}: it is a directory"),
            (("run", "--replay", folder / "none"), "no such file"),
            (("run", "--replay", good), f"{good}: no recording of a sitting"),
            (("run", "--replay", cut), f"{cut}: no recording of a sitting"),
            (("log", "--replay", cut), "name a file that --save-sitting wrote"),
            (("mark", "--cases", folder / "none", good), "no such file"),
            (("mark", "--cases", good, good), f"{good}: no cases: it is not JSON"),
            (("run", "--replay", "/dev/zero"), "/dev/zero: no recording of a sitting: over"),
            (("run", "--keys", "@/dev/zero", good), "/dev/zero: refused: it is longer than"),
            (("mark", "--cases", "/dev/zero", good), "/dev/zero: refused: it is a device"),
        ):
            code, out, err = ran(*arguments)
            self.assertEqual((code, out, err.count("\n")), (3, b"", 1), (arguments, err))
            self.assertIn(said, err)

    def test_no_permission(self) -> None:
        secret = self.file("secret.obj", HELLO)
        denied = PermissionError(errno.EACCES, "Permission denied", str(secret))
        with mock.patch("fanthrig.command.files.open", side_effect=denied, create=True):
            self.check(ran("list", secret), secret, "permission denied")

    @unittest.skipIf(os.geteuid(), "only root can become another user")
    def test_no_permission_of_the_system(self) -> None:
        secret = self.file("secret.obj", HELLO)
        secret.chmod(0)
        self.folder.chmod(0o755)
        self.assertEqual(ran("list", secret).code, 0)
        os.seteuid(65534)
        try:
            self.check(ran("list", secret), secret, "permission denied")
            self.check(ran("run", secret), secret, "permission denied")
            self.check(ran("log", secret), secret, "permission denied")
        finally:
            os.seteuid(0)

    def test_names_that_are_no_text(self) -> None:
        name = os.fsdecode(os.fsencode(str(self.folder)) + b"/\xff\xfe.obj")
        Path(name).write_bytes(HELLO)
        self.assertEqual(ran("run", name)[:2], (0, b"Hi\nHalted\n"))
        self.assertIn(b"\\udcff", ran("list", name, name).out)
        code, _, err = ran("run", name + "x")
        self.assertEqual((code, "\\udcff" in err), (3, True))
        sitting = self.folder / "sitting.json"
        self.assertEqual(ran("run", "--save-sitting", sitting, name).code, 0)
        self.assertEqual(ran("run", "--replay", sitting).code, 0)
        self.file("cases/a.expected", "Hi\nHalted\n")
        for form in ((), ("--json",), ("--csv",), ("--one",)):
            self.assertEqual(ran("mark", "--cases", self.folder / "cases", *form, name).code, 0)

    def test_random_files_end_in_a_code(self) -> None:
        rng = random.Random(3)
        for _ in range(150):
            path = self.file("random.obj", rng.randbytes(rng.choice([0, 1, 2, 3, 7, 40, 600])))
            code, _, err = ran("run", "--steps", 500, "--keys", "abc", path)
            self.assertIn(code, (0, 1, 3, 4))
            self.assertEqual((err.count("\n"), err[:5]), (1, "lc3: "))

    def test_the_module_says_so_too(self) -> None:
        for data, said in ((LC3TOOLS, "lc3tools"), (TEXT, "it is text"), (ZIPPED, "ZIP archive")):
            path = self.file("other.obj", data)
            with self.assertRaisesRegex(fanthrig.FormatError, f"other.obj: refused: .*{said}"):
                fanthrig.Sitting(path)


class Swapped(Folder):
    """Files with the low byte of each word first."""

    def test_plainly_swapped(self) -> None:
        file = self.file("swapped.obj", swapped(HELLO))
        cases = self.file("cases.json", '[{"name": "a", "expected": ""}]')
        said = f"{file}: refused: the low byte of each of its words comes first"
        for command in (("run",), ("log",), ("run", "--supervisor"), ("run", "--no-monitor")):
            code, out, err = ran(*command, file)
            self.assertEqual((code, out, err.count("\n")), (3, b"", 1))
            self.assertIn(f"lc3: {said}", err)
        marked = json.loads(ran("mark", "--one", "--cases", cases, file).out)
        self.assertEqual((marked["verdict"], said in marked["problem"]), ("refused", True))

    def test_what_may_be_right_is_not_refused(self) -> None:
        # As it stands a program at x3040; the other way round one at x4030, which halts.
        words = [fanthrig.word("AND R0, R0, #0"), 0x25F0, fanthrig.word("BRnzp #-1")]
        for file in (object_file(0x3040, *words), swapped(object_file(0x4030, *words))):
            self.assertEqual(ran("run", "--steps", 9, self.file("either.obj", file)).code, 1)
        # Vectors of a class's monitor, at x0030.
        vectors = self.file("vectors.obj", object_file(0x0030, 0x25F0, 0x0130))
        hello = self.file("hello.obj", HELLO)
        halting = self.file("halt.obj", object_file(0x0025, 0x0200))
        routine = self.file("routine.obj", object_file(0x0200, "STI R0, #0", 0xFFFE))
        monitor = [word for file in (vectors, halting, routine) for word in ("--with", file)]
        self.assertIn(ran("run", "--no-monitor", "--steps", 9, *monitor, hello).code, (0, 1, 4))
        self.assertNotEqual(ran("run", "--anywhere", "--steps", 9, vectors).code, 3)
        self.assertEqual(ran("list", vectors).code, 0)

    def test_what_is_refused_for_its_place_alone(self) -> None:
        for file in (object_file(0x0030, 0x1234), object_file(0x0030, 0xF025, 0x25F0)):
            self.assertIn("refused (21)", ran("run", self.file("vectors.obj", file)).err)


class Formats(unittest.TestCase):
    """What is taken for another format."""

    def test_object_files_are_not(self) -> None:
        rng = random.Random(4)
        for _ in range(200):
            words = [rng.getrandbits(16) for _ in range(rng.randrange(4, 60))]
            self.assertEqual(other_format(object_file(0x3000, *words)), "")
            self.assertFalse(is_text(object_file(0x3000, *words)))
        # A few words of printable bytes alone are no text yet.
        self.assertFalse(is_text(object_file(0x3030, 0x3131, 0x4142)))
        self.assertEqual(other_format(HELLO), "")
        # So are the words of a string for PUTSP.
        self.assertFalse(is_text(b"@@ehll oowlr!d"))
        # What begins as another format may still be a program.
        for begins in (0x1C30, 0x15C0), (0x7F45, 0x4C46), (0x504B, 0x0304):
            self.assertEqual(other_format(object_file(*begins, 0x5020, 0xF025)), "")
            self.assertEqual(other_format(object_file(*begins, *[0x5020] * 40)), "")

    def test_texts_are(self) -> None:
        for text in (TEXT, b"hello world\r\n", "Grüße aus dem Süden\n".encode()):
            self.assertTrue(is_text(text))
            self.assertEqual(other_format(text), "")
