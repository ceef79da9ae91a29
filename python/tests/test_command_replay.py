"""Sittings saved by ``--save-sitting`` and replayed by ``--replay``, in whole and in pieces, on
random programs."""

from __future__ import annotations

import json
import os
import random
from array import array
from pathlib import Path
from typing import Any
from unittest import mock

import fanthrig
from fanthrig.recording import sealed

from .command_support import HELLO, UNTIL_Q, Folder, ran
from .support import object_file, random_memory

# The ranges of random memory that have words.
RANGES: tuple[tuple[int, int], ...] = ((0x0000, 512), (0x2FE0, 0x90), (0x4000, 64), (0xFDF0, 0x210))

# Random words reach the devices by R5 and R4, which are set first.
BEGIN = ("LD R5, #3", "LD R4, #3", "LD R1, #3", "JMP R1")

# What a lively program is made of: it computes, branches, reads keys, shows bytes and traps.
LIVELY = ["ADD R0, R0, #1", "ADD R1, R0, R1", "NOT R2, R1", "AND R0, R0, R2", "ADD R0, R0, #-7"]
LIVELY += ("BRp #1", "BRn #2", "BRz #-3", "LDR R0, R5, #2", "LDR R1, R5, #0", "STR R0, R5, #6")
LIVELY += ("STR R0, R5, #6", "STR R0, R5, #10", "TRAP x21", "TRAP x21", "TRAP x20")


# The commands that replay.
COMMANDS: tuple[tuple[object, ...], ...] = (("run",), ("log",), ("log", "--last", 3))


class Replays(Folder):
    """Replays by the command."""

    def saved(self, rng: random.Random) -> tuple[Path, bytes, str, int]:
        """A random sitting: its file, its display, its last line and its exit code."""
        memory, options, ranges = random_memory(rng), [], RANGES
        if rng.random() < 0.5:
            words = [fanthrig.word(rng.choice(LIVELY)) for _ in range(40)]
            memory[0x3000:0x3029] = array("H", [*words, fanthrig.word("BRnzp #-41")])
            # The monitor's vectors stay as they are.
            ranges = RANGES[1:]
        else:
            options += ["--no-monitor"]
        files = [
            self.file(f"{first:04X}.obj", object_file(first, *memory[first : first + count]))
            for first, count in ranges
        ]
        keys = self.file("keys", rng.randbytes(rng.choice([0, 1, 20])))
        options += ["--supervisor"] if rng.random() < 0.7 else []
        if "--no-monitor" in options and rng.random() < 0.3:
            options += ["--edition", "2"]
        path = self.folder / "sitting.json"
        begin = object_file(0x5000, *BEGIN, 0xFE00, 0xFFF0, rng.choice([0x3000, 0x4000]))
        files.append(self.file("begin.obj", begin))
        start = ["--anywhere", "--pc", "x5000", "--stack", "x3010"]
        limit = ["--steps", rng.choice([100, 3000, 20000]), "--keys", f"@{keys}"]
        code, out, err = ran("run", *options, *start, *limit, "--save-sitting", path, *files)
        self.assertIn(code, (0, 1, 4), err)
        return path, out, err, code

    def test_in_whole_and_in_pieces(self) -> None:
        rng, again = random.Random(2026), self.folder / "again.json"
        shown = steps = keys = 0
        for _ in range(60):
            path, out, err, code = self.saved(rng)
            replayed = ran("run", "--replay", path, "--save-sitting", again)
            self.assertEqual((replayed.code, replayed.out), (code, out))
            self.assertEqual(replayed.err.partition(";")[2], err.partition(";")[2])
            self.assertEqual(again.read_text(), path.read_text())
            recording = fanthrig.Recording.load(path)
            shown, steps = shown + len(out), steps + recording.steps
            keys += len(recording.keys)
            self.pieces(path, recording, out)
        # The programs do enough for this to mean something.
        self.assertGreater(shown, 1000)
        self.assertGreater(keys, 50)
        self.assertGreater(steps, 100_000)

    def pieces(self, path: Path, recording: fanthrig.Recording, out: bytes) -> None:
        """The first steps alone, and the recording of these, are as in the whole."""
        rng, piece = random.Random(recording.steps), self.folder / "piece.json"
        sitting = fanthrig.Sitting.of(recording)
        for at in sorted(rng.randrange(recording.steps + 1) for _ in range(3)):
            sitting.run(at - sitting.clock)
            cut = ran("run", "--replay", path, "--steps", at, "--save-sitting", piece)
            self.assertEqual(cut.out, sitting.display_bytes)
            self.assertTrue(out.startswith(cut.out))
            self.assertEqual(fanthrig.Recording.load(piece).end, sitting.recording().end)
            self.assertEqual(ran("run", "--replay", piece).out, cut.out)

    def test_keys_of_a_pipe(self) -> None:
        program, path = self.file("until.obj", UNTIL_Q), self.folder / "sitting.json"
        code, out, err = ran("run", "--save-sitting", path, program, keys=b"some keys, q")
        self.assertEqual(ran("run", "--replay", path), (code, out, err))
        self.assertEqual(ran("run", "--replay", path, keys=b"zzz"), (code, out, err))

    def test_a_sitting_that_waits_is_replayed_to_its_end(self) -> None:
        program, path = self.file("until.obj", UNTIL_Q), self.folder / "sitting.json"
        saved = ran("run", "--save-sitting", path, program)
        self.assertIn("no more keys come; 256 steps", saved.err)
        code, out, err = ran("run", "--replay", path)
        self.assertEqual((code, out, "256 steps" in err), (1, b"", True))

    def test_more_steps_than_there_are(self) -> None:
        hello, path = self.file("hello.obj", HELLO), self.folder / "sitting.json"
        ran("run", "--steps", 50, "--save-sitting", path, hello)
        code, _, err = ran("run", "--replay", path, "--steps", 1000, "--registers")
        self.assertEqual((code, "; 50 steps; " in err, "R0 x" in err), (1, True, True))

    def test_alterations_of_a_host(self) -> None:
        # A host that sets a halted machine going again.
        sitting, path = fanthrig.Sitting(HELLO), self.folder / "sitting.json"
        for _ in range(3):
            sitting.run(1000)
            sitting["MCR"], sitting["PC"] = 0x8000, 0x3000
        sitting.run(50)
        sitting.save(path)
        for command in COMMANDS:
            code, _, err = ran(*command, "--replay", path)
            self.assertEqual((code, f"; {sitting.clock} steps; " in err), (1, True), err)


class OtherEnds(Folder):
    """A replay that ends anywhere else than the sitting did says so, with a code of its own."""

    def setUp(self) -> None:
        """Saves a sitting."""
        super().setUp()
        self.hello, self.path = self.file("hello.obj", HELLO), self.folder / "sitting.json"
        self.assertEqual(ran("run", "--save-sitting", self.path, self.hello).code, 0)

    def altered(self, path: list[Any], value: object, seal: bool = True) -> Path:
        """The sitting with one member altered, with a digest of its own or without."""
        data = place = json.loads(self.path.read_text())
        for name in path[:-1]:
            place = place[name]
        place[path[-1]] = value
        return self.file("altered.json", json.dumps(sealed(data) if seal else data))

    def test_altered_sittings(self) -> None:
        altered: list[tuple[list[Any], object, str]] = [
            (["edition"], 2, "the replay stops after 48 of 152 steps: stopped by the "),
            (["start", "record", "pc"], 0x3002, "steps: halted by HALT"),
            (["start", "record", "mcr"], 0, "the replay stops after 0 of 152 steps"),
            (["start", "record", "regs", 1], 2, "the replay comes to another record than the"),
            (["end", "shown"], 11, "the replay comes to another shown than the sitting"),
            (["end", "display"], "0" * 64, "the replay comes to another display"),
        ]
        for path, value, said in altered:
            file = self.altered(path, value)
            for command in COMMANDS:
                code, _, err = ran(*command, "--replay", file)
                self.assertEqual(code, 5, (path, err))
                self.assertTrue(err.splitlines()[-1].startswith(f"lc3: {file}: the replay"), err)
                self.assertIn(said, err)
            code, out, err = ran("run", "--replay", self.altered(path, value, seal=False))
            self.assertEqual((code, out), (3, b""))
            self.assertIn("its digest is that of other data", err)

    def test_the_first_steps(self) -> None:
        early = self.altered(["edition"], 2)
        self.assertEqual(ran("run", "--replay", early, "--steps", 49).code, 5)
        # As far as these go, it is the sitting.
        self.assertEqual(ran("run", "--replay", early, "--steps", 1).code, 1)
        later = self.altered(["end", "shown"], 11)
        self.assertEqual(ran("run", "--replay", later, "--steps", 151).code, 1)
        self.assertEqual(ran("run", "--replay", later, "--steps", 152).code, 5)
        self.assertEqual(ran("run", "--replay", self.path, "--steps", 1000).code, 0)

    def test_steps_without_end(self) -> None:
        data = json.loads(self.path.read_text())
        data["steps"] = data["end"]["record"]["clock"] = 1 << 47
        endless = self.file("endless.json", json.dumps(sealed(data)))
        code, out, err = ran("run", "--replay", endless)
        self.assertEqual((code, out, err.count("\n")), (3, b"", 1))
        self.assertIn("endless.json: refused: it has 140737488355328 steps", err)
        self.assertIn("say by --steps how many", err)
        self.assertEqual(ran("run", "--replay", endless, "--steps", 100).code, 1)

    def test_a_sitting_that_is_too_long(self) -> None:
        with mock.patch("fanthrig.recording.LONGEST", 1000):
            code, _, err = ran("run", "--save-sitting", self.folder / "new.json", self.hello)
        self.assertEqual((code, "new.json: the sitting is longer than" in err), (3, True))
        self.assertFalse((self.folder / "new.json").exists())

    def test_a_sitting_with_too_many_keys(self) -> None:
        echo = self.file("echo.obj", object_file(0x3000, "TRAP x20", "TRAP x21", "BRnzp #-3"))
        path = self.folder / "echo.json"
        with mock.patch("fanthrig.command.seat.MOST_SAVED_KEYS", 5):
            code, _, err = ran("run", "--save-sitting", path, echo, keys=b"abcdef")
        self.assertEqual((code, "too long to be saved" in err), (1, True))
        # What was made until then is saved.
        self.assertEqual(ran("run", "--replay", path).code, 1)

    def test_no_file_that_is_read_is_overwritten(self) -> None:
        before, names = self.hello.read_bytes(), ("symbolic", "hard", "hello.obj")
        (self.folder / "symbolic").symlink_to("hello.obj")
        os.link(self.hello, self.folder / "hard")
        examiner = self.file("answers.obj", object_file(0x2000, 1))
        for name in names:
            path = self.folder / name
            code, _, err = ran("run", "--save-sitting", path, self.hello)
            self.assertEqual((code, "would overwrite" in err), (2, True))
        done = ran("run", "--with", examiner, "--save-sitting", examiner, self.hello)
        self.assertEqual((done.code, "would overwrite" in done.err), (2, True))
        self.assertEqual(self.hello.read_bytes(), before)

    def test_a_full_disk(self) -> None:
        code, _, err = ran("run", "--save-sitting", "/dev/full", self.hello)
        last = "lc3: /dev/full: no space is left: free some, or name another place"
        self.assertEqual((code, err.splitlines()[-1]), (3, last))
