"""Recordings: replays in whole and in pieces, on random programs, and files that are none."""

from __future__ import annotations

import base64
import json
import random
import tempfile
import unittest
import zlib
from pathlib import Path
from typing import Any, Callable, Iterator
from unittest import mock

import fanthrig
from fanthrig import Recording, RecordingError, ReplayError, Sitting
from fanthrig.recording import RegisterAlteration, sealed

from .command_support import HELLO
from .support import COUNTING, ECHO, object_file, random_keys, random_memory, random_record
from .support import sitting_of, whole_state


def lived(seed: int) -> Sitting:
    """A random sitting: runs, steps, breakpoints, typed and pressed keys, and alterations."""
    rng = random.Random(seed)
    record = random_record(rng)
    sitting = sitting_of(record, random_memory(rng), rng.choice(list(fanthrig.Edition)))
    if rng.random() < 0.4:
        sitting = Sitting(object_file(0x4000, 0xF025), ECHO)
    times, keys = random_keys(rng, sitting.clock, 400)
    for time, key in zip(times, keys):
        sitting.press(bytes([key]), time)
    for _ in range(12):
        act = rng.randrange(7)
        if act == 0:
            sitting.type(bytes(rng.getrandbits(8) for _ in range(rng.randrange(5))))
        elif act == 1:
            sitting[rng.choice(["R0", "R5", "PC", "Saved_SSP"])] = rng.choice([0x3000, 0xFE00])
        elif act == 2:
            sitting.memory[rng.choice([0x3000, 0x0025, 0x3004])] = rng.getrandbits(16)
        elif act == 3:
            sitting["MCR"] = 0x8000
            sitting["TIR"] = rng.choice([0, 7])
        elif act == 4:
            sitting.load(object_file(0x3002, rng.getrandbits(16), 0x1021))
        elif act == 5:
            sitting.breakpoints = set(rng.sample([0x3000, 0x3004, 0x4000], rng.randrange(3)))
        sitting.run(rng.choice([0, 1, 40, 100]))
    return sitting


class Replays(unittest.TestCase):
    """A recording comes to the same end, however it is run."""

    def test_in_whole_and_in_pieces_on_random_programs(self) -> None:
        for seed in range(120):
            sitting = lived(seed)
            recording = Recording.from_json(sitting.recording().to_json())
            again = Sitting.replay(recording)
            self.assertEqual(whole_state(again), whole_state(sitting), seed)
            self.assertEqual(again.typed, sitting.typed, seed)
            rng, pieces = random.Random(~seed), Sitting.of(recording)
            while pieces.clock < sitting.clock:
                left = sitting.clock - pieces.clock
                if rng.random() < 0.2:
                    list(pieces.trace(min(left, 5)))
                else:
                    pieces.run(min(rng.choice([1, 3, 50, 500]), left))
            pieces.run(0)
            self.assertEqual(whole_state(pieces), whole_state(sitting), seed)

    def test_a_replay_goes_on_as_the_sitting_does(self) -> None:
        for seed in range(60):
            sitting = lived(seed)
            sitting["MCR"] = 0x8000
            sitting.breakpoints = set()
            again = Sitting.replay(sitting.recording())
            self.assertEqual(again.run(700), sitting.run(700), seed)
            self.assertEqual(whole_state(again), whole_state(sitting), seed)
            third = Sitting.replay(again.recording())
            self.assertEqual(whole_state(third), whole_state(sitting), seed)

    def test_saved_half_way_through_a_replay(self) -> None:
        for seed in range(40):
            sitting = lived(seed)
            pieces = Sitting.of(sitting.recording())
            pieces.run(random.Random(seed).randrange(sitting.recording().steps + 1))
            later = Sitting.of(Recording.from_json(pieces.recording().to_json()))
            later.run(sitting.clock - later.clock)
            self.assertEqual(whole_state(later)[:3], whole_state(sitting)[:3], seed)

    def test_the_past_of_a_replay(self) -> None:
        for seed in range(30):
            sitting = lived(seed)
            again = Sitting.replay(sitting.recording())
            self.assertEqual(again.last_steps(100), sitting.last_steps(100), seed)

    def test_files(self) -> None:
        with tempfile.TemporaryDirectory() as folder:
            path = Path(folder) / "a.sitting"
            sitting = Sitting(ECHO)
            sitting.type("hello, file")
            sitting.run(150)
            sitting.save(path)
            self.assertLess(path.stat().st_size, 8000)
            again = Sitting.replay(str(path))
            self.assertEqual(whole_state(again), whole_state(sitting))
            self.assertEqual(again.typed, sitting.typed)
            self.assertTrue(again.typed)
            for each in (again, sitting, Sitting.of(path)):
                each.run(3000 - each.clock)
                self.assertEqual(each.display, "hello, file")
            self.assertEqual(Sitting.of(path).programs, sitting.programs)

    def test_long_sittings(self) -> None:
        sitting = Sitting(COUNTING)
        sitting.run(3_000_000)
        sitting["R0"] = 5
        sitting.run(30_000_000)
        recording = Recording.from_json(sitting.recording().to_json())
        self.assertEqual((recording.start.clock, recording.steps), (0, 33_000_000))
        self.assertEqual(whole_state(Sitting.replay(recording)), whole_state(sitting))

    def test_alterations_in_the_midst_of_a_replay(self) -> None:
        sitting = Sitting(COUNTING)
        sitting.run(100)
        sitting["R1"] = 1
        sitting.run(100)
        again = Sitting.of(sitting.recording())
        again.run(50)
        again["R2"] = 2
        again.run(150)
        changes = (RegisterAlteration(50, "R2", 2), RegisterAlteration(100, "R1", 1))
        self.assertEqual(again.recording().alterations, changes)
        self.assertEqual((again["R1"], again["R2"]), (1, 2))
        self.assertEqual(whole_state(Sitting.replay(again.recording())), whole_state(again))

    def test_before_the_first_step_nothing_is_an_alteration(self) -> None:
        sitting = Sitting(COUNTING)
        sitting["R0"] = 5
        sitting.memory[0x4000] = 1
        self.assertEqual(sitting.recording().alterations, ())
        self.assertEqual(Sitting.replay(sitting.recording())["R0"], 5)


class OtherEnds(unittest.TestCase):
    """A replay that comes to another end says so."""

    def changed(self, change: Any) -> str:
        sitting = Sitting(ECHO)
        sitting.type("abc")
        sitting.run(500)
        data = json.loads(sitting.recording().to_json())
        change(data)
        with self.assertRaisesRegex(RecordingError, "its digest is that of other data"):
            Recording.from_json(json.dumps(data))
        with self.assertRaises(ReplayError) as caught:
            Sitting.replay(Recording.from_json(json.dumps(sealed(data))))
        return str(caught.exception)

    def test_each_part_is_compared(self) -> None:
        def key(data: Any) -> None:
            data["keys"][1][1] = 120

        def digest(data: Any) -> None:
            data["end"]["memory"] = "0" * 64

        def fewer(data: Any) -> None:
            data["steps"] = data["end"]["record"]["clock"] = 499

        def halted(data: Any) -> None:
            data["start"]["record"]["mcr"] = 0

        self.assertIn("another display", self.changed(key))
        self.assertIn("another memory", self.changed(digest))
        self.assertIn("another record", self.changed(fewer))
        self.assertIn("stops after 0 of 500 steps: the machine is halted", self.changed(halted))


def leaves(data: Any) -> Iterator[tuple[Any, Any]]:
    """Each place in data that holds a number or a text: where it is, and by which name."""
    places = data.items() if isinstance(data, dict) else enumerate(data)
    for name, value in list(places):
        if isinstance(value, (dict, list)):
            yield from leaves(value)
        else:
            yield data, name


def other(value: int | str) -> int | str:
    """Another number, or a text with another character."""
    if isinstance(value, int):
        return value - 1 if value else 1
    return value[:-1] + ("A" if value[-1:] != "A" else "B")


class Tampered(unittest.TestCase):
    """A recording that was altered never passes."""

    def setUp(self) -> None:
        """Makes a sitting in which every member has something."""
        sitting = Sitting(object_file(0x4000, 0xF025), ECHO)
        sitting.type("abc")
        sitting.press(b"late", 10_000)
        sitting.run(30)
        sitting["R1"] = 5
        sitting.memory[0x5000] = 6
        sitting.run(30)
        self.text = sitting.recording().to_json()

    def test_every_number_and_text(self) -> None:
        count = len(list(leaves(json.loads(self.text))))
        self.assertGreater(count, 60)
        for number in range(count):
            data = json.loads(self.text)
            place, name = list(leaves(data))[number]
            place[name] = other(place[name])
            with self.assertRaises(RecordingError, msg=(name, place[name])):
                Recording.from_json(json.dumps(data))

    def test_a_new_digest_does_not_help(self) -> None:
        sitting = Sitting(HELLO)
        sitting.run(1000)
        self.assertEqual(sitting.clock, 152)
        altered: list[tuple[list[Any], object]] = [
            (["edition"], 2),
            (["start", "record", "pc"], 0x3002),
            (["start", "record", "pc"], 0x0000),
            (["start", "record", "psr"], 0x0002),
            (["start", "record", "regs", 6], 0x4000),
            (["start", "record", "mcr"], 0),
            (["end", "record", "regs", 3], 1),
            (["end", "shown"], 9),
            (["end", "display"], "0" * 64),
            (["end", "memory"], "0" * 64),
        ]
        for path, value in altered:
            data = place = json.loads(sitting.recording().to_json())
            for name in path[:-1]:
                place = place[name]
            place[path[-1]] = value
            with self.subTest(path), self.assertRaises(ReplayError):
                Sitting.replay(Recording.from_json(json.dumps(sealed(data))))

    def test_fewer_and_more_steps(self) -> None:
        for steps, problem in ((59, "another record"), (61, "another record")):
            data = json.loads(self.text)
            data["steps"] = data["end"]["record"]["clock"] = steps
            with self.assertRaisesRegex(ReplayError, problem):
                Sitting.replay(Recording.from_json(json.dumps(sealed(data))))

    def test_a_recording_without_end(self) -> None:
        data = json.loads(self.text)
        data["steps"] = data["end"]["record"]["clock"] = 1 << 47
        endless = Recording.from_json(json.dumps(sealed(data)))
        with self.assertRaisesRegex(RecordingError, "140737488355328 steps, more than 10000000000"):
            Sitting.replay(endless)
        with self.assertRaisesRegex(RecordingError, "more than 59"):
            Sitting.replay(Recording.from_json(self.text), most=59)
        self.assertEqual(Sitting.replay(Recording.from_json(self.text), most=60).clock, 60)

    def test_members_that_are_there_twice(self) -> None:
        for old, new in (
            ('"edition": 3,', '"edition": 3, "edition": 2,'),
            ('"edition": 3,', '"edition": 3, "edition": 3,'),
            ('"since": 32', '"since": 32, "since": 30'),
        ):
            self.assertEqual(self.text.count(old), 1, old)
            with self.assertRaisesRegex(RecordingError, "is there twice"):
                Recording.from_json(self.text.replace(old, new))

    def test_version_1_is_read(self) -> None:
        data = json.loads(self.text)
        data["version"] = 1
        del data["digest"]
        old = Recording.from_json(json.dumps(data))
        self.assertEqual(old, Recording.from_json(self.text))
        self.assertEqual(Sitting.replay(old).display, "ab")


class Saving(unittest.TestCase):
    """Files that can't be written."""

    def test_a_full_disk(self) -> None:
        with self.assertRaises(OSError) as caught:
            Sitting(ECHO).save("/dev/full")
        self.assertEqual(caught.exception.filename, "/dev/full")

    def test_what_is_too_long_to_be_read(self) -> None:
        with mock.patch(
            "fanthrig.recording.LONGEST", 1000
        ), tempfile.TemporaryDirectory() as folder:
            path = Path(folder) / "long.json"
            with self.assertRaisesRegex(RecordingError, "long.json: the sitting is longer"):
                Sitting(ECHO).save(path)
            self.assertFalse(path.exists())


class HostileFiles(unittest.TestCase):
    """Files that are no recordings are errors of one class, and name what is wrong."""

    def setUp(self) -> None:
        sitting = Sitting(ECHO)
        sitting.type("abc")
        sitting.run(100)
        sitting["R1"] = 5
        sitting.memory[0x5000] = 6
        sitting.run(100)
        self.text = sitting.recording().to_json()

    def wrong(self, text: str | bytes, problem: str = "") -> None:
        """That a text is no recording."""
        with self.assertRaises(RecordingError) as caught:
            Recording.from_json(text)
        self.assertIn(problem, str(caught.exception))

    def test_texts(self) -> None:
        for text in ("", "{", "[]", "null", "7", "[" * 100_000):
            self.wrong(text)
        for data in (b"\xff\xfe\x00", b"\x30\x00"):
            self.wrong(data)
        self.wrong("9" * 1_000_000, "more than 20 digits")
        self.wrong("[NaN]", "NaN is no whole number")
        self.wrong(self.text[:-20])

    def wrong_members(self) -> list[tuple[list[Any], Any, str]]:
        """Members, a wrong value of each, and what is said of it."""
        bomb = base64.b64encode(zlib.compress(bytes(10_000_000))).decode()
        short = base64.b64encode(zlib.compress(bytes(100))).decode()
        return [
            (["format"], "other", "format is 'other'"),
            (["version"], 3, "version is 3"),
            (["edition"], 4, "4 is not a valid Edition"),
            (["start", "memory"], "!", "not in base64"),
            (["start", "memory"], "AAAA", "not compressed"),
            (["start", "memory"], bomb, "not 65536 words"),
            (["start", "memory"], short, "not 65536 words"),
            (["start", "memory"], 5, "not in base64"),
            (["start", "record", "psr"], 8, "undefined bit"),
            (["start", "record", "pc"], 65536, "pc is 65536"),
            (["start", "record", "pc"], 1.5, "1.5 is no whole number"),
            (["start", "record", "regs"], [0] * 7, "7 registers"),
            (["start", "record", "clock"], 5, "order of time"),
            (["keys", 0], [0, 256], "key is 256"),
            (["keys", 0], [0], ""),
            (["keys", 0, 0], 1 << 60, "keys are not in order"),
            (["alterations", 0, "register"], "R9", "'R9' is no register"),
            (["alterations", 0, "register"], "MCR", "undefined bit"),
            (["typed", "since"], 1 << 40, "looked at before the last key"),
            (["alterations", 0, "clock"], 1 << 47, "alterations are not in order"),
            (["alterations", 1, "address"], 65535, ""),
            (["alterations", 1, "words"], "123", "four hexadecimal digits"),
            (["alterations", 1, "words"], "12G4", ""),
            (["steps"], 7, "its steps are not"),
            (["end", "memory"], "0" * 63, "the memory at the end is no SHA-256"),
            (["end", "display"], None, "the display at the end is no SHA-256"),
            (["typed", "bytes"], "*", "not in base64"),
            (["programs", 0], 5, ""),
            (["programs", 0, "name"], 5, "the name of a program is 5"),
        ]

    def wrong_numbers(self) -> list[tuple[list[Any], Any, str]]:
        """The same of numbers, each beyond its limit or none."""
        return [
            (["version"], True, "version must be a whole number"),
            (["version"], "2", "version must be a whole number"),
            (["edition"], True, "edition must be a whole number"),
            (["start", "record", "pc"], True, "pc must be a whole number"),
            (["start", "record", "pc"], -1, "pc is -1"),
            (["start", "record", "pc"], 10**30, "more than 20 digits"),
            (["steps"], 1 << 49, "steps is 562949953421312"),
            (["steps"], None, "steps must be a whole number"),
            (["end", "record", "clock"], (1 << 48) + 1, "clock is 281474976710657"),
            (["end", "shown"], 201, "more bytes are shown than steps made"),
            (["end", "shown"], -1, "shown is -1"),
            (["end", "shown"], "3", "shown must be a whole number"),
            (["typed", "look"], 1 << 50, "look is 1125899906842624"),
            (["keys", 0, 0], 1 << 64, "time is 18446744073709551616"),
            (["alterations", 0, "value"], 65536, "R1 is 65536"),
            (["alterations", 1, "address"], 65536, "address is 65536"),
            (["programs", 0, "origin"], 65536, "origin is 65536"),
            (["programs", 0, "words"], 0xD001, "words is 53249"),
            (["programs", 0, "words"], 1 << 70, "more than 20 digits"),
        ]

    def test_wrong_members(self) -> None:
        for path, value, problem in self.wrong_members() + self.wrong_numbers():
            data: Any = json.loads(self.text)
            place = data
            for name in path[:-1]:
                place = place[name]
            place[path[-1]] = value
            if path[-1] == "address":
                place["words"] = "00000000"
            with self.subTest(path):
                self.wrong(json.dumps(sealed(data)), problem)

    def test_missing_members(self) -> None:
        for name in json.loads(self.text):
            data = json.loads(self.text)
            del data[name]
            text = json.dumps(data if name == "digest" else sealed(data))
            self.wrong(text, f"'{name}' is missing")

    def test_the_file_is_named(self) -> None:
        with tempfile.TemporaryDirectory() as folder:
            path = Path(folder) / "none.sitting"
            path.write_bytes(COUNTING)
            calls: list[Callable[[Path], object]] = [Sitting.replay, Sitting.of, Recording.load]
            for call in calls:
                with self.assertRaisesRegex(RecordingError, "none.sitting: no recording"):
                    call(path)
            with self.assertRaises(FileNotFoundError):
                Sitting.replay(Path(folder) / "nowhere")


if __name__ == "__main__":
    unittest.main()
