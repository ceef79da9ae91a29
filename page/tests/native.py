"""What the native library and the Python module answer, for page/tests/native.mjs to compare.

    python3 native.py write OUT.jsonl SITTINGS    writes what each call answers, and sittings
    python3 native.py read FOLDER                 replays the recordings that the other side wrote
"""

from __future__ import annotations

import hashlib
import json
import random
import sys
from array import array
from dataclasses import astuple
from itertools import product, zip_longest
from pathlib import Path
from typing import Any, Callable, Iterable, TextIO

import claims
import fanthrig
from fanthrig import Edition, LineError, Mode, PlaceError, Record, Refused, Sitting, calls
from fanthrig._library import LIBRARY, InstructionStruct
from fanthrig.certifying import Certificate, certificate_of
from fanthrig.command.messages import end_line
from fanthrig.formats import is_swapped, is_text, other_format
from tests.certify_support import of_class, ready_made
from tests.test_certify_call import altered

EXAMPLES = Path(__file__).resolve().parent.parent.parent / "examples"
ROUTINES = "getc out puts input putsp halt trap exception interrupt".split()
RNG = random.Random(7)
# Registers and masks, right and just not; the least and greatest value of each field, and beyond.
BORDER_REGISTERS = [(0, 0, 0), (7, 7, 7), (8, 0, 0), (0, 8, 0), (0, 0, 8), (8, 8, 8), (255, 7, 7)]
BORDERS = [sign * (1 << bits) for bits in (0, 4, 5, 8, 10, 15, 16) for sign in (1, -1)]
BORDER_VALUES = sorted({border + more for border in BORDERS for more in (-1, 0, 1)})


class Out:
    """The file that is written: one object of JSON in a line."""

    def __init__(self, stream: TextIO) -> None:
        """The stream to write to."""
        self._stream = stream

    def put(self, call: str, **data: Any) -> None:
        """Writes what a call answers."""
        self._stream.write(json.dumps({"call": call, **data}, separators=(",", ":")) + "\n")


def digest(words: Any) -> str:
    """The SHA-256 of words."""
    return hashlib.sha256(array("H", words).tobytes()).hexdigest()


def answered(call: Callable[..., Any], *words: Any) -> tuple[int, Any]:
    """The refusal of a call, and what it answers otherwise."""
    try:
        return 0, call(*words)
    except Refused as refused:
        return int(refused.number), None


def fields(record: Record) -> list[int]:
    """The fields of a record in their order."""
    regs, *others = astuple(record)
    return [*regs, *others]


def put_words(out: Out) -> None:
    """Every word: its line, its reading, and the word of its line again."""
    for word in range(65536):
        reading = calls.read(word)
        i = reading.instruction
        read = [int(i.kind), i.a, i.b, i.c, i.value, reading.mask]
        out.put("word", word=word, line=calls.line(word), read=read)


def put_instructions(out: Out, count: int) -> None:
    """Instructions: those at the borders of every field, and others, most of them wrong."""
    for kind, registers, value in product(range(20), BORDER_REGISTERS, BORDER_VALUES):
        put_instruction(out, [kind, *registers, value])
    for _ in range(count):
        near = RNG.random() < 0.7
        kind = RNG.randrange(19) if near or RNG.random() < 0.5 else RNG.randrange(256)
        numbers = [RNG.randrange(8 if near or RNG.random() < 0.5 else 256) for _ in range(3)]
        limit = RNG.choice([40, 300, 1100, 2**31 - 1])
        put_instruction(out, [kind, *numbers, RNG.randint(-limit, limit)])


def put_instruction(out: Out, operands: list[int]) -> None:
    """What lc3_write answers to an instruction."""
    written = LIBRARY.lc3_write(InstructionStruct(*operands))
    out.put("write", instruction=operands, answer=[written.word, written.refusal])


PARTS = (
    "ADD add AND NOT LD ld LDI LDR ST STI STR LEA JSR JSRR JMP RET RTI TRAP BR BRz brnz BRzn BRnzp "
    "HALT GETC .FILL .ORIG .END MUL R0 r1 R7 R8 #5 #-5 #16 #-17 #300 #99999 x10 0x1F -x3 xFFFF "
    "x10000 5 LOOP R1;x , , , , ' \" \\"
).split()


def put_texts(out: Out, count: int) -> None:
    """Texts, some of them lines: the word, or what is wrong."""
    for _ in range(count):
        mnemonic = RNG.choice(PARTS[:30])
        between = RNG.choice([", ", ",", " , ", " "])
        text = f"{mnemonic} {between.join(RNG.choices(PARTS[24:], k=RNG.randrange(4)))}".rstrip()
        if RNG.random() < 0.1:
            text = "".join(RNG.choices(" ,#xRADB0127;", k=RNG.randrange(12)))
        try:
            out.put("text", text=text, word=fanthrig.word(text))
        except LineError as error:
            out.put("text", text=text, problem=error.problem, operand=error.operand)


def object_file() -> bytes:
    """Bytes that may be an object file."""
    length = RNG.choice([0, 1, 2, 3, 4, RNG.randrange(2000), RNG.randrange(140000)])
    file = RNG.randbytes(length)
    if RNG.random() < 0.3 and len(file) > 2:
        origin = RNG.choice([0x3000, 0x2FFF, 0xFDF0, 0xFE00, 0xFFF0, RNG.randrange(65536)])
        file = origin.to_bytes(2, "big") + file[2 : RNG.randrange(3, 600)]
    return file


def put_starts(out: Out, memory: array[int], count: int) -> None:
    """Object files that are loaded."""
    for _ in range(count):
        file, user, stack = object_file(), RNG.random() < 0.5, RNG.randrange(65536)
        length = RNG.choice([65536] * 9 + [65535])
        for name in ("start", "startUser"):
            lent = memory[:length]
            if name == "start":
                refusal, started = answered(calls.start, file, lent, user, stack)
            else:
                refusal, started = answered(calls.start_user, file, lent, stack)
            asked = {"file": file.hex(), "length": length, "user": user, "stack": stack}
            got = None if started is None else [*fields(started.record), started.words]
            out.put(name, **asked, refusal=refusal, got=got, memory=digest(lent))


def put_pages(out: Out, memory: array[int], count: int) -> None:
    """Ranges of memory as lines and as object files."""
    for _ in range(count):
        ranges: dict[str, Callable[..., Any]] = {"page": calls.page, "save": calls.save}
        for name, call in ranges.items():
            first, words = RNG.randrange(65536), RNG.choice([0, 1, 7, 40, 300, 70000])
            most = 17 * words if name == "page" else 2 * words + 2
            room = bytearray(max(RNG.choice([most, most + 7, most * 3 // 4, most - 1, 0]), 0))
            refusal, made = answered(call, memory, first, words, room)
            asked = {"first": first, "count": words, "room": len(room)}
            got = [0 if made is None else made, hashlib.sha256(room).hexdigest()]
            out.put(name, **asked, refusal=refusal, got=got)


def put_monitor(out: Out, count: int) -> None:
    """The monitor and its vectors."""
    for length in (65536, 65535):
        words = array("H", bytes(2 * length))
        refusal, _ = answered(calls.monitor, words)
        out.put("monitor", length=length, refusal=refusal, memory=digest(words))
    routines = calls.monitor_routines()
    out.put("monitorRoutines", routines=[getattr(routines, name) for name in ROUTINES])
    for _ in range(count):
        where = [RNG.randrange(65536) for _ in ROUTINES]
        output = array("H", [7] * RNG.choice([512, 511, 600, 0]))
        refusal, _ = answered(calls.vectors, fanthrig.Routines(*where), output)
        asked = {"routines": where, "room": len(output)}
        out.put("vectors", **asked, refusal=refusal, output=digest(output))


PARTS_OF_A_CLAIM = ("kinds", "words", "watched", "ends", "table")


def put_claims(out: Out, count: int, instructions: int) -> None:
    """Claims: one about each of two monitors that holds, so many others with something else in it;
    and claims about so many single instructions."""
    wholes = [certificate_of([ready_made()]), certificate_of(of_class())]
    for made in wholes:
        put_others(out, made, (altered(RNG, made) for _ in range(count)))
        put_others(out, made, (altered(RNG, altered(RNG, made)) for _ in range(count // 4)))
    put_others(out, claims.base(), claims.claims(RNG, instructions))


def put_others(out: Out, made: Certificate, others: Iterable[Certificate]) -> None:
    """A claim that holds, and others that are told by what differs from it."""
    parts = {name: list(getattr(made, name)) for name in PARTS_OF_A_CLAIM}
    out.put("claim", **parts, lowest=made.lowest)
    put_claim(out, made, made)
    for other in others:
        put_claim(out, made, other)


def put_claim(out: Out, made: Certificate, other: Certificate) -> None:
    """What the test answers to a claim, which is told by what differs from another: of each part
    its length, and the numbers that are others by their places."""
    parts: dict[str, Any] = {}
    for name in PARTS_OF_A_CLAIM:
        old, new = getattr(made, name), getattr(other, name)
        if old != new:
            pairs = enumerate(zip_longest(old[: len(new)], new))
            parts[name] = [len(new), [[at, number] for at, (was, number) in pairs if was != number]]
    answer = other.tested()
    found = [int(answer.finding), answer.address, answer.state]
    out.put("certify", parts=parts, lowest=other.lowest, found=found)


def put_formats(out: Out) -> None:
    """Files that may be of another format."""
    files = [path.read_bytes() for path in sorted(EXAMPLES.iterdir()) if path.is_file()]
    files += [bytes.fromhex("1C3015C00100"), b"PK\3\4 PK\1\2", b"\x7fELF\2\1\1" + bytes(60)]
    files += ["höre\n.ORIG x3000\n".encode("latin-1"), "höre\nnichts\n".encode(), b"\x000%\xf0"]
    files += [b"x3000\nxF025 ; Gr\xfc\xdfe\n", b"; a\n 0011 0000 0000 0000;\n", b"x300\n"]
    files += [RNG.randbytes(RNG.randrange(40)) for _ in range(100)]
    for file in files:
        told = {"problem": other_format(file), "swapped": is_swapped(file), "text": is_text(file)}
        out.put("format", file=file.hex(), **told)


# Words that programs are made of: any, and some that lead to loops, calls, traps and devices.
WORDS: tuple[Callable[[], int], ...] = (
    lambda: RNG.randrange(65536),
    lambda: RNG.choice([0xF020, 0xF021, 0xF022, 0xF023, 0xF025, 0xC1C0, 0x8000, 0xD000, 0xF0FF]),
    lambda: 0x1021 | RNG.randrange(8) << 9,
    lambda: 0x0E00 | RNG.randrange(8),
    lambda: 0x0FF0 | RNG.randrange(16),
    lambda: 0x4800 | RNG.randrange(12),
    lambda: 0xE000 | RNG.randrange(4096),
    lambda: 0x2000 | RNG.randrange(4096),
    lambda: 0x3000 | RNG.randrange(4096),
    lambda: 0xA000 | RNG.randrange(64),
    lambda: 0xB000 | RNG.randrange(64),
    lambda: RNG.choice([0xFE00, 0xFE02, 0xFE06, 0xFE08, 0xFE0A, 0xFFFE, 0xFFFC, 0x4000, 0x0180]),
)


def program() -> bytes:
    """An object file of random words."""
    words = [RNG.choice(WORDS)() for _ in range(RNG.randrange(4, 60))]
    return b"".join(word.to_bytes(2, "big") for word in (0x3000, *words))


def asked_sitting(number: int) -> dict[str, Any]:
    """The options of a sitting: the examples, and then programs of random words."""
    names = ("hello", "echo", "sieve", "tasks", "answers")
    if number < len(names):
        file, user, second = (EXAMPLES / f"{names[number]}.obj").read_bytes(), number != 3, False
    else:
        file, user, second = program(), RNG.random() < 0.7, RNG.random() < 0.15
    monitor = not second and RNG.random() < 0.95
    options = {"user": user, "edition": 2 if second else 3, "monitor": monitor}
    return {"file": file.hex(), **options, "anywhere": number == 3}


def alter(sitting: Sitting, doing: dict[str, Any]) -> None:
    """Alters a register or a word, as may be refused."""
    name = RNG.choice(["R0", "R6", "PC", "PSR", "KBSR", "TIR", "TSR", "x3004", "x4000"])
    value = RNG.choice([0, 1, 0x4000, 0xC000, 0x3000, RNG.randrange(65536)])
    doing["alter"] = [name, value]
    try:
        sitting[name] = value
        doing["refusal"] = 0
    except Refused as refused:
        doing["refusal"] = int(refused.number)


# The steps of a run. By the second edition's rules the last steps are made again one at a time to
# find by which of them the program was left; most of their runs are short, and the longest goes
# further than is looked back.
STEPS = {
    Edition.THIRD: [0, 1, 2, 7, 100, 1000, 30000, 70000],
    Edition.SECOND: [0, 1, 2, 7, 30, 100, 100, 300, 1000, 9000],
}


def do(sitting: Sitting, number: int) -> dict[str, Any]:
    """Types, alters and runs, and tells what was done and what came of it."""
    typed = RNG.randbytes(RNG.choice([0, 0, 1, 3, 40])) + (b"To be." if number < 5 else b"")
    doing: dict[str, Any] = {"typed": typed.hex()}
    if RNG.random() < 0.2:
        alter(sitting, doing)
    sitting.type(typed)
    if RNG.random() < 0.2:
        doing["press"] = [RNG.randrange(256), sitting.clock + RNG.choice([0, 3, 500])]
        sitting.press(bytes([doing["press"][0]]), doing["press"][1])
    steps = doing["steps"] = RNG.choice(STEPS[sitting.edition])
    single = doing["single"] = RNG.random() < 0.1
    report = sitting.step() if single else sitting.run(steps)
    doing["made"], doing["stop"] = report.steps, int(report.stop)
    doing["ending"] = end_line(sitting.ending, sitting.clock)
    doing["kind"] = sitting.ending.kind.value
    return doing


def put_sitting(out: Out, number: int) -> None:
    """A sitting from its start to its end."""
    asked = asked_sitting(number)
    mode, edition = Mode(asked["user"]), Edition(asked["edition"])
    file = bytes.fromhex(asked["file"])
    others = {name: asked[name] for name in ("monitor", "anywhere")}
    sitting = Sitting(file, mode=mode, edition=edition, **others)
    if number >= 5 and RNG.random() < 0.5:
        places = {0x3000 + RNG.randrange(40) for _ in range(3)}
        sitting.breakpoints = places | {RNG.choice([0x204, 0x200, 0x26D])}
    doings = [do(sitting, number) for _ in range(RNG.randrange(1, 8))]
    idle = sitting.idle()
    out.put(
        "sitting",
        **asked,
        breakpoints=sorted(sitting.breakpoints),
        doings=doings,
        record=fields(sitting.record),
        memory=digest(sitting.memory.words),
        display=sitting.display_bytes.hex(),
        keys=[list(key) for key in sitting.keys],
        typed=sitting.typed.hex(),
        idle=None if idle is None else idle.value,
        last=[[step.pc, step.word, int(step.reason)] for step in sitting.last_steps(20)],
        recording=sitting.recording().to_json(),
    )


EDGES = (0, 0x2A4, 0x2A5, 0x2FF5, 0x2FF6, 0x2FFF, 0x3000, 0x3004, 0xFDFF, 0xFE00)


def place_problem(files: list[tuple[bytes, bool]]) -> str:
    """What is said of files that are loaded one after the other, each with whose it is."""
    sitting = Sitting()
    try:
        for at, (file, examiner) in enumerate(files):
            sitting._load(file, f"{at}.obj", examiner, False)
    except (PlaceError, Refused) as error:
        return str(error)
    return ""


def put_places(out: Out, count: int) -> None:
    """Files that may lie where they may not."""
    for _ in range(count):
        files = []
        for _ in range(RNG.randrange(1, 4)):
            origin = RNG.choice(EDGES)
            file = origin.to_bytes(2, "big") + bytes(2 * RNG.randrange(6))
            files.append((file, RNG.random() < 0.5))
        named = [[file.hex(), examiner] for file, examiner in files]
        out.put("places", files=named, problem=place_problem(files))


def write(path: str, sittings: int) -> None:
    """Writes all that is compared."""
    memory = array("H", [RNG.randrange(65536) for _ in range(65536)])
    with open(path, "w", encoding="ascii") as stream:
        out = Out(stream)
        put_words(out)
        put_instructions(out, 20000)
        put_texts(out, 20000)
        out.put("memory", words=memory.tobytes().hex())
        put_starts(out, memory, 500)
        put_pages(out, memory, 500)
        put_monitor(out, 200)
        put_claims(out, 400, 12000)
        put_formats(out)
        put_places(out, 500)
        for number in range(sittings):
            put_sitting(out, number)


def read(folder: str) -> None:
    """Replays recordings: each must come to its end."""
    count = 0
    for path in sorted(Path(folder).glob("*.json")):
        Sitting.replay(path)
        count += 1
    if not count:
        raise SystemExit(f"{folder} has no recording")
    print(f"{count} recordings of the other side replayed by Python: each comes to its end")


if __name__ == "__main__":
    if sys.argv[1] == "write":
        write(sys.argv[2], int(sys.argv[3]))
    else:
        read(sys.argv[2])
