"""The calls of lc3.h, one to one, under its names without ``lc3_``.

Each takes what the header says, in its order; ``keys`` are its ``bytes``. Buffers are lent: see
``fanthrig.buffers``. A refused call raises ``Refused`` and has altered nothing. Nothing is kept
between calls, and several threads may call at once. Where a handler of a signal raises in the
middle of a run, its answer is lost, and with it the record that belongs to the memory as it is
then; a step is finished first, and so is every call of a ``Sitting``.

>>> from array import array
>>> memory = array("H", bytes(2 * MEMORY_WORDS))
>>> started = start(bytes.fromhex("3000 1021 0FFE"), memory, True, 0xFDFF)
>>> ran = run(started.record, memory, array("Q"), b"", bytearray(), 1000)
>>> ran.stop, ran.steps, ran.record.regs[0]
(<Stop.DONE: 0>, 1000, 500)
"""

from __future__ import annotations

import ctypes
from array import array
from typing import TYPE_CHECKING, Any, Callable, overload

from ._library import LIBRARY
from .buffers import BYTE, NUMBER, TIME, WORD, Lending
from .constants import MAX_LINE, MEMORY_WORDS, VECTOR_WORDS
from .exclusive import Exclusive
from .records import LONG_LIMIT, WORD_LIMIT, Certified, Finding, Instruction, LoggedRun, Reading
from .records import Reason, Record, Refused, Report, Routines, Run, Started, Stop, Told
from .records import checked_int

if TYPE_CHECKING:
    from _typeshed import ReadableBuffer, WriteableBuffer


def _accepted(refusal: int, index: int = 0) -> None:
    """Nothing if the call was accepted."""
    if refusal:
        raise Refused(refusal, index)


def version() -> int:
    """The version of the interface that the library was built for.

    >>> version()
    7
    """
    return int(LIBRARY.lc3_version())


def start(
    file: ReadableBuffer, memory: WriteableBuffer, user: bool, user_stack: int
) -> Started:
    """Loads an object file into memory and makes the record of a machine that is to run it.

    The file may lie anywhere, on vectors and the examiner's words too, whatever the mode: for one
    that is not trusted there is ``start_user``.

    Refused with 11, 17, 18.

    >>> memory = array("H", bytes(2 * MEMORY_WORDS))
    >>> started = start(b"\\x30\\x00\\xF0\\x25", memory, user=True, user_stack=0xFDFF)
    >>> hex(started.record.pc), started.words, hex(memory[0x3000])
    ('0x3000', 1, '0xf025')
    """
    stack = checked_int(user_stack, WORD_LIMIT, "user_stack")
    with Lending() as lending:
        parts = lending.read(file, BYTE, "file") + lending.write(memory, WORD, "memory")
        answer = LIBRARY.lc3_start(*parts, bool(user), stack)
    _accepted(answer.refusal)
    return Started(Record.from_c(answer.record), answer.words)


def start_user(file: ReadableBuffer, memory: WriteableBuffer, user_stack: int) -> Started:
    """Starts a file that is not trusted, such as a candidate's: as ``start`` does it in User mode,
    but no word outside x3000 to xFDFF is replaced.

    Refused with 11, 17, 18, 21.

    >>> memory = array("H", bytes(2 * MEMORY_WORDS))
    >>> started = start_user(b"\\x30\\x00\\xF0\\x25", memory, user_stack=0xFDFF)
    >>> hex(started.record.pc), started.words, hex(memory[0x3000])
    ('0x3000', 1, '0xf025')
    >>> start_user(b"\\x01\\x02\\x01\\x03", memory, user_stack=0xFDFF)
    Traceback (most recent call last):
    fanthrig.records.Refused: refused (21): the file does not lie in x3000 to xFDFF, where a \
candidate's belongs: give it another origin, or take fewer words
    """
    stack = checked_int(user_stack, WORD_LIMIT, "user_stack")
    with Lending() as lending:
        parts = lending.read(file, BYTE, "file") + lending.write(memory, WORD, "memory")
        answer = LIBRARY.lc3_start_user(*parts, stack)
    _accepted(answer.refusal)
    return Started(Record.from_c(answer.record), answer.words)


def _lend_run(lending: Lending, memory: Any, times: Any, keys: Any, output: Any) -> tuple[int, ...]:
    """The buffers that every run and step takes, as the library takes them."""
    return (
        *lending.write(memory, WORD, "memory"),
        *lending.read(times, TIME, "times"),
        *lending.read(keys, BYTE, "keys"),
        *lending.write(output, BYTE, "output"),
    )


def _run_by(
    call: Callable[..., Any],
    record: Record,
    memory: Any,
    times: Any,
    keys: Any,
    output: Any,
    n: int,
) -> Run:
    """Runs by the call of one of the editions."""
    struct, steps = record.to_c(), checked_int(n, LONG_LIMIT, "n")
    with Lending() as lending:
        answer = call(struct, *_lend_run(lending, memory, times, keys, output), steps)
    _accepted(answer.refusal, answer.index)
    after = Record.from_c(answer.record)
    return Run(answer.steps, answer.keys, answer.shown, Stop(answer.stop), after)


def _step_by(
    call: Callable[..., Any], record: Record, memory: Any, times: Any, keys: Any, output: Any
) -> Report:
    """Makes a step by the call of one of the editions."""
    struct = record.to_c()
    # A handler of a signal that raises shall not part the record from its memory.
    with Exclusive(), Lending() as lending:
        buffers = _lend_run(lending, memory, times, keys, output)
        report = call(ctypes.addressof(struct), *buffers)
        _accepted(report.refusal, report.index)
        record.take(struct)
    return Report(report.steps, report.keys, report.shown, Stop(report.stop))


def run(
    record: Record,
    memory: WriteableBuffer,
    times: ReadableBuffer,
    keys: ReadableBuffer,
    output: WriteableBuffer,
    n: int,
) -> Run:
    """Runs a machine for up to n steps; it stops earlier where it is halted or output is full.

    To go on, hand in the answered record, the same memory, the lists without their first ``keys``
    entries, and an output with a free byte. Refused with 11 to 15 and 19.

    >>> memory = array("H", bytes(2 * MEMORY_WORDS))
    >>> memory[0x3000] = 0x1021
    >>> record = Record(pc=0x3000, psr=0x8002, mcr=0x8000)
    >>> run(record, memory, array("Q"), b"", bytearray(), 1).record.regs[0]
    1
    >>> run(record, memory, array("Q", [3, 9, 5]), b"abc", bytearray(), 1)
    Traceback (most recent call last):
    fanthrig.records.Refused: refused (19): times[2] is below the time before it: put the keys in \
order of time
    """
    return _run_by(LIBRARY.lc3_run, record, memory, times, keys, output, n)


def run_long(
    record: Record,
    memory: WriteableBuffer,
    times: ReadableBuffer,
    keys: ReadableBuffer,
    output: WriteableBuffer,
    n: int,
) -> Run:
    """Runs as ``run`` does, in every answer and refusal: the call for long runs.

    >>> memory = array("H", bytes(2 * MEMORY_WORDS))
    >>> memory[0x3000], memory[0x3001] = 0x1021, 0x0FFE
    >>> record = Record(pc=0x3000, psr=0x8002, mcr=0x8000)
    >>> run_long(record, memory, array("Q"), b"", bytearray(), 1_000_000).record.regs[0]
    41248
    """
    return _run_by(LIBRARY.lc3_run_long, record, memory, times, keys, output, n)


def step(
    record: Record,
    memory: WriteableBuffer,
    times: ReadableBuffer,
    keys: ReadableBuffer,
    output: WriteableBuffer,
) -> Report:
    """Makes one step and alters ``record`` itself: otherwise ``run`` with n = 1.

    >>> memory = array("H", bytes(2 * MEMORY_WORDS))
    >>> record = Record(pc=0x3000, psr=0x8002, mcr=0x8000)
    >>> step(record, memory, array("Q"), b"", bytearray()).steps, hex(record.pc), record.clock
    (1, '0x3001', 1)
    """
    return _step_by(LIBRARY.lc3_step, record, memory, times, keys, output)


def run_second(
    record: Record,
    memory: WriteableBuffer,
    times: ReadableBuffer,
    keys: ReadableBuffer,
    output: WriteableBuffer,
    n: int,
) -> Run:
    """Runs as ``run`` does by the rules of the book's second edition.

    LEA sets the codes; TRAP links by R7 and pushes nothing; no access exception exists; xFFFC is a
    plain word; JSRR R7 goes on at the next instruction.

    >>> memory = array("H", bytes(2 * MEMORY_WORDS))
    >>> memory[0x3000], memory[0x0025] = 0xF025, 0x0400
    >>> record = Record(pc=0x3000, psr=0x8002, mcr=0x8000)
    >>> after = run_second(record, memory, array("Q"), b"", bytearray(), 1).record
    >>> hex(after.pc), hex(after.regs[7]), after.mode
    ('0x400', '0x3001', <Mode.USER: 1>)
    """
    return _run_by(LIBRARY.lc3_run_second, record, memory, times, keys, output, n)


def step_second(
    record: Record,
    memory: WriteableBuffer,
    times: ReadableBuffer,
    keys: ReadableBuffer,
    output: WriteableBuffer,
) -> Report:
    """Makes one step as ``step`` does by the rules of the book's second edition.

    >>> memory = array("H", bytes(2 * MEMORY_WORDS))
    >>> memory[0x3000] = 0xE1FF
    >>> record = Record(pc=0x3000, psr=0x8002, mcr=0x8000)
    >>> step_second(record, memory, array("Q"), b"", bytearray()).stop, record.codes
    (<Stop.DONE: 0>, 'P')
    """
    return _step_by(LIBRARY.lc3_step_second, record, memory, times, keys, output)


def _logged_by(
    call: Callable[..., Any],
    record: Record,
    memory: Any,
    times: Any,
    keys: Any,
    output: Any,
    log: Any,
    n: int,
) -> LoggedRun:
    """Runs and logs by the call of one of the editions."""
    struct, steps = record.to_c(), checked_int(n, LONG_LIMIT, "n")
    with Lending() as lending:
        buffers = _lend_run(lending, memory, times, keys, output)
        room = lending.write(log, WORD, "log")
        answer = call(struct, *buffers, *room, steps)
    _accepted(answer.refusal, answer.index)
    after, stop = Record.from_c(answer.record), Stop(answer.stop)
    return LoggedRun(answer.steps, answer.keys, answer.shown, stop, after, answer.logged)


def run_logged(
    record: Record,
    memory: WriteableBuffer,
    times: ReadableBuffer,
    keys: ReadableBuffer,
    output: WriteableBuffer,
    log: WriteableBuffer,
    n: int,
) -> LoggedRun:
    """Runs as ``run`` does, and writes three words a step to the log, which
    ``logged_steps`` reads.

    Where fewer than three words of the log are free it stops with ``Stop.LOG_FULL``.

    >>> memory = array("H", bytes(2 * MEMORY_WORDS))
    >>> memory[0x3000], memory[0x3001] = 0x1021, 0xD000
    >>> record, log = Record(pc=0x3000, psr=0x8002, mcr=0x8000), array("H", bytes(12))
    >>> ran = run_logged(record, memory, array("Q"), b"", bytearray(), log, 1000)
    >>> ran.stop, ran.steps, ran.logged, log[4] == 0xD000
    (<Stop.LOG_FULL: 3>, 2, 6, True)
    """
    return _logged_by(LIBRARY.lc3_run_logged, record, memory, times, keys, output, log, n)


def run_logged_second(
    record: Record,
    memory: WriteableBuffer,
    times: ReadableBuffer,
    keys: ReadableBuffer,
    output: WriteableBuffer,
    log: WriteableBuffer,
    n: int,
) -> LoggedRun:
    """Runs as ``run_second`` does, by the rules of the book's second edition, and logs as
    ``run_logged`` does.

    >>> memory = array("H", bytes(2 * MEMORY_WORDS))
    >>> memory[0x3000] = 0xF025
    >>> record, log = Record(pc=0x3000, psr=0x8002, mcr=0x8000), array("H", bytes(6))
    >>> run_logged_second(record, memory, array("Q"), b"", bytearray(), log, 1).record.regs[7]
    12289
    >>> [f"x{word:04X}" for word in log]
    ['x3000', 'xF025', 'x0000']
    """
    return _logged_by(LIBRARY.lc3_run_logged_second, record, memory, times, keys, output, log, n)


def _tell_by(
    call: Callable[..., Any], record: Record, memory: Any, times: Any, keys: Any
) -> Told:
    """Tells of the next step by the call of one of the editions."""
    struct = record.to_c()
    with Lending() as lending:
        step = call(
            struct,
            *lending.read(memory, WORD, "memory"),
            *lending.read(times, TIME, "times"),
            *lending.read(keys, BYTE, "keys"),
        )
    _accepted(step.refusal, step.index)
    reads, writes = (tuple(words.at[: words.count]) for words in (step.reads, step.writes))
    return Told(Stop(step.stop), step.word, Reason(step.reason), reads, writes)


def tell(
    record: Record, memory: ReadableBuffer, times: ReadableBuffer, keys: ReadableBuffer
) -> Told:
    """Tells what the next step of ``run`` does, and makes none: nothing is altered.

    Refused as a run of one step is.

    >>> memory = array("H", bytes(2 * MEMORY_WORDS))
    >>> memory[0x3000], memory[0x3002] = 0xB001, 0x4000
    >>> told = tell(Record(pc=0x3000, psr=0x8002, mcr=0x8000), memory, array("Q"), b"")
    >>> [f"x{address:04X}" for address in told.reads], told.writes == (0x4000,)
    (['x3000', 'x3002'], True)
    """
    return _tell_by(LIBRARY.lc3_tell, record, memory, times, keys)


def tell_second(
    record: Record, memory: ReadableBuffer, times: ReadableBuffer, keys: ReadableBuffer
) -> Told:
    """Tells what the next step of ``run_second`` does, as ``tell`` does.

    >>> memory = array("H", bytes(2 * MEMORY_WORDS))
    >>> memory[0x3000] = 0xF025
    >>> record = Record(pc=0x3000, psr=0x8002, saved_ssp=0x3000, mcr=0x8000)
    >>> [f(record, memory, array("Q"), b"").writes for f in (tell, tell_second)]
    [(12287, 12286), ()]
    """
    return _tell_by(LIBRARY.lc3_tell_second, record, memory, times, keys)


def read(word: int) -> Reading:
    """Reads a word as an instruction, with a mask of the fixed bits that are wrong in it.

    >>> read(0x14E7).instruction
    Instruction(kind=<Kind.ADD_IMMEDIATE: 2>, a=2, b=3, c=0, value=7)
    >>> read(0x8001).mask
    1
    """
    reading = LIBRARY.lc3_read(checked_int(word, WORD_LIMIT, "word"))
    return Reading(Instruction.from_c(reading.instruction), reading.mask)


def write(instruction: Instruction) -> int:
    """Writes an instruction as a word, with the fixed bits as its format has them.

    Refused with 1, 2, 3.

    >>> from fanthrig import Kind
    >>> hex(write(Instruction(Kind.TRAP, value=0x25)))
    '0xf025'
    """
    written = LIBRARY.lc3_write(instruction.to_c())
    _accepted(written.refusal)
    return int(written.word)


@overload
def line(word: int) -> str: ...
@overload
def line(word: int, output: WriteableBuffer) -> int: ...


def line(word: int, output: Any = None) -> Any:
    """Writes a word as a line of text: the line itself without its line feed, or with an output
    the number of bytes that were written there, line feed included.

    The output is refused with 16 where it has too little room.

    >>> line(0x14E7), line(0xF025), line(0x0005)
    ('ADD R2, R3, #7', 'TRAP x25', '.FILL x0005')
    >>> output = bytearray(17)
    >>> output[:line(0xF025, output)]
    bytearray(b'TRAP x25\\n')
    """
    number = checked_int(word, WORD_LIMIT, "word")
    text = bytearray(MAX_LINE) if output is None else output
    with Lending() as lending:
        counted = LIBRARY.lc3_line(number, *lending.write(text, BYTE, "output"))
    _accepted(counted.refusal)
    return text[: counted.count - 1].decode("ascii") if output is None else counted.count


def line_length(word: int) -> int:
    """The bytes of a word's line, its line feed included.

    >>> line_length(0x14E7)
    15
    """
    return int(LIBRARY.lc3_line_length(checked_int(word, WORD_LIMIT, "word")))


@overload
def page(memory: ReadableBuffer, first: int, count: int) -> str: ...
@overload
def page(memory: ReadableBuffer, first: int, count: int, output: WriteableBuffer) -> int: ...


def page(memory: Any, first: int, count: int, output: Any = None) -> Any:
    """Lists a range of memory: the lines of ``count`` words from ``first`` on, each with its line
    feed. With an output, the number of bytes that were written there.

    Refused with 11, 20, 16.

    >>> memory = array("H", bytes(2 * MEMORY_WORDS))
    >>> memory[0x3000], memory[0x3001] = 0x1021, 0x0FFE
    >>> page(memory, 0x3000, 2)
    'ADD R0, R0, #1\\nBRnzp #-2\\n'
    """
    first, count = checked_int(first, WORD_LIMIT, "first"), checked_int(count, LONG_LIMIT, "count")
    # No page that is accepted is longer, and a count that is refused asks for no room.
    text = bytearray(min(count, MEMORY_WORDS) * MAX_LINE) if output is None else output
    with Lending() as lending:
        words = lending.read(memory, WORD, "memory")
        room = lending.write(text, BYTE, "output")
        counted = LIBRARY.lc3_page(*words, first, count, *room)
    _accepted(counted.refusal)
    return text[: counted.count].decode("ascii") if output is None else counted.count


@overload
def save(memory: ReadableBuffer, origin: int, words: int) -> bytes: ...
@overload
def save(memory: ReadableBuffer, origin: int, words: int, output: WriteableBuffer) -> int: ...


def save(memory: Any, origin: int, words: int, output: Any = None) -> Any:
    """Writes a range of memory as an object file: the file itself, or with an output the number of
    bytes that were written there.

    Refused with 11, 18, 16.

    >>> memory = array("H", bytes(2 * MEMORY_WORDS))
    >>> memory[0x3000] = 0xF025
    >>> save(memory, 0x3000, 1).hex(" ", 2)
    '3000 f025'
    """
    origin = checked_int(origin, WORD_LIMIT, "origin")
    words = checked_int(words, LONG_LIMIT, "words")
    file = bytearray(2 + 2 * min(words, MEMORY_WORDS)) if output is None else output
    with Lending() as lending:
        lent = lending.read(memory, WORD, "memory")
        room = lending.write(file, BYTE, "output")
        counted = LIBRARY.lc3_save(*lent, origin, words, *room)
    _accepted(counted.refusal)
    return bytes(file[: counted.count]) if output is None else counted.count


def monitor(memory: WriteableBuffer) -> None:
    """Puts the ready-made monitor into memory: the words x0000 to x02A4, and no other.

    Refused with 11.

    >>> memory = array("H", bytes(2 * MEMORY_WORDS))
    >>> monitor(memory)
    >>> hex(memory[0x0025])
    '0x26d'
    """
    with Lending() as lending:
        refusal = LIBRARY.lc3_monitor(*lending.write(memory, WORD, "memory"))
    _accepted(refusal)


def monitor_routines() -> Routines:
    """Where the ready-made monitor's routines are.

    >>> hex(monitor_routines().getc)
    '0x200'
    """
    return Routines.from_c(LIBRARY.lc3_monitor_routines())


@overload
def vectors(routines: Routines) -> array[int]: ...
@overload
def vectors(routines: Routines, output: WriteableBuffer) -> None: ...


def vectors(routines: Routines, output: Any = None) -> Any:
    """Writes the words x0000 to x01FF of a monitor with these routines: as an array, or to the
    start of an output, which may be memory itself.

    The output is refused with 16 where it has fewer than 512 words.

    >>> from dataclasses import replace
    >>> words = vectors(replace(monitor_routines(), puts=0x1000))
    >>> hex(words[0x21]), hex(words[0x22])
    ('0x204', '0x1000')
    """
    words = array("H", bytes(2 * VECTOR_WORDS)) if output is None else output
    with Lending() as lending:
        refusal = LIBRARY.lc3_vectors(routines.to_c(), *lending.write(words, WORD, "output"))
    _accepted(refusal)
    return words if output is None else None


def certify(
    memory: ReadableBuffer,
    kinds: ReadableBuffer,
    lowest: int,
    watched: ReadableBuffer,
    ends: ReadableBuffer,
    table: ReadableBuffer,
) -> Certified:
    """Tests a table that says what is known at each word of a monitor's routines. Where it holds,
    a sitting beside that monitor tells nothing of a secret word: it is a theorem.

    ``kinds`` has a byte for each word from x0000 on: 1 fixed, as it stands in memory, 2 the
    monitor's own, and else secret. ``lowest`` is the lowest word of the stack, ``watched`` are
    eight addresses, 0 for none, ``ends`` the number of states up to each row's end, from x0200 on,
    and ``table`` has 17 numbers a state: R0 to R7, the codes, the watched words. ``fanthrig.
    certifying`` makes such tables. No call is refused, and nothing is written.

    >>> certify(array("H"), b"", 0x2FFE, array("H", bytes(16)), array("I"), array("I"))
    Certified(finding=<Finding.VECTOR: 3>, address=0, state=0)
    """
    stack = checked_int(lowest, WORD_LIMIT, "lowest")
    with Lending() as lending:
        words = lending.read(memory, WORD, "memory") + lending.read(kinds, BYTE, "kinds")
        places = lending.read(watched, WORD, "watched")
        rows = lending.read(ends, NUMBER, "ends") + lending.read(table, NUMBER, "table")
        answer = LIBRARY.lc3_certify(*words, stack, *places, *rows)
    return Certified(Finding(answer.finding), answer.address, answer.state)
