"""A machine in buffers that stay in place, so that a run copies nothing and checks nothing twice.

``Sitting`` is made of it. A host that lends buffers of its own calls ``fanthrig.run`` and the
others.
"""

from __future__ import annotations

import ctypes
from array import array
from copy import copy
from hashlib import sha256
from typing import Any, Callable, NamedTuple, Sequence

from ._library import LIBRARY, RecordStruct, ToldStruct
from .buffers import NOWHERE
from .constants import KBDR_BYTE, KBSR_READY, LOG_WORDS, MEMORY_WORDS, PSR_USER
from .log import LoggedStep, logged_steps, told
from .records import Edition, Mode, Record, Refused, Stop
from .steps import SHORT_BYTES, TracedStep, changes

MEMORY_BYTES = 2 * MEMORY_WORDS

# The room of a new display. It doubles when it is full.
FIRST_ROOM = 4096

# The steps of a logged run in one call: three words each, 384 KiB.
LOGGED_AT_ONCE = 65536

# The call by which a machine of each edition runs, and so every sitting and every marking.
RUNS_BY = {Edition.THIRD: "lc3_run_long", Edition.SECOND: "lc3_run_second"}

# The calls by which it logs its steps, and is told what the next one does.
LOGGED_BY = {Edition.THIRD: "lc3_run_logged", Edition.SECOND: "lc3_run_logged_second"}
TELLS_BY = {Edition.THIRD: "lc3_tell", Edition.SECOND: "lc3_tell_second"}

# The stops that a call answers, by their numbers.
STOPS = (Stop.DONE, Stop.HALTED, Stop.OUTPUT_FULL, Stop.LOG_FULL)


class Snapshot(NamedTuple):
    """A machine at one time: enough to go on from there once more."""

    clock: int
    record: bytes
    memory: bytes
    arrived: int
    shown: int


class Digest:
    """The SHA-256 of bytes that come one after the other and are not held."""

    def __init__(self) -> None:
        """No bytes have come."""
        self._hash: Any = None

    def add(self, data: bytes) -> None:
        """Adds bytes."""
        self._hash = self._hash or sha256()
        self._hash.update(data)

    def of(self, rest: bytes) -> str:
        """The digest of all bytes and these, in hexadecimal digits."""
        whole = sha256() if self._hash is None else self._hash.copy()
        whole.update(rest)
        return str(whole.hexdigest())

    def __copy__(self) -> Digest:
        """A digest of its own, of the same bytes."""
        other = Digest()
        other._hash = None if self._hash is None else self._hash.copy()
        return other

    def __deepcopy__(self, _memo: object) -> Digest:
        """The same."""
        return copy(self)

    def __getstate__(self) -> dict[str, Any]:
        """What ``pickle`` makes it of; but what is in the middle of a digest can't be written."""
        if self._hash is not None:
            raise TypeError("a sitting that has forgotten its display can't be pickled")
        return vars(self)


class Machine:
    """Record, memory, keys and display of one machine.

    ``times`` and ``keys`` are the lists of all keys, of which the first ``arrived`` have arrived;
    ``output`` holds the ``shown`` bytes of the display but for the first ``dropped``, and room for
    more, but where ``limit`` is set never for more than that.
    """

    def __init__(self, edition: Edition) -> None:
        """A halted machine with empty memory."""
        self.edition = edition
        self.record = RecordStruct()
        self.words = array("H", bytes(MEMORY_BYTES))
        self._log = array("H")
        self.times, self.keys, self.arrived = array("Q"), array("B"), 0
        self.clear_display()
        self.limit: int | None = None
        self._bind()

    def _bind(self) -> None:
        """Fetches the calls of the machine's edition, and the address of its memory."""
        self._run = getattr(LIBRARY, RUNS_BY[self.edition])
        self._logged = getattr(LIBRARY, LOGGED_BY[self.edition])
        self._tell = getattr(LIBRARY, TELLS_BY[self.edition])
        # An array that is viewed can't be resized, and so its address stays.
        self._view = memoryview(self.words)
        self._memory = self.words.buffer_info()[0]

    def __getstate__(self) -> dict[str, Any]:
        """What a copy is made of, in objects of its own: no call, no view and no address."""
        state: dict[str, Any] = {**vars(self), "record": bytes(self.record), "_log": array("H")}
        for name in ("words", "times", "keys", "output"):
            state[name] = state[name][:]
        state["_digest"] = copy(self._digest)
        for name in ("_run", "_logged", "_tell", "_view", "_memory"):
            del state[name]
        return state

    def __setstate__(self, state: dict[str, Any]) -> None:
        """A machine that stands where another one stood."""
        vars(self).update(state)
        self.record = RecordStruct.from_buffer_copy(state["record"])
        self._bind()

    def _lent(self) -> tuple[int, ...]:
        """Memory, the keys that have not arrived, and the free bytes of the output."""
        count = len(self.times) - self.arrived
        times = keys = output = NOWHERE
        if count:
            times = self.times.buffer_info()[0] + 8 * self.arrived
            keys = self.keys.buffer_info()[0] + self.arrived
        held, room = self.shown - self.dropped, len(self.output)
        if self.limit is not None:
            room = min(room, self.limit - self.dropped)
        free = room - held
        if free > 0:
            output = self.output.buffer_info()[0] + held
        else:
            free = 0
        return self._memory, MEMORY_WORDS, times, count, keys, count, output, free

    def _enlarged(self) -> bool:
        """Makes room for more bytes of the display, unless the limit is met."""
        if self.limit is not None and self.limit <= self.shown:
            return False
        if len(self.output) <= self.shown - self.dropped:
            self.output.frombytes(bytes(len(self.output)))
        return True

    def clear_display(self, shown: int = 0) -> None:
        """An empty display; so many bytes were shown before that are not asked for."""
        self.output = array("B", bytes(FIRST_ROOM))
        self.shown = self.dropped = shown
        self._digest = Digest()

    def displayed(self, first: int = 0) -> bytes:
        """The bytes of the display from one of them on, as far as they are held."""
        start = max(first - self.dropped, 0)
        return self.output[start : self.shown - self.dropped].tobytes()

    def drop_display(self) -> None:
        """Holds no longer what was shown, but its digest."""
        self._digest.add(self.displayed())
        self.dropped = self.shown

    def display_digest(self) -> str:
        """The SHA-256 of all that was shown, in hexadecimal digits."""
        return self._digest.of(self.displayed())

    def _answer(self, call: Callable[..., Any], *more: int) -> Any:
        """What a call answers to which all is lent, with record and counts booked."""
        answer = call(self.record, *self._lent(), *more)
        if answer.refusal:
            raise Refused(answer.refusal, answer.index)
        self.record = answer.record
        self.arrived += answer.keys
        self.shown += answer.shown
        return answer

    def advance(self, n: int) -> Stop:
        """Makes up to n steps, at most ``MAX_STEPS``, and enlarges the display where it is full."""
        while True:
            answer = self._answer(self._run, n)
            n -= answer.steps
            stop = STOPS[answer.stop]
            if stop is not Stop.OUTPUT_FULL or not self._enlarged():
                return stop

    def advance_logged(self, n: int) -> tuple[Stop, array[int]]:
        """Makes up to n steps, at most ``LOGGED_AT_ONCE``, with the words of their log."""
        if len(self._log) < LOG_WORDS * n:
            self._log = array("H", bytes(2 * LOG_WORDS * n))
        log, logged, asked = self._log, 0, n
        address = log.buffer_info()[0] if n else NOWHERE
        while True:
            room = (address + 2 * logged, LOG_WORDS * asked - logged)
            answer = self._answer(self._logged, *room, n)
            n -= answer.steps
            logged += answer.logged
            stop = STOPS[answer.stop]
            if stop is not Stop.OUTPUT_FULL or not self._enlarged():
                return stop, log[:logged]

    def _next(self) -> ToldStruct:
        """What the next step does, which is not made; all zero where none would be."""
        *lent, _output, _free = self._lent()
        step: ToldStruct = self._tell(self.record, *lent)
        return step

    def advance_to(self, n: int, addresses: Sequence[int]) -> Stop:
        """Makes up to n steps, but stops before a step whose PC is one of the addresses. The first
        step is made whatever its PC.

        The log of a run tells where PC was. Where it was at one of the addresses, the machine is
        put back and makes the steps before that once more.
        """
        before = self.snapshot()
        stop, log = self.advance_logged(min(n, LOGGED_AT_ONCE))
        # The first step is left out: what precedes it is not asked for.
        counters = log[LOG_WORDS::LOG_WORDS].tobytes()
        found = [place for place in (_first(counters, at) for at in addresses) if place >= 0]
        if found:
            self.restore(before)
            self.advance(min(found) + 1)
            return Stop.BREAKPOINT
        return stop

    def steps_logged(self, n: int) -> list[LoggedStep]:
        """Makes n steps and tells of each, in as many calls as it takes."""
        steps: list[LoggedStep] = []
        while len(steps) < n:
            stop, log = self.advance_logged(min(n - len(steps), LOGGED_AT_ONCE))
            steps += logged_steps(log)
            if stop is not Stop.DONE:
                break
        return steps

    def step_traced(self) -> TracedStep | Stop:
        """Makes one step and tells all that it did; or why it was not made."""
        before, arrived, shown = self.record, self.arrived, self.shown
        step = self._next()
        old = {address: self.words[address] for address in step.writes.at[: step.writes.count]}
        stop = self.advance(1)
        if stop is not Stop.DONE:
            return stop
        return TracedStep(
            *told(before.pc, step.word, step.reason),
            before.clock,
            changes(before, self.record, old, self.words),
            self.keys[arrived : self.arrived].tobytes() if self.arrived > arrived else b"",
            self.displayed(shown) if self.shown > shown else b"",
            Mode.USER if before.psr & PSR_USER else Mode.SUPERVISOR,
        )

    def steps_traced(self, n: int, steps: list[TracedStep]) -> Stop:
        """Makes up to n steps, adds what each did to a list, and says why it stopped."""
        for _ in range(n):
            step = self.step_traced()
            if isinstance(step, Stop):
                return step
            steps.append(step)
        return Stop.DONE

    def snapshot(self) -> Snapshot:
        """The machine as it stands."""
        clock = self.record.clock
        return Snapshot(clock, bytes(self.record), self.words.tobytes(), self.arrived, self.shown)

    def restore(self, snapshot: Snapshot) -> None:
        """Puts the machine back to where it stood; the keys stay in their lists."""
        self.record = RecordStruct.from_buffer_copy(snapshot.record)
        ctypes.memmove(self._memory, snapshot.memory, MEMORY_BYTES)
        self.arrived, self.shown = snapshot.arrived, snapshot.shown

    def accepts(self, record: RecordStruct) -> None:
        """Raises ``Refused`` if a run would refuse the record."""
        refusal = self._run(record, self._memory, MEMORY_WORDS, *(NOWHERE, 0) * 3, 0).refusal
        if refusal:
            raise Refused(refusal)

    def state(self) -> bytes:
        """All fields of the record but the clock: what the next steps depend on beside memory and
        keys."""
        return bytes(self.record)[:SHORT_BYTES]

    def goes_round(self, most: int) -> bool:
        """Makes steps until the machine stands as it does now, but for the clock, and has shown
        nothing; whether it does so within so many."""
        state, shown, words = self.state(), self.shown, self.words.tobytes()
        for _ in range(most):
            if self.advance(1) is not Stop.DONE or self.shown != shown:
                return False
            if self.state() == state and self.words.tobytes() == words:
                return True
        return False

    def ignores_a_key(self, steps: int) -> bool:
        """Whether a key that arrives now alters nothing in so many steps, after which the machine
        stands as it does now, but that the key waits to be read."""
        words, expected = self.words.tobytes(), RecordStruct.from_buffer_copy(self.record)
        expected.kbsr |= KBSR_READY
        expected.kbdr ^= KBDR_BYTE
        self.times.append(self.record.clock)
        self.keys.append(expected.kbdr)
        shown, stop = self.shown, self.advance(steps)
        same = self.state() == bytes(expected)[:SHORT_BYTES] and self.words.tobytes() == words
        return stop is Stop.DONE and self.shown == shown and same

    def plain_record(self) -> Record:
        """The record as a dataclass of its own."""
        return Record.from_c(self.record)


def _first(counters: bytes, address: int) -> int:
    """The place of the first word that is the address, or -1; words are this machine's own.

    >>> _first(bytes([0x00, 0x30, 0x30, 0x30]), 0x3030)
    1
    """
    word = address.to_bytes(2, "little")
    at = counters.find(word)
    while at >= 0 and at % 2:
        at = counters.find(word, at + 1)
    return at // 2
