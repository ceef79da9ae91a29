"""``Sitting``: a machine with its programs, keyboard and display, to run, stop, look at and replay.

>>> hello = bytes.fromhex("3000 E002 F022 F025 0048 0069 000A 0000")
>>> sitting = Sitting(hello)
>>> report = sitting.run(10_000)
>>> report.stop, sitting.display
(<Stop.HALTED: 1>, 'Hi\\nHalted\\n')
"""

from __future__ import annotations

import re
from array import array
from bisect import bisect_right
from copy import copy
from os import PathLike, fspath
from signal import SIGINT
from typing import TYPE_CHECKING, Any, Iterator, MutableSet, NamedTuple, Sequence, Union

from . import calls
from .backwards import Moment, last_change, last_write
from .breakpoints import Breakpoints
from .constants import KBSR_READY, MAX_CLOCK, MAX_STEPS, MCR_CLOCK, USER_ORIGIN
from .constants import PSR_USER, USER_STACK, __version__
from .ending import EndKind, Ending, SittingReport, ending_of
from .events import At, Event
from .exclusive import Exclusive, exclusive
from .finding import Found, advance_until, last_event
from .log import LoggedStep, logged_steps
from .machine import MEMORY_BYTES, Machine
from .memory import Line, Memory
from .own import last_own_clocks, last_own_steps
from .past import Mark, Past, Walk
from .places import check_apart, check_examiner, check_pc
from .programs import object_bytes, read_program
from .recording import REPLAY_STEPS, Alteration, End, Program, Recording, RecordingError
from .recording import RegisterAlteration, Typed, WordsAlteration
from .records import LONG_LIMIT, WORD_LIMIT, Edition, Mode, Record, Refusal, Refused, Stop
from .records import as_word, checked_int
from .routines import Leaves, Over, before_last, call_of
from .snapshots import MARK_EVERY, thinned
from .steps import NAMES, TracedStep, value_of

if TYPE_CHECKING:
    from _typeshed import ReadableBuffer

File = Union[str, "PathLike[str]", "ReadableBuffer"]

# The keys that are not forgotten for the sake of a snapshot in User mode.
MOST_KEYS = 1 << 16

# The first steps of a run with breakpoints that are made at once; they double from call to call.
FIRST_SEARCH = 256

# The steps that are traced before it is looked whether Ctrl-C was pressed.
TRACED_AT_ONCE = 256

# The steps of the longest loop that is taken for waiting.
LONGEST_WAIT = 64

# The steps after a key at which the keyboard is looked at for the first time.
FIRST_LOOK = 32

_BY_CAPITALS = {name.upper(): name for name in NAMES}
_ADDRESS = re.compile(r"x([0-9A-F]{4})", re.IGNORECASE | re.ASCII)


def _loaded(file: ReadableBuffer, memory: array[int], confined: bool, name: str) -> Program:
    """Loads an object file into memory, a confined one into User mode's words alone."""
    try:
        if confined:
            started = calls.start_user(file, memory, USER_STACK)
        else:
            started = calls.start(file, memory, True, USER_STACK)
    except Refused as refused:
        raise Refused(refused.number, subject=name) from None
    return Program(name, started.record.pc, started.words)


class Key(NamedTuple):
    """A key and the clock at which it arrived."""

    time: int
    byte: int


class Ahead(NamedTuple):
    """How far a sitting has come that went back: its clock, the keys that had arrived there, and
    the alterations made."""

    clock: int
    arrived: int
    made: int


class Sitting:
    """Memory, record, monitor, programs, keys and display in one object.

    ``Sitting("hello.obj")`` has the ready-made monitor in memory, the file loaded, and a fresh
    machine in User mode at the file's origin. Of several files the last one runs. Files are paths,
    or buffers of bytes. ``pc`` sets another address to start at, ``stack`` the user's stack,
    ``mode`` Supervisor mode, ``edition`` the rules of the book's second edition, and ``monitor``
    may be left out. A file that is refused raises ``Refused``, which names it.

    **Places.** The files are taken for a candidate's, who is not trusted: one that does not lie in
    x3000 to xFDFF is refused with 21, whatever the mode. The files of ``examiner`` are loaded
    before; they lie in privileged memory alone, and beside the ready-made monitor. Files that
    overlap are refused. ``anywhere=True`` is for files that are all trusted: only overlaps of the
    files are refused then. See ``fanthrig.places``.

    >>> answers, candidate = bytes.fromhex("2000 0042"), bytes.fromhex("0102 0103")
    >>> Sitting(candidate, examiner=[answers])
    Traceback (most recent call last):
    fanthrig.records.Refused: refused (21): the file does not lie in x3000 to xFDFF, where a \
candidate's belongs: give it another origin, or take fewer words

    The ready-made monitor returns by RTI. By the second edition's rules a TRAP pushes nothing for
    an RTI to return to, so there HALT is the only one of its routines that serves: a class that
    uses that edition has its monitor's object file among those of ``examiner``.

    **Keys.** ``type`` takes text. Its keys arrive one at a time, each only when the last one has
    been read, that is when KBSR's ready bit is clear. The keyboard is looked at 32 steps after the
    last key, and then after ever more steps, an eighth of those since that key; so when a key
    arrives depends on the program and not on how a run is divided. ``press`` makes keys arrive at
    given times instead, whether the last one was read or not. ``keys`` are those that arrived.

    **Display.** ``display`` is all that was shown, as text with one character for each byte. It
    grows as needed; with ``display_limit`` a run stops before the byte that is too many.

    **Endings.** ``ending`` tells how the last run ended, and by which instruction of the program;
    so does the report of a run, of that run. See ``fanthrig.ending``.

    **Long sittings.** Display and keys are held whole. A host that needs neither forgets them by
    ``take_display(forget=True)`` and ``forget``.

    **Alterations.** ``sitting["R0"]`` and ``sitting.memory[0x3000]`` can be read and set between
    runs. What is set after the first step is kept for the recording.

    **Breakpoints.** ``breakpoints`` is a set of addresses. A run stops before the instruction at
    one of them, and the run after that goes on with it.

    **Going back.** ``back``, ``back_to``, ``back_over``, ``back_out`` and ``run_back_to`` put the
    sitting back to where it stood before an earlier step, exactly; ``last_write`` and
    ``last_change`` say which step it was that did something. What came from outside comes again at
    its time when the sitting goes on. Who alters something then, or presses keys at a time, begins
    another future: the alterations that lay ahead are forgotten, and keys that were typed are typed
    anew. What is typed then takes the place of those keys. Some snapshots are held for this, of 128
    KiB each: see ``fanthrig.snapshots``.

    **Recording.** ``save`` writes a file that ``replay`` and ``of`` make the same sitting of.

    **Copies.** ``copy.copy``, ``copy.deepcopy`` and ``pickle`` make a sitting of its own that
    stands where this one stands, with the same past.

    **Threads and signals.** A sitting is for one call at a time. What runs, alters or copies it
    while another call goes on raises ``InUseError`` and alters nothing, in another thread as well
    as in a handler; to look at it is allowed. Several sittings may run at once, each in a thread,
    since a call lets the other threads run. A handler of a signal that raises never ends a call in
    the middle: memory, record, keys and display agree when it does. Each call sets the handlers
    anew, so that ``signal.siginterrupt`` has to be called after it, where a host needs it at all.
    """

    def __init__(
        self,
        *files: File,
        examiner: Sequence[File] = (),
        anywhere: bool = False,
        monitor: bool = True,
        mode: Mode = Mode.USER,
        pc: int | None = None,
        stack: int = USER_STACK,
        edition: int = Edition.THIRD,
        display_limit: int | None = None,
    ) -> None:
        """Loads the files, the examiner's first, and starts a machine."""
        if isinstance(examiner, (str, PathLike, bytes, bytearray, memoryview)):
            raise TypeError("examiner is a list of files: write examiner=[file]")
        self._use = Exclusive()
        self._machine = Machine(Edition(edition))
        self.memory = Memory(self._machine.words, self._alter_words)
        self._breakpoints = Breakpoints(self._use)
        self.programs: list[Program] = []
        self.stop = Stop.DONE
        self._mode, self._stack, self._anywhere = Mode.USER, USER_STACK, anywhere
        self._origin, self._started, self._has_monitor = USER_ORIGIN, 0, monitor
        self._marks: list[Mark] = []
        self.display_limit = display_limit
        if monitor:
            calls.monitor(self._machine.words)
        for file in examiner:
            self.load(file, examiner=True)
        for file in files:
            self.load(file)
        self.start(pc, mode, stack)

    # Loading and starting.

    def load(
        self, file: File, name: str = "", examiner: bool = False, anywhere: bool | None = None
    ) -> Program:
        """Loads an object file: a path, or the bytes themselves; or a program as text by its path
        (``fanthrig.programs``). The record stays as it is, so ``start`` follows where the file is
        to run. A file that is plainly of another format raises ``FormatError``, which says what to
        do.

        It is a candidate's file, or the ``examiner``'s, and lies where such a file may unless it
        may lie ``anywhere``; without a word on that, as the sitting was made. Files that are loaded
        for one start may not overlap; later, a file replaces words as any alteration does.

        >>> Sitting().load(b"\\x30", name="half.obj")
        Traceback (most recent call last):
        fanthrig.records.Refused: half.obj: refused (17): the file has an odd number of bytes, or \
fewer than two: an object file is an origin and words, of two bytes each
        """
        if isinstance(file, (str, PathLike)):
            name = name or fspath(file)
            # Not in exclusive use: a pipe may keep its reader waiting, and Ctrl-C shall end that.
            with open(file, "rb") as stream:
                file = object_bytes(read_program(stream), name)
        return self._load(file, name, examiner, self._anywhere if anywhere is None else anywhere)

    @exclusive
    def _load(self, file: ReadableBuffer, name: str, examiner: bool, anywhere: bool) -> Program:
        """Loads the bytes of an object file where they may lie."""
        confined = not (examiner or anywhere)
        # What is refused leaves memory alone: first the file is loaded where nothing is.
        program = _loaded(file, array("H", bytes(MEMORY_BYTES)), confined, name)
        if examiner and not anywhere:
            check_examiner(program, self._has_monitor)
        if not self._marks:
            check_apart(program, self.programs[self._started :])
        _loaded(file, self._machine.words, confined, name)
        self._keep(WordsAlteration(self.clock, program.origin, self._words_of(program)))
        self.programs.append(program)
        self._origin = self._origin if examiner else program.origin
        return program

    def _words_of(self, program: Program) -> array[int]:
        """The words that memory has where a file lies."""
        return self._machine.words[program.origin : program.origin + program.words]

    @exclusive
    def start(
        self,
        pc: int | None = None,
        mode: Mode | None = None,
        stack: int | None = None,
        anywhere: bool | None = None,
    ) -> None:
        """Starts anew over memory as it stands: a fresh record at ``pc``, or else at the origin of
        the candidate's file that was loaded last, clock 0, an empty display and no keys. Mode and
        stack are those of the last start unless they are given. In User mode PC is in x3000 to
        xFDFF unless it may be ``anywhere``; without a word on that, as the sitting was made."""
        at = checked_int(self._origin if pc is None else pc, WORD_LIMIT, "pc")
        mode = self._mode if mode is None else Mode(mode)
        stack = self._stack if stack is None else stack
        file, words = at.to_bytes(2, "big"), self._machine.words
        if mode is Mode.USER and not (self._anywhere if anywhere is None else anywhere):
            check_pc(at)
            started = calls.start_user(file, words, stack)
        else:
            started = calls.start(file, words, bool(mode), stack)
        self._mode, self._stack, self._started = mode, stack, len(self.programs)
        machine = self._machine
        machine.record = started.record.to_c()
        machine.times, machine.keys, machine.arrived = array("Q"), array("B"), 0
        machine.clear_display()
        self._begin_anew(at)

    def _begin_anew(self, pc: int) -> None:
        """Nothing has come from outside, and no step has been made: the first one is at PC."""
        self._taken = 0
        self._typed, self._look, self._since = bytearray(), 0, 0
        self._typed_places = array("Q")
        self._left: Typed | None = None
        self._left_until = 0
        self._ahead: Ahead | None = None
        self.event: Event | None = None
        self._alterations: list[Alteration] = []
        self._made = 0
        self._marks = []
        self._passed: tuple[int, int] | None = None
        self._forgotten = False
        self._stack_base: int | None = None
        self._first_pc = pc
        self._run_past: Past | None = None
        self.stop = Stop.DONE

    # Looking at the machine, and altering it.

    @property
    def edition(self) -> Edition:
        """The edition of the book by whose rules the machine runs."""
        return self._machine.edition

    @property
    def record(self) -> Record:
        """The record, as a copy."""
        return self._machine.plain_record()

    @property
    def clock(self) -> int:
        """The steps made."""
        return int(self._machine.record.clock)

    @property
    def halted(self) -> bool:
        """Whether the machine is halted: MCR's clock enable is clear."""
        return not self._machine.record.mcr & MCR_CLOCK

    def __getitem__(self, name: str) -> int:
        """The register of a name: R0 to R7, PC, PSR, Saved_SSP, Saved_USP, KBSR, KBDR, MCR, TSR or
        TIR, in small letters or capitals; or the word of memory at an address as x3000.

        >>> sitting = Sitting(pc=0x4000)
        >>> sitting["R3"] = sitting["x4000"] = 7
        >>> sitting["R3"], hex(sitting["pc"]), sitting["x4000"], sitting.memory[0x4000]
        (7, '0x4000', 7, 7)
        """
        name = self._name(name)
        if name in NAMES:
            return value_of(self._machine.record, name)
        return self.memory[int(name[1:], 16)]

    def __setitem__(self, name: str, value: int | str) -> None:
        """Sets a register or a word to a number from -32768 to 65,535, a word also to a line. A bit
        that a register does not have is refused with 12."""
        name = self._name(name)
        if name not in NAMES:
            self.memory[int(name[1:], 16)] = value
            return
        number = as_word(value, name)
        with self._use:
            change = RegisterAlteration(self.clock, name, number)
            change.make(self._machine)
            self._keep(change)

    @staticmethod
    def _name(name: str) -> str:
        """The name of a register as the book has it, or that of a word."""
        if isinstance(name, str):
            known = _BY_CAPITALS.get(name.upper())
            if known or _ADDRESS.fullmatch(name):
                return known or name
        names = ", ".join(NAMES)
        raise KeyError(f"{name!r} is no register; one of {names}, or an address as x3000")

    @exclusive
    def _alter_words(self, address: int, words: array[int]) -> None:
        """Replaces words of memory."""
        change = WordsAlteration(self.clock, address, words)
        change.make(self._machine)
        self._keep(change)

    def _keep(self, alteration: Alteration) -> None:
        """Keeps an alteration for the recording, which begins with the first step."""
        if self._marks:
            self._retype(self._depart())
            self._alterations.insert(self._made, alteration)
            self._made += 1

    def lines(self, first: int, count: int) -> list[Line]:
        """The lines of a range of memory.

        >>> print(*Sitting().lines(0x0204, 2), sep="\\n")
        x0204  x1DBF  ADD R6, R6, #-1
        x0205  x7380  STR R1, R6, #0
        """
        return self.memory.lines(first, count)

    def here(self) -> Line:
        """The word that PC points to, with its line."""
        return self.lines(self["PC"], 1)[0]

    @property
    def breakpoints(self) -> MutableSet[int]:
        """The addresses before whose instructions a run stops."""
        return self._breakpoints

    @breakpoints.setter
    def breakpoints(self, addresses: MutableSet[int]) -> None:
        """Replaces the breakpoints."""
        breakpoints = Breakpoints(self._use, addresses)
        with self._use:
            self._breakpoints = breakpoints

    # Keyboard and display.

    def type(self, text: str | bytes) -> None:
        """Types text. The keys of a ``str`` are its bytes in UTF-8, as a terminal sends them.

        >>> echo = bytes.fromhex("3000 F020 F021 0FFD")
        >>> sitting = Sitting(echo)
        >>> sitting.type("ada")
        >>> _ = sitting.run(1000)
        >>> sitting.display, sitting.keys[0]
        ('ada', Key(time=0, byte=97))
        """
        if isinstance(text, str):
            # Bytes of a command line that are no UTF-8 come as surrogates.
            self._type(text.encode("utf-8", "surrogateescape"))
        else:
            self._type(memoryview(text).tobytes())

    @exclusive
    def _type(self, keys: bytes) -> None:
        """Types keys."""
        # Who types at a replay departs from it.
        self._depart()
        self._left = None
        self._retype(keys)

    def _retype(self, keys: bytes) -> None:
        """Puts keys behind those that are typed and have not arrived."""
        if keys and not self._typed:
            if not self._machine.record.kbsr & KBSR_READY:
                self._look = self.clock
            while self._look < self.clock:
                self._put_off()
        self._typed += keys

    @property
    def typed(self) -> bytes:
        """Typed text whose time has not come."""
        return bytes(self._typed)

    def press(self, keys: bytes, at: int) -> None:
        """Presses keys at a time on the clock, whether the ones before were read or not."""
        pressed, at = memoryview(keys).tobytes(), checked_int(at, LONG_LIMIT, "at")
        with self._use:
            if at < self.clock:
                raise Refused(Refusal.TIME)
            self._retype(self._depart())
            self._press(pressed, at)

    def _press(self, keys: bytes, at: int) -> int:
        """Puts keys behind those that arrive at the same time or before, and answers the place."""
        machine = self._machine
        place = bisect_right(machine.times, at, machine.arrived)
        machine.times[place:place] = array("Q", [at]) * len(keys)
        machine.keys[place:place] = array("B", keys)
        return place

    @property
    def keys(self) -> list[Key]:
        """The keys that have arrived, with their times."""
        machine = self._machine
        arrived = slice(0, machine.arrived)
        return [Key(*key) for key in zip(machine.times[arrived], machine.keys[arrived])]

    def _put_off(self) -> None:
        """Sets the time of the next look at the keyboard, further off the longer a key waits."""
        self._look += max(FIRST_LOOK, (self._look - self._since) >> 3)

    def _look_at_keyboard(self) -> None:
        """Where it is time to look and the last key was read, the next one typed arrives."""
        while self._typed and self._look <= self.clock:
            if self._machine.record.kbsr & KBSR_READY:
                self._put_off()
                continue
            self._typed_places.append(self._press(self._typed[:1], self.clock))
            del self._typed[0]
            self._since, self._look = self.clock, self.clock + FIRST_LOOK

    @property
    def display(self) -> str:
        """All that was shown, one character for each byte."""
        return self.display_bytes.decode("latin-1")

    @property
    def display_bytes(self) -> bytes:
        """All that was shown, but for what ``take_display`` has forgotten."""
        return self._machine.displayed()

    @exclusive
    def take_display(self, forget: bool = False) -> bytes:
        """What was shown since this was asked last: for a host that shows it as it comes. With
        ``forget`` it is held no longer, so that a long display takes no memory."""
        taken, self._taken = self._taken, self._machine.shown
        data = self._machine.displayed(taken)
        if forget:
            self._machine.drop_display()
        return data

    @exclusive
    def forget(self) -> None:
        """Forgets the start and the keys that have arrived, but for the last million steps, and for
        the time since the program was seen in User mode: for a host that never records the
        sitting, so that a long one takes no memory.

        >>> sitting = Sitting(bytes.fromhex("3000 1021 0FFE"))
        >>> for _ in range(4):
        ...     _ = sitting.run(1 << 20), sitting.forget()
        >>> sitting.recording()
        Traceback (most recent call last):
        ValueError: the sitting has forgotten its start, and can't be recorded
        """
        place = self._first_needed()
        if place <= 0:
            return
        machine, (snapshot, made) = self._machine, self._marks[place]
        arrived = snapshot.arrived
        # New lists: what tells of the past still has the old ones.
        machine.times, machine.keys = machine.times[arrived:], machine.keys[arrived:]
        machine.arrived -= arrived
        kept = (place - arrived for place in self._typed_places if place >= arrived)
        self._typed_places = array("Q", kept)
        if self._ahead is not None:
            ahead = self._ahead
            self._ahead = Ahead(ahead.clock, ahead.arrived - arrived, ahead.made - made)
        self._alterations, self._made = self._alterations[made:], self._made - made
        self._marks = [
            Mark(mark._replace(arrived=mark.arrived - arrived), before - made)
            for mark, before in self._marks[place:]
        ]
        self._forgotten = True

    def _first_needed(self) -> int:
        """The first of the marks that the last steps are told from: the last but one, or one before
        in User mode, unless that means to hold many keys."""
        last = len(self._marks) - 2
        user = [place for place in range(last) if self._marks[place].in_user_mode]
        if not user:
            return last
        keys = self._machine.arrived - self._marks[user[-1]].snapshot.arrived
        seen_since = any(mark.in_user_mode for mark in self._marks[last:])
        return last if seen_since or keys > MOST_KEYS else user[-1]

    @property
    def display_limit(self) -> int | None:
        """The most bytes that may be shown; without it the display grows as needed."""
        return self._machine.limit

    @display_limit.setter
    def display_limit(self, limit: int | None) -> None:
        """Sets the limit, or takes it away."""
        number = None if limit is None else checked_int(limit, LONG_LIMIT, "display_limit")
        with self._use:
            self._machine.limit = number

    # Running.

    def run(
        self, steps: int | None = None, *, until: Sequence[Event] = (), here: bool = False
    ) -> SittingReport:
        """Runs so many steps, or without a number until the machine stops of itself.

        It stops earlier where the machine is halted, before an instruction at a breakpoint, or at
        the limit of the display. Ctrl-C stops it between two steps: the sitting is whole then and
        can go on, and the usual handler is called, which raises ``KeyboardInterrupt``. Where a
        handler of the host's own raises nothing, the stop is ``INTERRUPTED``. The handlers of other
        signals are called between two steps as well; the run goes on where they raise nothing.

        It also stops at the events of ``until``, such as a condition that comes to hold or a word
        that is written: see ``fanthrig.events``. ``event`` is the one that happened. Before its
        first step no event stops it, unless it is to stop ``here`` as well: as where a run is made
        in pieces.

        >>> sitting = Sitting(bytes.fromhex("3000 1021 0FFE"))
        >>> sitting.breakpoints.add(0x3001)
        >>> sitting.run().stop, sitting.here().text
        (<Stop.BREAKPOINT: -1>, 'BRnzp #-2')
        >>> sitting.run(3), sitting["R0"]
        (SittingReport(steps=2, keys=0, shown=0, stop=<Stop.BREAKPOINT: -1>), 2)
        """
        with self._use:
            end = self._end(steps)
            self._begin()
            counts = self._counts()
            self.stop = self._go(end, until, here)
            return self._report(*counts)

    def step(self) -> SittingReport:
        """Makes one step, also at a breakpoint."""
        with self._use:
            counts = self._counts()
            if counts[0] >= MAX_CLOCK:
                raise Refused(Refusal.STEPS)
            self._begin()
            self._settle()
            self._look_at_keyboard()
            self.stop = self._machine.advance(1)
            if self.stop is Stop.DONE:
                self._settle()
            else:
                self._passed = self._here()
            return self._report(*counts)

    def trace(self, steps: int | None = None) -> Iterator[TracedStep]:
        """Runs as ``run`` does, a step at a time, and tells of each what it did. ``stop`` says at
        the end why it is over.

        >>> sitting = Sitting(bytes.fromhex("3000 1021 F021 F025"))
        >>> for step in sitting.trace(2):
        ...     print(step)
             0  x3000  x1021  ADD R0, R0, #1    instruction  R0 x0000 -> x0001, PSR x8002 -> x8001
             1  x3001  xF021  TRAP x21          trap  R6 xFDFF -> x2FFE, PC x3001 -> x0204, \
PSR x8001 -> x0001, Saved_USP x0000 -> xFDFF, x2FFE x0000 -> x3002, x2FFF x0000 -> x8001
        """
        with self._use:
            end = self._end(steps)
            self._begin()
        while True:
            with self._use:
                step = self._trace_one(end)
                if isinstance(step, Stop):
                    self.stop, self._run_past = step, self._past()
            if isinstance(step, Stop):
                return
            yield step

    def trace_at_once(self, steps: int) -> list[TracedStep]:
        """What ``trace`` tells of so many steps, in one call: a list, made several times faster.

        >>> sitting = Sitting(bytes.fromhex("3000 1021 0FFE"))
        >>> [step.line for step in sitting.trace_at_once(3)]
        ['ADD R0, R0, #1', 'BRnzp #-2', 'ADD R0, R0, #1']
        """
        told: list[TracedStep] = []
        with self._use:
            end = self._end(steps)
            self._begin()
            self.stop = self._trace_to(end, told)
            self._run_past = self._past()
        return told

    def _trace_to(self, end: int, told: list[TracedStep]) -> Stop:
        """Makes the steps to a clock, unless something stops it, and adds them to a list."""
        while True:
            self._settle()
            if self.clock >= end:
                return Stop.DONE
            if self._use.caught and self._interrupted():
                return Stop.INTERRUPTED
            if self._at_breakpoint():
                return Stop.BREAKPOINT
            self._look_at_keyboard()
            n = 1 if self._breakpoints else min(self._reach(end), TRACED_AT_ONCE)
            stop = self._machine.steps_traced(n, told)
            if stop is not Stop.DONE:
                return stop

    def _trace_one(self, end: int) -> TracedStep | Stop:
        """Makes the next step, or says why it is not made."""
        self._settle()
        if self.clock >= end:
            return Stop.DONE
        if self._at_breakpoint():
            return Stop.BREAKPOINT
        self._look_at_keyboard()
        return self._machine.step_traced()

    def _counts(self) -> tuple[int, int, int]:
        """The steps made, the keys that have arrived and the bytes shown."""
        machine = self._machine
        return machine.record.clock, machine.arrived, machine.shown

    def _report(self, clock: int, arrived: int, shown: int) -> SittingReport:
        """What was done since the counts were these."""
        past = self._run_past = self._past()
        now = self._counts()
        return SittingReport(now[0] - clock, now[1] - arrived, now[2] - shown, self.stop, past)

    def _end(self, steps: int | None) -> int:
        """The clock at which a run of so many steps is over."""
        if steps is None:
            return MAX_CLOCK
        end = self.clock + checked_int(steps, LONG_LIMIT, "steps")
        if end > MAX_CLOCK:
            raise Refused(Refusal.STEPS)
        return end

    def _begin(self) -> None:
        """Keeps the machine as it stands before the first step: there the recording begins."""
        if not self._marks:
            self._mark()
            self._first_pc = self._machine.record.pc

    def _go(self, end: int, until: Sequence[Event], here: bool) -> Stop:
        """Runs to a clock, in as many calls as it takes, unless something stops it."""
        search, begun, self.event = FIRST_SEARCH, -1 if here else self.clock, None
        while True:
            self._settle()
            if self.clock >= end:
                return Stop.DONE
            if self._use.caught and self._interrupted():
                return Stop.INTERRUPTED
            if self._at_breakpoint():
                return Stop.BREAKPOINT
            self._look_at_keyboard()
            n = self._reach(end)
            if until:
                stop = self._advance_until(min(n, search), until, self.clock == begun)
            elif self._breakpoints:
                stop = self._machine.advance_to(min(n, search), tuple(self._breakpoints))
            else:
                stop = self._machine.advance(n)
            search *= 2
            if self.event is not None:
                self._settle()
                return stop
            if stop not in (Stop.DONE, Stop.BREAKPOINT):
                return stop

    def _advance_until(self, n: int, until: Sequence[Event], begins: bool) -> Stop:
        """Makes up to n steps, unless an event happens or a breakpoint is met."""
        events = [*until, *map(At, self._breakpoints)]
        stop, event = advance_until(self._machine, n, events, begins)
        if event in until:
            self.event = event
            self._passed = self._here() if stop is Stop.BREAKPOINT else self._passed
        return stop

    def _interrupted(self) -> bool:
        """Whether Ctrl-C was pressed: its handler is called at the end of the run. Those of other
        signals are called now."""
        if SIGINT in self._use.caught:
            return True
        # So the run has ended where one of them raises.
        self.stop, self._run_past = Stop.INTERRUPTED, self._past()
        self._use.hand_on()
        return False

    def _reach(self, end: int) -> int:
        """The steps up to a clock, or to where something is to be done before."""
        goal = min(end, self.clock + MAX_STEPS)
        if self._typed:
            goal = min(goal, self._look)
        if self._made < len(self._alterations):
            goal = min(goal, self._alterations[self._made].clock)
        if self._left is not None:
            goal = min(goal, self._left_until)
        return goal - self.clock

    def _at_breakpoint(self) -> bool:
        """Whether to stop here: PC is at a breakpoint that no run has stopped at just now."""
        here = self._here()
        if here[1] not in self._breakpoints or here == self._passed:
            return False
        self._passed = here
        return True

    def _here(self) -> tuple[int, int]:
        """The clock and PC."""
        return self._machine.record.clock, self._machine.record.pc

    def _settle(self) -> None:
        """Makes what a replay alters at this clock, and takes a snapshot where the last one is far
        back."""
        clock = self._machine.record.clock
        while self._made < len(self._alterations) and self._alterations[self._made].clock <= clock:
            self._alterations[self._made].make(self._machine)
            self._made += 1
        if self._ahead is not None and clock >= self._ahead.clock:
            self._ahead = None
        if self._left is not None and clock >= self._left_until:
            self._typed = bytearray(self._left.text)
            self._look, self._since, self._left = self._left.look, self._left.since, None
        if clock - self._marks[-1].snapshot.clock >= MARK_EVERY:
            self._mark()
            self._marks = thinned(self._marks)

    def _mark(self) -> None:
        """Takes a snapshot. In User mode the supervisor stack's pointer is seen as well."""
        record = self._machine.record
        self._marks.append(Mark(self._machine.snapshot(), self._made))
        if self.edition is Edition.THIRD and record.psr & PSR_USER:
            self._stack_base = record.saved_ssp

    # Over calls, out of routines, and back.

    def over(self) -> SittingReport:
        """Makes one step, and where that is a call or an entry goes on until it has returned; a
        breakpoint stops it before: see ``fanthrig.routines``.

        >>> sitting = Sitting(bytes.fromhex("3000 1021 F021 F025"))
        >>> sitting.over().steps, sitting.over().steps, sitting.here().text
        (1, 9, 'TRAP x25')
        """
        report = self.step()
        end = Over(self.last_steps(1)[0], self.edition) if report.steps else None
        if end is None or end.made:
            return report
        more = self.run(until=[end], here=True)
        steps, keys = report.steps + more.steps, report.keys + more.keys
        return SittingReport(steps, keys, report.shown + more.shown, more.stop, more.past)

    def out(self) -> SittingReport:
        """Runs until the routine has returned in which the machine stands, unless a breakpoint
        stops it before."""
        return self.run(until=[Leaves()])

    def back(self, steps: int = 1) -> int:
        """Goes back so many steps, or to the start where fewer were made; answers how many.

        >>> sitting = Sitting(bytes.fromhex("3000 1021 0FFE"))
        >>> _ = sitting.run(10_000_001)
        >>> sitting.back(), sitting["R0"], sitting.back(9_999_998), sitting["R0"]
        (1, 19264, 9999998, 1)
        """
        clock = self.clock - checked_int(steps, LONG_LIMIT, "steps")
        with self._use:
            self._begin()
            before = self.clock
            self._go_back(max(clock, self._marks[0].snapshot.clock))
            return before - self.clock

    @exclusive
    def back_to(self, clock: int) -> None:
        """Goes back to before the step of a number. One that lies ahead, or before the start, is a
        ``ValueError``."""
        self._begin()
        start = self._marks[0].snapshot.clock
        if not start <= checked_int(clock, LONG_LIMIT, "clock") <= self.clock:
            raise ValueError(f"step {clock} is none from {start} to {self.clock}")
        self._go_back(clock)

    def back_over(self) -> int:
        """Goes back one step, or where that returned from a routine to before the call; answers how
        many steps that are."""
        past = self._its_past()
        return self.back(past.clock - before_last(past)) if past.clock > past.start else 0

    def back_out(self) -> int:
        """Goes back to before the call of the routine in which the machine stands; answers how many
        steps that are, 0 where it stands in none."""
        past = self._its_past()
        call = call_of(past)
        return 0 if call is None else self.back(past.clock - call)

    def run_back_to(self, *where: int | Event) -> Found | None:
        """Goes back to the last time that PC was at one of these addresses, or to before the last
        step at which one of these events happened; without any, to the last breakpoint. Answers
        which it was; where there is none, nothing, and the sitting stays where it is.

        >>> from .events import Changed
        >>> sitting = Sitting(bytes.fromhex("3000 1021 0FFE"))
        >>> _ = sitting.run(1_000_000)
        >>> sitting.run_back_to(0x3001).clock, sitting.run_back_to(Changed("R0")).clock
        (999999, 999998)
        """
        asked = where or tuple(self._breakpoints)
        events = [one if isinstance(one, Event) else At(one) for one in asked]
        past = self._its_past()
        found = last_event(past, past.start, events)
        if found is not None:
            self.back_to(found.clock)
        return found

    def last_write(self, address: int) -> Moment | None:
        """The last step that wrote to a word, by a store or a push: see ``fanthrig.backwards``.

        >>> sitting = Sitting(bytes.fromhex("3000 3002 1021 0FFD"))
        >>> _ = sitting.run(1_000_000)
        >>> print(sitting.last_write(0x3003))
        999999  x3000  x3002  ST R0, #2         instruction  x3003 x1614 -> x1615
        """
        return last_write(self._its_past(), address)

    def last_change(self, register: str) -> Moment | None:
        """The last step that changed a register.

        >>> sitting = Sitting(bytes.fromhex("3000 1021 F025"))
        >>> _ = sitting.run()
        >>> print(sitting.last_change("Saved_USP"))
             1  x3001  xF025  TRAP x25          trap  R6 xFDFF -> x2FFE, PC x3001 -> x026D, \
PSR x8001 -> x0001, Saved_USP x0000 -> xFDFF, x2FFE x0000 -> x3002, x2FFF x0000 -> x8001
        """
        return last_change(self._its_past(), register)

    @exclusive
    def _its_past(self) -> Past:
        """What led to where the machine stands, be it nothing."""
        self._begin()
        return self._past()

    def _go_back(self, clock: int) -> None:
        """Puts the machine back to a clock. What lies ahead stays as it was, to come again."""
        if clock == self.clock:
            return
        machine, walk = self._machine, Walk(self._past(), clock)
        if walk.machine.shown < machine.dropped:
            raise ValueError("the sitting has forgotten its display, and can't go back beyond that")
        if self._ahead is None:
            self._ahead = Ahead(self.clock, machine.arrived, self._made)
        if self._left is None:
            self._left = Typed(bytes(self._typed), self._look, self._since)
            self._left_until, self._typed = self.clock, bytearray()
        machine.restore(walk.machine.snapshot())
        self._made, self._taken = walk.made, min(self._taken, machine.shown)
        self._marks = [mark for mark in self._marks if mark.snapshot.clock <= clock]
        users = [mark for mark in self._marks if mark.in_user_mode]
        self._stack_base = users[-1].saved_ssp if users else None
        self._run_past, self._passed, self.stop = None, self._here(), Stop.DONE

    def _what_stays(self) -> tuple[array[int], array[int], list[Alteration], bytes]:
        """Keys with their times and alterations without those that lie ahead because the sitting
        went back; and the text of those keys that were typed."""
        machine, ahead = self._machine, self._ahead
        times, keys, alterations = machine.times[:], machine.keys[:], self._alterations[:]
        if ahead is None:
            return times, keys, alterations, b""
        places = [place for place in self._typed_places if place >= machine.arrived]
        text = bytes(keys[place] for place in places)
        for place in reversed(places):
            del times[place], keys[place]
        del alterations[self._made : ahead.made]
        if self._left is not None and self._left_is_own():
            text += self._left.text
        return times, keys, alterations, text

    def _left_is_own(self) -> bool:
        """Whether the text that is left for later was typed here, and is not a recording's."""
        left, ahead = self._left, self._ahead
        return left is not None and ahead is not None and self._left_until == ahead.clock

    def _depart(self) -> bytes:
        """Begins another future where the sitting went back, and answers what was typed of the old
        one. The lists are new: what tells of the past still has the old ones."""
        if self._ahead is None:
            return b""
        machine = self._machine
        machine.times, machine.keys, self._alterations, text = self._what_stays()
        while self._typed_places and self._typed_places[-1] >= machine.arrived:
            self._typed_places.pop()
        self._since = machine.times[self._typed_places[-1]] if self._typed_places else 0
        self._look = self._since + FIRST_LOOK
        self._left = None if self._left_is_own() else self._left
        self._ahead = None
        return text

    # The past.

    def last_steps(self, count: int) -> list[LoggedStep]:
        """The log of the last steps, at most so many. They are made once more, from a snapshot
        that lies before them, on a machine of their own.

        >>> sitting = Sitting(bytes.fromhex("3000 1021 0FFE"))
        >>> _ = sitting.run(10_000_001)
        >>> [hex(step.pc) for step in sitting.last_steps(2)]
        ['0x3001', '0x3000']
        """
        checked_int(count, LONG_LIMIT, "count")
        with self._use:
            if not self._marks:
                return []
            past = self._past()
        return logged_steps(past.log(max(past.clock - count, past.start)))

    def last_step(self) -> TracedStep | None:
        """What the last step did; nothing where none has been made.

        >>> sitting = Sitting(bytes.fromhex("3000 1021 0FFE"))
        >>> _ = sitting.run(5)
        >>> print(sitting.last_step())
             4  x3000  x1021  ADD R0, R0, #1    instruction  R0 x0002 -> x0003
        """
        past = self._its_past()
        if past.clock == past.start:
            return None
        step = past.machine_at(past.clock - 1).step_traced()
        return step if isinstance(step, TracedStep) else None

    def last_program_steps(self, count: int) -> list[LoggedStep]:
        """The same without the steps of the monitor's routines: see ``fanthrig.own``. Fewer are
        told where routines have served for most of a million steps.

        >>> sitting = Sitting(bytes.fromhex("3000 1021 F021 F025"))
        >>> _ = sitting.run()
        >>> [step.line for step in sitting.last_program_steps(10)]
        ['ADD R0, R0, #1', 'TRAP x21', 'TRAP x25']
        """
        checked_int(count, LONG_LIMIT, "count")
        with self._use:
            if not self._marks or not count:
                return []
            past = self._past()
        return last_own_steps(past, count)

    def last_program_clocks(self, count: int) -> list[int]:
        """The numbers of these steps, as far as they are in the log."""
        checked_int(count, LONG_LIMIT, "count")
        with self._use:
            if not self._marks or not count:
                return []
            past = self._past()
        return last_own_clocks(past, count)

    def _past(self) -> Past:
        """What led to where the machine stands."""
        machine = self._machine
        return Past(
            machine.edition,
            tuple(self._marks),
            self._alterations,
            self._made,
            machine.times,
            machine.keys,
            machine.record.clock,
            self._stack_base,
            self._first_pc,
        )

    @property
    def ending(self) -> Ending:
        """How the last run ended, and where the program stood: see ``fanthrig.ending``.

        >>> sitting = Sitting(bytes.fromhex("3000 1021 D000"))
        >>> _ = sitting.run()
        >>> print(sitting.ending)
        stopped by the illegal opcode exception; PC x3001: .FILL xD000
        """
        with self._use:
            self._begin()
            past, stop = self._run_past, self.stop
            if past is None or past.clock != self.clock:
                past, stop = self._past(), Stop.DONE
        return ending_of(past, stop)

    def _twin(self) -> Machine:
        """A machine of its own where this one stands, with the same keys."""
        machine, twin = self._machine, Machine(self.edition)
        twin.times, twin.keys = machine.times[:], machine.keys[:]
        twin.clear_display(machine.shown)
        twin.restore(machine.snapshot())
        return twin

    def waits(self) -> bool:
        """Whether the machine does nothing but wait for a key: it goes round and round in a few
        steps, and nothing but a key can change that. A host that has none can let it be.

        >>> sitting = Sitting(bytes.fromhex("3000 F020 F025"))
        >>> sitting.waits(), sitting.run(100).stop, sitting.waits()
        (False, <Stop.DONE: 0>, True)
        """
        return self.idle() is EndKind.WAITING

    def idle(self) -> EndKind | None:
        """``WAITING`` where the machine does nothing but wait for a key, ``LOOP`` where it goes
        round and round and not even a key can change that, and else nothing.

        >>> Sitting(bytes.fromhex("3000 0FFF")).idle()
        <EndKind.LOOP: 'endless loop'>
        """
        machine = self._machine
        with self._use:
            # Typed text arrives only when the last key is read.
            unread = bool(self._typed) and machine.record.kbsr & KBSR_READY
            if self._left or machine.arrived < len(machine.times) or (self._typed and not unread):
                return None
            twin = self._twin()
        # A busy display counts its steps, and no record would come again.
        twin.advance(twin.record.busy)
        start = twin.snapshot()
        if not twin.goes_round(LONGEST_WAIT):
            return None
        round_ = twin.record.clock - start.clock
        twin.restore(start)
        return EndKind.LOOP if unread or twin.ignores_a_key(round_) else EndKind.WAITING

    # Copies and recordings.

    @exclusive
    def __getstate__(self) -> dict[str, Any]:
        """What ``copy`` and ``pickle`` make a sitting of: all but what is this one's alone."""
        own = ("_use", "memory", "_breakpoints")
        state = {name: copy(value) for name, value in vars(self).items() if name not in own}
        return {**state, "_breakpoints": set(self._breakpoints), "version": __version__}

    def __setstate__(self, state: dict[str, Any]) -> None:
        """A sitting that stands where another one stood."""
        version = state.get("version")
        if version != __version__:
            raise ValueError(
                f"this sitting was pickled by version {version} of fanthrig, and this is "
                f"{__version__}: "
                "a pickle is for one version; keep sittings by save, and replay them"
            )
        vars(self).update(state)
        del self.__dict__["version"]
        self._use = Exclusive()
        self.memory = Memory(self._machine.words, self._alter_words)
        self._breakpoints = Breakpoints(self._use, self._breakpoints)

    @exclusive
    def recording(self) -> Recording:
        """The sitting so far as a recording: see ``fanthrig.recording``."""
        if self._forgotten:
            raise ValueError("the sitting has forgotten its start, and can't be recorded")
        self._begin()
        times, keys, alterations, text = self._what_stays()
        typed = self._left or Typed(bytes(self._typed), self._look, self._since)
        if self._left_is_own():
            typed = Typed(text, self.clock, self.clock)
        begun = Machine(self.edition)
        begun.restore(self._marks[0][0])
        return Recording(
            edition=self.edition,
            start=begun.plain_record(),
            memory=begun.words,
            keys=tuple(zip(times, keys)),
            alterations=tuple(alterations),
            end=End.of(self._machine),
            typed=typed,
            programs=tuple(self.programs),
        )

    def save(self, path: str | PathLike[str]) -> None:
        """Writes the sitting so far as a file: see ``fanthrig.recording``."""
        self.recording().save(path)

    @classmethod
    def of(cls, recording: Recording | str | PathLike[str]) -> Sitting:
        """A sitting at the start of a recording or of a file: its keys and alterations come at
        their times, however it is run. Beyond the recording's end it goes on as any other.

        >>> echo = Sitting(bytes.fromhex("3000 F020 F021 0FFD"))
        >>> echo.type("ada")
        >>> _ = echo.run(1000)
        >>> again = Sitting.of(echo.recording())
        >>> again.run(400).steps, again.run(600).steps, again.display
        (400, 600, 'ada')
        """
        if not isinstance(recording, Recording):
            recording = Recording.load(recording)
        sitting = cls(monitor=False, edition=recording.edition)
        machine = sitting._machine
        machine.record, machine.words[:] = recording.start.to_c(), recording.memory
        machine.times = array("Q", [time for time, _ in recording.keys])
        machine.keys = array("B", [key for _, key in recording.keys])
        sitting.programs = list(recording.programs)
        if recording.programs:
            sitting._origin = recording.programs[-1].origin
        sitting._begin()
        sitting._alterations = list(recording.alterations)
        sitting._left, sitting._left_until = recording.typed, recording.end.record.clock
        return sitting

    @classmethod
    def replay(
        cls, recording: Recording | str | PathLike[str], most: int = REPLAY_STEPS
    ) -> Sitting:
        """Replays a recording or a file to its end, and answers the sitting there, to look at or
        to go on with; or a ``ReplayError`` that says in what it came to another end. A recording
        of more steps than ``most`` is not replayed."""
        if not isinstance(recording, Recording):
            recording = Recording.load(recording)
        if recording.steps > checked_int(most, LONG_LIMIT, "most"):
            raise RecordingError(f"the sitting has {recording.steps} steps, more than {most}")
        sitting = cls.of(recording)
        report = sitting.run(recording.steps)
        recording.check(End.of(sitting._machine), recording.steps, report.stop.text)
        return sitting
