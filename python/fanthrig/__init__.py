"""The LC-3 of Patt and Patel with privilege, interrupts, a console and a timer, over
libfanthrig.so.

``Sitting`` is a complete machine to work with: load object files, type, run, look, go back.

>>> import fanthrig
>>> sitting = fanthrig.Sitting(bytes.fromhex("3000 F020 F021 F025"))  # GETC, OUT, HALT at x3000
>>> sitting.type("A")
>>> sitting.run(1000).stop.text
'the machine is halted'
>>> sitting.display
'AHalted\\n'

``word`` and ``line`` turn lines of text into words and back; ``fanthrig.programs`` does so with
whole programs, ``Labels`` are those of a symbol table, ``fanthrig.marking`` marks programs against
cases, and ``fanthrig.certifying`` certifies a class's own monitor.

>>> fanthrig.line(0x14E7), hex(fanthrig.word("ADD R2, R3, #7"))
('ADD R2, R3, #7', '0x14e7')

The calls of lc3.h are here one to one, for hosts that lend buffers of their own: ``version``,
``start``, ``start_user``, ``run``, ``run_long``, ``step``, ``run_logged``, ``run_second``,
``step_second``, ``run_logged_second``, ``tell``, ``tell_second``, ``read``, ``write``, ``line``,
``line_length``, ``page``, ``save``, ``monitor``, ``monitor_routines``, ``vectors``, ``certify``;
with ``logged_steps`` to read a log. A call that is refused raises ``Refused`` and alters nothing.

``__version__`` is the version of the product, and ``VERSION`` that of the interface. The library is
looked for when it is first needed, as ``fanthrig._library`` says. docs/MACHINE.md has the rules of
the machine.
"""

# The current folder goes off the path of ``python3 -m fanthrig`` before another module is looked
# for.
from . import _folder  # noqa: F401
from ._library import LibraryError
from .backwards import Moment
from .breakpoints import Breakpoints
from .calls import (
    certify,
    line,
    line_length,
    monitor,
    monitor_routines,
    page,
    read,
    run,
    run_logged,
    run_logged_second,
    run_long,
    run_second,
    save,
    start,
    start_user,
    step,
    step_second,
    tell,
    tell_second,
    vectors,
    version,
    write,
)
from .conditions import Condition, ConditionError
from .constants import (
    LOG_WORDS,
    MAX_BUSY,
    MAX_CLOCK,
    MAX_LINE,
    MAX_STEPS,
    MEMORY_WORDS,
    MONITOR_WORDS,
    STATE_NUMBERS,
    USER_ORIGIN,
    USER_STACK,
    VECTOR_WORDS,
    VERSION,
    WATCHED_WORDS,
    __version__,
)
from .ending import EndKind, Ending, SittingReport
from .events import At, Changed, Event, Holds, Written
from .exclusive import InUseError
from .finding import Found
from .formats import FormatError
from .labels import LabelError, Labels
from .log import LoggedStep, logged_steps
from .memory import Line, Memory
from .places import PlaceError
from .programs import ProgramError
from .recording import Program, Recording, RecordingError, ReplayError
from .records import (
    Certified,
    Edition,
    Finding,
    Instruction,
    Kind,
    LoggedRun,
    Mode,
    Reading,
    Reason,
    Record,
    Refusal,
    Refused,
    Report,
    Routines,
    Run,
    Started,
    Stop,
    Told,
)
from .sitting import Key, Sitting
from .steps import Change, TracedStep
from .words import LineError, word

__all__ = [
    "At",
    "Breakpoints",
    "Certified",
    "Change",
    "Changed",
    "Condition",
    "ConditionError",
    "Edition",
    "EndKind",
    "Ending",
    "Event",
    "Finding",
    "FormatError",
    "Found",
    "Holds",
    "InUseError",
    "Instruction",
    "Key",
    "Kind",
    "LOG_WORDS",
    "LabelError",
    "Labels",
    "LibraryError",
    "Line",
    "LineError",
    "LoggedRun",
    "LoggedStep",
    "MAX_BUSY",
    "MAX_CLOCK",
    "MAX_LINE",
    "MAX_STEPS",
    "MEMORY_WORDS",
    "MONITOR_WORDS",
    "Memory",
    "Mode",
    "Moment",
    "PlaceError",
    "Program",
    "ProgramError",
    "Reading",
    "Reason",
    "Record",
    "Recording",
    "RecordingError",
    "Refusal",
    "Refused",
    "ReplayError",
    "Report",
    "Routines",
    "Run",
    "STATE_NUMBERS",
    "Sitting",
    "SittingReport",
    "Started",
    "Stop",
    "Told",
    "TracedStep",
    "USER_ORIGIN",
    "USER_STACK",
    "VECTOR_WORDS",
    "VERSION",
    "WATCHED_WORDS",
    "Written",
    "__version__",
    "certify",
    "line",
    "line_length",
    "logged_steps",
    "monitor",
    "monitor_routines",
    "page",
    "read",
    "run",
    "run_logged",
    "run_logged_second",
    "run_long",
    "run_second",
    "save",
    "start",
    "start_user",
    "step",
    "step_second",
    "tell",
    "tell_second",
    "vectors",
    "version",
    "word",
    "write",
]
