"""One case played by one candidate: the machine is set up, run, and looked at when it has stopped.

The machine is made of the files, the keys and what the case sets before the run. What is expected
is never in it: only the length of the display is used, to stop a candidate that shows more.
"""

from __future__ import annotations

import time
from dataclasses import replace
from typing import Sequence

from ..calls import read
from ..ending import Ending, EndKind
from ..loading import load
from ..places import USER_WORDS, check_pc
from ..records import Kind, Mode, Stop
from ..running import MARKING, Keyboard, Stopper, sit
from ..sitting import Sitting
from .cases import Case
from .comparing import longest
from .contents import put_random
from .options import Options

# A file by its name, with its bytes.
File = tuple[str, bytes]

TOO_MUCH = "more was shown than is expected"
OUT_OF_TIME = "the time of the candidate was over"
RETURNED = "the subroutine returned"

# The register that has the address to return to.
LINK = 7


def sitting_of(options: Options, examiner: Sequence[File], files: Sequence[File]) -> Sitting:
    """A sitting with files loaded, the examiner's first. The last of the others runs."""
    sitting = Sitting(monitor=options.monitor, edition=options.edition)
    for path, data in examiner:
        load(sitting, path, data, examiner=True)
    for path, data in files:
        load(sitting, path, data)
    mode = Mode.SUPERVISOR if options.supervisor else Mode.USER
    sitting.start(options.pc, mode, options.stack)
    return sitting


def set_up(options: Options, case: Case, sitting: Sitting) -> None:
    """Sets a machine up for a case: random contents, PC and link of a call, and what the case
    sets."""
    if options.seed is not None:
        put_random(sitting, options.seed, case.name, options.supervisor, options.monitor)
    if case.call is not None:
        sitting["PC"], sitting[f"R{LINK}"] = case.call, _return_address(sitting)
        sitting.breakpoints.add(sitting[f"R{LINK}"])
    case.before.put(sitting)


def check_call(options: Options, case: Case) -> None:
    """That a subroutine lies where the program may jump to, and can return."""
    if case.call is not None and not options.supervisor:
        check_pc(case.call)
    if case.call is not None and any(register == LINK for register, _ in case.before.registers):
        text = f"case {case.name!r} sets R{LINK}, and its call has the return address there"
        raise ValueError(f"{text}: leave it out")


def _return_address(sitting: Sitting) -> int:
    """Where a subroutine returns to: the last word of User mode that no file has."""
    taken = [program.addresses for program in sitting.programs]
    free = (word for word in reversed(USER_WORDS) if not any(word in words for words in taken))
    return next(free, USER_WORDS[-1])


def _has_jumped(sitting: Sitting) -> bool:
    """Whether the last step was a RET, or a JMP by another register."""
    words = [step.word for step in sitting.last_steps(1)]
    return any(word is not None and read(word).instruction.kind is Kind.JMP for word in words)


def play(
    sitting: Sitting, case: Case, options: Options, until: float | None, stopper: Stopper
) -> Ending:
    """Runs a machine that is set up, for its steps at most, and until a time on the monotonic
    clock."""
    sitting.display_limit = longest(case.expected, (*options.lenient, *case.lenient))

    def advance(count: int) -> Stop:
        """Makes steps, unless the time is over."""
        if until is not None and time.monotonic() >= until:
            return Stop.INTERRUPTED
        end, stop = sitting.clock + count, sitting.run(count).stop
        if stop is Stop.BREAKPOINT and not _has_jumped(sitting):
            # Words of 0 do nothing: without a RET, PC comes to any address behind the subroutine.
            sitting.breakpoints.clear()
            stop = sitting.run(end - sitting.clock).stop
        return stop

    steps = options.steps if case.steps is None else case.steps
    ending = sit(sitting, Keyboard(case.keys), stopper, steps, advance, MARKING)
    text = {
        EndKind.OUTPUT_LIMIT: TOO_MUCH,
        EndKind.INTERRUPTED: OUT_OF_TIME,
        EndKind.BREAKPOINT: RETURNED,
    }.get(ending.kind)
    return ending if text is None else replace(ending, text=text)
