"""What may stand on the command line of ``lc3``."""

from __future__ import annotations

import argparse
import os
import re
import sys
from typing import IO, Any, NoReturn, Sequence

from ..choices import CHOICES, MOST_SEED, PLATFORMS
from ..constants import MAX_CLOCK, USER_STACK, VERSION, __version__
from ..programs import Form
from ..records import WORD_LIMIT
from ..telling import plain

VERSIONS = f"lc3 {__version__}, interface {VERSION}"

EXIT_CODES = """\
exit codes:
  0  the program was halted by HALT
  1  it was not: the steps were made, Ctrl-C, a wait where no more keys come, a loop, or a store
     to MCR
  2  wrong use of the command
  3  a file was refused, or could not be read or written
  4  the program crashed: an exception, a trap without a service, a string refused
  5  a replay came to another end than the sitting
"""

ADDRESSES = "Addresses are written x3000, 0x3000 or #12288. "

WITH = (
    "load this file of the examiner's first; it lies in privileged memory, below x3000 or from "
    "xFE00 on, beside the monitor"
)
TRUSTED = "; name a file that you trust by --with, or have every file trusted by --anywhere"
MONITOR = (
    "the class's own monitor, in the place of the ready-made one; it is refused unless lc3 certify "
    "would certify it beside the files of --with, and results have the certificate's SHA-256"
)
DATA = "load this file before each candidate, for it to read and write; it lies in x3000 to xFDFF"

RUN = (
    "Runs the last file's program in User mode at its origin, beside the ready-made monitor. The "
    "files must lie in x3000 to xFDFF, and those of --with in privileged memory. On a terminal, "
    "keys go to the program as they are pressed and Ctrl-C stops it; otherwise the bytes of "
    "standard input are the keys. What the program shows is standard output, byte for byte. One "
    "line on standard error tells how the program ended, and by which of its instructions."
)
RUN_EXAMPLES = """\
examples:
  lc3 run hello.obj                           a program, on the terminal
  printf 'ada\\n' | lc3 run echo.obj           the bytes of a pipe are the keys
  lc3 run --steps 1000000 --registers sum.obj
  lc3 run --save-sitting s.json game.obj      and then: lc3 run --replay s.json
  lc3 run --with answers.obj candidate.obj    the examiner's words in privileged memory
  lc3 run --no-monitor --with monitor.obj prog.obj         the class's own monitor
  lc3 run --supervisor --anywhere system.obj               all is trusted, as in a course on
                                                           operating systems

"""
LIST_EXAMPLE = """\
examples:
  lc3 list hello.obj
  x3000  xE002  LEA R0, #2
  x3001  xF022  TRAP x22
  lc3 list --fields hello.obj > hello.txt     a program as text, that every command reads

exit codes: 0 listed, 2 wrong use of the command, 3 a file was refused or could not be read
"""
MAKE = (
    "Makes an object file of a program as text: the origin, then the words, one a line, each as 16 "
    "binary digits (with spaces between fields where wanted), as x and four hexadecimal digits, or "
    "as a line that lc3 list writes; comments after a semicolon. There are no labels: this is no "
    "assembler. The other commands read such a text in the place of an object file."
)
MAKE_EXAMPLE = """\
example:
  lc3 make sum.txt -o sum.obj
  where sum.txt has
    0011 0000 0000 0000     ; the origin, x3000
    0001 000 000 1 00001    ; ADD R0, R0, #1
    xF025                   ; HALT

exit codes: 0 written, 2 wrong use of the command, 3 a file was refused or could not be read or
written
"""
SYMBOLS = (
    "the labels of this symbol table, as the book's assembler writes it; without it those of the "
    "file that lies beside an object file, with .sym in the place of .obj"
)
LOG_EXAMPLES = """\
examples:
  lc3 log hello.obj                      every step: number, PC, word, line, reason, changes
  lc3 log --last 20 --registers loop.obj < keys.txt
  lc3 log --program hello.obj            without the steps of the monitor's routines

"""
DEBUG = (
    "Loads the files as lc3 run does, and takes commands: step, over, out, run, break, watch, "
    "list, registers, print, set, and back, which goes back by steps, over calls, to breakpoints, "
    "to the last write of a word and to the last change of a register, exactly. On a terminal, "
    "lines can be edited and completed, keys go to the program while it runs, and Ctrl-C stops "
    "it; from a pipe the lines are a script. What the program shows is standard output, and what "
    "the debugger says is standard error. The command help tells all commands."
)
DEBUG_EXAMPLES = """\
examples:
  lc3 debug hello.obj                   a prompt; help tells the commands
  lc3 debug --screen hello.obj          all in one screen
  lc3 debug sum.obj < commands.txt      a script of commands, one a line; # begins a comment

exit codes:
  0  the debugger was left, or the commands of a script were obeyed
  1  some command of a script could not be obeyed, or Ctrl-C ended it
  2  wrong use of the command
  3  a file was refused, or could not be read
"""
MARK = (
    "Runs every candidate with the keys of every case and compares all that it shows with what is "
    "expected, byte for byte or lenient by --lenient; the machine must be halted by HALT as well. "
    "A case may also set registers and words before the run and expect others after it, or call a "
    "subroutine. Exceptions, traps without a service and strings that the monitor refused are "
    "flagged, whatever was shown. A folder is walked with all folders in it, for files named "
    "*.obj, *.bin and *.hex; every other file is listed as passed over. CASES is a folder with "
    "NAME.keys (the keys; none where it is missing), NAME.steps (the greatest number of steps, "
    "where it is not that of --steps), NAME.expected and NAME.json (the other members) for each "
    'case, or a JSON file: a list of objects with the members "name", "expected" and, where '
    "wanted, others. lc3-mark(5) has all of them, the members of JSON and the columns of CSV. "
    "Results are written as they come."
)
MARK_EXAMPLES = """\
examples:
  lc3 run model.obj < cases/one.keys > cases/one.expected      make a case from a model
  lc3 mark --cases cases students                              a table for a folder of files
  lc3 mark --cases cases --with answers.obj students           the examiner's words beside each
  lc3 mark --cases cases --monitor monitor.obj --with answers.obj students
  lc3 mark --cases cases --csv students > marks.csv
  lc3 mark --cases cases --feedback hand-back students         a text for each candidate as well
  lc3 mark --cases cases --resume marks.jsonl students         go on from results by --json
  lc3 mark --cases cases --gradescope submission > results.json
  parallel lc3 mark --cases cases --one ::: students/*.obj     one JSON line for each candidate;
                                                               with --sshlogin on many hosts

exit codes:
  0  every candidate is right; with --one: the line was written, whatever it says
  1  some candidate is not right
  2  wrong use of the command
  3  nothing to mark, cases or a file of --monitor, --with or --data were refused, the monitor is
     not certified, or the results could not be written
  130, or as a shell tells of the signal: stopped by Ctrl-C or a signal; results so far are written
"""


CERTIFY = (
    "Tells whether a class's own monitor keeps the examiner's words secret. The first file, and "
    "those of --monitor, are the monitor's: its words are no secrets, and those that its routines "
    "store to are its own. The other files, as answers or a marking routine, are secret, and so is "
    "all other privileged memory; only words that routines go on to are not. A table of what is "
    "known at each word of the routines is made and checked by the library's proved test. Where "
    "it holds, it is a theorem that no program in User mode, and nobody who sees its display, "
    "learns anything of a secret word. Where not, each place is told with what could be written "
    "instead."
)
CERTIFY_EXAMPLES = """\
examples:
  lc3 certify monitor.obj marking.obj                 certified, or why not
  lc3 certify --secret x0227-x0229 monitor.obj        answers in the midst of the monitor
  lc3 certify --save monitor.cert monitor.obj         keep the certificate
  lc3 certify --table monitor.cert monitor.obj        check it again, by the proved test alone
  lc3 mark --monitor monitor.obj --with answers.obj --cases cases students

exit codes: 0 certified, 1 not certified, 2 wrong use of the command, 3 a file was refused, or
could not be read or written
"""


PAGE = (
    "Opens the LC-3 in the default browser: one file, with the same proved library in it, that a "
    "student may copy anywhere and that needs neither this command nor a network. Where there is "
    "no browser, its path is written. A browser belongs to whoever sits at it, with all memory on "
    "the screen: nothing of an examiner belongs in it."
)
PAGE_EXAMPLE = """\
examples:
  lc3 page                               opens it
  cp "$(lc3 page --path)" /srv/course    hands it out

exit codes: 0 opened, or its path written, 2 wrong use of the command, 3 no page is installed
"""


def address(text: str) -> int:
    """An address of the command line.

    >>> address("x3000") == address("0x3000") == address("#12288") == 0x3000
    True
    """
    found = re.fullmatch(r"0?x([0-9a-f]{1,8})|#([0-9]{1,9})", text, re.IGNORECASE | re.ASCII)
    value = -1 if found is None else int(found[1], 16) if found[1] else int(found[2])
    if not 0 <= value <= WORD_LIMIT:
        raise argparse.ArgumentTypeError(
            f"{text!r} is no address: write x0000 to xFFFF, or #0 to #65535"
        )
    return value


def words(text: str) -> range:
    """A range of words of the command line."""
    # The module is loaded only where it is needed: a short run shall not wait for it.
    from ..certifying.claims import words_of

    try:
        return words_of(text)
    except ValueError as error:
        raise argparse.ArgumentTypeError(str(error)) from None


def count(text: str) -> int:
    """A number of steps of the command line, at most the greatest clock.

    >>> count("10_000_000")
    10000000
    """
    digits = text.replace("_", "") if re.fullmatch(r"[0-9][0-9_]{0,30}", text, re.ASCII) else ""
    if not digits or int(digits) > MAX_CLOCK:
        raise argparse.ArgumentTypeError(f"{text!r} is no number from 0 to {MAX_CLOCK}")
    return int(digits)


def jobs(text: str) -> int:
    """A number of processes of the command line."""
    number = count(text)
    if not 1 <= number <= 1024:
        raise argparse.ArgumentTypeError(f"{text!r} is no number of processes from 1 to 1024")
    return number


def seed(text: str) -> int | str:
    """A seed of the command line, or the wish for any."""
    number = MOST_SEED + 1 if text == "random" else count(text)
    if text != "random" and number > MOST_SEED:
        raise argparse.ArgumentTypeError(f"{text!r} is no number from 0 to {MOST_SEED}")
    return text if text == "random" else number


def seconds(text: str) -> float:
    """A number of seconds of the command line.

    >>> seconds("2.5")
    2.5
    """
    if not re.fullmatch(r"[0-9]{1,9}(\.[0-9]{1,9})?", text, re.ASCII) or not float(text):
        raise argparse.ArgumentTypeError(f"{text!r} is no number of seconds above 0")
    return float(text)


def processors() -> int:
    """The processors that this process may use."""
    return len(os.sched_getaffinity(0))


class Parser(argparse.ArgumentParser):
    """A parser that keeps the lines of examples, and takes no shortened options: a script must not
    change its meaning when options are added."""

    def __init__(self, **settings: Any) -> None:
        """The parser of a command."""
        settings.setdefault("formatter_class", argparse.RawDescriptionHelpFormatter)
        super().__init__(allow_abbrev=False, **settings)

    def error(self, message: str) -> NoReturn:
        """Says what is wrong with a command line, and ends the command."""
        super().error(plain(message))

    def _print_message(self, message: str, file: IO[str] | None = None) -> None:
        """Writes help, the version or an error. ``argparse`` says nothing where that fails; of
        standard output it is told."""
        if file is not None and file is sys.stdout:
            file.write(message)
        else:
            super()._print_message(message, file)


def _wrapped(text: str, width: int = 80) -> str:
    """A description in lines."""
    lines = [""]
    for part in text.split():
        joined = f"{lines[-1]} {part}".strip()
        lines[-1:] = [joined] if len(joined) <= width else [lines[-1], part]
    return "\n".join(lines)


def _add_machine(to: argparse.ArgumentParser) -> None:
    """The options of how the machine is set up."""
    group = to.add_argument_group("the machine", ADDRESSES)
    group.add_argument(
        "--edition",
        type=int,
        choices=(2, 3),
        default=3,
        help="the book's edition by whose rules it runs (3); 2 needs --no-monitor, because our "
        "monitor returns by RTI and does not serve it",
    )
    group.add_argument(
        "--supervisor",
        action="store_true",
        help="start in Supervisor mode: the program has all rights",
    )
    group.add_argument(
        "--pc",
        type=address,
        metavar="ADDRESS",
        help="start at this address, in User mode one of x3000 to xFDFF",
    )
    group.add_argument(
        "--stack",
        type=address,
        metavar="ADDRESS",
        default=USER_STACK,
        help=f"the user's stack (x{USER_STACK:04X})",
    )
    group.add_argument(
        "--no-monitor", dest="monitor", action="store_false", help="leave the monitor out"
    )


def _add_files(to: argparse.ArgumentParser, option: str, text: str) -> None:
    """An option that names a file, and may be given several times."""
    to.add_argument(
        f"--{option}",
        dest=f"{option}_files",
        action="append",
        default=[],
        metavar="FILE.obj",
        help=f"{text}; may be given several times",
    )


def _add_run(to: argparse.ArgumentParser) -> None:
    """The options that run and log share."""
    files = "object files, or programs as text; the last one runs"
    to.add_argument("files", nargs="*", metavar="FILE.obj", help=files)
    _add_machine(to)
    _add_files(to, "with", WITH)
    to.add_argument(
        "--anywhere",
        action="store_true",
        help="every file is trusted: it may lie anywhere, and so may the program's start",
    )
    to.set_defaults(trusted=TRUSTED)
    to.add_argument(
        "--steps",
        type=count,
        metavar="N",
        help="stop after N steps; without it a wait for keys is the end where no more come, and so "
        "is a loop that no key can end",
    )
    to.add_argument(
        "--keys",
        metavar="TEXT|@FILE",
        help="the keys, byte for byte as they stand or from a file, in the place of standard "
        "input; a shell's $'a\\n' has escapes",
    )
    to.add_argument("--save-sitting", metavar="FILE", help="write the sitting, to be replayed")
    to.add_argument(
        "--replay",
        metavar="FILE",
        help="replay a saved sitting to its end, in the place of files and keys; with --steps its "
        "first steps",
    )
    to.add_argument(
        "--registers", action="store_true", help="write the program's registers at the end"
    )
    _add_symbols(to)


def _add_symbols(to: argparse.ArgumentParser) -> None:
    """The option that names a symbol table."""
    to.add_argument("--symbols", metavar="FILE.sym", help=SYMBOLS)


def _add_candidates(to: argparse.ArgumentParser) -> None:
    """The options of which files are marked."""
    to.add_argument(
        "candidates",
        nargs="+",
        metavar="CANDIDATE",
        help="object files or programs as text to mark, or folders of files named *.obj, *.bin and "
        "*.hex",
    )
    to.add_argument(
        "--texts",
        action="store_true",
        help="mark files of folders that are named *.txt as well: programs as text",
    )
    to.add_argument(
        "--export",
        choices=PLATFORMS,
        help="the folders are as this course platform exports them: results have the students",
    )
    to.add_argument(
        "--follow-links",
        action="store_true",
        help="follow symbolic links, which are refused or passed over without it",
    )


def _add_mark(to: argparse.ArgumentParser) -> None:
    """The options of mark."""
    _add_candidates(to)
    to.add_argument("--cases", required=True, metavar="CASES", help="a folder, or a JSON file")
    to.add_argument(
        "--steps",
        type=count,
        metavar="N",
        default=10_000_000,
        help="the steps a candidate has for a case that sets none (10000000)",
    )
    to.add_argument(
        "--any-halt",
        action="store_true",
        help="a case is passed however the machine was halted, and not by HALT alone",
    )
    _add_comparison(to)
    _add_files(to, "monitor", MONITOR)
    to.add_argument(
        "--uncertified",
        action="store_true",
        help="mark beside the class's own monitor also where it is not certified",
    )
    _add_files(to, "with", WITH)
    _add_files(to, "data", DATA)
    _add_machine(to)
    to.add_argument(
        "--jobs", type=jobs, metavar="N", help=f"processes at once ({processors()} here)"
    )
    _add_forms(to)


def _add_comparison(to: argparse.ArgumentParser) -> None:
    """The options of how candidates are compared, and for how long they run."""
    to.add_argument(
        "--lenient",
        action="append",
        default=[],
        choices=CHOICES,
        help="compare displays without regard to this; may be given several times",
    )
    to.add_argument(
        "--seed",
        type=seed,
        metavar="N|random",
        help="random contents of all words that the program reaches and all registers that a case "
        "leaves open, the same for every candidate; the seed is told in the results",
    )
    to.add_argument(
        "--seconds",
        type=seconds,
        metavar="S",
        help="the time that a candidate has for all its cases together",
    )


def _add_forms(to: argparse.ArgumentParser) -> None:
    """The forms of the results; without one they are a table."""
    to.add_argument("--feedback", metavar="FOLDER", help="write a text for each candidate there")
    to.add_argument(
        "--resume",
        metavar="FILE",
        help="take over what this file of --json or --one has, and mark only what is missing",
    )
    forms = to.add_mutually_exclusive_group()
    forms.add_argument(
        "--json",
        dest="form",
        action="store_const",
        const="json",
        help="JSON Lines: an object for each file, and one at the end",
    )
    forms.add_argument(
        "--csv", dest="form", action="store_const", const="csv", help="a row for each case"
    )
    forms.add_argument(
        "--one",
        dest="form",
        action="store_const",
        const="one",
        help="mark one candidate and write one line of JSON, for GNU parallel or a batch queue",
    )
    forms.add_argument(
        "--gradescope",
        dest="form",
        action="store_const",
        const="gradescope",
        help="mark one candidate and write Gradescope's results.json",
    )
    forms.add_argument(
        "--junit", dest="form", action="store_const", const="junit", help="JUnit XML"
    )


def parser() -> argparse.ArgumentParser:
    """The parser of the whole command line."""
    whole = Parser(
        prog="lc3",
        description="The LC-3 of Patt and Patel: run, list, make, log, debug and mark programs.",
        epilog="example: lc3 run hello.obj\nlc3 COMMAND --help says more of a command.",
    )
    whole.add_argument("--version", action="version", version=VERSIONS)
    commands: Sequence[tuple[str, str, str, str, str]] = (
        ("run", "run", "run a program", RUN, RUN_EXAMPLES + EXIT_CODES),
        ("list", "listing", "list address, word and line", "", LIST_EXAMPLE),
        ("make", "make", "make an object file of a program as text", MAKE, MAKE_EXAMPLE),
        ("log", "log", "tell of every step what it did", "", LOG_EXAMPLES + EXIT_CODES),
        ("debug", "debug", "step through a program, forwards and back", DEBUG, DEBUG_EXAMPLES),
        ("mark", "mark", "mark programs against cases", MARK, MARK_EXAMPLES),
        ("certify", "certify", "certify a class's own monitor", CERTIFY, CERTIFY_EXAMPLES),
        ("page", "page", "open the LC-3 in a browser", PAGE, PAGE_EXAMPLE),
    )
    adding = whole.add_subparsers(metavar="COMMAND", required=True, parser_class=Parser)
    for name, module, short, text, epilog in commands:
        text = _wrapped(text or f"{short[0].upper()}{short[1:]}.")
        sub = adding.add_parser(name, help=short, description=text, epilog=epilog)
        sub.set_defaults(module=module)
        _ADD[name](sub)
    return whole


def _add_list(to: argparse.ArgumentParser) -> None:
    """The options of list."""
    to.add_argument(
        "files", nargs="+", metavar="FILE.obj", help="object files, or programs as text"
    )
    to.add_argument(
        "--registers", action="store_true", help="write the registers as a run begins with them"
    )
    _add_symbols(to)
    forms = to.add_mutually_exclusive_group()
    for form, text in (
        (Form.BINARY, "a program as text: the origin and the words in binary digits"),
        (Form.FIELDS, "the same with spaces between the fields of each instruction"),
        (Form.HEXADECIMAL, "the same in hexadecimal digits"),
    ):
        forms.add_argument(
            f"--{form.value}", dest="form", action="store_const", const=form, help=text
        )


def _add_make(to: argparse.ArgumentParser) -> None:
    """The options of make."""
    to.add_argument("file", metavar="FILE.txt", help="a program as text")
    to.add_argument(
        "-o",
        "--output",
        metavar="FILE.obj",
        help="the object file; FILE.obj beside the text unless it is given",
    )


def _add_log(to: argparse.ArgumentParser) -> None:
    """The options of log."""
    _add_run(to)
    to.add_argument("--last", type=count, metavar="N", help="only the last N steps")
    to.add_argument(
        "--program", action="store_true", help="leave out the steps of the monitor's routines"
    )


def _add_debug(to: argparse.ArgumentParser) -> None:
    """The options of debug."""
    to.add_argument("files", nargs="*", metavar="FILE.obj", help="object files; the last one runs")
    _add_machine(to)
    _add_files(to, "with", WITH)
    to.add_argument("--anywhere", action="store_true", help="every file is trusted")
    to.set_defaults(trusted=TRUSTED)
    to.add_argument(
        "--symbols",
        metavar="FILE.sym",
        help="labels, as the book's assembler writes them; without it those of FILE.sym beside "
        "FILE.obj",
    )
    to.add_argument("--keys", metavar="TEXT|@FILE", help="keys that are typed before the start")
    to.add_argument("--replay", metavar="FILE", help="debug a saved sitting, from its start")
    to.add_argument("--screen", action="store_true", help="begin in the screen")


class _Declare(argparse.Action):
    """Adds words to what is declared, in the order of the command line."""

    def __call__(
        self, to: Any, namespace: argparse.Namespace, values: Any, option: str | None = None
    ) -> None:
        """What the option's name says of the words."""
        namespace.declared = [*namespace.declared, ((option or "").lstrip("-"), values)]


def _add_certify(to: argparse.ArgumentParser) -> None:
    """The options of certify."""
    files = "the object file of a monitor, or its text; and files beside it whose words are secret"
    to.add_argument("files", nargs="*", metavar="FILE.obj", help=files)
    _add_files(to, "monitor", "another file of the monitor's")
    to.set_defaults(declared=[])
    for cell, text in (
        ("fixed", "these words never change, and are no secret"),
        ("own", "the monitor's routines may write these words, and they are no secret"),
        ("secret", "these words are secret"),
    ):
        to.add_argument(
            f"--{cell}",
            type=words,
            action=_Declare,
            metavar="WORDS",
            help=f"{text}, whatever file they are of; as x0227 or x0227-x0229",
        )
    to.add_argument("--save", metavar="FILE", help="write the certificate: claim and table")
    to.add_argument(
        "--table", metavar="FILE", help="check a certificate that was saved, and make none"
    )


def _add_page(to: argparse.ArgumentParser) -> None:
    """The options of page."""
    to.add_argument("--path", action="store_true", help="write the path of the file, and no more")


_ADD = {
    "run": _add_run,
    "list": _add_list,
    "make": _add_make,
    "log": _add_log,
    "debug": _add_debug,
    "mark": _add_mark,
    "certify": _add_certify,
    "page": _add_page,
}
