"""The command ``lc3``: run, list, make, log, debug and mark programs, certify monitors, and open
the page.

``lc3 run FILE.obj...``              runs a program on the terminal, or with the bytes of a pipe
``lc3 list FILE.obj...``             lists the words of files with their lines
``lc3 make FILE.txt -o FILE.obj``    makes an object file of a program as text
``lc3 log FILE.obj...``              prints each step: what it did and by which rule
``lc3 debug FILE.obj...``            steps through a program, forwards and back
``lc3 mark --cases CASES FILE...``   marks many programs against cases
``lc3 certify MONITOR.obj FILE...``  tells whether a monitor keeps the words of files secret
``lc3 page``                         opens the LC-3 in a browser

``lc3 COMMAND --help`` says more. Of each command one module has the work; the others are

``debugger``    the commands of the debugger, its prompt and its screen
``options``     what may stand on the command line
``files``       object files and saved sittings as the command takes them
``symbols``     the labels of the files
``seat``        a sitting with keyboard and display, as the options have it
``terminal``    where keys come from, and signals
``messages``    what is said to people, and the exit codes
``output``      standard output for results

What marks is ``fanthrig.marking``, and what runs a sitting until something ends it
``fanthrig.running``.
"""

from __future__ import annotations

import errno
import os
import signal
import sys
from importlib import import_module
from typing import Sequence

from .._library import LibraryError
from ..telling import FileError, of_os_error
from .messages import GONE, Code, CommandError, let_go, say, tell
from .options import parser


def main(argv: Sequence[str] | None = None) -> int:
    """Obeys a command line, by default the one of this process, and answers the exit code.

    Whatever is wrong with a file or an option is said in one line on standard error.

    >>> main(["--version"])
    lc3 0.1.0, interface 7
    0
    """
    _set_up_streams()
    try:
        code = _obeyed(argv)
        sys.stdout.flush()
        return code
    except CommandError as error:
        say(str(error))
        return int(error.code)
    except FileError as error:
        say(str(error))
        return int(Code.REFUSED)
    except LibraryError as error:
        # It has a line for each place that was tried.
        tell(f"lc3: {error}\n")
        return int(Code.REFUSED)
    except BrokenPipeError:
        let_go(sys.stdout)
        say(GONE)
        return int(Code.REFUSED)
    except OSError as error:
        if error.filename is None and error.errno in (errno.ENOSPC, errno.EBADF):
            error.filename = "standard output"
            let_go(sys.stdout)
        say(of_os_error(error))
        return int(Code.REFUSED)
    except KeyboardInterrupt:
        say("stopped by Ctrl-C")
        return int(Code.NOT_HALTED)


def _obeyed(argv: Sequence[str] | None) -> int:
    """Obeys a command line, and answers the exit code; errors are for others to tell."""
    try:
        options = parser().parse_args(argv)
    except SystemExit as ended:
        return int(ended.code or 0)
    _take_interrupts()
    # Each command's module is loaded when it is asked for: a short run shall not wait for all.
    command = import_module(f"fanthrig.command.{options.module}")
    return int(command.command(options))


def _take_interrupts() -> None:
    """Has Ctrl-C raise ``KeyboardInterrupt``, as it was before the installed command let it end
    the process while that began."""
    if signal.getsignal(signal.SIGINT) is signal.SIG_DFL:
        signal.signal(signal.SIGINT, signal.default_int_handler)


def _set_up_streams() -> None:
    """Opens the standard streams that are closed, for else the next file would take their place;
    and has bytes in the names of files that are no text written as escapes."""
    for name, mode in (("stdin", "r"), ("stdout", "w"), ("stderr", "w")):
        if getattr(sys, name) is None:
            # What is to be shown must not vanish: there the first write is refused.
            flags = os.O_WRONLY if name == "stderr" else os.O_RDONLY
            setattr(sys, name, open(os.open(os.devnull, flags), mode))
    for stream in (sys.stdout, sys.stderr):
        if hasattr(stream, "reconfigure"):
            stream.reconfigure(errors="backslashreplace")
