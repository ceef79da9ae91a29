"""``lc3 certify``: a class's own monitor, by a table that is made here and checked by the proved
test."""

from __future__ import annotations

import argparse
from textwrap import fill
from typing import Iterator, Sequence

from ..certifying import Cell, Certificate, CertificateError, Declared, NotCertified, Problem
from ..certifying import certificate_of, check_secret, check_test, check_whole, differences
from ..certifying.claims import claim_of, told
from ..certifying.problems import NOT_BESIDE
from ..recording import Program
from ..telling import counted, plain
from ..writing import write_file
from .files import object_files, same_file, whole_file
from .messages import Code, CommandError

CERTIFIED = (
    "certified: a sitting beside this monitor tells nothing of a secret word, and alters none"
)

# The problems that are told of one monitor, and the columns of their lines.
MOST_TOLD, WIDTH = 10, 100

File = tuple[str, bytes]


def command(options: argparse.Namespace) -> Code:
    """Certifies as the options have it, and answers the exit code."""
    _check(options)
    monitor = object_files([*options.files[:1], *options.monitor_files])
    others = object_files(options.files[1:])
    try:
        if options.table is None:
            made = certificate_of(monitor, others, _declared(options))
        else:
            made = _saved(options.table, monitor, others)
    except NotCertified as error:
        print("\n".join(_refused(error.problems)))
        return Code.NOT_HALTED
    if options.save is not None:
        write_file(options.save, made.data())
    for line in (CERTIFIED, *made.summary(), *_of_files(made, monitor, others)):
        print(_wrapped(line))
    return Code.HALTED


def _check(options: argparse.Namespace) -> None:
    """That the options go together."""
    problem = ""
    if options.table is None and not options.files:
        problem = "name the object file of a monitor, or a certificate by --table"
    elif options.table is not None and (options.save or options.declared):
        problem = "--table checks a certificate as it is: leave --save and what is declared out"
    elif options.monitor_files and not options.files:
        problem = "--monitor names another file of the monitor's: name the first one without it"
    elif options.save is not None:
        names = [*options.files, *options.monitor_files]
        if any(same_file(options.save, name) for name in names):
            problem = f"{options.save} would be overwritten by its own certificate: name another"
    if problem:
        raise CommandError(problem, Code.WRONG_USE)


def _declared(options: argparse.Namespace) -> list[Declared]:
    """The words that the options declare to be something."""
    return [Declared(words, Cell[cell.upper()]) for cell, words in options.declared]


def _saved(path: str, monitor: Sequence[File], others: Sequence[File]) -> Certificate:
    """The certificate of a file, which holds for the files that are named, where any are; or
    ``NotCertified``. Who made it may have claimed less than one thinks: so every word of the files
    beside the monitor is to be secret by it."""
    try:
        made = Certificate.of(whole_file(path))
    except CertificateError as error:
        raise CommandError(f"{path}: refused: {error}") from None
    if monitor:
        claim = claim_of(monitor, others)
        wrong = list(differences(made, claim.memory))
        if wrong:
            raise NotCertified(wrong)
        check_secret(made, claim.others)
        check_whole(made, claim.others, NOT_BESIDE)
    check_test(made)
    return made


def _refused(problems: Sequence[Problem]) -> Iterator[str]:
    """The lines that say why a monitor is not certified, and what could be written instead: the
    same advice once."""
    yield "not certified"
    some = problems[:MOST_TOLD]
    for number, problem in enumerate(some, 1):
        yield plain(str(problem))
        if number == len(some) or some[number].instead != problem.instead:
            yield _wrapped(f"  instead: {problem.instead}")
    if len(problems) > MOST_TOLD:
        yield f"and {counted(len(problems) - MOST_TOLD, 'more place')}"


def _wrapped(text: str) -> str:
    """A line in lines of some columns; a name that is longer is left whole."""
    return fill(text, WIDTH, subsequent_indent="  ", break_long_words=False, break_on_hyphens=False)


def _of_files(made: Certificate, monitor: Sequence[File], others: Sequence[File]) -> Iterator[str]:
    """A line for each file beside the monitor: whether all its words are secret."""
    programs: Sequence[Program] = claim_of(monitor, others).others if others else ()
    secret = set(made.words_of(Cell.SECRET))
    for program in programs:
        known = [word for word in program.addresses if word not in secret]
        rest = f"every word is secret but {told(known)}" if known else "every word is secret"
        yield f"{plain(program.name)}: {rest}"
