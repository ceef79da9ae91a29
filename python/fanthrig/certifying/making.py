"""Makes a certificate: the table of what is known at each word of a monitor's routines, and the
claim that goes with it.

Nothing here is trusted. What is made is handed to the proved test, and a mistake of the maker costs
a refusal, never a false certificate.

At first no word is watched, then the monitor's own, and then its stack too; and few states are kept
for a word at first, then more: a text that a routine shows is unrolled, with a state for each
character. Of the watched words only those are kept in the end whose value is needed.
"""

from __future__ import annotations

from typing import Iterable, Iterator, Sequence

from ..constants import USER_ORIGIN, WATCHED_WORDS
from ..places import addresses, common
from ..recording import Program
from . import problems
from .certificate import FOR_INTERRUPTS, Certificate
from .claims import Cell, Claim, Declared, claim_of
from .domain import ANY, State
from .following import CALLERS_PSR, ROUTINES, TOP, Follower, gathered
from .problems import NotCertified, Problem

# The words below x3000 that a stack may take while it is not known how many it needs, and those of
# them that are watched.
DEEPEST, WATCHED_STACK = 0x2F00, range(0x2FE0, CALLERS_PSR)

# The states of a word before they are joined, from try to try.
JOINED_FROM = (8, 64, 512, 4096)


def certificate_of(
    monitor: Sequence[tuple[str, bytes]],
    others: Sequence[tuple[str, bytes]] = (),
    declared: Iterable[Declared] = (),
) -> Certificate:
    """A certificate that the proved test has accepted, of a monitor's files beside others, given by
    their names and their bytes; or ``NotCertified`` with the reasons.

    >>> try:
    ...     certificate_of([("empty.obj", b"\\x02\\x00\\x80\\x00")])
    ... except NotCertified as error:
    ...     print(error.problems[0])
    x0000 and 260 more: the vector is in no file of the monitor's, or secret
    """
    claim = claim_of(monitor, others, declared)
    try:
        made = made_of(claim)
        check_secret(made, claim.others)
        check_test(made)
    except NotCertified as error:
        raise NotCertified(error.problems, monitor[0][0]) from None
    return made


def check_test(made: Certificate) -> None:
    """That the proved test accepts a certificate."""
    answer = made.tested()
    if not answer:
        text = f"the proved test does not accept the table: {answer.finding.text}"
        raise NotCertified([Problem(answer.address, text, problems.ANEW)])


def made_of(claim: Claim) -> Certificate:
    """The certificate of a claim as the table maker makes it, before the test."""
    if claim.size + FOR_INTERRUPTS > TOP:
        last = claim.size - 1
        text = f"leaves no room for the stack, which ends at x{CALLERS_PSR:04X}"
        raise NotCertified([Problem(last, text, f"{problems.LOWER} x2F00")])
    follower, watched, most = _followed(claim)
    used = [address for address in watched if address in follower.recalled]
    if used != watched:
        fewer = _run(claim, used, most)
        follower, used = (fewer, used) if not fewer.problems else (follower, watched)
    while len(used) > WATCHED_WORDS:
        follower, used = _with_one_less(claim, used, most)
    return _encoded(claim, follower, used)


def _followed(claim: Claim) -> tuple[Follower, list[int], int]:
    """A run over the routines without a problem, the words that it has watched, and the states of
    a word before they were joined."""
    found: dict[int, Problem] = {}
    for own, stack in ((False, range(0)), (True, range(0)), (True, WATCHED_STACK)):
        if own and not stack and not claim.owned:
            continue
        sure: set[Problem] = set()
        for most in JOINED_FROM:
            follower, watched = _settled(claim, own, stack, most)
            if not follower.problems:
                return follower, watched, most
            # More states help where some were joined, but hardly against what is sure.
            before, sure = sure, follower.sure
            alike = bool(sure) and sure == before
            if alike or not follower.joins or len(sure) == len(follower.problems):
                break
        found = follower.problems
    raise NotCertified(gathered(found))


def _settled(claim: Claim, own: bool, stack: range, most: int) -> tuple[Follower, list[int]]:
    """A run over the routines that finds no more words that are stored to or fetched, and the words
    that it has watched: none, or the monitor's own and those of the stack."""
    while True:
        free = range(max(stack.start, claim.size), stack.stop)
        watched = [*claim.owned, *free] if own else []
        follower = _run(claim, watched, most)
        if not claim.take(follower.stored, follower.fetched):
            return follower, watched


def _run(claim: Claim, watched: Sequence[int], most: int) -> Follower:
    """One run over the routines."""
    follower = Follower(claim, watched, max(claim.size + FOR_INTERRUPTS, DEEPEST), most)
    follower.follow()
    return follower


def _with_one_less(claim: Claim, used: list[int], most: int) -> tuple[Follower, list[int]]:
    """The watched words without one that is not needed, and the run without it."""
    for word in used:
        fewer = [other for other in used if other != word]
        follower = _run(claim, fewer, most)
        if not follower.problems:
            return follower, fewer
    text = f"with {len(used) - 1} others more than {WATCHED_WORDS} words would have to be watched"
    raise NotCertified([Problem(used[0], text, problems.FEWER)])


def _encoded(claim: Claim, follower: Follower, watched: Sequence[int]) -> Certificate:
    """The certificate of a run."""
    kinds = bytes(claim.cells[: claim.size])
    unused = WATCHED_WORDS - len(watched)
    ends: list[int] = []
    table: list[int] = []
    count = 0
    for address in range(ROUTINES, max(follower.rows) + 1):
        states: Iterable[State] = follower.rows.get(address, ())
        for state in states:
            table += (*state, *[ANY] * unused)
            count += 1
        ends.append(count)
    words = (word if kind == Cell.FIXED else 0 for word, kind in zip(claim.memory, kinds))
    places = (*watched, *[0] * unused)
    return Certificate(kinds, tuple(words), follower.least, places, tuple(ends), tuple(table))


def check_secret(made: Certificate, others: Sequence[Program]) -> None:
    """That no file beside the monitor has a word of its stack, which every routine writes."""
    for program in others:
        reached = common(program.addresses, made.stack)
        if reached:
            text = f"{program.subject} has {addresses(reached)}, words of the monitor's stack"
            instead = f"{problems.LOWER} x{made.stack.start:04X}"
            raise NotCertified([Problem(reached[0], text, instead)])


def check_whole(made: Certificate, others: Sequence[Program], instead: str) -> None:
    """That every word of the files beside the monitor is secret."""
    secret = set(made.words_of(Cell.SECRET))
    for program in others:
        known = [address for address in program.addresses if address not in secret]
        if known:
            text = f"{program.subject} has this word, and the certificate does not keep it secret"
            raise NotCertified([Problem(known[0], text, instead)])


def differences(made: Certificate, words: Sequence[int]) -> Iterator[Problem]:
    """The fixed words of a certificate that memory does not have."""
    for address, kind in enumerate(made.kinds[:USER_ORIGIN]):
        if kind == Cell.FIXED and words[address] != made.words[address]:
            text = f"is x{words[address]:04X}, and x{made.words[address]:04X} in the certificate"
            yield Problem(address, text, problems.ANEW)
