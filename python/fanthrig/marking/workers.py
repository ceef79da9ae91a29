"""Many candidates, marked by several processes at once; results come in the candidates' order."""

from __future__ import annotations

import multiprocessing
import os
import signal
import time
import warnings
from collections import deque
from concurrent.futures import Future, ProcessPoolExecutor, wait
from concurrent.futures.process import BrokenProcessPool
from multiprocessing.process import BaseProcess
from threading import Thread
from typing import Callable, Generator, Iterator, Sequence

from ..running import NOTICED, Stopper, Unstopped
from .marker import Marking, Result

# The seconds after which a wait for results looks whether a signal has come.
PATIENCE = 0.1

# The seconds after which a worker looks whether the first process is still there.
WATCH = 1

KILLED = "refused: the process that marked it was killed, perhaps for want of memory: mark it alone"


class _NoProcesses(Exception):
    """The system starts no more processes."""


# What each worker has for all its candidates.
_WORK: list[Marking] = []


def mark_all(
    marking: Marking,
    candidates: Sequence[str],
    jobs: int = 1,
    stopper: Stopper = Unstopped(),
    notice: Callable[[str], object] = warnings.warn,
) -> Generator[Result, None, None]:
    """The results in the order of the candidates, by so many processes. Where a signal comes, those
    that are there by then, and no others; so where another stopper ends it. Where no processes can
    be started, this one marks them all, and ``notice`` is told.

    >>> from .cases import Case
    >>> marking = Marking([Case("halt", expected=b"Halted\\n")])
    >>> [result.verdict for result in mark_all(marking, ["no/such.obj"])]
    ['refused']
    """
    if min(jobs, len(candidates)) > 1:
        yield from _by_processes(marking, candidates, jobs, stopper, notice)
    else:
        yield from _one_by_one(marking, candidates, stopper)


def _one_by_one(
    marking: Marking, candidates: Sequence[str], stopper: Stopper
) -> Iterator[Result]:
    """The same by this process alone."""
    for candidate in candidates:
        result = marking.mark(candidate, stopper)
        if stopper.caught:
            return
        yield result


def _by_processes(
    marking: Marking,
    candidates: Sequence[str],
    jobs: int,
    stopper: Stopper,
    notice: Callable[[str], object],
) -> Iterator[Result]:
    """The same by at least two processes."""
    done = 0
    try:
        for result in _by_pool(marking, candidates, jobs, stopper):
            done += 1
            yield result
    except _NoProcesses as error:
        notice(f"no more processes can be started ({error}): one marks all candidates")
        yield from _one_by_one(marking, candidates, stopper)
    except BrokenProcessPool:
        # Whichever candidate it was: those that are left have a process each.
        for candidate in candidates[done:]:
            yield from _alone(marking, candidate, stopper)


def _alone(marking: Marking, candidate: str, stopper: Stopper) -> Iterator[Result]:
    """The result of one candidate by a process of its own, which may be killed."""
    try:
        yield from _by_pool(marking, [candidate], 1, stopper)
    except (BrokenProcessPool, _NoProcesses):
        if not stopper.caught:
            yield marking.refused(candidate, f"{candidate}: {KILLED}")


def _by_pool(
    marking: Marking, candidates: Sequence[str], jobs: int, stopper: Stopper
) -> Iterator[Result]:
    """The results by a pool of processes, which ends with this."""
    others = set(multiprocessing.active_children())
    left: deque[Future[Result]] = deque()
    pool = _submitted(marking, candidates, jobs, left, others)
    try:
        while left and not _signalled(left[0], stopper):
            yield left.popleft().result()
        # A signal has come: what is marked by now is not thrown away.
        yield from [future.result() for future in left if _has_result(future)]
    finally:
        if left:
            # Whoever presses Ctrl-C does not want to wait for the candidates under way.
            _kill_all_but(others)
        pool.shutdown(cancel_futures=True)


def _submitted(
    marking: Marking,
    candidates: Sequence[str],
    jobs: int,
    left: deque[Future[Result]],
    others: set[BaseProcess],
) -> ProcessPoolExecutor:
    """A pool that marks the candidates, whose results are added to a list. Where the system starts
    no more processes or threads, or has no pipes for them, none is left behind."""
    context = multiprocessing.get_context("fork")
    shared = (marking, os.getpid())
    try:
        pool = ProcessPoolExecutor(min(jobs, len(candidates)), context, _begin, shared)
        left.extend(pool.submit(_mark, candidate) for candidate in candidates)
        return pool
    except BrokenProcessPool:
        raise
    except (OSError, RuntimeError) as error:
        _kill_all_but(others)
        raise _NoProcesses(getattr(error, "strerror", None) or error) from None


def _kill_all_but(others: set[BaseProcess]) -> None:
    """Kills the workers: all processes of this one but others that it had."""
    for worker in set(multiprocessing.active_children()) - others:
        worker.kill()


def _signalled(future: Future[Result], stopper: Stopper) -> bool:
    """Waits for a result, and tells whether a signal has come meanwhile."""
    while not stopper.caught and not wait([future], PATIENCE).done:
        pass
    return bool(stopper.caught)


def _has_result(future: Future[Result]) -> bool:
    """Whether a candidate is marked; a signal to all processes of the group ends workers too."""
    return future.done() and not future.cancelled() and future.exception() is None


def _begin(marking: Marking, first: int) -> None:
    """Sets up a worker of the first process. Ctrl-C reaches it too, and is for the first process to
    obey; what is ignored, as under nohup, stays ignored."""
    signal.set_wakeup_fd(-1)
    for number in NOTICED:
        if signal.getsignal(number) is not signal.SIG_IGN:
            signal.signal(number, signal.SIG_DFL)
    signal.signal(signal.SIGINT, signal.SIG_IGN)
    Thread(target=_watch, args=(first,), daemon=True).start()
    _WORK[:] = [marking]


def _watch(first: int) -> None:
    """Ends a worker when the first process is gone, and nobody takes its results."""
    while os.getppid() == first:
        time.sleep(WATCH)
    os._exit(1)


def _mark(candidate: str) -> Result:
    """Marks a candidate in a worker."""
    return _WORK[0].mark(candidate)
