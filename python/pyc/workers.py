"""Does jobs in several processes at once, and leaves none of them behind."""
from __future__ import annotations

import contextlib
import os
import signal
import sys
from typing import TYPE_CHECKING, Any, Callable, Dict, Iterator, List, Sequence, Tuple

if TYPE_CHECKING:
    from multiprocessing.connection import Connection
    from multiprocessing.process import BaseProcess


class Lost:
    """What a job gives whose worker was ended from outside."""

    def __init__(self, exit_code: int) -> None:
        self.exit_code = exit_code
        """The status of the worker, or the number of the signal that ended it below 0."""


def processors() -> int:
    """How many processors this process may use."""
    if hasattr(os, "sched_getaffinity"):
        return len(os.sched_getaffinity(0))
    return os.cpu_count() or 1


def results(work: Callable[[Any], Any], jobs: Sequence[Any], count: int) -> Iterator[Tuple[int, Any]]:
    """The place of each job among the jobs, and what `work` gave of it, as they end.

    One worker is this process itself. Where this is left early, as by an interrupt, the workers are ended, and what
    they have begun is left by a SystemExit.
    """
    if min(count, len(jobs)) < 2:
        for at, job in enumerate(jobs):
            yield at, work(job)
        return
    pool = Pool(work, jobs)
    try:
        for _ in range(min(count, len(jobs))):
            pool.start()
        while pool.busy:
            yield from pool.ended()
    finally:
        pool.end()


class Pool:
    """The workers, and the jobs that are left for them."""

    def __init__(self, work: Callable[[Any], Any], jobs: Sequence[Any]) -> None:
        self.work = work
        self.left = iter(enumerate(jobs))
        self.busy: Dict[Connection, Tuple[BaseProcess, int]] = {}
        """By the pipe to a worker, the worker and the place of its job."""

    def start(self) -> None:
        """Starts a worker, and gives it a job where one is left."""
        # Here alone, since it takes long to import.
        import multiprocessing

        mine, theirs = multiprocessing.Pipe()
        others: List[Connection] = [*self.busy, mine]
        process = multiprocessing.Process(target=serve, args=(self.work, theirs, others), daemon=True)
        start(process)
        theirs.close()
        self.hand_out(mine, process)

    def ended(self) -> Iterator[Tuple[int, Any]]:
        """The jobs that have ended, at least one. Their workers get the next ones."""
        from multiprocessing.connection import wait

        for pipe in wait(list(self.busy)):
            process, at = self.busy[pipe]
            try:
                result = pipe.recv()
            except (EOFError, OSError):
                del self.busy[pipe]
                process.join()
                self.start()
                yield at, Lost(process.exitcode or 0)
                continue
            self.hand_out(pipe, process)
            yield at, result

    def hand_out(self, pipe: Connection, process: BaseProcess) -> None:
        """Gives a worker its next job, or its end where none is left."""
        for at, job in self.left:
            self.busy[pipe] = (process, at)
            # Where it was ended meanwhile, that is seen where its result is read.
            with contextlib.suppress(OSError):
                pipe.send(job)
            return
        self.busy.pop(pipe, None)
        pipe.close()
        process.join()

    def end(self) -> None:
        """Ends the workers that are still there."""
        for process, _ in self.busy.values():
            terminate(process)
        for pipe, (process, _) in self.busy.items():
            pipe.close()
            process.join()


def start(process: BaseProcess) -> None:
    """Starts a worker, which no interrupt reaches before it looks away from them."""
    if not hasattr(signal, "pthread_sigmask"):
        process.start()
        return
    before = signal.pthread_sigmask(signal.SIG_BLOCK, {signal.SIGINT})
    try:
        process.start()
        assert process.pid
        lead(process.pid)
    finally:
        signal.pthread_sigmask(signal.SIG_SETMASK, before)


def lead(number: int) -> None:
    """Makes a process the head of a group, in which what it starts is too; 0 is this process."""
    if hasattr(os, "setpgid"):
        with contextlib.suppress(OSError):
            os.setpgid(number, number)


def terminate(process: BaseProcess) -> None:
    """Ends a worker, and what it has started."""
    try:
        assert process.pid
        os.killpg(process.pid, signal.SIGTERM)
    except (AttributeError, OSError):
        process.terminate()


def serve(work: Callable[[Any], Any], jobs: Connection, others: List[Connection]) -> None:
    """What a worker does: one job after the other, until there is none or the process that gave them is gone."""
    lead(0)
    signal.signal(signal.SIGINT, signal.SIG_IGN)
    signal.signal(signal.SIGTERM, leave)
    if hasattr(signal, "pthread_sigmask"):
        signal.pthread_sigmask(signal.SIG_UNBLOCK, {signal.SIGINT})
    for pipe in others:
        # The end of a pipe is seen once nobody else holds it.
        pipe.close()
    while True:
        try:
            job = jobs.recv()
        except (EOFError, OSError):
            return
        try:
            jobs.send(work(job))
        except OSError:
            return


def leave(number: int, frame: Any) -> None:
    """Leaves what is begun, so that what it opened is closed and what it started is ended."""
    sys.exit(128 + number)
