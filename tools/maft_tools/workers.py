"""Judges jobs on this machine's processors, or on the workers of a Dask scheduler. Rows come in the order of the jobs.

A worker that dies is replaced and said, and what it had is run again; what ends three workers ends the campaign.
"""
from __future__ import annotations

import itertools
import logging
import math
import multiprocessing
import os
import pathlib
import signal
import sys
import tempfile
import time
import zipfile
from collections import Counter
from collections.abc import Callable, Iterator, Sequence
from multiprocessing.connection import Connection, wait
from typing import Any

from .campaign import Job, Jobs, judge
from .plan import WordsError
from .rows import Judged

DEATHS = 3
WATCH_SECONDS = 2.0
Say = Callable[[str], object]


def batch_size(count: int, workers: int, most: int) -> int:
    """How many jobs a batch has, so that each worker gets several, if there are as many."""
    return max(1, min(most, math.ceil(count / (4 * max(1, workers)))))


def _serve(pipe: Connection, program: str) -> None:
    """A worker's life: batches come, rows or words go, until there are no more."""
    signal.signal(signal.SIGINT, signal.SIG_DFL)
    while True:
        try:
            jobs = pipe.recv()
        except (EOFError, OSError):
            return
        try:
            pipe.send(judge(program, jobs))
        except WordsError as error:
            pipe.send(str(error))


class _Worker:
    """A process of this machine, and the place of the batch that it has."""

    def __init__(self, program: str) -> None:
        self.pipe, theirs = multiprocessing.Pipe()
        self.process = multiprocessing.Process(target=_serve, args=(theirs, program), daemon=True)
        self.process.start()
        theirs.close()
        self.at: int | None = None

    def end(self) -> None:
        """Ends the process, whatever it does."""
        self.process.kill()
        self.process.join()
        self.pipe.close()


class _Pool:
    """Batches of jobs on processes of this machine."""

    def __init__(self, program: str, jobs: Jobs, start: int, processes: int, say: Say) -> None:
        self.program, self.jobs, self.say = program, jobs, say
        self.size = batch_size(len(jobs) - start, processes, jobs.batch)
        self.waiting = iter(range(start, len(jobs), self.size))
        self.again: list[int] = []  # places of batches that are to be run before those that wait
        self.deaths: Counter[int] = Counter()
        self.ready: dict[int, list[Judged]] = {}
        self.workers = [_Worker(program) for _ in range(max(1,
            min(processes, math.ceil((len(jobs) - start) / self.size))))]

    def give(self, worker: _Worker, limit: int) -> None:
        """Gives a worker the next batch, unless it would be too far ahead of what is handed on."""
        if not self.again:
            self.again += itertools.islice(self.waiting, 1)
        worker.at = min(self.again, default=limit)
        if worker.at >= limit:
            worker.at = None
            return
        self.again.remove(worker.at)
        try:
            worker.pipe.send([self.jobs[it] for it in range(worker.at, min(worker.at + self.size, len(self.jobs)))])
        except OSError:
            # it is dead, which is seen where its answer is read
            pass

    def take(self, worker: _Worker) -> None:
        """Takes a worker's answer; one that died is replaced."""
        assert worker.at is not None
        try:
            answer = worker.pipe.recv()
        except (EOFError, OSError):
            self._replace(worker)
            return
        if isinstance(answer, str):
            raise WordsError(answer)
        self.ready[worker.at] = answer
        worker.at = None

    def _replace(self, worker: _Worker) -> None:
        at = worker.at or 0
        worker.end()
        names = f"{self.jobs[at].name} to {self.jobs[min(at + self.size, len(self.jobs)) - 1].name}"
        cause = _cause(worker.process.exitcode)
        self.deaths[at] += 1
        if self.deaths[at] >= DEATHS:
            raise WordsError(f"{self.deaths[at]} processes died over the scenarios {names}; the last by {cause}")
        self.say(f"a process died by {cause}; the scenarios {names} are run again")
        self.again.append(at)
        self.workers[self.workers.index(worker)] = _Worker(self.program)

    def rows(self, start: int) -> Iterator[Judged]:
        """All rows from a place on."""
        at = start
        while at < len(self.jobs):
            for worker in self.workers:
                if worker.at is None:
                    self.give(worker, at + 8 * self.size * len(self.workers))
            busy = {it.pipe: it for it in self.workers if it.at is not None}
            for pipe in wait(list(busy)):
                self.take(busy[pipe])  # type: ignore[index]
            while at in self.ready:
                yield from self.ready.pop(at)
                at += self.size


def _cause(code: int | None) -> str:
    return f"signal {-code}" if code is not None and code < 0 else f"status {code}"


def here(program: str, jobs: Jobs, processes: int, start: int = 0,
        say: Say = lambda _: None) -> Iterator[Judged]:
    """Judges the jobs from a place on, on this machine. Raises WordsError where scenarios end one process after the
    other."""
    if start >= len(jobs):
        return
    pool = _Pool(program, jobs, start, processes, say)
    try:
        yield from pool.rows(start)
    finally:
        for worker in pool.workers:
            worker.end()


def package_file(folder: str) -> str:
    """This package as a file that a worker of another machine can import."""
    path = os.path.join(folder, "maft_tools.zip")
    with zipfile.ZipFile(path, "w") as archive:
        for module in sorted(pathlib.Path(__file__).parent.glob("*.py")):
            archive.write(module, f"maft_tools/{module.name}")
    return path


def with_system_python(why: str) -> None:
    """Starts the command again by the system's own Python, which sees Debian's packages; raises WordsError where this
    is it."""
    system = "/usr/bin/python3"
    is_other = os.path.exists(system) and os.path.realpath(sys.executable) != os.path.realpath(system)
    if is_other and not os.environ.get("MAFT_TOOLS_SYSTEM"):
        os.environ["MAFT_TOOLS_SYSTEM"] = "1"
        os.execv(system, [system, *sys.argv])
    raise WordsError(why)


def _timeouts() -> tuple[type[BaseException], ...]:
    """What Dask raises where something isn't there in time; its modules are loaded late."""
    import asyncio
    import concurrent.futures

    return TimeoutError, asyncio.TimeoutError, concurrent.futures.TimeoutError


def _losses() -> tuple[type[BaseException], ...]:
    """What Dask raises where a scheduler is gone."""
    import asyncio
    import concurrent.futures

    return asyncio.CancelledError, concurrent.futures.CancelledError, OSError, RuntimeError


def dask() -> Any:
    """The package distributed; what it would log, tracebacks too, isn't shown: what goes wrong is said in sentences."""
    try:
        import distributed  # type: ignore
    except ImportError:
        with_system_python("scheduler needs Dask: Debian's package python3-distributed, or pip's distributed")
    logging.disable()
    return distributed


class _Watch:
    """Sees which workers of a scheduler are gone, and says so."""

    def __init__(self, client: Any, say: Say) -> None:
        self.client, self.say = client, say
        self.known = self._now()
        self.at = time.monotonic()

    def _now(self) -> set[str]:
        return set(self.client.scheduler_info().get("workers", {}))

    def look(self) -> None:
        """Compares with the last look, if that is a while ago."""
        if time.monotonic() < self.at + WATCH_SECONDS:
            return
        now = self._now()
        for address in sorted(self.known - now):
            self.say(f"the worker {address} is gone; what it had is run again")
        if self.known and not now:
            self.say("no worker is left; waiting for one")
        self.known, self.at = now, time.monotonic()

    def result(self, future: Any) -> list[Judged]:
        """What a batch came to; workers are watched meanwhile."""
        while True:
            self.look()
            try:
                return future.result(timeout=WATCH_SECONDS)  # type: ignore[no-any-return]
            except _timeouts():
                if self.client.status != "running":
                    raise WordsError("the scheduler is gone") from None


def on_dask(program: str, jobs: Jobs, scheduler: str, start: int = 0,
        say: Say = lambda _: None) -> Iterator[Judged]:
    """Judges the jobs from a place on, on the workers of a scheduler, where the program has the same path.

    Raises WordsError where there is no scheduler, it is gone, or scenarios end one worker after the other.
    """
    distributed = dask()
    try:
        client = distributed.Client(scheduler)
    except (OSError, ValueError, *_timeouts()) as error:
        raise WordsError(f"there is no scheduler at {scheduler}: {error}") from None
    try:
        with tempfile.TemporaryDirectory() as folder:
            client.upload_file(package_file(folder))
            watch = _Watch(client, say)
            size = batch_size(len(jobs) - start, len(watch.known), jobs.batch)
            batches = [[jobs[it] for it in range(at, min(at + size, len(jobs)))]
                for at in range(start, len(jobs), size)]
            for future in client.map(judge, [program] * len(batches), batches, pure=False):
                yield from watch.result(future)
            watch.at = 0.0
            watch.look()
    except distributed.KilledWorker as error:
        raise WordsError(f"scenarios ended one worker after the other: {error}") from None
    except _losses() as error:
        raise WordsError(f"the scheduler is gone: {type(error).__name__} {error}") from None
    finally:
        client.close(timeout=2)
