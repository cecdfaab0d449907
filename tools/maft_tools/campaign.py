"""The scenarios of a campaign, and how each is run and judged."""
from __future__ import annotations

import dataclasses
import itertools
import json
import pathlib
import stat
from collections.abc import Sequence
from typing import Union

from . import judging, program
from .drawing import Cluster, Options
from .plan import INPUT_LIMIT, Json, WordsError
from .rows import Judged, Run
from .sweep import Case

# how many scenarios a process of the program judges at most: those that are handed to it, and those that it draws
HANDED, DRAWN = 32, 500


@dataclasses.dataclass(frozen=True)
class Job:
    """One scenario to be judged: a file's bytes, or what is drawn onto a cluster by an index. `words` tell why there
    is none to run."""

    name: str
    case: str = ""
    source: bytes = b""
    cluster: Cluster | None = None
    index: int = 0
    words: str = ""

    @property
    def options(self) -> Options | None:
        """The options by which the program draws the scenario itself; None where it is handed to it."""
        return self.cluster.options if self.cluster is not None and self.cluster.is_plain else None

    def scenario(self) -> bytes:
        """The scenario, where it is handed to the program."""
        return self.source if self.cluster is None else json.dumps(self.cluster.drawn(self.index)).encode()


class Drawn(Sequence[Job]):
    """As many drawn scenarios of each case, by case, then index. They are drawn where they are run."""

    def __init__(self, cases: Sequence[Case], count: int) -> None:
        self.cases = cases
        self.count = count
        self.batch = DRAWN if all(it.cluster.is_plain for it in cases) else HANDED

    def __len__(self) -> int:
        return len(self.cases) * self.count

    def __getitem__(self, at):  # type: ignore[no-untyped-def, override]
        """The job at a place, from 0."""
        if not 0 <= at < len(self):
            raise IndexError(at)
        case, index = self.cases[at // self.count], at % self.count
        return Job(f"{case.cluster.options.seed}/{index}", case.words, cluster=case.cluster, index=index)


class Folder(Sequence[Job]):
    """The scenarios of a folder, by name. A file is read when its job is asked for."""

    batch = HANDED

    def __init__(self, folder: str) -> None:
        self.paths = sorted(pathlib.Path(folder).glob("*.json"))
        if not self.paths:
            raise WordsError(f"{folder} has no .json files")

    def __len__(self) -> int:
        return len(self.paths)

    def __getitem__(self, at):  # type: ignore[no-untyped-def, override]
        """The job at a place, from 0; no more of a file is read than the program would read."""
        path = self.paths[at]
        try:
            if not stat.S_ISREG(path.stat().st_mode):
                return Job(path.stem, words="it isn't a file")
            with open(path, "rb") as file:
                return Job(path.stem, source=file.read(INPUT_LIMIT + 1))
        except OSError as error:
            return Job(path.stem, words=f"it can't be read: {error.strerror}")


Jobs = Union[Drawn, Folder]


def scenario_of(judge: str, cluster: Cluster, index: int) -> Json:
    """The scenario that is drawn onto a cluster by an index."""
    return judging.shown(judge, cluster.options, index) if cluster.is_plain else cluster.drawn(index)


def _finish(job: Job, found: Judged, source: bytes | None) -> Judged:
    """The rows of a job, with its names, and with words where it wasn't run."""
    run = found.run
    run.name, run.case = job.name, job.case
    for illness in found.illnesses:
        illness.name, illness.case = job.name, job.case
    if run.status and source is not None:
        run.words = program.why_not(source, ["replay"], run.status, f"refused {run.rule} {run.place}")
    return found


def _ask(judge: str, jobs: Sequence[Job]) -> list[Judged]:
    """The rows of the first of these jobs, at least of one: those that one process of the program judges."""
    first = jobs[0]
    if first.words:
        return [Judged(Run(first.name, first.case, 5, words=first.words))]
    alike = list(itertools.takewhile(lambda it: not it.words and it.options == first.options, jobs))
    if first.options is None:
        sources = [it.scenario() for it in alike]
        found, status = judging.judge_lines(judge, sources)
    else:
        alike = [it for at, it in enumerate(alike) if it.index == first.index + at]
        sources = [None] * len(alike)
        found, status = judging.judge_drawn(judge, first.options, first.index, len(alike))
    rows = [_finish(*it) for it in zip(alike, found, sources)]
    if len(rows) < len(alike):
        left = alike[len(rows)]
        rows.append(Judged(Run(left.name, left.case, status, words=judging.ended(status))))
    return rows


def judge(judge: str, jobs: Sequence[Job]) -> list[Judged]:
    """The rows of some jobs. One that isn't run, or not to its end, is a row with a status other than 0 and words.

    Raises WordsError where the program can't be run, or prints no rows.
    """
    rows: list[Judged] = []
    while len(rows) < len(jobs):
        rows += _ask(judge, jobs[len(rows):])
    return rows
