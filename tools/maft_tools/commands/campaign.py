"""Runs many scenarios side by side, and says how many kept the claim, what became of the nodes that fell ill, and how
sure that is.

    tools/campaign --count 1000 --nodes 5 --m 1 --faulty 2 --seed 7 --csv rows.csv
    tools/campaign --nodes 4..10 --m 0..3 --count 40 --report sweep.html         each number of nodes with each m
    tools/campaign --set policy.exclude=10,20 --pair --report policies.html      the same faults under two policies
    tools/campaign --count 1000 --base scenarios/state_channel.json --classes benign --rate 0.1
    tools/campaign scenarios                           the scenarios of a folder
    tools/campaign --seed 7 --show 12                  prints one drawn scenario, to look at it

An option marked with * takes a list or a span as well, as in 10,20,40 or 4..10 or 0..10/2; then there is a case for
each choice. The rows of runs go to --csv FILE as they come, those of illnesses to FILE.illnesses.csv, what they come
to on standard output. The same options draw the same scenarios everywhere. With --scheduler the workers of a Dask
scheduler run them (Debian's python3-distributed); the program has the same path there. Ctrl-C ends with the rows so
far, and --resume goes on behind them.
"""
from __future__ import annotations

import argparse
import hashlib
import json
import os
import pathlib
import shlex
import sys
import time
import urllib.parse
from collections.abc import Callable
from typing import Any, NoReturn

from .. import __version__, campaign, charts, drawing, figures, plots, program, report, scenario, sweep, tables, workers
from ..plan import Json, WordsError
from ..rows import Judged, Run
from . import say

Given = argparse.Namespace
SWEPT = ("nodes", "m", "periods", "faulty", "rate", "length", "restart", "seed")


class UsageError(Exception):
    """What is wrong with the options, in words."""


class Parser(argparse.ArgumentParser):
    """Says what is wrong in one sentence."""

    def error(self, message: str) -> NoReturn:
        """Raises UsageError."""
        raise UsageError(message)


def options() -> Given:
    """The words of the command; raises UsageError."""
    drawn = drawing.Options()
    parser = Parser(prog="campaign", description=__doc__, formatter_class=argparse.RawDescriptionHelpFormatter,
        allow_abbrev=False)
    parser.add_argument("folder", nargs="?", help="a folder of scenarios, in place of drawn ones")
    parser.add_argument("--count", help="how many are drawn of each case (100)")
    parser.add_argument("--seed", help=f"* ({drawn.seed})")
    parser.add_argument("--nodes", help=f"* ({drawn.nodes}; above 8 it is a version 2 scenario)")
    parser.add_argument("--m", help=f"* relay rounds ({drawn.m})")
    parser.add_argument("--periods", help=f"* ({drawn.periods})")
    parser.add_argument("--base", action="append",
        help="a scenario, whose cluster and faults the drawn faults are added to; several are cases")
    parser.add_argument("--set", action="append", default=[], metavar="KEY=VALUE",
        help="* a key of the scenario, as in policy.exclude=10,20")
    parser.add_argument("--faulty", help=f"* how many nodes fall ill ({drawn.faulty})")
    parser.add_argument("--classes",
        help=f"which faults they have ({','.join(drawn.classes)}); sets parted by / are cases")
    parser.add_argument("--rate", help=f"* how likely a well one falls ill in a period ({drawn.rate})")
    parser.add_argument("--length", help=f"* for how many periods at most ({drawn.length})")
    parser.add_argument("--restart", help=f"* how many periods later it restarts; 0 for never ({drawn.restart})")
    parser.add_argument(
        "--clock", nargs="?", const="", metavar="KEY=VALUE,..",
        help="the nodes have clocks, and who lies lies about its clock too; * epsilon=1,drift=2,start=12,lie=2000")
    parser.add_argument("--copies", action="store_true",
        help="a task runs in copies, whose results are voted and lied about too")
    parser.add_argument("--pair", action="store_true", help="compare the cases run by run, under the same faults")
    parser.add_argument("--show", metavar="INDEX", help="print this drawn scenario and run nothing")
    parser.add_argument("--csv", metavar="FILE", help="where the rows go; - for those of runs on standard output")
    parser.add_argument("--resume", action="store_true", help="go on behind the rows that the files of --csv have")
    parser.add_argument("--report", metavar="FILE", help="write an HTML page with tables and pictures")
    parser.add_argument("--save", metavar="FOLDER", help="write the drawn scenarios there")
    parser.add_argument("--plots", metavar="FOLDER", help="write the pictures there as PNG and PDF, by matplotlib")
    parser.add_argument("--processes", help="how many at once on this machine (all processors)")
    parser.add_argument("--scheduler", metavar="ADDRESS", help="the address of a Dask scheduler")
    parser.add_argument("--quiet", action="store_true", help="draw no bar")
    parser.add_argument("--version", action="version", version=f"%(prog)s {__version__}")
    parser.add_argument("--judge", help="the program judge; by default the one that ./maft which judge names")
    return parser.parse_args()


def whole(name: str, text: str | None, span: tuple[int, int], default: Any) -> Any:
    """The whole number that an option is given."""
    if text is None:
        return default
    value = int(text) if text.removeprefix("-").isdecimal() and len(text) < 30 else span[0] - 1
    if not span[0] <= value <= span[1]:
        raise UsageError(f"{name} is {text}, and must be a whole number from {span[0]} to {span[1]}")
    return value


def base_of(path: str) -> Json:
    """A base, which must have numbers where the drawing reads them; what else it must be the program says."""
    data = program.load(path)
    for key in ("nodes", "m", "periods"):
        if not isinstance(data.get(key), int) or isinstance(data[key], bool):
            raise WordsError(f"base {path} has no whole number {key}")
    return data


def axes_of(given: Given) -> list[sweep.Axis]:
    """What is given of the cluster and the faults, as axes."""
    axes = []
    if given.base:
        for name in ("nodes", "m", "periods", "copies"):
            if getattr(given, name):
                raise UsageError(f"base gives the cluster, so {name} can't be given; --set sets a key of it")
        names = [pathlib.Path(it).stem for it in given.base]
        words = tuple(given.base) if len(set(names)) < len(names) else tuple(names)
        if len(set(words)) < len(words):
            raise UsageError("base is given the same file twice")
        axes.append(sweep.Axis("base", tuple(base_of(it) for it in given.base), words))
    axes += [sweep.axis(name, getattr(given, name)) for name in SWEPT if getattr(given, name) is not None]
    if given.classes is not None:
        axes.append(sweep.classes_axis(given.classes))
    if given.copies:
        axes.append(sweep.Axis("copies", (True,), ("yes",)))
    clock = sweep.clock_axes(given.clock) if given.clock is not None else []
    if given.base and given.clock is not None and [it.name for it in clock] != ["clock.lie"]:
        raise UsageError("base gives the cluster, so of clock lie alone can be given; --set sets clock.drift and so on")
    return axes + clock + [sweep.set_axis(it) for it in given.set]


def check_together(given: Given) -> None:
    """Raises UsageError of options that don't go together."""
    drawn = [*SWEPT, "count", "base", "set", "classes", "clock", "copies", "pair", "show", "save"]
    found = [it for it in drawn if getattr(given, it) not in (None, False, [])]
    if given.folder is not None and found:
        raise UsageError(f"the scenarios of a folder are run as they are, so {found[0]} can't be given")
    if given.folder is not None and not os.path.isdir(given.folder):
        raise UsageError(f"{given.folder} is no folder")
    if given.resume and (not given.csv or given.csv == "-"):
        raise UsageError("resume needs csv with a file that has the rows so far")


class Plan:
    """What is to be run: the cases, the jobs, and what a file of rows has in its first line."""

    def __init__(self, given: Given) -> None:
        check_together(given)
        self.count = whole("count", given.count, (1, 10 ** 7), 100)
        self.processes = whole("processes", given.processes, (1, 1024), os.cpu_count() or 1)
        self.show = whole("show", given.show, (0, 2 ** 32 - 1), None)
        self.axes = axes_of(given)
        self.cases = sweep.cases(self.axes, given.clock is not None)
        self.extra = [it.name for it in self.axes if len(it.values) > 1 and it.name not in tables.columns(Run)]
        if given.pair:
            sweep.check_pair(self.axes, self.cases)
        if self.show is not None and len(self.cases) > 1:
            raise UsageError("show prints a scenario of one case, so no option can have a list")

    def options(self, given: Given) -> str:
        """What decides the rows, as JSON."""
        said = {it.name: ",".join(it.words) for it in self.axes}
        if given.base:
            said["sum"] = hashlib.sha256(json.dumps([it.values for it in self.axes
                if it.name == "base"]).encode()).hexdigest()[:16]
        if given.clock is not None:
            said["clock"] = "yes"
        said.update({"folder": given.folder} if given.folder is not None else {"count": str(self.count)})
        return json.dumps(said, sort_keys=True)


def refusal_by(judge: str) -> Callable[[Json], str | None]:
    """A function that says why the program refuses a scenario, if it does."""
    def refusal(data: Json) -> str | None:
        # a lie of a clock needs a fault, which a cluster alone hasn't
        alone = {**data, "clock": {**data["clock"], "lies": []}} if isinstance(data.get("clock"), dict) else data
        run = campaign.judge(judge, [campaign.Job("", source=json.dumps(alone).encode())])[0].run
        return run.words or None
    return refusal


class Bar:
    """Progress on standard error, where it is a terminal."""

    def __init__(self, done: int, count: int, is_shown: bool) -> None:
        self.first, self.done, self.count = done, done, count
        self.is_shown = is_shown
        self.start = self.drawn = time.monotonic()

    def step(self) -> None:
        """One more is done."""
        self.done += 1
        now = time.monotonic()
        if self.is_shown and (now > self.drawn + 0.2 or self.done == self.count):
            self.drawn, filled = now, 40 * self.done // self.count
            left = (now - self.start) / (self.done - self.first) * (self.count - self.done)
            bar = f"[{'#' * filled}{'.' * (40 - filled)}] {self.done} of {self.count}, {left:.0f} s left"
            sys.stderr.write(f"\r{bar}\033[K" + ("\n" if self.done == self.count else ""))
            sys.stderr.flush()

    def say(self, words: str) -> None:
        """A sentence on a line of its own."""
        if self.is_shown and self.done > self.first:
            sys.stderr.write("\n")
        say("campaign", words)


class Campaign:
    """A campaign on its way: where its rows go, and what they come to so far."""

    def __init__(self, given: Given, plan: Plan, jobs: campaign.Jobs, cases: list[sweep.Case], judge: str) -> None:
        self.given, self.plan, self.jobs, self.cases, self.judge = given, plan, jobs, cases, judge
        self.values = {it.words: dict(it.values) for it in cases}
        self.tallies = {it.words: figures.Tally(it, given.pair) for it in cases}
        self.tables = tables.Tables(given.csv, plan.options(given), plan.extra) if given.csv else None
        self.done = 0

    def open(self) -> None:
        """Tries all that is to be written; counts the rows that are there already."""
        if self.given.plots:
            plots.matplotlib()
        if self.given.scheduler:
            workers.dask()
        for folder in (self.given.save, self.given.plots):
            if folder:
                os.makedirs(folder, exist_ok=True)
        if self.given.report:
            with open(self.given.report, "a"):
                pass
        if self.tables and self.given.resume:
            for judged in self.tables.resume():
                job = self.jobs[self.done]
                if (tables.shown(job.name), tables.shown(job.case)) != (judged.run.name, judged.run.case):
                    raise WordsError(f"{self.given.csv} has a row of {judged.run.name} where {job.name} would be")
                self.count(judged)
        elif self.tables:
            self.tables.start()

    def count(self, judged: Judged) -> None:
        """Counts the rows of a scenario."""
        self.tallies[judged.run.case].add(judged)
        self.done += 1

    def saved(self, case: str, name: str) -> str | None:
        """The file that a drawn scenario is saved in, or that of a folder; None where there is none."""
        if self.given.folder is not None:
            path = os.path.join(self.given.folder, f"{name}.json")
            return path if os.path.exists(path) else None
        if not self.given.save:
            return None
        at = [it.words for it in self.cases].index(case)
        index = name.partition("/")[2]
        return os.path.join(self.given.save, f"{at}-{index}.json" if len(self.cases) > 1 else f"{index}.json")

    def add(self, judged: Judged) -> None:
        """Writes and counts the rows of a scenario, and writes the scenario."""
        if self.given.save:
            job = self.jobs[self.done]
            text = scenario.Scenario(campaign.scenario_of(self.judge, job.cluster, job.index)).dumps()
            pathlib.Path(self.saved(job.case, job.name)).write_text(text)
        if self.tables:
            self.tables.write(judged, self.values[judged.run.case])
        self.count(judged)

    def run(self) -> int:
        """Runs what isn't done yet. The status: 0, or 130 where it was stopped, or 1 where it can't go on; then it
        says so."""
        bar = Bar(self.done, len(self.jobs), sys.stderr.isatty() and not self.given.quiet)
        words = (self.judge, self.jobs, self.given.scheduler, self.done, bar.say) if self.given.scheduler else (
            self.judge, self.jobs, self.plan.processes, self.done, bar.say)
        judged = (workers.on_dask if self.given.scheduler else workers.here)(*words)
        try:
            for it in judged:
                self.add(it)
                bar.step()
            return 0
        except KeyboardInterrupt:
            bar.say(f"stopped after {self.done} of {len(self.jobs)} scenarios{self.kept()}")
            return 130
        except WordsError as error:
            bar.say(f"ended after {self.done} of {len(self.jobs)} scenarios{self.kept()}: {error}")
            return 1
        finally:
            judged.close()
            if self.tables:
                self.tables.close()

    def kept(self) -> str:
        """Where the rows so far are."""
        if not self.given.csv:
            return ""
        if self.tables.is_alone:
            return "; their rows are written"
        return f"; their rows are written to {self.given.csv}, and --resume goes on behind them"

    def tell(self) -> None:
        """Says what the rows come to, and writes the page and the pictures."""
        tallies = [it for it in self.tallies.values() if it.runs]
        if not tallies:
            return
        out = sys.stderr if self.given.csv == "-" else sys.stdout
        out.write(figures.page(tallies, self.given.pair))
        if self.given.report:
            folder = os.path.dirname(os.path.abspath(self.given.report))

            def link(case: str, name: str) -> str | None:
                path = self.saved("" if case == "all" else case, name)
                return None if path is None else urllib.parse.quote(os.path.relpath(path, folder))

            command = shlex.join(["tools/campaign", *sys.argv[1:]])
            pathlib.Path(self.given.report).write_text(report.page(tallies, command, self.given.pair, link),
                encoding="utf-8")
        if self.given.plots:
            plots.write(charts.charts(tallies), self.given.plots)


def main() -> int:
    """The command; its status is 1 where none could be run or it can't go on, 2 for its options, 130 where it was
    stopped."""
    try:
        given = options()
        plan = Plan(given)
        if given.folder is not None:
            cases, jobs = [sweep.Case("", drawing.Cluster(drawing.Options()))], campaign.Folder(given.folder)
        judge = os.path.abspath(program.find_judge(given.judge))
        if given.folder is None:
            cases, left_out = sweep.allowed(plan.cases, refusal_by(judge))
            jobs = campaign.Drawn(cases, plan.count)
            for words in left_out:
                say("campaign", words)
        if plan.show is not None:
            shown = campaign.scenario_of(judge, cases[0].cluster, plan.show)
            sys.stdout.write(scenario.Scenario(shown).dumps())
            return 0
        made = Campaign(given, plan, jobs, cases, judge)
        made.open()
    except (UsageError, WordsError, OSError) as error:
        say("campaign", str(error))
        return 2
    status = made.run()
    made.tell()
    if status == 0 and not any(it.good for it in made.tallies.values()):
        say("campaign", "no scenario could be run to its end")
        return 1
    return status
