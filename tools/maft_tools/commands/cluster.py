"""Runs a scenario on a cluster of processes, a controller for each node, with the network between them, and prints what
each node believes.

    tools/cluster scenarios/blamed_and_back.json
    tools/cluster scenarios/silent.json --kill 3@1.2 --back 3 --periods 12 --as was.json --logs logs
    tools/cluster S.json 'node 2 is late to node 0 in periods 1 to 3'
    tools/cluster S.json --network mine.py             a network of one's own: docs/LIVE.md
    tools/cluster S.json --agents here:7001,there:7001 the nodes by turns on two machines (tools/cluster-agent)

--kill NODE@PERIOD.SLOT kills the node's process (SIGKILL) before its frame of that slot is sent; the --back PERIOD that
follows it starts it anew as one that restarted. Whatever befell frames is written by --as as the fault lines of a
scenario: ./maft check and tools/summary say of it what was promised of this run. --logs writes each node's log, which
./maft node I replays. With --live it reads lines before each period:

"""
from __future__ import annotations

import argparse
import contextlib
import dataclasses
import importlib.util
import json
import os
import pathlib
import sys
from collections.abc import Iterator
from typing import Any

from .. import agent, live, program, text, trace, wires
from ..cluster import Cluster, Network, check_accepted
from ..history import MOST_PERIODS, History, lengthened
from ..json_text import printable
from ..plan import Json, WordsError
from ..scenario import Scenario, due_by
from . import parser, say

NAME = "cluster"
MOST_RUN = 2 ** 32


class KillAction(argparse.Action):
    """Gathers kills; a --back belongs to the kill before it."""

    def __call__(self, options: argparse.ArgumentParser, given: argparse.Namespace, value: Any,
                 option: str | None = None) -> None:
        kills = list(given.kills)
        try:
            if self.option_strings == ["--kill"]:
                kills.append(live.kill_of(value))
            elif not kills or kills[-1].back is not None:
                raise WordsError("--back belongs to the --kill before it")
            else:
                kills[-1] = dataclasses.replace(kills[-1], back=whole("--back", value))
        except WordsError as error:
            options.error(str(error))
        given.kills = kills


def whole(name: str, word: str) -> int:
    """A number of at most nine digits; raises WordsError for another word."""
    if not word.isascii() or not word.isdecimal() or len(word) > 9:
        raise WordsError(f"{name} is {printable(word, 40)}, and must be a number")
    return int(word)


def options() -> argparse.Namespace:
    """The words of the command."""
    forms = "\n".join(f"    {it}" for it in live.FORMS.splitlines())
    made = parser(NAME, (__doc__ or "") + forms)
    made.add_argument("scenario")
    made.add_argument("statements", nargs="*", metavar="statement",
                      help="faults in words, as tools/scenario takes them")
    made.add_argument("--periods", help="how many periods are run, in place of the scenario's own")
    made.add_argument("--kill", dest="kills", action=KillAction, default=[], metavar="NODE@PERIOD.SLOT")
    made.add_argument("--back", dest="kills", action=KillAction, metavar="PERIOD")
    made.add_argument("--live", action="store_true", help="read what is to be done before each period")
    made.add_argument("--network", metavar="FILE.py", help="a file with a function network(frame)")
    made.add_argument("--as", dest="was", metavar="FILE", help="write the scenario that the run was")
    made.add_argument("--logs", metavar="FOLDER", help="write each node's log, as nodeI.json")
    made.add_argument("--json", action="store_true", help="print an object for each period, a line each")
    made.add_argument("--quiet", action="store_true", help="print the end line alone")
    made.add_argument("--agents", metavar="HOST:PORT,..", help="start the controllers by these agents, by turns")
    made.add_argument("--token-file", metavar="FILE",
                      help=f"the file with the agents' token; by default the variable {agent.VARIABLE}")
    made.add_argument("--controller", help="the program controller; by default the one that ./maft runs")
    made.add_argument("--program", help="the program maft, which is asked where a channel isn't due in every period")
    return made.parse_intermixed_args()


def starter(given: argparse.Namespace) -> wires.Start:
    """How controllers are started."""
    if given.agents:
        addresses = given.agents.split(",")
        for it in addresses:
            agent.address_of(it)
        return wires.by_agents(addresses, agent.token_of(given.token_file))
    return wires.local(program.find_controller(given.controller))


def network_of(path: str | None) -> Network | None:
    """The function `network` of a file of Python; what it raises is said with its place."""
    if path is None:
        return None
    spec = importlib.util.spec_from_file_location("network_of_the_user", path)
    if spec is None or spec.loader is None or not os.path.isfile(path):
        raise WordsError(f"{printable(path)} is no file of Python")
    module = importlib.util.module_from_spec(spec)
    with in_words(path):
        spec.loader.exec_module(module)
    network = getattr(module, "network", None)
    if not callable(network):
        raise WordsError(f"{printable(path)} has no function network(frame)")

    def guarded(frame: Any) -> Any:
        with in_words(path):
            return network(frame)

    return guarded


@contextlib.contextmanager
def in_words(path: str) -> Iterator[None]:
    """Says what another's code raises as WordsError, with the line."""
    try:
        yield
    except (WordsError, KeyboardInterrupt):
        raise
    except BaseException as error:
        at, line = error.__traceback__, 0
        while at is not None:
            if at.tb_frame.f_code.co_filename.endswith(os.path.basename(path)):
                line = at.tb_lineno
            at = at.tb_next
        raise WordsError(f"{printable(path)}, line {line}: {type(error).__name__}: {error}") from None


def scenario_of(given: argparse.Namespace, start: wires.Start) -> tuple[Scenario, int]:
    """The scenario with the statements, for as many periods as are run; and how many these are."""
    data = program.load(given.scenario)
    check_accepted(start, data)
    periods = whole("--periods", given.periods) if given.periods is not None else data["periods"]
    if not 1 <= periods <= MOST_RUN:
        raise WordsError(f"--periods is {periods}, and must be at least 1")
    found = []

    def due(asked: Json, period: int) -> list[int]:
        if not found:
            found.append(due_by(program.find(given.program)))
        return found[0](asked, period)

    made = Scenario(lengthened(trace.cut_behind(data, periods - 1), periods), due)
    for statement in given.statements:
        made.add(statement)
    if given.statements:
        check_accepted(start, made.data)
    return made, periods


class Printer:
    """Writes what nodes believe, a period at a time."""

    def __init__(self, given: argparse.Namespace) -> None:
        self.is_json, self.is_quiet = given.json, given.quiet

    def period(self, number: int, lines: list[list[str]], offsets: list[str]) -> None:
        """One period: of each node its lines, none of one that is dead."""
        if self.is_quiet:
            return
        if self.is_json:
            nodes = [self._node(at, it) for at, it in enumerate(lines)]
            told = {"period": number, "nodes": nodes}
            if offsets:
                told["offsets"] = [None if it == "-" else int(it) for it in offsets]
            sys.stdout.write(json.dumps(told) + "\n")
        else:
            said = [f"period {number}"]
            for at, it in enumerate(lines):
                said += it or [f"node {at} - dead"]
            if offsets:
                said.append(f"clock skew - offsets {','.join(offsets)}")
            sys.stdout.write("\n".join(said) + "\n")
        sys.stdout.flush()

    def _node(self, at: int, lines: list[str]) -> Json:
        if not lines:
            return {"id": at, "mode": "dead"}
        node = dataclasses.asdict(text.read_part(["period 0", *lines]).nodes[0])
        return {key: value for key, value in node.items() if key != "letter"}

    def end(self, periods: int) -> None:
        """The last line."""
        sys.stdout.write((json.dumps({"end": periods}) if self.is_json else f"end {periods}") + "\n")
        sys.stdout.flush()


class Run:
    """A run on its way."""

    def __init__(self, given: argparse.Namespace) -> None:
        self.given = given
        self.start = starter(given)
        self.scenario, self.periods = scenario_of(given, self.start)
        if (given.was or given.logs) and self.periods > MOST_PERIODS:
            raise WordsError(f"a run of {self.periods} periods is no scenario, which has at most {MOST_PERIODS}, so "
                             "neither --as nor --logs can be written")
        self._try_files()
        nodes = self.scenario.nodes
        self.history = History(nodes, bool(given.logs)) if given.was or given.logs else None
        self.cluster = Cluster(self.scenario.data, self.start, network_of(given.network), self.history)
        self.live = live.Live(self.cluster, self.scenario, self.periods, lambda it: check_accepted(self.start, it))
        for kill in given.kills:
            self.live.add_kill(kill)
        self.printer = Printer(given)

    def _try_files(self) -> None:
        """What is to be written at the end can be."""
        if self.given.was:
            with open(self.given.was, "a"):
                pass
        if self.given.logs:
            os.makedirs(self.given.logs, exist_ok=True)

    def _period(self) -> None:
        number = self.live.next
        lines = self.cluster.period(number)
        clocks = self.cluster.clocks
        offsets = ["-" if not it else str(by) for it, by in zip(lines, clocks.offsets)] if clocks else []
        self.printer.period(number, lines, offsets)
        self.live.next += 1

    def _asked(self) -> int | None:
        """How many periods are to be run now, by what is typed; None for none any more."""
        while True:
            if sys.stdin.isatty():
                sys.stderr.write(f"period {self.live.next} is next: ")
                sys.stderr.flush()
            line = sys.stdin.buffer.readline()
            if not line:
                return None
            try:
                count = self.live.take(line.decode(errors="replace"))
            except WordsError as error:
                say(NAME, str(error))
                continue
            if count != 0:
                return count

    def run(self) -> None:
        """Runs all periods, or as many as are asked for, and writes what is to be written."""
        with self.cluster:
            while self.live.next < self.periods:
                count = self._asked() if self.given.live else self.periods
                if count is None:
                    break
                for _ in range(min(count, self.periods - self.live.next)):
                    self._period()
        self.printer.end(self.live.next)
        if self.history and self.live.next:
            self._write(self.history)

    def _write(self, history: History) -> None:
        was = history.as_scenario(self.scenario.data, self.live.next)
        try:
            check_accepted(self.start, was)
        except WordsError as error:
            raise WordsError(f"what befell this run can't be said by fault lines: {error}") from None
        if self.given.was:
            pathlib.Path(self.given.was).write_text(Scenario(was).dumps(), encoding="utf-8")
        if self.given.logs:
            folder = pathlib.Path(self.given.logs)
            for node in range(self.scenario.nodes):
                (folder / f"node{node}.json").write_text(history.log_of(was, node) + "\n", encoding="utf-8")


def main() -> int:
    """The command."""
    given = options()
    if given.live and sys.stdin is None:
        raise WordsError("standard input is closed, and --live reads it")
    Run(given).run()
    return 0
