"""Why a frame counted: what nodes were delivered, what they expected, what is different, and what they
make of it, in words.

    tools/explain SCENARIO.json --period 2 --node 0         runs the program for the trace
    ./maft replay trace < SCENARIO.json | tools/explain - --scenario SCENARIO.json
    tools/explain LOG.json                                  a node's log, as tools/log cuts it

Periods, slots and nodes are numbers and spans: 3, or 2-5, or 0,2-5. Without them all are told. With --slot no more is
told than frames; else what the node notes, which items settle otherwise than they were said to it, whom it convicts,
and which rows charge whom.
"""
from __future__ import annotations

import argparse
import re
from collections.abc import Iterable, Iterator

from .. import check, explain, json_text, program, trace
from ..plan import Json, WordsError
from . import parser
from .check import owner


def spans(words: str) -> set[int]:
    """The numbers of `0,2-5`."""
    found: set[int] = set()
    for part in words.split(","):
        said = re.fullmatch(r"(\d{1,4})(?:(?:-|\.\.)(\d{1,4}))?", part.strip())
        if said is None or said[2] is not None and int(said[2]) < int(said[1]):
            raise argparse.ArgumentTypeError(f"{json_text.printable(part)!r} is no number and no span such as 2-5")
        found |= set(range(int(said[1]), int(said[2] or said[1]) + 1))
    return found


def slices_of(given: argparse.Namespace, wanted: trace.Wanted) -> tuple[Json, Iterator[trace.Slice]]:
    """The scenario, where it is known, and the periods of what is given."""
    if given.input.endswith(".json"):
        value = program.load_object(given.input)
        maft = program.find(given.program)
        if not check.is_log(value):
            if check.findings(value):
                program.run_well(maft, ["check"], value)
            return value, trace.of_scenario(maft, value, wanted)
        node = owner(value) if given.node is None else min(given.node)
        wanted.nodes = given.node = {node}
        program.run_well(maft, ["node", str(node)], json_text.bytes_of(given.input))
        return value["scenario"], trace.of_log(maft, value, node, wanted)
    scenario = program.load(given.scenario) if given.scenario else {}
    if scenario and check.findings(scenario):
        raise WordsError(f"the scenario {json_text.printable(given.scenario)} isn't that of the text: "
                         f"{check.told(check.findings(scenario))}")
    return scenario, trace.slices(program.byte_lines(given.input), wanted)


def told(given: argparse.Namespace, asked: explain.Asked) -> Iterator[str]:
    """The lines."""
    wanted = trace.Wanted(given.period, given.node)
    scenario, slices = slices_of(given, wanted)
    _fits(given, scenario)
    teller, count = explain.Teller(scenario, asked), 0
    for it in slices:
        is_told = given.period is None or it.period.number in given.period
        nodes: Iterable[int] = sorted(given.node) if given.node else [record.id for record in it.period.nodes]
        yield from teller.tell(it, nodes, is_told)
        count += is_told
        if wanted.last is not None and it.period.number >= wanted.last:
            break
    if not count:
        raise WordsError("the text has none of the periods that are asked for")


def _fits(given: argparse.Namespace, scenario: Json) -> None:
    """Raises WordsError where a period, slot or node is asked for that the scenario hasn't."""
    if not scenario or check.findings(scenario):
        return
    limits = {"period": scenario["periods"], "node": scenario["nodes"], "from": scenario["nodes"],
              "slot": 2 * scenario["m"] + 4}
    for name, limit in limits.items():
        asked = getattr(given, "sender" if name == "from" else name)
        if asked and max(asked) >= limit:
            raise WordsError(f"--{name} {max(asked)}: there are {limit}, numbered from 0")


def main() -> int:
    """The command."""
    options = parser("explain", __doc__ or "")
    options.add_argument("input",
                         help="a scenario or a log, which end with .json, or a trace; - for a trace on standard input")
    options.add_argument("--period", type=spans, help="which periods")
    options.add_argument("--slot", type=spans, help="frames of these slots alone")
    options.add_argument("--node", type=spans, help="which receivers; of a log, whose it is")
    options.add_argument("--from", type=spans, dest="sender", help="frames of these senders alone")
    options.add_argument("--scenario", help="the scenario of the trace")
    options.add_argument("--most", type=int, default=6,
                         help="how many differing entries of a frame are told, by default 6")
    options.add_argument("--program", help="the program; by default the one that ./maft answers with")
    given = options.parse_args()
    for line in told(given, explain.Asked(given.slot, given.sender, max(0, given.most))):
        print(line)
    return 0
