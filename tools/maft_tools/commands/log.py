"""Cuts a trace into the log of one node, which `./maft node I` reads.

    tools/log I SCENARIO.json                          runs the program for the trace
    ./maft replay trace < S.json | tools/log I S.json -

    tools/log 0 scenarios/silent.json | ./maft node 0
"""
from __future__ import annotations

from collections.abc import Iterable

from .. import log, program
from . import parser


def main() -> int:
    """The command."""
    options = parser("log", __doc__ or "")
    options.add_argument("node", type=int)
    options.add_argument("scenario")
    options.add_argument("trace", nargs="?",
                         help="the text of 'replay trace', - for standard input; without it the program is run")
    options.add_argument("--program", help="the program; by default the one that ./maft answers with")
    given = options.parse_args()
    scenario = program.load(given.scenario)
    trace: Iterable[str]
    if given.trace is None:
        trace = program.run_well(program.find(given.program), ["replay", "trace"], scenario).splitlines()
    else:
        trace = program.text_lines(given.trace)
    print(log.cut(scenario, trace, given.node))
    return 0
