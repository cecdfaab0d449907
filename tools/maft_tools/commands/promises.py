"""What follows from a scenario's own numbers in the long run, each number with its formula.

    tools/promises SCENARIO.json [SCENARIO.json ..]

How far the values of a state channel, votes and clocks are apart in each period; for how many periods a node that all
accuse stays a member; and when one that is nonfaulty again is back. The program is asked whether the scenario is
accepted, and how many of its periods are claimed: all of this is promised of claimed periods.
"""
from __future__ import annotations

import argparse
import dataclasses
import json
import sys

from .. import json_text, long_run, program
from . import parser

MOST = 1024


def periods(word: str) -> int:
    """How many periods are told: from 1 to as many as a scenario can have."""
    if not (word.isascii() and word.isdecimal()) or not 1 <= int(word) <= MOST:
        raise argparse.ArgumentTypeError(f"'{word[:20]}' isn't from 1 to {MOST}")
    return int(word)


def main() -> int:
    """The command; its status is 0, and it raises WordsError where a scenario isn't accepted or can't be read."""
    options = parser("promises", __doc__ or "")
    options.add_argument("scenarios", nargs="+", metavar="scenario", help="a scenario, - for standard input")
    options.add_argument("--periods", type=periods, metavar="N", help="how many periods are told of (the scenario's)")
    options.add_argument("--json", action="store_true", help="write an object for each scenario")
    options.add_argument("--program", help="the program; by default the one that ./maft answers with")
    given = options.parse_args()
    for name in given.scenarios:
        scenario = program.load(name)
        claimed = long_run.claimed_by(program.find(given.program), scenario)
        run = long_run.long_run(scenario, claimed, given.periods)
        if given.json:
            print(json.dumps(dataclasses.asdict(run)))
        else:
            head = f"{json_text.printable(name)}\n" if len(given.scenarios) > 1 else ""
            sys.stdout.write(head + long_run.page(run))
    return 0
