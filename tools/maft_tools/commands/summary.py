"""What a run comes to: a page of words, or a table.

    tools/summary SCENARIO.json [SCENARIO.json ..]     runs the program on it
    ./maft replay < SCENARIO.json | tools/summary      reads a text; give --m M, or --scenario FILE, for the margin

--json writes all of it as an object, --csv a row for each period, with a column for the name where there are several
files. The text is that of `replay`, `replay trace`, `check` or `node I`.
"""
from __future__ import annotations

import argparse
import csv
import dataclasses
import io
import json
import sys
from collections.abc import Iterable, Iterator

from .. import json_text, program, summary, tables, text
from ..plan import Json, WordsError
from . import parser

MOST_ROUNDS = 3


def lines_of(name: str, given: argparse.Namespace) -> tuple[Iterable[str], Json]:
    """The lines of the text, and the scenario where it is known."""
    if name.endswith(".json"):
        scenario = program.load(name)
        said = program.run_well(program.find(given.program), ["replay"], json_text.bytes_of(name))
        return said.splitlines(), scenario
    return program.text_lines(name), program.load(given.scenario) if given.scenario else {}


def facts_of(scenario: Json, m: int | None) -> tuple[int | None, int]:
    """How many relay rounds the cluster has and how often a node may leave, by the scenario, or m as it was given."""
    policy = scenario.get("policy", {})
    rounds, retire = scenario.get("m", m), policy.get("retire", 0) if isinstance(policy, dict) else None
    if rounds is not None and (type(rounds) is not int or not 0 <= rounds <= MOST_ROUNDS):
        raise WordsError(f"m is {json_text.shown(rounds)}, and must be from 0 to {MOST_ROUNDS}")
    if type(retire) is not int:
        raise WordsError("the scenario has no policy, or its retire is no whole number")
    return rounds, retire


def show(name: str, given: argparse.Namespace) -> str:
    """What there is to write of a scenario or a text."""
    lines, scenario = lines_of(name, given)
    rounds, retire = facts_of(scenario, given.m)
    read = text.read(lines)
    run = summary.summarise(read, rounds, retire)
    if given.json:
        return json.dumps(dataclasses.asdict(run)) + "\n"
    if given.csv:
        return summary.table(read, run)
    return (f"{json_text.printable(name)}\n" if len(given.files) > 1 else "") + summary.page(run)


def table(names: list[str], given: argparse.Namespace) -> Iterator[str]:
    """The rows of several files as one table, whose first column has the name."""
    for at, name in enumerate(names):
        head, *rows = show(name, given).splitlines(keepends=True)
        out = io.StringIO()
        csv.writer(out, lineterminator="").writerow([tables.cell(name)])
        if at == 0:
            yield "name," + head
        yield from (f"{out.getvalue()},{row}" for row in rows)


def main() -> int:
    """The command."""
    options = parser("summary", __doc__ or "")
    options.add_argument("files", nargs="*", default=["-"],
                         help="a scenario, or a text; - or nothing for a text on standard input")
    options.add_argument("--m", type=int, help="how many relay rounds the text's cluster has")
    options.add_argument("--scenario", help="the scenario of the text")
    options.add_argument("--program", help="the program; by default the one that ./maft answers with")
    how = options.add_mutually_exclusive_group()
    how.add_argument("--json", action="store_true")
    how.add_argument("--csv", action="store_true")
    given = options.parse_args()
    if given.csv and len(given.files) > 1:
        sys.stdout.writelines(table(given.files, given))
        return 0
    for name in given.files:
        sys.stdout.write(show(name, given))
    return 0
