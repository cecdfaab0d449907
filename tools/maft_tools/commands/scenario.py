"""Adds faults in words to a scenario, and writes it to standard output.

    tools/scenario SCENARIO.json 'node 4 tells 999 on channel 0 to nodes 0 and 1, in periods 1 to 2' \
'node 4 restarts in period 4'
    tools/scenario SCENARIO.json --statements FILE

The scenario is - for standard input. A file has a statement a line; what stands behind # is passed over. A statement is
of one of these forms; `to` and `in slots` may be left out, for all:

"""
from __future__ import annotations

import sys

from .. import json_text, program, scenario
from ..plan import Json, WordsError
from . import parser


def statements_of(path: str) -> list[str]:
    """The statements of a file, or of standard input for `-`."""
    try:
        return scenario.statements_in(json_text.bytes_of(path).decode())
    except UnicodeDecodeError:
        raise WordsError(f"{json_text.printable(path)} isn't UTF-8") from None


def main() -> int:
    """The command."""
    forms = "\n".join(f"    {it}" for it in scenario.FORMS.splitlines())
    options = parser("scenario", (__doc__ or "") + forms)
    options.add_argument("scenario")
    options.add_argument("statements", nargs="*", metavar="statement")
    options.add_argument("--statements", dest="file", metavar="FILE",
                         help="a file of statements, one a line, which come before the others")
    options.add_argument("--program", help="the program, which is asked where a channel isn't due in every period")
    given = options.parse_intermixed_args()
    found = []

    def due(data: Json, period: int) -> list[int]:
        if not found:
            found.append(scenario.due_by(program.find(given.program)))
        return found[0](data, period)

    made = scenario.Scenario(program.load(given.scenario), due)
    for statement in (statements_of(given.file) if given.file else []) + given.statements:
        made.add(statement)
    sys.stdout.write(made.dumps())
    return 0
