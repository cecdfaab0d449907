"""Logs of single nodes, as `node I` reads them, cut to as many periods as fit into an input."""
from __future__ import annotations

import json
from collections.abc import Sequence

from maft_tools.log import Entry
from maft_tools.plan import INPUT_LIMIT, Json


def log_of(scenario: Json, entries: Sequence[Sequence[object]]) -> str:
    """The input of `node I`."""
    return json.dumps({"scenario": scenario, "frames": entries}, separators=(",", ":"))


def fitting(scenario: Json, entries: Sequence[Entry]) -> tuple[int, str]:
    """Of how many periods the entries fit into an input, and the log of these."""
    periods = scenario["periods"]
    while True:
        text = log_of(scenario, [entry for entry in entries if entry[0] < periods])
        if len(text) <= INPUT_LIMIT or periods == 0:
            return periods, text
        periods -= 1
