"""Scenarios whose runs meet what is promised of many periods, and scenarios that are drawn long enough to show it.

Each function answers a scenario. In `lied_to` a liar keeps the values of a state channel as far apart as it can, in
`pulled` one does so with clocks; `accused` has a node that all accuse of one kind, and `well_again` one that is silent,
restarts and stays well.
"""
from __future__ import annotations

import random
from typing import Any

from maft_tools import drawing
from maft_tools.plan import Json
from maft_tools.scenario import Scenario

PULL = 2 ** 30


def policy(version: int, **more: Any) -> Json:
    """A policy that excludes at a count of 10; `more` says what is otherwise."""
    return {"weights": [5] * (8 * version), "exclude": 10, "readmit": 4, "credit": 5, "streak": 1, "cap": 20, **more}


def lied_to(distance: int, periods: int, step: int) -> Json:
    """Node 3 tells node 2 the least own value, and nodes 0 and 1 the greatest: only node 2 moves, half of the way."""
    made = Scenario({"nodes": 4, "m": 1, "periods": periods, "policy": policy(1),
                     "channels": [{"kind": "state", "delta": distance, "start": [0, 0, -distance, 0], "step": step}]})
    for period in range(periods):
        made.tells(3, step * period, 0, (period, period), [0, 1])
        made.tells(3, step * period - distance, 0, (period, period), [2])
    return made.data


def pulled(epsilon: int, drift: int, distance: int, periods: int) -> Json:
    """Node 3 shows node 2 another time than nodes 0 and 4, and all errors and drifts help it; the sides change in turn.

    Node 1 is silent, so that one value less is voted on. Nodes 0 and 4 start ahead of node 2 by the distance.
    """
    up, down = [-epsilon, 0, epsilon, 0, -epsilon], [epsilon, 0, -epsilon, 0, epsilon]
    clock = {"epsilon": epsilon, "drift": drift, "start": [distance, 0, 0, 0, distance], "errors": [up, down],
             "drifts": [[0, 0, drift, 0, 0], [drift, 0, 0, 0, drift]], "lies": []}
    made = Scenario({"version": 2, "nodes": 5, "m": 1, "periods": periods, "policy": policy(2, weights=[0] * 16),
                     "clock": clock})
    made.silent(1, (0, periods - 1))
    made.silent(3, (0, periods - 1), [0], [1])
    for period in range(periods):
        ahead = PULL if period % 2 else -PULL
        made.clock_lies(3, ahead, (period, period), [0, 4])
        made.clock_lies(3, -ahead, (period, period), [2])
    return made.data


# by what node 4 of `accused` is accused of a kind by all others in each period from FIRST on
FIRST = 2
WAYS = {
    "missing": [["node 4 is silent {}"], ["node 4 is silent {} in slot 0"], ["node 4 is silent {} in slot 2"],
                ["node 4 is silent {} in slot 5"]],
    "malformed": [["node 4 is cut by 4 bytes {}"], ["node 4 speaks twice {}"],
                  ["node 4 is cut by 1 bytes {} in slot 0"],
                  ["node 4 speaks twice to nodes 0, 1 {}", "node 4 is cut by 4096 bytes to nodes 2, 3 {}"]],
    "timing": [["node 4 is late {}"], ["node 4 is late at tick 3 {} in slot 0"], ["node 4 is late {} in slot 4"]],
    "cold": [["node 4 restarts"]],
    "state": [["node 4 sends bytes 0007 at 16 {} in slot 0"]],
    "claim": [["node 4 claims task 1 {}"]],
    "overrun": [["node 4 claims nothing {}"]],
    "deviate": [["node 4 tells 999 on channel 0 {}"]],
    "equivocate": [["node 4 claims task 0 to node 0 {}", "node 4 claims task 1 to node 1 {}",
                    "node 4 claims task 2 to node 2 {}", "node 4 claims nothing to node 3 {}"]],
}


def noted_from(way: list[str]) -> int:
    """The first period in which all accuse node 4 of `accused`: faults of slots 4 and 5 are noted a period later."""
    return FIRST + way[0].endswith(("slot 4", "slot 5"))


def accused(kind: str, way: list[str], periods: int, **more: Any) -> Json:
    """Five nodes, of which all others accuse node 4 of the kind in each period from FIRST on."""
    run = {"need": 1, "min": 1, "max": 1}
    tasks = [{"after": [], "nodes": [node], "run": [1], **run} for node in (4, 0, 1)]
    sensor = {"kind": "sensor", "delta": 4, "readings": [[100, 101, 102, 101, 100]]}
    made = Scenario({"version": 2, "nodes": 5, "m": 1, "periods": periods, "frame": 1, "policy": policy(2, **more),
                     "tasks": tasks, "channels": [sensor]})
    for statement in way:
        if kind == "cold":
            for period in range(FIRST, periods):
                made.add(f"{statement} in period {period}")
        else:
            made.add(statement.format(f"in periods {FIRST} to {periods - 1}"))
    return made.data


def well_again(silent: int, periods: int, **more: Any) -> Json:
    """Node 4 of five is silent for so many periods from period 1 on, restarts in the next one, and stays well."""
    made = Scenario({"version": 2, "nodes": 5, "m": 1, "periods": periods, "policy": policy(2, **more)})
    made.silent(4, (1, silent))
    made.restart(4, silent + 1)
    return made.data


def _row(draw: random.Random, nodes: int, least: int, most: int) -> list[int]:
    return [draw.randint(least, most) for _ in range(nodes)]


def drawn(seed: int) -> Json:
    """A long scenario with a state channel and clocks; two of seven nodes, or one of five, fall ill now and again."""
    draw = random.Random(f"long {seed}")
    nodes = draw.choice([5, 7])
    cap = draw.choice([12, 40])
    exclude = draw.randint(2, cap)
    rules = {"weights": [draw.choice([1, 2, 3, 5]) for _ in range(16)], "exclude": exclude,
             "readmit": draw.randrange(exclude), "credit": draw.randint(1, 4), "streak": draw.randint(1, 3), "cap": cap,
             "retire": draw.choice([0, 0, 1, 2])}
    state = {"kind": "state", "delta": 999, "start": _row(draw, nodes, 0, 999), "step": draw.choice([0, 1, -7])}
    clock = {"epsilon": 3, "drift": 2, "start": _row(draw, nodes, -5000, 5000), "lies": [],
             "drifts": [_row(draw, nodes, 0, 2) for _ in range(3)],
             "errors": [_row(draw, nodes, -3, 3) for _ in range(5)]}
    base = {"version": 2, "nodes": nodes, "m": 1, "periods": draw.randint(16, 32), "policy": rules, "channels": [state],
            "clock": clock, "faults": [], "restarts": []}
    length, restart = draw.choice([1, 6, 12]), draw.choice([1, 2])
    options = drawing.Options(faulty=nodes // 3, rate=0.15, length=length, restart=restart, seed=seed)
    return drawing.drawn(options, 0, base)
