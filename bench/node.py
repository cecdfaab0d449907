#!/usr/bin/env python3
"""Prints what a period costs one node, in instructions, whoever lies: frames that are calm, odd, two-valued or missing.

    bench/node.py [PROGRAM]

For 4 nodes with one relay round, 8 with two and 16 with three, node 0 replays a log of one period (`node 0`). The relay
frames that it is delivered are those of a cluster without faults (calm), or each entry of them is drawn anew (odd), or
is one of two (two-valued), or they don't come (missing). Counted by callgrind; from each the same log with an entry
behind it that is refused is taken away, which is read and judged and not run. What a node takes to be opened is told by
one period without a frame, and by two. So what is left is a period alone, with the printing of what the node believes.
For each slot of relays stands beneath what its frames cost of each form, over their not coming. PROGRAM is by default
what ./maft runs.
"""
from __future__ import annotations

import json
import pathlib
import random
import re
import subprocess
import sys

TOP = pathlib.Path(__file__).resolve().parent.parent
sys.dont_write_bytecode = True
sys.path[:0] = [str(TOP / "tools"), str(TOP / "tests/lib")]
import wire  # noqa: E402
from maft_tools import log, plan, program  # noqa: E402
from maft_tools.log import Entry  # noqa: E402
from maft_tools.plan import HEADER, Json, WordsError  # noqa: E402

SIZES = ((4, 1), (8, 2), (16, 3))
FORMS = ("calm", "odd", "two-valued", "missing")
TASKS = 3
COUNTED = re.compile(r"Collected : (\d+)")


def scenario_of(nodes: int, m: int, periods: int) -> Json:
    """A cluster without faults that runs tasks and reads a sensor."""
    everyone = list(range(nodes))
    return {
        "version": 2, "nodes": nodes, "m": m, "periods": periods,
        "policy": {"weights": [1] * 16, "exclude": 1000, "readmit": 4, "credit": 1, "streak": 4, "cap": 2000},
        "channels": [{"kind": "sensor", "delta": 10, "readings": [[100] * nodes] * periods}],
        "tasks": [{"nodes": everyone, "need": 3, "min": 1, "max": 2, "run": [1] * nodes, "after": []}] * TASKS,
    }


def entry(draw: random.Random, what: str, tags: int, width: int) -> bytes:
    """An entry of a relay frame: an item in range, or in one of seven cases an error."""
    if draw.randrange(7) == 0:
        return bytes([draw.randint(1, tags)]) + bytes(width - 1)
    if what == "claims":
        return bytes([0, draw.choice([255, *range(TASKS)])])
    return b"\0" + wire.bytes_of([draw.randrange(256) for _ in range((width - 1) // 2)])


def drawn(draw: random.Random, carried: tuple[str, int], width: int, count: int, is_one_of_two: bool) -> bytes:
    """So many entries of a relay frame: each drawn anew, or one of two."""
    if is_one_of_two:
        pair = [entry(draw, *carried, width), entry(draw, *carried, width)]
        return b"".join(draw.choice(pair) for _ in range(count))
    return b"".join(entry(draw, *carried, width) for _ in range(count))


def changed(scenario: Json, entries: list[Entry], form: str, slots: set[int]) -> list[Entry]:
    """What a node is delivered, where the relay frames of these slots are of a form."""
    draw = random.Random(7)
    found: list[Entry] = []
    for period, slot, sender, tick, text in entries:
        carried = wire.carries(slot, scenario["m"])
        if form == "calm" or slot not in slots or carried[1] == 0:
            found.append((period, slot, sender, tick, text))
        elif form != "missing":
            width = 2 if carried[0] == "claims" else 1 + 2 * scenario["nodes"]
            frame = bytes.fromhex(text)
            body = drawn(draw, carried, width, (len(frame) - HEADER) // width, form == "two-valued")
            found.append((period, slot, sender, tick, (frame[:HEADER] + body).hex()))
    return found


def instructions(path: str, given: str, is_refused: bool) -> int:
    """How many instructions the program takes for a log; it must answer it, or refuse it."""
    done = subprocess.run(["valgrind", "--tool=callgrind", "--callgrind-out-file=/dev/null", path, "node", "0"],
                          input=given, capture_output=True, text=True, check=False)
    counted = COUNTED.search(done.stderr)
    if counted is None or done.stdout.startswith("refused") != is_refused:
        raise WordsError(f"{path} wasn't counted: {done.stdout[:60]!r} {done.stderr[-200:]!r}")
    return int(counted[1])


def run_alone(path: str, scenario: Json, entries: list[Entry]) -> int:
    """What running a log takes beside reading and judging it."""
    bad = (scenario["periods"] - 1, plan.slots(scenario["m"]), 1, 15, "")
    return (instructions(path, json.dumps({"scenario": scenario, "frames": entries}), False)
            - instructions(path, json.dumps({"scenario": scenario, "frames": [*entries, bad]}), True))


def main() -> None:
    """Counts and prints."""
    path = program.find(sys.argv[1] if len(sys.argv) > 1 else None)
    for nodes, m in SIZES:
        scenario = scenario_of(nodes, m, 1)
        entries = log.entries(program.run_well(path, ["replay", "trace"], scenario).splitlines(), 0, 10 ** 9)
        relays = {it for it in range(plan.slots(m)) if wire.carries(it, m)[1] > 0}
        unheard = run_alone(path, scenario, [])
        # what opening a node takes
        opening = 2 * unheard - run_alone(path, scenario_of(nodes, m, 2), [])

        def period(form: str, slots: set[int]) -> int:
            return run_alone(path, scenario, changed(scenario, entries, form, slots)) - opening

        of_form = {form: period(form, relays) for form in FORMS}
        told = [of_form[it] for it in FORMS[:3]]
        print(f"{nodes} nodes, m {m}: " + ", ".join(f"{form} {count:,}" for form, count in of_form.items())
              + f"; most by least of those that come {max(told) / min(told):.2f}", flush=True)
        for slot in sorted(relays):
            without = period("missing", {slot})
            costs = ", ".join(f"{form} {period(form, {slot}) - without:,}" for form in FORMS[:3])
            print(f"  slot {slot}, {' '.join(map(str, wire.carries(slot, m)))}: {costs}", flush=True)


if __name__ == "__main__":
    main()
