#!/usr/bin/env python3
"""Draws an accepted scenario from a number: liars, silence and restarts, beside channels, tasks and clocks.

    tests/lib/draw.py SEED

Many scenarios keep the fault bound; others don't. `alter` adds lines to one whose run was traced once: frames that are
made of those that the trace shows.
"""
from __future__ import annotations

import json
import math
import os
import pathlib
import random
import sys
from collections.abc import Iterable
from typing import Any, Union

sys.dont_write_bytecode = True
sys.path.insert(0, str(pathlib.Path(__file__).resolve().parents[2] / "tools"))
from maft_tools.plan import CLAIM_SLOT, HEADER, VALUE_LIMIT, Json, data_slot  # noqa: E402
from maft_tools.plan import report_slot, slots, value_at, value_hex  # noqa: E402

# how many entries all frames of a relay round have together, at most, but in the few large scenarios
ENTRIES = int(os.environ.get("ENTRIES", 60000))
# each number before a multiple of this draws a large one
LARGE = 97
# how many of the ways to misbehave meet all alike
ALIKE = 3
To = Union[str, "list[int]"]


def entries_of(nodes: int, m: int) -> int:
    """How many entries all frames of the last relay round have together."""
    return nodes * (nodes - 1) * math.perm(nodes - 1, m)


class Lines:
    """Fault lines of which no two share a link, a period and a slot."""

    def __init__(self, nodes: int, m: int, lines: list[Json]) -> None:
        self.nodes, self.m, self.all = nodes, m, lines
        self.used: set[tuple[int, int, int, int]] = {place for line in lines for place in self.places(line)}

    def places(self, line: Json) -> Iterable[tuple[int, int, int, int]]:
        """Each period, slot, sender and receiver of a line."""
        first, last = line["periods"]
        to = [it for it in range(self.nodes) if it != line["from"]] if line["to"] == "all" else line["to"]
        of = range(slots(self.m)) if line["slots"] == "all" else line["slots"]
        return ((period, slot, line["from"], it) for period in range(first, last + 1) for slot in of for it in to)

    def add(self, node: int, to: To, periods: list[int], of: To, effect: Any) -> bool:
        """Adds a line, where no other has one of its places; answers whether it did."""
        line = {"from": node, "to": to, "periods": periods, "slots": of, "effect": effect}
        places = set(self.places(line))
        if places & self.used:
            return False
        self.used |= places
        self.all.append(line)
        return True


def poke(at: int, text: str) -> Json:
    """The effect that writes these bytes at an offset."""
    return {"set": {"at": at, "hex": text}}


class Drawing:
    """One scenario in the making."""

    def __init__(self, seed: int) -> None:
        self.random = random.Random(seed)
        self.large = seed % LARGE == LARGE - 1 and "ENTRIES" not in os.environ
        self.version = 2 if self.large else self.random.choice([1, 2, 2])
        self.nodes, self.m = (16, 3) if self.large else self.size()
        least, most = (1, 2) if self.large else (3, 8 if self.nodes < 10 else 5)
        self.periods = self.random.randint(least, most)
        self.lines = Lines(self.nodes, self.m, [])
        self.restarts: set[tuple[int, int]] = set()
        self.lies: list[Json] = []
        self.strict = False

    def size(self) -> tuple[int, int]:
        """How many nodes and relay rounds."""
        while True:
            nodes = self.random.choice([3, 4, 4, 5, 5, 6, 7, 7, 8] + (list(range(9, 17)) if self.version == 2 else []))
            m = self.random.choice([0, 1, 1, 1, 2] + ([3] if self.version == 2 else []))
            if m < nodes and entries_of(nodes, m) <= ENTRIES:
                return nodes, m

    # ---- the cluster

    def policy(self) -> Json:
        """Weights and thresholds; in version 2 often with retirement."""
        cap = self.random.choice([4, 12, 20, 40])
        exclude = 1 if self.strict else self.random.randint(2, cap)
        weights = [self.random.choice([int(self.strict), 1, 3, 5, 5]) for _ in range(8 * self.version)]
        drawn = {"weights": weights, "exclude": exclude,
                 "readmit": self.random.randint(0, exclude - 1), "credit": self.random.randint(0, 6),
                 "streak": self.random.randint(1, 3), "cap": cap}
        if self.version == 2 and self.random.random() < 0.35:
            drawn["retire"] = self.random.randint(1, 2)
        return drawn

    def task(self, before: int) -> Json:
        """A task of some nodes, behind one before it or none."""
        nodes = sorted(self.random.sample(range(self.nodes), self.random.randint(2, min(5, self.nodes))))
        least = self.random.randint(1, 2)
        most = self.random.randint(least, 3)
        after = sorted(self.random.sample(range(before), self.random.randint(0, min(before, 1))))
        return {"after": after, "nodes": nodes,
                "need": self.random.randint(1, len(nodes)), "min": least, "max": most,
                "run": [self.random.randint(least, most) for _ in nodes]}

    def row(self, delta: int) -> list[int]:
        """A number for each node, no further apart than delta."""
        least = self.random.choice([-300, 0, 50, 100000, -VALUE_LIMIT, VALUE_LIMIT - delta])
        return [least + self.random.randint(0, delta) for _ in range(self.nodes)]

    def channel(self, tasks: list[Json]) -> Json:
        """A channel of one of the kinds."""
        delta = self.random.choice([0, 4, 10])
        kind = self.random.choice(["state", "state", "sensor", "sensor of a task", "copy", "copy"])
        if kind == "state":
            return {"kind": "state", "delta": delta, "start": self.row(delta), "step": self.random.randint(-3, 5)}
        rows = [self.row(delta) for _ in range(self.random.randint(1, 3))]
        if kind == "sensor" or not tasks:
            return {"kind": "sensor", "delta": delta, "readings": rows}
        task = self.random.randrange(len(tasks))
        if kind == "copy" and self.version == 2:
            return {"kind": "copy", "delta": delta, "task": task, "lies": self.random.randint(0, 3), "readings": rows}
        return {"kind": "sensor", "delta": delta, "task": task, "readings": rows}

    def clock(self) -> Json:
        """Clocks that drift and are read a little wrong, with the lies that were drawn with the faults."""
        epsilon, drift = self.random.choice([0, 2, 5]), self.random.choice([0, 3])

        def table(least: int, most: int) -> list[list[int]]:
            rows = range(self.random.randint(1, 3))
            return [[self.random.randint(least, most) for _ in range(self.nodes)] for _ in rows]

        return {"epsilon": epsilon, "drift": drift, "start": [self.random.randint(-60, 60) for _ in range(self.nodes)],
                "drifts": table(1, drift + 1), "errors": table(-epsilon, epsilon), "lies": self.lies}

    # ---- what befalls it

    def effect(self) -> Any:
        """An effect of any kind."""
        place, text = HEADER + self.random.randrange(12), self.random.choice(["00", "01", "ff", "0081"])
        return self.random.choice([
            "drop", "twice", {"cut": self.random.choice([1, 4, 20])}, {"time": self.random.choice([0, 9, 21, 30])},
            poke(place, text), {"raw": self.random.choice(["", "00", "4d46"])}])

    def lie(self, node: int, first: int, last: int) -> None:
        """One node misbehaves in some periods, and lies about its clock in the first of them."""
        others = [other for other in range(self.nodes) if other != node]
        some = sorted(self.random.sample(others, self.random.randint(1, len(others) - 1)))
        rest = [other for other in others if other not in some]
        kind = self.random.randrange(9)
        plan = self.plans(some, rest)[kind]
        added = [self.lines.add(node, to, [first, last], of, effect) for to, of, effect in plan]
        if all(added) and self.random.random() < 0.8:
            self.clock_lies(node, first, others if kind < ALIKE else some, others)

    def plans(self, some: list[int], rest: list[int]) -> list[list[tuple[To, To, Any]]]:
        """The ways to misbehave: whom it meets, in which slots, and how. The first of them meet all alike."""
        data, reports, last = data_slot(self.m), report_slot(self.m), slots(self.m) - 1
        value = self.random.choice([999, -VALUE_LIMIT, VALUE_LIMIT + 1])
        told = poke(value_at(0), (value & (1 << 64) - 1).to_bytes(8, "big").hex())
        at, slot = HEADER + 2 * self.random.randrange(self.nodes), self.random.randrange(last + 1)
        effect = self.effect()
        whole = self.random.choice(["drop", "twice", {"cut": 1}, {"time": 25}])
        end = self.random.choice(["drop", poke(HEADER, "01"), {"raw": ""}])
        return [
            [("all", "all", whole)],
            [("all", [data], told)],
            [("all", [slot], effect)],
            [(some, [slot], effect)],
            [(some, [data], told), (rest, [data], poke(value_at(0), value_hex(-999)))],
            [(some, [reports], poke(at, "0081"))],
            [(some, [CLAIM_SLOT], poke(HEADER, "00"))],
            [(some, [last], end)],
            [(some, [0], poke(at, "0001"))],
        ]

    def clock_lies(self, node: int, period: int, to: list[int], others: list[int]) -> None:
        """One or two lies about a clock in a period; the second one overlaps the first."""
        for told in (to, others)[:self.random.randint(1, 2)]:
            by = self.random.randint(-5000, 5000)
            self.lies.append({"from": node, "to": told, "periods": [period, period], "by": by})

    def mislead(self, node: int, period: int) -> None:
        """A node restarts, and most others are heard with another count: perhaps above the cap."""
        self.restarts.add((period, node))
        others = [other for other in range(self.nodes) if other != node]
        count = self.random.choice(["0000", "0003", "0009", "0029", "ffff"])
        at = HEADER + 2 + 2 * self.random.randrange(self.nodes)
        for other in self.random.sample(others, self.random.randint(len(others) // 2 + 1, len(others))):
            self.lines.add(other, [node], [period, period], [0], poke(at, count))

    def isolate(self, node: int, period: int) -> None:
        """A node restarts and hears nobody for some periods, so that it stays Cold."""
        self.restarts.add((period, node))
        last = min(self.periods - 1, period + self.random.randint(0, 2))
        for other in range(self.nodes):
            if other != node:
                self.lines.add(other, [node], [period, last], [0], "drop")

    def accuse_all(self) -> None:
        """All accuse each other in one period, so that all would leave where the policy is strict."""
        self.strict = True
        period = self.random.randrange(self.periods)
        for node in range(self.nodes):
            row = "".join("0000" if it == node else "00ff" for it in range(self.nodes))
            self.lines.add(node, "all", [period, period], [report_slot(self.m)], poke(HEADER, row))

    def drop_values(self) -> None:
        """Nobody hears a value in one period, in which a node restarts: it has no vote."""
        period = self.random.randrange(1, self.periods)
        self.restarts.add((period, self.random.randrange(self.nodes)))
        for node in range(self.nodes):
            self.lines.add(node, "all", [period, period], [data_slot(self.m)], "drop")

    def befall(self) -> None:
        """Liars, and some of what befalls all."""
        bound = max(1, min(max(self.m, 1), (self.nodes - self.m - 1) // 2))
        count = self.random.randint(0, bound) if self.random.random() < 0.9 else min(bound + 1, self.nodes)
        for node in self.random.sample(range(self.nodes), count):
            first = self.random.randrange(self.periods)
            last = min(self.periods - 1, first + self.random.randint(0, 2))
            self.lie(node, first, last)
            if last + 1 < self.periods and self.random.random() < 0.8:
                self.restarts.add((self.random.randrange(last + 1, self.periods), node))
        if self.periods == 1:
            return
        if self.random.random() < 0.2:
            self.restarts.add((self.random.randrange(1, self.periods), self.random.randrange(self.nodes)))
        rare = self.random.random()
        if rare < 0.03:
            self.restarts |= {(self.periods - 1, node) for node in range(self.nodes)}
        elif rare < 0.08:
            period = self.random.randrange(1, self.periods)
            many = self.random.sample(range(self.nodes), self.random.randint(2, self.nodes - 1))
            self.restarts |= {(period, node) for node in many}
        elif rare < 0.13:
            self.mislead(self.random.randrange(self.nodes), self.random.randrange(1, self.periods))
        elif rare < 0.17:
            self.isolate(self.random.randrange(self.nodes), self.random.randrange(1, self.periods))
        elif rare < 0.20:
            self.accuse_all()
        elif rare < 0.23:
            self.drop_values()

    def scenario(self) -> Json:
        """The whole scenario."""
        tasks = [self.task(k) for k in range(self.random.choice([0, 1, 2, 3]))]
        channels = [self.channel(tasks) for _ in range(self.random.choice([1, 2, 3, 4]))]
        self.befall()
        restarts = [{"node": node, "period": period} for period, node in sorted(self.restarts)]
        drawn = {"nodes": self.nodes, "m": self.m, "periods": self.periods, "policy": self.policy(),
                 "channels": channels, "tasks": tasks, "faults": self.lines.all, "restarts": restarts,
                 "frame": self.random.randint(1, self.periods), "order": self.random.randrange(self.nodes)}
        if self.version == 2:
            drawn["version"] = 2
            if self.random.random() < 0.7:
                drawn["clock"] = self.clock()
        return drawn


def scenario(seed: int) -> Json:
    """The scenario of a number."""
    return Drawing(seed).scenario()


# ---- frames made of those that a run shows


def _other_entry(source: random.Random, data: Json, width: int, round_: int, entry: bytes) -> bytes:
    """Another entry in an entry's place: another value, another depth of a fault, or what is no entry."""
    tag = source.randint(1, round_ + 1)
    value = bytes([source.choice([0, 255])]) if width == 2 else source.choice(["0000", "0080", "0001"]).encode()
    if width > 2:
        value = b"".join(bytes.fromhex(source.choice(["0000", "0000", "0080", "0001"])) for _ in range(data["nodes"]))
    return source.choice([bytes([0]) + value, bytes([tag]) + bytes(width - 1), entry[:1] + entry[:0:-1]])


def _relay_line(source: random.Random, data: Json, lines: Lines, frame: list[str]) -> bool:
    """Alters an entry of a relay frame that the trace shows, and puts the frame back: to some, or to all."""
    period, slot, sender = (int(it) for it in frame[1:4])
    given = bytes.fromhex(frame[6])
    width = 2 if given[3] == 3 else 1 + 2 * data["nodes"]
    count = (len(given) - HEADER) // width
    at = HEADER + width * source.randrange(min(count, 4096 // width - 1))
    round_ = slot - (CLAIM_SLOT if given[3] == 3 else report_slot(data["m"]))
    entry = _other_entry(source, data, width, round_, given[at:at + width])
    altered = given[:at] + entry + given[at + width:]
    effect = {"raw": altered.hex()} if len(altered) <= 4096 and source.random() < 0.5 else poke(at, entry.hex())
    others = [it for it in range(data["nodes"]) if it != sender]
    to = "all" if source.random() < 0.2 else sorted(source.sample(others, source.randint(1, len(others))))
    return lines.add(sender, to, [period, period], [slot], effect)


def _outsider_line(source: random.Random, data: Json, lines: Lines, outside: list[tuple[int, int]]) -> bool:
    """One that is no member speaks otherwise than it would: it claims, accuses, or tells a value."""
    period, node = source.choice(outside)
    m, others = data["m"], [it for it in range(data["nodes"]) if it != node]
    slot, effect = source.choice([
        (CLAIM_SLOT, poke(HEADER, "00")), (report_slot(m), poke(HEADER, "00ff")),
        (data_slot(m), poke(value_at(0), value_hex(999))), (slots(m) - 1, poke(10, "00000002"))])
    to = sorted(source.sample(others, source.randint(1, len(others))))
    return lines.add(node, to, [period, period], [slot], effect)


def alter(seed: int, data: Json, trace: list[str]) -> tuple[Json, set[str]]:
    """The scenario with further lines made of what its trace shows, and what they are."""
    source = random.Random(f"{seed} altered")
    lines, did = Lines(data["nodes"], data["m"], list(data["faults"])), set()
    ill = {line["from"] for line in data["faults"]}
    frames = [line.split(" ") for line in trace if line.startswith("frame ") and not line.endswith(" -")]
    relays = [it for it in frames if it[6][6:8] in ("03", "06") and len(it[6]) > 2 * HEADER]
    well = [it for it in relays if int(it[3]) in ill] or relays
    for _ in range(source.randint(0, 2) if relays else 0):
        if _relay_line(source, data, lines, source.choice(well if source.random() < 0.85 else relays)):
            did.add("altered relay entry")
    heads = [line.split(" ") for line in trace if line.startswith("period ")]
    outside = [(int(it[1]), node) for it in heads if it[3] != "-"
               for node in range(data["nodes"]) if str(node) not in it[3].split(",")]
    if outside and source.random() < 0.7 and _outsider_line(source, data, lines, outside):
        did.add("excluded node that speaks")
    return {**data, "faults": lines.all}, did


if __name__ == "__main__":
    print(json.dumps(scenario(int(sys.argv[1])), separators=(",", ":")))
