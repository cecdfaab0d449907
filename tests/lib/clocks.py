"""Clocks worked out by docs/PROTOCOL.md: what each node reads of the others, and how it corrects its own."""
from __future__ import annotations

from collections.abc import Sequence

from maft_tools.plan import Json
from worked import Node, vote


def lie_of(clock: Json, period: int, teller: int, reader: int) -> int:
    """What the first entry that fits adds to a reading."""
    nodes = len(clock["start"])
    for entry in clock["lies"]:
        to = [it for it in range(nodes) if it != teller] if entry["to"] == "all" else entry["to"]
        if entry["from"] == teller and entry["periods"][0] <= period <= entry["periods"][1] and reader in to:
            return entry["by"]
    return 0


def reading(clock: Json, period: int, offsets: Sequence[int], reader: int, teller: int) -> int:
    """How far a node reads another clock to be ahead of its own."""
    errors = clock["errors"]
    wrong = errors[(period + teller) % len(errors)][reader]
    return offsets[teller] - offsets[reader] + wrong + lie_of(clock, period, teller, reader)


def offsets_after(clock: Json, m: int, period: int, offsets: Sequence[int], nodes: Sequence[Node]) -> list[int]:
    """The offsets after a period that the nodes went through."""
    drifts, out = clock["drifts"], []
    for node in nodes:
        correction = None
        if node.mode != "cold":
            read = [reading(clock, period, offsets, node.me, it) for it in node.sync if it in node.members]
            correction = vote(read + ([0] if node.mode == "full" and node.me in node.members else []), m)
        out.append(offsets[node.me] + (correction or 0) + drifts[period % len(drifts)][node.me])
    return out
