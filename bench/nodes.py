#!/usr/bin/env python3
"""Prints how long a period takes a node that is stepped frame by frame, for clusters of three sizes.

    bench/nodes.py [PARTS]

All nodes of a cluster without faults are stepped through 64 periods in one process, frames and all, and the least time
of a period is shared by them: so what carries the frames counts too. It is the least of several processes. PARTS is
another build of crates/bench_parts than `rt run` makes.
"""
from __future__ import annotations

import json
import pathlib
import re
import subprocess
import sys

import node

PARTS = pathlib.Path(__file__).resolve().parent.parent / "crates/bench_parts"
PERIODS = 64
CALLS = 9
TOOK = re.compile(r"(\d+) us a node and period\n")


def took(path: str, nodes: int, m: int) -> int:
    """The microseconds that one process tells for a cluster of this size."""
    given = json.dumps(node.scenario_of(nodes, m, PERIODS))
    told = subprocess.run([path, "nodes"], input=given, capture_output=True, text=True, check=True).stdout
    found = TOOK.fullmatch(told)
    if found is None:
        sys.exit(f"{path} told no time: {told[:60]!r}")
    return int(found[1])


def main() -> None:
    """Times and prints."""
    if len(sys.argv) < 2:
        subprocess.run(["rt", "run"], cwd=PARTS, stdin=subprocess.DEVNULL, check=True)
    path = sys.argv[1] if len(sys.argv) > 1 else str(PARTS / "out/bench_parts")
    for nodes, m in node.SIZES:
        print(f"{nodes} nodes, m {m}: {min(took(path, nodes, m) for _ in range(CALLS))} us a node and period", flush=True)


main()
