#!/usr/bin/env python3
"""Measures the program on thirteen workloads.

    bench/workloads.sh [PROGRAM..]

Prints for each workload the least processor time of several interleaved runs, output bytes a second, and peak memory. With more than
one program each has a line, and that of a further one says how many times as long the first takes, and whether it wrote another
text. Without one it is the program that `maft prove` keeps. The status is 1 where a program failed or a text is another.
Nothing is claimed of these figures.
"""
from __future__ import annotations

import hashlib
import json
import os
import pathlib
import random
import shutil
import subprocess
import sys
import tempfile
from typing import Any

TOP = pathlib.Path(__file__).resolve().parent.parent
LONG = (TOP / "tests/cases/long_run/stdin").read_text()
RUNS = 5


def fault(sender: int, to: list[int] | str, periods: tuple[int, int], slots: list[int] | str, effect: Any) -> dict[str, Any]:
    """A fault line."""
    return {"from": sender, "to": to, "periods": list(periods), "slots": slots, "effect": effect}


def long_run(periods: int, faults: list[dict[str, Any]]) -> str:
    """The long run's cluster of 8 nodes with two relay rounds, channels and tasks, over so many periods, with these faults."""
    return json.dumps({**json.loads(LONG), "periods": periods, "faults": faults, "restarts": []})


def wide(periods: int, faults: list[dict[str, Any]], restarts: list[dict[str, int]]) -> str:
    """16 nodes with three relay rounds over so many periods, with these faults and restarts."""
    policy = {"weights": [5] * 16, "exclude": 60000, "readmit": 4, "credit": 1, "streak": 2, "cap": 60000}
    return json.dumps({"version": 2, "nodes": 16, "m": 3, "periods": periods, "policy": policy, "faults": faults, "restarts": restarts})


def two_liars() -> str:
    """1,024 periods of 8 nodes, of which two lie in a relayed row in half of the periods."""
    lie = {"set": {"at": 15, "hex": "01"}}
    return long_run(1024, [fault(6 + k % 2, [0, 2, 4], (4 * k, 4 * k + 1), [5], lie) for k in range(256)])


def five_odd() -> str:
    """16 periods of 16 nodes with three relay rounds, of which three lie, one is silent and one says a frame twice."""
    lie = {"set": {"at": 14, "hex": "0002"}}
    liars = [fault(node, [0, 1, 2], (0, 15), [6], lie) for node in (12, 13, 14)]
    return wide(16, [*liars, fault(15, "all", (0, 15), "all", "drop"), fault(11, "all", (0, 15), [7], "twice")], [])


def three_liars() -> str:
    """1,024 periods of 8 nodes, of which three lie throughout: in a row, a claim and what is relayed."""
    return long_run(1024, [
        fault(7, [0, 1, 2], (4, 1010), [5], {"set": {"at": 15, "hex": "01"}}),
        fault(6, [0, 1, 2, 3], (8, 1000), [6], {"set": {"at": 14, "hex": "0007"}}),
        fault(5, [1, 3], (8, 1000), [7], "drop"),
    ])


def random_bytes() -> str:
    """256 periods of 8 nodes, with two frames of random bytes in each."""
    draw = random.Random(7)
    faults = []
    for period in range(256):
        for sender, slot in ((7, 6), (6, 7)):
            length = draw.choice((98, 728))
            to = sorted(draw.sample(range(6), 3))
            faults.append(fault(sender, to, (period, period), [slot], {"raw": draw.randbytes(length).hex()}))
    return long_run(256, faults)


def many_lines() -> str:
    """1,024 periods of 8 nodes with 4,096 lines: in each period four nodes tell one other something else of one slot."""
    lie = {"set": {"at": 15, "hex": "01"}}
    return long_run(1024, [fault(4 + k, [(period + k) % 4], (period, period), [5], lie) for period in range(1024) for k in range(4)])


def restarting() -> str:
    """32 periods of 16 nodes with three relay rounds, of which thirteen restart in every other period."""
    return wide(32, [], [{"node": node, "period": period} for period in range(1, 32, 2) for node in range(13)])


WORKLOADS = [
    ("a: storm 7", ["storm", "7"], ""),
    ("b: 64 periods of 8 nodes, tasks and channels", ["replay"], LONG),
    ("c: the same traced", ["replay", "trace"], LONG),
    ("d: 1,024 periods of 8 nodes", ["replay"], long_run(1024, [])),
    ("e: the same with liars", ["replay"], two_liars()),
    ("f: 16 periods of 16 nodes, m = 3", ["replay"], wide(16, [], [])),
    ("g: the same with five lying or silent nodes", ["replay"], five_odd()),
    ("h: the same traced", ["replay", "trace"], five_odd()),
    ("i: 1,024 periods of 8 nodes, three liars throughout", ["replay"], three_liars()),
    ("j: 256 periods of 8 nodes, two frames of random bytes in each", ["replay"], random_bytes()),
    ("k: 1,024 periods of 16 nodes, m = 3", ["replay"], wide(1024, [], [])),
    ("l: 1,024 periods of 8 nodes, 4,096 fault lines", ["replay"], many_lines()),
    ("m: 32 periods of 16 nodes, m = 3, thirteen restart in every other one", ["check"], restarting()),
]


def run(program: str, words: list[str], given: str) -> tuple[float, tuple[int, bytes], int]:
    """Processor seconds of one run, what it wrote, as its length and a sum, and the status."""
    with tempfile.TemporaryFile() as source, tempfile.TemporaryFile() as sink:
        source.write(given.encode())
        source.seek(0)
        child = subprocess.Popen([program, *words], stdin=source, stdout=sink)
        _, status, usage = os.wait4(child.pid, 0)
        size = sink.seek(0, os.SEEK_END)
        sink.seek(0)
        total = hashlib.sha256()
        for piece in iter(lambda: sink.read(1 << 20), b""):
            total.update(piece)
        return usage.ru_utime + usage.ru_stime, (size, total.digest()), os.waitstatus_to_exitcode(status)


def memory(program: str, words: list[str], given: str) -> float | None:
    """Peak memory in MB of one run, where a small program that starts it is there to tell it: a child of this one would
    inherit this one's own peak."""
    timer = shutil.which("time")
    if timer is None:
        return None
    with tempfile.NamedTemporaryFile("r") as told:
        subprocess.run([timer, "-f", "%M", "-o", told.name, program, *words], input=given.encode(), stdout=subprocess.DEVNULL, check=False)
        return int(told.read().split()[-1]) / 1024


def least(programs: list[str], words: list[str], given: str) -> dict[str, tuple[float, tuple[int, bytes]]]:
    """By program the least processor seconds of several interleaved runs, and what it writes; none where one fails."""
    best = {}
    for _ in range(RUNS):
        for program in programs:
            seconds, wrote, status = run(program, words, given)
            if status != 0:
                print(f"{program} {' '.join(words)} ended with {status}")
                return {}
            if program not in best or seconds < best[program][0]:
                best[program] = (seconds, wrote)
    return best


def told(seconds: float, size: int, peak: float | None) -> str:
    """Time, bytes a second and memory in words."""
    memory_in_words = "" if peak is None else f", {peak:.1f} MB"
    return f"{seconds * 1000:.1f} ms, {size / max(seconds, 1e-6) / 1e6:.0f} MB/s{memory_in_words}"


def main() -> int:
    programs = [str(pathlib.Path(it).resolve()) for it in sys.argv[1:]] or [str(TOP / ".maft/maft")]
    lacking = [it for it in programs if not os.access(it, os.X_OK)]
    if lacking:
        sys.exit(f"bench/workloads.sh: there is no program {lacking[0]}")
    if shutil.which("time") is None:
        print("peak memory is not told: no program 'time' is on the PATH")
    well = True
    for name, words, given in WORKLOADS:
        best = least(programs, words, given)
        well = well and bool(best)
        for program, (seconds, wrote) in best.items():
            line = f"{name}: {told(seconds, wrote[0], memory(program, words, given))}"
            if program != programs[0]:
                first, wrote_first = best[programs[0]]
                line += f" by {program}; the first takes {first / max(seconds, 1e-6):.2f} times as long"
                line += "" if wrote == wrote_first else "; THE TEXTS DIFFER"
                well = well and wrote == wrote_first
            print(line, flush=True)
    return 0 if well else 1


if __name__ == "__main__":
    sys.exit(main())
