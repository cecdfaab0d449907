#!/usr/bin/env python3
"""Prints what controllers that are fed live take, and clusters of them: periods a second, times and memory.

    bench/live.py [CONTROLLER [RUNS]]

For each size: how many periods a second tools/cluster runs, and how much processor time a period takes of it; of node
0's own input from a file, the controller's processor time of a period and its peak memory (which needs the command
`time`); and how long an answer takes behind `end`, when what was delivered is taken already: of each slot the least,
of these the greatest. Each is the best of RUNS runs (5). CONTROLLER is by default what ./maft runs.
"""
from __future__ import annotations

import pathlib
import resource
import subprocess
import sys
import tempfile
import time

TOP = pathlib.Path(__file__).resolve().parent.parent
sys.dont_write_bytecode = True
sys.path[:0] = [str(TOP / "tools"), str(TOP / "tests/lib")]
import benches  # noqa: E402
from maft_tools import cluster, drawing, plan, program, wires  # noqa: E402
from maft_tools.drawing import Options  # noqa: E402
from maft_tools.plan import Json  # noqa: E402

# how many periods are run, and how long what is delivered may take until it is read
SIZES = ((1000, 0.003, Options(nodes=4, m=1, faulty=1, periods=1000, seed=7)),
         (500, 0.003, Options(nodes=8, m=2, faulty=2, periods=500, seed=7)),
         (60, 0.003, Options(nodes=16, m=2, faulty=2, periods=60, seed=7)),
         (8, 0.02, Options(nodes=16, m=3, faulty=2, periods=8, seed=7)))
TRIED = 25


def seconds(who: int) -> float:
    """The processor time of this process, or of those that it ran."""
    used = resource.getrusage(who)
    return used.ru_utime + used.ru_stime


def clustered(scenario: Json, start: wires.Start, periods: int) -> tuple[float, float]:
    """The time of a period, and this process's part of it."""
    with cluster.Cluster(scenario, start) as made:
        began, used = time.perf_counter(), seconds(resource.RUSAGE_SELF)
        for period in range(periods):
            made.period(period)
        return ((time.perf_counter() - began) / periods, (seconds(resource.RUSAGE_SELF) - used) / periods)


def alone(controller: str, given: pathlib.Path, periods: int) -> float:
    """The processor time of a period of one controller that reads a file."""
    used = seconds(resource.RUSAGE_CHILDREN)
    with given.open("rb") as file:
        subprocess.run([controller, "0"], stdin=file, stdout=subprocess.DEVNULL, check=True)
    return (seconds(resource.RUSAGE_CHILDREN) - used) / periods


def memory(controller: str, given: pathlib.Path) -> str:
    """The peak memory of one controller."""
    try:
        with given.open("rb") as file:
            done = subprocess.run(["time", "-f", "%M", controller, "0"], stdin=file, stdout=subprocess.DEVNULL,
                                  stderr=subprocess.PIPE, text=True, check=True)
    except (OSError, subprocess.CalledProcessError):
        return "?"
    return f"{int(done.stdout or done.stderr.split()[-1]) / 1000:.1f}"


def slowest_answer(start: wires.Start, told: bytes, slots: int, pause: float) -> float:
    """How long an answer takes behind `end`: of each slot the least, of these the greatest."""
    wire, least, slot, waiting = start(0), [9.0] * slots, 0, b""
    for line in told.splitlines(True):
        if line.startswith(b"begin"):
            wire.tell(waiting + line)
            wire.line()
            slot, waiting = 0, b""
        elif line == b"end\n":
            wire.tell(waiting)
            time.sleep(pause)
            began, waiting = time.perf_counter(), b""
            wire.tell(line)
            wire.line()
            least[slot] = min(least[slot], time.perf_counter() - began)
            slot += 1
            for _ in range(4 if slot == slots else 0):
                wire.line()
        else:
            waiting += line
    wire.kill()
    return max(least)


def main() -> None:
    controller = program.find_controller(sys.argv[1] if len(sys.argv) > 1 else None)
    runs = int(sys.argv[2]) if len(sys.argv) > 2 else 5
    start = wires.local(controller)
    print("nodes m: periods/s, ms of the tool's; a controller's us a period, MB; ms from end to answer")
    for periods, pause, options in SIZES:
        scenario = drawing.drawn(options, 0)
        times = [clustered(scenario, start, periods) for _ in range(runs)]
        recorder = benches.Recorder(start, 0)
        clustered(scenario, recorder, periods)
        told = recorder.told
        front = told[:told.find(b"begin %d\n" % min(TRIED, periods)) if periods > TRIED else len(told)]
        with tempfile.TemporaryDirectory() as folder:
            given = pathlib.Path(folder) / "given"
            given.write_bytes(told)
            own, peak = min(alone(controller, given, periods) for _ in range(runs)), memory(controller, given)
        slowest = slowest_answer(start, front, plan.slots(options.m), pause)
        whole, tool = (min(it[at] for it in times) for at in (0, 1))
        print(f"{options.nodes} {options.m}: {1 / whole:.0f}, {1000 * tool:.2f}; {own * 1e6:.0f}, {peak}; "
              f"{slowest * 1000:.2f}", flush=True)


main()
