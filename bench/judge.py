#!/usr/bin/env python3
"""Prints how many scenarios a second one processor judges: those that it draws, and those that it reads, by nodes and
periods.

    bench/judge.py [JUDGE [SECONDS]]

JUDGE is by default what `./maft prove` keeps. Of each size the least time of five calls is taken, each of so many
scenarios that it lasts about SECONDS (1).
"""
import json
import pathlib
import resource
import subprocess
import sys

TOP = pathlib.Path(__file__).resolve().parent.parent
sys.path.insert(0, str(TOP / "tools"))
from maft_tools import judging  # noqa: E402
from maft_tools.drawing import Clock, Options  # noqa: E402

JUDGE = sys.argv[1] if len(sys.argv) > 1 else str(TOP / ".maft/judge")
SECONDS = float(sys.argv[2]) if len(sys.argv) > 2 else 1.0
CALLS = 5
SIZES = (
    ("5 nodes, m = 1, 8 periods, 1 ill", Options(nodes=5, m=1, periods=8, faulty=1)),
    ("7 nodes, m = 1, 16 periods, 2 ill", Options(nodes=7, m=1, periods=16, faulty=2)),
    ("7 nodes, m = 2, 16 periods, 2 ill", Options(nodes=7, m=2, periods=16, faulty=2)),
    ("the same with clocks and copies", Options(nodes=7, m=2, periods=16, faulty=2, clock=Clock(), copies=True)),
    ("8 nodes, m = 2, 128 periods, 2 ill", Options(nodes=8, m=2, periods=128, faulty=2)),
    ("10 nodes, m = 2, 16 periods, 3 ill", Options(nodes=10, m=2, periods=16, faulty=3)),
    ("16 nodes, m = 3, 16 periods, 5 ill", Options(nodes=16, m=3, periods=16, faulty=5)),
)


def processor_time(words: list[str], given: bytes) -> float:
    """The seconds of processor time that a call takes."""
    before = resource.getrusage(resource.RUSAGE_CHILDREN)
    subprocess.run([JUDGE, *words], input=given, stdout=subprocess.DEVNULL, check=True)
    after = resource.getrusage(resource.RUSAGE_CHILDREN)
    return after.ru_utime + after.ru_stime - before.ru_utime - before.ru_stime


def scenario(options: Options, index: int) -> bytes:
    return json.dumps(judging.shown(JUDGE, options, index), separators=(",", ":")).encode() + b"\n"


def main() -> None:
    print("size                                  drawn and judged          read and judged")
    for name, options in SIZES:
        line = judging.options_line(options)
        count = 20
        while count < 10 ** 6 and processor_time(["draw", "0", "0", str(count)], line) < SECONDS / 4:
            count *= 4
        drawn = min(processor_time(["draw", "0", "0", str(count)], line) for _ in range(CALLS)) / count
        some = [scenario(options, it) for it in range(min(count, 200))]
        given = b"".join(some) * max(1, count // len(some))
        read = min(processor_time([], given) for _ in range(CALLS)) / given.count(b"\n")
        told = [f"{1 / it:9,.0f} a second, {1e6 * it:6.0f} us" for it in (drawn, read)]
        print(f"{name:35} {told[0]}   {told[1]}")


main()
