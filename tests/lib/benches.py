"""What the tests do to controllers: run clusters of them, feed them by hand, and say what a replay wants of them."""
from __future__ import annotations

import json
import subprocess
import threading
from collections.abc import Callable, Iterable

import lines
from maft_tools import cluster, wires
from maft_tools.history import History
from maft_tools.plan import Json
from maft_tools.program import run_well

# of each period, of each node its lines
Believed = list[list[list[str]]]


def wanted(program: str, scenario: Json) -> Believed:
    """What a replay of the scenario says of each node, but for its class."""
    text = run_well(program, ["replay"], scenario)
    by_node = []
    for node in range(scenario["nodes"]):
        periods: list[list[str]] = []
        for line in lines.alone(text, node).splitlines()[:-1]:
            if line.startswith("period "):
                periods.append([])
            else:
                periods[-1].append(line)
        by_node.append(periods)
    return [[periods[at] for periods in by_node] for at in range(scenario["periods"])]


def offsets_wanted(program: str, scenario: Json) -> list[list[int]]:
    """The clocks' offsets after each period of a replay."""
    text = run_well(program, ["replay"], scenario)
    return [[int(it) for it in line.split(" ")[4].split(",")] for line in text.splitlines() if line[:6] == "clock "]


class Run:
    """A run of a cluster of processes: what the nodes believed, the clocks' offsets, and its history."""

    def __init__(self, scenario: Json, start: wires.Start, kills: Iterable[cluster.Kill] = (),
                 network: cluster.Network | None = None) -> None:
        self.history = History(scenario["nodes"], True)
        self.believed: Believed = []
        self.offsets: list[list[int]] = []
        made = cluster.Cluster(scenario, start, network, self.history)
        made.kills = list(kills)
        with made:
            for period in range(scenario["periods"]):
                self.believed.append(made.period(period))
                self.offsets += [made.clocks.offsets] if made.clocks else []
        self.was = self.history.as_scenario(scenario, scenario["periods"])


def fed(path: str, node: int | str, given: bytes) -> tuple[int, bytes]:
    """The status and the text of a controller that is handed an input whole."""
    done = subprocess.run([path, str(node)], input=given, capture_output=True, timeout=120)
    return done.returncode, done.stdout + done.stderr


def fed_in_pieces(path: str, node: int, given: bytes, size: Callable[[], int]) -> tuple[int, bytes]:
    """The same of one that is handed it in pieces of such sizes."""
    process = subprocess.Popen([path, str(node)], stdin=subprocess.PIPE, stdout=subprocess.PIPE, bufsize=0)
    assert process.stdin is not None and process.stdout is not None
    got: list[bytes] = []
    reader = threading.Thread(target=lambda: got.append(process.stdout.read()))  # type: ignore[union-attr]
    reader.start()
    at = 0
    try:
        while at < len(given):
            at += process.stdin.write(given[at:at + size()]) or 0
        process.stdin.close()
    except BrokenPipeError:
        # it ended before all was handed over
        pass
    reader.join()
    return process.wait(), got[0]


class Recorder:
    """Starts controllers, and keeps what the one of a node is told and answers."""

    def __init__(self, start: wires.Start, node: int) -> None:
        self.start, self.node = start, node
        self.told, self.answered = b"", b""

    def __call__(self, node: int) -> wires.Wire:
        wire = self.start(node)
        if node == self.node:
            tell, line = wire.tell, wire.line

            def told(text: bytes) -> None:
                self.told += text
                tell(text)

            def answered() -> bytes:
                got = line()
                self.answered += got + b"\n"
                return got

            wire.tell, wire.line = told, answered  # type: ignore[method-assign]
        return wire


def scenario_line(scenario: Json) -> bytes:
    """A scenario as the first line of a controller's input."""
    return json.dumps(scenario, separators=(",", ":")).encode() + b"\n"
