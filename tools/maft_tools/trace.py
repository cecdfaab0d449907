"""Reads a trace or a log period by period, and keeps of its frames those that are asked for."""
from __future__ import annotations

import contextlib
import copy
import dataclasses
import re
import json
import subprocess
import tempfile
from collections.abc import Iterable, Iterator
from typing import Any

from . import check, program, text
from .plan import Json, WordsError

# what arrived of one frame: ticks, and the bytes in hexadecimal
Arrived = list[tuple[int, bytes]]


_FRAME = re.compile(rb"frame ([0-9]{1,9}) ([0-9]{1,9}) ([0-9]{1,9}) ([0-9]{1,9}) ([0-9]{1,9}) (-|[0-9a-f]+)")


@dataclasses.dataclass
class Wanted:
    """What is asked for: periods, and the nodes that were delivered; None for all."""

    periods: set[int] | None = None
    nodes: set[int] | None = None

    def takes(self, period: int, slot: int, node: int) -> bool:
        """Whether a frame is asked for; a period's findings of reports also tell of the next one."""
        near = self.periods is None or period in self.periods or period + 1 in self.periods
        return near and (self.nodes is None or node in self.nodes)

    @property
    def last(self) -> int | None:
        """The last period that is asked for."""
        return None if self.periods is None else max(self.periods)


@dataclasses.dataclass
class Slice:
    """One period: what its nodes believe, and the frames that are asked for, by slot, sender and receiver."""

    period: text.Period
    frames: dict[tuple[int, int, int], Arrived]
    slots: int


def cut_behind(scenario: Json, last: int) -> Json:
    """A scenario without the periods behind `last`; what happens up to there stays as it is."""
    if last + 1 >= scenario["periods"]:
        return scenario
    made = copy.copy(scenario)
    made["periods"] = last + 1
    made["frame"] = scenario.get("frame", scenario["periods"])
    if "restarts" in made:
        made["restarts"] = [it for it in made["restarts"] if it["period"] <= last]
    if "faults" in made:
        made["faults"] = _cut_spans(made["faults"], last)
    if "clock" in made:
        made["clock"] = {**made["clock"], "lies": _cut_spans(made["clock"]["lies"], last)}
    return made


def _cut_spans(lines: list[Json], last: int) -> list[Json]:
    return [{**it, "periods": [it["periods"][0], min(last, it["periods"][1])]} for it in lines
            if it["periods"][0] <= last]


def _period_of(lines: list[bytes]) -> text.Period:
    """The record of a period's lines that are no frames'."""
    decoded = [it.decode("ascii", "replace").rstrip("\r\n") for it in lines]
    return text.read_part(decoded)


def _take(line: bytes, wanted: Wanted, frames: dict[tuple[int, int, int], Arrived], known: dict[bytes, bytes]) -> int:
    """Keeps a frame's line if it is asked for; answers its slot."""
    found = _FRAME.fullmatch(line.rstrip(b"\r\n"))
    if found is None or len(found[6]) % 2 and found[6] != b"-":
        raise WordsError(f"this isn't a frame's line: {line[:80]!r}")
    period, slot, sender, receiver, tick = map(int, found.groups()[:5])
    if wanted.takes(period, slot, receiver):
        data = b"" if found[6] == b"-" else found[6]
        frames.setdefault((slot, sender, receiver), []).append((tick, known.setdefault(data, data)))
    return slot


def slices(lines: Iterable[bytes], wanted: Wanted) -> Iterator[Slice]:
    """The periods of a trace's text, each as soon as it is over. Frames of equal bytes are kept once."""
    held: list[bytes] = []
    frames: dict[tuple[int, int, int], Arrived] = {}
    known: dict[bytes, bytes] = {}
    slots, has_end = 0, False
    for line in lines:
        if line.startswith(b"frame "):
            slots = max(slots, _take(line, wanted, frames, known) + 1)
            continue
        if line.startswith((b"period ", b"end ")) and held:
            yield Slice(_period_of(held), frames, slots)
            held, frames, known = [], {}, {}
        has_end = line.startswith(b"end ")
        if line.startswith((b"refused ", b"storm ")):
            text.read([line.decode()])
        if not has_end and line.strip():
            held.append(line)
    if not has_end:
        raise WordsError("the text is cut short: it has no end line")


def of_scenario(maft: str, scenario: Json, wanted: Wanted) -> Iterator[Slice]:
    """The periods of a scenario's trace, as the program writes them, up to the last period that is asked for."""
    asked = scenario if wanted.last is None or check.findings(scenario) else cut_behind(scenario, wanted.last)
    with tempfile.TemporaryFile() as given:
        given.write(program.input_of(asked))
        given.seek(0)
        with subprocess.Popen([maft, "replay", "trace"], stdin=given, stdout=subprocess.PIPE) as runs:
            assert runs.stdout is not None
            first = runs.stdout.readline()
            if not first.startswith(b"refused ") and first:
                with contextlib.closing(runs.stdout):
                    yield from slices(_chained(first, runs.stdout), wanted)
        if runs.returncode:
            why = program.why_not(asked, ["replay", "trace"], runs.returncode, first.decode().strip())
            raise WordsError(f"the scenario is {why}" if runs.returncode == 4 else why)


def _chained(first: bytes, others: Iterable[bytes]) -> Iterator[bytes]:
    yield first
    yield from others


def of_log(maft: str, log: Json, node: int, wanted: Wanted) -> Iterator[Slice]:
    """The periods of a node's log, as the program replays it."""
    lines = program.run_well(maft, ["node", str(node)], json.dumps(log)).encode().splitlines()
    slots = 2 * log["scenario"]["m"] + 4
    by_period: dict[int, list[list[Any]]] = {}
    for entry in log["frames"]:
        by_period.setdefault(entry[0], []).append(entry)
    for it in slices(lines, wanted):
        for period, slot, sender, tick, data in by_period.get(it.period.number, []):
            if wanted.takes(period, slot, node):
                it.frames.setdefault((slot, sender, node), []).append((tick, data.lower().encode()))
        yield Slice(it.period, it.frames, slots)
