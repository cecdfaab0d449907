"""Frames as docs/FORMATS.md has them: how one is spelt, what bytes say to a receiver, and what fault lines make of one.

This is written from the document, beside the program's own crates, so that a trace can be judged byte by byte.
"""
from __future__ import annotations

import dataclasses
import math
from typing import List, Optional, Tuple, Union

from maft_tools.plan import HEADER, RESTED_TICK, VALUE_LIMIT, Json

PASSED, FAILED = 65534, 65535
COLD = 7
KINDS = {"state": 1, "claims": 2, "values": 4, "rows": 5}
WINDOW = range(10, 21)
# what is heard for a path: the number of a fault, or the bytes of a claim or a row
Told = Union[int, bytes]
Arrivals = List[Tuple[int, bytes]]
Words = List[int]


def carries(slot: int, m: int) -> tuple[str, int]:
    """What a slot carries: state, claims, values or rows, and in which round."""
    if slot == 0:
        return "state", 0
    if slot <= m + 1:
        return "claims", slot - 1
    return ("values", 0) if slot == m + 2 else ("rows", slot - m - 3)


def spell(version: int, place: tuple[int, int, int], kind: int, body: bytes) -> bytes:
    """A frame of a period, a slot and a sender."""
    period, slot, sender = place
    head = b"MF" + bytes([version, kind]) + period.to_bytes(4, "big") + bytes([sender, slot])
    return head + len(body).to_bytes(4, "big") + body


def words_of(body: bytes) -> Words:
    """The numbers of two bytes of a body."""
    return [int.from_bytes(body[at:at + 2], "big") for at in range(0, len(body), 2)]


def bytes_of(words: Words) -> bytes:
    """Numbers in two bytes each."""
    return b"".join(it.to_bytes(2, "big") for it in words)


@dataclasses.dataclass
class State:
    """An agreed state. A copy of a task is 0 for idle, e in its e-th period, or PASSED or FAILED."""

    members: list[int]
    counts: Words
    streaks: Words
    left: Words
    copies: list[Words]

    def body(self, version: int) -> bytes:
        """The body of the state's frame."""
        words = [sum(1 << it for it in self.members), *self.counts, *self.streaks, *(self.left if version == 2 else [])]
        return bytes_of(words + [word for row in self.copies for word in row])

    def running(self, node: int) -> Optional[int]:
        """The task of which a node runs a copy."""
        return next((t for t, row in enumerate(self.copies) if 0 < row[node] < PASSED), None)


def copies_fit(tasks: list[Json], state: State) -> bool:
    """Whether a state's copies are ones that a state may have."""
    for task, row in zip(tasks, state.copies):
        for node, word in enumerate(row):
            if word and node not in task["nodes"]:
                return False
            if 0 < word < PASSED and (word > task["max"] or node not in state.members):
                return False
    return all(sum(0 < row[node] < PASSED for row in state.copies) <= 1 for node in range(len(state.counts)))


def state_length(scenario: Json) -> int:
    """How long the body of a state is."""
    return 2 * (1 + scenario["nodes"] * (scenario.get("version", 1) + 1 + len(scenario.get("tasks", []))))


def read_state(scenario: Json, body: bytes) -> Optional[State]:
    """The state that a body of the right length says, or None where it says none."""
    nodes, version, policy = scenario["nodes"], scenario.get("version", 1), scenario["policy"]
    words = words_of(body)
    rows = [words[at:at + nodes] for at in range(1, len(words), nodes)]
    left = rows[2] if version == 2 else [0] * nodes
    state = State([it for it in range(16) if words[0] >> it & 1], rows[0], rows[1], left, rows[version + 1:])
    if not state.members or state.members[-1] >= nodes:
        return None
    if max(state.counts) > policy["cap"] or max(state.streaks) >= policy["streak"]:
        return None
    return state if copies_fit(scenario.get("tasks", []), state) else None


def _entries(scenario: Json, what: str, tags: int, count: int, body: bytes) -> Optional[list[Told]]:
    """The entries of a relay frame; `tags` is its round."""
    width = 1 + (1 if what == "claims" else 2 * scenario["nodes"])
    if len(body) != width * count:
        return None
    told: list[Told] = []
    for at in range(0, len(body), width):
        tag, value = body[at], body[at + 1:at + width]
        if tag == 0 and in_range(scenario, what, value):
            told.append(value)
        elif 1 <= tag <= tags and not any(value):
            told.append(tag)
        else:
            return None
    return told


def in_range(scenario: Json, what: str, value: bytes) -> bool:
    """Whether these bytes are a claim, or a row."""
    if what == "claims":
        return len(value) == 1 and (value[0] == 255 or value[0] < len(scenario.get("tasks", [])))
    return len(value) == 2 * scenario["nodes"] and (scenario.get("version", 1) == 2 or max(words_of(value)) <= 255)


def _values(body: bytes, due: int) -> Optional[list[int]]:
    values = [int.from_bytes(body[at:at + 8], "big", signed=True) for at in range(0, len(body), 8)]
    return values if len(body) == 8 * due and all(abs(it) <= VALUE_LIMIT for it in values) else None


def said(scenario: Json, members: list[int], due: int, place: tuple[int, int, int], given: bytes) -> object:
    """What bytes say to one who expects a frame of this place: a body, an item, a list; COLD; or None for nothing."""
    m, (_, slot, sender) = scenario["m"], place
    what, tags = carries(slot, m)
    kind, body = given[3] if len(given) > 3 else 0, given[HEADER:]
    if kind not in (COLD, KINDS[what] + (tags > 0)) or given != spell(scenario.get("version", 1), place, kind, body):
        return None
    if kind == COLD:
        return COLD if not body else None
    if what == "state":
        return body if len(body) == state_length(scenario) else None
    if what == "values":
        return _values(body, due)
    if tags == 0:
        return body if in_range(scenario, what, body) else None
    count = math.perm(len(members) - 1, tags) if sender in members else 0
    return _entries(scenario, what, tags, count, body)


def arrivals(effect: object, frame: bytes) -> Arrivals:
    """What arrives of a frame on a link under a fault line's effect; None is for no line."""
    if effect == "drop":
        return []
    if effect == "twice":
        return [(RESTED_TICK, frame)] * 2
    if not isinstance(effect, dict):
        return [(RESTED_TICK, frame)]
    if "time" in effect:
        return [(effect["time"], frame)]
    if "cut" in effect:
        return [(RESTED_TICK, frame[:max(0, len(frame) - effect["cut"])])]
    if "raw" in effect:
        return [(RESTED_TICK, bytes.fromhex(effect["raw"]))]
    at, new = effect["set"]["at"], bytes.fromhex(effect["set"]["hex"])
    return [(RESTED_TICK, (frame[:at] + new + frame[at + len(new):])[:len(frame)] if at < len(frame) else frame)]
