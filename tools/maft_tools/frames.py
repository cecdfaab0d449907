"""Reads frames, as docs/FORMATS.md has them: bytes become a content, or a sentence of what is wrong with them.

A value of a relay entry is a number: a plain value v (of a claim its byte, of a row its masks as one number) is v
itself, and an error that was wrapped k times is -1 - k.
"""
from __future__ import annotations

import dataclasses
import itertools
from typing import Union

from . import plan
from .plan import HEADER

Path = tuple[int, ...]
NO_CLAIM = 255
IDLE, PASSED, FAILED = 0, 65534, 65535
KIND_NAMES = {1: "State", 2: "Done0", 3: "DoneRelay", 4: "Data", 5: "Report0", 6: "ReportRelay", 7: "Cold"}


@dataclasses.dataclass(frozen=True)
class Sizes:
    """What the frames of a cluster are laid out for."""

    version: int
    nodes: int
    m: int
    tasks: int

    @property
    def state_bytes(self) -> int:
        """How many bytes an agreed state has."""
        return 2 + 4 * self.nodes + 2 * self.nodes * self.tasks + (2 * self.nodes if self.version == 2 else 0)

    def kind_of(self, slot: int) -> int:
        """The kind of the frames of a slot."""
        if slot <= 1:
            return slot + 1
        if slot <= self.m + 1:
            return 3
        return {self.m + 2: 4, self.m + 3: 5}.get(slot, 6)

    def round_of(self, slot: int) -> int:
        """Which relay round a slot is, 0 where it is none."""
        if 2 <= slot <= self.m + 1:
            return slot - 1
        return max(0, slot - self.m - 3)


@dataclasses.dataclass(frozen=True)
class Expectation:
    """What a receiver expects: a slot of a period, a sender, the members, and how many values are due."""

    sizes: Sizes
    period: int
    slot: int
    sender: int
    members: Path
    due: int


@dataclasses.dataclass(frozen=True)
class State:
    """The body of a State frame: the members; a count, a streak and how often it left by node; copies by task."""

    members: Path
    counts: Path
    streaks: Path
    left: Path
    copies: tuple[Path, ...]


@dataclasses.dataclass(frozen=True)
class Cold:
    """A sender that has no agreed state."""


# a state, a claim or a row as a number, values, relay entries, or Cold
Content = Union[State, int, Path, Cold]


class Malformed(ValueError):
    """Bytes that say nothing to what is expected, with a sentence why."""


def fault(times: int) -> int:
    """The value of an error that was wrapped so often."""
    return -1 - times


def wrapped(value: int) -> int:
    """A value as it is relayed."""
    return value if value >= 0 else value - 1


def unwrapped(value: int) -> int:
    """The value of which this is the wrapped one."""
    return value if value >= 0 or value == fault(0) else value + 1


def paths(members: Path, sender: int, length: int) -> list[Path]:
    """The paths of a relay frame, in the order of its entries; of a sender that is no member there are none."""
    if sender not in members:
        return []
    return list(itertools.permutations([it for it in members if it != sender], length))


def masks(row: int, nodes: int) -> list[int]:
    """The masks of a row, by node."""
    return [row >> 16 * (nodes - 1 - at) & 0xffff for at in range(nodes)]


def row_of(values: list[int]) -> int:
    """The row with these masks."""
    made = 0
    for it in values:
        made = made << 16 | it
    return made


def _number(data: bytes, at: int, size: int) -> int:
    return int.from_bytes(data[at:at + size], "big")


def _header(data: bytes, want: Expectation) -> int:
    """The kind; raises Malformed where the header isn't as expected."""
    if len(data) < HEADER:
        raise Malformed(f"it has {len(data)} bytes, and a header has {HEADER}")
    fields = ((0, 2, "magic", 0x4d46), (2, 1, "version", want.sizes.version), (4, 4, "period", want.period),
              (8, 1, "sender", want.sender), (9, 1, "slot", want.slot))
    for at, size, name, value in fields:
        said = _number(data, at, size)
        if said != value:
            shown = (f"{said:04x}", f"{value:04x}") if name == "magic" else (said, value)
            raise Malformed(f"its {name} is {shown[0]}, and {shown[1]} was expected")
    if _number(data, 10, 4) != len(data) - HEADER:
        raise Malformed(f"its length says {_number(data, 10, 4)} bytes, and {len(data) - HEADER} follow")
    kind, wanted = data[3], want.sizes.kind_of(want.slot)
    if kind not in (wanted, 7):
        raise Malformed(f"its kind is {KIND_NAMES.get(kind, kind)}, and {KIND_NAMES[wanted]} was expected")
    return kind


def _has(body: bytes, count: int, what: str) -> None:
    if len(body) != count:
        raise Malformed(f"its body has {len(body)} bytes, and {what} has {count}")


def read(data: bytes, want: Expectation) -> Content:
    """What bytes say to a receiver that expects this; raises Malformed where they say nothing."""
    kind, body, sizes = _header(data, want), data[HEADER:], want.sizes
    if kind == 7:
        _has(body, 0, "Cold")
        return Cold()
    if kind == 1:
        _has(body, sizes.state_bytes, "a state")
        return state(body, sizes)
    if kind == 2:
        _has(body, 1, "a claim")
        return _claim(body[0], sizes)
    if kind == 4:
        _has(body, 8 * want.due, f"{want.due} value{'' if want.due == 1 else 's'}")
        return _values(body)
    if kind == 5:
        _has(body, 2 * sizes.nodes, "a row")
        return _row(body, sizes, "")
    return _entries(body, want)


def state(body: bytes, sizes: Sizes) -> State:
    """A state by its bytes."""
    nodes, at = sizes.nodes, 2

    def take() -> Path:
        nonlocal at
        at += 2 * nodes
        return tuple(_number(body, at - 2 * nodes + 2 * it, 2) for it in range(nodes))

    mask = _number(body, 0, 2)
    counts, streaks = take(), take()
    left = take() if sizes.version == 2 else ()
    return State(tuple(it for it in range(16) if mask >> it & 1), counts, streaks, left,
                 tuple(take() for _ in range(sizes.tasks)))


def _claim(byte: int, sizes: Sizes) -> int:
    if byte != NO_CLAIM and byte >= sizes.tasks:
        raise Malformed(f"it claims task {byte}, and there are {sizes.tasks}")
    return byte


def _values(body: bytes) -> Path:
    values = tuple(int.from_bytes(body[at:at + 8], "big", signed=True) for at in range(0, len(body), 8))
    for value in values:
        if not -plan.VALUE_LIMIT <= value <= plan.VALUE_LIMIT:
            raise Malformed(f"its value {value} is outside -2^42 to 2^42")
    return values


def _row(body: bytes, sizes: Sizes, where: str) -> int:
    if sizes.version == 1 and any(body[::2]):
        at = next(it for it in range(0, len(body), 2) if body[it])
        raise Malformed(f"{where}its mask for node {at // 2} is {_number(body, at, 2)}, "
                        "and version 1 has masks up to 255")
    return int.from_bytes(body, "big")


def _entries(body: bytes, want: Expectation) -> Path:
    """The values of a relay frame, by path."""
    sizes, length = want.sizes, want.sizes.round_of(want.slot)
    is_claim = want.slot <= sizes.m + 1
    size = 2 if is_claim else 1 + 2 * sizes.nodes
    every = paths(want.members, want.sender, length)
    _has(body, size * len(every), f"a frame of {len(every)} relay entries")
    found = []
    for at, path in zip(range(0, len(body), size), every):
        tag, value = body[at], body[at + 1:at + size]
        if tag == 0:
            where = f"in the entry of path {shown_path(path)}, "
            try:
                found.append(_claim(value[0], sizes) if is_claim else _row(value, sizes, where))
            except Malformed as error:
                raise Malformed(str(error) if not is_claim else where + str(error)) from None
        elif tag > length or any(value):
            raise Malformed(f"the entry of path {shown_path(path)} has the tag {tag}"
                            + (f", and a tag is at most {length}" if tag > length else " and a value beside it"))
        else:
            found.append(fault(tag))
    return tuple(found)


def shown_path(path: Path) -> str:
    """A path in words: `3` or `3 > 1`, the item's node first and who told it last."""
    return " > ".join(map(str, path))
