"""Draws scenarios by a seed. The same options and seed give the same scenarios on every machine."""
from __future__ import annotations

import copy
import dataclasses
import random
from typing import Any

from .plan import VALUE_LIMIT, Json, WordsError, is_always_due
from .scenario import Scenario

CLASSES = ("benign", "symmetric", "asymmetric")
LIMITS = {
    "nodes": (3, 16), "m": (0, 3), "periods": (1, 1024), "faulty": (0, 16), "rate": (0, 1), "length": (1, 1024),
    "restart": (0, 1024),
    "seed": (0, 2 ** 32 - 1), "epsilon": (0, 2 ** 20), "drift": (0, 2 ** 20), "start": (0, 2 ** 40),
    "lie": (0, 2 ** 40),
}
# keys of a scenario that may be set where they don't stand yet
OPTIONAL = ("version", "frame", "order", "policy.retire")


@dataclasses.dataclass(frozen=True)
class Clock:
    """Clocks that start up to `start` apart, drift up to `drift` a period, and are read up to `epsilon` wrong.

    Who lies about its own clock says up to `lie` more or less.
    """

    epsilon: int = 1
    drift: int = 2
    start: int = 12
    lie: int = 2000


@dataclasses.dataclass(frozen=True)
class Options:
    """What is drawn. In each scenario `faulty` nodes fall ill; each is of one of the classes, drawn for it.

    In each period from 1 on a node that is well falls ill with the probability `rate`, for 1 to `length` periods. It
    restarts `restart` periods after the last of them; 0 is for a node that never restarts, and then isn't ill a second
    time.
    """

    nodes: int = 5
    m: int = 1
    periods: int = 16
    faulty: int = 1
    classes: tuple[str, ...] = CLASSES
    rate: float = 0.2
    length: int = 3
    restart: int = 2
    seed: int = 0
    clock: Clock | None = None
    copies: bool = False


@dataclasses.dataclass(frozen=True)
class Cluster:
    """What faults are drawn onto: a scenario that is given, or else one by the options, and then keys of it that are
    set."""

    options: Options
    base: Json | None = None
    settings: tuple[tuple[str, Any], ...] = ()

    @property
    def is_plain(self) -> bool:
        """Whether the options say all, so that the program judge draws the scenarios itself."""
        return self.base is None and not self.settings

    def scenario(self) -> Json:
        """The scenario without drawn faults."""
        named = dict(self.settings)
        data = base_of(self.options, named.get("version") == 2
            or "policy.retire" in named) if self.base is None else copy.deepcopy(self.base)
        for key, value in self.settings:
            put(data, key, value)
        return data

    def drawn(self, index: int) -> Json:
        """The scenario of this index, drawn here."""
        return drawn(self.options, index, self.scenario(), self.base is None)


def check(options: Options) -> None:
    """Raises WordsError, which names the option, where one is out of its range."""
    given = {**dataclasses.asdict(options), **(dataclasses.asdict(options.clock) if options.clock else {})}
    for name, (least, most) in LIMITS.items():
        value = given.get(name, least)
        whole = "" if name == "rate" else "a whole number "
        if isinstance(value, bool) or not isinstance(value, (int, float)
                if name == "rate" else int) or not least <= value <= most:
            raise WordsError(f"{name} is {value}, and must be {whole}from {least} to {most}")
    if options.faulty > options.nodes:
        raise WordsError(f"faulty is {options.faulty}, and must be from 0 to {options.nodes}, the number of nodes")
    for name in options.classes:
        if name not in CLASSES:
            raise WordsError(f"classes has '{name}', and must be some of {', '.join(CLASSES)}")


def put(data: Json, key: str, value: Any) -> None:
    """Sets what stands at a key, as in 'policy.exclude' or 'channels.0.delta'; raises WordsError where there is no
    such key."""
    holder: Any = data
    *path, last = key.split(".")
    for part in path:
        holder = _at(holder, part, key)
    if isinstance(holder, list):
        _at(holder, last, key)
        holder[int(last)] = value
        return
    if not isinstance(holder, dict) or last not in holder and key not in OPTIONAL:
        raise WordsError(f"the scenario has no key {key} that could be set")
    holder[last] = value


def _at(holder: Any, part: str, key: str) -> Any:
    if isinstance(holder, dict) and part in holder:
        return holder[part]
    if isinstance(holder, list) and part.isdecimal() and int(part) < len(holder):
        return holder[int(part)]
    raise WordsError(f"the scenario has no key {key} that could be set")


def clock_of(nodes: int, clock: Clock) -> Json:
    """Clocks whose starts, drifts and errors take the least, the middle and the greatest number in turn, each node
    another."""
    drifts = [[(node + row) % 3 * clock.drift // 2 for node in range(nodes)] for row in range(3)]
    errors = [[((node + row) % 3 - 1) * clock.epsilon for node in range(nodes)] for row in range(3)]
    start = [5 * node % 13 * clock.start // 12 for node in range(nodes)]
    return {"epsilon": clock.epsilon, "drift": clock.drift, "start": start, "drifts": drifts, "errors": errors,
        "lies": []}


def add_copies(data: Json, nodes: int) -> None:
    """A task with a copy on up to five nodes in each period, and a channel of what the copies come to."""
    group = list(range(min(nodes, 5)))
    data["frame"] = 1
    data["tasks"] = [{"after": [], "nodes": group, "need": len(group) // 2 + 1, "min": 1, "max": 1,
        "run": [1] * len(group)}]
    data["channels"].append({"kind": "copy", "delta": 4, "task": 0, "lies": 1,
        "readings": [[40 + node % 4 for node in range(nodes)]]})


def base_of(options: Options, is_second: bool = False) -> Json:
    """A cluster with one sensor, and a policy that excludes at the second bad period; of version 2 where that is asked
    for, or needed."""
    version = 2 if is_second or options.nodes > 8 or options.m > 2 or options.clock or options.copies else 1
    data: Json = {"version": 2} if version == 2 else {}
    policy = {"weights": [5] * (8 * version), "exclude": 10, "readmit": 4, "credit": 5, "streak": 1, "cap": 20}
    readings = [[100 + (3 * node + row) % 5 for node in range(options.nodes)] for row in range(3)]
    channels = [{"kind": "sensor", "delta": 4, "readings": readings}]
    data.update(nodes=options.nodes, m=options.m, periods=options.periods, policy=policy, channels=channels)
    if options.clock:
        data["clock"] = clock_of(options.nodes, options.clock)
    if options.copies:
        add_copies(data, options.nodes)
    return data


def _below(draw: random.Random, limit: int) -> int:
    return int(draw.random() * limit)


def _some(draw: random.Random, others: list[int]) -> list[int]:
    """Some of the others, but not all and not none."""
    while True:
        chosen = [it for it in others if draw.random() < 0.5]
        if 0 < len(chosen) < len(others):
            return chosen


@dataclasses.dataclass
class _Draw:
    """A scenario in the making: `channels` are those that may be told wrongly, `lie` is how far a clock's lie goes."""

    s: Scenario
    draw: random.Random
    channels: list[int]
    lie: int

    def value(self, limit: int) -> int:
        """A number up to the limit, to either side."""
        return max(-VALUE_LIMIT, min(VALUE_LIMIT, _below(self.draw, 2 * limit + 1) - limit))

    def tells(self, node: int, span: tuple[int, int], to: list[int] | None) -> None:
        """A wrong value on one of the channels."""
        channel = self.channels[_below(self.draw, len(self.channels))] if len(self.channels) > 1 else self.channels[0]
        self.s.tells(node, self.value(2000), channel, span, to)

    def benign(self, node: int, span: tuple[int, int]) -> None:
        """Silent, late or twice, to all in all slots."""
        (self.s.silent, self.s.late, self.s.twice)[_below(self.draw, 3)](node, span)

    def symmetric(self, node: int, span: tuple[int, int]) -> None:
        """One wrong value or false accusation, and lie of the clock, to all."""
        if self.channels and self.draw.random() < 0.5:
            self.tells(node, span, None)
        else:
            accused = (node + 1 + _below(self.draw, self.s.nodes - 1)) % self.s.nodes
            self.s.accuses(node, accused, ["deviate"], span)
        if "clock" in self.s.data:
            self.s.clock_lies(node, self.value(self.lie), span)

    def asymmetric(self, node: int, span: tuple[int, int]) -> None:
        """Two values to two groups, or silent to some, or a false accusation to some, and two lies of the clock."""
        others = [it for it in range(self.s.nodes) if it != node]
        some = _some(self.draw, others)
        rest = [it for it in others if it not in some]
        if self.channels and self.draw.random() < 0.5:
            self.tells(node, span, some)
            self.tells(node, span, rest)
        elif self.draw.random() < 0.5:
            self.s.silent(node, span, some)
        else:
            self.s.accuses(node, others[_below(self.draw, len(others))], ["deviate", "missing"], span, some)
        if "clock" in self.s.data:
            self.s.clock_lies(node, self.value(self.lie), span, some)
            self.s.clock_lies(node, self.value(self.lie), span, rest)

    def falls_ill(self, kind: str, node: int, span: tuple[int, int], restart: int | None) -> None:
        """An illness, and the restart behind it if there is one; nothing where a link has a line of the cluster's own
        then."""
        faults = self.s.data.setdefault("faults", [])
        lies = self.s.data.get("clock", {}).get("lies", [])
        before = len(faults), len(lies)
        try:
            getattr(self, kind)(node, span)
        except WordsError:
            del faults[before[0]:]
            del lies[before[1]:]
            return
        if restart is not None:
            self.s.restart(node, restart)


def _chosen(draw: random.Random, nodes: int, count: int) -> list[int]:
    left = list(range(nodes))
    return sorted(left.pop(_below(draw, len(left))) for _ in range(min(count, nodes)))


def _told(data: Json, is_own: bool) -> list[int]:
    """The channels that may be told wrongly: of a given cluster the first alone, and where it is due in every period.
    """
    channels = data.get("channels", [])
    if is_own:
        return list(range(len(channels)))
    return [0] if channels and is_always_due(channels[0]) else []


def drawn(options: Options, index: int, base: Json | None = None, is_own: bool = False) -> Json:
    """The scenario of this index, onto the base's cluster if one is given; `is_own` where all its channels are due in
    each period."""
    is_own = is_own or base is None
    data = base_of(options) if base is None else base
    s = Scenario(data, (lambda data, period: list(range(len(data["channels"])))) if is_own else None)
    draw = random.Random(f"{options.seed}/{index}")
    state = _Draw(s, draw, _told(s.data, is_own), (options.clock or Clock()).lie)
    for node in _chosen(draw, s.nodes, options.faulty):
        kind = options.classes[_below(draw, len(options.classes))]
        period = 1
        while period < s.periods:
            if draw.random() >= options.rate:
                period += 1
                continue
            last = min(period + _below(draw, options.length), s.periods - 1)
            again = last + options.restart
            state.falls_ill(kind, node, (period, last), again if options.restart and again < s.periods else None)
            if not options.restart:
                break
            period = again + 1
    return s.data
