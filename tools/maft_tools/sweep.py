"""Sweeps: options and keys of the scenario that take several values, and the cases that come of them."""
from __future__ import annotations

import dataclasses
import itertools
import json
import re
from collections.abc import Callable, Sequence
from decimal import Decimal
from typing import Any

from .drawing import Clock, Cluster, Options, check
from .plan import Json, WordsError, is_always_due

VALUES_LIMIT = 10000
OF_BASE = ("nodes", "m", "periods")
SPAN = re.compile(r"(-?\d+(?:\.\d+)?)\.\.(-?\d+(?:\.\d+)?)(?:/(\d+(?:\.\d+)?))?")
NUMBER = re.compile(r"-?\d+(?:\.\d+)?")
# what may differ between cases that have the same faults: all else but what the cluster is
FAULTS = ("nodes", "periods", "faulty", "classes", "rate", "length", "restart", "seed", "copies")


@dataclasses.dataclass(frozen=True)
class Axis:
    """One thing that takes several values: an option by its name, a key of the clock's options (`clock.drift`), of the
    scenario, or `base`.

    Of bases and classes `words` are how the values are called; else they are said as they are.
    """

    name: str
    values: tuple[Any, ...]
    words: tuple[str, ...]


@dataclasses.dataclass(frozen=True)
class Case:
    """One choice of a value on each axis. `words` names it by those that vary, and is empty where none does."""

    words: str
    cluster: Cluster
    values: tuple[tuple[str, str], ...] = ()


def _number(text: str) -> int | float:
    return int(text) if re.fullmatch(r"-?\d+", text) else float(text)


def _span(first: str, last: str, step: str | None) -> list[int | float]:
    """The numbers from the first to the last, which is one of them where a whole number of steps leads to it."""
    start, end, width = Decimal(first), Decimal(last), Decimal(step or 1)
    if width <= 0 or end < start:
        raise WordsError(f"'{first}..{last}{'/' + step if step else ''}' is no span, as in 4..10 or 0..10/2")
    count = int((end - start) / width) + 1
    if count > VALUES_LIMIT:
        raise WordsError(f"'{first}..{last}' has more than {VALUES_LIMIT} values")
    return [_number(str(start + it * width)) for it in range(count)]


def values_of(text: str) -> list[Any]:
    """The values of a word such as `5`, `4..10`, `0..10/2`, `10,20,40`, `state,sensor` or `[1,2],[3,4]`."""
    if text[:1] in ("[", "{", '"'):
        try:
            return list(json.loads(f"[{text}]"))
        except (ValueError, RecursionError):
            raise WordsError(f"'{text}' isn't JSON") from None
    found: list[Any] = []
    for part in text.split(","):
        span = SPAN.fullmatch(part)
        if span:
            found += _span(*span.groups())
        elif part:
            found.append(_number(part) if NUMBER.fullmatch(part) else part)
        else:
            raise WordsError(f"'{text}' is no value, list or span, as in 5, 10,20 or 4..10")
    return found


def axis(name: str, text: str) -> Axis:
    """The axis of an option or a key, by the word that was given for it."""
    values = values_of(text)
    words = tuple(it if isinstance(it, str) else json.dumps(it, separators=(",", ":")) for it in values)
    if len(set(words)) < len(words):
        raise WordsError(f"{name} has a value twice")
    return Axis(name, tuple(values), words)


def classes_axis(text: str) -> Axis:
    """The axis of the classes: sets, parted by a slash, of names that are parted by commas."""
    sets = tuple(tuple(it.split(",")) for it in text.split("/"))
    return Axis("classes", sets, tuple("+".join(it) for it in sets))


def clock_axes(text: str) -> list[Axis]:
    """The axes of what `--clock` is given: `epsilon=1,drift=0..10/2`, or nothing."""
    axes = []
    for part in re.split(r",(?=[a-z])", text) if text else []:
        name, _, value = part.partition("=")
        if name not in {it.name for it in dataclasses.fields(Clock)}:
            raise WordsError(f"clock has '{part}', and takes epsilon, drift, start and lie, as in epsilon=1,drift=2")
        axes.append(axis(f"clock.{name}", value))
    return axes


def set_axis(text: str) -> Axis:
    """The axis of what `--set` is given: `policy.exclude=10,20`."""
    name, equals, value = text.partition("=")
    if not equals or not name:
        raise WordsError(f"set is given '{text}', and takes a key and a value, as in policy.exclude=20")
    if name in {it.name for it in dataclasses.fields(Options)} - {"clock", *OF_BASE}:
        raise WordsError(f"set is given {name}, which is no key of a scenario but the option --{name}")
    return axis(name, value)


def _cluster(chosen: dict[str, Any], with_clock: bool) -> Cluster:
    """The cluster of a choice of values by name."""
    base = chosen.pop("base", None)
    named = {it.name for it in dataclasses.fields(Options)} - {"clock", *(() if base is None else OF_BASE)}
    options = {name: chosen.pop(name) for name in list(chosen) if name in named}
    clock = {name: chosen.pop(f"clock.{name}") for name in ("epsilon", "drift", "start", "lie") if name == "lie"
        or base is None
             if f"clock.{name}" in chosen}
    if with_clock or clock:
        options["clock"] = Clock(**clock)
    if base is not None:
        options.update({name: base[name] for name in OF_BASE})
    cluster = Cluster(Options(**options), base, tuple(chosen.items()))
    check(cluster.options)
    return cluster


def cases(axes: Sequence[Axis], with_clock: bool = False) -> list[Case]:
    """Every choice of one value on each axis, the last axis the quickest; raises WordsError where an option is out of
    its range."""
    names = [it.name for it in axes]
    for name in names:
        if names.count(name) > 1:
            raise WordsError(f"{name} is given twice; a list has several values")
    count = 1
    for it in axes:
        count *= len(it.values)
    if count > VALUES_LIMIT:
        raise WordsError(f"these are {count} cases, and must be at most {VALUES_LIMIT}")
    found = []
    for places in itertools.product(*(range(len(it.values)) for it in axes)):
        chosen = {it.name: it.values[at] for it, at in zip(axes, places)}
        swept = tuple((it.name, it.words[at]) for it, at in zip(axes, places) if len(it.values) > 1)
        found.append(Case(" ".join(f"{name}={value}" for name, value in swept), _cluster(chosen, with_clock), swept))
    return found


def allowed(all_of: Sequence[Case], refusal: Callable[[Json], str | None]) -> tuple[list[Case], list[str]]:
    """The cases whose cluster isn't refused, and a sentence for each of the others.

    `refusal` says why a scenario is refused, if it is. Raises WordsError where no case is left.
    """
    kept, said = [], []
    for case in all_of:
        try:
            why = refusal(case.cluster.scenario())
        except WordsError as error:
            why = str(error)
        if why is None:
            kept.append(case)
        else:
            said.append(f"{case.words or 'the cluster'} is left out: {why}" if len(all_of) > 1 else why)
    if not kept:
        raise WordsError(said[0])
    return kept, said


def check_pair(axes: Sequence[Axis], all_of: Sequence[Case]) -> None:
    """Raises WordsError where the cases wouldn't have the same drawn faults, or there is only one."""
    for it in axes:
        if len(it.values) > 1 and it.name in FAULTS:
            raise WordsError(f"pair runs the same faults under each case, and {it.name} alters them")
    if len(all_of) < 2:
        raise WordsError("pair compares at least two cases, as of --set policy.exclude=10,20 or two --base")
    shapes = set()
    for case in all_of:
        data = case.cluster.scenario()
        channels = data.get("channels", [])
        shapes.add((data["nodes"], data["periods"], bool(channels) and is_always_due(channels[0]), "clock" in data))
    if len(shapes) > 1:
        raise WordsError("pair runs the same faults under each case; these differ in what faults are drawn by")
