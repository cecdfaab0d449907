"""Says in words why the program refuses a scenario or a log: the key or entry, what stands there, what must.

The program alone decides: this module is asked once it has refused. `findings` goes through the rules in their order,
as docs/FORMATS.md has them, and tells what fails at the first place of the first rule that fails; `explain` sets that
beside the program's own answer, and where the two differ, it says so.
"""
from __future__ import annotations

import dataclasses
import difflib
from collections.abc import Iterable, Iterator
from typing import Any

from . import plan
from .json_text import BrokenJson, Float, read, shown
from .plan import Json, WordsError

STEP, VALUE, CLOCK = 2 ** 20, 2 ** 42, 2 ** 40
MOST = {"channels": 8, "tasks": 32, "faults": 4096, "lies": 4096}


@dataclasses.dataclass
class Finding:
    """What fails: the rule, the place that the program names, and a sentence."""

    rule: int
    place: int
    words: str


class Disagreement(WordsError):
    """The program refuses by another rule or place than this module finds, so one of the two is wrong."""


# ---- rule 1: keys and types

# of each object its keys, each with what it must be; a key with ? may be left out, one with 2 is unknown in version 1
SCENARIO = {"version?": "whole", "nodes": "whole", "m": "whole", "periods": "whole", "policy": "policy",
            "frame?": "whole", "order?": "whole", "channels?": "channels", "tasks?": "tasks", "faults?": "faults",
            "restarts?": "restarts", "clock?2": "clock"}
OBJECTS: dict[str, dict[str, str]] = {
    "policy": {"weights": "list", "exclude": "whole", "readmit": "whole", "credit": "whole", "streak": "whole",
               "cap": "whole", "retire?2": "whole"},
    "state": {"kind": "text", "delta": "whole", "start": "list", "step": "whole"},
    "sensor": {"kind": "text", "delta": "whole", "readings": "rows", "task?": "whole"},
    "copy": {"kind": "text", "delta": "whole", "task": "whole", "lies": "whole", "readings": "rows"},
    "tasks": {"after": "list", "nodes": "list", "need": "whole", "min": "whole", "max": "whole", "run": "list"},
    "faults": {"from": "whole", "to": "numbers", "periods": "list", "slots": "numbers", "effect": "effect"},
    "restarts": {"node": "whole", "period": "whole"},
    "clock": {"epsilon": "whole", "drift": "whole", "start": "list", "drifts": "rows", "errors": "rows",
              "lies": "lies"},
    "lies": {"from": "whole", "to": "numbers", "periods": "list", "by": "whole"},
    "set": {"at": "whole", "hex": "text"},
}
EFFECTS = {"cut": "whole", "time": "whole", "set": "set", "raw": "text"}


def is_whole(value: Any) -> bool:
    """Whether the program reads a value as a number: whole, and within 64 bits with a sign."""
    return isinstance(value, int) and not isinstance(value, bool) and -(2 ** 63) <= value < 2 ** 63


def _not_whole(value: Any) -> str:
    if isinstance(value, Float):
        return "and must be a whole number; one with a point or an exponent, and -0, is a float"
    if isinstance(value, int) and not isinstance(value, bool):
        return "and must be a whole number from -2^63 to 2^63 - 1"
    return "and must be a whole number"


def _at(path: str, key: Any) -> str:
    return f"{path}[{key}]" if isinstance(key, int) else f"{path}.{key}" if path else str(key)


def _keys(value: Json, path: str, known: dict[str, str], version: int) -> Iterator[str]:
    """Keys that are unknown, and keys that are missing."""
    names = {it.rstrip("?2"): it for it in known}
    here = [it for it, full in names.items() if version != 1 or not full.endswith("2")]
    where = path or "the scenario"
    for key in value:
        if key in names and key not in here:
            yield f"{where} has a key {key}, which version 1 hasn't; it takes \"version\": 2 at the top"
        elif key not in names:
            near = difflib.get_close_matches(key, here, 1)
            hint = f"; is {near[0]} meant?" if near else ""
            yield f"{where} has a key {shown(key)[1:-1]}, which isn't one of {', '.join(here)}{hint}"
    for key in here:
        if key not in value and "?" not in names[key]:
            yield f"{where} has no key {key}"


def _object(value: Any, path: str, known: dict[str, str], version: int) -> Iterator[str]:
    """What is wrong with an object of these keys."""
    if not isinstance(value, dict):
        yield f"{path} is {shown(value)}, and must be an object"
        return
    yield from _keys(value, path, known, version)
    for full, kind in known.items():
        name = full.rstrip("?2")
        if name in value and (version != 1 or not full.endswith("2")):
            yield from _typed(value[name], _at(path, name), kind, version)


def _typed(value: Any, path: str, kind: str, version: int) -> Iterator[str]:
    """What is wrong with the type of a value."""
    if kind == "whole":
        if not is_whole(value):
            yield f"{path} is {shown(value)}, {_not_whole(value)}"
    elif kind == "text":
        if not isinstance(value, str):
            yield f"{path} is {shown(value)}, and must be a text"
    elif kind in ("list", "rows"):
        yield from _list(value, path, "whole" if kind == "list" else "list", version)
    elif kind == "numbers":
        yield from _numbers(value, path, version)
    elif kind == "effect":
        yield from _effect(value, path, version)
    elif kind == "channels":
        yield from _list(value, path, "channel", version)
    elif kind == "channel":
        yield from _channel(value, path, version)
    elif kind in ("policy", "clock", "set") or kind.startswith("one of "):
        yield from _object(value, path, OBJECTS[kind.removeprefix("one of ")], version)
    else:
        yield from _list(value, path, "one of " + kind, version)


def _list(value: Any, path: str, kind: str, version: int) -> Iterator[str]:
    if not isinstance(value, list):
        yield f"{path} is {shown(value)}, and must be a list"
        return
    for at, it in enumerate(value):
        yield from _typed(it, _at(path, at), kind, version)


def _numbers(value: Any, path: str, version: int) -> Iterator[str]:
    if isinstance(value, list):
        yield from _list(value, path, "whole", version)
    elif value != "all":
        yield f"{path} is {shown(value)}, and must be the text \"all\" or a list of numbers"


def _effect(value: Any, path: str, version: int) -> Iterator[str]:
    if isinstance(value, str):
        if value not in ("drop", "twice"):
            yield (f"{path} is {shown(value)}, and must be \"drop\", \"twice\", or an object with one of "
                   f"{', '.join(EFFECTS)}")
    elif not isinstance(value, dict) or len(value) != 1 or next(iter(value)) not in EFFECTS:
        keys = (f"has the keys {', '.join(shown(it)[1:-1] for it in value) or '-'}" if isinstance(value, dict)
                else f"is {shown(value)}")
        yield f"{path} {keys}, and must be \"drop\", \"twice\", or an object with just one of {', '.join(EFFECTS)}"
    else:
        key, inner = next(iter(value.items()))
        yield from _typed(inner, _at(path, key), EFFECTS[key], version)


def _channel(value: Any, path: str, version: int) -> Iterator[str]:
    if not isinstance(value, dict):
        yield f"{path} is {shown(value)}, and must be an object"
    elif "kind" not in value:
        yield f"{path} has no key kind"
    elif value["kind"] not in ("state", "sensor", "copy"):
        yield (f"{path}.kind is {shown(value['kind'])}, and must be \"state\", \"sensor\""
               + (" or \"copy\"" if version != 1 else ""))
    elif value["kind"] == "copy" and version == 1:
        yield f"{path}.kind is \"copy\", which version 1 hasn't; it takes \"version\": 2 at the top"
    else:
        yield from _object(value, path, OBJECTS[value["kind"]], version)


def types(scenario: Any) -> Iterator[Finding]:
    """Rule 1."""
    if not isinstance(scenario, dict):
        yield Finding(1, 0, f"the scenario is {shown(scenario)}, and must be an object")
        return
    version = scenario.get("version", 1)
    if not is_whole(version):
        yield Finding(1, 0, f"version is {shown(version)}, {_not_whole(version)}")
        return
    for words in _object(scenario, "", SCENARIO, version):
        yield Finding(1, 0, words)


# ---- rules 2 to 5: sizes and the policy; from here on the types are right

def within(path: str, value: int, low: int, high: int, why: str = "") -> Iterator[str]:
    """The sentence for a number that isn't from `low` to `high`."""
    if not low <= value <= high:
        yield f"{path} is {value}, and must be from {_power(low)} to {_power(high)}{why}"


def _power(number: int) -> str:
    for limit, name in ((VALUE, "2^42"), (CLOCK, "2^40"), (STEP, "2^20")):
        if abs(number) == limit:
            return name if number > 0 else "-" + name
    return str(number)


def sizes(s: Json) -> Iterator[Finding]:
    """Rules 2 to 4."""
    version = s.get("version", 1)
    for words in within("version", version, 1, 2):
        yield Finding(2, 1, words)
    for words in within("nodes", s["nodes"], 3, 8 if version == 1 else 16, f" in version {version}"):
        yield Finding(2, 0, words)
    for words in within("m", s["m"], 0, 2 if version == 1 else 3, f" in version {version}"):
        yield Finding(3, 0, words)
    if s["m"] >= s["nodes"]:
        yield Finding(3, 0, f"m is {s['m']}, and must be below nodes, which is {s['nodes']}")
    for words in within("periods", s["periods"], 1, 1024):
        yield Finding(4, 0, words)
    if "frame" in s:
        for words in within("frame", s["frame"], 1, 1024):
            yield Finding(4, 1, words)
    for words in within("order", s.get("order", 0), 0, s["nodes"] - 1, ": it is a node"):
        yield Finding(4, 2, words)


def policy(s: Json) -> Iterator[Finding]:
    """Rule 5."""
    p, version = s["policy"], s.get("version", 1)
    count = 8 if version == 1 else 16
    said = []
    if len(p["weights"]) != count:
        said.append(f"policy.weights has {len(p['weights'])} numbers, and must have {count} in version {version}")
    for at, weight in enumerate(p["weights"]):
        said += within(f"policy.weights[{at}]", weight, 0, 1000)
    said += within("policy.cap", p["cap"], 1, 60000)
    if p["exclude"] < 1:
        said.append(f"policy.exclude is {p['exclude']}, and must be at least 1")
    if p["exclude"] > p["cap"]:
        said.append(f"policy.exclude is {p['exclude']}, and must be at most cap, which is {p['cap']}")
    if p["readmit"] < 0:
        said.append(f"policy.readmit is {p['readmit']}, and must be at least 0")
    if p["readmit"] >= p["exclude"]:
        said.append(f"policy.readmit is {p['readmit']}, and must be below exclude, which is {p['exclude']}")
    said += within("policy.credit", p["credit"], 0, 60000)
    said += within("policy.streak", p["streak"], 1, 60000)
    said += within("policy.retire", p.get("retire", 0), 0, 60000)
    yield from (Finding(5, 0, it) for it in said)


# ---- rules 6 and 7: channels

def _row(path: str, row: list[int], nodes: int, low: int, high: int) -> Iterator[str]:
    """A number for each node."""
    if len(row) != nodes:
        yield f"{path} has {len(row)} numbers, and must have one for each of the {nodes} nodes"
    for at, value in enumerate(row):
        yield from within(f"{path}[{at}]", value, low, high)


def _rows(path: str, rows: list[list[int]], nodes: int, low: int, high: int) -> Iterator[str]:
    """1 to 1024 rows of a number for each node."""
    if not 1 <= len(rows) <= 1024:
        yield f"{path} has {len(rows)} rows, and must have from 1 to 1024"
    for at, row in enumerate(rows):
        yield from _row(f"{path}[{at}]", row, nodes, low, high)


def _task_below(path: str, task: int, count: int) -> Iterator[str]:
    if not 0 <= task < count:
        there = f"there are {count}, numbered from 0" if count else "there are none"
        yield f"{path} is {task}, and must be the number of a task, of which {there}"


def _one_channel(s: Json, at: int, channel: Json) -> Iterator[str]:
    path, nodes = f"channels[{at}]", s["nodes"]
    if at >= MOST["channels"]:
        yield f"{path} is the ninth channel, and there may be at most 8"
    yield from within(f"{path}.delta", channel["delta"], 0, VALUE)
    if channel["kind"] == "state":
        yield from within(f"{path}.step", channel["step"], -STEP, STEP)
        yield from _row(f"{path}.start", channel["start"], nodes, -VALUE, VALUE)
        return
    if "task" in channel:
        yield from _task_below(f"{path}.task", channel["task"], len(s.get("tasks", [])))
    if "lies" in channel:
        yield from within(f"{path}.lies", channel["lies"], 0, 3)
    yield from _rows(f"{path}.readings", channel["readings"], nodes, -VALUE, VALUE)


def channels(s: Json) -> Iterator[Finding]:
    """Rule 6."""
    for at, channel in enumerate(s.get("channels", [])):
        for words in _one_channel(s, at, channel):
            yield Finding(6, at, words)


def _spread(path: str, row: list[int], nodes: Iterable[int], bound: int, name: str) -> Iterator[str]:
    """The sentence for a row whose numbers, of these nodes, lie further than the bound apart."""
    there = [it for it in nodes if it < len(row)]
    if there:
        low, high = min(there, key=lambda it: row[it]), max(there, key=lambda it: row[it])
        apart = row[high] - row[low]
        if apart > bound:
            yield (f"{path}[{low}] is {row[low]} and {path}[{high}] is {row[high]}: they are {apart} apart, and {name} "
                   f"is {bound}")


def distances(s: Json) -> Iterator[Finding]:
    """Rule 7."""
    tasks = s.get("tasks", [])
    for at, channel in enumerate(s.get("channels", [])):
        nodes: Iterable[int] = range(s["nodes"])
        if channel["kind"] == "copy":
            nodes = sorted({it for it in tasks[channel["task"]]["nodes"] if 0 <= it < s["nodes"]})
        rows = ([("start", channel["start"])] if channel["kind"] == "state"
                else [(f"readings[{k}]", it) for k, it in enumerate(channel["readings"])])
        for name, row in rows:
            for words in _spread(f"channels[{at}].{name}", row, nodes, channel["delta"], "delta"):
                yield Finding(7, at, words)


# ---- rules 8 and 9: tasks

def _ascending(path: str, values: list[int], limit: int, what: str) -> Iterator[str]:
    """The sentences for a list that must be strictly ascending and below a limit."""
    for before, after in zip(values, values[1:]):
        if before >= after:
            yield f"{path} has {before} before {after}, and must be strictly ascending"
            break
    for value in values:
        if not 0 <= value < limit:
            yield (f"{path} has {value}, and {what} are numbered from 0 to {limit - 1}" if limit
                   else f"{path} has {value}, and there are no {what}")
            break


def _one_task(s: Json, at: int, task: Json) -> Iterator[str]:
    path = f"tasks[{at}]"
    if at >= MOST["tasks"]:
        yield f"{path} is the thirty-third task, and there may be at most 32"
    yield from _ascending(f"{path}.after", task["after"], len(s["tasks"]), "tasks")
    if not task["nodes"]:
        yield f"{path}.nodes is empty, and must have the nodes that may run a copy"
    yield from _ascending(f"{path}.nodes", task["nodes"], s["nodes"], "nodes")
    if not 1 <= task["need"] <= len(task["nodes"]):
        yield (f"{path}.need is {task['need']}, and must be from 1 to the number of its nodes, which is "
               f"{len(task['nodes'])}")
    yield from within(f"{path}.max", task["max"], 1, 1024)
    if not 1 <= task["min"] <= task["max"]:
        yield f"{path}.min is {task['min']}, and must be from 1 to max, which is {task['max']}"
    if len(task["run"]) != len(task["nodes"]):
        yield f"{path}.run has {len(task['run'])} numbers, and must have one for each of its {len(task['nodes'])} nodes"
    for k, time in enumerate(task["run"]):
        if not task["min"] <= time <= task["max"]:
            yield f"{path}.run[{k}] is {time}, and must be from min to max, which are {task['min']} and {task['max']}"


def tasks(s: Json) -> Iterator[Finding]:
    """Rule 8."""
    for at, task in enumerate(s.get("tasks", [])):
        for words in _one_task(s, at, task):
            yield Finding(8, at, words)


def _way_back(graph: list[list[int]], start: int) -> list[int] | None:
    """A shortest chain of predecessors from a task to itself, if there is one."""
    came: dict[int, int] = {}
    edge = [start]
    while edge:
        after = []
        for task in edge:
            for before in graph[task]:
                if before == start:
                    chain = [start, task]
                    while chain[-1] != start:
                        chain.append(came[chain[-1]])
                    return [start, *reversed(chain[1:-1]), start] if task != start else [start, start]
                if before not in came:
                    came[before] = task
                    after.append(before)
        edge = after
    return None


def cycles(s: Json) -> Iterator[Finding]:
    """Rule 9."""
    graph = [it["after"] for it in s.get("tasks", [])]
    for at in range(len(graph)):
        chain = _way_back(graph, at)
        if chain:
            yield Finding(9, at, f"tasks[{at}] comes after itself: {' comes after '.join(map(str, chain))}")


# ---- rules 10 to 13: fault lines and restarts

def _slots(s: Json) -> int:
    return plan.slots(s["m"])


def _addressed(path: str, line: Json, s: Json) -> Iterator[str]:
    """What is wrong with the sender, the receivers and the periods of a line or a lie."""
    nodes, periods = s["nodes"], s["periods"]
    if not 0 <= line["from"] < nodes:
        yield f"{path}.from is {line['from']}, and nodes are numbered from 0 to {nodes - 1}"
    if line["to"] != "all":
        if not line["to"]:
            yield f"{path}.to is empty, and must be \"all\" or have a node"
        yield from _ascending(f"{path}.to", line["to"], nodes, "nodes")
        if line["from"] in line["to"]:
            yield f"{path}.to has {line['from']}, which is from: a node sends nothing to itself"
    span = line["periods"]
    if len(span) != 2:
        yield f"{path}.periods has {len(span)} numbers, and must have two, the first and the last period"
    elif not 0 <= span[0] <= span[1] < periods:
        yield f"{path}.periods is {shown(span)}, and must be two periods in order, from 0 to {periods - 1}"


def _hex(path: str, text: str, least: int) -> Iterator[str]:
    bad = next((it for it in text if it not in "0123456789abcdefABCDEF"), None)
    if bad is not None:
        yield f"{path} has {shown(bad)}, which is no hexadecimal digit"
    elif len(text) % 2:
        yield f"{path} has {len(text)} digits, and must have two for each byte"
    elif not least <= len(text) // 2 <= 4096:
        yield f"{path} has {len(text) // 2} bytes, and must have from {least} to 4096"


def _change(path: str, effect: Any) -> Iterator[str]:
    """What is wrong with the numbers and texts of an effect."""
    if isinstance(effect, str):
        return
    key, value = next(iter(effect.items()))
    if key == "cut":
        yield from within(f"{path}.cut", value, 1, 4096)
    elif key == "time":
        if not plan.is_untimely(value):
            yield f"{path}.time is {value}, and must be a tick outside the window, from 0 to 9 or from 21 to 30"
    elif key == "set":
        yield from within(f"{path}.set.at", value["at"], 0, 4095)
        yield from _hex(f"{path}.set.hex", value["hex"], 1)
    else:
        yield from _hex(f"{path}.raw", value, 0)


def _one_line(s: Json, at: int, line: Json) -> Iterator[str]:
    path = f"faults[{at}]"
    yield from _addressed(path, line, s)
    if line["slots"] != "all":
        if not line["slots"]:
            yield f"{path}.slots is empty, and must be \"all\" or have a slot"
        yield from _ascending(f"{path}.slots", line["slots"], _slots(s), "slots")
    yield from _change(f"{path}.effect", line["effect"])


def lines(s: Json) -> Iterator[Finding]:
    """Rule 10."""
    for at, line in enumerate(s.get("faults", [])):
        for words in _one_line(s, at, line):
            yield Finding(10, at, words)


def receivers(line: Json, nodes: int) -> list[int]:
    """The nodes that a line in range has its links to."""
    return [it for it in range(nodes) if it != line["from"] and (line["to"] == "all" or it in line["to"])]


def slots_of(line: Json, count: int) -> list[int]:
    """The slots of a line in range."""
    return list(range(count)) if line["slots"] == "all" else list(line["slots"])


def _span_bits(line: Json) -> int:
    first, last = line["periods"]
    return (1 << last - first + 1) - 1 << first


def overlaps(s: Json) -> Iterator[Finding]:
    """Rule 11."""
    taken: dict[tuple[int, int, int], int] = {}
    faults = s.get("faults", [])
    for at, line in enumerate(faults):
        bits = _span_bits(line)
        for link in ((line["from"], to, slot) for to in receivers(line, s["nodes"])
                     for slot in slots_of(line, _slots(s))):
            both = taken.get(link, 0) & bits
            if both:
                yield Finding(11, at, _overlap(s, at, link, (both & -both).bit_length() - 1))
                return
            taken[link] = taken.get(link, 0) | bits


def _overlap(s: Json, at: int, link: tuple[int, int, int], period: int) -> str:
    """The sentence for a line that touches a link which one before it touches."""
    sender, to, slot = link
    for before, line in enumerate(s["faults"][:at]):
        is_there = line["from"] == sender and to in receivers(line, s["nodes"]) and slot in slots_of(line, _slots(s))
        if is_there and line["periods"][0] <= period <= line["periods"][1]:
            return (f"faults[{at}] and faults[{before}] both touch the link from {sender} to {to} in period {period}, "
                    f"slot {slot}")
    raise AssertionError("a line before it has the link")


def restarts(s: Json) -> Iterator[Finding]:
    """Rule 12."""
    before: Json | None = None
    for at, it in enumerate(s.get("restarts", [])):
        path = f"restarts[{at}]"
        if not 0 <= it["node"] < s["nodes"]:
            yield Finding(12, at, f"{path}.node is {it['node']}, and nodes are numbered from 0 to {s['nodes'] - 1}")
        if not 1 <= it["period"] < s["periods"]:
            until = (f"must be from 1 to {s['periods'] - 1}" if s["periods"] > 1
                     else "a scenario of one period has no restart")
            yield Finding(12, at, f"{path}.period is {it['period']}, and {until}")
        if before is not None and (before["period"], before["node"]) >= (it["period"], it["node"]):
            yield Finding(12, at, f"{path} is node {it['node']} in period {it['period']}, "
                                  f"and comes behind node {before['node']} in period "
                          f"{before['period']}: restarts ascend by period, then node, and none stands twice")
        before = it


def too_many(s: Json) -> Iterator[Finding]:
    """Rule 13."""
    if len(s.get("faults", [])) > MOST["faults"]:
        yield Finding(13, MOST["faults"], f"faults has {len(s['faults'])} lines, and may have at most 4096")


# ---- rules 18 and 19: the clock

def clock(s: Json) -> Iterator[Finding]:
    """Rule 18."""
    if "clock" not in s:
        return
    c, nodes = s["clock"], s["nodes"]
    said = [*within("clock.epsilon", c["epsilon"], 0, STEP), *within("clock.drift", c["drift"], 0, STEP),
            *_row("clock.start", c["start"], nodes, -CLOCK, CLOCK),
            *_rows("clock.drifts", c["drifts"], nodes, -STEP, STEP)]
    for at, row in enumerate(c["drifts"]):
        if c["drift"] >= 0:
            said += _spread(f"clock.drifts[{at}]", row, range(len(row)), c["drift"], "drift")
    if not 1 <= len(c["errors"]) <= 1024:
        said.append(f"clock.errors has {len(c['errors'])} rows, and must have from 1 to 1024")
    for at, row in enumerate(c["errors"]):
        said += _errors(f"clock.errors[{at}]", row, nodes, max(0, c["epsilon"]))
    yield from (Finding(18, 0, it) for it in said)


def _errors(path: str, row: list[int], nodes: int, epsilon: int) -> Iterator[str]:
    if len(row) != nodes:
        yield f"{path} has {len(row)} numbers, and must have one for each of the {nodes} nodes"
    for at, error in enumerate(row):
        if not -epsilon <= error <= epsilon:
            yield f"{path}[{at}] is {error}, and must be from -epsilon to epsilon, which is {epsilon}"


class Classes:
    """Which nodes are sound in which period, and what befalls their frames, by the fault lines and restarts alone."""

    def __init__(self, s: Json) -> None:
        self.s, self.nodes = s, range(s["nodes"])
        self.by_node: dict[int, list[Json]] = {it: [] for it in self.nodes}
        for line in s.get("faults", []):
            self.by_node[line["from"]].append(line)
        self.restarts = {(it["period"], it["node"]) for it in s.get("restarts", [])}
        self.sound: list[set[int]] = []

    def _touching(self, period: int, node: int) -> list[Json]:
        return [it for it in self.by_node[node] if it["periods"][0] <= period <= it["periods"][1]]

    def _effect(self, period: int, slot: int, node: int, to: int) -> Any:
        """What befalls a frame, in a form in which equal effects are equal; None for nothing."""
        for line in self._touching(period, node):
            if to in receivers(line, len(self.nodes)) and slot in slots_of(line, _slots(self.s)):
                return _same(line["effect"])
        return None

    def _steady(self, period: int, node: int, before: set[int]) -> bool:
        return (period, node) not in self.restarts and not self._touching(period, node) and node in before

    def _joins(self, period: int, node: int, good: set[int]) -> bool:
        if (period, node) not in self.restarts or self._touching(period, node):
            return False
        others = [it for it in self.nodes if it != node and it not in good
                  and not _is_manifest(self._effect(period, 0, it, node))]
        return len(others) < len(good)

    def sound_in(self, period: int) -> set[int]:
        """The nodes that are nonfaulty or joining in a period."""
        while len(self.sound) <= period:
            at = len(self.sound)
            before = self.sound[at - 1] if at else set(self.nodes)
            good = {it for it in self.nodes if self._steady(at, it, before)}
            self.sound.append(good | {it for it in self.nodes if self._joins(at, it, good)})
        return self.sound[period]

    def is_symmetric(self, period: int, node: int) -> bool:
        """Whether an unsound node is symmetric: not benign, and in each slot all others get the same of it."""
        table = [[self._effect(period, slot, node, to) for to in self.nodes if to != node]
                 for slot in range(_slots(self.s))]
        if all(_is_manifest(it) for row in table for it in row):
            return False
        return all(it == row[0] for row in table for it in row)


def _same(effect: Any) -> Any:
    if isinstance(effect, str):
        return effect
    key, value = next(iter(effect.items()))
    if key == "set":
        return key, value["at"], value["hex"].lower()
    return key, value.lower() if key == "raw" else value


def _is_manifest(effect: Any) -> bool:
    return (effect is not None
            and (effect[0] if isinstance(effect, tuple) else effect) in ("drop", "twice", "cut", "time"))


def _one_lie(s: Json, classes: Classes, at: int, lie: Json) -> Iterator[str]:
    path = f"clock.lies[{at}]"
    if at >= MOST["lies"]:
        yield f"clock.lies has {len(s['clock']['lies'])} entries, and may have at most 4096"
    said = [*_addressed(path, lie, s), *within(f"{path}.by", lie["by"], -CLOCK, CLOCK)]
    yield from said
    if said:
        return
    to_all = len(receivers(lie, s["nodes"])) == s["nodes"] - 1
    for period in range(lie["periods"][0], lie["periods"][1] + 1):
        if lie["from"] in classes.sound_in(period):
            yield (f"{path} is a lie of node {lie['from']} in period {period}, in which it is sound: a fault line must "
                   "make it faulty")
            return
        if not to_all and classes.is_symmetric(period, lie["from"]):
            yield (f"{path} is told to some alone in period {period}, in which node {lie['from']} is symmetric: to "
                   "must be every other node")
            return


def lies(s: Json) -> Iterator[Finding]:
    """Rule 19."""
    if "clock" in s:
        classes = Classes(s)
        for at, lie in enumerate(s["clock"]["lies"]):
            for words in _one_lie(s, classes, at, lie):
                yield Finding(19, at, words)


# ---- rules 15 to 17: logs

def is_log(value: Any) -> bool:
    """Whether a value looks like the log of one node: a scenario, by its own keys, has no key frames."""
    return isinstance(value, dict) and "frames" in value and not ("nodes" in value or "policy" in value)


def log_types(log: Any) -> Iterator[Finding]:
    """Rule 15."""
    if not isinstance(log, dict):
        yield Finding(15, 0, f"the log is {shown(log)}, and must be an object with the keys scenario and frames")
        return
    for words in _keys(log, "the log", {"scenario": "", "frames": ""}, 2):
        yield Finding(15, 0, words)
    if "scenario" in log and not isinstance(log["scenario"], dict):
        yield Finding(15, 0, f"scenario is {shown(log['scenario'])}, and must be an object")
    frames = log.get("frames", [])
    if not isinstance(frames, list):
        yield Finding(15, 0, f"frames is {shown(frames)}, and must be a list")
        return
    for at, entry in enumerate(frames):
        if (not isinstance(entry, list) or len(entry) != 5 or not all(map(is_whole, entry[:4]))
                or not isinstance(entry[4], str)):
            yield Finding(15, 0, f"frames[{at}] is {shown(entry)}, and must be a list of four whole numbers and a "
                                 "text: period, slot, from, tick, hex")


def log_entries(log: Json, node: int) -> Iterator[Finding]:
    """Rules 16 and 17."""
    s = log["scenario"]
    if not 0 <= node < s["nodes"]:
        yield Finding(16, 0, f"the log is said to be node {node}'s, and the scenario's nodes are numbered from 0 to "
                             f"{s['nodes'] - 1}")
    before = (0, 0)
    for at, (period, slot, sender, tick, text) in enumerate(log["frames"]):
        path = f"frames[{at}]"
        said = [*within(f"{path}'s period", period, 0, s["periods"] - 1),
                *within(f"{path}'s slot", slot, 0, _slots(s) - 1),
                *within(f"{path}'s sender", sender, 0, s["nodes"] - 1), *within(f"{path}'s tick", tick, 0, 30)]
        if sender == node:
            said.append(f"{path} is from node {sender} to itself, whose log this is")
        said += _digits(path, text)
        if (period, slot) < before:
            said.append(f"{path} is of period {period} and slot {slot}, and comes behind one of period {before[0]} and "
                        f"slot {before[1]}")
        before = (period, slot)
        yield from (Finding(17, at, it) for it in said)


def _digits(path: str, text: str) -> Iterator[str]:
    bad = next((it for it in text if it not in "0123456789abcdefABCDEF"), None)
    if bad is not None:
        yield f"{path}'s text has {shown(bad)}, which is no hexadecimal digit"
    elif len(text) % 2:
        yield f"{path}'s text has {len(text)} digits, and must have two for each byte"


# ---- all rules in their order

RULES = (sizes, policy, channels, distances, tasks, cycles, lines, overlaps, restarts, too_many, clock, lies)


def first(found: Iterable[Finding], most: int = 8) -> list[Finding]:
    """What fails at the first place of the first rule among findings that come by rule and place."""
    out: list[Finding] = []
    for it in found:
        if out and (it.rule, it.place) != (out[0].rule, out[0].place):
            break
        out.append(it)
        if len(out) > most:
            break
    return out


def findings(scenario: Any) -> list[Finding]:
    """What fails at the first place of the first rule that refuses a scenario; empty where none does."""
    found = first(types(scenario))
    for rule in RULES:
        if found:
            break
        found = first(rule(scenario))
    return found


def log_findings(log: Any, node: int) -> list[Finding]:
    """The same of the log of a node."""
    return first(log_types(log)) or findings(log["scenario"]) or first(log_entries(log, node))


def told(found: list[Finding], most: int = 8) -> str:
    """Findings as one text, a sentence each."""
    return "; ".join(it.words for it in found[:most]) + ("; and more" if len(found) > most else "")


def explain(data: bytes, words: list[str], status: int, answer: str) -> str:
    """Why the program ended a run on an input with a status 3 or 4, in words.

    `answer` is what it wrote. Raises Disagreement where the input is found to be well, or refused by another rule or at
    another place.
    """
    try:
        value = read(data)
    except BrokenJson as error:
        if status == 3:
            return f"it is no JSON text: {error}"
        raise Disagreement(f"the program says '{answer}', and this tool finds no JSON text: {error}") from None
    found = log_findings(value, int(words[1])) if words[:1] == ["node"] else findings(value)
    says = "that it is no JSON text" if status == 3 else f"'{answer}'"
    finds = f"'refused {found[0].rule} {found[0].place}' ({told(found)})" if found else "nothing wrong"
    if status == 3 or not found or answer != f"refused {found[0].rule} {found[0].place}":
        raise Disagreement(f"the program says {says}, and this tool finds {finds}: one of the two is wrong; the "
                           "program decides")
    return f"{answer}: {told(found)}"
