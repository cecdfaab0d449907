"""Scenarios as objects, and faults in words made to their lines.

A statement is a sentence such as 'node 4 tells 999 on channel 0 to nodes 0 and 1 in periods 1 to 2'. `Scenario.add`
reads it, and the methods below do the same from a program. Slots, offsets and bytes are worked out here; the rules are
left to the program, but for those that a statement can break: a node or period that there isn't, and a link that has a
line already.
"""
from __future__ import annotations

import copy
import json
import re
from collections.abc import Callable, Iterable
from typing import Any, Union

from . import check, json_text, plan
from .plan import Json, WordsError

Effect = Union[str, Json]
Span = tuple[int, int]
POLICY = ("exclude", "readmit", "credit", "streak", "cap", "retire")
# where several are named, a statement makes as many lines as there are nodes and spans of periods
FORMS = """node I tells V on channel C [to nodes J, K and L] in periods P to Q
node I is silent [to nodes ..] in period P [in slots S, T]
node I is late [at tick T] [to nodes ..] in periods P to Q [in slots ..]
node I is cut by K bytes [to nodes ..] in periods P to Q [in slots ..]
node I speaks twice [to nodes ..] in periods P to Q [in slots ..]
node I accuses node J of deviate and missing [to nodes ..] in periods P to Q
node I claims task T [to nodes ..] in periods P to Q      (or: claims nothing)
node I sends bytes HEX at O in slot S [to nodes ..] in periods P to Q
clock of node I lies by B [to nodes ..] in periods P to Q
node I restarts in period P
policy exclude is N      (or readmit, credit, streak, cap, retire); policy weight of deviate is N
clock drift is N      (or epsilon); clock start is N, N, ..; clock drifts are N, N, ..; N, N, ..      (or errors)
readings of channel C are N, N, ..; N, N, ..      (or: start of channel C is N, N, ..; \
delta of channel C is N; step of channel C is N)
Several nodes: nodes I, J and K are silent .. Several periods: in periods 2, 7 and 12 to 14, \
or every 5 periods from 2 to 40"""


class Scenario:
    """A scenario that statements are added to. `data` is the object that the program reads.

    `due` answers which channels are due in a period, and is asked only where a channel of a task stands before the one
    told of.
    """

    def __init__(self, data: Json, due: Callable[[Json, int], list[int]] | None = None) -> None:
        for rule in (check.types, check.sizes, check.lines):
            found = check.first(rule(data))
            if found:
                raise WordsError(f"nothing can be added to this scenario: {check.told(found)}")
        self.data = copy.deepcopy(data)
        self.due = due
        self.nodes, self.m, self.periods = (self.data[key] for key in ("nodes", "m", "periods"))
        self.version = self.data.get("version", 1)

    # what the program would say of ranges, in words of the statement

    def _node(self, node: int) -> int:
        if not 0 <= node < self.nodes:
            raise WordsError(f"there is no node {node}; they are numbered from 0 to {self.nodes - 1}")
        return node

    def _span(self, periods: Span) -> list[int]:
        first, last = periods
        if not 0 <= first <= last < self.periods:
            raise WordsError(f"periods {first} to {last} aren't within 0 to {self.periods - 1}")
        return [first, last]

    def _to(self, sender: int, to: Iterable[int] | None) -> str | list[int]:
        if to is None:
            return "all"
        found = sorted({self._node(it) for it in to})
        if sender in found or not found:
            raise WordsError(f"node {sender} sends nothing to itself" if found else "there is nobody to send to")
        return found

    def _shared(self, line: Json, other: Json) -> tuple[int, int, int] | None:
        """The first receiver, slot and period that two lines of one sender both have, if there is one."""
        count = plan.slots(self.m)
        to = set(check.receivers(line, self.nodes)) & set(check.receivers(other, self.nodes))
        slots = set(check.slots_of(line, count)) & set(check.slots_of(other, count))
        first, last = (choose(it) for choose, it in zip((max, min), zip(line["periods"], other["periods"])))
        return (min(to), min(slots), first) if to and slots and first <= last else None

    def fault(self, sender: int, effect: Effect, periods: Span, to: Iterable[int] | None = None,
              slots: Iterable[int] | None = None) -> None:
        """Adds a fault line; raises WordsError where a line has one of its links, periods and slots already."""
        in_slots: str | list[int] = "all" if slots is None else sorted(set(slots))
        if isinstance(in_slots, list) and not all(0 <= it < plan.slots(self.m) for it in in_slots):
            raise WordsError(f"slots are numbered from 0 to {plan.slots(self.m) - 1}")
        line = {"from": self._node(sender), "to": self._to(sender, to), "periods": self._span(periods),
                "slots": in_slots, "effect": effect}
        lines = self.data.setdefault("faults", [])
        for at, other in enumerate(lines):
            shared = self._shared(line, other) if other["from"] == sender else None
            if shared:
                node, slot, period = shared
                raise WordsError(f"line {at} of faults has the link from {sender} to {node} in period {period} and "
                                 f"slot {slot} already")
        lines.append(line)

    def _places(self, channel: int, periods: Span) -> list[tuple[Span, int]]:
        """The channel's place among the due ones, for each span of periods in which it is the same."""
        channels = self.data.get("channels", [])
        if not 0 <= channel < len(channels):
            raise WordsError(f"there is no channel {channel}; the scenario has {len(channels)}")
        if all(plan.is_always_due(it) for it in channels[: channel + 1]):
            return [(periods, channel)]
        if self.due is None:
            raise WordsError(f"channel {channel} or one before it is due in some periods alone; the program is needed "
                             "to say in which")
        spans: list[tuple[Span, int]] = []
        for period in range(periods[0], periods[1] + 1):
            due = self.due(self.data, period)
            if channel not in due:
                continue
            place = due.index(channel)
            if spans and spans[-1][1] == place and spans[-1][0][1] == period - 1:
                spans[-1] = ((spans[-1][0][0], period), place)
            else:
                spans.append(((period, period), place))
        if not spans:
            raise WordsError(f"channel {channel} is due in none of the periods {periods[0]} to {periods[1]}")
        return spans

    def tells(self, node: int, value: int, channel: int, periods: Span, to: Iterable[int] | None = None) -> None:
        """Another value of a channel than the node's own, to some nodes or to all."""
        self._span(periods)
        for span, place in self._places(channel, periods):
            self.fault(node, {"set": {"at": plan.value_at(place), "hex": plan.value_hex(value)}}, span, to,
                       [plan.data_slot(self.m)])

    def silent(self, node: int, periods: Span, to: Iterable[int] | None = None,
               slots: Iterable[int] | None = None) -> None:
        """Frames that never arrive."""
        self.fault(node, "drop", periods, to, slots)

    def late(self, node: int, periods: Span, to: Iterable[int] | None = None, slots: Iterable[int] | None = None,
             tick: int = 25) -> None:
        """Frames at a tick outside the window."""
        if not plan.is_untimely(tick):
            raise WordsError(f"a frame at tick {tick} isn't late: outside the window are ticks 0 to 9 and 21 to 30")
        self.fault(node, {"time": tick}, periods, to, slots)

    def cut(self, node: int, count: int, periods: Span, to: Iterable[int] | None = None,
            slots: Iterable[int] | None = None) -> None:
        """Frames without their last bytes."""
        self.fault(node, {"cut": count}, periods, to, slots)

    def twice(self, node: int, periods: Span, to: Iterable[int] | None = None,
              slots: Iterable[int] | None = None) -> None:
        """Frames that arrive two times."""
        self.fault(node, "twice", periods, to, slots)

    def accuses(self, node: int, accused: int, kinds: list[str], periods: Span,
                to: Iterable[int] | None = None) -> None:
        """A row of accusations that gives a node these kinds."""
        mask = plan.kind_mask(kinds, self.version)
        self.fault(node, {"set": {"at": plan.mask_at(self._node(accused)), "hex": f"{mask:04x}"}}, periods, to,
                   [plan.report_slot(self.m)])

    def claims(self, node: int, task: int | None, periods: Span, to: Iterable[int] | None = None) -> None:
        """A claim that the node's copy of a task is done, or none."""
        count = len(self.data.get("tasks", []))
        if task is not None and not 0 <= task < count:
            raise WordsError(f"there is no task {task}; the scenario has {count}")
        self.fault(node, {"set": {"at": plan.HEADER, "hex": f"{255 if task is None else task:02x}"}}, periods, to,
                   [plan.CLAIM_SLOT])

    def sends(self, node: int, at: int, text: str, slot: int, periods: Span, to: Iterable[int] | None = None) -> None:
        """Other bytes from an offset on."""
        self.fault(node, {"set": {"at": at, "hex": text}}, periods, to, [slot])

    def clock_lies(self, node: int, by: int, periods: Span, to: Iterable[int] | None = None) -> None:
        """A clock that is read wrongly by others; the node must be faulty in these periods."""
        if "clock" not in self.data:
            raise WordsError("the scenario has no clock")
        lie = {"from": self._node(node), "to": self._to(node, to), "periods": self._span(periods), "by": by}
        self.data["clock"].setdefault("lies", []).append(lie)

    def restart(self, node: int, period: int) -> None:
        """A node that forgets all at the start of a period."""
        if not 1 <= period < self.periods:
            raise WordsError(f"a restart is in period 1 to {self.periods - 1}")
        found = {(it["period"], it["node"]) for it in self.data.get("restarts", [])} | {(period, self._node(node))}
        self.data["restarts"] = [{"node": it[1], "period": it[0]} for it in sorted(found)]

    def set_policy(self, key: str, value: int) -> None:
        """A number of the policy."""
        self.data["policy"][key] = value

    def set_weight(self, kind: str, value: int) -> None:
        """The weight of one kind of error."""
        at, weights = plan.kind_mask([kind], self.version).bit_length() - 1, self.data["policy"]["weights"]
        if at >= len(weights):
            raise WordsError(f"policy.weights has {len(weights)} numbers, and that of {kind} is the {at + 1}th")
        weights[at] = value

    def set_clock(self, key: str, value: Any) -> None:
        """A part of the clock; a scenario that has none gets one that is right and doesn't drift."""
        if self.version == 1:
            raise WordsError("version 1 has no clock; it takes \"version\": 2")
        start, drifts, errors = ([0] * self.nodes for _ in range(3))
        still = {"epsilon": 0, "drift": 0, "start": start, "drifts": [drifts], "errors": [errors], "lies": []}
        clock = self.data.setdefault("clock", still)
        clock[key] = value

    def set_channel(self, channel: int, key: str, value: Any) -> None:
        """A part of a channel; raises WordsError where its kind hasn't such a part."""
        channels = self.data.get("channels", [])
        if not 0 <= channel < len(channels):
            raise WordsError(f"there is no channel {channel}; the scenario has {len(channels)}")
        if key not in channels[channel]:
            raise WordsError(f"channel {channel} is a {channels[channel]['kind']} channel, which has no {key}")
        channels[channel][key] = value

    def add(self, statement: str) -> None:
        """Reads a statement and adds what it says, all of it or nothing; raises WordsError where it is of no form."""
        before = copy.deepcopy(self.data)
        try:
            self._add(statement)
        except ValueError as error:
            self.data = before
            raise WordsError(f"a number of '{json_text.printable(statement)}' is too long") from error
        except WordsError:
            self.data = before
            raise

    def _add(self, statement: str) -> None:
        if any(_settle(self, pattern, act, statement) for pattern, act in _SETTINGS):
            return
        if is_setting(statement):
            raise WordsError(f"'{json_text.printable(statement)}' is of none of these forms:\n{FORMS}")
        said = _Statement(statement)
        for pattern, act in _FORMS:
            found = re.fullmatch(pattern, said.what)
            if found:
                for node in said.nodes or [found.group(1)]:
                    for said.periods in said.spans:
                        act(self, said, str(node), *found.groups()[1:])
                return
        raise WordsError(f"'{json_text.printable(statement)}' is of none of these forms:\n{FORMS}")

    def dumps(self) -> str:
        """The scenario as JSON text, each fault, restart, channel and task on a line."""
        parts = []
        for key, value in self.data.items():
            if isinstance(value, list) and value and isinstance(value[0], dict):
                inner = ",\n    ".join(json.dumps(it) for it in value)
                parts.append(f'"{key}": [\n    {inner}]')
            else:
                parts.append(f'"{key}": {json.dumps(value)}')
        return "{\n  " + ",\n  ".join(parts) + "\n}\n"


# the plural of each verb, and its singular
_VERBS = {"are": "is", "tell": "tells", "accuse": "accuses", "claim": "claims", "send": "sends", "restart": "restarts",
          "speak": "speaks", "lie": "lies"}
_LIST = r"(?:\d+|,|and| )+"
_SOME = r"\d+(?: to \d+)?"


class _Statement:
    """A statement taken apart: what happens, by which nodes where there are several, to whom, and when.

    `what` is a sentence of one node; `spans` are the spans of periods, each in its turn `periods` while the statement
    is added.
    """

    def __init__(self, statement: str) -> None:
        rest = " ".join(statement.replace(",", " , ").split()).rstrip(" .")
        rest, slots = self._take(rest, rf"in slots? ({_LIST})$")
        if slots is None:
            rest, slots = self._take(rest, r"in slots? (\d+)(?= in | to | every |$)")
        rest, every = self._take(rest, r"every (\d+ periods? from \d+ to \d+)")
        rest, periods = self._take(rest, rf"in periods? ({_SOME}(?:(?: ,| and| , and) {_SOME})*)")
        rest, to = self._take(rest, rf"to (all|nodes? {_LIST})")
        self.slots = None if slots is None else _numbers(slots)
        self.to = None if to is None or to == "all" else _numbers(to)
        if (periods is None) == (every is None):
            raise WordsError(f"'{json_text.printable(statement)}' doesn't say in which period, "
                             "as in 'in periods 1 to 2'")
        self.spans = _spans(periods) if every is None else _repeated(*_numbers(every))
        self.periods: Span = self.spans[0]
        self.nodes, self.what = self._singular(" ".join(rest.replace(",", " ").split()))

    @staticmethod
    def _singular(what: str) -> tuple[list[int], str]:
        """Which nodes a sentence in the plural is of, and the sentence of the first; of another there are none."""
        found = re.fullmatch(rf"(clocks of )?nodes ({_LIST})({'|'.join(_VERBS)})\b(.*)", what)
        if found is None:
            return [], what
        clocks, nodes, verb, rest = found.groups()
        return _numbers(nodes), f"{'clock of ' if clocks else ''}node {_numbers(nodes)[0]} {_VERBS[verb]}{rest}"

    @staticmethod
    def _take(text: str, pattern: str) -> tuple[str, str | None]:
        found = re.search(pattern, text)
        if found is None:
            return text, None
        return (text[: found.start()] + " " + text[found.end():]).strip(" ,"), found.group(1).strip(" ,")


def _numbers(text: str) -> list[int]:
    return [int(it) for it in re.findall(r"-?\d+", text)]


def _spans(text: str) -> list[Span]:
    """The spans of `2, 7 and 12 to 14`."""
    numbers = [_numbers(it) for it in re.findall(_SOME, text)]
    return [(it[0], it[-1]) for it in numbers]


def _repeated(step: int, first: int, last: int) -> list[Span]:
    """Every so many periods from one to another."""
    if step < 1 or last < first or last > 1023:
        raise WordsError(f"every {step} periods from {first} to {last} is no period, or one beyond 1023")
    return [(it, it) for it in range(first, last + 1, step)]


def _rows(text: str) -> list[list[int]]:
    """The rows of `1, 2, 3; 4, 5, 6`."""
    return [_numbers(it) for it in text.split(";")]


def _settle(scenario: Scenario, pattern: str, act: Callable[..., Any], statement: str) -> bool:
    """Does what a statement sets, if it is of this form."""
    found = re.fullmatch(pattern, " ".join(statement.split()).rstrip(" ."))
    if found:
        act(scenario, *found.groups())
    return found is not None


def _kinds(text: str) -> list[str]:
    return [it for it in text.split() if it != "and"]


def _sends(s: Scenario, w: _Statement, node: str, text: str, at: str) -> None:
    if w.slots is None or len(w.slots) != 1:
        raise WordsError("bytes are sent in one slot, as in 'in slot 3'")
    s.sends(int(node), int(at), text, w.slots[0], w.periods, w.to)


def _restart(s: Scenario, w: _Statement, node: str) -> None:
    if w.periods[0] != w.periods[1]:
        raise WordsError("a node restarts in one period")
    s.restart(int(node), w.periods[0])


_FORMS: list[tuple[str, Callable[..., Any]]] = [
    (r"node (\d+) tells (-?\d+) on channel (\d+)",
     lambda s, w, n, v, c: s.tells(int(n), int(v), int(c), w.periods, w.to)),
    (r"node (\d+) is silent", lambda s, w, n: s.silent(int(n), w.periods, w.to, w.slots)),
    (r"node (\d+) is late(?: at tick (\d+))?",
     lambda s, w, n, t: s.late(int(n), w.periods, w.to, w.slots, 25 if t is None else int(t))),
    (r"node (\d+) is cut by (\d+)(?: bytes?)?", lambda s, w, n, k: s.cut(int(n), int(k), w.periods, w.to, w.slots)),
    (r"node (\d+) speaks twice", lambda s, w, n: s.twice(int(n), w.periods, w.to, w.slots)),
    (r"node (\d+) accuses node (\d+) of ([a-z ]+)",
     lambda s, w, n, j, k: s.accuses(int(n), int(j), _kinds(k), w.periods, w.to)),
    (r"node (\d+) claims (?:task (\d+)|nothing)",
     lambda s, w, n, t: s.claims(int(n), None if t is None else int(t), w.periods, w.to)),
    (r"node (\d+) sends bytes ([0-9a-fA-F]+) at (\d+)", _sends),
    (r"clock of node (\d+) lies by (-?\d+)", lambda s, w, n, b: s.clock_lies(int(n), int(b), w.periods, w.to)),
    (r"node (\d+) restarts", _restart),
]


_ROW = r"(-?\d+(?:(?: ?,| and| ,? and|) -?\d+)*)"
_ROWS = r"(-?\d[-\d, ]*(?:;[-\d, ]*\d)*)"
# statements that set a number or a row, whatever the period
_SETTINGS: list[tuple[str, Callable[..., Any]]] = [
    (rf"policy ({'|'.join(POLICY)}) is (-?\d+)", lambda s, key, value: s.set_policy(key, int(value))),
    (r"policy weight of ([a-z]+) is (-?\d+)", lambda s, kind, value: s.set_weight(kind, int(value))),
    (r"clock (epsilon|drift) is (-?\d+)", lambda s, key, value: s.set_clock(key, int(value))),
    (rf"clock (start) is {_ROW}", lambda s, key, row: s.set_clock(key, _numbers(row))),
    (rf"clock (drifts|errors) are {_ROWS}", lambda s, key, rows: s.set_clock(key, _rows(rows))),
    (rf"readings of channel (\d+) are {_ROWS}",
     lambda s, channel, rows: s.set_channel(int(channel), "readings", _rows(rows))),
    (rf"start of channel (\d+) is {_ROW}", lambda s, channel, row: s.set_channel(int(channel), "start", _numbers(row))),
    (r"(delta|step) of channel (\d+) is (-?\d+)",
     lambda s, key, channel, value: s.set_channel(int(channel), key, int(value))),
]


def is_setting(statement: str) -> bool:
    """Whether a statement would set a number or a row, by its first word."""
    return re.match(r"(policy|clock (?!of)|readings|start|delta|step)\b", statement.strip()) is not None


def statements_in(text: str) -> list[str]:
    """The statements of a file: one a line; what stands behind # is passed over."""
    return [it for it in (line.split("#", 1)[0].strip() for line in text.splitlines()) if it]


def due_by(program: str) -> Callable[[Json, int], list[int]]:
    """Which channels are due in a period, as the program's replay of the scenario shows them."""
    from . import program as runs
    from . import text

    seen: dict[str, list[list[int]]] = {}

    def due(data: Json, period: int) -> list[int]:
        key = json.dumps(data)
        if key not in seen:
            read = text.read(runs.run_well(program, ["replay"], key).splitlines(), reference_only=True)
            seen[key] = [sorted(it.reference.votes) if it.reference else [] for it in read.periods]
        return seen[key][period]

    return due
