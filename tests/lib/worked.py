"""Works out what a node says and believes from what it was delivered, by the rules of docs/PROTOCOL.md in plain Python.

This is a second telling of the rules, on purpose: it shares nothing with the program's crates. It is slow, and judges
drawn scenarios.
"""
from __future__ import annotations

import functools
from collections.abc import Callable
from typing import Dict, List, Optional

import wire
from maft_tools.plan import VALUE_LIMIT, Json
from wire import COLD, FAILED, PASSED, State, Told

NO_CLAIM = b"\xff"
MISSING, MALFORMED, TIMING, COLD_KIND, STATE, CLAIM, OVERRUN, DEVIATE, EQUIVOCATE = (1 << bit for bit in range(9))
# what arrived of one frame: by period, slot, sender and receiver
Arrived = Callable[[int, int], wire.Arrivals]
# the rows that are settled; None for an error
Rows = Dict[int, Optional[List[int]]]


def wrapped(told: Told) -> Told:
    """A fault once more, a value as it is."""
    return told + 1 if isinstance(told, int) else told


def majority(values: list[Told]) -> Told:
    """The value of more than half of those that aren't Fault 0, else Fault 1."""
    there = [it for it in values if it != 0]
    return next((it for it in there if 2 * there.count(it) > len(there)), 1)


def vote(values: list[int], tolerated: int) -> Optional[int]:
    """The mean of the outermost values that are left, rounded down."""
    if not values:
        return None
    ranked, away = sorted(values), max(0, len(values) - tolerated - 1) // 2
    return (ranked[away] + ranked[-1 - away]) // 2


# ---- the agreed state


def finished(tasks: list[Json], state: State) -> set[int]:
    """The tasks of which enough copies have passed."""
    return {t for t, task in enumerate(tasks) if state.copies[t].count(PASSED) >= task["need"]}


def complete(tasks: list[Json], state: State, claims: dict[int, Optional[int]]) -> dict[int, int]:
    """Takes the members' settled claims, and answers the mask that each is accused of for them."""
    verdicts = {}
    for node in state.members:
        claim, running, mask = claims[node], state.running(node), 0
        if running is None:
            mask = 0 if claim is None else CLAIM
        else:
            row, task = state.copies[running], tasks[running]
            if claim == running and row[node] >= task["min"]:
                row[node] = PASSED
            elif claim == running or row[node] < task["max"]:
                mask, row[node] = (0 if claim is None else CLAIM), row[node] + 1
            else:
                mask, row[node] = OVERRUN | (0 if claim is None else CLAIM), FAILED
        verdicts[node] = mask
    return verdicts


def pick(tasks: list[Json], state: State) -> None:
    """Each member that runs nothing begins the first task that it may."""
    done = finished(tasks, state)
    free = [node for node in state.members if state.running(node) is None]
    for t, task in enumerate(tasks):
        if set(task["after"]) <= done:
            begins = [node for node in free if node in task["nodes"] and state.copies[t][node] == 0]
            for node in begins:
                state.copies[t][node] = 1
            free = [node for node in free if node not in begins]


def first_state(scenario: Json) -> State:
    """The state that all nodes have before period 0."""
    nodes, tasks = scenario["nodes"], scenario.get("tasks", [])
    state = State(list(range(nodes)), [0] * nodes, [0] * nodes, [0] * nodes, [[0] * nodes for _ in tasks])
    pick(tasks, state)
    return state


def charged(rows: Rows, node: int) -> int:
    """The kinds of which more than half of the others' settled rows accuse a node."""
    masks = [row[node] for teller, row in rows.items() if row is not None and teller != node]
    return sum(1 << bit for bit in range(16) if 2 * sum(it >> bit & 1 for it in masks) > len(masks))


def count(policy: Json, state: State, node: int, mask: int) -> None:
    """A node's count and streak after a period in which it is charged with these kinds."""
    if mask:
        weight = sum(policy["weights"][bit] for bit in range(16) if mask >> bit & 1)
        state.counts[node], state.streaks[node] = min(policy["cap"], state.counts[node] + weight), 0
        return
    state.streaks[node] += 1
    if state.streaks[node] == policy["streak"]:
        state.counts[node], state.streaks[node] = max(0, state.counts[node] - policy["credit"]), 0


def move(policy: Json, state: State) -> None:
    """Who leaves the members and who joins them."""
    retire = policy.get("retire", 0)
    leaves = [node for node in state.members if state.counts[node] >= policy["exclude"]]
    if leaves == state.members:
        leaves = []
    joins = [node for node, held in enumerate(state.counts) if node not in state.members and held <= policy["readmit"]
             and (retire == 0 or state.left[node] < retire)]
    for node in leaves if retire else []:
        state.left[node] = min(65535, state.left[node] + 1)
    state.members = sorted(set(state.members) - set(leaves) | set(joins))


def step(scenario: Json, state: State, rows: Rows, period: int) -> None:
    """The state after a period, of which the claims are taken, by its settled rows."""
    policy, tasks = scenario["policy"], scenario.get("tasks", [])
    for node in range(scenario["nodes"]):
        count(policy, state, node, charged(rows, node))
    move(policy, state)
    for row in state.copies:
        for node, word in enumerate(row):
            if node not in state.members and 0 < word < PASSED:
                row[node] = FAILED
            if (period + 1) % scenario.get("frame", scenario["periods"]) == 0:
                row[node] = 0
    pick(tasks, state)


# ---- what is heard and settled


class Heard:
    """What a node heard of claims, or of rows, by path; `me` is the node, and `full` whether it is Full."""

    def __init__(self, m: int, members: list[int], me: int, full: bool) -> None:
        self.m, self.members, self.me, self.full = m, members, me, full
        self.told: dict[tuple[int, ...], Told] = {}

    def paths(self, length: int, without: int) -> list[tuple[int, ...]]:
        """The paths of so many members but this one, in lexicographic order."""
        return _paths(tuple(it for it in self.members if it != without), length)

    def take(self, sender: int, round_: int, content: object) -> None:
        """What a member's frame of a round says."""
        if round_ == 0:
            self.told[(sender,)] = content
            return
        for path, told in zip(self.paths(round_, sender), content):
            self.told[(*path, sender)] = told

    def relayed(self, round_: int) -> list[Told]:
        """What the node says in a relay round."""
        if self.me not in self.members:
            return []
        return [wrapped(self.told.get(path, 0)) for path in self.paths(round_, self.me)]

    def settled(self, path: tuple[int, ...]) -> Told:
        """What the node settles for a path."""
        if len(path) == self.m + 1:
            return self.told.get(path, 0)
        values: list[Told] = []
        for other in self.members:
            if other in path:
                continue
            if other == self.me:
                values.append(wrapped(self.told.get(path, 0)) if self.full else 0)
            else:
                values.append(self.settled((*path, other)))
        told = majority(values)
        return told - 1 if isinstance(told, int) else told

    def items(self, own: bytes) -> dict[int, Told]:
        """What is settled of each member; the node's own item as it is."""
        return {it: (own if self.full else 0) if it == self.me else self.settled((it,)) for it in self.members}

    def convicted(self) -> list[int]:
        """The members that told the node something else than others relay of them."""
        out = []
        for member in self.members:
            others = [it for it in self.members if it not in (member, self.me)]
            relays = [told for told in (self.told.get((member, it), 0) for it in others) if told != 0]
            voices = len(relays) + (self.full and self.me in self.members)
            differ = sum(it != wrapped(self.told.get((member,), 0)) for it in relays)
            if member != self.me and differ > max(0, voices - self.m) // 2:
                out.append(member)
        return out


@functools.lru_cache(4096)
def _paths(members: tuple[int, ...], length: int) -> list[tuple[int, ...]]:
    if length == 0:
        return [()]
    others = {first: tuple(it for it in members if it != first) for first in members}
    return [(first, *rest) for first in members for rest in _paths(others[first], length - 1)]


# ---- a node


class Node:
    """One controller: what it keeps between periods, and what it finds in the period that it goes through."""

    def __init__(self, scenario: Json, me: int) -> None:
        self.scenario, self.me = scenario, me
        self.m, self.version, self.nodes = scenario["m"], scenario.get("version", 1), scenario["nodes"]
        self.tasks, self.channels = scenario.get("tasks", []), scenario.get("channels", [])
        self.restarts = {it["period"] for it in scenario.get("restarts", []) if it["node"] == me}
        self.others = [it for it in range(self.nodes) if it != me]
        self.state: Optional[State] = first_state(scenario)
        self.mode = "full"
        self.carried = [0] * self.nodes
        self.own: dict[int, Optional[int]] = {}
        self.last: dict[int, Optional[int]] = {}
        self.said: list[bytes] = []
        self.sync: list[int] = []
        self.members: list[int] = []

    def period(self, number: int, arrived: Arrived) -> list[str]:
        """Goes through a period, with what arrived in a slot from a sender. Answers the lines without a class."""
        self.number, self.arrived, self.said = number, arrived, []
        if number in self.restarts:
            self.state, self.mode, self.carried, self.own, self.last = None, "cold", [0] * self.nodes, {}, {}
        elif self.state is not None:
            self.mode = "full"
        self.row, self.carried = self.carried, [0] * self.nodes
        self.due: list[int] = []
        self.groups: dict[int, list[int]] = {}
        self.values: dict[int, list[int]] = {}
        self._sync()
        if self.state is None:
            for slot in range(1, 2 * self.m + 4):
                self._say(slot, b"", True)
            return [f"node {self.me} - cold"]
        self.members = list(self.state.members)
        done = self._claims()
        votes = self._values()
        rows = self._rows()
        step(self.scenario, self.state, rows, number)
        return self._lines(done, rows, votes)

    def _say(self, slot: int, body: bytes, cold: bool = False) -> None:
        what, round_ = wire.carries(slot, self.m)
        silent = cold or self.mode != "full"
        kind = COLD if silent else wire.KINDS[what] + (round_ > 0)
        self.said.append(wire.spell(self.version, (self.number, slot, self.me), kind, b"" if silent else body))

    def _hear(self, slot: int, sender: int, notes: list[int], members: list[int]) -> object:
        """What a sender's frame of a slot says, or None; what is wrong with it is noted."""
        came, said = self.arrived(slot, sender), None
        if not came:
            found = MISSING
        elif len(came) > 1:
            found = MALFORMED
        elif came[0][0] not in wire.WINDOW:
            found = TIMING
        else:
            said = wire.said(self.scenario, members, len(self.due), (self.number, slot, sender), came[0][1])
            found = MALFORMED if said is None else COLD_KIND if said == COLD and isinstance(said, int) else 0
        notes[sender] |= found
        return None if found else said

    def _sync(self) -> None:
        """Slot 0: the state that the node goes in with is compared, or one is adopted."""
        mine = self.state.body(self.version) if self.state else b""
        self._say(0, mine, self.state is None)
        said = {it: self._hear(0, it, self.row, []) for it in self.others}
        bodies = {it: body for it, body in said.items() if isinstance(body, bytes)}
        self.sync = sorted(bodies)
        if self.state is not None:
            for it, body in bodies.items():
                self.row[it] |= 0 if body == mine else STATE
            return
        most = majority(list(bodies.values()))
        self.state = wire.read_state(self.scenario, most) if isinstance(most, bytes) else None
        self.mode = "cold" if self.state is None else "joining"

    def _exchange(self, slot: int, own: bytes, notes: list[int]) -> Heard:
        """A round 0 and its relay rounds, from a slot on."""
        full = self.mode == "full"
        heard = Heard(self.m, self.members, self.me, full)
        for round_ in range(self.m + 1):
            told = heard.relayed(round_) if round_ else [own]
            width = len(own)
            plain = b"\0" if round_ else b""
            entries = [bytes([it]) + bytes(width) if isinstance(it, int) else plain + it for it in told]
            self._say(slot + round_, b"".join(entries))
            for sender in self.others:
                content = self._hear(slot + round_, sender, notes, self.members)
                if content is not None and sender in self.members:
                    heard.take(sender, round_, content)
        return heard

    def _claims(self) -> dict[int, Told]:
        """The slots of claims: what is settled, what members are accused of for it, and which channels are due."""
        running, own = self.state.running(self.me), NO_CLAIM
        if running is not None:
            task = self.tasks[running]
            if self.state.copies[running][self.me] >= task["run"][task["nodes"].index(self.me)]:
                own = bytes([running])
        heard = self._exchange(1, own, self.row)
        done = heard.items(own)
        before = finished(self.tasks, self.state)
        claims = {it: None if isinstance(told, int) or told == NO_CLAIM else told[0] for it, told in done.items()}
        verdicts = complete(self.tasks, self.state, claims)
        for member in self.members:
            if member != self.me:
                self.row[member] |= verdicts[member]
        self._convict(heard, self.row)
        now = finished(self.tasks, self.state) - before
        due = (None, *now)
        self.due = [c for c, it in enumerate(self.channels) if it["kind"] == "state" or it.get("task") in due]
        return done

    def _convict(self, heard: Heard, notes: list[int]) -> None:
        if self.version == 2 and self.m:
            for member in heard.convicted():
                notes[member] |= EQUIVOCATE

    def _own_value(self, channel: int) -> int:
        part = self.channels[channel]
        if part["kind"] != "state":
            return part["readings"][self.number % len(part["readings"])][self.me]
        if self.number == 0:
            return part["start"][self.me]
        base = self.last.get(channel)
        base = self.own.get(channel) if base is None else base
        return max(-VALUE_LIMIT, min(VALUE_LIMIT, (base or 0) + part["step"]))

    def _values(self) -> dict[int, Optional[int]]:
        """The slot of values: the vote of each channel that is due."""
        kept = [c for c, part in enumerate(self.channels) if part["kind"] == "state" or c in self.due]
        self.own = {c: self._own_value(c) for c in kept}
        mine = [self.own[c] for c in self.due]
        self._say(self.m + 2, b"".join(it.to_bytes(8, "big", signed=True) for it in mine))
        told = {it: self._hear(self.m + 2, it, self.row, self.members) for it in self.others}
        there = {it: values for it, values in told.items() if values is not None}
        voters = {it: there[it] for it in there if it in self.members}
        if self.mode == "full" and self.me in self.members:
            voters[self.me] = mine
        votes = {c: self._vote(at, c, voters) for at, c in enumerate(self.due)}
        for at, channel in enumerate(self.due):
            part, vote_of = self.channels[channel], votes[channel]
            if part["kind"] != "copy" and vote_of is not None:
                for it, values in there.items():
                    self.row[it] |= DEVIATE if abs(values[at] - vote_of) > part["delta"] else 0
        self.last = {c: votes[c] for c in self.due}
        return votes

    def _vote(self, at: int, channel: int, voters: dict[int, list[int]]) -> Optional[int]:
        part = self.channels[channel]
        if part["kind"] != "copy":
            return vote([values[at] for values in voters.values()], self.m)
        passed = self.state.copies[part["task"]]
        self.groups[channel] = [it for it in self.members if passed[it] == PASSED]
        return vote([voters[it][at] for it in self.groups[channel] if it in voters], part["lies"])

    def _rows(self) -> Rows:
        """The slots of reports: the rows that are settled. What is found in them is carried into the next period."""
        self.row[self.me] = 0
        own = wire.bytes_of(self.row)
        heard = self._exchange(self.m + 3, own, self.carried)
        self._convict(heard, self.carried)
        return {it: None if isinstance(told, int) else wire.words_of(told) for it, told in heard.items(own).items()}

    def _lines(self, done: dict[int, Told], rows: Rows, votes: dict[int, Optional[int]]) -> list[str]:
        state = self.state
        running = [state.running(it) for it in range(self.nodes)]
        head = f"node {self.me} - {self.mode} members {_list(state.members)}"
        head += f" counts {_list(state.counts)} streaks {_list(state.streaks)}"
        head += f" run {','.join('-' if it is None else str(it) for it in running)}"
        head += f" left {_list(state.left)}" if self.scenario["policy"].get("retire", 0) else ""
        claims = (f"{it}={'E' if isinstance(told, int) else '-' if told == NO_CLAIM else told[0]}"
                  for it, told in done.items())
        cells = (f"{it}={'E' if row is None else _list(row)}" for it, row in rows.items())
        ballots = [f"{it}={'-' if of is None else of}" for it, of in votes.items()]
        votes_line = "  votes " + (" ".join(ballots) or "-")
        return [head, "  done " + " ".join(claims), "  rows " + " ".join(cells), votes_line]


def _list(numbers: list[int]) -> str:
    return ",".join(map(str, numbers)) or "-"
