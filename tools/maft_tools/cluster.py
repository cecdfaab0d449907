"""A cluster of processes: a controller for each node, and the network between them, slot by slot."""
from __future__ import annotations

import dataclasses
from collections.abc import Callable, Iterable
from typing import NamedTuple, Optional

from . import check, links, plan
from .history import History, told_to_nodes
from .json_text import printable
from .plan import LAST_TICK, RESTED_TICK, Json, WordsError
from .program import input_of
from .trace import Arrived
from .wires import Start, Wire

# how many bytes of a frame surely fit a line of an event
MOST_ARRIVED = 131_000
_DIGITS = b"0123456789abcdef"


class Frame(NamedTuple):
    """A frame that a node says to another one."""

    period: int
    slot: int
    sender: int
    receiver: int
    data: bytes


# A network of one's own: of a frame, what arrives of it (ticks and bytes), or None where nothing befalls it.
Network = Callable[[Frame], Optional["list[tuple[int, bytes]]"]]


@dataclasses.dataclass(frozen=True)
class Kill:
    """A node's process is killed before its frame of a slot is sent, and started anew before a later period, if any."""

    node: int
    period: int
    slot: int
    back: int | None = None

    def is_dead(self, period: int) -> bool:
        """Whether the node is dead at the end of a period by this."""
        return self.period <= period and (self.back is None or period < self.back)


def check_kill(kill: Kill, scenario: Json, periods: int, others: Iterable[Kill]) -> None:
    """Raises WordsError for a kill that can't be."""
    if not 0 <= kill.node < scenario["nodes"]:
        raise WordsError(f"there is no node {kill.node}; they are numbered from 0 to {scenario['nodes'] - 1}")
    if not 0 <= kill.period < periods:
        raise WordsError(f"node {kill.node} can't be killed in period {kill.period}: the run has the periods 0 to "
                         f"{periods - 1}")
    if not 0 <= kill.slot < plan.slots(scenario["m"]):
        raise WordsError(f"slots are numbered from 0 to {plan.slots(scenario['m']) - 1}, and there is none {kill.slot}")
    if kill.back is not None and not kill.period < kill.back < periods:
        raise WordsError(f"node {kill.node} can be back in the periods {kill.period + 1} to {periods - 1}, and not in "
                         f"{kill.back}")
    for other in others:
        if other.node == kill.node and (other.is_dead(kill.period) or kill.is_dead(other.period)):
            raise WordsError(f"node {kill.node} would be killed in period {max(kill.period, other.period)}, in which "
                             "it is dead")


class Clocks:
    """The clocks of the nodes, as the scenario's clock has them."""

    def __init__(self, scenario: Json) -> None:
        self.clock = scenario["clock"]
        self.offsets: list[int] = list(self.clock["start"])

    def _read(self, period: int, node: int, other: int) -> int:
        """How far a node finds the clock of another one ahead of its own: with an error, and a lie."""
        errors = self.clock["errors"]
        by = self.offsets[other] - self.offsets[node] + errors[(period + other) % len(errors)][node]
        for lie in self.clock["lies"]:
            is_told = lie["to"] == "all" or node in lie["to"]
            if lie["from"] == other and is_told and lie["periods"][0] <= period <= lie["periods"][1]:
                return int(by + lie["by"])
        return int(by)

    def told(self, period: int, node: int) -> bytes:
        """What a node is told of the others' clocks in a period."""
        return b"".join(b"ahead %d %d\n" % (other, self._read(period, node, other))
                        for other in range(len(self.offsets)) if other != node)

    def drift(self, period: int, corrections: list[int]) -> None:
        """The clocks are corrected, and drift on to the next period."""
        drifts = self.clock["drifts"]
        row = drifts[period % len(drifts)]
        self.offsets = [now + by + drift for now, by, drift in zip(self.offsets, corrections, row)]


def check_accepted(start: Start, scenario: Json) -> None:
    """Asks a controller whether the scenario is accepted; raises WordsError with what is wrong, as tools/check has
    it."""
    wire = start(0)
    data = input_of(scenario)
    wire.tell(data + b"\n")
    wire.end_input()
    try:
        line = wire.answer(b"end 0", b"refused ").decode(errors="replace")
        if line != "end 0":
            raise WordsError(f"the scenario is {check.explain(data, ['check'], 4, line)}")
    finally:
        wire.close()


def check_arrived(made: object) -> None:
    """Raises WordsError where a network answers something else than what arrives of a frame."""
    if not isinstance(made, (list, tuple)):
        raise WordsError(f"the network answers {shown_type(made)} for a frame, and must answer None or a list")
    for it in made:
        if not (isinstance(it, (list, tuple)) and len(it) == 2 and type(it[0]) is int
                and isinstance(it[1], (bytes, bytearray))):
            raise WordsError(f"the network answers a list with {shown_type(it)}, and must answer pairs of a tick and "
                             "bytes")
        if not 0 <= it[0] <= LAST_TICK or len(it[1]) > MOST_ARRIVED:
            raise WordsError(f"the network has a frame arrive at tick {it[0]} with {len(it[1])} bytes; ticks are from "
                             f"0 to {LAST_TICK}, and it may have at most {MOST_ARRIVED} bytes")


def shown_type(value: object) -> str:
    """A value in words, by its type."""
    return f"an object of type {type(value).__name__}"


class Cluster:
    """The controllers of a scenario's nodes. Without a history nothing is noted, which is quicker.

    Use it as a context: at its end no controller is left.
    """

    def __init__(self, scenario: Json, start: Start, network: Network | None = None,
                 history: History | None = None) -> None:
        self.scenario, self.start, self.network, self.history = scenario, start, network, history
        self.nodes, self.slots = scenario["nodes"], plan.slots(scenario["m"])
        self.kills: list[Kill] = []
        self.clocks = Clocks(scenario) if "clock" in scenario else None
        self._text = input_of(told_to_nodes(scenario)) + b"\n"
        self._heads = [b"deliver %d %d " % (node, RESTED_TICK) for node in range(self.nodes)]
        # how many periods each process ran
        self._ran = [0] * self.nodes
        self.wires: list[Wire | None] = [None] * self.nodes
        # the effects of the period's fault lines, by slot
        self._touched: dict[int, links.Touched] = {}

    def __enter__(self) -> Cluster:
        try:
            for node in range(self.nodes):
                self._open(node)
        except BaseException:
            self.close()
            raise
        return self

    def __exit__(self, kind: type[BaseException] | None, *_: object) -> None:
        try:
            if kind is None:
                self._finish()
        finally:
            self.close()

    def set_scenario(self, scenario: Json) -> None:
        """From the next period on the faults, restarts and lies are those of this scenario, which else is the same."""
        self.scenario = scenario
        if self.clocks:
            self.clocks.clock = scenario["clock"]

    def _open(self, node: int) -> Wire:
        wire = self.wires[node] = self.start(node)
        self._ran[node] = 0
        wire.tell(self._text)
        return wire

    def _finish(self) -> None:
        """Ends all controllers as they are meant to end."""
        for node, wire in enumerate(self.wires):
            if wire is not None:
                self.wires[node] = None
                wire.finish(b"end %d" % self._ran[node])

    def close(self) -> None:
        """Kills what still runs."""
        for node, wire in enumerate(self.wires):
            if wire is not None:
                self.wires[node] = None
                wire.close()

    def _begin(self, period: int) -> None:
        """Begins a period at all nodes that live, and starts those anew that come back."""
        back = {it.node for it in self.kills if it.back == period}
        restarts = {it["node"] for it in self.scenario.get("restarts", []) if it["period"] == period}
        for node in range(self.nodes):
            wire = self.wires[node] or (self._open(node) if node in back else None)
            if wire is None:
                continue
            restarted = node in back or node in restarts
            if restarted and self.history:
                self.history.restarted.add((period, node))
            wire.tell((b"restart\n" if restarted else b"") + b"begin %d\n" % period
                      + (self.clocks.told(period, node) if self.clocks else b""))

    def _said(self, period: int, slot: int) -> list[bytes]:
        """What each node says in a slot, nothing of one that is dead."""
        said = [b"" if wire is None else self._frame(wire, b"say %d " % slot) for wire in self.wires]
        for kill in self.kills:
            wire = self.wires[kill.node]
            if (kill.period, kill.slot) == (period, slot) and wire is not None:
                wire.kill()
                self.wires[kill.node], said[kill.node] = None, b""
        if self.history:
            for node, digits in enumerate(said):
                if not digits:
                    self.history.note_silence(period, slot, node)
        return said

    @staticmethod
    def _frame(wire: Wire, head: bytes) -> bytes:
        """The digits of the frame that a node says."""
        digits = wire.answer(head)[len(head):]
        if not digits or len(digits) % 2 or digits.translate(None, _DIGITS):
            raise WordsError(f"{wire.name} says no frame in digits: '{printable(digits.decode(errors='replace'), 60)}'")
        return digits

    def _befallen(self, period: int, slot: int, said: list[bytes]) -> dict[int, dict[int, Arrived]]:
        """What else than the frame arrives, by receiver and sender: by the fault lines, and by the network."""
        found: dict[int, dict[int, Arrived]] = {}
        for sender, effects in self._touched.get(slot, {}).items():
            for to, effect in effects.items() if said[sender] else ():
                found.setdefault(to, {})[sender] = links.arrivals(effect, said[sender])
                if self.history:
                    self.history.note((period, slot, sender, to), effect)
        for sender, digits in enumerate(said) if self.network else ():
            for to in range(self.nodes) if digits else ():
                if to != sender and sender not in found.get(to, {}):
                    arrived = self._arrived((period, slot, sender, to), digits)
                    if arrived is not None:
                        found.setdefault(to, {})[sender] = arrived
        return found

    def _arrived(self, link: links.Link, digits: bytes) -> Arrived | None:
        """What the network makes of a frame, and its note; None where it touches nothing."""
        assert self.network is not None
        made = self.network(Frame(*link, bytes.fromhex(digits.decode())))
        if made is None:
            return None
        check_arrived(made)
        arrived = [(tick, bytes(data).hex().encode()) for tick, data in made]
        effect = links.effect_of(digits, arrived) if self.history else None
        if self.history and effect is not None:
            self.history.note(link, effect)
        return arrived

    def _slot(self, period: int, slot: int) -> None:
        """Takes all nodes through a slot."""
        said = self._said(period, slot)
        befallen = self._befallen(period, slot, said)
        lines = [head + digits + b"\n" if digits else b"" for head, digits in zip(self._heads, said)]
        for node, wire in enumerate(self.wires):
            there = befallen.get(node, {})
            if self.history and self.history.keeps_frames:
                self._note_arrived((period, slot), node, said, there)
            if wire is None:
                continue
            told = lines[:node] + [b""] + lines[node + 1:] + [b"end\n"]
            for sender, arrived in there.items():
                told[sender] = b"".join(b"deliver %d %d %s\n" % (sender, tick, digits or b"-")
                                        for tick, digits in arrived)
            wire.tell(b"".join(told))

    def _note_arrived(self, at: tuple[int, int], node: int, said: list[bytes], there: dict[int, Arrived]) -> None:
        assert self.history is not None
        for sender, digits in enumerate(said):
            if sender != node and digits:
                self.history.note_arrived((*at, sender, node), there.get(sender, [(RESTED_TICK, digits)]))

    def _believed(self, period: int, node: int, wire: Wire) -> list[str]:
        """The lines of a node after a period."""
        wire.answer(b"period %d" % period)
        head = wire.answer(b"node %d - " % node)
        more = [] if head.endswith(b" cold") else [wire.answer(it) for it in (b"  done ", b"  rows ", b"  votes ")]
        self._ran[node] += 1
        return [it.decode() for it in (head, *more)]

    def period(self, period: int) -> list[list[str]]:
        """Takes all nodes through a period. Of each node its lines, none of one that is dead at the end."""
        self._touched = links.touched(self.scenario, period)
        self._begin(period)
        for slot in range(self.slots):
            self._slot(period, slot)
        lines = [[] if wire is None else self._believed(period, node, wire) for node, wire in enumerate(self.wires)]
        if self.clocks:
            self.clocks.drift(period, [0 if wire is None else int(wire.answer(b"correct ")[8:]) for wire in self.wires])
        return lines
