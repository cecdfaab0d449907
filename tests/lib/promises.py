"""What a replayed text must say of each claimed period, read from the text and the scenario alone.

`judge` answers a list of what is wrong. It knows no rule by which a node moves: only what the nodes promise each other.
Who votes on a copy channel isn't in the text; that is told beside it.
"""
from __future__ import annotations

from collections.abc import Iterator, Mapping
from typing import Optional

from maft_tools.plan import VALUE_LIMIT, Json
from maft_tools.text import Node, Period, Text

EQUIVOCATE = 256
Values = "list[list[Optional[int]]]"
# by period and copy channel: the members whose copy has passed
Groups = Mapping[int, Mapping[int, "list[int]"]]


def of(period: Period, letters: str) -> list[Node]:
    """The nodes of these classes."""
    return [node for node in period.nodes if node.letter in letters]


def tolerates(letters: list[str], faults: int) -> bool:
    """Whether nodes of these classes keep the fault bound, of which so many may be asymmetric."""
    counted = {kind: sum(it in kind for it in letters) for kind in ("A", "S", "BJ")}
    return counted["A"] <= faults and len(letters) > 2 * counted["A"] + 2 * counted["S"] + counted["BJ"] + faults


def count_wrong(period: Period, before: Optional[Period], m: int, kept: bool) -> Iterator[str]:
    """The period line against the classes of the nodes, and against the period before."""
    letters = {node.id: node.letter for node in period.nodes}
    if not letters.keys() >= set(period.members):
        yield "a member is no node"
        return
    reference = next((node.id for node in of(period, "N")), None)
    if reference is None:
        known = []
    else:
        known = [node.id for node in period.nodes] if before is None else before.nodes[reference].members
    members = [letters[it] for it in period.members]
    counted = tuple(sum(it in kind for it in members) for kind in ("A", "S", "BJ"))
    budget = bool(members) and tolerates(members, m)
    shown = (period.members, period.n, (period.a, period.s, period.b), period.budget, period.claim)
    if shown != (known, len(members), counted, budget, budget and kept):
        yield "the period line is not that of the classes"


def state_of(node: Node) -> tuple[object, ...]:
    """The whole agreed state that a node's lines show."""
    return node.members, node.counts, node.streaks, node.run, node.left


def agreement_wrong(period: Period, throughout: set[int]) -> Iterator[str]:
    """The sound nodes hold the same, and nobody who was nonfaulty throughout is charged."""
    sound = of(period, "NJ")
    for node in sound:
        if node.mode != ("full" if node.letter == "N" else "joining"):
            yield f"node {node.id} is {node.letter} and {node.mode}"
            return
    for node in sound[1:]:
        if state_of(node) != state_of(sound[0]):
            yield f"nodes {sound[0].id} and {node.id} hold different states"
        if (node.done, node.rows) != (sound[0].done, sound[0].rows):
            yield f"nodes {sound[0].id} and {node.id} settle different claims or rows"
        if node.votes.keys() != sound[0].votes.keys():
            yield f"nodes {sound[0].id} and {node.id} have different channels due"
    for node in sound:
        for other in throughout:
            if node.counts[other] != 0 or other not in node.members:
                yield f"node {node.id} charges or leaves out node {other}, which was nonfaulty throughout"


def convictions_wrong(period: Period, before: Optional[Period]) -> Iterator[str]:
    """Nonfaulty nodes convict those alone that are asymmetric, in this period or in the one before it."""
    for node in of(period, "N"):
        for other, mask in enumerate(node.rows.get(node.id) or ()):
            letters = [it.nodes[other].letter for it in (before, period) if it is not None]
            if mask & EQUIVOCATE and "A" not in letters:
                yield f"node {node.id} convicts node {other}, which isn't asymmetric"


def spread_wrong(channel: int, votes: list[Optional[int]], values: list[Optional[int]]) -> Iterator[str]:
    """Votes lie within these values, and half as far apart."""
    if None in votes or None in values or not values:
        yield f"channel {channel} has no vote"
        return
    least, greatest = min(values), max(values)
    if min(votes) < least or max(votes) > greatest:
        yield f"channel {channel}: a vote of {votes} is outside of {least} to {greatest}"
    if max(votes) - min(votes) > (greatest - least + 1) // 2:
        yield f"channel {channel}: votes {votes} are too far apart"


def votes_wrong(period: Period, channels: list[Json], own: Values, groups: Mapping[int, list[int]]) -> Iterator[str]:
    """Votes lie within what the nonfaulty members read; of copies those of a group that keeps its own bound."""
    letters = {node.id: node.letter for node in period.nodes}
    for channel, part in enumerate(channels):
        votes = [node.votes[channel] for node in of(period, "NJ") if channel in node.votes]
        voters = period.members
        if part["kind"] == "copy":
            voters = groups.get(channel, [])
            if not tolerates([letters[it] for it in voters], part["lies"]):
                continue
        if votes:
            yield from spread_wrong(channel, votes, [own[channel][it] for it in voters if letters[it] == "N"])


def clock_wrong(period: Period, clock: Optional[Json], offsets: Optional[list[int]]) -> Iterator[str]:
    """The skew is that of the offsets; in a claimed period it is within the bound."""
    if bool(period.offsets) != (clock is not None):
        yield "clocks are printed where there are none, or the other way round"
    if not period.offsets or clock is None or offsets is None:
        return
    sound = [period.offsets[node.id] for node in of(period, "NJ")]
    if period.skew != (max(sound) - min(sound) if sound else None):
        yield "the skew is not that of the offsets"
    before = [offsets[node.id] for node in of(period, "N") if node.id in period.members]
    further = 2 * clock["epsilon"] + clock["drift"]
    if period.claim and max(sound) - min(sound) > (max(before) - min(before) + 1) // 2 + further:
        yield "the skew is beyond the bound"


def own_values(scenario: Json, period: Period, own: Values, before: Optional[Period]) -> Values:
    """Each node's own value of each channel in a period, from the values and votes of the period before."""
    restarts = {restart["node"] for restart in scenario.get("restarts", []) if restart["period"] == period.number}
    values: Values = []
    for channel, part in enumerate(scenario.get("channels", [])):
        row: list[Optional[int]] = []
        for node in period.nodes:
            if part["kind"] != "state":
                row.append(part["readings"][period.number % len(part["readings"])][node.id])
            elif node.is_cold:
                row.append(None)
            elif before is None:
                row.append(part["start"][node.id])
            else:
                base = None
                if node.id not in restarts:
                    base = before.nodes[node.id].votes.get(channel)
                    base = own[channel][node.id] if base is None else base
                row.append(max(-VALUE_LIMIT, min(VALUE_LIMIT, (base or 0) + part["step"])))
        values.append(row)
    return values


def judge(scenario: Json, text: Text, groups: Groups) -> list[str]:
    """What is wrong with a replayed text, in words."""
    periods = text.periods
    if [period.number for period in periods] != list(range(scenario["periods"])):
        return ["not the periods of the scenario"]
    wrong: list[str] = []
    before, kept, own = None, True, []
    clock, channels = scenario.get("clock"), scenario.get("channels", [])
    offsets = clock["start"] if clock else None
    throughout = set(range(scenario["nodes"]))
    for period in periods:
        if [node.id for node in period.nodes] != list(range(scenario["nodes"])):
            return [f"period {period.number}: not each node once"]
        own = own_values(scenario, period, own, before)
        throughout &= {node.id for node in of(period, "N")}
        found = [*count_wrong(period, before, scenario["m"], kept), *clock_wrong(period, clock, offsets)]
        if period.claim:
            found += [*agreement_wrong(period, throughout), *convictions_wrong(period, before)]
            found += votes_wrong(period, channels, own, groups.get(period.number, {}))
        wrong += [f"period {period.number}: {what}" for what in found]
        before, kept, offsets = period, bool(period.claim), period.offsets or offsets
    return wrong
