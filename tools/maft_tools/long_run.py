"""What follows from a scenario's own numbers over many claimed periods.

How near values and clocks come, when a node that all accuse is out, and when one that is well is back. Nothing of a run
is looked at but which of its periods are claimed. Each number is a bound of what holds in these.
"""
from __future__ import annotations

import dataclasses
from collections.abc import Iterable

from . import program, text
from .plan import KINDS, Json

# whom all others accuse of a kind, where that befalls its frames of one slot to all of them in each period
FAULTS = {
    "missing": "a silent node",
    "malformed": "one whose frames are cut or doubled",
    "timing": "one whose frames are late or early",
    "cold": "one that says Cold",
}


@dataclasses.dataclass(frozen=True)
class Bound:
    """Of what it is a bound, its formula in words and in the scenario's numbers, and the bound by period.

    From the period `constant_from` on it stays what it is then.
    """

    of: str
    formula: str
    numbers: str
    values: list[int]
    constant_from: int


@dataclasses.dataclass(frozen=True)
class Channel:
    """A channel: how far its starts, or the readings of one row, are apart, and the bounds of own values and votes.

    `near_from` is the first period in which the own values of a state channel are at most 1 apart. The votes of a
    sensor and of a copy channel have one bound for all periods.
    """

    channel: int
    kind: str
    spread: int
    near_from: int | None
    bounds: list[Bound]


@dataclasses.dataclass(frozen=True)
class Clocks:
    """Clocks: how far they start apart, the skew at which they settle, and the bounds before and after a period.

    `settled_from` is the first period before which they are at most `settled` + 1 apart.
    """

    spread: int
    settled: int
    numbers: str
    settled_from: int
    bounds: list[Bound]


@dataclasses.dataclass(frozen=True)
class Exclusion:
    """A kind, and for how many periods a node which all accuse of it stays a member at most; None for ever."""

    kind: str
    weight: int
    numbers: str
    periods: int | None


@dataclasses.dataclass(frozen=True)
class Return:
    """How many periods after its first nonfaulty one a node of this count is a member again at the latest.

    None is for never.
    """

    count: int
    of: str
    numbers: str
    periods: int | None


@dataclasses.dataclass(frozen=True)
class LongRun:
    """All that follows. `claimed` is how many of the scenario's periods are claimed, from period 0 on."""

    nodes: int
    m: int
    periods: int
    claimed: int
    channels: list[Channel]
    clocks: Clocks | None
    policy: Json
    exclusions: list[Exclusion]
    returns: list[Return]


def rounded_up(number: int, by: int) -> int:
    """A number divided by another one, rounded up."""
    return -(-number // by)


def halved(distance: int, times: int) -> int:
    """What is left of a distance that is halved so many times, rounded up each time: distance / 2^times, rounded up."""
    return rounded_up(distance, 2 ** times)


def halvings(distance: int) -> int:
    """After how many halvings a distance is at most 1."""
    return max(0, distance - 1).bit_length()


def spread(numbers: Iterable[int]) -> int:
    """How far the greatest of some numbers is from the least."""
    listed = list(numbers)
    return max(listed) - min(listed)


def skew_bound(distance: int, settled: int, times: int) -> int:
    """How far clocks are apart that were so far apart some periods before: what exceeds `settled` is halved in each."""
    return settled + halved(max(0, distance - settled), times)


def excluded_after(policy: Json, weight: int, count: int = 0) -> int | None:
    """For how many periods a node of this count stays a member at most, while all give it a kind of this weight.

    None is for ever, by this kind alone.
    """
    if weight == 0:
        return None
    return max(1, rounded_up(policy["exclude"] - count, weight))


def back_after(policy: Json, count: int, streak: int = 0) -> int | None:
    """How many periods after its first nonfaulty one a node is a member again at the latest.

    Count and streak are those after that period. None is for never. A node that left `retire` times, where that isn't
    0, never is one again, whatever its count.
    """
    if policy["credit"] == 0:
        return None
    streaks = rounded_up(max(0, count - policy["readmit"]), policy["credit"])
    return max(1, policy["streak"] * streaks - streak)


def _state(number: int, part: Json, periods: int) -> Channel:
    apart = spread(part["start"])
    near = halvings(apart)
    own = [halved(apart, period) for period in range(periods)]
    votes = [halved(apart, period + 1) for period in range(periods)]
    return Channel(number, "state", apart, near, [
        Bound("own values of nonfaulty nodes in period p", "d / 2^p, rounded up", f"{apart} / 2^p", own, near),
        Bound("votes of sound nodes in period p", "d / 2^(p + 1), rounded up", f"{apart} / 2^(p + 1)", votes,
              max(0, near - 1))])


def _read(number: int, part: Json, tasks: list[Json], periods: int) -> Channel:
    nodes = tasks[part["task"]]["nodes"] if part["kind"] == "copy" else range(len(part["readings"][0]))
    apart = max(spread(row[node] for node in nodes) for row in part["readings"])
    votes = Bound("votes of sound nodes", "d / 2, rounded up", f"{apart} / 2", [halved(apart, 1)] * periods, 0)
    return Channel(number, part["kind"], apart, None, [votes])


def channels_of(scenario: Json, periods: int) -> list[Channel]:
    """The bounds of each channel in so many periods."""
    tasks = scenario.get("tasks", [])
    return [_state(at, it, periods) if it["kind"] == "state" else _read(at, it, tasks, periods)
            for at, it in enumerate(scenario.get("channels", []))]


def clocks_of(scenario: Json, periods: int) -> Clocks | None:
    """The bounds of the clocks' skew in so many periods, where there are clocks."""
    clock = scenario.get("clock")
    if clock is None:
        return None
    apart, settled = spread(clock["start"]), 4 * clock["epsilon"] + 2 * clock["drift"]
    above = max(0, apart - settled)
    near = halvings(above)
    before = [skew_bound(apart, settled, period) for period in range(periods)]
    after = [skew_bound(apart, settled, period + 1) for period in range(periods)]
    return Clocks(apart, settled, f"4 * {clock['epsilon']} + 2 * {clock['drift']} = {settled}", near, [
        Bound("skew of nonfaulty nodes before period p", "s + e / 2^p, rounded up", f"{settled} + {above} / 2^p",
              before, near),
        Bound("skew of sound nodes after period p", "s + e / 2^(p + 1), rounded up", f"{settled} + {above} / 2^(p + 1)",
              after, max(0, near - 1))])


def exclusions_of(policy: Json) -> list[Exclusion]:
    """Each kind that a node of this policy's version may be accused of."""
    found = []
    for kind, weight in zip(KINDS, policy["weights"]):
        periods = excluded_after(policy, weight)
        numbers = "never" if periods is None else f"{policy['exclude']} / {weight} = {periods}"
        found.append(Exclusion(kind, weight, numbers, periods))
    return found


def returns_of(policy: Json) -> list[Return]:
    """When a node is back whose count is just the bound of exclusion, and one of the greatest count that there is."""
    found = []
    for name in ("exclude", "cap"):
        count, periods = policy[name], back_after(policy, policy[name])
        numbers = "never, since the credit is 0"
        if periods is not None:
            streaks = rounded_up(count - policy["readmit"], policy["credit"])
            needed = f"({count} - {policy['readmit']}) / {policy['credit']} = {streaks}"
            numbers = f"{needed}, so p + {policy['streak']} * {streaks} = p + {periods}"
        found.append(Return(count, name, numbers, periods))
    return found


def long_run(scenario: Json, claimed: int, periods: int | None = None) -> LongRun:
    """What follows from an accepted scenario, of which so many periods are claimed; bounds are told of `periods`."""
    told = scenario["periods"] if periods is None else periods
    policy = {"retire": 0, **scenario["policy"]}
    return LongRun(scenario["nodes"], scenario["m"], scenario["periods"], claimed, channels_of(scenario, told),
                   clocks_of(scenario, told), policy, exclusions_of(policy), returns_of(policy))


def claimed_by(path: str, scenario: Json) -> int:
    """How many periods from period 0 on the program claims; raises WordsError where it refuses the scenario."""
    read = text.read(program.run_well(path, ["check"], scenario).splitlines())
    return next((it.number for it in read.periods if not it.claim), len(read.periods))


def _by_period(bound: Bound) -> str:
    """A bound over time in words: `4 in 0, 2 in 1, 1 from 2 on`."""
    shown = bound.values[: bound.constant_from]
    said = [f"{value} in {period}" for period, value in enumerate(shown)]
    if bound.constant_from < len(bound.values):
        said.append(f"{bound.values[bound.constant_from]} from {bound.constant_from} on")
    return ", ".join(said)


def _of_bounds(bounds: list[Bound]) -> list[str]:
    return [f"        {it.of}: at most {it.formula} ({it.numbers}): {_by_period(it)}" for it in bounds]


def _of_channel(channel: Channel) -> list[str]:
    head = f"channel {channel.channel}, {channel.kind}:"
    if channel.kind == "state":
        return [f"{head} the starts are d = {channel.spread} apart", *_of_bounds(channel.bounds),
                f"        own values at most 1 apart: from period {channel.near_from} on, the first p with d <= 2^p"]
    is_copy, bound = channel.kind == "copy", channel.bounds[0]
    whose = "its task's nodes in one row" if is_copy else "one row"
    where = ", while the group keeps its own bound" if is_copy else ""
    return [f"{head} the readings of {whose} are at most d = {channel.spread} apart",
            f"        {bound.of} where it is due: at most {bound.formula} ({bound.numbers}): {bound.values[0]}{where}"]


def _of_clocks(clocks: Clocks) -> list[str]:
    above = max(0, clocks.spread - clocks.settled)
    last = clocks.settled + min(above, 1)
    return [f"clocks: they start d = {clocks.spread} apart; s = 4 epsilon + 2 drift = {clocks.numbers}; "
            f"e = {above} is what d exceeds s by", *_of_bounds(clocks.bounds),
            f"        settled, at most {last} apart: from period {clocks.settled_from} on, "
            "the first p with d <= s + 2^p"]


def _of_exclusions(run: LongRun) -> list[str]:
    whom = "a node" if run.m else "a node that isn't nonfaulty"
    lines = [f"out: {whom} that each other nonfaulty member accuses of one kind in each period leaves,",
             f"        from a count of 0, after at most exclude / weight periods, rounded up "
             f"(exclude = {run.policy['exclude']}), while another member's count is below exclude:"]
    others: dict[int, list[Exclusion]] = {}
    for it in run.exclusions:
        if it.kind in FAULTS:
            lines.append(f"        {FAULTS[it.kind]} ({it.kind}, weight {it.weight}): {it.numbers}")
        else:
            others.setdefault(it.weight, []).append(it)
    for weight, kinds in others.items():
        named = " or ".join(it.kind for it in kinds)
        lines.append(f"        one that all accuse of {named} (weight {weight}): {kinds[0].numbers}")
    return lines


def _of_returns(run: LongRun) -> list[str]:
    policy = run.policy
    lines = ["back: a node that is nonfaulty from period p on is charged with nothing from p + 1 on;",
             f"        its count falls by credit = {policy['credit']} with each streak of {policy['streak']}, "
             "and never rises; it is a member at the latest after",
             "        period p + streak * ((c - readmit) / credit, rounded up), and stays one; "
             f"c is its count after p, readmit = {policy['readmit']}:"]
    lines += [f"        c = {it.of} = {it.count}: {it.numbers}" for it in run.returns]
    if policy["retire"]:
        lines.append(f"        where it has left fewer than retire = {policy['retire']} times by then, "
                     "and isn't a member with a count of exclude or more")
    return lines


def page(run: LongRun) -> str:
    """All of it as a page of words."""
    claimed = "all claimed" if run.claimed == run.periods else f"{run.claimed} claimed"
    lines = [f"{run.periods} periods, {claimed}; what follows is promised of claimed periods,",
             "        up to which all keep a <= m and n > 2a + 2s + b + m: "
             f"a <= {run.m} and 2a + 2s + b <= {run.nodes - run.m - 1} while all {run.nodes} nodes are members"]
    for channel in run.channels:
        lines += _of_channel(channel)
    if run.clocks is not None:
        lines += _of_clocks(run.clocks)
    return "\n".join(lines + _of_exclusions(run) + _of_returns(run)) + "\n"
