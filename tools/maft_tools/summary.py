"""What a run comes to: each node's story, the first lost period and why, the margin of the bound, votes and skew."""
from __future__ import annotations

import csv
import dataclasses
import io
from collections.abc import Iterable

from . import plan
from .plan import kind_names
from .text import CLASSES, Period, Text

TERMS = {"a": "2a (asymmetric members)", "s": "2s (symmetric members)", "b": "b (benign and joining members)"}


@dataclasses.dataclass
class Story:
    """One node over a run. Spans are pairs of a first and a last period."""

    node: int
    classes: list[tuple[str, int, int]]
    charged: dict[int, list[str]]
    left: list[int]
    joined: list[int]
    cold: list[int]
    top_count: int
    is_member: bool
    is_retired: bool = False


@dataclasses.dataclass
class Loss:
    """The first period whose budget isn't kept: the terms of the bound that broke it, and a sentence."""

    period: int
    terms: list[str]
    words: str


@dataclasses.dataclass
class Spread:
    """Of a channel: in how many periods it was voted, and the greatest distance of two sound nodes' votes."""

    channel: int
    periods: int
    greatest: int
    at: int


@dataclasses.dataclass
class Summary:
    """A run. `margins` has n - (2a + 2s + b + m) by period, None where m isn't known or there are no members."""

    command: str
    periods: int
    m: int | None
    claimed: int
    loss: Loss | None
    margins: list[int | None]
    stories: list[Story]
    spreads: list[Spread]
    skews: list[int | None]
    accusations: dict[int, dict[int, dict[str, list[int]]]]


def margin(period: Period, m: int | None) -> int | None:
    """How many more benign members the period would tolerate, and one.

        That is n - (2a + 2s + b + m), which must be at least 1.
        """
    if m is None or not period.members:
        return None
    return period.n - (2 * period.a + 2 * period.s + period.b + m)


def loss_of(period: Period, m: int | None) -> Loss:
    """Why a period's budget isn't kept."""
    if not period.members:
        return Loss(period.number, ["reference"], "no nonfaulty node has an agreed state, so there are no members")
    bound = f"n {period.n}, 2a {2 * period.a}, 2s {2 * period.s}, b {period.b}, m {'unknown' if m is None else m}"
    if m is not None and period.a > m:
        return Loss(period.number, ["a > m"],
                    f"{period.a} asymmetric members, and {m} relay rounds stand against {m} ({bound})")
    weights = {"a": 2 * period.a, "s": 2 * period.s, "b": period.b}
    most = max(weights.values())
    terms = [name for name, weight in weights.items() if weight == most and weight]
    if not terms:
        return Loss(period.number, ["members"], f"too few members are left for the relay rounds ({bound})")
    said = " and ".join(TERMS[it] for it in terms)
    return Loss(period.number, terms, f"n isn't greater than 2a + 2s + b + m; the greatest term is {said} ({bound})")


def first_loss(periods: Iterable[Period], m: int | None) -> Loss | None:
    """The first period whose budget isn't kept, if any."""
    for period in periods:
        if period.budget is False:
            return loss_of(period, m)
    return None


def members_after(periods: list[Period], at: int) -> list[int] | None:
    """The members after a period, by its reference node, or else by the next period's line; None where nobody says."""
    reference = periods[at].reference
    if reference is not None:
        return reference.members
    return periods[at + 1].members or None if at + 1 < len(periods) else None


def membership(periods: list[Period], count: int) -> tuple[dict[int, list[int]], dict[int, list[int]]]:
    """In which periods each node left the members, and in which it joined them."""
    left: dict[int, list[int]] = {node: [] for node in range(count)}
    joined: dict[int, list[int]] = {node: [] for node in range(count)}
    before: list[int] | None = periods[0].members or list(range(count)) if periods else None
    for at, period in enumerate(periods):
        after = members_after(periods, at)
        if after is None or before is None:
            before = after or before
            continue
        for node in range(count):
            if node in before and node not in after:
                left[node].append(period.number)
            if node not in before and node in after:
                joined[node].append(period.number)
        before = after
    return left, joined


def node_count(text: Text) -> int:
    """How many nodes the text's cluster has."""
    for period in text.periods:
        for node in period.nodes:
            if node.counts:
                return len(node.counts)
    return max((max([*period.members, *(it.id for it in period.nodes)], default=-1) + 1 for period in text.periods),
               default=0)


def _classes(periods: list[Period], node: int) -> list[tuple[str, int, int]]:
    spans: list[tuple[str, int, int]] = []
    for period in periods:
        for it in period.nodes:
            if it.id == node:
                if spans and spans[-1][0] == it.letter and spans[-1][2] == period.number - 1:
                    spans[-1] = (it.letter, spans[-1][1], period.number)
                else:
                    spans.append((it.letter, period.number, period.number))
    return spans


def _stories(text: Text, count: int, retire: int) -> list[Story]:
    periods = text.periods
    left, joined = membership(periods, count)
    charged: dict[int, dict[int, list[str]]] = {node: {} for node in range(count)}
    top = [0] * count
    last: list[int] = []
    times: list[int] = []
    for period in periods:
        reference = period.reference
        if reference is None:
            continue
        for node, mask in reference.charged(count).items():
            charged[node][period.number] = kind_names(mask)
        top = [max(it) for it in zip(top, reference.counts)]
        last, times = reference.members, reference.left or times
    stories = []
    for node in range(count):
        cold = [period.number for period in periods for it in period.nodes if it.id == node and it.is_cold]
        story = Story(node, _classes(periods, node), charged[node], left[node], joined[node], cold, top[node],
                      node in last)
        story.is_retired = bool(retire and times and times[node] >= retire)
        stories.append(story)
    return stories


def _spreads(periods: list[Period]) -> list[Spread]:
    found: dict[int, Spread] = {}
    for period in periods:
        by: dict[int, list[int]] = {}
        for node in period.nodes:
            if node.is_sound or node.letter == "-":
                for channel, vote in node.votes.items():
                    if vote is not None:
                        by.setdefault(channel, []).append(vote)
        for channel, votes in by.items():
            spread = found.setdefault(channel, Spread(channel, 0, 0, period.number))
            spread.periods += 1
            if max(votes) - min(votes) > spread.greatest:
                spread.greatest, spread.at = max(votes) - min(votes), period.number
    return [found[it] for it in sorted(found)]


def accusations(periods: list[Period]) -> dict[int, dict[int, dict[str, list[int]]]]:
    """Who accuses whom of which kinds in which periods, by the rows that the reference node settles."""
    found: dict[int, dict[int, dict[str, list[int]]]] = {}
    for period in periods:
        reference = period.reference
        for teller, row in (reference.rows if reference else {}).items():
            for node, mask in enumerate(row or ()):
                for kind in kind_names(mask):
                    found.setdefault(teller, {}).setdefault(node, {}).setdefault(kind, []).append(period.number)
    return found


def summarise(text: Text, m: int | None = None, retire: int = 0) -> Summary:
    """What a text comes to. `m` and `retire` are the scenario's, where they are known; a trace tells m itself."""
    if m is None and text.slots >= 4:
        m = (text.slots - 4) // 2
    periods = text.periods
    return Summary(
        command=text.command, periods=len(periods), m=m, claimed=sum(it.claim is True for it in periods),
        loss=first_loss(periods, m), margins=[margin(it, m) for it in periods],
        stories=_stories(text, node_count(text), retire) if text.command != "check" else [],
        spreads=_spreads(periods), skews=[it.skew for it in periods] if any(it.offsets for it in periods) else [],
        accusations=accusations(periods))


def spans(periods: Iterable[int]) -> str:
    """Periods in words: `1-3, 5`."""
    return ", ".join(str(a) if a == b else f"{a}-{b}" for a, b in plan.spans(sorted(periods)))


def by_kind(charged: dict[int, list[str]]) -> str:
    """Charges in words: `deviate in 1-2, missing in 3`."""
    kinds: dict[str, list[int]] = {}
    for period, names in sorted(charged.items()):
        for name in names:
            kinds.setdefault(name, []).append(period)
    return ", ".join(f"{name} in {spans(periods)}" for name, periods in kinds.items())


def _facts(story: Story, alone: bool) -> list[str]:
    """What there is to say of a node, a fact a line."""
    classes = ", ".join(f"{CLASSES[letter]} {spans(range(first, last + 1))}" for letter, first, last in story.classes)
    if [it[0] for it in story.classes] == ["N"]:
        classes = "nonfaulty"
    moves = sorted([(it, "left") for it in story.left] + [(it, "joined again") for it in story.joined])
    if not story.charged and not moves and not story.cold:
        return ["never charged" if alone else f"{classes}, never charged"]
    facts = [] if alone else [classes]
    if story.charged:
        facts.append(f"charged with {by_kind(story.charged)}; count at most {story.top_count}")
    elif not alone:
        facts.append("never charged")
    if story.cold:
        facts.append(f"cold in {spans(story.cold)}")
    if moves:
        facts.append(", ".join(f"{what} after {period}" for period, what in moves))
    if story.is_retired:
        facts.append("retired")
    return facts


def _named(nodes: list[int]) -> str:
    return f"node {nodes[0]}" if len(nodes) == 1 else f"nodes {', '.join(map(str, nodes))}"


def _grouped(pairs: Iterable[tuple[int, list[str]]]) -> list[tuple[list[int], list[str]]]:
    """Nodes of which the same is said, together."""
    groups: list[tuple[list[int], list[str]]] = []
    for node, facts in pairs:
        for nodes, said in groups:
            if said == facts:
                nodes.append(node)
                break
        else:
            groups.append(([node], facts))
    return groups


def _of_nodes(run: Summary) -> list[str]:
    lines = []
    for nodes, facts in _grouped((it.node, _facts(it, run.command == "node")) for it in run.stories):
        lines.append(f"{_named(nodes)}: {facts[0]}")
        lines += [f"        {it}" for it in facts[1:]]
    return lines


def _of_accusations(run: Summary) -> list[str]:
    said = []
    for teller, rows in sorted(run.accusations.items()):
        facts = []
        for node, kinds in sorted(rows.items()):
            facts.append(f"node {node} of " + ", ".join(f"{kind} in {spans(it)}" for kind, it in kinds.items()))
        said.append((teller, facts))
    return [f"{_named(nodes)} accuse{'s' if len(nodes) == 1 else ''} {'; '.join(facts)}"
            for nodes, facts in _grouped(said)]


def _of_votes(run: Summary) -> list[str]:
    """Of each channel, in how many periods it was voted, and how far the votes of sound nodes lay apart.

    A log has one node's votes alone.
    """
    lines = []
    for spread in run.spreads:
        where = f" (period {spread.at})" if spread.greatest else ""
        apart = "" if run.command == "node" else f"; sound votes at most {spread.greatest} apart{where}"
        lines.append(f"channel {spread.channel}: voted in {spread.periods} periods{apart}")
    return lines


def _over_time(values: list[int | None]) -> str:
    """A list over periods in runs: `3 in 0, 1 in 1-2`."""
    out: list[tuple[int | None, int, int]] = []
    for at, value in enumerate(values):
        if out and out[-1][0] == value:
            out[-1] = (value, out[-1][1], at)
        else:
            out.append((value, at, at))
    return ", ".join(f"{'none' if value is None else value} in {spans(range(first, last + 1))}"
                     for value, first, last in out)


def page(run: Summary) -> str:
    """The page of words."""
    lines = []
    if run.command == "node":
        lines.append(f"{run.periods} periods, as one node's log has them; classes and the bound are not known to it")
    elif run.loss is None:
        lines.append(f"{run.periods} periods, all claimed: what is promised holds in each")
    else:
        lines.append(f"{run.periods} periods, {run.claimed} claimed; the claim is lost in period {run.loss.period}: "
                     f"{run.loss.words}")
    if run.command != "node":
        known = [it for it in run.margins if it is not None]
        if run.m is None:
            lines.append("margin: m isn't in this text; give --m, or the scenario in the text's place")
        elif known:
            lines.append(f"margin n - (2a + 2s + b + m), kept from 1 on: {_over_time(run.margins)}")
    lines += _of_nodes(run)
    lines += _of_votes(run)
    if run.skews:
        lines.append(f"clock skew of sound nodes: {_over_time(run.skews)}")
    lines += _of_accusations(run)
    return "\n".join(lines) + "\n"


def table(text: Text, run: Summary) -> str:
    """A row for each period, as CSV."""
    out = io.StringIO()
    writer = csv.writer(out, lineterminator="\n")
    writer.writerow(["period", "n", "a", "s", "b", "margin", "budget", "claim", "charged", "left", "joined", "cold",
                     "vote_spread", "skew"])
    yes = {True: "yes", False: "no", None: ""}
    for at, period in enumerate(text.periods):
        charged = " ".join(f"{it.node}:{'+'.join(it.charged[period.number])}" for it in run.stories
                           if period.number in it.charged)
        moved = []
        for which in ("left", "joined", "cold"):
            moved.append(" ".join(str(it.node) for it in run.stories if period.number in getattr(it, which)))
        spread = max((it.greatest for it in _spreads([period])), default="") if run.command != "node" else ""
        skew = "" if period.skew is None else period.skew
        counted = [""] * 4 if period.budget is None else [str(it) for it in (period.n, period.a, period.s, period.b)]
        gap = "" if run.margins[at] is None else run.margins[at]
        writer.writerow([period.number, *counted, gap, yes[period.budget], yes[period.claim], charged, *moved, spread,
                         skew])
    return out.getvalue()
