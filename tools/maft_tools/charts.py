"""What is drawn of a campaign: the numbers of each chart, whatever draws them."""
from __future__ import annotations

import dataclasses
from collections import Counter
from collections.abc import Mapping, Sequence
from typing import Union

from . import estimates
from .estimates import Estimate
from .figures import CLASS_NAMES, Tally, case_words, skew_bound

# more lines than this aren't told apart
LINES = 8


@dataclasses.dataclass
class Line:
    """One line of a chart: points, and of each the ends of its interval where there is one. `steps`: it keeps a value
    until the next."""

    name: str
    points: list[tuple[float, float]]
    intervals: list[tuple[float, float]] = dataclasses.field(default_factory=list)
    steps: bool = False
    dashed: bool = False
    colour: int = 0


@dataclasses.dataclass
class Curves:
    """Lines over an axis of numbers, or of words, which then stand at 0, 1 and so on. `is_share`: the values are
    shares from 0 to 1."""

    name: str
    title: str
    x_label: str
    y_label: str
    lines: list[Line]
    x_words: list[str] = dataclasses.field(default_factory=list)
    is_share: bool = False


@dataclasses.dataclass
class HeatMap:
    """A share for each pair of words on two axes; None where there is none."""

    name: str
    title: str
    x_label: str
    y_label: str
    xs: list[str]
    ys: list[str]
    values: dict[tuple[str, str], Estimate | None]


Chart = Union[Curves, HeatMap]


def _words(tallies: Sequence[Tally], axis: str) -> list[str]:
    """The values of an axis, as they come first."""
    return list(dict.fromkeys(dict(it.case.values)[axis] for it in tallies))


def kept_charts(tallies: Sequence[Tally]) -> list[Chart]:
    """The share of runs that keep the claim: over one thing that varies a curve, over two a heat map, and one for each
    value of more."""
    axes = [name for name, _ in tallies[0].case.values]
    if not axes:
        return []
    if len(axes) == 1:
        return [_kept_curve(tallies, axes[0])]
    parts: dict[str, list[Tally]] = {}
    for it in tallies:
        parts.setdefault(" ".join(f"{name}={value}" for name, value in it.case.values[2:]), []).append(it)
    charts: list[Chart] = []
    for at, (words, part) in enumerate(parts.items()):
        values = {(dict(it.case.values)[axes[0]], dict(it.case.values)[axes[1]]): estimates.share(it.kept, it.good)
            for it in part}
        title = "Runs that keep the claim to the end, in percent" + (f", {words}" if words else "")
        name = f"kept_{at}" if len(parts) > 1 else "kept"
        charts.append(HeatMap(name, title, axes[0], axes[1], _words(tallies, axes[0]), _words(tallies, axes[1]),
            values))
    return charts


def _kept_curve(tallies: Sequence[Tally], axis: str) -> Curves:
    shares = [(at, estimates.share(it.kept, it.good)) for at, it in enumerate(tallies)]
    known = [(at, it) for at, it in shares if it is not None]
    line = Line("", [(at, it.value) for at, it in known], [(it.low, it.high) for _, it in known])
    return Curves("kept", "Runs that keep the claim to the end", axis, "share of runs", [line], _words(tallies, axis),
        True)


def cumulated(counts: Mapping[int, int], whole: int, last: int) -> list[tuple[float, float]]:
    """The share of the whole that is counted up to each number from 0 to the last."""
    sums, points = 0, []
    for at in range(last + 1):
        sums += counts.get(at, 0)
        points.append((float(at), sums / whole))
    return points


def _some(title: str, count: int) -> str:
    """The title, which says so where not all of so many cases are drawn."""
    return title + (f"; the first {LINES} of {count} cases" if count > LINES else "")


def leaving_chart(tallies: Sequence[Tally]) -> Curves | None:
    """Which share of the members that fell ill left, while ill, within how many periods: by case, or of a single case
    by class."""
    groups: list[tuple[str, Counter[int], int]] = []
    if len(tallies) == 1:
        groups = [(CLASS_NAMES[it], tallies[0].classes[it].to_leave, tallies[0].classes[it].members)
            for it in CLASS_NAMES if it in tallies[0].classes]
    for tally in tallies if len(tallies) > 1 else ():
        leaving: Counter[int] = sum((it.to_leave for it in tally.classes.values()), Counter())
        groups.append((case_words(tally), leaving, sum(it.members for it in tally.classes.values())))
    groups = [it for it in groups if it[2]]
    if not groups:
        return None
    last = max(max(it[1], default=0) for it in groups[:LINES]) + 1
    lines = [Line(name, cumulated(leaving, whole, last), steps=True, colour=at)
        for at, (name, leaving, whole) in enumerate(groups[:LINES])]
    title = _some("Members that fell ill and left while ill", len(groups))
    return Curves("leaving", title, "periods from onset", "share of illnesses of members", lines, is_share=True)


def margin_chart(tallies: Sequence[Tally]) -> Curves | None:
    """Which share of the runs had a least margin of at least so much, by case."""
    all_of = [it for it in tallies if it.margins]
    known = all_of[:LINES]
    if not known:
        return None
    least, most = min(min(it.margins) for it in known), max(max(it.margins) for it in known)
    lines = []
    for at, it in enumerate(known):
        points = [(float(gap), sum(count for margin, count in it.margins.items() if margin >= gap) / it.good)
            for gap in range(least, most + 2)]
        lines.append(Line(case_words(it), points, steps=False, colour=at))
    title = _some("Least margin n - (2a + 2s + b + m) of a run; kept from 1 on", len(all_of))
    return Curves("margin", title, "margin of at least", "share of runs", lines, is_share=True)


def skew_chart(tallies: Sequence[Tally]) -> Curves | None:
    """The greatest skew of sound clocks by period, and dashed what the theorem bounds it by, where the cluster's clock
    is known."""
    lines: list[Line] = []
    known = [it for it in tallies if it.skews]
    for at, it in enumerate(known[:LINES]):
        lines.append(Line(case_words(it), [(float(period), float(skew)) for period, skew in sorted(it.skews.items())],
            colour=at))
        if it.case.cluster.base is not None or it.case.cluster.options.clock is not None:
            bounds = skew_bound(it.case.cluster.scenario(), max(it.skews) + 1)
            points = [(float(period), float(bound)) for period, bound in enumerate(bounds)]
            lines.append(Line(f"bound of {case_words(it)}", points, dashed=True, colour=at))
    if not lines:
        return None
    title = _some("Greatest skew of sound clocks in claimed periods, and the theorem's bound", len(known))
    return Curves("skew", title, "period", "skew", lines)


def charts(tallies: Sequence[Tally]) -> list[Chart]:
    """All charts that these cases give."""
    some = [it for it in tallies if it.good]
    if not some:
        return []
    return kept_charts(tallies) + [it for it in (leaving_chart(some), margin_chart(some), skew_chart(some))
        if it is not None]
