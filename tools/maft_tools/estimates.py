"""Estimates with intervals of 95 %: shares, quantiles and means. The same numbers give the same intervals on every
machine."""
from __future__ import annotations

import dataclasses
import math
import random
from collections.abc import Mapping

# how many standard deviations of the normal distribution 95 % lie within
SPAN = 1.959964
RESAMPLES = 1000


@dataclasses.dataclass(frozen=True)
class Estimate:
    """A value, and the interval of 95 % around it."""

    value: float
    low: float
    high: float


def share(hits: int, count: int) -> Estimate | None:
    """The share of `hits` in `count` tries, by Wilson's interval; None of no tries."""
    if count == 0:
        return None
    part, square = hits / count, SPAN * SPAN
    middle = part + square / (2 * count)
    half = SPAN * math.sqrt(part * (1 - part) / count + square / (4 * count * count))
    scale = 1 + square / count
    low = 0.0 if hits == 0 else (middle - half) / scale
    high = 1.0 if hits == count else (middle + half) / scale
    return Estimate(part, low, high)


def _at_rank(counts: list[tuple[int, int]], rank: int) -> int:
    """The value of this rank, from 1; the least and the greatest beyond."""
    for value, times in counts:
        rank -= times
        if rank <= 0:
            return value
    return counts[-1][0]


def quantile(values: Mapping[int, int], part: float) -> Estimate | None:
    """Of how often each value comes: the least value that at least this part don't exceed; its interval is between two
    of the values.

    Which ones is told by the binomial distribution of how many lie below, taken as normal. None of no values.
    """
    if not values:
        return None
    ordered, count = sorted(values.items()), sum(values.values())
    half = SPAN * math.sqrt(count * part * (1 - part))
    ranks = (math.ceil(count * part), math.floor(count * part - half), math.ceil(count * part + half) + 1)
    return Estimate(*(_at_rank(ordered, it) for it in ranks))


def _binomial(draw: random.Random, count: int, part: float) -> int:
    """How many of `count` tries hit; of many, by the normal distribution."""
    if count * part * (1 - part) > 50:
        return min(max(round(draw.gauss(count * part, math.sqrt(count * part * (1 - part)))), 0), count)
    if part > 0.5:
        return count - _binomial(draw, count, 1 - part)
    hits, at = 0, 0
    # the tries between two hits have a geometric distribution
    while part > 0:
        at += int(math.log(1 - draw.random()) / math.log1p(-part)) + 1
        if at > count:
            break
        hits += 1
    return hits


def _resampled(draw: random.Random, groups: list[tuple[tuple[int, int], int]], count: int) -> float | None:
    """The mean of as many groups, drawn with replacement; None where they have no values."""
    total, size, left = 0, 0, count
    for (group_total, group_size), times in groups:
        hits = left if times >= count else _binomial(draw, left, times / count)
        total, size = total + hits * group_total, size + hits * group_size
        left, count = left - hits, count - times
    return total / size if size else None


def mean(groups: Mapping[tuple[int, int], int]) -> Estimate | None:
    """Of how often each group comes, by the sum of its values and their number: the mean over all values of all
    groups.

    The interval is bootstrapped over the groups, since the values of one may depend on each other: as many groups as
    there are are drawn with replacement, 1,000 times, from a fixed seed. None where there are no values.
    """
    alike = sorted((group, times) for group, times in groups.items() if group[1])
    total, size = (sum(group[at] * times for group, times in alike) for at in (0, 1))
    if not size:
        return None
    draw, count = random.Random(0), sum(times for _, times in alike)
    means = sorted(it for it in (_resampled(draw, alike, count) for _ in range(RESAMPLES)) if it is not None)
    edge = len(means) * 25 // 1000
    return Estimate(total / size, means[edge], means[-1 - edge])
