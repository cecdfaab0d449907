"""Works rows of runs and of illnesses out from the text of `maft replay`, to compare those of the program judge with."""
from __future__ import annotations

from collections.abc import Iterable

from maft_tools.plan import Json
from maft_tools.rows import Illness, Judged, Run
from maft_tools.text import Node, Period, Text

ILL = "BSA"


class _Record:
    """What is read off a text, by period: classes, members at the start and after, and who is charged, leaves and
    joins."""

    def __init__(self, data: Json, text: Text) -> None:
        self.nodes = int(data["nodes"])
        self.m = int(data["m"])
        self.periods = text.periods
        self.classes = ["".join(it.letter for it in period.nodes) for period in text.periods]
        references = [reference(period) for period in text.periods]
        self.charged = [set(it.charged(self.nodes)) if it else set() for it in references]
        self.left: list[set[int]] = []
        self.joined: list[set[int]] = []
        for period, node in zip(text.periods, references):
            before = set(period.members)
            after = set(node.members) if node and before else before
            self.left.append(before - after)
            self.joined.append(after - before)
        self.touched = touched(data)

    def is_ill(self, period: int, node: int) -> bool:
        """Whether a node is of class B, S or A in a period."""
        return self.classes[period][node] in ILL


def reference(period: Period) -> Node | None:
    """The least nonfaulty node, which the printed members are by; None where there is none, or it has no agreed state.
    """
    for node in period.nodes:
        if node.letter == "N":
            return None if node.is_cold else node
    return None


def touched(data: Json) -> set[tuple[int, int]]:
    """The pairs of a period and a node in which a fault line touches a frame that the node sends."""
    pairs = set()
    for line in data.get("faults", []):
        first, last = line["periods"]
        pairs.update((period, line["from"]) for period in range(first, last + 1))
    return pairs


def gap_of(period: Period, m: int) -> int:
    """A period's n - (2a + 2s + b + m), at most 0 where a > m or there is no member: at least 1 exactly where the
    budget is kept."""
    gap = period.n - (2 * period.a + 2 * period.s + period.b + m)
    return gap if period.members and period.a <= m else min(gap, 0)


def _spread_of(period: Period) -> int | None:
    """The greatest distance of two sound nodes' votes on a channel; None where none has a vote."""
    votes: dict[int, set[int]] = {}
    for node in period.nodes:
        if node.is_sound:
            for channel, vote in node.votes.items():
                if vote is not None:
                    votes.setdefault(channel, set()).add(vote)
    return max((max(it) - min(it) for it in votes.values()), default=None)


def _greatest(numbers: Iterable[int | None]) -> int | None:
    return max((it for it in numbers if it is not None), default=None)


def _first(periods: Iterable[int]) -> int | None:
    return next(iter(periods), None)


def _run_of(data: Json, record: _Record) -> Run:
    lost = next((it for it in record.periods if not it.budget), None)
    claimed = [it for it in record.periods if it.claim]
    run = Run("", nodes=record.nodes, m=record.m, periods=len(record.periods))
    run.lines, run.restarts, run.claimed = len(data.get("faults", [])), len(data.get("restarts", [])), len(claimed)
    if lost is not None:
        run.lost, run.n, run.a, run.s, run.b = lost.number, lost.n, lost.a, lost.s, lost.b
    upto = record.periods if lost is None else record.periods[: lost.number + 1]
    run.margin = min(gap_of(it, record.m) for it in upto)
    run.spread = _greatest(_spread_of(it) for it in claimed)
    run.skew = _greatest(it.skew for it in claimed)
    run.charges = sum(record.is_ill(at, node) for at, nodes in enumerate(record.charged) for node in nodes)
    run.false_charges = run.false_exclusions = 0
    well = set(range(record.nodes))
    for at, classes in enumerate(record.classes):
        well = {it for it in well if classes[it] == "N"}
        run.false_charges += len(well & record.charged[at])
        run.false_exclusions += len(well & record.left[at])
    return run


def _illness_of(record: _Record, node: int, span: tuple[int, int | None], limit: int) -> Illness:
    """The illness of a node from a first period on and until it is sound; its next illness, or the end, is at the
    limit."""
    onset, sound = span
    ill = range(onset, limit if sound is None else sound)
    touches = [it for it in ill if (it, node) in record.touched]
    initial = record.classes[onset][node]
    worst = max([initial, *(record.classes[it][node] for it in touches)], key=ILL.index)
    left = _first(it for it in range(onset, limit) if node in record.left[it])
    back = None if left is None else _first(it for it in range(left + 1, limit) if node in record.joined[it])
    member = [node in record.periods[it].members for it in ill]
    charged = _first(it for it in ill if node in record.charged[it])
    return Illness(
        "", "", node, onset, initial, worst, max(touches, default=onset), member[0], charged, left, sound,
        back, sum(member))


def _illnesses_of(record: _Record) -> list[Illness]:
    found = []
    count = len(record.classes)
    for node in range(record.nodes):
        ill = [record.is_ill(it, node) for it in range(count)]
        onsets = [it for it in range(count) if ill[it] and (it == 0 or not ill[it - 1])]
        for onset, limit in zip(onsets, [*onsets[1:], count]):
            sound = _first(it for it in range(onset, limit) if not ill[it])
            found.append(_illness_of(record, node, (onset, sound), limit))
    return sorted(found, key=lambda it: (it.onset, it.node))


def rows_of(data: Json, text: Text) -> Judged:
    """The rows of a scenario and the text of its replay, which may have been read quickly. Illnesses are by onset,
    then node."""
    record = _Record(data, text)
    run = _run_of(data, record)
    has_clock = any(it.offsets for it in text.periods)
    skews = [it.skew for it in text.periods if it.claim] if has_clock else []
    return Judged(run, _illnesses_of(record), skews)
