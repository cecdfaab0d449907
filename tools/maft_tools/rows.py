"""Rows of runs and of illnesses, as the program judge makes them.

A row of a run says what a scenario came to, a row of an illness what became of one node that fell ill. How the program
is asked for them stands elsewhere (`judging`), and so do what is made of them (`figures`), and how they are written
(`tables`). All periods are numbers from 0; None stands for what didn't happen, or isn't there.
"""
from __future__ import annotations

import dataclasses
from typing import Any


class _Row:
    """A row, which goes from process to process as its cells alone."""

    def __reduce__(self) -> tuple[Any, ...]:
        return type(self), tuple(vars(self).values())


@dataclasses.dataclass
class Run(_Row):
    """A row of a run. `lost` is the first period whose budget isn't kept, and `n`, `a`, `s`, `b` are its members by
    class.

    `margin` is the least n - (2a + 2s + b + m) up to there, and at most 0 where a > m or there is no member: at least
    1 exactly where nothing is lost. `charges` counts periods in which a node that is ill is charged, `false_charges`
    and `false_exclusions` those in which a node that was nonfaulty so far is charged, or leaves. `spread` and `skew`
    are the greatest distances of two sound nodes' votes on a channel, and of two sound clocks, in claimed periods.
    `skews` isn't written in the row; it has a table of its own.
    """

    name: str
    case: str = ""
    status: int = 0
    rule: int | None = None
    place: int | None = None
    nodes: int | None = None
    m: int | None = None
    periods: int | None = None
    lines: int | None = None
    restarts: int | None = None
    claimed: int | None = None
    lost: int | None = None
    n: int | None = None
    a: int | None = None
    s: int | None = None
    b: int | None = None
    margin: int | None = None
    charges: int | None = None
    false_charges: int | None = None
    false_exclusions: int | None = None
    spread: int | None = None
    skew: int | None = None
    words: str = ""


@dataclasses.dataclass
class Illness(_Row):
    """A row of an illness: a greatest span of periods in which a node is benign, symmetric or asymmetric.

    `onset` is its first period and `sound` the one after it, None where it lasts. `initial` is the class at the onset;
    `worst` the worst of A, S and B over the periods in which a fault line touches a frame of the node, of which
    `touched` is the last. `member`: whether it was one at the onset. `charged` is the first period of the illness in
    which it is charged, `left` the first from the onset on, before the node's next illness, after which it is no
    member any more, and `back` the first behind `left` after which it is one again. `periods_a_member` counts the
    periods of the illness in which it was a member.
    """

    name: str
    case: str
    node: int
    onset: int
    initial: str
    worst: str
    touched: int
    member: bool
    charged: int | None
    left: int | None
    sound: int | None
    back: int | None
    periods_a_member: int

    @property
    def left_while_ill(self) -> bool:
        """Whether the node left before it was sound again."""
        return self.left is not None and (self.sound is None or self.left < self.sound)

    @property
    def back_while_ill(self) -> bool:
        """Whether the node was taken back before it was sound again."""
        return self.back is not None and (self.sound is None or self.back < self.sound)


@dataclasses.dataclass
class Judged(_Row):
    """All rows of a scenario. `skews` has for each claimed period of a scenario with a clock the sound clocks'
    distance."""

    run: Run
    illnesses: list[Illness] = dataclasses.field(default_factory=list)
    skews: list[int | None] = dataclasses.field(default_factory=list)
