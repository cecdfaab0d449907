"""What happened in a run of a cluster of processes, as the scenario that it was, and as each node's log."""
from __future__ import annotations

import copy
from collections.abc import Iterable

from . import links, log, plan
from .links import Link
from .plan import Json, WordsError
from .scenario import Effect
from .trace import Arrived

MOST_PERIODS = 1024


def lengthened(scenario: Json, periods: int) -> Json:
    """A scenario of more periods, in which nothing else changes; at most as many as one may have."""
    made = copy.copy(scenario)
    made["frame"] = scenario.get("frame", scenario["periods"])
    made["periods"] = max(scenario["periods"], min(periods, MOST_PERIODS))
    return made


def told_to_nodes(scenario: Json) -> Json:
    """What a controller is told of a scenario: nothing of faults, restarts and lies, which befall it unforeseen."""
    made = {key: value for key, value in scenario.items() if key not in ("faults", "restarts")}
    if "clock" in made:
        made["clock"] = {**made["clock"], "lies": []}
    return made


class History:
    """What befell frames, who was dead and who restarted, and what each node was delivered."""

    def __init__(self, nodes: int, keeps_frames: bool = False) -> None:
        self.nodes, self.keeps_frames = nodes, keeps_frames
        self.happened: dict[Link, Effect] = {}
        self.restarted: set[tuple[int, int]] = set()
        # the nodes that were dead from slot 0 on, by period
        self.dead: set[tuple[int, int]] = set()
        self.frames: list[list[log.Entry]] = [[] for _ in range(nodes)]

    def note(self, link: Link, effect: Effect) -> None:
        """Something befell a frame."""
        self.happened[link] = effect

    def note_silence(self, period: int, slot: int, sender: int) -> None:
        """A dead node says nothing in a slot."""
        self.happened.update(((period, slot, sender, to), "drop") for to in range(self.nodes) if to != sender)
        if slot == 0:
            self.dead.add((period, sender))

    def note_arrived(self, link: Link, arrived: Arrived) -> None:
        """What arrived of a frame."""
        period, slot, sender, to = link
        self.frames[to].extend((period, slot, sender, tick, digits.decode()) for tick, digits in arrived)

    def as_scenario(self, scenario: Json, periods: int) -> Json:
        """The scenario that so many periods of the run were.

        A node that was dead was silent, and restarts where it was started anew. Raises WordsError where there is none.
        """
        if periods > MOST_PERIODS:
            raise WordsError(f"a run of {periods} periods is no scenario, which has at most {MOST_PERIODS}")
        made = lengthened(scenario, periods)
        made["periods"] = periods
        made["faults"] = links.fault_lines(self.happened, self.nodes, plan.slots(scenario["m"]))
        made["restarts"] = [{"node": node, "period": period} for period, node in sorted(self.restarted)]
        if "clock" in made:
            lies = [it for lie in made["clock"]["lies"] for it in self._heard(lie, periods)]
            made["clock"] = {**made["clock"], "lies": lies}
        return made

    def _heard(self, lie: Json, periods: int) -> Iterable[Json]:
        """A lie about a clock in the periods in which its node was not dead."""
        first, last = lie["periods"]
        alive = [it for it in range(first, min(last + 1, periods)) if (it, lie["from"]) not in self.dead]
        return [{**lie, "periods": span} for span in plan.spans(alive)]

    def log_of(self, scenario: Json, node: int) -> str:
        """The log of a node, for the scenario that the run was; raises WordsError where it is too long."""
        return log.whole(scenario, self.frames[node], node)
