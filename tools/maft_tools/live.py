"""What may be done to a cluster between two periods of its run, in words: faults, kills, and when nodes come back."""
from __future__ import annotations

import copy
import re
from collections.abc import Callable

from .cluster import Cluster, Kill, check_kill
from .history import told_to_nodes
from .json_text import printable
from .plan import Json, WordsError
from .scenario import Scenario, is_setting

FORMS = """(an empty line, or: go)       the next period is run; go N: the next N
kill NODE@PERIOD.SLOT [back PERIOD]; kill NODE: before the next period's first frame
back NODE [PERIOD]            a dead node is started anew before the next period, or a later one
a statement, as tools/scenario takes it; of the next period where it names none
end                           no further period is run, as at the end of the input"""
_KILL = re.compile(r"([0-9]{1,2})@([0-9]{1,9})(?:\.([0-9]{1,2}))?")


def kill_of(text: str) -> Kill:
    """The kill that NODE@PERIOD.SLOT says; raises WordsError for another text."""
    found = _KILL.fullmatch(text)
    if found is None:
        raise WordsError(f"{printable(text, 60)} is no NODE@PERIOD.SLOT, as in 4@5.1")
    node, period, slot = found.groups()
    return Kill(int(node), int(period), int(slot or 0))


class Live:
    """A run on its way, and what is still to befall it. `accepts` raises WordsError for a scenario that is refused."""

    def __init__(self, cluster: Cluster, scenario: Scenario, periods: int, accepts: Callable[[Json], None]) -> None:
        self.cluster, self.scenario, self.periods, self.accepts = cluster, scenario, periods, accepts
        # the period that is run next
        self.next = 0

    def take(self, line: str) -> int | None:
        """Does what a line says, and answers how many periods are to be run now, None for no further one.

        Raises WordsError for a line that is of no form, or can't be now.
        """
        words = line.split()
        if words in ([], ["go"]):
            return 1
        if words == ["end"]:
            return None
        if words[0] == "go" and len(words) == 2 and re.fullmatch("[1-9][0-9]{0,8}", words[1]):
            return int(words[1])
        if words[0] == "kill":
            self._kill(words[1:])
        elif words[0] == "back":
            self._back(words[1:])
        else:
            self._add(line)
        return 0

    def _kill(self, words: list[str]) -> None:
        if not (len(words) == 1 or len(words) == 3 and words[1] == "back" and re.fullmatch("[0-9]{1,9}", words[2])):
            raise WordsError("kill is followed by NODE or NODE@PERIOD.SLOT, and maybe by back PERIOD")
        kill = kill_of(words[0] if "@" in words[0] else f"{words[0]}@{self.next}.0")
        back = int(words[2]) if len(words) == 3 else None
        self.add_kill(Kill(kill.node, kill.period, kill.slot, back))

    def add_kill(self, kill: Kill) -> None:
        """A node is to be killed; raises WordsError where that can't be."""
        self._not_before(kill.period)
        check_kill(kill, self.scenario.data, self.periods, self.cluster.kills)
        self.cluster.kills.append(kill)

    def _back(self, words: list[str]) -> None:
        if not 1 <= len(words) <= 2 or not all(re.fullmatch("[0-9]{1,9}", it) for it in words):
            raise WordsError("back is followed by NODE, and maybe by a PERIOD")
        node, period = int(words[0]), int(words[1]) if len(words) == 2 else self.next
        self._not_before(period)
        dead = [it for it in self.cluster.kills if it.node == node and it.back is None and it.period < period]
        if not dead:
            raise WordsError(f"node {node} isn't dead in period {period} without an end, so it can't be back")
        others = [it for it in self.cluster.kills if it is not dead[0]]
        kill = Kill(node, dead[0].period, dead[0].slot, period)
        check_kill(kill, self.scenario.data, self.periods, others)
        self.cluster.kills = [*others, kill]

    def _not_before(self, period: int) -> None:
        if period < self.next:
            raise WordsError(f"period {period} is over; the next one is {self.next}")

    def _add(self, statement: str) -> None:
        """A statement's faults and restarts, of periods that are still to come."""
        before = copy.deepcopy(self.scenario.data)
        has_period = is_setting(statement) or re.search(r"\bperiods?\b", statement)
        said = statement.strip() if has_period else f"{statement.strip()} in period {self.next}"
        try:
            self.scenario.add(said)
            self._check_later(before)
            self.accepts(self.scenario.data)
        except WordsError:
            self.scenario.data = before
            raise
        self.cluster.set_scenario(self.scenario.data)

    def _check_later(self, before: Json) -> None:
        """Raises WordsError where a statement changed more than what is still to befall the nodes."""
        after = self.scenario.data
        if told_to_nodes(before) != told_to_nodes(after):
            raise WordsError("the nodes run with their policy, channels and clocks already; a statement can add "
                             "faults, restarts and lies alone")
        for line in after.get("faults", [])[len(before.get("faults", [])):]:
            self._not_before(line["periods"][0])
        for line in [it for it in after.get("restarts", []) if it not in before.get("restarts", [])]:
            self._not_before(line["period"])
        lies = [it.get("clock", {}).get("lies", []) for it in (before, after)]
        for line in lies[1][len(lies[0]):]:
            self._not_before(line["periods"][0])
