"""What a replayed text must say over many claimed periods, read from the text and the scenario alone.

`wrong` answers what is wrong, in words that begin with the promise: values and clocks come together; a fault that shows
is noted; who is well is neither accused nor charged, and its count falls with each full streak and does nothing else;
whom all accuse is out by its deadline; who is well is back by its day, and stays. `tried` breaks each of them in the
text, where it speaks of something, and answers whether that is noticed.
"""
from __future__ import annotations

import dataclasses
import random
from collections.abc import Callable, Iterable, Iterator
from typing import Optional, Tuple

from maft_tools import plan
from maft_tools import text as texts
from maft_tools.plan import VALUE_LIMIT, Json

MISSING, MALFORMED, TIMING, COLD = 1, 2, 4, 8
Place = Tuple[int, int]


def halved(distance: int, times: int) -> int:
    """Half of a distance, rounded up, so many times over."""
    for _ in range(min(times, distance.bit_length() + 1)):
        distance = (distance + 1) // 2
    return distance


def apart(numbers: list[int]) -> int:
    """How far the greatest is from the least; 0 of no numbers."""
    return max(numbers) - min(numbers) if numbers else 0


@dataclasses.dataclass
class Standing:
    """What the sound nodes hold of all nodes between two periods."""

    members: list[int]
    counts: list[int]
    streaks: list[int]
    left: list[int]


class Run:
    """The claimed periods of a text."""

    def __init__(self, scenario: Json, periods: list[texts.Period]) -> None:
        self.scenario, self.nodes, self.m = scenario, range(scenario["nodes"]), scenario["m"]
        self.policy = {"retire": 0, **scenario["policy"]}
        claimed = next((at for at, it in enumerate(periods) if not it.claim), len(periods))
        self.periods = periods[:claimed]
        self.numbers = range(claimed)
        self.letters = [{node.id: node.letter for node in it.nodes} for it in self.periods]
        self.sounds = [[node for node in it.nodes if node.is_sound and not node.is_cold] for it in self.periods]
        self.held = [self._standing(at) for at in range(claimed + 1)]

    def _standing(self, at: int) -> Standing:
        if at == 0:
            zeros = [0] * len(self.nodes)
            return Standing(list(self.nodes), zeros, zeros, zeros)
        node = self.sound(at - 1)[0]
        return Standing(node.members, node.counts, node.streaks, node.left or [0] * len(self.nodes))

    def is_nonfaulty(self, period: int, node: int) -> bool:
        """Whether a node is of class N in a period."""
        return self.letters[period].get(node) == "N"

    def sound(self, period: int) -> list[texts.Node]:
        """The sound nodes of a period that hold a state."""
        return self.sounds[period]

    def nonfaulty(self, period: int) -> list[int]:
        """The nodes of class N in a period."""
        return [node for node in self.nodes if self.is_nonfaulty(period, node)]

    def tellers(self, period: int, node: int) -> list[int]:
        """The nonfaulty members of a period other than this node."""
        return [it for it in self.periods[period].members if it != node and self.is_nonfaulty(period, it)]

    def row(self, period: int, teller: int) -> texts.Row:
        """The row of a nonfaulty member as the first sound node settles it; no accusations where that is an error."""
        return self.sound(period)[0].rows.get(teller) or (0,) * len(self.nodes)

    def is_well(self, period: int, node: int) -> bool:
        """Whether a node is nonfaulty, and was so in the period before if there was one."""
        return self.is_nonfaulty(period, node) and (period == 0 or self.is_nonfaulty(period - 1, node))


# ---- where each promise speaks, and what it says there

def own_values(run: Run, channel: int, period: int) -> list[int]:
    """What the nonfaulty nodes hold of a state channel in a period: the start, or the last vote and the step."""
    part = run.scenario["channels"][channel]
    if period == 0:
        return [part["start"][node] for node in run.nonfaulty(0)]
    votes = {it.id: it.votes.get(channel) for it in run.periods[period - 1].nodes}
    return [max(-VALUE_LIMIT, min(VALUE_LIMIT, (votes[node] or 0) + part["step"])) for node in run.nonfaulty(period)]


def state_channels(run: Run) -> list[int]:
    """The numbers of the state channels."""
    return [at for at, it in enumerate(run.scenario.get("channels", [])) if it["kind"] == "state"]


def values(run: Run) -> Iterator[str]:
    """What own values of a state channel are apart is halved in each period, and votes are half as far apart."""
    for channel in state_channels(run):
        start = apart(run.scenario["channels"][channel]["start"])
        for period in run.numbers:
            own = own_values(run, channel, period)
            votes = [it.votes.get(channel) for it in run.sound(period)]
            if None in votes:
                yield f"values: no vote on channel {channel} in period {period}"
            elif apart(own) > halved(start, period) or apart(votes) > halved(start, period + 1):
                yield f"values: channel {channel} in period {period}: own {own}, votes {votes}, from {start} apart"


def skew_bound(clock: Json, times: int) -> int:
    """How far clocks may be apart so many periods after they started."""
    settled = 4 * clock["epsilon"] + 2 * clock["drift"]
    return settled + halved(max(0, apart(clock["start"]) - settled), times)


def clocks(run: Run) -> Iterator[str]:
    """What clocks start further apart than they settle is halved in each period."""
    clock = run.scenario.get("clock")
    for period in run.numbers if clock else ():
        before = run.periods[period - 1].offsets if period else clock["start"]
        if apart([before[node] for node in run.nonfaulty(period)]) > skew_bound(clock, period):
            yield f"clocks: offsets {before} before period {period}"
        after = run.periods[period].offsets
        if apart([after[it.id] for it in run.sound(period)]) > skew_bound(clock, period + 1):
            yield f"clocks: offsets {after} after period {period}"


def kind_of(effect: Json | str) -> int:
    """The kind that is noted of a frame by what befell it; 0 where it may look well."""
    name = effect if isinstance(effect, str) else next(iter(effect))
    return {"drop": MISSING, "twice": MALFORMED, "cut": MALFORMED, "time": TIMING}.get(name, 0)


def shown(run: Run) -> tuple[dict[tuple[int, int, int], int], set[tuple[int, int, int]]]:
    """The kinds to be noted by what befell frames, by period, sender and receiver, and who was told what in slot 0.

    What befalls a frame of the rows or of their relays is noted a period later.
    """
    kinds: dict[tuple[int, int, int], int] = {}
    told = set()
    for line in run.scenario.get("faults", []):
        to = [it for it in run.nodes if it != line["from"]] if line["to"] == "all" else line["to"]
        slots = range(plan.slots(run.m)) if line["slots"] == "all" else line["slots"]
        for period in range(line["periods"][0], line["periods"][1] + 1):
            told |= {(period, line["from"], it) for it in to if 0 in slots}
            for noted_in in {period + (it >= plan.report_slot(run.m)) for it in slots}:
                for at in [(noted_in, line["from"], it) for it in to]:
                    kinds[at] = kinds.get(at, 0) | kind_of(line["effect"])
    return kinds, told


def noted_places(run: Run) -> Iterator[tuple[int, int, int, int]]:
    """Periods, tellers, nodes and masks: the nonfaulty member must give the node these kinds."""
    kinds, told = shown(run)
    for period in run.numbers:
        cold = {it.id for it in run.periods[period].nodes if it.mode != "full"}
        for node in run.nodes:
            for teller in run.tellers(period, node):
                at = (period, node, teller)
                mask = kinds.get(at, 0) | (COLD if node in cold and at not in told else 0)
                if mask:
                    yield period, teller, node, mask


def noted(run: Run) -> Iterator[str]:
    """Each nonfaulty member notes a frame that is lost, cut, doubled or late, and a node that says Cold."""
    for period, teller, node, mask in noted_places(run):
        if mask & ~run.row(period, teller)[node]:
            yield f"noted: node {teller} doesn't note all of {mask} of node {node} in period {period}"


def well_places(run: Run) -> Iterator[Place]:
    """Periods and nodes that are well in them."""
    return ((period, node) for period in run.numbers for node in run.nodes if run.is_well(period, node))


def well(run: Run) -> Iterator[str]:
    """Nobody nonfaulty accuses a node that is well, and no sound node's rows charge it."""
    charged = [{node for it in run.sound(period) for node in it.charged(len(run.nodes))} for period in run.numbers]
    for period, node in well_places(run):
        accusers = [it for it in run.tellers(period, node) if run.row(period, it)[node]]
        if accusers or node in charged[period]:
            yield f"well: node {node} is accused by {accusers} or charged in period {period}"


def recovering_places(run: Run) -> Iterator[Place]:
    """Periods and nodes that are nonfaulty in them and in the one before, which there is."""
    return ((period, node) for period, node in well_places(run) if period > 0)


def counts(run: Run) -> Iterator[str]:
    """The count of a node that is well falls by the credit with each full streak, and does nothing else."""
    streak, credit = run.policy["streak"], run.policy["credit"]
    for period, node in recovering_places(run):
        held = run.held[period]
        full, rest = divmod(held.streaks[node] + 1, streak)
        wanted = (max(0, held.counts[node] - credit * full), rest)
        for it in run.sound(period):
            if (it.counts[node], it.streaks[node]) != wanted:
                shown_by = (it.counts[node], it.streaks[node])
                yield f"counts: node {it.id} holds {shown_by} of node {node} after period {period}, not {wanted}"


def stays_places(run: Run) -> Iterator[Place]:
    """Periods and nodes that are well in them, and were members below the bound of exclusion before them."""
    for period, node in recovering_places(run):
        held = run.held[period]
        if node in held.members and held.counts[node] < run.policy["exclude"]:
            yield period, node


def stays(run: Run) -> Iterator[str]:
    """A member that is well, below the bound of exclusion, remains one."""
    yield from _members_wrong(run, "stays", stays_places(run), True)


def back_places(run: Run) -> Iterator[Place]:
    """Periods and nodes that must be members after them, by the count that they had when they were well first."""
    policy, found = run.policy, set()
    for node in run.nodes if policy["credit"] else ():
        for first in run.numbers:
            held = run.held[first + 1]
            is_heavy = node in held.members and held.counts[node] >= policy["exclude"]
            may_retire = policy["retire"] and (held.left[node] >= policy["retire"] or is_heavy)
            if not run.is_nonfaulty(first, node) or may_retire:
                continue
            streaks = -(-max(0, held.counts[node] - policy["readmit"]) // policy["credit"])
            day = first + max(1, policy["streak"] * streaks - held.streaks[node])
            if day < len(run.periods) and all(run.is_nonfaulty(it, node) for it in range(first, day + 1)):
                found.add((day, node))
    return iter(sorted(found))


def back(run: Run) -> Iterator[str]:
    """A node that is well is a member by the day that its count says."""
    yield from _members_wrong(run, "back", back_places(run), True)


def accused(run: Run, period: int, node: int) -> int:
    """The greatest weight of a kind that all other nonfaulty members give a node that may be charged; else 0."""
    tellers = run.tellers(period, node)
    if not tellers or run.m == 0 and node in run.periods[period].members and run.is_nonfaulty(period, node):
        return 0
    common = -1
    for teller in tellers:
        common &= run.row(period, teller)[node]
    return max((weight for bit, weight in enumerate(run.policy["weights"]) if common >> bit & 1), default=0)


def out_places(run: Run) -> Iterator[Place]:
    """Periods and nodes that must be no members after them, since all accused them for so long."""
    for node in run.nodes:
        total = run.held[0].counts[node]
        for period in run.numbers:
            weight = accused(run, period, node)
            total = total + weight if weight else run.held[period + 1].counts[node]
            light = any(run.held[period + 1].counts[it] < run.policy["exclude"] for it in run.held[period].members)
            if weight and light and total >= run.policy["exclude"]:
                yield period, node


def out(run: Run) -> Iterator[str]:
    """A node that all accuse is no member any more when the weights have come to the bound of exclusion."""
    yield from _members_wrong(run, "out", out_places(run), False)


def _members_wrong(run: Run, law: str, places: Iterator[Place], wanted: bool) -> Iterator[str]:
    for period, node in places:
        for it in run.sound(period):
            if (node in it.members) != wanted:
                must = "must be one" if wanted else "must be none"
                yield f"{law}: node {it.id} holds members {it.members} after period {period}, and node {node} {must}"


# ---- the judgement

LAWS: dict[str, Callable[[Run], Iterator[str]]] = {
    "values": values, "clocks": clocks, "noted": noted, "well": well, "counts": counts, "out": out, "back": back,
    "stays": stays}


def wrong(scenario: Json, periods: list[texts.Period], laws: Iterable[str] = tuple(LAWS)) -> list[str]:
    """What is wrong of the periods of a replay's text, by these promises."""
    try:
        run = Run(scenario, periods)
        return [said for law in laws for said in LAWS[law](run)]
    except (LookupError, TypeError, ValueError) as error:
        return [f"the text can't be judged: {error!r}"]


# ---- texts that break a promise

# a text with one thing changed, by the run, its text and a source of numbers; none where the promise speaks of nothing
Break = Callable[[Run, str, random.Random], Optional[str]]


class Draft:
    """The lines of a text, of which the sound nodes' are changed in one period."""

    def __init__(self, text: str, period: int) -> None:
        self.lines = text.splitlines()
        self.first = next(at for at, it in enumerate(self.lines) if it.startswith(f"period {period} "))
        ends = (at for at, it in enumerate(self.lines) if at > self.first and it.startswith(("period ", "end ")))
        self.end = next(ends)

    def text(self) -> str:
        """The lines as a text."""
        return "\n".join(self.lines) + "\n"

    def _sound(self) -> Iterator[int]:
        for at in range(self.first, self.end):
            words = self.lines[at].split(" ")
            if words[0] == "node" and words[2] in "NJ" and len(words) > 4:
                yield at

    def state(self, key: str, change: Callable[[list[int]], list[int]]) -> Draft:
        """Another list behind a word of each sound node's first line."""
        for at in self._sound():
            words = self.lines[at].split(" ")
            place = words.index(key) + 1
            words[place] = ",".join(map(str, change(texts.numbers(words[place])))) or "-"
            self.lines[at] = " ".join(words)
        return self

    def item(self, offset: int, key: int, change: Callable[[str], str], node: int | None = None) -> Draft:
        """Another item of one sound node's line so far below its first, or of that of all of them."""
        for at in self._sound():
            if node is None or self.lines[at].startswith(f"node {node} "):
                cells = [it.partition("=") for it in self.lines[at + offset].split(" ")]
                changed = [(name, sign, change(value) if name == str(key) else value) for name, sign, value in cells]
                self.lines[at + offset] = " ".join("".join(it) for it in changed)
        return self

    def offset(self, node: int, value: int) -> Draft:
        """Another offset of a node's clock."""
        at = next(at for at in range(self.first, self.end) if self.lines[at].startswith("clock "))
        words = self.lines[at].split(" ")
        words[4] = ",".join(map(str, [value if it == node else old for it, old in enumerate(texts.numbers(words[4]))]))
        self.lines[at] = " ".join(words)
        return self


def _with(node: int, change: Callable[[int], int]) -> Callable[[list[int]], list[int]]:
    return lambda row: [change(value) if at == node else value for at, value in enumerate(row)]


def _mask(node: int, change: Callable[[int], int]) -> Callable[[str], str]:
    return lambda cell: ",".join(map(str, _with(node, change)(texts.numbers(cell))))


def _several(run: Run) -> list[int]:
    """The periods in which several nodes are sound."""
    return [it for it in run.numbers if len(run.sound(it)) > 1]


def _break_values(run: Run, text: str, draw: random.Random) -> str | None:
    places = [(channel, period) for channel in state_channels(run) for period in _several(run)]
    if not places:
        return None
    channel, period = draw.choice(places)
    first, second = run.sound(period)[:2]
    bound = halved(apart(run.scenario["channels"][channel]["start"]), period + 1)
    beyond = str((first.votes[channel] or 0) + bound + 1)
    return Draft(text, period).item(3, channel, lambda _: beyond, second.id).text()


def _break_clocks(run: Run, text: str, draw: random.Random) -> str | None:
    if "clock" not in run.scenario or not _several(run):
        return None
    period = draw.choice(_several(run))
    first, second = run.sound(period)[:2]
    bound = skew_bound(run.scenario["clock"], period + 1)
    return Draft(text, period).offset(second.id, run.periods[period].offsets[first.id] + bound + 1).text()


def _break_noted(run: Run, text: str, draw: random.Random) -> str | None:
    places = list(noted_places(run))
    if not places:
        return None
    period, teller, node, kinds = draw.choice(places)
    lost = draw.choice([bit for bit in (MISSING, MALFORMED, TIMING, COLD) if kinds & bit])
    return Draft(text, period).item(2, teller, _mask(node, lambda mask: mask & ~lost)).text()


def _break_well(run: Run, text: str, draw: random.Random) -> str | None:
    places = [(period, teller, node) for period, node in well_places(run) for teller in run.tellers(period, node)]
    if not places:
        return None
    period, teller, node = draw.choice(places)
    kind = 1 << draw.randrange(8)
    return Draft(text, period).item(2, teller, _mask(node, lambda mask: mask | kind)).text()


def _break_counts(run: Run, text: str, draw: random.Random) -> str | None:
    places = list(recovering_places(run))
    if not places:
        return None
    period, node = draw.choice(places)
    return Draft(text, period).state(draw.choice(["counts", "streaks"]), _with(node, lambda number: number + 1)).text()


def _break_members(places: Callable[[Run], Iterator[Place]]) -> Break:
    def broken(run: Run, text: str, draw: random.Random) -> str | None:
        found = list(places(run))
        if not found:
            return None
        period, node = draw.choice(found)

        def other(members: list[int]) -> list[int]:
            return sorted({*members} ^ {node})

        return Draft(text, period).state("members", other).text()

    return broken


BREAKS: dict[str, Break] = {
    "values": _break_values, "clocks": _break_clocks, "noted": _break_noted, "well": _break_well,
    "counts": _break_counts, "out": _break_members(out_places), "back": _break_members(back_places),
    "stays": _break_members(stays_places)}


def tried(scenario: Json, text: str, seed: int) -> dict[str, bool]:
    """Of each promise that speaks of something in a good text: whether a text that breaks it is refused by its name."""
    run, found = Run(scenario, texts.read(text.splitlines()).periods), {}
    for law, act in BREAKS.items():
        broken = act(run, text, random.Random(f"{law} {seed}"))
        if broken is not None:
            said = wrong(scenario, texts.read(broken.splitlines()).periods, [law])
            found[law] = any(it.startswith(f"{law}:") for it in said)
    return found
