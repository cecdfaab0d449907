"""What a drawn scenario and its text have of what must come up."""
from __future__ import annotations

from classes import touched
from maft_tools.plan import Json, slots
from maft_tools.text import Text
from promises import Groups, tolerates

CLASSES = {"A": "asymmetric", "S": "symmetric", "B": "benign", "J": "joining"}
EFFECTS = ("drop", "twice", "cut", "time", "set", "raw")
# what must come up, besides what `draw.alter` says that it did
WANTED = [*CLASSES.values(), *EFFECTS, "version 1", "version 2", *(f"m = {m}" for m in range(4)),
          *(f"nodes = {nodes}" for nodes in range(3, 17)), "state channel", "sensor", "sensor of a task", "copy",
          "copy within its own bound", "vote missing", "task claimed", "task finished", "restart of one",
          "restart of many", "cold", "cold for two periods", "claim lost", "excluded", "readmitted", "all would leave",
          "retired", "equivocator", "clock", "overlapping clock lies", "last slot alone", "state above the cap"]
DRAWN = ["altered relay entry", "excluded node that speaks"]


def of_scenario(scenario: Json) -> set[str]:
    """What the scenario alone has."""
    found = {f"version {scenario.get('version', 1)}", f"m = {scenario['m']}", f"nodes = {scenario['nodes']}"}
    effects = [line["effect"] for line in scenario.get("faults", [])]
    found |= {it if isinstance(it, str) else next(iter(it)) for it in effects}
    periods = [it["period"] for it in scenario.get("restarts", [])]
    found |= {"restart of many" if periods.count(it) > 1 else "restart of one" for it in periods}
    by_sender: dict[tuple[int, int], set[int]] = {}
    for (period, slot, sender, _), effect in touched(scenario).items():
        by_sender.setdefault((period, sender), set()).add(slot)
        if slot == 0 and isinstance(effect, dict) and effect.get("set", {}).get("hex") == "ffff":
            found.add("state above the cap")
    if any(it == {slots(scenario["m"]) - 1} for it in by_sender.values()):
        found.add("last slot alone")
    if "clock" in scenario:
        found.add("clock")
        lies = [(it["from"], period, to) for it in scenario["clock"]["lies"]
                for period in range(it["periods"][0], it["periods"][1] + 1) for to in it["to"]]
        if len(lies) > len(set(lies)):
            found.add("overlapping clock lies")
    return found


def of_votes(scenario: Json, text: Text) -> set[str]:
    """What is voted on."""
    found = set()
    for period in text.periods:
        for node in period.nodes:
            for channel, vote in node.votes.items():
                part = scenario["channels"][channel]
                sensor = "sensor of a task" if "task" in part else "sensor"
                kind = {"state": "state channel", "sensor": sensor, "copy": "copy"}[part["kind"]]
                found.add(kind if vote is not None else "vote missing")
                found |= {"task finished"} if "task" in part else set()
    return found


def of_members(scenario: Json, text: Text) -> set[str]:
    """Who left, who came back, and who is never to."""
    found, policy = set(), scenario["policy"]
    before: list[int] = []
    for period in text.periods:
        held = [[node.counts[it] for it in node.members] for node in period.nodes if not node.is_cold]
        if any(min(counts) >= policy["exclude"] for counts in held):
            found.add("all would leave")
        reference = period.reference
        if reference is None:
            continue
        if len(reference.members) < scenario["nodes"]:
            found.add("excluded")
        if before and set(reference.members) - set(before):
            found.add("readmitted")
        if any(policy.get("retire", 0) and it >= policy["retire"] for it in reference.left):
            found.add("retired")
        before = reference.members
    return found


def of_nodes(text: Text) -> set[str]:
    """Which classes and modes there are, and what the nodes settle."""
    found, cold = set(), set()
    for period in text.periods:
        found |= {CLASSES[node.letter] for node in period.nodes if node.letter in CLASSES}
        now = {node.id for node in period.nodes if node.is_cold}
        found |= {"cold"} if now else set()
        found |= {"cold for two periods"} if now & cold else set()
        found |= set() if period.claim else {"claim lost"}
        cold = now
        for node in period.nodes:
            if any(mask & 256 for row in node.rows.values() for mask in row or ()):
                found.add("equivocator")
            if any(isinstance(it, int) for it in node.done.values()):
                found.add("task claimed")
    return found


def of_copies(scenario: Json, text: Text, groups: Groups) -> set[str]:
    """Whether the copies of a task were voted in a claimed period, by a group that keeps the bound of its own."""
    for period in text.periods:
        letters = {node.id: node.letter for node in period.nodes}
        for channel, group in groups.get(period.number, {}).items():
            faults = scenario["channels"][channel]["lies"]
            if period.claim and group and tolerates([letters[it] for it in group], faults):
                return {"copy within its own bound"}
    return set()


def came_up(scenario: Json, text: Text, groups: Groups) -> set[str]:
    """All of it; who votes on copy channels is told beside the text."""
    found = of_scenario(scenario) | of_votes(scenario, text) | of_members(scenario, text)
    return found | of_nodes(text) | of_copies(scenario, text, groups)
