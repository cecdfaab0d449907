"""Each node's class in each period, by the fault lines and restarts alone, as docs/PROTOCOL.md has them."""
from __future__ import annotations

from maft_tools.plan import Json, slots

Touched = "dict[tuple[int, int, int, int], object]"
SHOWS = ("drop", "twice")


def touched(scenario: Json) -> dict[tuple[int, int, int, int], object]:
    """The effect on each period, slot, sender and receiver that a fault line has."""
    found: dict[tuple[int, int, int, int], object] = {}
    for line in scenario.get("faults", []):
        to = [it for it in range(scenario["nodes"]) if it != line["from"]] if line["to"] == "all" else line["to"]
        of = range(slots(scenario["m"])) if line["slots"] == "all" else line["slots"]
        for period in range(line["periods"][0], line["periods"][1] + 1):
            found.update({(period, slot, line["from"], it): line["effect"] for slot in of for it in to})
    return found


def shows(effect: object) -> bool:
    """Whether each receiver sees that something is wrong."""
    return effect in SHOWS or isinstance(effect, dict) and ("cut" in effect or "time" in effect)


def _same(one: object, other: object) -> bool:
    """Whether two effects do the same; a text has its digits in either case."""
    return str(one).lower() == str(other).lower()


def classes(scenario: Json) -> list[str]:
    """For each period the letters of all nodes."""
    nodes, of, on = scenario["nodes"], range(slots(scenario["m"])), touched(scenario)
    restarts = {(it["period"], it["node"]) for it in scenario.get("restarts", [])}
    sound, out = set(range(nodes)), []
    for period in range(scenario["periods"]):
        links = {node: [[on.get((period, slot, node, it)) for it in range(nodes) if it != node] for slot in of]
                 for node in range(nodes)}
        clean = {node for node in range(nodes) if all(effect is None for slot in links[node] for effect in slot)}
        well = {node for node in clean if (period, node) not in restarts and (period == 0 or node in sound)}
        letters = []
        for node in range(nodes):
            others = [it for it in range(nodes) if it != node and it not in well]
            seen = [it for it in others if not shows(on.get((period, 0, it, node)))]
            if node in well:
                letters.append("N")
            elif node in clean and (period, node) in restarts and len(well) > len(seen):
                letters.append("J")
            elif all(shows(effect) for slot in links[node] for effect in slot):
                letters.append("B")
            else:
                letters.append("S" if all(_same(slot[0], effect) for slot in links[node] for effect in slot) else "A")
        sound = {node for node in range(nodes) if letters[node] in "NJ"}
        out.append("".join(letters))
    return out
