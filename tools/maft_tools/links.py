"""What befalls frames on their links: what arrives by a fault line, and which fault lines say what arrived.

Bytes of frames stand in hexadecimal here. docs/FORMATS.md has the effects of fault lines.
"""
from __future__ import annotations

import json
from collections import defaultdict
from collections.abc import Mapping

from . import check, plan
from .frames import Path
from .plan import FIRST_IN_TIME, LAST_IN_TIME, RESTED_TICK, Json, WordsError
from .scenario import Effect
from .trace import Arrived

# a frame on its way: period, slot, sender, receiver
Link = tuple[int, int, int, int]
# the effects of a slot, by sender and receiver
Touched = dict[int, dict[int, Effect]]
MOST_BYTES = 4096


def arrivals(effect: Effect | None, digits: bytes) -> Arrived:
    """What arrives of a frame that a fault line with this effect touches, None for no line."""
    if effect is None:
        return [(RESTED_TICK, digits)]
    if effect == "drop":
        return []
    if effect == "twice":
        return [(RESTED_TICK, digits)] * 2
    assert isinstance(effect, dict)
    (key, value), = effect.items()
    return [(value, digits)] if key == "time" else [(RESTED_TICK, _changed(key, value, digits))]


def _changed(key: str, value: Json | int | str, digits: bytes) -> bytes:
    """The bytes of a frame that is cut, partly set or replaced."""
    if isinstance(value, int):
        return digits[: max(0, len(digits) - 2 * value)]
    if isinstance(value, str):
        return value.lower().encode()
    at, put = 2 * value["at"], value["hex"].lower().encode()
    return (digits[:at] + put)[: len(digits)] + digits[at + len(put):]


def effect_of(digits: bytes, arrived: Arrived) -> Effect | None:
    """The effect of a fault line that a receiver can't tell from what arrived of a frame; None where it came as sent.

    Raises WordsError where no fault line can say it.
    """
    if not arrived:
        return "drop"
    if len(arrived) > 1:
        return "twice"
    (tick, came), = arrived
    if not FIRST_IN_TIME <= tick <= LAST_IN_TIME:
        return {"time": tick}
    if came == digits:
        return None
    if digits.startswith(came):
        return {"cut": min((len(digits) - len(came)) // 2, MOST_BYTES)}
    return _set(digits, came) or _raw(came)


def _set(digits: bytes, came: bytes) -> Effect | None:
    """The effect that sets the bytes in which two texts of one length differ, where a line can say it."""
    if len(came) != len(digits):
        return None
    differ = [at for at in range(0, len(digits), 2) if digits[at:at + 2] != came[at:at + 2]]
    first, last = differ[0], differ[-1] + 2
    if first // 2 >= MOST_BYTES or (last - first) // 2 > MOST_BYTES:
        return None
    return {"set": {"at": first // 2, "hex": came[first:last].decode()}}


def _raw(came: bytes) -> Effect:
    if len(came) > 2 * MOST_BYTES:
        raise WordsError(f"a frame of {len(came) // 2} bytes came with others behind its first {MOST_BYTES}, and no "
                         "fault line can say that")
    return {"raw": came.decode()}


def touched(scenario: Json, period: int) -> dict[int, Touched]:
    """The effects of the fault lines of a period, by slot, sender and receiver."""
    nodes, count = scenario["nodes"], plan.slots(scenario["m"])
    found: dict[int, Touched] = {}
    for line in scenario.get("faults", []):
        if line["periods"][0] <= period <= line["periods"][1]:
            for slot in check.slots_of(line, count):
                of = found.setdefault(slot, {}).setdefault(line["from"], {})
                of.update((to, line["effect"]) for to in check.receivers(line, nodes))
    return found


def fault_lines(happened: Mapping[Link, Effect], nodes: int, slots: int) -> list[Json]:
    """Fault lines that say what happened on each link, put together by receivers, then by slots, then by periods."""
    by_to: dict[tuple[int, int, int, str], list[int]] = defaultdict(list)
    for (period, slot, sender, to), effect in happened.items():
        by_to[period, slot, sender, json.dumps(effect)].append(to)
    by_slot: dict[tuple[int, int, Path, str], list[int]] = defaultdict(list)
    for (period, slot, sender, word), to_nodes in by_to.items():
        by_slot[period, sender, tuple(sorted(to_nodes)), word].append(slot)
    by_period: dict[tuple[int, Path, Path, str], list[int]] = defaultdict(list)
    for (period, sender, to_all, word), in_slots in by_slot.items():
        by_period[sender, to_all, tuple(sorted(in_slots)), word].append(period)
    lines = [{"from": sender, "to": "all" if len(to_all) == nodes - 1 else list(to_all), "periods": span,
              "slots": "all" if len(of) == slots else list(of), "effect": json.loads(word)}
             for (sender, to_all, of, word), periods in by_period.items() for span in plan.spans(sorted(periods))]
    return sorted(lines, key=lambda it: (it["periods"], it["from"], str(it["slots"]), str(it["to"])))
