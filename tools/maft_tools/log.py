"""Cuts a trace into what one node was delivered: the input of `maft node I`."""
from __future__ import annotations

import json
import re
from collections.abc import Iterable

from .json_text import printable
from .plan import INPUT_LIMIT, Json, WordsError

Entry = tuple[int, int, int, int, str]
_NUMBER = "([0-9]{1,9})"
_FRAME = re.compile(f"frame {_NUMBER} {_NUMBER} {_NUMBER} {_NUMBER} {_NUMBER} (-|[0-9a-f]+)")


def entries(trace: Iterable[str], node: int, most: int = INPUT_LIMIT) -> list[Entry]:
    """What the frame lines of a trace say that a node was delivered, by period and slot.

    Each is the period, slot, sender, tick and bytes. Raises WordsError where a line isn't a frame's, or the frames have
    more than so many digits: by default than the program reads.
    """
    found: list[Entry] = []
    length = 0
    for at, line in enumerate(trace, 1):
        if not line.startswith("frame "):
            continue
        words = _FRAME.fullmatch(line.rstrip("\r\n"))
        if words is None:
            raise WordsError(f"line {at} isn't a frame's: '{printable(line.rstrip(), 80)}'")
        period, slot, sender, receiver, tick = map(int, words.groups()[:5])
        if receiver == node:
            found.append((period, slot, sender, tick, "" if words[6] == "-" else words[6]))
            length += len(words[6])
        if length > most:
            raise too_long(node, f"more than {length}")
    found.sort(key=lambda it: it[:2])
    return found


def too_long(node: int, length: str) -> WordsError:
    """The error where a log has so many bytes."""
    return WordsError(f"node {node}'s log has {length} bytes, and the program reads at most {INPUT_LIMIT}: "
                      "take fewer periods")


def cut(scenario: Json, trace: Iterable[str], node: int) -> str:
    """A node's log, as JSON text.

    Raises WordsError where the scenario has no such node, the trace no frame for it, or the log is longer than the
    program reads.
    """
    nodes = scenario.get("nodes")
    if type(nodes) is not int or not 0 <= node < nodes:
        raise WordsError(f"node {node} isn't one of the scenario's nodes, of which it says that there are "
                         f"{printable(str(nodes), 40)}")
    log = entries(trace, node)
    if not log:
        raise WordsError(f"no frame to node {node} is in the trace; is it the text of 'replay trace'?")
    return whole(scenario, log, node)


def whole(scenario: Json, frames: list[Entry], node: int) -> str:
    """The log of a node that was delivered these frames, as JSON text; raises WordsError where it is too long."""
    text = json.dumps({"scenario": scenario, "frames": frames}, separators=(",", ":"))
    if len(text) > INPUT_LIMIT:
        raise too_long(node, str(len(text)))
    return text


def silent(log: Json) -> list[int] | None:
    """Which nodes never send in a log: its owner, and who is silent throughout. None where the log isn't in order."""
    scenario, frames = log.get("scenario"), log.get("frames")
    nodes = scenario.get("nodes") if isinstance(scenario, dict) else None
    if type(nodes) is not int or not 0 < nodes <= 16 or not isinstance(frames, list):
        return None
    heard = {it[2] for it in frames if isinstance(it, list) and len(it) == 5 and type(it[2]) is int}
    return [it for it in range(nodes) if it not in heard]
