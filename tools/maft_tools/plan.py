"""What a scenario's frames look like: slots, offsets, bytes, kinds of error, and which channels are due.

The same facts stand in docs/FORMATS.md; this module is the one place of the tools that knows them.
"""
from __future__ import annotations

from collections.abc import Iterable
from typing import Any, Dict

# a scenario, or a part of it, as JSON has it
Json = Dict[str, Any]

KINDS = ("missing", "malformed", "timing", "cold", "state", "claim", "overrun", "deviate", "equivocate")
HEADER = 14
VALUE_LIMIT = 2 ** 42
INPUT_LIMIT = 4194304
RESTED_TICK = 15
# the window in which a frame is in time, and the last tick that there is
FIRST_IN_TIME, LAST_IN_TIME, LAST_TICK = 10, 20, 30


class WordsError(Exception):
    """What is wrong, in words for the user."""


def is_untimely(tick: int) -> bool:
    """Whether this is a tick outside the window."""
    return 0 <= tick < FIRST_IN_TIME or LAST_IN_TIME < tick <= LAST_TICK


def spans(periods: Iterable[int]) -> list[list[int]]:
    """Ascending periods as spans, each its first and last one."""
    found: list[list[int]] = []
    for period in periods:
        if found and found[-1][1] == period - 1:
            found[-1][1] = period
        else:
            found.append([period, period])
    return found


def slots(m: int) -> int:
    """How many slots a period has with m relay rounds."""
    return 2 * m + 4


def data_slot(m: int) -> int:
    """The slot of the channels' values."""
    return m + 2


def report_slot(m: int) -> int:
    """The slot of the rows of accusations."""
    return m + 3


CLAIM_SLOT = 1


def kind_names(mask: int) -> list[str]:
    """The names of the kinds in a mask, least bit first; a further kind is named by its number."""
    return [KINDS[bit] if bit < len(KINDS) else f"kind {bit}" for bit in range(16) if mask >> bit & 1]


def kind_mask(names: list[str], version: int) -> int:
    """The mask of these names; raises WordsError for another word, or a kind that the version hasn't."""
    mask = 0
    for name in names:
        if name not in KINDS:
            raise WordsError(f"'{name}' is no kind of error; there are {', '.join(KINDS)}")
        if name == "equivocate" and version == 1:
            raise WordsError("version 1 has no kind equivocate")
        mask |= 1 << KINDS.index(name)
    return mask


def value_hex(value: int) -> str:
    """The 8 bytes of a value; raises WordsError outside the range that a frame can say."""
    if not -VALUE_LIMIT <= value <= VALUE_LIMIT:
        raise WordsError(f"{value} is outside -2^42 to 2^42, and a frame that said so would be malformed")
    return value.to_bytes(8, "big", signed=True).hex()


def value_at(place: int) -> int:
    """The offset of a value in a data frame, by its place among the channels that are due."""
    return HEADER + 8 * place


def mask_at(node: int) -> int:
    """The offset of a node's mask in a frame that has a row."""
    return HEADER + 2 * node


def is_always_due(channel: Json) -> bool:
    """Whether a channel is due in every period."""
    return channel.get("kind") == "state" or channel.get("kind") == "sensor" and "task" not in channel
