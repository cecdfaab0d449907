"""Parts of the program's texts, as lines: a trace without its frames, one node's lines, and the periods before one."""
from __future__ import annotations


def without_frames(trace: str) -> str:
    """A traced text as `replay` prints it."""
    return "".join(line for line in trace.splitlines(True) if not line.startswith("frame "))


def alone(replay: str, node: int) -> str:
    """What `node I` must print: the node's lines of a replay, with `-` for its class."""
    lines, keep = [], False
    for line in replay.splitlines():
        words = line.split(" ")
        if words[0] == "period":
            lines.append(" ".join(words[:2]))
            keep = False
        elif words[0] == "node":
            keep = words[1] == str(node)
            if keep:
                lines.append(" ".join([*words[:2], "-", *words[3:]]))
        elif words[0] == "end" or (keep and words[0] == ""):
            lines.append(line)
    return "\n".join(lines) + "\n"


def front(text: str, periods: int) -> str:
    """The lines of a text before a period."""
    lines = text.splitlines()
    end = next((k for k, line in enumerate(lines) if line.split(" ")[:2] == ["period", str(periods)]), len(lines) - 1)
    return "\n".join(lines[:end]) + "\n"
