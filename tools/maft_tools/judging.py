"""Runs the program judge, and reads the rows that it writes of scenarios."""
from __future__ import annotations

import json
import subprocess
from collections.abc import Sequence
from typing import Any

from . import json_text, program
from .drawing import Options
from .plan import Json, WordsError
from .rows import Illness, Judged, Run

HEADER = (
    "run,line,status,rule,place,nodes,m,periods,lines,restarts,claimed,lost,n,a,s,b,margin,charges,false_charges,"
    "false_exclusions,spread,skew",
    "ill,line,node,onset,class,worst,touched,member,charged,left,sound,back,periods_a_member",
    "skew,line,period,skew")
# the statuses that tell of words or options, which are the program's own here
OF_WORDS = (1, 2, 3, 4)
# the keys of all objects of a scenario in the order in which they are shown, and what is left out
KEYS = (
    "version", "kind", "after", "from", "to", "node", "nodes", "m", "period", "periods", "slots", "effect", "by",
    "policy", "weights", "exclude", "readmit", "credit", "streak", "cap", "retire", "frame", "order", "channels",
    "delta", "task", "tasks", "need", "min", "max", "run", "at", "hex", "epsilon", "drift", "start", "drifts", "errors",
    "lies", "readings", "faults", "restarts", "clock")
DEFAULTS = {"version": 1, "order": 0, "retire": 0, "tasks": [], "faults": [], "restarts": []}
IS_MEMBER = {"yes": True, "no": False}
# a rate is told to the program in parts of this size
RATE = 65536


def ended(status: int) -> str:
    """In words, with what status other than 0 the program ended."""
    if status < 0:
        return f"the program was ended by signal {-status}"
    return f"the program ended with {status}: {program.STATUSES.get(status, 'which is none of its statuses')}"


def line_of(source: bytes) -> bytes:
    """A scenario as a line. Where a line feed may stand in JSON text, and where not, there a carriage return may, or
    not."""
    return source.replace(b"\n", b"\r") + b"\n"


def options_line(options: Options) -> bytes:
    """The options by which the program draws, as its line."""
    told: Json = {
        "nodes": options.nodes, "m": options.m, "periods": options.periods, "faulty": options.faulty,
        "classes": list(options.classes), "rate": round(options.rate * RATE), "length": options.length,
        "restart": options.restart, "copies": options.copies}
    if options.clock:
        told["clock"] = dict(vars(options.clock))
    return json.dumps(told).encode() + b"\n"


def _number(cell: str) -> int | None:
    return int(cell) if cell else None


def _run(cells: list[str]) -> Run:
    return Run("", "", *map(_number, cells[2:]))  # type: ignore[arg-type]


def _illness(cells: list[str]) -> Illness:
    _, _, node, onset, initial, worst, touched, member, charged, left, sound, back, stay = cells
    return Illness(
        "", "", int(node), int(onset), initial, worst, int(touched), IS_MEMBER[member], _number(charged),
        _number(left), _number(sound), _number(back), int(stay))


def read(lines: Sequence[str]) -> list[Judged]:
    """The rows of each scenario, without their names; raises WordsError where the lines are no such rows."""
    found: list[Judged] = []
    try:
        for line in lines:
            cells = line.split(",")
            if cells[0] == "run":
                found.append(Judged(_run(cells)))
            elif cells[0] == "ill":
                found[-1].illnesses.append(_illness(cells))
            else:
                _, _, period, skew = cells
                if int(period) != len(found[-1].skews):
                    raise ValueError(period)
                found[-1].skews.append(int(skew))
    except (ValueError, LookupError, TypeError):
        raise WordsError(f"the program judge prints what is no row: {json_text.printable(line, 200)}") from None
    return found


def _call(judge: str, words: Sequence[str], source: bytes) -> tuple[bytes, int]:
    """What the program writes, and its status."""
    try:
        done = subprocess.run([judge, *words], input=source, stdout=subprocess.PIPE, stderr=subprocess.DEVNULL)
    except OSError as error:
        raise WordsError(f"the program {json_text.printable(judge)} can't be run: {error.strerror}") from None
    return done.stdout, done.returncode


def _ask(judge: str, words: Sequence[str], source: bytes, count: int) -> tuple[list[Judged], int]:
    """The rows of as many scenarios, or of fewer where the status is another than 0."""
    out, status = _call(judge, words, source)
    lines = out.decode("utf-8", "replace").split("\n")[:-1]
    is_judge = tuple(lines[:3]) == HEADER or not lines and status != 0
    found = read(lines[3:]) if is_judge else []
    if not is_judge or status in OF_WORDS or len(found) != count and status == 0:
        raise WordsError(f"{json_text.printable(judge)} isn't the program judge, or one of another version")
    return found[:count], status


def judge_lines(judge: str, sources: Sequence[bytes]) -> tuple[list[Judged], int]:
    """The rows of scenarios, as far as the program came, and its status."""
    return _ask(judge, [], b"".join(map(line_of, sources)), len(sources))


def judge_drawn(judge: str, options: Options, first: int, count: int) -> tuple[list[Judged], int]:
    """The rows of scenarios that the program draws, as far as it came, and its status."""
    words = ["draw", str(options.seed), str(first), str(count)]
    return _ask(judge, words, options_line(options), count)


def _ordered(value: Any) -> Any:
    """A value with its keys in order, without those that say what holds without them."""
    if isinstance(value, list):
        return [_ordered(it) for it in value]
    if not isinstance(value, dict):
        return value
    return {key: _ordered(value[key]) for key in sorted(value, key=_place) if DEFAULTS.get(key) != value[key]}


def _place(key: str) -> int:
    return KEYS.index(key) if key in KEYS else len(KEYS)


def shown(judge: str, options: Options, index: int) -> Json:
    """A scenario that the program draws."""
    out, status = _call(judge, ["show", str(options.seed), str(index)], options_line(options))
    try:
        return dict(_ordered(json.loads(out if status == 0 else b"")))
    except (ValueError, TypeError):
        raise WordsError(f"the program judge shows no scenario: {ended(status)}") from None
