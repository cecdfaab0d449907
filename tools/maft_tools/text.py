"""Reads the texts of `maft replay`, `check` and `node I` into plain records."""
from __future__ import annotations

import dataclasses
import functools
import re
from collections.abc import Iterable

from .json_text import printable
from .plan import WordsError

Row = tuple[int, ...]
MOST_NODES = 16
CLASSES = {"N": "nonfaulty", "J": "joining", "B": "benign", "S": "symmetric", "A": "asymmetric", "-": "of no class"}


@dataclasses.dataclass
class Node:
    """What one node believes in a period. A cold node has no more than its number and class."""

    id: int
    letter: str
    mode: str
    members: list[int] = dataclasses.field(default_factory=list)
    counts: list[int] = dataclasses.field(default_factory=list)
    streaks: list[int] = dataclasses.field(default_factory=list)
    run: list[int | None] = dataclasses.field(default_factory=list)
    left: list[int] = dataclasses.field(default_factory=list)
    done: dict[int, int | str | None] = dataclasses.field(default_factory=dict)
    rows: dict[int, Row | None] = dataclasses.field(default_factory=dict)
    votes: dict[int, int | None] = dataclasses.field(default_factory=dict)

    @property
    def is_sound(self) -> bool:
        return self.letter in "NJ"

    @property
    def is_cold(self) -> bool:
        return self.mode == "cold"

    def charged(self, count: int) -> dict[int, int]:
        """Which of `count` nodes the settled rows charge with which kinds, as a mask.

        A kind is charged where more than half of the settled rows of the others that are no error have it.
        """
        out: dict[int, int] = {}
        plain = {teller: row for teller, row in self.rows.items() if row is not None}
        if not any(any(row) for row in plain.values()):
            return out
        for node in range(count):
            voters = [row[node] for teller, row in plain.items() if teller != node and node < len(row)]
            mask, named = 0, functools.reduce(int.__or__, voters, 0)
            for bit in range(named.bit_length()):
                if 2 * sum(it >> bit & 1 for it in voters) > len(voters):
                    mask |= 1 << bit
            if mask:
                out[node] = mask
        return out


@dataclasses.dataclass
class Period:
    """One period: its line, its nodes, and the clock line where there is one. A log's period has no line of members."""

    number: int
    members: list[int] = dataclasses.field(default_factory=list)
    n: int = 0
    a: int = 0
    s: int = 0
    b: int = 0
    budget: bool | None = None
    claim: bool | None = None
    nodes: list[Node] = dataclasses.field(default_factory=list)
    skew: int | None = None
    offsets: list[int] = dataclasses.field(default_factory=list)

    @property
    def reference(self) -> Node | None:
        """The least nonfaulty node; of a log, the one node."""
        for node in self.nodes:
            if node.letter in "N-" and not node.is_cold:
                return node
        return None


@dataclasses.dataclass
class Text:
    """A whole text. `slots` is how many slots a trace's frames show, else 0; `command` what wrote it."""

    periods: list[Period]
    command: str
    slots: int = 0


_NUMBER = "[0-9]{1,18}"
_SIGNED = f"-?{_NUMBER}"
_LIST = f"{_NUMBER}(?:,{_NUMBER})*"
_SET = f"-|{_LIST}"
_PERIOD = re.compile(
    f"period ({_NUMBER})(?: members ({_SET}) n ({_NUMBER}) a ({_NUMBER}) s ({_NUMBER}) b ({_NUMBER}) budget (yes|no) "
    "claim (yes|no))?")
_ID = re.compile("[0-9]{1,2}")
_NODE = re.compile(
    f"node ({_NUMBER}) ([NJBSA-]) (full|joining) members ({_SET}) counts ({_LIST}) streaks ({_LIST})"
    f" run ((?:-|{_NUMBER})(?:,(?:-|{_NUMBER}))*)(?: left ({_LIST}))?")
_CLOCK = re.compile(f"clock skew (-|{_NUMBER}) offsets ({_SIGNED}(?:,{_SIGNED})*)")
_FRAME = re.compile(f"frame ({_NUMBER}) ({_NUMBER}) ({_NUMBER}) ({_NUMBER}) ({_NUMBER}) (-|[0-9a-f]+)")
_END = re.compile(f"end ({_NUMBER})")
_REFUSED = re.compile(f"refused {_NUMBER} {_NUMBER}")
# the lines behind a node's first one, in their order
_MORE = {
    "done": re.compile(f"  done (-|{_NUMBER}=(?:{_NUMBER}|-|E)(?: {_NUMBER}=(?:{_NUMBER}|-|E))*)"),
    "rows": re.compile(f"  rows (-|{_NUMBER}=(?:{_LIST}|E)(?: {_NUMBER}=(?:{_LIST}|E))*)"),
    "votes": re.compile(f"  votes (-|{_NUMBER}=(?:{_SIGNED}|-)(?: {_NUMBER}=(?:{_SIGNED}|-))*)"),
}


def numbers(word: str) -> list[int]:
    """A list of numbers; `-` is the empty one."""
    return [] if word == "-" else [int(it) for it in word.split(",")]


def _cells(text: str) -> list[tuple[int, str]]:
    """The cells `number=word` of a line."""
    if text == "-":
        return []
    return [(int(key), value) for key, _, value in (it.partition("=") for it in text.split(" "))]


def _claim(word: str) -> int | str | None:
    if word in ("-", "E"):
        return None if word == "-" else "E"
    return int(word)


@functools.lru_cache(maxsize=4096)
def _votes(line: str) -> dict[int, int | None] | None:
    """The votes of a line, which many nodes have alike; None where it is no such line."""
    found = _MORE["votes"].fullmatch(line)
    if found is None:
        return None
    return {key: None if value == "-" else int(value) for key, value in _cells(found.group(1))}


class _Reader:
    """Reads a text line by line. What isn't as the program prints it is refused, with the line."""

    def __init__(self, reference_only: bool, is_part: bool = False) -> None:
        self.reference_only, self.is_part = reference_only, is_part
        self.periods: list[Period] = []
        # how many nodes the lists are of, and the nodes that each period must tell of, once they are known
        self.count = 0
        self.told: list[int] | None = None
        # of the period that is read: its nodes, the node whose lines come, and which lines these are
        self.ids: list[int] = []
        self.node: Node | None = None
        self.due: list[str] = []
        self.slots = self.clocks = self.at = 0
        self.is_over = self.is_whole = self.has_reference = False

    def fail(self, why: str) -> WordsError:
        """The error at this line."""
        return WordsError(f"line {self.at}: {why}")

    def strange(self, line: str) -> WordsError:
        """The error where a line isn't the program's."""
        return WordsError(f"line {self.at} isn't one that maft prints: '{printable(line, 80)}'")

    def read(self, line: str) -> None:
        """Reads one line."""
        self.at += 1
        if self.is_over:
            if line:
                raise self.fail("there is more behind the end line")
            return
        word = line.split(" ", 1)[0]
        if self.due or not word:
            self.read_more(line)
        elif word in ("period", "node", "clock", "frame", "end"):
            getattr(self, f"read_{word}")(line)
        elif _REFUSED.fullmatch(line):
            raise WordsError(f"the scenario was refused: {line}; tools/check says of a scenario in words why")
        elif word == "storm":
            raise WordsError("this is a storm's summary already")
        else:
            raise self.strange(line)

    def period(self, line: str) -> Period:
        """The period whose line came last."""
        if not self.periods:
            raise self.strange(line) if self.at > 1 else self.fail("the text must begin with a period's line")
        return self.periods[-1]

    def read_period(self, line: str) -> None:
        found = _PERIOD.fullmatch(line)
        if found is None:
            raise self.strange(line)
        number, members, n, a, s, b, budget, claim = found.groups()
        if int(number) != len(self.periods) and not self.is_part:
            raise self.fail(f"period {int(number)} comes where period {len(self.periods)} should")
        self.close()
        period = Period(int(number))
        if members is not None:
            period = Period(int(number), numbers(members), int(n), int(a), int(s), int(b), budget == "yes",
                            claim == "yes")
            self.check_period(period)
        if self.periods and (period.budget is None) != (self.periods[0].budget is None):
            raise self.fail("one node's log and a cluster's text are mixed")
        self.periods.append(period)

    def check_period(self, period: Period) -> None:
        """What the numbers of a period's line have to do with each other."""
        self.check_nodes(period.members)
        if period.n != len(period.members) or period.a + period.s + period.b > period.n:
            raise self.fail("n, a, s and b don't count these members")
        before = not self.periods or self.periods[-1].claim is True
        if period.claim != (period.budget is True and before) and (period.claim or not self.is_part):
            raise self.fail("a period is claimed where its budget and those before it are kept, and this one says "
                            "otherwise")

    def check_nodes(self, nodes: list[int]) -> None:
        """Numbers of nodes, in ascending order."""
        most = self.count or MOST_NODES
        if any(it >= most for it in nodes) or any(a >= b for a, b in zip(nodes, nodes[1:])):
            raise self.fail(f"nodes are numbered from 0 to {most - 1}, each once and in ascending order")

    def check_length(self, *lists: list) -> None:  # type: ignore[type-arg]
        """Lists of a number for each node are all of one length."""
        for it in lists:
            if not self.count:
                if len(it) > MOST_NODES:
                    raise self.fail(f"there are at most {MOST_NODES} nodes")
                self.count = len(it)
            if len(it) != self.count:
                raise self.fail(f"a list has {len(it)} entries, of {self.count} nodes")

    def read_node(self, line: str) -> None:
        period = self.period(line)
        words = line.split(" ", 4)
        if len(words) < 4 or not _ID.fullmatch(words[1]) or words[2] not in CLASSES:
            raise self.strange(line)
        self.node = Node(int(words[1]), words[2], words[3])
        self.due, self.is_whole = [], True
        if words[3:] != ["cold"]:
            self.due = ["done", "rows", "votes"]
            self.is_whole = not self.reference_only or words[2] in "N-" and not self.has_reference
            self.has_reference = self.has_reference or words[2] in "N-"
        if self.due and self.is_whole:
            self.node = self.full_node(line)
        if (words[2] == "-") != (period.budget is None):
            raise self.fail("a node of a cluster's text has a class, and one of a log has none")
        self.ids.append(self.node.id)
        self.check_nodes(self.ids)
        period.nodes.append(self.node)

    def full_node(self, line: str) -> Node:
        """A node that has a state, by its first line."""
        found = _NODE.fullmatch(line)
        if found is None:
            raise self.strange(line)
        number, letter, mode, members, counts, streaks, run, left = found.groups()
        tasks = [None if it == "-" else int(it) for it in run.split(",")]
        node = Node(int(number), letter, mode, numbers(members), numbers(counts), numbers(streaks), tasks,
                    numbers(left or "-"))
        self.check_length(node.counts, node.streaks, node.run)
        if left:
            self.check_length(node.left)
        self.check_nodes(node.members)
        return node

    def read_more(self, line: str) -> None:
        """A line of claims, rows or votes."""
        if not self.due or self.node is None:
            raise self.strange(line)
        kind = self.due.pop(0)
        if kind == "votes" and (self.is_whole or self.node.is_sound):
            votes = _votes(line)
            if votes is None:
                raise self.fail(f"the line 'votes' of node {self.node.id} should come here")
            self.node.votes = votes
        elif self.is_whole:
            found = _MORE[kind].fullmatch(line)
            if found is None:
                raise self.fail(f"the line '{kind}' of node {self.node.id} should come here")
            self.take_cells(self.node, kind, _cells(found.group(1)))

    def take_cells(self, node: Node, kind: str, cells: list[tuple[int, str]]) -> None:
        """The claims or the rows of a node, of each member one."""
        self.check_nodes([key for key, _ in cells])
        if kind == "done":
            node.done = {key: _claim(value) for key, value in cells}
        else:
            node.rows = {key: None if value == "E" else tuple(numbers(value)) for key, value in cells}
            self.check_length(*(list(it) for it in node.rows.values() if it is not None))

    def read_clock(self, line: str) -> None:
        found, period = _CLOCK.fullmatch(line), self.period(line)
        if found is None or period.offsets:
            raise self.strange(line)
        period.skew = None if found.group(1) == "-" else int(found.group(1))
        period.offsets = numbers(found.group(2))
        self.check_length(period.offsets)
        self.clocks += 1

    def read_frame(self, line: str) -> None:
        found = _FRAME.fullmatch(line)
        if found is None or int(found.group(1)) != self.period(line).number:
            raise self.strange(line)
        self.slots = max(self.slots, int(found.group(2)) + 1)

    def read_end(self, line: str) -> None:
        found = _END.fullmatch(line)
        if found is None:
            raise self.strange(line)
        if int(found.group(1)) != len(self.periods) or not self.periods:
            raise self.fail(f"the text has {len(self.periods)} periods, and says '{printable(line, 30)}': "
                            "it is cut short")
        self.close()
        if self.clocks not in (0, len(self.periods)):
            raise self.fail("the line of clocks is missing in some periods")
        self.is_over = True

    def close(self) -> None:
        """The period is over: each tells of the same nodes, a cluster's of all."""
        if not self.periods:
            return
        if self.told is None:
            self.told = self.ids
            is_log = self.periods[0].budget is None
            if (is_log and len(self.ids) != 1 or not is_log and self.ids
                    and self.ids != list(range(self.count or len(self.ids)))):
                raise self.fail("the lines of a node are missing before this one")
        if self.ids != self.told:
            raise self.fail("the lines of a node are missing before this one, or too many")
        self.ids, self.node, self.has_reference = [], None, False


def read_part(lines: Iterable[str]) -> Period:
    """Reads the lines of one period, wherever in its text it stands; raises WordsError as `read` does."""
    reader = _Reader(False, is_part=True)
    for line in lines:
        reader.read(line.rstrip("\r\n"))
    reader.read("end 1")
    return reader.periods[0]


def read(lines: Iterable[str], reference_only: bool = False) -> Text:
    """Reads a text. With `reference_only`, which is quicker, no more of each period than its line, the whole of its
    least nonfaulty node, and of the others their class and the votes of the sound ones.

    Raises WordsError where the text isn't one of the program's, or is cut short.
    """
    reader = _Reader(reference_only)
    for line in lines:
        if not reader.at:
            line = line[1:] if line.startswith("\ufeff") else line
        reader.read(line.rstrip("\r\n"))
    if not reader.is_over:
        raise WordsError(f"the text is cut short: its end line is missing after line {reader.at}")
    command = "check"
    if reader.told:
        command = "node" if reader.periods[0].budget is None else "replay"
    return Text(reader.periods, command, reader.slots)
