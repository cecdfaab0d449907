"""Says in words what a node was delivered in a period, what it expected, and what it makes of it.

`Teller` goes through the slices of a trace or a log (module `trace`) and gives the lines. Frames are read by the rules
of the formats, and items are settled by those of the protocol; what comes out is compared with what the program
printed, and where they differ, that is said.
"""
from __future__ import annotations

import dataclasses
from collections.abc import Iterable, Iterator

from . import plan, text
from .frames import NO_CLAIM, Cold, Content, Expectation, Malformed, Sizes, State
from .frames import fault, masks, paths, read, row_of, shown_path
from .hearing import Heard
from .plan import Json, WordsError, kind_names
from .trace import Arrived, Slice

WINDOW = range(plan.FIRST_IN_TIME, plan.LAST_IN_TIME + 1)
MISSING, MALFORMED, TIMING, COLD, STATE = range(5)
EQUIVOCATE = 8
# the kinds that a node notes by its frames alone
FROM_FRAMES = (MISSING, MALFORMED, TIMING, COLD, STATE, EQUIVOCATE)
APART = "the text says otherwise, so frames and text don't belong together"
SLOT_NAMES = {1: "states", 2: "claims", 3: "relays of claims", 4: "values", 5: "accusations",
              6: "relays of accusations"}


@dataclasses.dataclass
class Asked:
    """Which part of each period is told: slots and senders, None for all; and at most how many entries of a frame."""

    slots: set[int] | None = None
    senders: set[int] | None = None
    most: int = 6


@dataclasses.dataclass
class Got:
    """What a node has of one frame: its finding, a kind of error or None for good; what it says; why it is bad."""

    finding: int | None
    content: Content | None
    why: str = ""


def listed(items: Iterable[object]) -> str:
    """`1`, `1 and 2`, or `1, 2 and 3`."""
    words = [str(it) for it in items]
    return words[0] if len(words) == 1 else f"{', '.join(words[:-1])} and {words[-1]}" if words else "none"


def spanned(nodes: Iterable[int]) -> str:
    """The same of ascending numbers, where four or more in a row are a span: `0, 2 to 5 and 7`."""
    spans: list[list[int]] = []
    for it in nodes:
        if spans and spans[-1][-1] == it - 1:
            spans[-1].append(it)
        else:
            spans.append([it])
    return listed(it for span in spans for it in (span if len(span) < 4 else [f"{span[0]} to {span[-1]}"]))


def nodes_in_words(nodes: Iterable[int]) -> str:
    """`node 1`, or `nodes 1 and 2`."""
    there = list(nodes)
    return f"node{'' if len(there) == 1 else 's'} {spanned(there)}"


def row_in_words(row: int, nodes: int) -> str:
    """Whom a row accuses of what."""
    said = [f"node {at} of {' and '.join(kind_names(mask))}" for at, mask in enumerate(masks(row, nodes)) if mask]
    return "accuses " + (", ".join(said) if said else "nobody")


def claim_in_words(claim: int) -> str:
    """What a node claims."""
    return "claims nothing" if claim == NO_CLAIM else f"claims task {claim}"


def value_in_words(value: int, is_claim: bool, nodes: int) -> str:
    """A value of an item: plain, or an error that was wrapped."""
    if value >= 0:
        return claim_in_words(value) if is_claim else row_in_words(value, nodes)
    return ("nothing came" if value == fault(0)
            else f"an error, wrapped {'once' if value == fault(1) else f'{-1 - value} times'}")


def finding_of(arrived: Arrived | None, want: Expectation) -> Got:
    """What a receiver finds of a frame: the first of missing, malformed, timing and cold that holds, or good."""
    if not arrived:
        return Got(MISSING, None, "nothing came")
    if len(arrived) > 1:
        return Got(MALFORMED, None, f"it came {len(arrived)} times")
    tick, data = arrived[0]
    if tick not in WINDOW:
        return Got(TIMING, None, f"it came at tick {tick}, and the window is from 10 to 20")
    try:
        content = read(bytes.fromhex(data.decode()), want)
    except Malformed as error:
        return Got(MALFORMED, None, str(error))
    return (Got(COLD, content, "it says that it has no agreed state") if isinstance(content, Cold)
            else Got(None, content))


def sizes_of(scenario: Json) -> Sizes:
    """The sizes that a scenario tells."""
    return Sizes(scenario.get("version", 1), scenario["nodes"], scenario["m"], len(scenario.get("tasks", [])))


def sizes_in(it: Slice) -> Sizes:
    """The sizes that a traced period shows by itself: its last slot, its nodes, a State frame's version and length."""
    nodes = max(len(node.counts) for node in it.period.nodes) if it.period.nodes else 0
    states = [data for (slot, _, _), arrived in it.frames.items() if slot == 0 for _, data in arrived
              if data[:4] == b"4d46" and data[6:8] == b"01"]
    if not nodes or not states or it.slots < 4 or it.slots % 2:
        raise WordsError("the text doesn't tell how many nodes, slots and tasks there are; give the scenario with "
                         "--scenario")
    body = bytes.fromhex(max(states, key=states.count).decode())
    version, rest = body[2], len(body) - plan.HEADER - 2 - 4 * nodes
    tasks = (rest - (2 * nodes if version == 2 else 0)) // (2 * nodes)
    return Sizes(version, nodes, (it.slots - 4) // 2, tasks)


class Teller:
    """Goes through the periods in order and tells of each node asked for. `scenario` is {} where it isn't known."""

    def __init__(self, scenario: Json, asked: Asked) -> None:
        self.scenario, self.asked = scenario, asked
        self.sizes: Sizes | None = sizes_of(scenario) if scenario else None
        self.before: dict[int, text.Node] = {}
        self.carried: dict[int, dict[int, dict[int, list[str]]]] = {}
        self.read: dict[tuple[int, int, bytes, tuple[int, ...], int], Got] = {}

    def tell(self, it: Slice, nodes: Iterable[int], is_told: bool) -> Iterator[str]:
        """The lines of a period; where it isn't told, what the next one needs is kept."""
        if self.sizes is None and it.frames:
            self.sizes = sizes_in(it)
        self.read.clear()
        records = {record.id: record for record in it.period.nodes}
        for node in nodes if it.frames or is_told else ():
            record = records.get(node)
            if record is None or self.sizes is None:
                raise WordsError(f"period {it.period.number} has no lines of node {node}, or no frames to it; is it a "
                                 "trace, or its own log?")
            if record.counts and len(record.counts) != self.sizes.nodes:
                raise WordsError(f"the text is of {len(record.counts)} nodes, and the scenario of {self.sizes.nodes}")
            story = Story(self, it, record)
            if is_told:
                yield from story.lines()
            self.carried[node] = story.carries()
        self.before = records


class Story:
    """What one node hears in one period."""

    def __init__(self, teller: Teller, it: Slice, record: text.Node) -> None:
        assert teller.sizes is not None
        self.teller, self.it, self.record, self.sizes = teller, it, record, teller.sizes
        self.node, self.number = record.id, it.period.number
        self.others = [at for at in range(self.sizes.nodes) if at != self.node]
        self.got: dict[tuple[int, int], Got] = {}
        self.members: tuple[int, ...] = ()
        for other in self.others:
            self.got[0, other] = self._get(0, other)
        self.state = self._own_state()
        self.members = self.state.members if self.state else ()
        if not record.is_cold:
            for slot in range(1, plan.slots(self.sizes.m)):
                for other in self.others:
                    self.got[slot, other] = self._get(slot, other)
        self.claims = self._hear(1, 2, self._own_claim())
        self.rows = self._hear(plan.report_slot(self.sizes.m), plan.report_slot(self.sizes.m) + 1, self._own_row())

    # ---- what arrived

    def _get(self, slot: int, sender: int) -> Got:
        arrived = self.it.frames.get((slot, sender, self.node))
        due = len(self.record.votes)
        want = Expectation(self.sizes, self.number, slot, sender, self.members, due)
        if not arrived or len(arrived) > 1 or arrived[0][0] not in WINDOW:
            return finding_of(arrived, want)
        key = (slot, sender, arrived[0][1], self.members, due)
        if key not in self.teller.read:
            self.teller.read[key] = finding_of(arrived, want)
        return self.teller.read[key]

    def _bodies(self) -> dict[State, list[int]]:
        """Who says which state."""
        found: dict[State, list[int]] = {}
        for other in self.others:
            content = self.got[0, other].content
            if isinstance(content, State):
                found.setdefault(content, []).append(other)
        return found

    def _own_state(self) -> State | None:
        """The state that the node goes through the period with.

        Its copies are those that a frame of an equal state has, if there is one.
        """
        bodies = sorted(self._bodies().items(), key=lambda it: -len(it[1]))
        if self.record.is_cold:
            return None
        if self.record.mode == "joining":
            return bodies[0][0] if bodies else None
        before = self.teller.before.get(self.node)
        if before is None or before.is_cold:
            if self.number:
                raise WordsError(f"the text tells nothing of node {self.node} before period {self.number}")
            every = self.sizes.nodes
            before = text.Node(self.node, "-", "full", list(range(every)), [0] * every, [0] * every, left=[0] * every)
        left = tuple(before.left) if self.sizes.version == 2 else ()
        row = self.record.rows.get(self.node)
        for state, sayers in bodies:
            held = (tuple(before.members), tuple(before.counts), tuple(before.streaks))
            same = (state.members, state.counts, state.streaks) == held
            is_own = row is None or not any(row[it] >> STATE & 1 for it in sayers)
            if same and (state.left == left or not before.left) and is_own:
                return state
        return State(tuple(before.members), tuple(before.counts), tuple(before.streaks), left, ())

    def _own_claim(self) -> int | None:
        claim = self.record.done.get(self.node)
        return NO_CLAIM if claim is None else claim if isinstance(claim, int) else None

    def _own_row(self) -> int | None:
        row = self.record.rows.get(self.node)
        return None if row is None else row_of(list(row))

    def _hear(self, first: int, relays: int, own: int | None) -> Heard:
        """The items that are said in one slot and relayed in the next ones."""
        heard = Heard(self.node, self.members, self.sizes.m, self.record.mode == "full", own)
        if self.record.is_cold:
            return heard
        for length, slot in enumerate((first, *range(relays, relays + self.sizes.m))):
            for other in self.others:
                got = self.got[slot, other]
                content = (got.content,) if isinstance(got.content, int) else got.content
                heard.take(other, length, content if got.finding is None and isinstance(content, tuple) else None)
        return heard

    def carries(self) -> dict[int, dict[int, list[str]]]:
        """What the node carries into its next row: of each node the kinds, and for each the reasons."""
        found: dict[int, dict[int, list[str]]] = {}
        if self.record.is_cold:
            return found
        for slot in range(plan.report_slot(self.sizes.m), plan.slots(self.sizes.m)):
            for other in self.others:
                finding = self.got[slot, other].finding
                if finding is not None:
                    found.setdefault(other, {}).setdefault(finding, []).append(f"slot {slot} of period {self.number}")
        self._convicts(self.rows, found, f"over its row of period {self.number}")
        return found

    def _convicts(self, heard: Heard, found: dict[int, dict[int, list[str]]], over: str) -> None:
        for other in self.others:
            conviction = heard.conviction(other) if self.sizes.version == 2 else None
            if conviction:
                found.setdefault(other, {}).setdefault(EQUIVOCATE, []).append(over)

    # ---- the lines

    def lines(self) -> Iterator[str]:
        """All lines of the node in this period, as far as they are asked for."""
        letter = text.CLASSES.get(self.record.letter, "")
        mode = "cold" if self.record.is_cold else self.record.mode
        kind = f"{letter}, {mode}" if self.record.letter != "-" else mode
        members = "" if self.record.is_cold else f"; members {spanned(self.members)}"
        yield f"period {self.number}, node {self.node} ({kind}{members})"
        for slot in range(plan.slots(self.sizes.m)):
            if self.asked(slot):
                yield from self._slot_lines(slot)
        if self.teller.asked.slots is None and not self.record.is_cold:
            yield from self._notes()
            yield from self._settlings(self.claims, True)
            yield from self._settlings(self.rows, False)
            yield from self._convictions()
            yield from self._charges()
            yield from self._after()

    def asked(self, slot: int) -> bool:
        """Whether a slot is told; a cold node hears nothing behind slot 0."""
        slots = self.teller.asked.slots
        return (slots is None or slot in slots) and (slot == 0 or not self.record.is_cold)

    def _slot_lines(self, slot: int) -> Iterator[str]:
        name = SLOT_NAMES[self.sizes.kind_of(slot)]
        length = self.sizes.round_of(slot)
        by_words: dict[str, list[int]] = {}
        for other in self.others:
            if self.teller.asked.senders is None or other in self.teller.asked.senders:
                by_words.setdefault(self._frame_words(slot, other), []).append(other)
        if by_words:
            yield f"  slot {slot}, {name}" + (f", round {length}" if length else "")
        for words, senders in by_words.items():
            first, *more = words.split("\n")
            yield f"    from {spanned(senders)}: {first}"
            yield from (f"      {it}" for it in more)

    def _frame_words(self, slot: int, other: int) -> str:
        """A frame in words, with its finding; further lines are what differs."""
        got = self.got[slot, other]
        if got.finding is not None:
            return f"{got.why}: {plan.KINDS[got.finding]}"
        if isinstance(got.content, State):
            return self._state_words(got.content)
        kind = self.sizes.kind_of(slot)
        if kind == 2:
            assert isinstance(got.content, int)
            return claim_in_words(got.content)
        if kind == 5:
            assert isinstance(got.content, int)
            return row_in_words(got.content, self.sizes.nodes)
        assert isinstance(got.content, tuple)
        if kind == 4:
            return self._values_words(got.content)
        return self._relay_words(self.claims if kind == 3 else self.rows, other, self.sizes.round_of(slot), kind == 3)

    def _state_words(self, state: State) -> str:
        if self.state is None:
            return f"members {spanned(state.members)}, counts {', '.join(map(str, state.counts))}"
        if state == self.state:
            return "the state that the node holds" if self.record.mode == "full" else "the state that the node adopts"
        said = []
        if state.members != self.state.members:
            said.append(f"members {spanned(state.members)}, where the node has {spanned(self.state.members)}")
        for name in ("counts", "streaks", "left"):
            theirs, own = getattr(state, name), getattr(self.state, name)
            said += [f"{name} of node {at} {a}, where the node has {b}" for at, (a, b) in enumerate(zip(theirs, own))
                     if a != b]
        for task, (theirs, own) in enumerate(zip(state.copies, self.state.copies)):
            said += [f"task {task} on node {at} {_copy(a)}, where the node has {_copy(b)}"
                     for at, (a, b) in enumerate(zip(theirs, own)) if a != b]
        if not self.state.copies and self.sizes.tasks:
            said.append("and which copies the node has isn't known")
        return f"another state: {'; '.join(said) or 'of other copies of tasks'}: state"

    def _values_words(self, values: tuple[int, ...]) -> str:
        channels = self.teller.scenario.get("channels", [])
        said, is_off = [], False
        for (channel, vote), value in zip(sorted(self.record.votes.items()), values):
            words = f"channel {channel} is {value}"
            part = channels[channel] if channel < len(channels) else None
            if part and vote is not None and part["kind"] != "copy" and abs(value - vote) > part["delta"]:
                words += f", {abs(value - vote)} from the vote {vote} and more than delta, which is {part['delta']}"
                is_off = True
            said.append(words)
        return (", ".join(said) or "no value is due") + (": deviate" if is_off else "")

    def _relay_words(self, heard: Heard, other: int, length: int, is_claim: bool) -> str:
        count = len(paths(self.members, other, length))
        if not count:
            return "no entries, as of one that is no member"
        entries = f"{count} entr{'y' if count == 1 else 'ies'}"
        differing = heard.differing(other, length)
        if not differing:
            return f"{entries}, each as the path's last node said here"
        lines = [f"{entries}, of which {len(differing)} differ{'s' if len(differing) == 1 else ''} from what the "
                 "path's last node said here"]
        groups: dict[tuple[int, int, int], list[tuple[int, ...]]] = {}
        for path, entry, here in differing:
            groups.setdefault((path[-1], entry, here), []).append(path)
        rarest = sorted(groups.items(), key=lambda it: len(it[1]))
        lines += [self._entry_words(group, of, is_claim) for group, of in rarest[: self.teller.asked.most]]
        if len(groups) > self.teller.asked.most:
            lines.append(f"and {sum(len(of) for _, of in rarest[self.teller.asked.most:])} more")
        return "\n".join(lines)

    def _entry_words(self, group: tuple[int, int, int], of: list[tuple[int, ...]], is_claim: bool) -> str:
        """Entries in which a node tells the same of the same last node, who said something else here."""
        last, entry, here = group
        where = (f"path {shown_path(of[0])}" if len(of) == 1
                 else f"{len(of)} paths that end with {last}, the first {shown_path(of[0])}")
        words = [value_in_words(it, is_claim, self.sizes.nodes) for it in (entry, here)]
        if here == fault(1) and last != self.node:
            return f"{where}: {words[0]}; here nothing came of node {last}, or an error"
        return f"{where}: {words[0]}; {'this node' if last == self.node else f'node {last}'} said here: {words[1]}"

    # ---- what the node makes of them

    def noted(self) -> dict[int, dict[int, list[str]]]:
        """Of each node the kinds that this one notes by its frames, and for each the reasons."""
        found: dict[int, dict[int, list[str]]] = {}
        for slot in range(plan.report_slot(self.sizes.m)):
            for other in self.others:
                finding = self.got[slot, other].finding
                if finding is not None:
                    found.setdefault(other, {}).setdefault(finding, []).append(f"slot {slot}")
        for other, kinds in self.teller.carried.get(self.node, {}).items():
            for kind, reasons in kinds.items():
                found.setdefault(other, {}).setdefault(kind, []).extend(reasons)
        self._convicts(self.claims, found, "over its claim")
        return found

    def _notes(self) -> Iterator[str]:
        """What the node's own row says, and by what."""
        noted = self.noted() if self.record.mode == "full" else {}
        row = self.record.rows.get(self.node)
        for other in self.others:
            reasons = noted.get(other, {})
            mask = row[other] if row is not None else sum(1 << it for it in reasons)
            words = [f"{plan.KINDS[bit]}{' (' + ', '.join(reasons[bit]) + ')' if bit in reasons else ''}"
                     for bit in range(len(plan.KINDS)) if mask >> bit & 1]
            if words:
                yield f"  it accuses node {other} of {', '.join(words)}"
            by_frames = {*reasons, *(() if row is None else self._seen(other))}
            wrong = ([plan.KINDS[it] for it in FROM_FRAMES if (it in by_frames) != bool(mask >> it & 1)]
                     if self.record.mode == "full" else [])
            if wrong:
                would = "would" if wrong[0] in map(plan.KINDS.__getitem__, by_frames) else "would not"
                yield f"  by its frames it {would} accuse node {other} of {wrong[0]}: {APART}"

    def _seen(self, other: int) -> list[int]:
        """The kind state, where the other's frame in slot 0 says another state than this node's own."""
        content = self.got[0, other].content
        return [STATE] if isinstance(content, State) and content != self.state else []

    def _settlings(self, heard: Heard, is_claim: bool) -> Iterator[str]:
        """The items that settle otherwise than their node said here, or as an error."""
        what = "claim" if is_claim else "row"
        for other in self.members:
            if other == self.node:
                continue
            here, settled = heard.told.get((other,), fault(0)), heard.settled((other,))
            if settled != here or settled < 0:
                end = ("as an error" if settled < 0
                       else f"otherwise than it was said here: {value_in_words(settled, is_claim, self.sizes.nodes)}")
                yield f"  the {what} of node {other} settles {end}"
                yield from self._places(heard, (other,), is_claim, "    ")
            if (self._printed(other, is_claim) != settled
                    and not (settled < 0 and self._printed(other, is_claim) is None)):
                yield f"  the text has another {what} of node {other} than the frames come to: {APART}"

    def _printed(self, other: int, is_claim: bool) -> int | None:
        """The settled item that the text has, None for an error."""
        if is_claim:
            claim = self.record.done.get(other)
            return NO_CLAIM if claim is None else claim if isinstance(claim, int) else None
        row = self.record.rows.get(other)
        return None if row is None else row_of(list(row))

    def _places(self, heard: Heard, path: tuple[int, ...], is_claim: bool, margin: str) -> Iterator[str]:
        """The values at the places of a majority.

        Of each place that settles otherwise than its node said, its own places follow.
        """
        if len(path) == heard.m + 1:
            yield (f"{margin}node {path[-1]} said here: "
                   f"{value_in_words(heard.told.get(path, fault(0)), is_claim, self.sizes.nodes)}")
            return
        places = heard.places(path)
        there = sum(it != fault(0) for it in places.values())
        by_value: dict[int, list[int]] = {}
        for node, value in places.items():
            by_value.setdefault(value, []).append(node)
        for value, nodes in sorted(by_value.items(), key=lambda it: (it[0] == fault(0), -len(it[1]))):
            count = f"{len(nodes)} of {there} places" if value != fault(0) else "no place"
            yield f"{margin}{count}, by {spanned(nodes)}: {value_in_words(value, is_claim, self.sizes.nodes)}"
        for node in places:
            inner = (*path, node)
            if node != self.node and len(inner) <= heard.m and heard.settled(inner) != heard.told.get(inner, fault(0)):
                yield (f"{margin}what node {node} said of path {shown_path(path)} "
                       "settles otherwise than it was said here")
                yield from self._places(heard, inner, is_claim, margin + "  ")

    def _convictions(self) -> Iterator[str]:
        """Whom the node convicts of telling different things, and by whose relays."""
        if self.sizes.version != 2:
            return
        for heard, over, when in ((self.claims, "claim", ""), (self.rows, "row", ", which stands in its next row")):
            for other in self.others:
                it = heard.conviction(other)
                if it:
                    yield (f"  it convicts node {other} over its {over}{when}: the relays of "
                           f"{nodes_in_words(it.relays)} say otherwise than node {other} said here "
                           f"({len(it.relays)} of {it.voices} voices, and {it.tolerated} are tolerated)")

    def _charges(self) -> Iterator[str]:
        """Which settled rows accuse whom of what, and whether that is a charge."""
        plain = {teller: row for teller, row in self.record.rows.items() if row is not None}
        charged = self.record.charged(self.sizes.nodes)
        for node in range(self.sizes.nodes):
            voters = {teller: row[node] for teller, row in plain.items() if teller != node}
            for bit in range(16):
                accusers = [teller for teller, mask in voters.items() if mask >> bit & 1]
                if accusers:
                    is_charge = charged.get(node, 0) >> bit & 1
                    verdict = "charged" if is_charge else "not charged, as this isn't more than half"
                    rows = f"row{'' if len(accusers) == 1 else 's'} of {spanned(accusers)}"
                    yield (f"  node {node}, {kind_names(1 << bit)[0]}: {verdict}; by the {rows}, "
                           f"{len(accusers)} of {len(voters)}")

    def _after(self) -> Iterator[str]:
        left = [it for it in self.members if it not in self.record.members]
        joined = [it for it in self.record.members if it not in self.members]
        moved = [f"{nodes_in_words(left)} left"] * bool(left) + [f"{nodes_in_words(joined)} joined"] * bool(joined)
        if moved:
            yield (f"  after the period {' and '.join(moved)}: members {spanned(self.record.members)}; counts "
                   f"{', '.join(map(str, self.record.counts))}")


def _copy(value: int) -> str:
    return {0: "idle", 65534: "passed", 65535: "failed"}.get(value, f"in its period {value}")
