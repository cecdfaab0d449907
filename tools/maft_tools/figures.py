"""What the rows of a campaign come to: sums by case and class, tables of them, and what is drawn.

Rows are counted as they come, so a campaign takes no more memory for being long; only a comparison of pairs keeps some
numbers a run.
"""
from __future__ import annotations

import dataclasses
from collections import Counter
from collections.abc import Callable, Sequence

from . import estimates
from .estimates import Estimate
from .plan import Json
from .rows import Illness, Judged, Run
from .sweep import Case
from .tables import shown

CLASS_NAMES = {"B": "benign", "S": "symmetric", "A": "asymmetric"}


@dataclasses.dataclass
class Table:
    """A table of words: a title, the names of the columns, and the rows."""

    title: str
    columns: list[str]
    rows: list[list[str]]


@dataclasses.dataclass
class Outlier:
    """The run that goes furthest in something."""

    what: str
    value: int
    name: str


@dataclasses.dataclass
class ClassTally:
    """The illnesses of one class, the worst that it had. All but `illnesses` counts those of members at the onset
    alone.

    `to_charge` and `to_leave` count by how many periods after the onset they came, of those that were charged, or
    left, while ill; `stays` counts the runs by the sum of the periods in which ill nodes were members, and by how many
    illnesses that are.
    """

    illnesses: int = 0
    members: int = 0
    charged: int = 0
    left: int = 0
    left_later: int = 0
    back: int = 0
    to_charge: Counter[int] = dataclasses.field(default_factory=Counter)
    to_leave: Counter[int] = dataclasses.field(default_factory=Counter)
    stays: Counter[tuple[int, int]] = dataclasses.field(default_factory=Counter)
    longest: int = 0

    def add(self, illnesses: Sequence[Illness]) -> None:
        """Counts those of one run."""
        self.illnesses += len(illnesses)
        members = [it for it in illnesses if it.member]
        self.members += len(members)
        for it in members:
            if it.charged is not None:
                self.charged += 1
                self.to_charge[it.charged - it.onset] += 1
            if it.left is not None and it.left_while_ill:
                self.left += 1
                self.to_leave[it.left - it.onset] += 1
            self.left_later += it.left is not None and not it.left_while_ill
            self.back += it.back_while_ill
            self.longest = max(self.longest, it.periods_a_member)
        if members:
            self.stays[sum(it.periods_a_member for it in members), len(members)] += 1


@dataclasses.dataclass
class Tally:
    """All that is counted of a case. `pairs` has for each run its numbers of PAIRED, where pairs are compared."""

    case: Case
    has_pairs: bool = False
    runs: int = 0
    kept: int = 0
    statuses: Counter[int] = dataclasses.field(default_factory=Counter)
    causes: Counter[str] = dataclasses.field(default_factory=Counter)
    examples: dict[str, str] = dataclasses.field(default_factory=dict)
    false_charges: int = 0
    false_exclusions: int = 0
    margins: Counter[int] = dataclasses.field(default_factory=Counter)
    classes: dict[str, ClassTally] = dataclasses.field(default_factory=dict)
    outliers: dict[str, Outlier] = dataclasses.field(default_factory=dict)
    skews: dict[int, int] = dataclasses.field(default_factory=dict)
    pairs: list[tuple[int, ...] | None] = dataclasses.field(default_factory=list)

    @property
    def good(self) -> int:
        """How many runs were judged."""
        return self.statuses[0]

    def most(self, what: str) -> int | None:
        """The greatest of something, if any run had it."""
        return self.outliers[what].value if what in self.outliers else None

    def _out(self, what: str, value: int | None, name: str) -> None:
        if value is not None and (what not in self.outliers or value > self.outliers[what].value):
            self.outliers[what] = Outlier(what, value, name)

    def add(self, judged: Judged) -> None:
        """Counts a run."""
        run = judged.run
        self.runs += 1
        self.statuses[run.status] += 1
        if run.status:
            self.examples.setdefault(run.words, run.name)
            self.causes[run.words] += 1
        else:
            self._add_run(run)
            self._add_illnesses(run, judged.illnesses)
            for period, skew in enumerate(judged.skews):
                if skew is not None:
                    self.skews[period] = max(skew, self.skews.get(period, 0))
        if self.has_pairs:
            self.pairs.append(paired(judged) if run.status == 0 else None)

    def _add_run(self, run: Run) -> None:
        if run.lost is None:
            self.kept += 1
        else:
            self.causes[cause(run)] += 1
            self.examples.setdefault(cause(run), run.name)
            self._out("earliest lost claim", -run.lost, run.name)
        self.false_charges += run.false_charges or 0
        self.false_exclusions += run.false_exclusions or 0
        if run.margin is not None:
            self.margins[run.margin] += 1
            self._out("least margin", -run.margin, run.name)
        self._out("votes furthest apart", run.spread, run.name)
        self._out("greatest skew", run.skew, run.name)
        self._out("most false charges", run.false_charges or None, run.name)
        self._out("most false exclusions", run.false_exclusions or None, run.name)

    def _add_illnesses(self, run: Run, illnesses: Sequence[Illness]) -> None:
        by: dict[str, list[Illness]] = {}
        for it in illnesses:
            by.setdefault(it.worst, []).append(it)
            if it.member and it.left is not None and it.left_while_ill:
                self._out("longest until it left", it.left - it.onset, run.name)
            if it.member:
                self._out("longest a member while ill", it.periods_a_member, run.name)
        for letter, found in by.items():
            self.classes.setdefault(letter, ClassTally()).add(found)


def cause(run: Run) -> str:
    """Why the claim of a run is lost, by the members of the first period whose budget isn't kept."""
    if not run.n:
        return "no reference node with an agreed state"
    if run.a is not None and run.m is not None and run.a > run.m:
        return "a > m"
    return "n isn't above 2a + 2s + b + m"


# what is compared of pairs, in the order of `paired`
PAIRED = ("claim kept to the end", "least margin", "false exclusions", "members that left while ill",
    "periods a member while ill")


def paired(judged: Judged) -> tuple[int, ...]:
    """The numbers of a run that are compared with those of the same faults under another case."""
    members = [it for it in judged.illnesses if it.member]
    run = judged.run
    return (int(run.lost is None), run.margin or 0, run.false_exclusions or 0, sum(it.left_while_ill for it in members),
            sum(it.periods_a_member for it in members))


def percent(estimate: Estimate | None) -> str:
    """A share in percent, with its interval."""
    if estimate is None:
        return "-"
    return f"{100 * estimate.value:.1f} % ({100 * estimate.low:.1f} to {100 * estimate.high:.1f})"


def number(estimate: Estimate | None, places: int = 0) -> str:
    """A number, with its interval."""
    if estimate is None:
        return "-"
    return f"{estimate.value:.{places}f} ({estimate.low:.{places}f} to {estimate.high:.{places}f})"


def _or(value: int | None, sign: int = 1) -> str:
    return "-" if value is None else str(sign * value)


def case_words(tally: Tally) -> str:
    """What a case is called."""
    return shown(tally.case.words) or "all"


RUN_COLUMNS: list[tuple[str, Callable[[Tally], str]]] = [
    ("case", case_words),
    ("runs", lambda it: str(it.runs)),
    ("not run", lambda it: str(it.runs - it.good)),
    ("claim kept", lambda it: percent(estimates.share(it.kept, it.good))),
    ("margin: least", lambda it: _or(it.most("least margin"), -1)),
    ("median", lambda it: number(estimates.quantile(it.margins, 0.5))),
    ("false charges", lambda it: str(it.false_charges)),
    ("false exclusions", lambda it: str(it.false_exclusions)),
    ("votes at most apart", lambda it: _or(it.most("votes furthest apart"))),
    ("greatest skew", lambda it: _or(it.most("greatest skew"))),
]
CLASS_COLUMNS: list[tuple[str, Callable[[ClassTally], str]]] = [
    ("illnesses", lambda it: str(it.illnesses)),
    ("of members", lambda it: str(it.members)),
    ("charged while ill", lambda it: percent(estimates.share(it.charged, it.members))),
    ("left while ill", lambda it: percent(estimates.share(it.left, it.members))),
    ("left later", lambda it: percent(estimates.share(it.left_later, it.members))),
    ("back while ill", lambda it: percent(estimates.share(it.back, it.members))),
    ("to charge: median", lambda it: number(estimates.quantile(it.to_charge, 0.5))),
    ("to charge: 90 %", lambda it: number(estimates.quantile(it.to_charge, 0.9))),
    ("to charge: most", lambda it: _or(max(it.to_charge, default=None))),
    ("to leaving: median", lambda it: number(estimates.quantile(it.to_leave, 0.5))),
    ("to leaving: 90 %", lambda it: number(estimates.quantile(it.to_leave, 0.9))),
    ("to leaving: most", lambda it: _or(max(it.to_leave, default=None))),
    ("periods a member: mean", lambda it: number(estimates.mean(it.stays), 2)),
    ("periods a member: most", lambda it: str(it.longest)),
]
# of how many cases, and of which columns of illnesses, a terminal has room for all tables
SOME = 6
SHORT = ("case", "class", "of members", "charged while ill", "left while ill", "back while ill",
    "periods a member: mean")


def run_table(tallies: Sequence[Tally]) -> Table:
    """A row for each case."""
    rows = [[column(it) for _, column in RUN_COLUMNS] for it in tallies]
    return Table("Runs", [name for name, _ in RUN_COLUMNS], rows)


def class_table(tallies: Sequence[Tally]) -> Table:
    """A row for each case and class."""
    rows = []
    for tally in tallies:
        for letter, name in CLASS_NAMES.items():
            if letter in tally.classes:
                rows.append([case_words(tally), name, *(column(tally.classes[letter]) for _, column in CLASS_COLUMNS)])
    return Table("Illnesses", ["case", "class", *(name for name, _ in CLASS_COLUMNS)], rows)


def cause_table(tallies: Sequence[Tally]) -> Table:
    """Why claims were lost, and scenarios not run: a row for each case and cause, with an example."""
    rows = [[case_words(it), shown(words), str(count), shown(it.examples[words])] for it in tallies for words,
        count in it.causes.most_common()]
    return Table("Lost claims, and scenarios that weren't run", ["case", "cause", "runs", "as in"], rows)


def outlier_table(tallies: Sequence[Tally]) -> Table:
    """The run of each case that goes furthest in something."""
    negative = ("least margin", "earliest lost claim")
    rows = [[case_words(tally), it.what, str(-it.value if it.what in negative else it.value), shown(it.name)]
            for tally in tallies for it in tally.outliers.values()]
    return Table("Outliers", ["case", "what", "value", "run"], rows)


def pair_table(tallies: Sequence[Tally]) -> Table:
    """How the runs of each case differ from those with the same faults of the first case."""
    rows = []
    for tally in tallies[1:]:
        both = [(a, b) for a, b in zip(tallies[0].pairs, tally.pairs) if a is not None and b is not None]
        cells = []
        for at in range(len(PAIRED)):
            differences = Counter((b[at] - a[at], 1) for a, b in both)
            cells.append(number(estimates.mean(differences), 3))
        rows.append([case_words(tally), str(len(both)), *cells])
    return Table(f"Differences from {case_words(tallies[0])}, of runs with the same faults",
        ["case", "pairs", *PAIRED], rows)


def skew_bound(scenario: Json, periods: int) -> list[int]:
    """How far apart the theorem lets sound clocks be after each of so many claimed periods: half of before, rounded
    up, and twice the error of a reading, and the drift."""
    clock = scenario["clock"]
    apart, bounds = max(clock["start"]) - min(clock["start"]), []
    for _ in range(periods):
        apart = (apart + 1) // 2 + 2 * clock["epsilon"] + clock["drift"]
        bounds.append(apart)
    return bounds


def _class_lines(letter: str, it: ClassTally) -> list[str]:
    value = {name: column(it) for name, column in CLASS_COLUMNS}
    lines = [f"{CLASS_NAMES[letter]}: {it.illnesses} illnesses, {it.members} of members; "
             f"charged while ill {value['charged while ill']}; "
             f"left while ill {value['left while ill']}, later {value['left later']}"]
    for key, what in (("to charge", "first charge"), ("to leaving", "leaving while ill")):
        if value[f"{key}: most"] != "-":
            median, many, most = (value[f"{key}: {it}"] for it in ("median", "90 %", "most"))
            lines.append(f"  periods from onset to {what}: median {median}, 90 % {many}, most {most}")
    if it.members:
        mean = value["periods a member: mean"]
        lines.append(f"  periods a member while ill: mean {mean}, most {it.longest}; back while ill: {it.back}")
    return lines


def words_of(tally: Tally) -> str:
    """What a case comes to, in words."""
    lost, value = tally.good - tally.kept, {name: column(tally) for name, column in RUN_COLUMNS}
    lines = [f"{tally.runs} scenarios: {tally.kept} kept the claim to the end, {lost} lost it, "
             f"{tally.runs - tally.good} not run"]
    if tally.good:
        lines.append(f"  kept by {value['claim kept']}")
    for words, count in tally.causes.most_common():
        lines.append(f"  {shown(words)}: {count}, as in {shown(tally.examples[words])}")
    if tally.good:
        lines.append(f"margin n - (2a + 2s + b + m): least {value['margin: least']}, median {value['median']}")
        lines.append(f"false charges {tally.false_charges}, false exclusions {tally.false_exclusions}; "
                     f"votes of sound nodes at most {value['votes at most apart']} apart")
    if "greatest skew" in tally.outliers:
        name = shown(tally.outliers["greatest skew"].name)
        lines.append(f"greatest clock skew of sound nodes: {value['greatest skew']}, as in {name}")
    for letter in CLASS_NAMES:
        if letter in tally.classes:
            lines += _class_lines(letter, tally.classes[letter])
    return "\n".join(lines) + "\n"


def aligned(table: Table) -> str:
    """A table for a terminal; columns without a value are left out."""
    columns = [at for at in range(len(table.columns)) if any(row[at] != "-" for row in table.rows)]
    lines = [[row[at] for at in columns] for row in [table.columns, *table.rows]]
    widths = [max(len(line[at]) for line in lines) for at in range(len(columns))]
    return "".join("  ".join(text.ljust(width) for text, width in zip(line, widths)).rstrip() + "\n" for line in lines)


def page(tallies: Sequence[Tally], is_paired: bool = False) -> str:
    """What the campaign comes to, for a terminal: of one case all in words, of some tables, of many the first alone."""
    if len(tallies) == 1:
        return words_of(tallies[0])
    whole = class_table(tallies)
    short = [at for at, name in enumerate(whole.columns) if name in SHORT]
    illnesses = Table(whole.title, [whole.columns[at] for at in short],
        [[row[at] for at in short] for row in whole.rows])
    parts = [run_table(tallies)] + ([illnesses, cause_table(tallies)] if len(tallies) <= SOME else [])
    parts += [pair_table(tallies)] if is_paired else []
    return "\n".join(f"{it.title}\n{aligned(it)}" for it in parts if it.rows)
