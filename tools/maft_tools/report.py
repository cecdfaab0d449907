"""The page of a campaign: one HTML file with tables and pictures, which loads nothing and runs no script."""
from __future__ import annotations

from collections.abc import Callable, Sequence
from html import escape

from . import figures, svg
from .charts import LINES, charts
from .figures import Table, Tally

POLICY = "default-src 'none'; style-src 'unsafe-inline'"
STYLE = """body { font: 15px/1.5 sans-serif; color: #222; background: #fff }
body { max-width: 72rem; margin: 2rem auto; padding: 0 1rem }
h1 { font-size: 1.5rem } h2 { font-size: 1.15rem; margin-top: 2.2rem }
code { background: #f3f3f3; padding: 0 .25em; overflow-wrap: anywhere }
.scroll { overflow-x: auto } table { border-collapse: collapse; font-size: .86rem }
th, td { border: 1px solid #ccc; padding: .2em .5em; text-align: right; white-space: nowrap }
th { background: #f3f3f3 } th:first-child, td:first-child { text-align: left }
figure { margin: 1.5rem 0 } svg { max-width: 100%; height: auto } svg .title { font-weight: bold; font-size: 13px }
figcaption { font-size: .86rem }"""
INTERVALS = """Behind a number stands its interval of 95 %. Shares have Wilson's; illnesses are taken one by one there.
The interval of a quantile is between two of the values. That of a mean is bootstrapped over runs (1,000 times, from a
fixed seed), since illnesses of one run depend on each other; so is that of a difference, over pairs of runs. An
illness counts by the worst class that it had, and a time by periods from its onset. What is told of charges, leaving
and staying is of nodes that were members when they fell ill."""
MARGIN = """The margin is the least n - (2a + 2s + b + m) of a run's periods until the claim is lost, over the members;
where a is above m, or nobody is a member, it is at most 0. So it is at least 1 exactly in the runs that keep the
claim."""

# what the captions of the charts name, by the charts' names
OUTLIERS = {"kept": "earliest lost claim", "leaving": "longest until it left", "margin": "least margin",
    "skew": "greatest skew"}

# the address of a run's scenario, by case and name, where there is a file
Link = Callable[[str, str], "str | None"]


def _run_cell(case: str, name: str, link: Link) -> str:
    address = link(case, name)
    return escape(name) if address is None else f'<a href="{escape(address)}">{escape(name)}</a>'


def table(it: Table, link: Link) -> str:
    """A table; the last column of those that name a run leads to its scenario."""
    linked = it.columns[-1] in ("as in", "run")
    head = "".join(f"<th>{escape(name)}</th>" for name in it.columns)
    rows = []
    for cells in it.rows:
        inner = [escape(cell) for cell in cells]
        if linked:
            inner[-1] = _run_cell(cells[0], cells[-1], link)
        rows.append("<tr>" + "".join(f"<td>{cell}</td>" for cell in inner) + "</tr>")
    body = "\n".join(rows)
    return f'<h2>{escape(it.title)}</h2>\n<div class="scroll"><table>\n<tr>{head}</tr>\n{body}\n</table></div>\n'


def _outliers(chart: str, tallies: Sequence[Tally], link: Link) -> str:
    """Which runs go furthest in what a chart shows, case by case."""
    what = OUTLIERS.get(chart.partition("_")[0], "")
    found = [(figures.case_words(it), it.outliers[what].name) for it in tallies if what in it.outliers][:LINES]
    if not found:
        return ""
    return f"{what.capitalize()}: " + ", ".join(f"{escape(case)} in {_run_cell(case, name, link)}" for case,
        name in found)


def page(tallies: Sequence[Tally], command: str, is_paired: bool, link: Link) -> str:
    """The page. `command` is the one that made it."""
    runs = sum(it.runs for it in tallies)
    made = f"<code>{escape(command)}</code>"
    first = [figures.run_table(tallies)] + ([figures.pair_table(tallies)] if is_paired else [])
    last = [figures.class_table(tallies), figures.cause_table(tallies), figures.outlier_table(tallies)]
    parts = [
        "<!DOCTYPE html>", '<html lang="en">', "<head>", '<meta charset="utf-8">',
        f'<meta http-equiv="Content-Security-Policy" content="{POLICY}">', "<title>A campaign</title>",
        f"<style>{STYLE}</style>", "</head>", "<body>",
        "<h1>A campaign</h1>",
        f"<p>{runs} scenarios in {len(tallies)} case{'s' if len(tallies) > 1 else ''}, by {made}</p>",
        f"<p>{INTERVALS}</p>", f"<p>{MARGIN}</p>", *(table(it, link) for it in first if it.rows)]
    for chart in charts(tallies):
        caption = f"Made by {made}. {_outliers(chart.name, tallies, link)}"
        parts.append(f"<figure>\n{svg.drawing(chart)}\n<figcaption>{caption}</figcaption>\n</figure>")
    parts += [table(it, link) for it in last if it.rows]
    return "\n".join([*parts, "</body>", "</html>"]) + "\n"
