"""Draws charts with matplotlib, as PNG and PDF. It is loaded when it is needed; all else of the tools does without it.
"""
from __future__ import annotations

import pathlib
from collections.abc import Sequence
from typing import Any

from .charts import Chart, Curves, HeatMap
from .svg import COLOURS
from .workers import with_system_python


def matplotlib() -> Any:
    """The part of matplotlib that draws, without a screen."""
    try:
        import matplotlib as whole  # type: ignore
        whole.use("Agg")
        from matplotlib import pyplot  # type: ignore
    except ImportError:
        with_system_python(
            "plots needs matplotlib: Debian's package python3-matplotlib; the pictures of --report are made without it")
    return pyplot


def _curves(axes: Any, chart: Curves) -> None:
    for line in chart.lines:
        xs, ys = [it[0] for it in line.points], [it[1] for it in line.points]
        colour, style = COLOURS[line.colour % len(COLOURS)], "--" if line.dashed else "-"
        if line.intervals:
            below = [max(0.0, y - low) for y, (low, _) in zip(ys, line.intervals)]
            above = [max(0.0, high - y) for y, (_, high) in zip(ys, line.intervals)]
            axes.errorbar(xs, ys, yerr=[below, above], color=colour, capsize=2)
        axes.plot(xs, ys, style, color=colour, label=line.name or None,
            drawstyle="steps-post" if line.steps else "default")
    if chart.x_words:
        axes.set_xticks(range(len(chart.x_words)), chart.x_words)
    if any(it.name for it in chart.lines):
        axes.legend(fontsize="small")


def _heat_map(axes: Any, chart: HeatMap) -> None:
    shares = [[chart.values.get((x, y)) for x in chart.xs] for y in chart.ys]
    numbers = [[float("nan") if it is None else 100 * it.value for it in row] for row in shares]
    axes.imshow(numbers, origin="lower", cmap="RdBu", vmin=0, vmax=100, aspect="auto")
    axes.set_xticks(range(len(chart.xs)), chart.xs)
    axes.set_yticks(range(len(chart.ys)), chart.ys)
    for row, cells in enumerate(shares):
        for at, it in enumerate(cells):
            if it is not None:
                axes.text(at, row, f"{100 * it.value:.0f}", ha="center", va="center")


def write(charts: Sequence[Chart], folder: str) -> None:
    """Writes NAME.png and NAME.pdf of each chart into a folder."""
    pyplot = matplotlib()
    for chart in charts:
        figure, axes = pyplot.subplots(figsize=(8, 5))
        (_heat_map if isinstance(chart, HeatMap) else _curves)(axes, chart)  # type: ignore[operator]
        axes.set(title=chart.title, xlabel=chart.x_label, ylabel=chart.y_label)
        figure.tight_layout()
        for kind in ("png", "pdf"):
            figure.savefig(pathlib.Path(folder) / f"{chart.name}.{kind}", dpi=150)
        pyplot.close(figure)
