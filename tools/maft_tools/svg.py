"""Draws charts as SVG, with nothing but text."""
from __future__ import annotations

import math
from html import escape

from .charts import Chart, Curves, HeatMap, Line
from .estimates import Estimate
from .figures import percent

WIDTH, HEIGHT = 660, 380
LEFT, TOP, RIGHT, BOTTOM = 70, 30, 20, 60
COLOURS = ("#0072b2", "#d55e00", "#009e73", "#cc79a7", "#e69f00", "#56b4e9", "#7a5195", "#555555")


def number(value: float) -> str:
    """A coordinate or a value, without needless digits."""
    return f"{value:.2f}".rstrip("0").rstrip(".")


TITLE = ' class="title"'


def text(x: float, y: float, words: str, anchor: str = "middle", more: str = "") -> str:
    """Words at a place, with more attributes."""
    return f'<text x="{number(x)}" y="{number(y)}" text-anchor="{anchor}"{more}>{escape(words)}</text>'


def ticks(low: float, high: float, most: int = 8) -> list[float]:
    """Round numbers from the low to the high one, at most so many."""
    if high <= low:
        return [low]
    step = 10.0 ** math.floor(math.log10((high - low) / most))
    step = next(step * it for it in (1, 2, 5, 10, 20) if (high - low) / (step * it) <= most)
    first = math.ceil(low / step)
    return [it * step for it in range(first, math.floor(high / step + 1e-9) + 1)]


def _frame(title: str, height: float, parts: list[str]) -> str:
    inner = "\n".join(parts)
    size = f'viewBox="0 0 {WIDTH} {number(height)}" width="{WIDTH}" height="{number(height)}"'
    return (f'<svg xmlns="http://www.w3.org/2000/svg" {size} '
            f'role="img" aria-label="{escape(title)}" font-family="sans-serif" font-size="12">\n{inner}\n</svg>')


class _Plane:
    """Where values stand on the picture."""

    def __init__(self, chart: Curves) -> None:
        points = [point for line in chart.lines for point in line.points]
        self.x_low, self.x_high = min(it[0] for it in points), max(it[0] for it in points)
        self.y_low, self.y_high = min(0.0, min(it[1] for it in points)), max(1.0, max(it[1] for it in points))
        if chart.x_words:
            self.x_low, self.x_high = -0.5, len(chart.x_words) - 0.5
        self.x_high = max(self.x_high, self.x_low + 1)

    def x(self, value: float) -> float:
        """The picture's x of a value."""
        return LEFT + (value - self.x_low) / (self.x_high - self.x_low) * (WIDTH - LEFT - RIGHT)

    def y(self, value: float) -> float:
        """The picture's y of a value."""
        return HEIGHT - BOTTOM - (value - self.y_low) / (self.y_high - self.y_low) * (HEIGHT - TOP - BOTTOM)


def _axes(chart: Curves, plane: _Plane) -> list[str]:
    foot = HEIGHT - BOTTOM
    parts = [f'<path d="M{LEFT} {TOP}V{foot}H{WIDTH - RIGHT}" fill="none" stroke="#333"/>']
    for at in ticks(plane.y_low, plane.y_high, 6):
        y = plane.y(at)
        parts.append(f'<path d="M{LEFT} {number(y)}H{WIDTH - RIGHT}" stroke="#ddd"/>')
        parts.append(text(LEFT - 6, y + 4, f"{100 * at:.0f} %" if chart.is_share else number(at), anchor="end"))
    named = list(enumerate(chart.x_words)) or [(at, number(at)) for at in ticks(plane.x_low, plane.x_high)
        if at == int(at)]
    for at, words in named:
        parts.append(text(plane.x(at), foot + 16, words))
    parts.append(text((LEFT + WIDTH - RIGHT) / 2, foot + 34, chart.x_label))
    parts.append(text(16, (TOP + foot) / 2, chart.y_label,
        more=f' transform="rotate(-90 16 {number((TOP + foot) / 2)})"'))
    return parts


def _line(line: Line, plane: _Plane) -> list[str]:
    colour = COLOURS[line.colour % len(COLOURS)]
    path, before = "", None
    for x, y in line.points:
        if line.steps and before is not None:
            path += f"L{number(plane.x(x))} {number(plane.y(before))}"
        path += f"{'L' if path else 'M'}{number(plane.x(x))} {number(plane.y(y))}"
        before = y
    dash = ' stroke-dasharray="5 4"' if line.dashed else ""
    parts = [f'<path d="{path}" fill="none" stroke="{colour}" stroke-width="1.8"{dash}/>']
    for (x, y), (low, high) in zip(line.points, line.intervals):
        bar = f"M{number(plane.x(x))} {number(plane.y(low))}V{number(plane.y(high))}"
        parts.append(f'<path d="{bar}" stroke="{colour}"/>')
    for x, y in () if line.dashed or line.steps else line.points:
        at, value = f'cx="{number(plane.x(x))}" cy="{number(plane.y(y))}"', f"{number(x)}: {y:.6g}"
        parts.append(f'<circle {at} r="2.6" fill="{colour}"><title>{value}</title></circle>')
    return parts


def curves(chart: Curves) -> str:
    """A chart of lines, with a legend below where they have names."""
    plane = _Plane(chart)
    parts = [text(WIDTH / 2, 18, chart.title, more=TITLE), *_axes(chart, plane)]
    for line in chart.lines:
        parts += _line(line, plane)
    named = [it for it in chart.lines if it.name]
    for at, line in enumerate(named):
        y = HEIGHT - 10 + 16 * at
        dash, colour = ' stroke-dasharray="5 4"' if line.dashed else "", COLOURS[line.colour % len(COLOURS)]
        parts.append(f'<path d="M{LEFT} {y - 4}h24" stroke="{colour}" stroke-width="2"{dash}/>')
        parts.append(text(LEFT + 30, y, line.name, anchor="start"))
    return _frame(chart.title, HEIGHT + 16 * len(named), parts)


def _shade(share: float) -> str:
    """From a dark red by white to a dark blue."""
    side, part = ((180, 30, 30), (0.5 - share) * 2) if share < 0.5 else ((20, 80, 160), (share - 0.5) * 2)
    return "#" + "".join(f"{round(255 + (it - 255) * part):02x}" for it in side)


def _field(share: Estimate | None, corner: tuple[float, float], size: tuple[float, float], name: str) -> list[str]:
    """One field of a heat map; its interval is told where the pointer rests on it."""
    (x, y), (wide, high) = corner, size
    fill = "#eeeeee" if share is None else _shade(share.value)
    place = f'x="{number(x)}" y="{number(y)}" width="{number(wide)}" height="{number(high)}"'
    parts = [f'<rect {place} fill="{fill}" stroke="#fff"><title>{escape(name)}: {percent(share)}</title></rect>']
    if share is not None:
        dark = ' fill="#fff"' if abs(share.value - 0.5) > 0.3 else ""
        parts.append(text(x + wide / 2, y + high / 2 + 4, f"{100 * share.value:.0f}", more=f' class="share"{dark}'))
    return parts


def heat_map(chart: HeatMap) -> str:
    """A field for each pair of values, with its share in percent."""
    wide = (WIDTH - LEFT - RIGHT) / max(1, len(chart.xs))
    high = min(40.0, wide)
    foot = TOP + high * len(chart.ys)
    parts = [text(WIDTH / 2, 18, chart.title, more=TITLE)]
    for row, y_word in enumerate(reversed(chart.ys)):
        y = TOP + high * row
        parts.append(text(LEFT - 8, y + high / 2 + 4, y_word, anchor="end"))
        for at, x_word in enumerate(chart.xs):
            name = f"{chart.x_label} {x_word}, {chart.y_label} {y_word}"
            parts += _field(chart.values.get((x_word, y_word)), (LEFT + wide * at, y), (wide, high), name)
    for at, x_word in enumerate(chart.xs):
        parts.append(text(LEFT + wide * (at + 0.5), foot + 16, x_word))
    parts.append(text((LEFT + WIDTH - RIGHT) / 2, foot + 36, chart.x_label))
    turned = f' transform="rotate(-90 16 {number((TOP + foot) / 2)})"'
    parts.append(text(16, (TOP + foot) / 2, chart.y_label, more=turned))
    return _frame(chart.title, foot + 50, parts)


def drawing(chart: Chart) -> str:
    """The SVG of a chart."""
    return heat_map(chart) if isinstance(chart, HeatMap) else curves(chart)
