"""Draws counts over time as SVG, with axes and titles."""

from collections.abc import Sequence
from datetime import datetime
from math import ceil, floor, log10

from markupsafe import Markup, escape

Point = tuple[datetime, int]
WIDTH, HEIGHT = 640, 240
LEFT, RIGHT, TOP, BOTTOM = 64, 16, 16, 48
# How a text is put beside an edge, so that it doesn't stand beyond that.
EDGES: dict[float, str] = {LEFT: "start", WIDTH - RIGHT: "end"}


def step_of(span: float) -> int:
    """The distance of two marks of an axis: 1, 2 or 5 times a power of ten, so that there are at most six."""
    if span <= 5:
        return 1
    power = 10 ** floor(log10(span / 5))
    return int(next(power * factor for factor in (1, 2, 5, 10) if span / (power * factor) <= 5))


def marks(low: int, high: int) -> list[int]:
    """The marks of the axis of counts, which begin below the lowest and end above the highest count."""
    if low == high:
        low, high = max(low - 1, 0), high + 1
    step = step_of(high - low)
    return list(range(floor(low / step) * step, ceil(high / step) * step + 1, step))


def days(first: datetime, last: datetime) -> list[datetime]:
    """The moments that the axis of time names: at most four, the first and the last among them."""
    span = last - first
    parts = min(3, span.days)
    return [first + span * part / parts for part in range(parts + 1)] if parts else [last]


def axes(what: str) -> list[str]:
    """The axes, and what they are called."""
    across, down = (LEFT + WIDTH - RIGHT) / 2, (TOP + HEIGHT - BOTTOM) / 2
    turned = f'transform="translate(14 {down}) rotate(-90)"'
    return [
        f'<path class="axis" d="M{LEFT} {TOP}V{HEIGHT - BOTTOM}H{WIDTH - RIGHT}"/>',
        f'<text class="name" {turned} text-anchor="middle">{escape(what)}</text>',
        f'<text class="name" x="{across}" y="{HEIGHT - 8}" text-anchor="middle">day (UTC)</text>',
    ]


def plot(points: Sequence[Point], title: str, what: str) -> Markup:
    """The counts of a cell, each from its moment to the next, as an element `svg`; the title says what is counted."""
    if not points:
        return Markup("")
    scale = marks(min(count for _, count in points), max(count for _, count in points))
    first, last = points[0][0], points[-1][0]
    span = (last - first).total_seconds() or 1

    def x(moment: datetime) -> float:
        return round(LEFT + (moment - first).total_seconds() / span * (WIDTH - LEFT - RIGHT), 1)

    def y(count: int) -> float:
        return round(HEIGHT - BOTTOM - (count - scale[0]) / (scale[-1] - scale[0]) * (HEIGHT - TOP - BOTTOM), 1)

    said = f"{what}: {points[0][1]} on {first:%Y-%m-%d}" + (
        f", {points[-1][1]} on {last:%Y-%m-%d}" if len(points) > 1 else ""
    )
    lines = [
        f'<svg class="plot" viewBox="0 0 {WIDTH} {HEIGHT}" role="img" aria-label="{escape(title)}">',
        f"<title>{escape(title)}</title>",
        f"<desc>{escape(said)}</desc>",
    ]
    for mark in scale:
        lines.append(f'<line class="grid" x1="{LEFT}" y1="{y(mark)}" x2="{WIDTH - RIGHT}" y2="{y(mark)}"/>')
        lines.append(f'<text x="{LEFT - 6}" y="{y(mark) + 4}" text-anchor="end">{mark}</text>')
    for day in days(first, last):
        anchor = EDGES.get(x(day), "middle")
        lines.append(f'<text x="{x(day)}" y="{HEIGHT - BOTTOM + 18}" text-anchor="{anchor}">{day:%Y-%m-%d}</text>')
    lines += axes(what)
    path = f"M{x(first)} {y(points[0][1])}" + "".join(f"H{x(moment)}V{y(count)}" for moment, count in points[1:])
    lines.append(f'<path class="line" d="{path}"/>')
    lines.append(f'<circle class="last" cx="{x(last)}" cy="{y(points[-1][1])}" r="3"/>')
    lines.append("</svg>")
    return Markup("\n".join(lines))
