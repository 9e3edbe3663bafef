"""The timeline of a trace: a row for each PE with its handlers, what goes from one PE to another, and decisions."""
from __future__ import annotations

import os

import numpy as np
from matplotlib.axes import Axes
from matplotlib.collections import LineCollection, PolyCollection
from matplotlib.colors import to_rgb
from matplotlib.figure import Figure
from matplotlib.patches import Rectangle

import tezgumi
from tezgumi.traces import Timeline, read_trace, row_names, timeline_of

from .palette import COLORS, FAINT, INK, PATTERNS, QUIET, Palette
from .paper import sheet_of, count_axis, few_letters, number_axis, points_high, points_wide, text_width

LEFT, WIDTH = 1.1, 10.6
PLAIN = {"parse_math": False}
"""How texts of a trace are shown: as they are, also where they have a $ in them."""
NAMED = len(COLORS) * len(PATTERNS)
"""So many elements have a color and a pattern of their own; more are colored by number."""
HEADS = 400
"""So many arrows of a kind have heads; more are thin lines."""
LONGEST = 10
"""So many letters of a name are shown."""
LINES = 64
"""So many decisions have broken lines; more are thin ones."""


def timeline(
        trace: str | os.PathLike[str] | Timeline, title: str | None = None, medium: str = "screen",
        unit: str = "microseconds", ax: Axes | None = None) -> Figure:
    """A picture of a trace, a file in the Trace Event Format: the handlers of each PE in the colors of their elements, an arrow
    for each letter that goes to another PE and for each element that moves, and a line for each decision.

    The unit is what the times of the trace are: those of a run by a seed are numbers of events. A file that is no trace, or that
    has no handler, is refused: TraceError. The medium is "screen" or "print". With `ax` the picture fills the room of these
    axes, and is their figure.
    """
    told = trace if isinstance(trace, Timeline) else timeline_of(read_trace(trace))
    if not told.slices:
        raise tezgumi.TraceError("there is no handler: no event is complete, X, or has a beginning and an end, B and E")
    shown = Shown(told)
    height = min(max(0.45 * len(shown.rows), 1.2), 7.5)
    sheet = sheet_of(medium, 2.05 + height + 0.3 * _legend_rows(shown), ax)
    sheet.write(LEFT, 0.18, title or _counted(len(shown.rows), "PE"), size=1.35, weight="bold")
    sheet.write(LEFT, 0.58, shown.text(), color=QUIET, size=0.9)
    axes = sheet.panel(LEFT, 1.2, WIDTH, height)
    _lay_out(axes, shown, unit)
    _draw_decisions(axes, shown)
    _draw_handlers(axes, shown, Palette(len(shown.kinds), np.arange(len(shown.kinds)), sheet.scale))
    _draw_arrows(axes, shown.letters, 0.7, "letters")
    _draw_arrows(axes, shown.moves, 1.8, "elements")
    _write_legend(sheet, shown, 1.9 + height)
    return sheet.owner


class Shown:
    """What a picture shows of a timeline: times from the first one on, in the unit of the trace, and rows by number."""

    def __init__(self, told):
        names, self.left_out, self.events = list(told.names.numbers), told.left_out, told.events
        self.rows, self.counts = [_short(name) for name in row_names(told)], told.counts()
        times, lengths, self.row, name, element = np.array(told.slices, dtype=np.int64).reshape(-1, 5).T
        self.by_element = any(names[k] for k in set(element))
        keys = [names[k] for k in (element if self.by_element else name)]
        self.kinds = sorted(set(keys) - {""}, key=_by_number)
        rank = {key: k for k, key in enumerate(self.kinds)}
        self.kind = np.array([rank.get(key, -1) for key in keys])
        self.begin, self.end = (times - told.start) / 1000, (times + lengths - told.start) / 1000
        arrows = np.array(told.arrows, dtype=np.int64).reshape(-1, 6)
        arrows = arrows[arrows[:, 1] != arrows[:, 3]]
        arrows = np.column_stack([(arrows[:, (0, 2)] - told.start) / 1000, arrows[:, (1, 3, 5)]])
        self.letters, self.moves = arrows[arrows[:, 4] == 0], arrows[arrows[:, 4] == 1]
        self.decisions = [((at - told.start) / 1000, number) for at, number in told.decisions]
        self.last = max([self.end.max(), *arrows[:, 1], *(at for at, _ in self.decisions)]) or 1.0

    def text(self):
        kinds = _counted(len(self.kinds), "element" if self.by_element else "name")
        parts = [f"{_counted(self.counts['handler'], 'handler')} of {kinds}"]
        broken = "dashed" if len(self.decisions) <= LINES else "thin"
        for word, rest, look in (("letter", " to another PE", "thin"), ("element", " moved", "thick"), ("decision", "", broken)):
            count = self.counts[word]
            shape = "line" if word == "decision" or count > HEADS else "arrow"
            if count:
                parts.append(f"{_counted(count, word)}{rest} ({look} {shape}{'' if count == 1 else 's'})")
        return "; ".join(parts)


def _counted(count, word):
    return f"{few_letters(count)} {word}{'' if count == 1 else 's'}"


def _short(name):
    return name if len(name) <= LONGEST else name[:LONGEST - 1] + "…"


def _by_number(key):
    # Numbers by value, and before texts.
    return not key.isdecimal(), int(key) if key.isdecimal() else 0, key


def _lay_out(axes, shown, unit):
    size = axes.sheet.text_size
    axes.set_xlim(-0.005 * shown.last, 1.005 * shown.last)
    axes.set_ylim(len(shown.rows) - 0.4, -0.6)
    number_axis(axes.xaxis, shown.last)
    count_axis(axes.yaxis, len(shown.rows), points_high(axes) / (1.25 * size))
    rows = axes.yaxis.get_majorticklocs()
    axes.yaxis.set_ticks(rows, [shown.rows[int(row)] for row in rows], **PLAIN)
    axes.tick_params(axis="y", length=0)
    part = f", of the first {shown.events - shown.left_out:,} of {shown.events:,} events" if shown.left_out else ""
    axes.set_xlabel(unit + part, fontsize=size, color=INK, **PLAIN)


def _half(axes):
    """Half the height of a bar: rows that are narrow have no room between them."""
    return 0.28 if points_high(axes) > 8 * abs(np.diff(axes.get_ylim())[0]) else 0.42


def _point(axes):
    """What a point is across and down, in times and rows."""
    wide, high = np.diff(axes.get_xlim())[0], np.diff(axes.get_ylim())[0]
    return np.array([wide / points_wide(axes), abs(high) / points_high(axes)])


def _draw_handlers(axes, shown, palette):
    half, (across, down) = _half(axes), _point(axes)
    # What takes no time is seen too.
    end = np.maximum(shown.end, shown.begin + 0.8 * across)
    points = (end - shown.begin) / across
    colors = np.array([*(palette.color(kind) for kind in range(len(shown.kinds))), to_rgb(FAINT)])
    for pattern, ink, chosen in _groups(shown, palette, points > 6 * axes.sheet.scale):
        x, y, right = shown.begin[chosen], shown.row[chosen], end[chosen]
        boxes = np.stack([x, y - half, x, y + half, right, y + half, right, y - half], axis=1).reshape(-1, 4, 2)
        axes.add_collection(PolyCollection(
            boxes, facecolors=colors[shown.kind[chosen]], edgecolors=ink, hatch=pattern or None, gid="handlers",
            linewidths=np.minimum(0.6 * axes.sheet.scale, 0.1 * points[chosen])), autolim=False)
    if shown.by_element and 2 * half / down > 1.2 * 0.85 * axes.sheet.text_size:
        _write_keys(axes, shown, end, palette)


def _write_keys(axes, shown, end, palette):
    """The element of each handler that has room for it, and whose middle is not below a number already."""
    size, across = axes.sheet.text_size * 0.85, _point(axes)[0]
    room, ends = (end - shown.begin) / across, np.full(len(shown.rows), -np.inf)
    for k in np.argsort(shown.begin, kind="stable"):
        key, row, middle = shown.kinds[shown.kind[k]], shown.row[k], (shown.begin[k] + end[k]) / 2
        half = text_width(f"{key} ", size) / 2
        if shown.kind[k] >= 0 and room[k] > 2 * half and middle - half * across > ends[row]:
            _write_key(axes, middle, row, key, palette, shown.kind[k], size)
            ends[row] = middle + half * across


def _groups(shown, palette, is_wide):
    """The handlers that have one pattern and one ink: these two, and which they are. Narrow ones have no pattern."""
    look_of = [(palette.pattern(kind), palette.pattern_ink(kind)) for kind in range(len(shown.kinds))] + [("", "")]
    look_of = [look if look[0] else ("", "white") for look in look_of]
    looks = sorted(set(look_of))
    numbers = np.array([looks.index(look) for look in look_of])
    held = np.where(is_wide, numbers[shown.kind], 0)
    for number in np.unique(held):
        yield *looks[number], np.flatnonzero(held == number)


def _write_key(axes, x, y, key, palette, kind, size):
    # A pattern would run through the number: it stands on a plain ground there.
    ground = {"boxstyle": "square,pad=0.15", "facecolor": palette.color(kind), "edgecolor": "none"}
    axes.text(
        x, y, key, ha="center", va="center", fontsize=size, color=palette.ink(kind), clip_on=True,
        bbox=ground if palette.pattern(kind) else None, **PLAIN)


def _draw_arrows(axes, arrows, width, name):
    """Arrows from one row to another: from the lower or the upper edge of a bar to the nearer edge of the other."""
    if not len(arrows):
        return
    half, unit = _half(axes), axes.sheet.scale
    below = np.where(arrows[:, 3] > arrows[:, 2], half, -half)
    tails = np.column_stack([arrows[:, 0], arrows[:, 2] + below])
    tips = np.column_stack([arrows[:, 1], arrows[:, 3] - below])
    if len(arrows) > HEADS:
        look = {"linewidths": 0.4 * width * unit, "alpha": max(0.05, HEADS / len(arrows)), "gid": name}
        axes.add_collection(LineCollection(np.stack([tails, tips], axis=1), colors=INK, **look), autolim=False)
        return
    heads = _heads(tails, tips, _point(axes), (4.5 + 1.5 * width) * unit)
    shafts = np.stack([tails, heads[:, 1:].mean(axis=1)], axis=1)
    # White beside each, so that it is seen on a bar too.
    axes.add_collection(LineCollection(shafts, colors="white", linewidths=(width + 0.8) * unit, zorder=2.5), autolim=False)
    axes.add_collection(LineCollection(shafts, colors=INK, linewidths=width * unit, zorder=2.6, gid=name), autolim=False)
    axes.add_collection(PolyCollection(
        heads, facecolors=INK, edgecolors="white", linewidths=0.4 * unit, zorder=2.7), autolim=False)


def _heads(tails, tips, point, long):
    """The heads of arrows, so many points long: triangles, each with its tip first."""
    way = (tips - tails) / point
    way = way / np.maximum(np.hypot(*way.T), 1e-9)[:, np.newaxis]
    side = 0.4 * long * way[:, ::-1] * (-1, 1)
    foot = tips / point - long * way
    return np.stack([tips / point, foot + side, foot - side], axis=1) * point


def _draw_decisions(axes, shown):
    """A line through all rows for each decision, and its round above it, where there is room."""
    unit, size = axes.sheet.scale, axes.sheet.text_size * 0.85
    times = [at for at, _ in shown.decisions]
    if not times:
        return
    above = axes.get_xaxis_transform()
    look = {"linewidth": unit, "linestyle": (0, (4, 2))} if len(times) <= LINES else {"linewidth": 0.25 * unit}
    axes.vlines(times, 0, 1.02, transform=above, color=QUIET, zorder=0.5, clip_on=False, gid="decisions", **look)
    across, end = _point(axes)[0], -np.inf
    for at, number in sorted(shown.decisions, key=lambda decision: decision[0]):
        text = _short(number if end > 0 else f"round {number}") if number else ""
        half = text_width(text + " ", size) / 2 * across
        if text and at - half > end:
            axes.text(at, 1.03, text, transform=above, fontsize=size, color=INK, ha="center", va="bottom", clip_on=False, **PLAIN)
            end = at + half


def _legend_rows(shown):
    return 1 + max(places[1] for places in _swatches(shown)) if len(shown.kinds) <= NAMED else 1


def _swatches(shown):
    """Where the sample of each kind is: how far from the left, and in which row."""
    places, left, row = [], 1.05, 0
    for key in shown.kinds:
        wide = 0.42 + 0.105 * min(len(key), LONGEST)
        if left + wide > WIDTH:
            left, row = 1.05, row + 1
        places.append((left, row))
        left += wide
    return places or [(0, 0)]


def _write_legend(sheet, shown, top):
    """The color and the pattern of each element; of many a scale from the first to the last."""
    axes = sheet.bare(LEFT, top, WIDTH, 0.3 * _legend_rows(shown))
    axes.set_xlim(0, WIDTH)
    axes.set_ylim(0.3 * _legend_rows(shown), 0)
    size = sheet.text_size * 0.85
    palette = Palette(len(shown.kinds), np.arange(len(shown.kinds)), sheet.scale)
    axes.text(0, 0.14, "element" if shown.by_element else "handler", fontsize=size, color=QUIET, va="center")
    if len(shown.kinds) > NAMED:
        axes.imshow(palette.colors[np.newaxis], extent=(2.2, 6.2, 0.22, 0.06), aspect="auto", interpolation="nearest")
        axes.set_xlim(0, WIDTH)
        axes.set_ylim(0.3, 0)
        axes.text(2.1, 0.14, _short(shown.kinds[0]), fontsize=size, color=INK, va="center", ha="right", **PLAIN)
        axes.text(6.3, 0.14, _short(shown.kinds[-1]), fontsize=size, color=INK, va="center", **PLAIN)
        return
    for kind, (key, (left, row)) in enumerate(zip(shown.kinds, _swatches(shown))):
        axes.add_patch(Rectangle(
            (left, 0.3 * row + 0.06), 0.24, 0.16, facecolor=palette.color(kind), edgecolor=palette.pattern_ink(kind),
            hatch=palette.pattern(kind) or None, linewidth=0))
        axes.text(left + 0.3, 0.3 * row + 0.14, _short(key), fontsize=size, color=INK, va="center", **PLAIN)
