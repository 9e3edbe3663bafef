"""The chain of elements from left to right: loads by block, cuts, fence, and the PE of each element before and after."""
import numpy as np
from matplotlib.collections import LineCollection, PolyCollection

import tezgumi

from .palette import FAINT, INK, KEPT, MANY, QUIET
from .paper import count_axis, number_axis, points_wide, text_width

MARKS = 64
"""So many cuts or stops have a mark of their own shape; more are thin lines."""
BINS = 900
"""So many steps the outline of the loads has at most; each then stands for several elements."""
DENSE = 512
"""So many thin lines are told apart: of more cuts or stops each second, third .. is drawn."""


def draw_loads(axes, run, decision, palette):
    """The load of each element, in the color of its planned PE; of many elements the mean of a few, and the greatest.

    Answers of how many.
    """
    width = max(1, -(-len(run) // BINS))
    blocks = _blocks(decision)
    if len(blocks) > MANY:
        _draw_many(axes, run, blocks, width, palette)
    else:
        _draw_few(axes, run, blocks, width, palette)
    top = max(float(run.loads.max(initial=0)), 1) * 1.04
    axes.set_ylim(0, top)
    _chain_limits(axes, run)
    number_axis(axes.yaxis, top)
    axes.set_ylabel("load of an element", fontsize=axes.sheet.text_size, color=INK)
    axes.tick_params(bottom=False, labelbottom=False)
    return width


def _draw_few(axes, run, blocks, width, palette):
    outline = []
    for first, end, pe in blocks:
        edges, means, tops = _steps(run.loads[first:end], first, width)
        axes.stairs(
            means, edges, fill=True, facecolor=palette.color(pe), edgecolor=palette.pattern_ink(pe), linewidth=0,
            hatch=palette.pattern(pe))
        outline.append((edges[:-1], tops))
    _outline(axes, run, outline)


def _draw_many(axes, run, blocks, width, palette):
    """The steps of very many blocks at once, each in the color of its PE: of so many no one has a pattern."""
    starts, pes = np.array([(start, pe) for first, end, pe in blocks for start in range(first, end, width)]).T
    edges = np.append(starts, len(run)) - 0.5
    draw_boxes(axes, edges, np.add.reduceat(run.loads, starts) / np.diff(edges), palette.colors[pes])
    draw_steps(axes, edges, np.maximum.reduceat(run.loads, starts), 0.5)


def draw_boxes(axes, edges, tops, colors):
    """Rectangles from 0 up to the tops. A dot has the color of one of them, so that those narrower than a dot do not fade."""
    left, right, bottom = edges[:-1], edges[1:], np.zeros(len(tops))
    corners = np.stack([[left, bottom], [left, tops], [right, tops], [right, bottom]]).transpose(2, 0, 1)
    axes.add_collection(PolyCollection(corners, facecolors=colors, linewidths=0, antialiaseds=False))


def draw_steps(axes, edges, tops, width):
    """A line along the tops."""
    axes.plot(np.repeat(edges, 2)[1:-1], np.repeat(tops, 2), color=INK, linewidth=width * axes.sheet.scale)


def _outline(axes, run, steps):
    """A line along the tops, and for few elements the sides of each."""
    if not steps:
        return
    starts, tops = (np.concatenate(part) for part in zip(*steps))
    edges = np.append(starts, len(run) - 0.5)
    line = {"color": INK, "linewidth": 0.5 * axes.sheet.scale}
    axes.stairs(tops, edges, baseline=None, **line)
    if len(run) <= MARKS:
        lower = np.minimum(run.loads[1:], run.loads[:-1]).astype(float)
        axes.vlines(np.arange(1, len(run)) - 0.5, 0, lower, colors=INK, linewidth=line["linewidth"])


def marked_cuts(run, decision):
    """The cuts between elements, each once: before which element each is."""
    cuts = np.unique(decision.cuts)
    return cuts[(cuts > 0) & (cuts < len(run))]


def draw_cuts(axes, run, decision):
    """A mark above each cut between two blocks, and a line down through the loads where there are few."""
    places = marked_cuts(run, decision) - 0.5
    unit = axes.sheet.scale
    above = axes.get_xaxis_transform()
    if len(places) <= MARKS:
        axes.vlines(places, 0, 1, transform=above, color=QUIET, linewidth=0.6 * unit, zorder=0.5)
        _draw_marks(axes, places, 1.05, "v", transform=above)
    else:
        axes.vlines(thinned(places), 1.015, 1.075, transform=above, color=INK, linewidth=0.5 * unit, clip_on=False)


def every(count):
    """Of so many thin lines each first, second, third .. is drawn."""
    return max(1, -(-count // DENSE))


def thinned(places):
    return places[::every(len(places))]


def draw_present(axes, run, decision):
    """A hollow mark above each present cut, where there are few."""
    cuts = np.unique(decision.present)
    cuts = cuts[(cuts > 0) & (cuts < len(run))]
    if len(cuts) <= MARKS:
        _draw_marks(axes, cuts - 0.5, 1.05, "v", transform=axes.get_xaxis_transform(), markerfacecolor="none", markeredgecolor=INK)


def draw_fence(axes, run, decision):
    """The stops, and beside few of them the elements from each to the next, alternately above and below."""
    _chain_limits(axes, run)
    axes.set_ylim(0, 1)
    stops = np.unique(decision.stops).astype(float)
    unit = axes.sheet.scale
    if len(stops) > MARKS:
        axes.vlines(thinned(stops), 0.25, 0.95, color=INK, linewidth=0.5 * unit)
        return
    _draw_marks(axes, stops, 0.80, "^")
    pairs = sorted(set(zip(decision.stops.tolist(), decision.stops[1:].tolist())))
    heights = [0.42 - 0.26 * (i % 2) for i in range(len(pairs))]
    spans = [[(a - 0.5, y), (b + 0.5, y)] for (a, b), y in zip(pairs, heights)]
    axes.add_collection(LineCollection(spans, colors=INK, linewidths=1.6 * unit, capstyle="butt"))


def draw_places(axes, run, places, palette, label):
    """A strip with the PE of each element: its color and pattern, and its number where there is room."""
    _chain_limits(axes, run)
    axes.set_ylim(0, 1)
    edges, pes = _stretches(places)
    if len(pes) > 2 * BINS:
        sampled = palette.colors[places[_sampled(len(places))]]
        axes.imshow(sampled[np.newaxis], extent=(-0.5, len(run) - 0.5, 0, 1), aspect="auto", interpolation="nearest")
    else:
        _draw_stretches(axes, edges, pes, palette)
    _label_row(axes, label)


def draw_moves(axes, run, decision):
    """The part of the elements that move, of each few of them; for few elements, each that moves. Within a tolerance the part
    that is kept is grey."""
    _chain_limits(axes, run)
    axes.set_ylim(0, 1)
    moving = (run.places != decision.places).astype(np.uint64)
    if len(run):
        edges, parts, _ = _steps(moving, 0, max(1, -(-len(run) // BINS)))
        axes.stairs(parts, edges, fill=True, color=INK, linewidth=0)
        if isinstance(decision, tezgumi.NearDecision):
            axes.stairs(np.ones(len(parts)), edges, baseline=parts, fill=True, color=KEPT, linewidth=0)
    axes.axhline(0, color=FAINT, linewidth=0.8 * axes.sheet.scale)
    _label_row(axes, "moves")


def number_elements(axes, run):
    """Numbers of elements below a strip, as many as there is room for."""
    size = axes.sheet.text_size * 0.9
    axes.set_axis_on()
    for spine in axes.spines.values():
        spine.set_visible(False)
    axes.tick_params(left=False, labelleft=False)
    room = points_wide(axes) / text_width(f"{len(run):,}" + "  ", size)
    count_axis(axes.xaxis, len(run), min(room, 24))
    axes.set_xlabel("element, in order", fontsize=axes.sheet.text_size, color=INK)


def _draw_marks(axes, places, height, shape, **how):
    size = 8 * axes.sheet.scale
    heights = np.full(len(places), height)
    width = axes.sheet.scale if how.get("markerfacecolor") == "none" else 0
    axes.plot(places, heights, shape, color=INK, markersize=size, markeredgewidth=width, clip_on=False, **how)


def _chain_limits(axes, run):
    axes.set_xlim(-0.5, max(len(run), 1) - 0.5)


def _blocks(decision):
    """First element, end and PE of each block that has elements."""
    cuts, names = decision.cuts.tolist(), decision.names.tolist()
    return [(first, end, pe) for first, end, pe in zip(cuts, cuts[1:], names) if first < end]


def _steps(numbers, first, width):
    """The numbers in steps of so many, the last one shorter: edges, means and greatest numbers."""
    starts = np.arange(0, len(numbers), width)
    counts = np.diff(np.append(starts, len(numbers)))
    means = np.add.reduceat(numbers, starts).astype(float) / counts
    edges = first + np.append(starts, len(numbers)) - 0.5
    return edges, means, np.maximum.reduceat(numbers, starts).astype(float)


def _stretches(places):
    """The stretches of neighbors with one PE: their edges, and the PE of each."""
    if not len(places):
        return np.zeros(1), places
    starts = np.concatenate(([0], np.flatnonzero(np.diff(places.astype(np.int64))) + 1))
    return np.append(starts, len(places)) - 0.5, places[starts]


def _sampled(count):
    return np.linspace(0, count - 1, 2 * BINS).astype(int)


def _draw_stretches(axes, edges, pes, palette):
    point = (edges[-1] - edges[0]) / points_wide(axes)
    widths = np.diff(edges) / point
    boxes = [[(a, 0), (a, 1), (b, 1), (b, 0)] for a, b in zip(edges, edges[1:])]
    kinds = [(palette.pattern(pe), palette.pattern_ink(pe)) for pe in pes]
    for pattern, ink in sorted(set(kinds)):
        chosen = [i for i, kind in enumerate(kinds) if kind == (pattern, ink)]
        axes.add_collection(PolyCollection(
            [boxes[i] for i in chosen], facecolors=[palette.color(pes[i]) for i in chosen], edgecolors=ink, linewidths=0,
            hatch=pattern or None))
    # White between the stretches, thinner between narrow ones, so that it hides none of them.
    lines = np.minimum(0.8, 0.2 * np.minimum(widths[1:], widths[:-1]))
    axes.vlines(edges[1:-1], 0, 1, colors="white", linewidths=lines)
    size = axes.sheet.text_size * 0.85
    for a, b, width, pe in zip(edges, edges[1:], widths, pes):
        if width > text_width(f"{pe} ", size):
            _write_number(axes, (a + b) / 2, pe, palette, size)


def _write_number(axes, x, pe, palette, size):
    # A pattern would run through the number: it stands on a plain ground there.
    ground = {"boxstyle": "square,pad=0.22", "facecolor": palette.color(pe), "edgecolor": "none"}
    axes.text(
        x, 0.47, str(pe), ha="center", va="center", fontsize=size, color=palette.ink(pe), clip_on=True,
        bbox=ground if palette.pattern(pe) else None)


def _label_row(axes, label):
    size = axes.sheet.text_size * 0.9
    axes.text(-0.008, 0.5, label, transform=axes.transAxes, ha="right", va="center", fontsize=size, color=QUIET)
