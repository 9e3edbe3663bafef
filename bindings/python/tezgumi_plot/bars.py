"""The load of each PE before and after."""
import numpy as np

import tezgumi

from .chain import draw_boxes, draw_steps
from .palette import FAINT, INK, MANY, QUIET
from .paper import count_axis, number_axis, points_high, points_wide, text_width

PAIRS = 40
"""So many PEs have a pair of bars each; for more the loads before are a line."""
BARS = 512
"""So many bars there are at most: of more PEs, each stands for several."""


def draw_bars(axes, run, decision, palette):
    """Loads before in grey, with an outline, and loads after in the color and the pattern of each PE."""
    pes = max(run.procs, decision.pes)
    before = tezgumi.pe_loads(run, run.places, pes).astype(float)
    after = tezgumi.pe_loads(run, decision.places, pes).astype(float)
    unit = axes.sheet.scale
    if pes > MANY:
        _draw_groups(axes, before, after, palette)
    elif pes <= PAIRS:
        axes.bar(np.arange(pes) - 0.2, before, 0.38, facecolor=FAINT, edgecolor=QUIET, linewidth=0.7 * unit)
        _draw_after(axes, after[:decision.pes], palette, 0.2, 0.38)
    else:
        _draw_after(axes, after[:decision.pes], palette, 0.0, 1.0)
        axes.stairs(before, np.arange(pes + 1) - 0.5, color=INK, linewidth=0.9 * unit, baseline=None)
    axes.set_xlim(-0.6, pes - 0.4)
    top = max(before.max(), after.max(), 1) * 1.06
    axes.set_ylim(0, top)
    number_axis(axes.yaxis, top)
    _number_pes(axes, pes)
    axes.set_ylabel("load of a PE", fontsize=axes.sheet.text_size, color=INK)


def of_each(pes):
    """A bar stands for so many PEs, and has the greatest of their loads."""
    return -(-pes // BARS) if pes > MANY else 1


def _draw_groups(axes, before, after, palette):
    """Bars of a few PEs each, in the color of the one with the greatest load, and the loads before as a line."""
    pes = len(before)
    starts = np.arange(0, pes, of_each(pes))
    edges = np.append(starts, pes) - 0.5
    heaviest = [start + int(np.argmax(after[start:start + of_each(pes)])) for start in starts]
    draw_boxes(axes, edges, after[heaviest], palette.colors[heaviest])
    draw_steps(axes, edges, np.maximum.reduceat(before, starts), 0.9)


def draw_limits(axes, decision, average):
    """The greatest load after as a line, and the average as a broken one, each with its name at the right."""
    unit, size = axes.sheet.scale, axes.sheet.text_size * 0.85
    top = axes.get_ylim()[1]
    heights = [decision.bottleneck, average]
    axes.axhline(heights[0], color=INK, linewidth=1.0 * unit)
    axes.axhline(heights[1], color=INK, linewidth=1.0 * unit, linestyle=(0, (4, 3)))
    # Names of lines that are near each other are moved apart.
    line = size * 1.25 / points_high(axes)
    at = [heights[0] / top, heights[1] / top]
    if at[0] - at[1] < line:
        middle = max(sum(at) / 2, line / 2)
        at = [middle + line / 2, middle - line / 2]
    for place, name in zip(at, ("— greatest after", "- - average")):
        axes.text(1.006, place, name, transform=axes.transAxes, fontsize=size, color=INK, va="center", ha="left")


def _draw_after(axes, loads, palette, shift, width):
    unit = axes.sheet.scale
    for pe, load in enumerate(loads):
        axes.bar(
            pe + shift, load, width, color=palette.color(pe), edgecolor=palette.pattern_ink(pe), linewidth=0,
            hatch=palette.pattern(pe) or None)
    if width < 1:
        axes.bar(np.arange(len(loads)) + shift, loads, width, facecolor="none", edgecolor=INK, linewidth=0.7 * unit)


def _number_pes(axes, pes):
    size = axes.sheet.text_size * 0.9
    room = points_wide(axes) / text_width(f"{pes}" + "  ", size)
    count_axis(axes.xaxis, pes, min(room, PAIRS))
