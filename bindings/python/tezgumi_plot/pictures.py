"""Whole pictures: a decision on a run, and a sweep over numbers of PEs."""
from __future__ import annotations

from typing import Iterable

import numpy as np
from matplotlib.axes import Axes
from matplotlib.figure import Figure
from matplotlib.ticker import FixedLocator, FuncFormatter, NullLocator, ScalarFormatter

import tezgumi
from tezgumi.figures import imbalance

from .bars import PAIRS, draw_bars, draw_limits, of_each
from .chain import DENSE, MARKS, draw_cuts, draw_fence, draw_loads, draw_moves, draw_places, draw_present, every, marked_cuts
from .chain import number_elements
from .palette import COLORS, INK, MANY, QUIET, Palette
from .paper import few_letters, points_wide, sheet_of, text_width

LEFT, WIDTH, NOTES = 0.95, 10.75, 8.75
_ENDINGS = {2: "nd", 3: "rd"}


def decision(
        run: tezgumi.Run, made: tezgumi.Decision, title: str | None = None, checked: tezgumi.Verdict | bool | None = None,
        medium: str = "screen", ax: Axes | None = None) -> Figure:
    """A picture of a decision on a run: the chain with its cuts and its fence, and the load of each PE before and after.

    Of a decision within a tolerance the present cuts are shown too, and the elements that are kept where they are.

    `checked` is what `tezgumi.check` said of the decision, or None where it was not asked. The medium is "screen" or
    "print". The picture is a matplotlib Figure, which a notebook shows; with `ax` it fills the room of these axes, and is their figure.
    A decision that is not right is drawn too, unless its
    cuts divide other elements, or its stops or places are none: InputError.
    """
    _refuse_undrawable(run, made)
    sheet = sheet_of(medium, 8.3, ax)
    figures = tezgumi.figures(run, made)
    palette = _palette(run, made, sheet.scale)
    sheet.write(LEFT, 0.18, title or f"{len(run):,} elements", size=1.35, weight="bold")
    _draw_chain(sheet, run, made, palette)
    _draw_loads_of_pes(sheet, run, made, palette, figures)
    _write_figures(sheet, made, figures, checked)
    return sheet.owner


def _palette(run, made, scale):
    pes = max(run.procs, made.pes)
    used = np.zeros(pes, bool)
    used[run.places] = used[made.places] = True
    return Palette(pes, np.flatnonzero(used), scale)


def _refuse_undrawable(run, made):
    run.refuse_other_places(made.places)
    cuts = made.cuts
    if len(cuts) != made.pes + 1 or cuts[0] != 0 or cuts[-1] != len(run) or (np.diff(cuts) < 0).any():
        raise tezgumi.InputError(f"the cuts do not divide {len(run)} elements into {made.pes} blocks")
    if len(made.names) != made.pes or (made.names >= made.pes).any():
        raise tezgumi.InputError(f"the names are not those of {made.pes} PEs")
    if (made.stops >= len(run)).any():
        raise tezgumi.InputError(f"a stop of the fence is none of {len(run)} elements")


def _draw_chain(sheet, run, made, palette):
    loads = sheet.panel(LEFT, 1.05, WIDTH, 2.35)
    width = draw_loads(loads, run, made, palette)
    draw_cuts(loads, run, made)
    if isinstance(made, tezgumi.NearDecision):
        draw_present(loads, run, made)
    sheet.write(LEFT, 0.58, _told_blocks(run, made, width), color=QUIET, size=0.9)
    draw_fence(sheet.bare(LEFT, 3.44, WIDTH, 0.42), run, made)
    sheet.write(LEFT, 3.88, _told_fence(made), color=QUIET, size=0.9)
    draw_places(sheet.bare(LEFT, 4.18, WIDTH, 0.26), run, made.places, palette, "PE after")
    draw_moves(sheet.bare(LEFT, 4.48, WIDTH, 0.14), run, made)
    before = sheet.bare(LEFT, 4.66, WIDTH, 0.26)
    draw_places(before, run, run.places, palette, "PE before")
    number_elements(before, run)


def _told_blocks(run, made, width):
    if not len(run):
        return "no elements"
    cuts = marked_cuts(run, made)
    text = f"{made.pes} block{'s' if made.pes > 1 else ''}"
    if len(cuts):
        text += f", {_each(cuts)}cut at {'▼' if len(cuts) <= MARKS else '|'}"
    if isinstance(made, tezgumi.NearDecision):
        kept = int(np.count_nonzero(made.places == run.places))
        text += f", today at {'▽' if len(cuts) <= MARKS else '|'}; {kept:,} of {len(run):,} elements kept (grey)"
    empty = int(np.count_nonzero(made.cuts[1:] <= made.cuts[:-1]))
    if empty:
        text += f"; {empty} without elements"
    if width > 1:
        few = f"up to {width:,} elements of a block" if made.pes - empty > MANY else f"{width} elements"
        text += f".  Filled: the mean of {few}; line: the greatest of them"
    return text


def _each(lines):
    """That each second, third .. of the lines is drawn, where they are too many for more."""
    step = every(len(lines))
    return "" if step == 1 else f"each {step}{_ENDINGS.get(step, 'th')} "


def _told_fence(made):
    if not len(made.stops):
        return "no fence: the bottleneck is 0"
    stops = np.unique(made.stops)
    mark = "▲" if len(stops) <= MARKS else "|"
    fence = f"fence {mark}" if len(stops) <= DENSE else f"fence, {_each(stops)}stop {mark}"
    load = few_letters(getattr(made, "least", made.bottleneck))
    told = f"the elements from each stop to the next, both included, weigh {load} or more"
    return f"{fence}: {told}, so no division is lighter"


def _draw_loads_of_pes(sheet, run, made, palette, figures):
    axes = sheet.panel(LEFT, 5.85, 6.35, 1.85)
    draw_bars(axes, run, made, palette)
    draw_limits(axes, made, figures.average_after)
    told = "left: before, right: after" if max(run.procs, made.pes) <= PAIRS else "line: before, filled: after"
    if of_each(max(run.procs, made.pes)) > 1:
        told += f"; the greatest of {of_each(max(run.procs, made.pes))} PEs"
    axes.set_xlabel(f"PE ({told})", fontsize=sheet.text_size, color=INK)


def _write_figures(sheet, made, figures, checked):
    rows = [
        ("imbalance", " → ".join((
            imbalance(figures.greatest_before, figures.procs, figures.total_load),
            imbalance(figures.greatest_after, figures.pes, figures.total_load)))),
        ("greatest load", f"{few_letters(figures.greatest_before)} → {few_letters(figures.greatest_after)}"),
        ("average load", few_letters(figures.average_after)),
        ("PEs", f"{figures.procs} → {figures.pes}" if figures.procs != figures.pes else f"{figures.pes}"),
        ("elements moved", f"{few_letters(figures.moved_elements)} of {few_letters(figures.elements)}"),
        ("bytes moved", f"{few_letters(figures.moved_bytes)} of {few_letters(figures.total_bytes)}"),
    ]
    if isinstance(made, (tezgumi.NearDecision, tezgumi.ReorderedDecision)):
        rows.insert(2, ("limit", f"{few_letters(made.limit)}, {made.tolerance} ‰ above {few_letters(made.least)}"))
    for row, (name, value) in enumerate(rows):
        top = 5.8 + 0.29 * row
        sheet.write(NOTES, top, name, color=QUIET)
        sheet.write(LEFT + WIDTH, top, value, ha="right", weight="bold" if row == 0 else "normal")
    if checked is not None:
        text = "✓ accepted by the checker" if checked else "✗ refused by the checker"
        if isinstance(checked, tezgumi.Verdict) and not checked:
            text = f"✗ {checked}"
        sheet.write(NOTES, 5.8 + 0.29 * len(rows) + 0.06, text, weight="bold")


def sweep(
        swept: Iterable[tezgumi.Figures], title: str | None = None, medium: str = "screen", ax: Axes | None = None) -> Figure:
    """A picture of the figures for several numbers of PEs: the greatest load, the imbalance, and the bytes that move. With `ax` it
    fills the room of these axes, and is their figure."""
    swept = sorted(swept, key=lambda row: row.pes)
    if not swept:
        raise tezgumi.InputError("the sweep has no figures")
    sheet = sheet_of(medium, 5.0, ax)
    sheet.write(LEFT, 0.18, title or f"{swept[0].elements:,} elements", size=1.35, weight="bold")
    panels = [sheet.panel(LEFT + 3.85 * i, 1.0, 2.95, 3.2) for i in range(3)]
    for axes in panels:
        _number_counts(axes, [row.pes for row in swept])
    _sweep_loads(panels[0], swept)
    _sweep_imbalance(panels[1], swept)
    _sweep_moves(panels[2], swept)
    return sheet.owner


def _sweep_loads(axes, swept):
    lines = (
        ("greatest load", [row.greatest_after for row in swept], "o-", COLORS[0]),
        ("average load", [row.average_after for row in swept], "^--", COLORS[5]),
        ("heaviest element", [row.heaviest_element for row in swept], ":", INK),
    )
    for name, values, shape, color in lines:
        _draw_line(axes, swept, values, shape, color, label=name)
    if swept[0].total_load:
        axes.set_yscale("log")
    axes.yaxis.set_major_formatter(FuncFormatter(lambda number, _: few_letters(number)))
    axes.yaxis.set_minor_formatter(FuncFormatter(lambda *_: ""))
    axes.legend(fontsize=axes.sheet.text_size * 0.85, frameon=False, loc="best", handlelength=2.6)
    _head(axes, "load")


def _sweep_imbalance(axes, swept):
    unit = axes.sheet.scale
    _draw_line(axes, swept, [row.imbalance_after for row in swept], "s-", COLORS[5])
    axes.axhline(1, color=INK, linewidth=0.8 * unit, linestyle=(0, (4, 3)))
    most = max(row.imbalance_after for row in swept)
    axes.set_ylim(1 - 0.05 * max(most - 1, 0.01), 1 + 1.05 * max(most - 1, 0.01))
    axes.yaxis.set_major_formatter(ScalarFormatter(useOffset=False))
    _head(axes, "imbalance: greatest over average")


def _sweep_moves(axes, swept):
    whole = max(swept[0].total_bytes, 1)
    _draw_line(axes, swept, [100 * row.moved_bytes / whole for row in swept], "D-", COLORS[2])
    axes.set_ylim(0, 104)
    axes.yaxis.set_major_formatter(FuncFormatter(lambda number, _: f"{number:.0f} %"))
    _head(axes, f"bytes that move, of {few_letters(swept[0].total_bytes)}")


def _draw_line(axes, swept, values, shape, color, **how):
    unit = axes.sheet.scale
    counts = [row.pes for row in swept]
    marked = _apart(axes, counts, lambda *_: 9 * unit)
    axes.plot(
        counts, values, shape, color=color, markersize=6 * unit, linewidth=1.5 * unit,
        markevery=[counts.index(count) for count in marked], **how)


def _head(axes, text):
    axes.set_title(text, fontsize=axes.sheet.text_size, color=INK, loc="left")
    axes.grid(axis="y", color="#e6e6e6", linewidth=0.6 * axes.sheet.scale)
    axes.set_axisbelow(True)


def _number_counts(axes, counts):
    """Numbers of PEs at logarithmic places: each where there is room."""
    axes.set_xscale("log", base=2)
    axes.xaxis.set_minor_locator(NullLocator())
    low, high = np.log2(min(counts)), np.log2(max(counts))
    margin = max(0.05 * (high - low), 0.25)
    axes.set_xlim(2 ** (low - margin), 2 ** (high + margin))
    size = axes.sheet.text_size * 0.9
    numbered = _apart(axes, counts, lambda one, other: text_width(f"{one}{other}", size) / 2 + 4)
    axes.xaxis.set_major_locator(FixedLocator(sorted(numbered)))
    axes.xaxis.set_major_formatter(FuncFormatter(lambda number, _: f"{number:.0f}"))
    axes.set_xlabel("PEs", fontsize=axes.sheet.text_size, color=INK)


def _apart(axes, counts, room):
    """Those of the numbers that are as far apart as the room of any two, in points: the ends first, then powers of two."""
    low, high = axes.get_xlim()
    point = np.log2(high / low) / points_wide(axes)
    ends = min(counts), max(counts)
    taken = []
    for count in sorted(set(counts), key=lambda count: (count not in ends, bin(count).count("1") > 1, count)):
        if all(abs(np.log2(count / other)) > point * room(count, other) for other in taken):
            taken.append(count)
    return taken
