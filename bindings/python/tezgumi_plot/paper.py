"""The sheet that pictures are drawn on, and what they all need: sizes of text, room for labels, numbers in few letters."""
from __future__ import annotations

import io
import os
from typing import Union

import matplotlib
from matplotlib.axes import Axes
from matplotlib.backends.backend_agg import FigureCanvasAgg
from matplotlib.figure import Figure
from matplotlib.ticker import FixedLocator, FuncFormatter, MaxNLocator

from tezgumi import InputError

from .palette import INK, QUIET

MEDIA = {"screen": (12.0, 110, 11.0), "print": (7.0, 300, 7.0)}
"""Of each medium the width in inches, the dots of an inch, and the size of text in points."""


def sheet_of(medium, height, ax):
    """What a picture is drawn on: a figure of its own, or these axes of the caller's figure, if there are some."""
    return Sheet(medium, height) if ax is None else Inset(medium, height, ax)


class _Paper:
    """What pictures are drawn on. Lengths are told in twelfths of its width, from its top and left. Axes have it as `sheet`."""

    def on(self, axes):
        """These axes, with the frame that all pictures have."""
        axes.sheet = self
        for side in ("top", "right"):
            axes.spines[side].set_visible(False)
        axes.tick_params(labelsize=self.text_size * 0.9, colors=QUIET, length=3 * self.scale, width=0.8 * self.scale)
        for spine in axes.spines.values():
            spine.set_color(QUIET)
            spine.set_linewidth(0.8 * self.scale)
        return axes

    def panel(self, left, top, width, height):
        """Axes at this place."""
        across, down = self.lengths(width, height)
        return self.on(self.owner.add_axes((*self.point(left, top + height), across, down)))

    def bare(self, left, top, width, height):
        """Axes without a frame or ticks."""
        axes = self.panel(left, top, width, height)
        axes.set_axis_off()
        return axes

    def write(self, left, top, text, size=1.0, **how):
        """Text whose upper left corner is here. It is shown as it is, also where it has a $ in it."""
        how = {"color": INK, "va": "top", "ha": "left", "parse_math": False, **how}
        return self.owner.text(*self.point(left, top), text, fontsize=self.text_size * size, **how)


class Sheet(_Paper, Figure):
    """A figure that a notebook shows by itself."""

    def __init__(self, medium, height):
        width, dots, self.text_size = _look(medium)
        self.scale = width / 12
        self.twelfths = height
        super().__init__(figsize=(width, height * self.scale), dpi=dots, facecolor="white")
        FigureCanvasAgg(self)

    @property
    def owner(self):
        """The figure that has the axes and texts."""
        return self

    def point(self, left, top):
        """A place in fractions of the figure, from its bottom and left."""
        return left / 12, 1 - top / self.twelfths

    def lengths(self, width, height):
        """A width and a height in fractions of the figure."""
        return width / 12, height / self.twelfths

    def draw(self, renderer):
        with matplotlib.rc_context({"hatch.linewidth": self.scale}):
            super().draw(renderer)

    def _repr_png_(self):
        data = io.BytesIO()
        self.savefig(data, format="png")
        return data.getvalue()


class Inset(_Paper):
    """The room of axes in the caller's figure, which are shown no more. A picture fills it, however wide and high it is."""

    def __init__(self, medium, height, ax):
        width, _, size = _look(medium)
        if not isinstance(ax, Axes):
            raise InputError(f"ax: axes of matplotlib are wanted, and not a {type(ax).__name__}")
        self.owner, self.box, self.twelfths = ax.figure, ax.get_position(), height
        ax.set_axis_off()
        wide = points_wide(ax) / 72
        self.scale, self.text_size = wide / 12, size * wide / width

    def point(self, left, top):
        """A place in fractions of the figure, from its bottom and left."""
        return self.box.x0 + self.box.width * left / 12, self.box.y1 - self.box.height * top / self.twelfths

    def lengths(self, width, height):
        """A width and a height in fractions of the figure."""
        return self.box.width * width / 12, self.box.height * height / self.twelfths


def _look(medium):
    if medium not in MEDIA:
        raise InputError(f"medium is {medium!r}, and there are {', '.join(MEDIA)}")
    return MEDIA[medium]


def save(picture: Figure, path: Union[str, "os.PathLike[str]"]) -> None:
    """Writes a picture into a file, by the end of its name: .png, .pdf or .svg."""
    if not str(path).lower().endswith((".png", ".pdf", ".svg")):
        raise InputError(f"{path}: a picture's name ends with .png, .pdf or .svg")
    picture.savefig(path)


def points_wide(axes):
    """The width of axes in points, of which a digit takes about 0.6 of the size of its text."""
    return axes.bbox.width * 72 / axes.figure.dpi


def points_high(axes):
    """The height of axes in points."""
    return axes.bbox.height * 72 / axes.figure.dpi


def text_width(text, size):
    return 0.62 * size * len(text)


UNITS = ((1e18, " E"), (1e15, " P"), (1e12, " T"), (1e9, " G"), (1e6, " M"), (1e3, " k"))


def unit_of(number):
    """What a number is told in: the divisor and its letter. Up to four digits are told as they are."""
    if abs(number) < 9999.5:
        return 1.0, ""
    return next((unit, letter) for unit, letter in UNITS if abs(number) >= 0.9995 * unit)


def few_letters(number):
    """A number in about three digits and a letter; up to four digits as it is."""
    unit, letter = unit_of(number)
    if not letter:
        return f"{number:,}" if isinstance(number, int) else f"{number:,.4g}"
    part = number / unit
    return f"{part:.0f}{letter}" if part >= 99.95 else f"{part:.3g}{letter}"


def number_axis(axis, top):
    """Ticks for numbers from 0 to the top, all in one unit."""
    unit, letter = unit_of(top)
    axis.set_major_locator(MaxNLocator(5, steps=[1, 2, 2.5, 5, 10], integer=not letter, min_n_ticks=1))
    axis.set_major_formatter(FuncFormatter(lambda number, _: f"{number / unit:,.4g}{letter if number else ''}"))


def count_axis(axis, count, room):
    """Ticks at whole numbers below a count: at each, or where there is no room for so many at each second, fifth, tenth .."""
    step = next(digit * 10**power for power in range(10) for digit in (1, 2, 5) if count <= room * digit * 10**power)
    axis.set_major_locator(FixedLocator(range(0, count, step)))
    axis.set_major_formatter(FuncFormatter(lambda number, _: f"{number:,.0f}"))
