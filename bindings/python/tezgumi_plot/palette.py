"""Colors and patterns of PEs, which readers who see colors differently can tell apart too.

The seven colors are those of M. Okabe and K. Ito, "Color Universal Design", 2008, without black. With four patterns they
name 28 PEs. More PEs are colored by number, along cividis: J. Nuñez, C. Anderton and R. Renslow, "Optimizing colormaps with
consideration for color vision deficiency", PLoS ONE 13(7), 2018. Black and grey are left for cuts, stops and loads before.
"""
import matplotlib
import numpy as np
from matplotlib.colors import to_rgb

COLORS = ("#0072B2", "#E69F00", "#009E73", "#CC79A7", "#56B4E9", "#D55E00", "#F0E442")
PATTERNS = ("", "////", "oo", "xxxx")
INK, QUIET, FAINT, KEPT = "#1a1a1a", "#555555", "#d0d0d0", "#a8a8a8"
MANY = 256
"""More blocks or PEs than this are drawn at once: each is about as narrow as a dot."""


class Palette:
    """The color and the pattern of each PE of so many. Where only a few are in use, these share out the colors."""

    def __init__(self, pes, used, scale=1.0):
        named = len(COLORS) * len(PATTERNS)
        self.density = round(1 / scale)
        self.is_scale = pes > named and len(used) > named
        self.ranks = np.arange(pes)
        if self.is_scale:
            self.colors = matplotlib.colormaps["cividis"](np.linspace(0, 1, pes))[:, :3]
            return
        if pes > named:
            self.ranks = np.zeros(pes, int)
            self.ranks[used] = np.arange(len(used))
        self.colors = np.array([to_rgb(COLORS[rank % len(COLORS)]) for rank in self.ranks])

    def color(self, pe):
        return tuple(self.colors[pe])

    def pattern(self, pe):
        """The signs of the pattern, more of them on a small sheet, so that they are as dense there."""
        return "" if self.is_scale else PATTERNS[self.ranks[pe] // len(COLORS)] * self.density

    def ink(self, pe):
        """White or black, whichever is read better on the color."""
        return "white" if luminance(self.colors[pe]) < 0.18 else "black"

    def pattern_ink(self, pe):
        """White, or nearly black on a light color."""
        return "white" if luminance(self.colors[pe]) < 0.45 else INK


def luminance(color):
    """The relative luminance of a color, 0 to 1, as the guidelines for accessible web content define it."""
    parts = np.asarray(color[:3], dtype=float)
    linear = np.where(parts <= 0.04045, parts / 12.92, ((parts + 0.055) / 1.055) ** 2.4)
    return float(linear @ (0.2126, 0.7152, 0.0722))
