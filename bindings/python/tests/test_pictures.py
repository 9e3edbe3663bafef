"""Pictures: nothing written lies over something else or beyond the sheet, and colors are told apart by every reader."""
import os
import tempfile
import unittest
from dataclasses import replace

import numpy as np

import tezgumi
from support import THREE, TimedTest, front, large_run, read_bytes

try:
    import matplotlib.colors
    import matplotlib.text
    from matplotlib.backends.backend_agg import FigureCanvasAgg
    from matplotlib.figure import Figure

    import tezgumi_plot
    from tezgumi_plot.palette import COLORS, FAINT, INK, PATTERNS, Palette, luminance
    from tezgumi_plot.paper import few_letters
except ImportError as error:
    raise unittest.SkipTest(f"no pictures: {error}")

# How a color looks to readers without one kind of cone: G. Machado, M. Oliveira and L. Fernandes, "A physiologically-based
# model for simulation of color vision deficiency", IEEE TVCG 15(6), 2009, severity 1, on linear colors.
SEEN = {
    "all cones": ((1, 0, 0), (0, 1, 0), (0, 0, 1)),
    "protanopia": ((0.152286, 1.052583, -0.204868), (0.114503, 0.786281, 0.099216), (-0.003882, -0.048116, 1.051998)),
    "deuteranopia": ((0.367322, 0.860646, -0.227968), (0.280085, 0.672501, 0.047413), (-0.011820, 0.042940, 0.968881)),
    "tritanopia": ((1.255528, -0.076749, -0.178779), (-0.078411, 0.930809, 0.147602), (0.004733, 0.691367, 0.303900)),
}


def small():
    """Twenty elements on four PEs."""
    index = np.arange(20)
    return tezgumi.Run(4, 5 + index * 7 % 31, 100 + index * 37 % 91, index * 4 // 20)


def runs():
    """Runs of many sizes, each with a number of PEs to plan for."""
    scattered = replace(large_run(), places=np.random.default_rng(2).integers(0, 256, tezgumi.DUMP_ELEMENTS))
    return {
        "none": (tezgumi.Run(3, [], [], []), 3),
        "one": (tezgumi.Run(1, [5], [7], [0]), 1),
        "idle": (replace(THREE, loads=[0, 0, 0]), 2),
        "three": (THREE, 2),
        "20": (small(), 4),
        "20 on 256": (small(), 256),
        "300": (front(), 16),
        "300 on 28": (front(), 28),
        "300 on 64": (front(), 64),
        "65,536": (large_run(), 256),
        "65,536 on 8": (large_run(pes=8), 8),
        "scattered": (scattered, 256),
        "greatest": (tezgumi.Run(2, [tezgumi.DUMP_LOAD] * 9, [tezgumi.DUMP_STATE_BYTES] * 9, [0] * 9), 2),
    }


def written(sheet):
    """Every text that is seen on a sheet, with its box, in dots."""
    sheet.canvas.draw()
    texts = [*sheet.texts, *(text for axes in sheet.axes for text in shown_texts(axes))]
    return [(text.get_text(), text.get_window_extent()) for text in texts if text.get_visible() and text.get_text().strip()]


def shown_texts(axes):
    """The texts of axes that are drawn: labels of ticks alone where the axes are on and the tick is inside."""
    texts = list(axes.texts) + [axes.title, axes._left_title, axes._right_title]
    legend = axes.get_legend()
    texts += legend.get_texts() if legend else []
    if axes.axison:
        texts += [axes.xaxis.label, axes.yaxis.label]
        for axis, (low, high) in ((axes.xaxis, sorted(axes.get_xlim())), (axes.yaxis, sorted(axes.get_ylim()))):
            ticks = [tick for tick in axis.get_major_ticks() if low <= tick.get_loc() <= high and tick.label1.get_visible()]
            texts += [tick.label1 for tick in ticks]
    return texts


class Texts(TimedTest):
    limit = 60

    def assert_readable(self, sheet, name):
        boxes = written(sheet)
        self.assertGreater(len(boxes), 4)
        whole = sheet.bbox
        for text, box in boxes:
            inside = box.x0 >= -1 and box.y0 >= -1 and box.x1 <= whole.x1 + 1 and box.y1 <= whole.y1 + 1
            self.assertTrue(inside, f"{name}: {text!r} leaves the sheet")
        for i, (text, box) in enumerate(boxes):
            for other, beside in boxes[:i]:
                width = min(box.x1, beside.x1) - max(box.x0, beside.x0)
                height = min(box.y1, beside.y1) - max(box.y0, beside.y0)
                slack = 0.15 * min(box.height, beside.height)
                self.assertFalse(width > 0 and height > slack, f"{name}: {text!r} lies over {other!r}")

    def test_decisions(self):
        for name, (run, pes) in runs().items():
            for medium in ("screen", "print") if name in ("20", "300", "65,536") else ("screen",):
                sheet = tezgumi_plot.decision(run, tezgumi.decide(run, pes), title=name, checked=True, medium=medium)
                self.assert_readable(sheet, f"{name}, {medium}")

    def test_decisions_within_a_tolerance(self):
        for name, run, tolerance in (
                ("20", small(), 100), ("300", front(), 50), ("65,536", large_run(), 20), ("20 kept", small(), 1000)):
            made = tezgumi.decide(run, tolerance=tolerance)
            self.assertIs(type(made), tezgumi.NearDecision, name)
            for medium in ("screen", "print"):
                sheet = tezgumi_plot.decision(run, made, title=name, checked=tezgumi.check(run, made), medium=medium)
                self.assert_readable(sheet, f"{name}, {medium}")
                texts = [text for text, _ in written(sheet)]
                kept = int(np.count_nonzero(made.places == run.places))
                self.assertTrue(any(f"{kept:,} of {len(run):,} elements kept" in text for text in texts), texts)
                self.assertIn("limit", texts)

    def test_sweeps(self):
        for medium in ("screen", "print"):
            for name, run, counts in (
                    ("all", front(), range(1, 257, 3)), ("twice", large_run(), None), ("one", THREE, (2,)),
                    ("near", front(), (250, 251, 256)), ("idle", replace(THREE, loads=[0, 0, 0]), (1, 2, 3))):
                sheet = tezgumi_plot.sweep(tezgumi.sweep(run, counts), title=name, medium=medium)
                self.assert_readable(sheet, f"{name}, {medium}")

    def test_numbers_in_few_letters(self):
        for number, text in (
                (0, "0"), (999, "999"), (9999, "9,999"), (10_000, "10 k"), (12_345, "12.3 k"), (999_400, "999 k"),
                (999_600, "1 M"), (2**47, "141 T"), (65_536 * 2**47, "9.22 E"), (819.5625, "819.6"), (1.5, "1.5")):
            self.assertEqual(few_letters(number), text)


class Colors(TimedTest):
    def test_every_reader_tells_the_colors_apart(self):
        colors = [matplotlib.colors.to_rgb(color) for color in (*COLORS, FAINT, INK)]
        for name, matrix in SEEN.items():
            labs = [lightness_and_hue(color, matrix) for color in colors]
            for i, one in enumerate(labs):
                for j in range(i):
                    self.assertGreater(np.linalg.norm(one - labs[j]), 11, f"{name}: {i} and {j}")

    def test_a_color_and_a_pattern_of_its_own_for_each_pe(self):
        for pes in (1, 7, 8, 28):
            palette = Palette(pes, np.arange(pes))
            self.assertEqual(len({(palette.color(pe), palette.pattern(pe)) for pe in range(pes)}), pes)
        palette = Palette(256, np.array([3, 70, 255]))
        first = [matplotlib.colors.to_rgb(color) for color in COLORS[:3]]
        self.assertEqual([palette.color(pe) for pe in (3, 70, 255)], first)

    def test_many_pes_rise_in_lightness_for_every_reader(self):
        palette = Palette(256, np.arange(256))
        for name, matrix in SEEN.items():
            light = [lightness_and_hue(palette.color(pe), matrix)[0] for pe in range(0, 256, 5)]
            self.assertTrue(all(a < b for a, b in zip(light, light[1:])), name)

    def test_numbers_are_read_on_each_color(self):
        palette = Palette(7, np.arange(7))
        for pe in range(7):
            lights = sorted((luminance(palette.color(pe)), luminance(matplotlib.colors.to_rgb(palette.ink(pe)))))
            self.assertGreater((lights[1] + 0.05) / (lights[0] + 0.05), 4.5)


def lightness_and_hue(color, matrix):
    """The color as a reader sees it, in CIE L*a*b*, whose distances are those that are noticed."""
    parts = np.asarray(color[:3])
    linear = np.clip(np.array(matrix) @ np.where(parts <= 0.04045, parts / 12.92, ((parts + 0.055) / 1.055) ** 2.4), 0, 1)
    to_xyz = np.array([[0.4124, 0.3576, 0.1805], [0.2126, 0.7152, 0.0722], [0.0193, 0.1192, 0.9505]])
    x, y, z = (to_xyz @ linear) / np.array([0.9505, 1.0, 1.089])
    f = lambda t: np.cbrt(t) if t > 0.008856 else 7.787 * t + 16 / 116
    return np.array([116 * f(y) - 16, 500 * (f(x) - f(y)), 200 * (f(y) - f(z))])


class Files(TimedTest):
    def test_files_and_notebooks(self):
        sheet = tezgumi_plot.decision(THREE, tezgumi.decide(THREE))
        self.assertTrue(sheet._repr_png_().startswith(b"\x89PNG"))
        with tempfile.TemporaryDirectory() as folder:
            for name, start in (("a.png", b"\x89PNG"), ("a.pdf", b"%PDF"), ("a.svg", b"<?xml")):
                tezgumi_plot.save(sheet, os.path.join(folder, name))
                self.assertTrue(read_bytes(os.path.join(folder, name)).startswith(start))

    def test_in_the_axes_of_a_caller(self):
        made = tezgumi.Decision(2, [1, 1, 0], 2, 10, [0, 2, 3], [0, 1, 2], [1, 0], [10, 1], [-1, 0], [(0, 0, 1)])
        trace = os.path.join(os.path.dirname(os.path.abspath(__file__)), "two-pes.trace.json")
        for draw in (
                lambda **how: tezgumi_plot.decision(THREE, made, **how),
                lambda **how: tezgumi_plot.sweep([tezgumi.figures(THREE, made)], **how),
                lambda **how: tezgumi_plot.timeline(trace, **how)):
            figure = Figure(figsize=(20, 8))
            left, right = figure.subplots(1, 2)
            room = left.get_position()
            alone = draw()
            self.assertIs(draw(ax=left), figure)
            drawn = [axes for axes in figure.axes if axes not in (left, right)]
            self.assertEqual(len(drawn), len(alone.axes))
            for axes, other in zip(drawn, alone.axes):
                box = axes.get_position()
                self.assertTrue(room.x0 - 1e-9 <= box.x0 < box.x1 <= room.x1 + 1e-9 and room.y0 - 1e-9 <= box.y0 < box.y1 <= room.y1 + 1e-9)
                self.assertEqual(axes.get_xlabel(), other.get_xlabel())
            self.assertEqual([text.get_text() for text in figure.texts], [text.get_text() for text in alone.texts])
            self.assertFalse(left.axison)
            self.assertTrue(right.axison)
            FigureCanvasAgg(figure).draw()
        self.assertRaisesRegex(tezgumi.InputError, "^ax: axes of matplotlib are wanted, and not a int$", tezgumi_plot.decision, THREE, made, ax=5)

    def test_decisions_that_are_not_right(self):
        decision = tezgumi.decide(THREE)
        for changed, line in (
                ({"moved": 9}, "✗ check: MovedWrong"), ({"cuts": [0, 1, 3]}, "✗ check: Heavy 1"),
                ({"stops": [0, 1]}, "✗ check: FenceCount")):
            forged = replace(decision, **changed)
            sheet = tezgumi_plot.decision(THREE, forged, checked=tezgumi.check(THREE, forged))
            self.assertIn(line, [text for text, _ in written(sheet)])
        for changed, text in (
                ({"cuts": [0, 2, 2]}, "the cuts do not divide 3 elements into 2 blocks"),
                ({"cuts": [0, 4, 3]}, "the cuts do not divide"),
                ({"names": [0, 2]}, "the names are not those of 2 PEs"),
                ({"stops": [0, 1, 3]}, "a stop of the fence is none of 3 elements"),
                ({"places": [0, 0, 2]}, "^element 2 is on no processor")):
            self.assertRaisesRegex(tezgumi.InputError, text, tezgumi_plot.decision, THREE, replace(decision, **changed))

    def test_a_title_is_no_mathematics(self):
        made = tezgumi.decide(THREE)
        swept = [tezgumi.figures(THREE, made)]
        # The first would be set as a formula, the second is a wrong one, and the third has one sign alone.
        for title in ("$x$ and $y$ in 5 $", "$\\frac{$", "a \\$ and $b$", "5 $"):
            for sheet in (tezgumi_plot.decision(THREE, made, title=title), tezgumi_plot.sweep(swept, title=title)):
                self.assertIn(title, [text for text, _ in written(sheet)])
                self.assertTrue(sheet._repr_png_().startswith(b"\x89PNG"))
                plain = [text.get_parse_math() for text in sheet.findobj(matplotlib.text.Text) if text.get_text() == title]
                self.assertEqual(plain, [False])

    def test_what_is_refused(self):
        decision = tezgumi.decide(THREE)
        self.assertRaisesRegex(tezgumi.InputError, "the plan is for 3 elements", tezgumi_plot.decision, front(), decision)
        self.assertRaisesRegex(tezgumi.InputError, "the sweep has no figures", tezgumi_plot.sweep, [])
        sheet = tezgumi_plot.decision(THREE, decision)
        text = "^a.gif: a picture's name ends with .png, .pdf or .svg$"
        self.assertRaisesRegex(tezgumi.InputError, text, tezgumi_plot.save, sheet, "a.gif")
        self.assertRaisesRegex(tezgumi.InputError, "medium is 'wall'", tezgumi_plot.decision, THREE, decision, medium="wall")

    def test_no_line_is_left_out_or_crowded(self):
        self.assertEqual(PATTERNS[0], "")
        sheet = tezgumi_plot.decision(large_run(), tezgumi.decide(large_run()))
        numbers = [text for text, _ in written(sheet) if text.isdigit()]
        self.assertLess(len(numbers), 60)
