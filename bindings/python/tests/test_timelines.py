"""Pictures of traces: what is drawn of each, counted, and that nothing written lies over something else."""
import collections
import json
import os
import random
import tempfile

import numpy as np

import test_pictures
import tezgumi
from support import TimedTest, example, read_bytes
from test_page import TRACE
from test_program import call

import tezgumi_plot
from tezgumi_plot.palette import COLORS
from tezgumi_plot.timelines import HEADS, LINES, NAMED


HOT_SPOT = os.path.join(os.path.dirname(TRACE), "hot-spot.trace.json")
LETTERS, MOVES = 88, 18


def row(pe, name):
    return {"ph": "M", "name": "thread_name", "pid": 1, "tid": pe, "args": {"name": name}}


def handler(at, pe, element, name="letter", long=1, **told):
    event = {"ph": "X", "name": name, "cat": "handler", "pid": 1, "tid": pe, "ts": at, "dur": long}
    return {**event, "args": {"element": element, **told}} if element is not None else event


def arrow(number, at, pe, to, other, name="letter"):
    flow = {"name": name, "cat": name, "id": number, "pid": 1}
    return [{"ph": "s", "tid": pe, "ts": at, **flow}, {"ph": "f", "bp": "e", "tid": other, "ts": to, **flow}]


def instant(at, pe, name):
    return {"ph": "i", "s": "t", "name": name, "pid": 1, "tid": pe, "ts": at}


def decision(at, number):
    return {"ph": "i", "s": "g", "name": "decision", "pid": 1, "tid": 0, "ts": at, "args": {"round": number}}


def loads(at, *numbers):
    return {"ph": "C", "name": "load", "pid": 1, "ts": at, "args": {f"PE {pe}": load for pe, load in enumerate(numbers)}}


# A run as charm_run traces it, whose times are numbers of events: element 0 moves from PE 0 to PE 1, and a letter to it is
# forwarded.
CHASED = [
    row(0, "PE 0"), row(1, "PE 1"), row(2, "PE 2"),
    handler(0, 0, 0, "start"), handler(1, 2, 1, "start"), handler(4, 0, 0, letter="2.0"), *arrow(1, 1, 2, 4, 0),
    instant(5, 0, "report"), instant(6, 2, "report"), decision(7, 1), loads(7, 0, 4, 1), handler(8, 2, 1, "resume"),
    *arrow(2, 9, 0, 13, 1, "element"), instant(12, 0, "forward"), handler(13, 1, 0, "arrive"), handler(14, 1, 0, "resume"),
    handler(16, 1, 0, letter="2.1"), *arrow(3, 8, 2, 16, 1), instant(17, 1, "report"), *arrow(4, 14, 1, 18, 1),
    handler(18, 1, 0, letter="1.0"), decision(19, 2), loads(19, 0, 2, 3)]


def crowded(pes, elements, handlers, letters=0, moves=0, decisions=0, seed=1):
    """A trace with so many of each, of which handlers lie over each other."""
    rng = random.Random(seed)
    events = [row(pe, f"PE {pe}") for pe in range(pes)]
    events += [
        handler(rng.random() * 1e6, pe, e, long=rng.random() * 3e4)
        for pe, e in ((rng.randrange(pes), e) for e in [*range(elements), *rng.choices(range(elements), k=handlers - elements)])]
    for number in range(letters + moves):
        pe, at = rng.randrange(pes), rng.random() * 1e6
        other = (pe + rng.randrange(1, pes)) % pes
        events += arrow(number, at, pe, at + rng.random() * 1e5, other, "letter" if number < letters else "element")
    return events + [decision(1e6 * k / decisions, k) for k in range(1, decisions + 1)]


def drawn(sheet):
    """How many handlers, letters, elements and decisions are on a sheet."""
    counts = {"handlers": 0, "letters": 0, "elements": 0, "decisions": 0}
    for collection in sheet.axes[0].collections:
        if collection.get_gid() in counts:
            counts[collection.get_gid()] += len(collection.get_paths())
    return tuple(counts.values())


def paths(sheet, name):
    """The corners of what has this name, as lists of numbers."""
    named = [collection for collection in sheet.axes[0].collections if collection.get_gid() == name]
    return sorted(np.round(path.vertices, 6).tolist() for collection in named for path in collection.get_paths())


class Timelines(TimedTest):
    limit = 60
    assert_readable = test_pictures.Texts.assert_readable

    def setUp(self):
        folder = tempfile.TemporaryDirectory()
        self.addCleanup(folder.cleanup)
        self.folder = folder.name

    def file(self, events):
        path = os.path.join(self.folder, "trace.json")
        with open(path, "w", encoding="utf-8") as file:
            json.dump({"traceEvents": events}, file)
        return path

    def draw(self, events, **how):
        return tezgumi_plot.timeline(self.file(events), **how)

    def test_two_pes(self):
        # By hand from the file, whose first event is at 100 microseconds.
        sheet = tezgumi_plot.timeline(TRACE)
        self.assertEqual(drawn(sheet), (6, 1, 1, 1))
        boxes = [(box[0][0], box[2][0], round((box[0][1] + box[1][1]) / 2, 6)) for box in paths(sheet, "handlers")]
        self.assertEqual(boxes, [(0, 40, 0), (10, 70, 1), (50, 80.5, 0), (100, 125, 0), (120, 170, 1), (250, 270, 1)])
        (letter,), (element,), (line,) = (paths(sheet, name) for name in ("letters", "elements", "decisions"))
        self.assertEqual((letter[0][0], element[0][0], line[0][0], line[1][0]), (70, 200, 190, 190))
        self.assertTrue(0 < letter[0][1] < letter[1][1] < 1 and 70 < letter[1][0] < 120)
        texts = [text for text, _ in test_pictures.written(sheet)]
        told = ("6 handlers of 3 elements; 1 letter to another PE (thin arrow); 1 element moved (thick arrow); "
                "1 decision (dashed line)")
        for text in ("2 PEs", told, "PE 0", "PE 1", "microseconds", "element"):
            self.assertIn(text, texts)

    def test_a_run_by_a_seed(self):
        sheet = self.draw(CHASED, title="A letter that chases an element", unit="events")
        self.assertEqual(drawn(sheet), (8, 2, 1, 2))
        texts = [text for text, _ in test_pictures.written(sheet)]
        for text in ("A letter that chases an element", "PE 2", "round 1", "2", "events", "0", "1"):
            self.assertIn(text, texts)
        self.assertTrue(any("2 letters to another PE (thin arrows); 1 element moved" in text for text in texts), texts)
        self.assertEqual([line[0][0] for line in paths(sheet, "decisions")], [7, 19])

    def test_a_run_of_hot_spot(self):
        # What hot_spot --elements 12 --pes 3 --rounds 4 --work 100 --trace FILE wrote, counted by Python's own reader.
        with open(HOT_SPOT, encoding="utf-8") as file:
            events = json.load(file)["traceEvents"]
        count = collections.Counter((event["ph"], event["name"]) for event in events)
        letters = count["X", "letter"]
        self.assertEqual(count["X", "start"], 12)
        self.assertEqual((count["s", "letter"], count["f", "letter"]), (letters, letters))
        moves = count["X", "depart"]
        for kind in (("X", "arrive"), ("s", "element"), ("f", "element")):
            self.assertEqual(count[kind], moves)
        self.assertEqual(count["X", "resume"], count["i", "resumption"])
        self.assertEqual((count["i", "decision"], count["M", "thread_name"]), (4, 3))
        self.assertEqual([count["C", f"load of PE {pe}"] for pe in range(4)], [4, 4, 4, 0])
        self.assertEqual((letters, moves), (LETTERS, MOVES))
        told = tezgumi.traces.timeline_of(events).counts()
        handlers = 12 + letters + count["X", "resume"]
        self.assertEqual((told["handler"], told["element"], told["decision"]), (handlers, moves, 4))
        sheet = tezgumi_plot.timeline(HOT_SPOT)
        self.assertEqual(drawn(sheet), (handlers + 2 * moves, told["letter"], moves, 4))
        texts = [text for text, _ in test_pictures.written(sheet)]
        self.assertTrue(any(f"{handlers} handlers of 12 elements" in text for text in texts), texts)

    def test_rows_go_down(self):
        sheet = self.draw([row(0, "upper"), row(1, "lower"), handler(0, 0, 0), handler(0, 1, 0)])
        heights = {text: box.y0 for text, box in test_pictures.written(sheet)}
        self.assertGreater(heights["upper"], heights["lower"])

    def test_texts_of_a_trace_are_no_mathematics(self):
        wrong = "$\\fra$"
        events = [row(0, wrong), row(1, "$1$"), handler(0, 0, None, wrong, 9), handler(0, 1, None, "a$b$c"), decision(5, wrong)]
        for more, count in ((events, 7), ([*events, handler(20, 0, wrong, long=50), handler(99, 0, "$9$")], 9)):
            sheet = self.draw(more, title=wrong, unit=wrong)
            self.assertTrue(sheet._repr_png_().startswith(b"\x89PNG"))
            texts = [it for it in sheet.findobj(test_pictures.matplotlib.text.Text) if "$" in it.get_text()]
            self.assertEqual([it.get_text() for it in texts if it.get_parse_math()], [])
            self.assertGreaterEqual(len(texts), count, [it.get_text() for it in texts])

    def test_a_color_for_each_element(self):
        for elements, colors in ((1, 1), (7, 7), (8, 7), (NAMED, 7), (NAMED + 1, NAMED + 1)):
            sheet = self.draw([handler(10 * e, 0, e, long=9) for e in range(elements)])
            found = {tuple(color) for it in sheet.axes[0].collections for color in it.get_facecolors().round(4).tolist()}
            self.assertEqual(len(found), colors)
            looks = {(it.get_hatch(), tuple(color)) for it in sheet.axes[0].collections for color in it.get_facecolors().tolist()}
            self.assertEqual(len(looks), elements)
        # By value, and not as texts: 10 comes behind 9.
        sheet = self.draw([handler(e, 0, e) for e in (10, 9, 2)])
        colors = {tuple(it.round(4)) for it in sheet.axes[0].collections[0].get_facecolors()}
        wanted = {tuple(np.round(test_pictures.matplotlib.colors.to_rgba(color), 4)) for color in COLORS[:3]}
        self.assertEqual(colors, wanted)
        legend = [text.get_text() for text in sheet.axes[1].texts]
        self.assertEqual(legend, ["element", "2", "9", "10"])

    def test_handlers_without_elements(self):
        sheet = self.draw([handler(0, 0, None, "begin"), handler(2, 0, None, "receive"), handler(4, 1, None, "begin")])
        self.assertEqual([text.get_text() for text in sheet.axes[1].texts], ["handler", "begin", "receive"])
        self.assertIn("3 handlers of 2 names", [text for text, _ in test_pictures.written(sheet)])
        some = self.draw([handler(0, 0, None, "idle"), handler(2, 0, 5)])
        self.assertEqual([text.get_text() for text in some.axes[1].texts], ["element", "5"])
        self.assertEqual(drawn(some)[0], 2)

    def test_what_is_written_is_readable(self):
        names = [row(0, "a name that is far too long"), row(1, "PE 1")]
        for name, events in {
                "chased": CHASED, "one": [handler(0, 0, 0, long=0)], "nameless": [{"ph": "X", "ts": 0}], "names": names + [
                    handler(k, k % 2, None, f"what a handler of the kind {k} is called") for k in range(28)],
                "few": crowded(4, 20, 200, 30, 10, 4), "many": crowded(32, 1000, 3000, HEADS + 1, HEADS + 1, 40),
                "all": crowded(256, 4000, 9000, 900, 300, 1000)}.items():
            for medium in ("screen", "print"):
                sheet = self.draw(events, title=name, medium=medium)
                self.assert_readable(sheet, f"{name}, {medium}")

    def test_everything_of_a_crowd_is_drawn(self):
        for counts in ((50, 3, 2, 1), (2000, HEADS, HEADS + 1, LINES), (2000, HEADS + 1, HEADS, LINES + 1)):
            sheet = self.draw(crowded(16, 40, *counts))
            self.assertEqual(drawn(sheet), counts)
            shapes = ["arrows" if counts[1] <= HEADS else "lines", "dashed" if counts[3] <= LINES else "thin"]
            text = sheet.texts[1].get_text()
            self.assertTrue(f"(thin {shapes[0]})" in text and f"({shapes[1]} line" in text, text)

    def test_the_earliest_events(self):
        before = tezgumi.traces.MOST_EVENTS
        self.addCleanup(setattr, tezgumi.traces, "MOST_EVENTS", before)
        tezgumi.traces.MOST_EVENTS = 10
        sheet = self.draw([handler(k, 0, k) for k in range(25)])
        self.assertEqual(drawn(sheet)[0], 10)
        self.assertEqual(sheet.axes[0].get_xlabel(), "microseconds, of the first 10 of 25 events")

    def test_files_that_are_refused(self):
        for path, text in ((example("README.md"), "^trace: no JSON"), ("no such file", "^trace: read failed")):
            self.assertRaisesRegex(tezgumi.TraceError, text, tezgumi_plot.timeline, path)
        for events, text in (
                ([], "there is no handler"), ([row(0, "PE 0"), decision(3, 1), instant(4, 0, "report")], "there is no handler"),
                ([{"ph": "B", "ts": 3}], "there is no handler"), ([{"ph": "X"}], "event 0 has no time"),
                ([7], "event 0 has no phase")):
            self.assertRaisesRegex(tezgumi.TraceError, "^trace: " + text, self.draw, events)
        self.assertRaisesRegex(tezgumi.InputError, "medium is 'wall'", self.draw, CHASED, medium="wall")

    def test_no_more_is_read_than_the_longest_trace(self):
        path, before = self.file(CHASED), tezgumi.traces.MOST_BYTES
        self.addCleanup(setattr, tezgumi.traces, "MOST_BYTES", before)
        tezgumi.traces.MOST_BYTES = os.path.getsize(path)
        self.assertEqual(tezgumi.traces.read_trace(path), CHASED)
        tezgumi.traces.MOST_BYTES -= 1
        self.assertRaisesRegex(tezgumi.TraceError, f"^trace: more than {tezgumi.traces.MOST_BYTES} bytes$", tezgumi.traces.read_trace, path)
        self.assertRaisesRegex(tezgumi.TraceError, "^trace: more than", tezgumi.traces.read_trace, "/dev/zero")

    def test_the_program(self):
        for name, start in (("a.png", b"\x89PNG"), ("a.pdf", b"%PDF"), ("a.svg", b"<?xml")):
            path = os.path.join(self.folder, name)
            line = f"{path}: 6 handlers, 1 letter, 1 element, 1 decision\n"
            self.assertEqual(call("timeline", TRACE, "--plot", path), (0, line, ""))
            self.assertTrue(read_bytes(path).startswith(start))
        path = os.path.join(self.folder, "b.svg")
        self.assertEqual(call("timeline", self.file(CHASED), "--plot", path, "--title", "Chased", "--unit", "events")[0], 0)
        for words, status, text in (
                (("timeline", TRACE), 2, "--plot"), (("timeline", "--plot", path), 2, "FILE"),
                (("timeline", TRACE, "--plot", "a.gif"), 2, "'a.gif' does not end with .png, .pdf or .svg"),
                (("timeline",), 3, "dump: read failed"), (("timeline", "README.md", "--plot", path), 3, "trace: no JSON"),
                (("timeline", self.file([decision(3, 1)]), "--plot", path), 3, "trace: there is no handler"),
                (("timeline", TRACE, "--plot", os.path.join(self.folder, "a", "b.png")), 5, "No such file")):
            answer = call(*words)
            self.assertEqual(answer[:2], (status, ""))
            self.assertIn(text, answer[2])
