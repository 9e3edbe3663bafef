"""Pages of runs: what they hold, what they refuse, and what a browser shows of them, read out of the page itself."""
import json
import os
import random
import tempfile
import unittest
from dataclasses import replace

import numpy as np

import browser
import slow_checker
import tezgumi
from plain_decisions import decided, near
from support import CHECKOUT, PACKAGES, THREE, TimedTest, as_lists, example, large_run, random_run, read_bytes
from test_checking import FORGED, RIGHT, forge, forge_near
from test_program import call

WEB = os.path.join(PACKAGES, "tezgumi", "web")
TRACE = os.path.join(os.path.dirname(os.path.abspath(__file__)), "two-pes.trace.json")
MARKUP = "</script><script>document.title = 'ran'</script><img src=x onerror=\"document.title = 'ran'\"> & \"quoted\""

# What charm_run prints of examples/hot-spot.workload: of each round the bottleneck and the bytes that move.
HOT_SPOT = ((4519, 44800), (4494, 18048), (4524, 13824), (4478, 17792), (4518, 13056), (4479, 17024), (4518, 12416), (4497, 16512),
            (4516, 12032), (4499, 16128))


def hot_spot():
    """The rounds of that workload, by the words of examples/README.md, each with a decision that is made here.

    The load of a chare is the amount of the one before it, and its size that of a tally: 24 bytes, 4 for each of ten rounds,
    and 64 of padding.
    """
    index, places = np.arange(1000), np.arange(1000) * 8 // 1000
    for number in range(10):
        away = np.abs(index - 100 - 90 * number)
        amounts = 20 + 7 * index % 11 + np.where(away <= 40, (1600 - away * away) // 8, 0)
        run = tezgumi.Run(8, np.roll(amounts, 1), np.full(1000, 128), places, step=number + 1)
        decision = decided(run)
        yield run, decision
        places = decision.places


def wandering(rounds, elements, pes, seed=1):
    """Rounds with random loads and sizes, each on the places that the one before it decided."""
    rng = np.random.default_rng(seed)
    places = np.arange(elements) * pes // elements
    for step in range(rounds):
        run = tezgumi.Run(pes, rng.integers(0, 1000, elements), rng.integers(0, 100_000, elements), places, step=step)
        decision = decided(run)
        yield run, decision
        places = decision.places


def sorted_run(seed):
    """A random run whose elements stand by PE."""
    run, _ = random_run(seed, elements=12, pes=5)
    return replace(run, places=np.sort(run.places))


# What is put in place in the decision on ten elements within 200 thousandths, and what the check says. Its heights are those of
# docs/CERTIFICATES.md, as steps: more than any cuts cost from 1 on for block 0; 60 from 5 on and more from 6 on for block 1; 60
# from 0 on for block 2. In the rows with other heights what is "more" is left out where nothing depends on it.
FORGED_NEAR = (
    ({"least_cuts": [0, 5, 10]}, "CutCount"),
    ({"least": 11}, "Heavy 0"),
    ({"stops": [0, 3, 5, 6]}, "FenceLight 1"),
    ({"order": [2, 0]}, "OrderCount"),
    ({"order": [2, 0, 3]}, "OrderRange"),
    ({"order": [2, 0, 0]}, "OrderTwice"),
    ({"cuts": [0, 5, 10]}, "NearCount"),
    ({"cuts": [0, 7, 5, 10]}, "NoDivision"),
    ({"tolerance": 100}, "PastLimit 1"),
    ({"step_starts": [0, 0, 1]}, "HeightCount"),
    ({"step_starts": [0, 1, 1, 1], "step_places": [0], "step_rises": [1]}, "HeightStart"),
    ({"step_starts": [0, 0, 1, 2], "step_places": [5, 0], "step_rises": [61, 60]}, "Steep 0 5"),
    ({"step_starts": [0, 0, 1, 2], "step_places": [5, 0], "step_rises": [60, 61]}, "Steep 1 7"),
    ({"step_starts": [0, 0, 1, 2], "step_places": [5, 0], "step_rises": [60, 59]}, "HeightLow"),
    ({"step_starts": [0, 0, 0, 0], "step_places": [], "step_rises": []}, "HeightLow"),
    ({"block_prices": [0, 0, 0]}, "PriceGap"),
    ({"moved": 61}, "MovedWrong"),
    ({"present": [0, 4, 6, 10]}, "OrderWrong"),
    ({"present": [0, 4, 7]}, "OrderWrong"),
    ({"present": []}, "OrderWrong"),
    ({"bottleneck": 13}, "BottleneckWrong"),
    ({"bottleneck": 15, "present": [0, 0, 0, 10]}, "OrderWrong"),
    ({"bottleneck": 15, "names": [2, 0]}, "BottleneckWrong"),
    ({"names": [2, 0]}, "NameCount"),
    ({"keep_order": True, "names": [2, 1, 0]}, "NamesNotOrder"),
    ({"keep_order": True, "names": [2, 0]}, "NamesNotOrder"),
    ({"keep_order": True, "names": [2, 1, 0], "bottleneck": 12}, "BottleneckWrong"),
    ({"keep_order": True, "block_prices": [], "moved": 61}, "MovedWrong"),
    ({"keep_order": True, "moves": []}, "MovesWrong"),
)


# A decision on four elements of load 1 and 10 bytes, as the script of a page holds it, within 1,000 thousandths: nothing moves.
STAYS = """const run = { procs: 2, loads: [1n, 1n, 1n, 1n], sizes: [10, 10, 10, 10], places: [0, 0, 1, 1] };
const d = {
  pes: 2, bottleneck: 2n, moved: 0n, cuts: [0, 2, 4], stops: [0, 1, 3], names: [0, 1], blockPrices: [0n, 0n], pePrices: [0n, 0n],
  planned: [0, 0, 1, 1], moves: [], near: true, tolerance: 1000, keepOrder: false, least: 2n, leastCuts: [0, 2, 4], order: [0, 1], present: [0, 2, 4],
  stepStarts: [0, 0, 0], stepPlaces: [], stepRises: [] };
"""
# Other cuts, which move 10 bytes where 0 do, with a step whose rise is not there; what else is then put in place; and the flaw.
MOVES = """Object.assign(d, {
  bottleneck: 3n, moved: 10n, cuts: [0, 1, 4], blockPrices: [0n, 10n], planned: [0, 1, 1, 1], moves: [[1, 0, 1]],
  stepStarts: [0, 0, 1], stepPlaces: [0], stepRises: [] });
"""
FORGED_STEPS = (
    ("", "HeightCount"),
    ("d.stepRises = [10n]", "Steep 0 2"),
    ("d.stepRises = [10n, 10n]", "HeightCount"),
    ("d.stepPlaces = []", "HeightCount"),
    ("d.stepPlaces = []; d.stepRises = [10n]", "HeightCount"),
    ("d.stepStarts = [0, 0, 0]", "HeightCount"),
    ("d.stepStarts = [0, 0, 0]; d.stepPlaces = []", "HeightLow"),
    ("d.stepStarts = [0, 0, 2]; d.stepRises = [10n]", "HeightCount"),
    ("d.stepStarts = [0, 0, 1, 1]; d.stepRises = [10n]", "HeightCount"),
    ("d.stepStarts = [0, 0]; d.stepRises = [10n]", "HeightCount"),
    ("d.stepStarts = [0, 1, 0]; d.stepRises = [10n]", "HeightCount"),
    ("d.stepStarts = [0, 0, 2 ** 64]; d.stepRises = [10n]", "HeightCount"),
    ("d.stepPlaces = [5]; d.stepRises = [10n]", "HeightLow"),
    ("d.stepRises = [2n ** 64n]", "Steep 0 0"),
    ("run.sizes = [2 ** 47, 0, 0, 1]", "NoRun"),
    ("run.sizes.pop()", "NoRun"),
    ("run.places.pop()", "NoRun"),
    ("run.loads.pop()", "NoRun"),
    ("run.sizes.push(10)", "NoRun"),
    ("d.pes = 0", "PeCount"),
    ("d.pes = 4097", "PeCount"),
    ("d.tolerance = 1001", "NoNumber tolerance 0"),
    ("d.keepOrder = 1", "NoNumber keepOrder"),
    ("delete d.keepOrder", "NoNumber keepOrder"),
    ("d.stepRises = null", "NoNumber stepRises"),
    ("d.stepRises = '10'", "NoNumber stepRises"),
    ("d.moves = [null]", "NoNumber moves 0"),
    ("d.moves = null", "NoNumber moves"),
)
# What is put in the place of the last number of each list in turn, and of each number that stands alone.
NO_INDEX = ("NaN", "undefined", "null", "'1'", "true", "-1", "0.5", "Infinity", "1n", "[1]")
NO_AMOUNT = ("NaN", "undefined", "null", "'1'", "true", "-1n", "0.5", "1", "[1n]")
NO_PRICE = ("NaN", "undefined", "null", "'1'", "0.5", "-1")
NUMBERS = (
    (NO_INDEX, ("run.sizes", "run.places", "d.pes", "d.cuts", "d.stops", "d.names", "d.planned", "d.tolerance", "d.leastCuts", "d.order",
                "d.present", "d.stepStarts", "d.stepPlaces")),
    (NO_AMOUNT, ("run.loads", "d.bottleneck", "d.moved", "d.least", "d.stepRises")),
    (NO_PRICE, ("d.blockPrices", "d.pePrices")),
)


class InAFolder(TimedTest):
    def setUp(self):
        folder = tempfile.TemporaryDirectory()
        self.addCleanup(folder.cleanup)
        self.path = os.path.join(folder.name, "run.html")
        self.folder = folder.name

    def write(self, rounds, **how):
        return tezgumi.page(rounds, self.path, **{"decide": None, **how})


class Written(InAFolder):
    limit = 60

    def test_what_a_round_may_be(self):
        dump = example("three-elements.lbd2")
        for given in (dump, THREE, (THREE, None), (THREE, RIGHT), tezgumi.read_dump(dump)):
            self.assertEqual(self.write([given]).bytes, os.path.getsize(self.path))
        self.assertRaisesRegex(tezgumi.InputError, "^a page has one round at least$", self.write, [])
        self.assertRaisesRegex(tezgumi.InputError, "^rounds is .*, and a list of rounds is wanted$", self.write, dump)

    def test_names_that_are_no_text(self):
        odd = os.path.join(os.fsencode(self.folder), b"odd\xff.lbd2")
        tezgumi.write_dump(odd, THREE, RIGHT)
        self.write([os.fsdecode(odd)])
        self.assertIn("<title>odd?.lbd2</title>", read_bytes(self.path).decode())

    def test_who_decides(self):
        asked = []
        self.write([THREE, (THREE, RIGHT)], decide=lambda run: asked.append(run) or RIGHT)
        self.assertEqual(asked, [THREE])
        self.write([THREE, (THREE, RIGHT)], decide=lambda run: asked.append(run) or RIGHT, anew=True)
        self.assertEqual(len(asked), 3)

    def test_files_that_are_none(self):
        for words, error, text in (
                ((["no such file"],), tezgumi.DumpError, "^dump: read failed"),
                (([example("README.md")],), tezgumi.DumpError, r"^dump: not LBD1 or LBD2 \(.*README.md: byte 0 is b'#'; and it is no table, ")):
            self.assertRaisesRegex(error, text, self.write, *words)
        for text, fault in (
                ("{", "no JSON"), ("{}", "there is no list of events"), ('{"traceEvents": 5}', "there is no list of events"),
                ("[5]", "event 0 has no phase"), ('[{"ph": "X"}]', "event 0 has no time"),
                ('[{"ph": "i", "ts": -1}]', "event 0 has no time"),
                ('[{"ph": "i", "ts": 0}, {"ph": "X", "ts": 1, "dur": "2"}]', "event 1 has a duration")):
            trace = os.path.join(self.folder, "trace.json")
            with open(trace, "w", encoding="utf-8") as file:
                file.write(text)
            self.assertRaisesRegex(tezgumi.TraceError, "^trace: " + fault, self.write, [THREE], trace=trace)
        self.assertRaisesRegex(tezgumi.TraceError, "^trace: read failed", self.write, [THREE], trace="no such file")
        self.assertFalse(os.path.exists(self.path))

    def test_the_program(self):
        dumps = self.dumps()
        status, out, errors = call("page", *dumps[:3], "-o", self.path, "--title", "Three", "--trace", TRACE)
        self.assertEqual((status, errors), (0, ""))
        self.assertEqual(out, f"{self.path}: 3 rounds, {os.path.getsize(self.path):,} bytes\n")
        self.assertIn("<title>Three</title>", read_bytes(self.path).decode())
        for words, status, text in (
                (("page", *dumps[:2], "-o", dumps[1]), 5, "r.2 is a file that is read: it would be written over, so name another"),
                (("page", dumps[0], "-o", os.path.join(self.folder, ".", "r.1")), 5, "is a file that is read"),
                (("page", dumps[0], "-o", TRACE, "--trace", TRACE), 5, "is a file that is read"),
                (("page", dumps[0], dumps[0], "-o", self.path), 5, "are both step 1, and a page shows the rounds of one run"),
                (("page", dumps[0]), 2, "-o"), (("page", "-o", self.path), 2, "FILE"), (("page",), 3, "dump: read failed"),
                (("page", dumps[0], "-o", self.path, "--procs", "0"), 2, "0 is not 1 to 4096"),
                (("page", dumps[0], "README.md", "-o", self.path), 3, "dump: not LBD1 or LBD2 (README.md: byte 0 is b'#'; and it is no table"),
                (("page", dumps[0], "-o", self.path, "--trace", "README.md"), 3, "trace: no JSON"),
                (("page", dumps[0], "-o", os.path.join(self.folder, "a", "b")), 5, "No such file")):
            answer = call(*words)
            self.assertEqual(answer[:2], (status, ""))
            self.assertIn(text, answer[2])

    def dumps(self):
        """The dumps of a run of twelve rounds, in the order in which a shell lists them: 1, 10, 11, 12, 2 .."""
        paths = []
        for run, decision in wandering(12, 40, 4):
            paths.append(os.path.join(self.folder, f"r.{run.step + 1}"))
            tezgumi.write_dump(paths[-1], replace(run, step=run.step + 1), decision)
        return paths

    def described(self):
        """What the page that was written holds of its run."""
        text = read_bytes(self.path).decode().partition('<script type="application/json" id="run">')[2]
        return json.loads(text.partition("</script>")[0])

    def test_files_are_put_in_order(self):
        paths = self.dumps()
        self.assertEqual(self.write(paths).notes, ())
        in_order = read_bytes(self.path)
        written = self.write(sorted(paths), title="r.1 to r.12")
        self.assertEqual(written.notes, ("the rounds were put in the order of their steps",))
        self.assertEqual([one["step"] for one in self.described()["rounds"]], list(range(1, 13)))
        self.assertEqual(self.described()["notes"], list(written.notes))
        self.assertEqual(json.dumps(self.described()["rounds"]) in json.dumps(json.loads(
            in_order.decode().partition('id="run">')[2].partition("</script>")[0])), True)
        status, out, errors = call("page", *sorted(paths), "-o", self.path)
        self.assertEqual((status, errors, out.split("\n")[1:]), (0, "", ["the rounds were put in the order of their steps", ""]))

    def test_steps_that_are_missing(self):
        paths = self.dumps()
        for left, note in (
                ([1, 2, 4], "step 3 is not among the rounds"), ([1, 4], "steps 2 to 3 are not among the rounds"),
                ([1, 3, 4, 8, 9], "steps 2, 5 to 7 are not among the rounds")):
            self.assertEqual(self.write([paths[step - 1] for step in left]).notes, (note,))

    def test_files_of_several_runs(self):
        paths = self.dumps()
        self.assertRaisesRegex(
            tezgumi.InputError, "^.*three-elements.lbd2 and .*forged.lbd2 are both step 5, and a page shows the rounds of one run$",
            self.write, [example("three-elements.lbd2"), example("forged.lbd2")])
        self.assertRaisesRegex(
            tezgumi.InputError, "^.*three-elements.lbd2 has 3 elements and .*ten-elements.lbd2 10: a page shows one array$",
            self.write, [example("ten-elements.lbd2"), example("three-elements.lbd2")])
        run, _ = tezgumi.read_dump(paths[1])
        tezgumi.write_dump(paths[1], replace(run, places=3 - run.places))
        self.assertEqual(self.write(paths[:2]).notes, (
            f"the elements of {paths[1]} are not where the decision that {paths[0]} records puts them",))
        self.assertFalse(os.path.exists(os.path.join(self.folder, "no.html")))

    def test_tables(self):
        paths = [os.path.join(self.folder, name) for name in ("b.csv", "a.csv", "c.npy")]
        for path, loads in zip(paths, ("load,place\n1,0\n2,0\n3,1\n", "# load,place\n3,1\n2,0\n1,0\n", None)):
            if loads:
                with open(path, "w", encoding="utf-8") as file:
                    file.write(loads)
        np.save(paths[2], np.array([0.5, 0.25, 0.25]))
        written = self.write(paths, procs=2, decide=lambda run: None)
        unit = tezgumi.Run(2, [0.5, 0.25, 0.25]).unit
        self.assertEqual(written.notes, (
            f"{paths[2]}: loads are in units of {unit!r}, each rounded down: in what was measured all holds within {3 * unit:.3g}",))
        told = self.described()["rounds"]
        self.assertEqual([(one["file"], one["step"], one["procs"], one["elements"]) for one in told], [
            ("b.csv", 0, 2, 3), ("a.csv", 1, 2, 3), ("c.npy", 2, 2, 3)])
        # A table has the step behind that of the file before it, and a dump its own, 5.
        self.write([example("three-elements.lbd2"), paths[0]])
        self.assertEqual([one["step"] for one in self.described()["rounds"]], [5, 6])
        self.write([paths[0], example("three-elements.lbd2")])
        self.assertEqual([one["step"] for one in self.described()["rounds"]], [0, 5])
        for given, kind, text in (
                ([paths[2]], tezgumi.InputError, "/c.npy has no places, so the number of PEs has to be given: procs, or --procs P$"),
                (["-", "-"], tezgumi.InputError, "^- is named more than once, and the standard input can be read once: name files for the others$"),
                ([paths[0], paths[0], example("ten-elements.lbd2")], tezgumi.InputError, "has 3 elements and .* 10: a page shows one array$")):
            self.assertRaisesRegex(kind, text, self.write, given)
        with open(paths[0], "w", encoding="utf-8") as file:
            file.write("load\n-1\n")
        self.assertRaisesRegex(tezgumi.TableError, "^table: .*/b.csv: line 2, column 1: the load is '-1', and a finite number", self.write,
            [paths[0]])

    def test_what_is_read_is_not_written_over(self):
        path = self.dumps()[0]
        before = read_bytes(path)
        self.assertRaisesRegex(tezgumi.InputError, "r.1 is a file that is read", tezgumi.page, [path], path)
        self.assertEqual(read_bytes(path), before)

    def test_who_made_a_decision(self):
        plain = os.path.join(self.folder, "plain")
        tezgumi.write_dump(plain, THREE)
        for given, how, made in (
                ([plain], {}, "planned here; the file records no decision"), ([THREE], {}, "planned here; the run was given without a decision"),
                ([example("three-elements.lbd2")], {}, "recorded"), ([(THREE, RIGHT)], {}, "recorded"),
                ([example("three-elements.lbd2")], {"anew": True}, "planned here; the recorded decision is left aside")):
            self.write(given, decide=lambda run: RIGHT, **how)
            decision = self.described()["rounds"][0]["decision"]
            self.assertEqual((decision["made"], decision["new"]), (made, made != "recorded"))

    def test_sizes(self):
        for rounds, elements, pes in ((1000, 1000, 16), (20, 65_536, 256)):
            written = self.write(wandering(rounds, elements, pes))
            self.assertLess(written.bytes, 8_000_000)
            self.assertEqual(written.left_out, ())

    def test_rounds_that_are_left_out(self):
        rounds = list(hot_spot())
        whole = self.write(rounds)
        part = self.write(rounds, most=whole.bytes - 2500)
        self.assertLessEqual(part.bytes, whole.bytes - 2500)
        self.assertTrue(0 < len(part.left_out) < 10)
        self.assertFalse({1, 10} & set(part.left_out))

    def test_no_script_makes_markup(self):
        for name in os.listdir(WEB):
            text = read_bytes(os.path.join(WEB, name)).decode()
            self.assertNotIn("</script", text if name.endswith(".js") else "")
            for word in ("innerHTML", "outerHTML", "insertAdjacent", "document.write", "eval(", "fetch(", "://"):
                self.assertNotIn(word, text)


class Seen(InAFolder):
    """What a browser shows."""

    limit = 120

    @classmethod
    def setUpClass(cls):
        if browser.found() is None:
            raise unittest.SkipTest("no browser (Debian: chromium)")
        cls.browser = browser.Browser()
        cls.browser.__enter__()
        cls.addClassCleanup(cls.browser.__exit__)

    def open(self, rounds, width=1280, height=900, dark=False, **how):
        self.write(rounds, **how)
        page = self.browser.open(self.path, width, height, dark=dark)
        self.addCleanup(page.close)
        page.wait("document.documentElement.dataset.checked")
        self.assertEqual(page.errors, [])
        self.assertEqual([url[:7] for url in page.requests], ["file://"])
        return page

    def test_the_numbers_of_the_rounds(self):
        rounds = list(hot_spot())
        page = self.open(rounds)
        rows = page.rows("all-rounds")
        self.assertEqual([(int(row[8]), int(row[15])) for row in rows], list(HOT_SPOT))
        for (run, decision), row in zip(rounds, rows):
            told = tezgumi.figures(run, decision)
            self.assertEqual(
                [int(row[k]) for k in (0, 1, 2, 3, 4, 7, 8, 12, 13, 14, 15, 16)],
                [run.step, run.step, told.elements, told.procs, told.greatest_before, told.pes, told.greatest_after,
                 decision.bottleneck, told.bound_after, told.moved_elements, told.moved_bytes, told.total_bytes])
            for k, number in (
                    (5, told.imbalance_before), (6, told.excess_before), (9, told.imbalance_after), (10, told.excess_after),
                    (11, told.average_before)):
                self.assertLessEqual(abs(float(row[k]) - number), 0.001)
            self.assertEqual(row[17:], ["holds", f"round {run.step}", "recorded"])

    def test_the_numbers_of_lb_report(self):
        # docs/FORMATS.md, "What lb_report prints", for three-elements on two PEs and on one.
        one = tezgumi.Decision(1, [0, 0, 0], 4, 9, [0, 3], [0, 2], [0], [9], [0], [(1, 1, 0)])
        rows = self.open([example("three-elements.lbd2"), (THREE, one)]).rows("all-rounds")
        before = ["5", "3", "2", "3", "1.500", "50.000"]
        self.assertEqual(rows[0][1:17], [*before, "2", "2", "1.000", "0.000", "2.000", "2", "2", "1", "10", "27"])
        self.assertEqual(rows[1][1:17], [*before, "1", "4", "1.000", "0.000", "2.000", "4", "4", "1", "9", "27"])

    def test_rounds_that_were_planned_here(self):
        rounds = list(hot_spot())[:4]
        made = "planned here; the run was given without a decision"
        plans = {run.step: decision for run, decision in rounds}
        moved = [decision.moved for _, decision in rounds]
        page = self.open([run for run, _ in rounds], decide=lambda run: plans[run.step])
        self.assertEqual([row[19] for row in page.rows("all-rounds")], [made] * 4)
        summary = page.text("#summary")
        self.assertIn(f"with {sum(moved):,} bytes would move by plans made here, and all 4 plans hold: this page", summary)
        self.assertNotIn("bytes move,", summary)
        self.assertEqual(page.text("#notes"), f"All rounds: {made}, so the run may have moved other elements.")
        self.assertEqual(page.value("document.getElementById('planned-here').hidden"), False)
        for number in range(4):
            page.value(f"choose({number})")
            page.wait(f"document.documentElement.dataset.round === '{number + 1}'")
            self.assertIn(f"({made})", page.text("#chosen"))
            self.assertEqual(page.text("#verdict"), f"✓ The decision holds: every part of it is right. It was {made}.")
        page = self.open([rounds[0], rounds[1][0], rounds[2], rounds[3]], decide=lambda run: plans[run.step])
        summary = page.text("#summary")
        self.assertIn(f"with {moved[0] + moved[2] + moved[3]:,} bytes move; in the other rounds ", summary)
        self.assertIn(f"with {moved[1]:,} bytes would move by a plan made here, and all 4 decisions and plans hold", summary)
        self.assertEqual(page.text("#notes"), f"Round 2: {made}, so the run may have moved other elements.")
        self.assertEqual(page.text("#verdict"), "✓ The decision holds: every part of it is right.")

    def test_the_loads_of_the_pes(self):
        rounds = list(hot_spot())
        page = self.open(rounds)
        for number in (0, 9):
            page.value(f"choose({number})")
            run, decision = rounds[number]
            loads = zip(range(8), tezgumi.pe_loads(run, run.places, 8), tezgumi.pe_loads(run, decision.places, 8))
            self.assertEqual(page.rows("pe-loads"), [[str(part) for part in row] for row in loads])

    def test_the_tables_of_a_chain(self):
        # docs/CERTIFICATES.md draws this chain.
        page = self.open([example("ten-elements.lbd2")])
        self.assertEqual(page.rows("blocks"), [
            ["0", "0", "5", "12", "2", "60"], ["1", "5", "6", "8", "0", "0"], ["2", "6", "10", "10", "1", "70"]])
        self.assertEqual(page.rows("stops"), [
            ["1", "0", "4", "12", "12", "yes"], ["2", "4", "5", "15", "12", "yes"], ["3", "5", "6", "14", "12", "yes"]])
        self.assertEqual(page.rows("moves"), [["4", "7", "60", "0", "2"], ["6", "6", "70", "0", "1"]])
        self.assertEqual(page.rows("prices"), [
            ["0", "60", "2", "0", "60", "60"], ["1", "30", "0", "-30", "0", "0"], ["2", "70", "1", "0", "70", "70"]])
        self.assertEqual({row[1] for row in page.rows("steps")}, {"holds"})
        self.assertEqual(page.text("#summary"), (
            "In this round on 3 PEs the heaviest PE had 2.100 times the average load as measured, and 1.200 times as decided. "
            "For that, 2 elements with 130 bytes move, and the decision holds: this page has checked it."))

    def test_going_from_round_to_round(self):
        page = self.open(list(hot_spot()))
        at = lambda number: page.wait(
            f"document.documentElement.dataset.round === '{number}' && document.getElementById('round').value === '{number}'")
        at(1)
        page.press("ArrowRight")
        at(2)
        page.press("ArrowLeft")
        at(1)
        page.click("#next")
        at(2)
        page.click("#previous")
        at(1)
        page.click("#round", share=0.999)
        at(10)
        page.press("ArrowLeft")
        at(9)
        page.click("#before", share=0.2)
        at(page.value("1 + roundAt(document.getElementById('before'), 10, 0.2 * document.getElementById('before').clientWidth)"))
        self.assertEqual(page.value("document.querySelectorAll('#all-rounds tr.chosen').length"), 0)
        page.rows("all-rounds")
        page.wait("document.querySelectorAll('#all-rounds tr.chosen').length === 1")

    def test_going_along_the_chain(self):
        page = self.open([example("ten-elements.lbd2")])
        part = lambda: page.value("[chainPart.from, chainPart.to]")
        self.assertEqual(part(), [0, 30])
        page.click("#chain-in")
        self.assertEqual(part(), [7.5, 22.5])
        page.click("#chain-whole")
        page.value("document.getElementById('chain-picture').focus()")
        page.press("+")
        narrow = part()
        self.assertTrue(0 < narrow[0] < narrow[1] < 30)
        page.press("ArrowRight")
        self.assertGreater(part()[0], narrow[0])
        self.assertEqual(page.value("document.getElementById('round').value"), "1")
        page.press("0")
        self.assertEqual(part(), [0, 30])
        self.assertEqual(
            page.value("tellElement(LEFT + 1, 1000)"),
            "Element 0: load 1, 10 bytes, on PE 2, stays; block 0, elements 0 to 4, load 12, on PE 2.")
        page.click("#chain-even")
        page.wait("chainPart.to === 10")

    def test_every_forged_decision_is_named(self):
        forged = [(THREE, replace(RIGHT, **changed)) for changed, _ in FORGED]
        page = self.open([(THREE, RIGHT), *forged])
        found = [row[17] for row in page.rows("all-rounds")]
        self.assertEqual(found, ["holds", *(line for _, line in FORGED)])
        self.assertEqual({line.split()[0] for line in found[1:]}, {flaw.word for flaw in tezgumi.Flaw if flaw <= 19})
        self.assertEqual([row[12] for row in page.rows("all-rounds")], ["2", *["–"] * len(FORGED)])
        for number, (_, line) in enumerate(FORGED, 1):
            page.value(f"choose({number})")
            self.assertIn(f"does not hold. {line}: ", page.text("#verdict"))
            self.assertIn(line, [row[1] for row in page.rows("steps")])
        self.assertEqual(page.errors, [])
        self.assertIn(f"{len(FORGED)} decisions do not hold: in round 2 the check says CutCount", page.text("#summary"))

    def test_where_a_forged_dump_is_wrong(self):
        page = self.open([example("forged.lbd2")])
        text = "✗ The decision does not hold. MovedWrong: it says that 9 bytes move, and these names move 10."
        self.assertEqual(page.text("#verdict"), text)

    def test_the_way_to_a_flaw(self):
        run = large_run()
        right = decided(run)
        light = replace(right, stops=[*right.stops[:100], right.stops[99], *right.stops[101:]])
        page = self.open([(run, light)])
        self.assertIn("FenceLight 100: ", page.text("#verdict"))
        page.click("#where")
        first, last = page.value("[elementAt(chain.starts, chainPart.from), elementAt(chain.starts, chainPart.to)]")
        self.assertTrue(right.stops[99] - 3 <= first <= right.stops[99] <= last <= right.stops[99] + 3)

    def test_decisions_of_random_runs(self):
        runs = [random_run(seed, elements=12, pes=5) for seed in range(120)]
        right = [(run, decided(run, pes)) for run, pes in runs]
        forged = [(run, forge(random.Random(seed), run, one)) for seed, (run, one) in enumerate(right)]
        page = self.open(right + forged)
        found = [row[17] for row in page.rows("all-rounds")]
        lines = [slow_checker.first_flaw(as_lists(run), as_lists(one)) for run, one in right + forged]
        self.assertEqual(found, [line[len("check: "):].replace("ok", "holds") for line in lines])
        self.assertEqual(set(found[:120]), {"holds"})

    def test_decisions_of_the_planner(self):
        try:
            rounds = [(run, tezgumi.decide(run, pes)) for run, pes in (random_run(seed) for seed in range(60))]
        except tezgumi.LibraryError as error:
            self.skipTest(str(error))
        rounds.append((large_run(), tezgumi.decide(large_run())))
        page = self.open(rounds)
        self.assertEqual({row[17] for row in page.rows("all-rounds")}, {"holds"})

    def test_decisions_within_a_tolerance(self):
        # docs/CERTIFICATES.md tells of this one: cuts 0 5 7 10 within 14, which is 2 above the least load, and 60 bytes.
        ten = tezgumi.read_dump(example("ten-elements.lbd2")).run
        one = near(ten, 200)
        self.assertEqual((one.cuts.tolist(), one.moved, one.bottleneck), ([0, 5, 7, 10], 60, 14))
        runs = [sorted_run(seed) for seed in range(60)]
        rounds = [(run, near(run, 50 * (seed % 8), seed % 3 == 0)) for seed, run in enumerate(runs)]
        page = self.open([(ten, one), (ten, replace(one, keep_order=True, block_prices=[])), *rounds])
        self.assertEqual({row[17] for row in page.rows("all-rounds")}, {"holds"})
        self.assertEqual([row[12] for row in page.rows("all-rounds")][0], "12")
        self.assertEqual(
            [row[1:] for row in page.rows("steps")][5], ["holds", "each weighs 14 at most, 200 thousandths above 12"])
        self.assertEqual(page.value("document.getElementById('prices-told').hidden"), False)
        page.value("choose(1)")
        self.assertEqual([row[0] for row in page.rows("steps")][9:], [
            "The PEs keep their order", "The bytes are those that move", "The moves are those of the names"])
        self.assertEqual(page.value("document.getElementById('prices-told').hidden"), True)
        self.assertEqual(page.rows("prices"), [])

    def test_an_order_that_is_not_the_present_one(self):
        # In it no cuts move fewer than 20 bytes; in the order of the elements none move any.
        run = tezgumi.Run(2, [1] * 4, [10] * 4, [0, 0, 1, 1])
        other, right = near(run, 1000, order=[1, 0]), near(run, 1000)
        self.assertEqual((other.moved, right.moved, other.order.tolist()), (20, 0, [1, 0]))
        # The elements of PE 0 are not together, and PE 2 is none of the two that are to be.
        apart, past = replace(run, places=[0, 1, 0, 1]), replace(run, procs=3, places=[0, 0, 2, 2])
        flat = replace(right, step_starts=[0, 0, 0], step_places=[], step_rises=[])
        claims = [(run, right), (run, other), (run, replace(other, cuts=[0, 0, 4])), (run, replace(other, present=right.present)),
                  (apart, near(apart, 1000)), (past, flat)]
        found = [row[17] for row in self.open(claims).rows("all-rounds")]
        self.assertEqual(found, ["holds"] + ["OrderWrong"] * 5)
        lines = [slow_checker.first_near_flaw(as_lists(one), as_lists(claim), True) for one, claim in claims]
        self.assertEqual(found, [line[len("check: "):].replace("ok", "holds") for line in lines])

    def test_random_decisions_within_a_tolerance(self):
        runs = [sorted_run(seed) for seed in range(150)]
        right = [(run, near(run, 40 * (seed % 11), seed % 2 == 1)) for seed, run in enumerate(runs)]
        forged = [(run, forge_near(random.Random(seed), run, one)) for seed, (run, one) in enumerate(right)]
        found = [row[17] for row in self.open(right + forged).rows("all-rounds")]
        lines = [slow_checker.first_near_flaw(as_lists(run), as_lists(one), True) for run, one in right + forged]
        self.assertEqual(found, [line[len("check: "):].replace("ok", "holds") for line in lines])
        self.assertEqual(set(found[:150]), {"holds"})
        self.assertGreater(len({line.split()[0] for line in found[150:]}), 15)

    def test_every_forged_decision_within_a_tolerance_is_named(self):
        ten = tezgumi.read_dump(example("ten-elements.lbd2")).run
        one = near(ten, 200)
        page = self.open([(ten, replace(one, **changed)) for changed, _ in FORGED_NEAR])
        self.assertEqual([row[17] for row in page.rows("all-rounds")], [line for _, line in FORGED_NEAR])
        for number, (_, line) in enumerate(FORGED_NEAR):
            page.value(f"choose({number})")
            self.assertIn(f"{line}: ", page.text("#verdict"))
        self.assertEqual(page.errors, [])

    def test_steps_that_are_none(self):
        page = self.open([(THREE, RIGHT)])
        found = lambda script: page.value(f"(() => {{ {STAYS} {script}; return flawLine(nearFlaw(run, d)); }})()")
        self.assertEqual(found(""), "holds")
        self.assertEqual(found("d.moves = [[1, 0, 1]]"), "MovesWrong")
        for script, line in FORGED_STEPS:
            self.assertEqual(found(MOVES + script), line, script)
        wide = "readRound(0).then(({ run, decision }) => flawLine(firstFlaw(run, { ...decision, moves: [[0, 0, 1, 0]] })))"
        self.assertEqual(page.value(wide), "MovesWrong")
        told = page.value(f"""(() => {{ {STAYS} d.limit = limitOf(d); d.stepRises = [7n]; return checked({{ run, decision: d }}).rows; }})()""")
        self.assertEqual([row[1] for row in told], ["holds"] * 6 + ["HeightCount"] + ["–"] * 6)

    def test_numbers_that_are_none(self):
        page = self.open([THREE])
        for kinds, names in NUMBERS:
            for name in names:
                script = f"""(() => [{", ".join(kinds)}].map((none) => {{
                  {STAYS} {MOVES} d.stepRises = [10n];
                  if (Array.isArray({name})) {name}[{name}.length - 1] = none; else {name} = none;
                  return [nearFlaw, firstFlaw].map((check) => flawLine(check(run, d))).join();
                }}))()"""
                at = page.value(f"(() => {{ {STAYS} {MOVES} d.stepRises = [10n]; return Array.isArray({name}) ? {name}.length - 1 : 0; }})()")
                line = f"NoNumber {name.split('.')[1]} {at}"
                is_near = name[2:] in ("tolerance", "least", "leastCuts", "order", "present", "stepStarts", "stepPlaces", "stepRises")
                self.assertEqual(page.value(script), [f"{line},{'FenceLight 1' if is_near else line}"] * len(kinds), name)
        holes = page.value(f"(() => {{ {STAYS} d.cuts = [0, , 4]; return flawLine(nearFlaw(run, d)); }})()")
        self.assertEqual(holes, "NoNumber cuts 1")

    def test_decisions_of_the_planner_within_a_tolerance(self):
        runs = [sorted_run(seed) for seed in range(60)]
        try:
            rounds = [(run, tezgumi.decide(run, tolerance=40 * (seed % 9))) for seed, run in enumerate(runs)]
        except tezgumi.LibraryError as error:
            self.skipTest(str(error))
        self.assertTrue(any(isinstance(one, tezgumi.NearDecision) for _, one in rounds))
        self.assertEqual({row[17] for row in self.open(rounds).rows("all-rounds")}, {"holds"})

    def test_the_greatest_numbers(self):
        most = tezgumi.Run(2, [tezgumi.DUMP_LOAD] * 9, [tezgumi.DUMP_STATE_BYTES] * 9, [0] * 9, step=2**32 - 1)
        low, high = -2**63, 2**63 - 1
        forged = [replace(RIGHT, block_prices=one, pe_prices=other) for one, other in (
            ([high, high], [high, high]), ([low, low], [low, low]), ([high, 1], [low, 0]), ([low, high], [0, low]))]
        rows = self.open([(most, decided(most)), *((THREE, one) for one in forged)]).rows("all-rounds")
        self.assertEqual((rows[0][4], rows[0][17]), (str(9 * tezgumi.DUMP_LOAD), "holds"))
        self.assertEqual([row[17] for row in rows[1:]], ["PriceHigh 0 0", "PriceGap", "PriceHigh 0 1", "PriceHigh 1 0"])

    def test_rounds_with_little_in_them(self):
        empty, idle = tezgumi.Run(3, [], [], []), tezgumi.Run(2, [0, 0], [1, 1], [0, 1])
        page = self.open([empty, (empty, decided(empty)), idle, (idle, decided(idle)), example("moving-front.lbd1")])
        found = [row[17] for row in page.rows("all-rounds")]
        self.assertEqual(found, ["no decision", "holds", "no decision", "holds", "no decision"])
        for number in range(5):
            page.value(f"choose({number})")
        self.assertEqual(page.errors, [])

    def test_rounds_that_are_left_out(self):
        rounds = list(hot_spot())
        written = self.write(rounds)
        page = self.open(rounds, most=written.bytes - 2500)
        self.assertTrue(page.text("#notes").startswith("The page has the elements of "))
        left_out = page.value("page.rounds.findIndex((one) => !one.heads)")
        page.value(f"choose({left_out})")
        self.assertIn("left out", page.text("#verdict"))
        rows = page.rows("all-rounds")
        self.assertEqual(rows[left_out][17], "left out")
        self.assertEqual([(int(row[8]), int(row[15])) for row in rows], list(HOT_SPOT))

    def test_texts_are_no_markup(self):
        odd = os.path.join(self.folder, "<img src=x onerror=\"document.title='ran'\">.lbd2")
        tezgumi.write_dump(odd, THREE, RIGHT)
        with open(TRACE, encoding="utf-8") as file:
            text = file.read().replace('"PE 0"', json.dumps(MARKUP)).replace('"begin"', json.dumps(MARKUP))
        trace = os.path.join(self.folder, "<b>trace.json")
        with open(trace, "w", encoding="utf-8") as file:
            file.write(text)
        page = self.open([odd], title=MARKUP, trace=trace)
        self.assertEqual(page.value("document.title"), MARKUP)
        self.assertEqual(page.value("document.getElementById('title').textContent"), MARKUP)
        self.assertEqual(page.rows("all-rounds")[0][18], os.path.basename(odd))
        self.assertEqual(page.rows("timeline-rows")[0][0], MARKUP)
        page.rows("timeline-events")
        self.assertEqual(page.value("document.querySelectorAll('img, b:not(figcaption b)').length"), 0)

    def test_a_timeline(self):
        page = self.open([THREE], trace=TRACE)
        # By hand from the file: handlers, nanoseconds at work, instants, letters sent and taken, elements that left and came.
        self.assertEqual(page.rows("timeline-rows"), [
            ["PE 0", "3", "95500", "2", "2", "1", "1", "0"], ["PE 1", "3", "130000", "2", "1", "2", "0", "1"]])
        rows = page.rows("timeline-events")
        kinds = [row[2] for row in rows]
        counted = {"handler": 6, "letter": 3, "element": 1, "instant": 5, "counter": 4}
        self.assertEqual({kind: kinds.count(kind) for kind in kinds}, counted)
        self.assertIn(["120000", "PE 1", "handler", "receive", "2", "50000"], rows)
        self.assertIn(["200000", "PE 0 to PE 1", "element", "element 0", "", "30000"], rows)
        self.assertIn(["190000", "all", "instant", "decision", "", "–"], rows)
        self.assertIn("1 event of other kinds", page.text("#timeline-note"))
        page.click("#timeline-in")
        self.assertLess(len(page.rows("timeline-events")), len(rows))

    def test_light_and_dark_wide_and_narrow(self):
        rounds = list(hot_spot())
        for width, dark in ((1280, False), (1280, True), (400, False), (400, True)):
            page = self.open(rounds, width, 900, dark=dark, trace=TRACE)
            self.assertLessEqual(page.value("document.documentElement.scrollWidth"), width)
            for name in ("before", "greatest", "bytes", "chain-picture", "timeline-picture"):
                self.assertGreater(page.value(COLORS_OF % name), 2, name)

    def test_in_the_readers_grouping_and_on_paper(self):
        self.write(list(hot_spot()))
        page = self.browser.open("about:blank")
        self.addCleanup(page.close)
        page.ask("Emulation.setLocaleOverride", locale="de-DE")
        page.ask("Page.navigate", url="file://" + self.path)
        page.wait("document.documentElement?.dataset.checked")
        self.assertIn("1.419 Elements".lower(), page.text("#summary").lower())
        self.assertIn("3,267 times", page.text("#summary"))
        self.assertTrue(page.printed().startswith(b"%PDF"))
        self.assertEqual(page.errors, [])

    def test_large_pages_are_drawn_at_once(self):
        for rounds, elements, pes in ((1000, 1000, 16), (20, 65_536, 256)):
            self.write(wandering(rounds, elements, pes))
            quickest = min(self.milliseconds() for _ in range(3))
            self.assertLess(quickest, 2000)

    def milliseconds(self):
        """How long it takes from the opening of the page until all is drawn."""
        page = self.browser.open(self.path)
        page.wait("document.documentElement.dataset.drawn")
        drawn = int(page.value("document.documentElement.dataset.drawn"))
        self.assertEqual(page.errors, [])
        page.close()
        return drawn


# How many colors a picture has.
COLORS_OF = """(() => {
  const it = document.getElementById('%s');
  return new Set(new Uint32Array(it.getContext('2d').getImageData(0, 0, it.width, it.height).data.buffer)).size;
})()"""
