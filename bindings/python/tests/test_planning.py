"""Plans and decisions: beside what lb_sim prints, and beside a plain planner; every refusal; figures and sweeps."""
import os
import subprocess
import sys
from concurrent.futures import ThreadPoolExecutor
from dataclasses import replace
from unittest import mock

import numpy as np

import slow_planner
import tezgumi
from support import FRONT_TEXT, PACKAGES, THREE, THREE_ON_ONE_TEXT, THREE_TEXT
from support import TimedTest, example, front, large_run, random_run
from tezgumi import planning

RUNS = 200
HERE = os.path.dirname(os.path.abspath(__file__))


class BesideLbSim(TimedTest):
    def test_the_texts_of_the_examples(self):
        for run, pes, text in ((THREE, None, THREE_TEXT), (THREE, 1, THREE_ON_ONE_TEXT), (front(), None, FRONT_TEXT)):
            decision = tezgumi.decide(run, pes)
            self.assertEqual(tezgumi.replay_text(run, decision), text)
            self.assertEqual(str(tezgumi.check(run, decision)), "check: ok")

    def test_small_texts(self):
        empty = tezgumi.Run(3, [], [], [])
        blocks = "".join(f"block {block} 0..0 load 0 pe -\n" for block in range(3))
        text = f"step 0 procs 3 elements 0\nbottleneck 0\nfence zero\n{blocks}moved 0\n"
        self.assertEqual(tezgumi.replay_text(empty, tezgumi.decide(empty)), text)
        two = tezgumi.Run(2, [1, 1], [8, 8], [0, 0])
        blocks = "block 0 0..1 load 1 pe 0\nblock 1 1..2 load 1 pe 1\n"
        text = f"step 0 procs 2 elements 2\nbottleneck 1\nfence 0 0 0\n{blocks}moved 8\n"
        self.assertEqual(tezgumi.replay_text(two, tezgumi.decide(two)), text)

    def test_recorded_decisions(self):
        for name, line in (("three-elements.lbd2", "check: ok"), ("forged.lbd2", "check: MovedWrong")):
            self.assertEqual(str(tezgumi.check(*tezgumi.read_dump(example(name)))), line)


class BesideAPlainPlanner(TimedTest):
    limit = 60

    def test_random_runs(self):
        for seed in range(RUNS):
            with self.subTest(seed=seed):
                self.compare(*random_run(seed))

    def test_random_runs_on_more_pes(self):
        for seed in range(20):
            with self.subTest(seed=seed):
                self.compare(*random_run(seed, elements=60, pes=12))

    def compare(self, run, pes):
        lists = run.loads.tolist(), run.bytes.tolist(), run.places.tolist()
        bottleneck, cuts, stops, names, moved, places = slow_planner.plan(*lists, pes)
        decision = tezgumi.decide(run, pes)
        found = decision.cuts.tolist(), decision.stops.tolist(), decision.names.tolist()
        self.assertEqual((decision.bottleneck, decision.moved, *found), (bottleneck, moved, cuts, stops, names))
        self.assertEqual(decision.places.tolist(), places)
        self.assertEqual(tezgumi.plan(run, pes), tezgumi.Plan(pes, places, bottleneck, moved))
        self.assertEqual(repr(tezgumi.check(run, decision)), "Verdict(right)")
        self.assertEqual(tezgumi.decode(tezgumi.encode(run, decision)), (run, decision))
        figures = tezgumi.figures(run, decision)
        self.assertEqual((figures.greatest_after, figures.moved_bytes), (bottleneck, moved))
        self.assertEqual(figures.moved_elements, len(decision.moves))

    def test_the_plain_planner_by_trial(self):
        for seed in range(60):
            run, pes = random_run(seed, elements=9, pes=5)
            lists = run.bytes.tolist(), run.places.tolist()
            cuts = slow_planner.greedy_cuts(run.loads.tolist(), pes, slow_planner.least_bottleneck(run.loads.tolist(), pes))
            cost = slow_planner.costs(*lists, cuts)
            self.assertEqual(slow_planner.cheapest_naming(cost), slow_planner.cheapest_naming_by_trial(cost))


class Calls(TimedTest):
    def test_lists_and_arrays_have_one_plan(self):
        run = front()
        plain = tezgumi.Run(16, run.loads.tolist(), run.bytes.tolist(), run.places.tolist(), step=12)
        self.assertEqual(tezgumi.decide(plain), tezgumi.decide(run))

    def test_the_most_elements_and_the_greatest_numbers_of_a_dump(self):
        count, load, size = tezgumi.DUMP_ELEMENTS, tezgumi.DUMP_LOAD, tezgumi.DUMP_STATE_BYTES
        run = tezgumi.Run(256, np.full(count, load), np.full(count, size), np.arange(count) % 256)
        decision = tezgumi.decide(run)
        self.assertEqual(decision.bottleneck, 256 * load)
        self.assertEqual(decision.moved, (count - 256) * size)
        self.assertTrue(tezgumi.check(run, decision))

    def test_more_and_fewer_pes_than_the_run_has(self):
        run = front()
        for pes in (1, 7, 256, 4096):
            decision = tezgumi.decide(run, pes)
            self.assertEqual((decision.pes, len(decision.cuts), len(decision.names)), (pes, pes + 1, pes))
            self.assertTrue(tezgumi.check(run, decision))

    def test_several_threads_at_once(self):
        runs = [random_run(seed, elements=2000, pes=64) for seed in range(12)]
        alone = [tezgumi.decide(*one) for one in runs]
        with ThreadPoolExecutor(4) as threads:
            for _ in range(5):
                self.assertEqual(list(threads.map(lambda one: tezgumi.decide(*one), runs)), alone)

    def test_moves(self):
        moves = tezgumi.decide(THREE).moves
        self.assertEqual((moves.dtype, moves.tolist()), (tezgumi.MOVE, [(0, 0, 1)]))
        self.assertEqual(moves["planned"].tolist(), [1])

    def test_wrong_numbers_of_pes(self):
        for call in (tezgumi.plan, tezgumi.decide):
            for pes in (0, 4097, -1, True):
                self.assertRaisesRegex(tezgumi.InputError, "^pes is .*; it has to be 1 to 4096$", call, THREE, pes)
            self.assertRaisesRegex(tezgumi.InputError, "^pes is 2.0, which is no whole number$", call, THREE, 2.0)

    def test_what_is_answered_stays(self):
        decision = tezgumi.decide(THREE)
        for name in ("places", "cuts", "stops", "names", "block_prices", "pe_prices", "moves"):
            self.assertFalse(getattr(decision, name).flags.writeable, name)


class Statuses(TimedTest):
    """What the library refuses, where the tests of Run are passed by."""

    def forced(self, **lists):
        run = replace(THREE)
        for name, values in lists.items():
            object.__setattr__(run, name, values)
        return run

    def assert_refused(self, kind, text, run):
        decision = tezgumi.Decision(2, [1, 1, 0], 2, 10, [0, 2, 3], [0, 1, 2], [1, 0], [10, 1], [-1, 0], [(0, 0, 1)])
        for call in (tezgumi.plan, tezgumi.decide, lambda run: tezgumi.check(run, decision)):
            with self.assertRaisesRegex(tezgumi.TezgumiError, text) as caught:
                call(run)
            self.assertIs(type(caught.exception), kind)

    def test_input(self):
        text = "^the library refuses the run or the number of PEs$"
        self.assert_refused(tezgumi.InputError, text, self.forced(places=np.array([0, 2, 0], np.uint32)))
        many = 2**15 + 1
        self.assert_refused(tezgumi.InputError, text, self.forced(
            loads=np.zeros(many, np.uint64), bytes=np.full(many, 2**32 - 1, np.uint32), places=np.zeros(many, np.uint32)))
        self.assert_refused(tezgumi.InputError, text, self.forced(procs=4097))
        self.assert_refused(tezgumi.InputError, text, self.forced(places=np.array([0, 1], np.uint32)))

    def test_load(self):
        wide = np.array([0, 2**63 - 1, 1], np.uint64)
        text = "^the library refuses the loads, which add up to too much$"
        self.assert_refused(tezgumi.LoadError, text, self.forced(loads=wide))
        both = self.forced(loads=wide, procs=0)
        self.assert_refused(tezgumi.InputError, "^the library refuses the run", both)

    def test_memory(self):
        # In a process of its own, whose memory is used up when the library asks for some.
        words = [sys.executable, os.path.join(HERE, "use_up_memory.py")]
        ended = subprocess.run(words, stdout=subprocess.PIPE, env={**os.environ, "PYTHONPATH": PACKAGES}, timeout=15)
        self.assertEqual(ended.stdout.decode(), "plan OutOfMemory\ndecide OutOfMemory\ndivide OutOfMemory\ncheck OutOfMemory\nafter True\n")

    def test_a_status_that_is_not_known(self):
        with mock.patch.object(planning, "library", lambda: mock.Mock(**{"tezgumi_plan.return_value": -9})):
            self.assertRaisesRegex(tezgumi.TezgumiError, "^the library answers the status -9$", tezgumi.plan, THREE)


class FiguresOfPlans(TimedTest):
    def test_the_example(self):
        figures = tezgumi.figures(THREE, tezgumi.plan(THREE))
        self.assertEqual(figures, tezgumi.Figures(
            elements=3, procs=2, pes=2, total_load=4, heaviest_element=2, greatest_before=3, greatest_after=2,
            least_before=1, least_after=2, deviation_before=0.5, deviation_after=0.0, idle_before=0, idle_after=0,
            empty_before=0, empty_after=0, moved_elements=1, moved_bytes=10, total_bytes=27, leaving_bytes=10,
            entering_bytes=10))
        self.assertEqual((figures.average_before, figures.average_after), (2.0, 2.0))
        self.assertEqual((figures.imbalance_before, figures.imbalance_after), (1.5, 1.0))
        self.assertEqual((figures.excess_before, figures.excess_after), (50.0, 0.0))
        self.assertEqual((figures.bound_before, figures.bound_after), (2, 2))
        self.assertEqual(str(figures), "\n".join((
            "                before  after", "PEs                  2      2", "greatest load        3      2",
            "average load      2.00   2.00", "imbalance        1.500  1.000", "moved elements       1   of 3",
            "moved bytes         10  of 27")))

    def test_uneven_loads(self):
        run = tezgumi.Run(3, [1, 2, 4], [1, 1, 1], [0, 1, 2])
        figures = tezgumi.figures(run, tezgumi.plan(run))
        self.assertEqual((figures.greatest_after, figures.least_before, figures.least_after), (4, 1, 0))
        self.assertEqual((figures.bound_before, figures.bound_after), (4, 4))
        self.assertEqual((figures.idle_before, figures.idle_after, figures.empty_before, figures.empty_after), (0, 1, 0, 1))
        deviations = f"{figures.deviation_before:.3f} {figures.deviation_after:.3f} {figures.excess_after:.3f}"
        self.assertEqual(deviations, "0.535 0.728 71.429")
        self.assertEqual((figures.leaving_bytes, figures.entering_bytes), (1, 1))

    def test_no_load(self):
        idle = replace(THREE, loads=[0, 0, 0])
        figures = tezgumi.figures(idle, tezgumi.plan(idle))
        self.assertEqual((figures.imbalance_before, figures.imbalance_after, figures.greatest_after), (1.0, 1.0, 0))

    def test_sums_past_53_bits_are_exact(self):
        count, load = tezgumi.DUMP_ELEMENTS, tezgumi.DUMP_LOAD
        run = tezgumi.Run(2, np.full(count, load), np.zeros(count, int), np.arange(count) % 2)
        loads = tezgumi.pe_loads(run, run.places, 2)
        self.assertEqual(loads.tolist(), [count // 2 * load] * 2)
        figures = tezgumi.figures(run, tezgumi.Plan(2, np.arange(count) % 2, 0, 0))
        self.assertEqual((figures.total_load, figures.imbalance_after), (count * load, 1.0))
        self.assertIn("4,611,686,018,427,355,136.00", str(figures))

    def test_places_that_are_none(self):
        for places, text in (
                ([0, 0.5, 1], "^element 1 is on no processor: its place is 0.5, and with 2 PEs it is 0 to 1$"),
                (np.array([0.0, 1.9, 1.0]), "^element 0 is on no processor: its place is 0.0"),
                ([0, float("nan"), 0], "^element 1 .* nan"), ([0, 1, -1], "^element 2 .* -1"), ([0, 1, 2], "^element 2 .* 2, and with 2 PEs"),
                (np.array([0, 2**32, 0]), "^element 1 .* 4294967296"), ([0, None, 0], "^element 1 .* None"), (["0", "1", "1"], "^element 0 .* '0'"),
                ([True, False, True], "^element 0 .* True"), ([[0], [1], [0]], "one dimension")):
            self.assertRaisesRegex(tezgumi.InputError, text, tezgumi.pe_loads, THREE, places, 2)
        for places in ([0, 0.5, 1], np.array([0.0, 1.0, 1.0]), [0, float("nan"), 0], [0, 1, -1], [0, 1, 2**32], ["0", "1", "1"]):
            self.assertRaisesRegex(tezgumi.InputError, r"^places\[.\] is ", THREE.moves_to, places)
        for pes, text in ((0, "^pes is 0"), (4097, "^pes is 4097"), (2.0, "^pes is 2.0, which is no whole number$")):
            self.assertRaisesRegex(tezgumi.InputError, text, tezgumi.pe_loads, THREE, [0, 0, 0], pes)
        for kind in (np.int8, np.uint64, ">i4", object):
            self.assertEqual(tezgumi.pe_loads(THREE, np.array([0, 1, 1], kind), 2).tolist(), [1, 3])
            self.assertEqual(THREE.moves_to(np.array([0, 1, 1], kind)).tolist(), [(2, 0, 1)])

    def test_a_sweep(self):
        run = front()
        swept = tezgumi.sweep(run, (1, 4, 16))
        self.assertEqual([row.pes for row in swept], [1, 4, 16])
        least = [slow_planner.least_bottleneck(run.loads.tolist(), pes) for pes in (1, 4, 16)]
        self.assertEqual([row.greatest_after for row in swept], least)
        self.assertEqual(swept[2].moved_bytes, 82746)
        lines = str(swept).split("\n")
        self.assertEqual(lines[0], "PEs  greatest load  average load  imbalance  moved elements  moved bytes")
        self.assertEqual(lines[3], " 16            876        819.63      1.068             137       82,746")
        self.assertEqual([row.pes for row in tezgumi.sweep(THREE)], [1, 2, 4, 8, 16, 32, 64, 128, 256])
        peaks = [row.greatest_after for row in tezgumi.sweep(large_run())]
        self.assertEqual(peaks, sorted(peaks, reverse=True))

    def test_how_a_notebook_shows_them(self):
        swept = tezgumi.sweep(THREE, (1, 2))
        for shown in (swept, swept[0]):
            printer = mock.Mock()
            shown._repr_pretty_(printer, False)
            printer.text.assert_called_once_with(str(shown))

    def test_places_of_another_run(self):
        three, far = tezgumi.plan(THREE), tezgumi.Plan(1, [0, 0, 1], 4, 9)
        other = replace(tezgumi.decide(THREE), cuts=[0, 2, 9])
        for text, call, given in (
                ("^the plan is for 3 elements, and the run has 300$", tezgumi.figures, (front(), three)),
                ("^the plan is for 2 elements, and the run has 3$", tezgumi.pe_loads, (THREE, [0, 0], 2)),
                ("^the plan is for 2 elements, and the run has 3$", THREE.moves_to, ([0, 0],)),
                ("^element 2 is on no processor: its place is 1, and with 1 PEs", tezgumi.figures, (THREE, far)),
                ("^the cuts go to element 9, and the run has 3$", tezgumi.replay_text, (THREE, other))):
            self.assertRaisesRegex(tezgumi.InputError, text, call, *given)
