"""Decisions within a tolerance, also in the order of the PEs: beside a search through all cuts and all namings, forged ones, and
what is refused."""
import os
import random
import sys
from dataclasses import replace

import numpy as np

import slow_checker
import slow_planner
import tezgumi
from plain_decisions import near as plain_near
from support import CHECKOUT, THREE, TimedTest, as_lists, front, large_run
from test_checking import forge_near
from tezgumi import Flaw, refining

sys.path.append(os.path.join(CHECKOUT, "benches", "refinement"))
import search_all

SEEDS = 4000
LOADS, SIZES = [1, 1, 1, 2, 7, 8, 6, 2, 1, 1], [10, 10, 10, 20, 60, 90, 70, 20, 10, 10]
TEN = tezgumi.Run(3, LOADS, SIZES, [2, 2, 2, 2, 0, 0, 0, 1, 1, 1])


def near():
    return tezgumi.decide(TEN, tolerance=167)


class BesideASearch(TimedTest):
    limit = 90

    def test_random_chains(self):
        kept = 0
        for seed in range(SEEDS):
            loads, sizes, places, pes, tolerance = search_all.chain(seed)
            run = tezgumi.Run(4, loads, sizes, places)
            cuts, names, moved, planned = search_all.decide(loads, sizes, places, pes, tolerance)
            decision = tezgumi.decide(run, pes, tolerance)
            found = decision.cuts.tolist(), decision.names.tolist(), decision.moved, type(decision)
            kind = tezgumi.Decision if planned else tezgumi.NearDecision
            self.assertEqual(found, (list(cuts), list(names), moved, kind), seed)
            self.assertEqual(decision.bottleneck, search_all.peak(loads, cuts), seed)
            self.assertEqual(str(tezgumi.check(run, decision)), "check: ok", seed)
            self.assertEqual(tezgumi.plan(run, pes, tolerance).places.tolist(), decision.places.tolist())
            kept += not planned
        self.assertGreater(kept, SEEDS // 50)

    def test_random_chains_in_order(self):
        kept = dearer = 0
        for seed in range(SEEDS):
            loads, sizes, places, pes, tolerance = search_all.chain(seed)
            run = tezgumi.Run(4, loads, sizes, places)
            decision = tezgumi.decide(run, pes, tolerance, keep_order=True)
            self.assertEqual(str(tezgumi.check(run, decision)), "check: ok", seed)
            self.assertEqual(tezgumi.plan(run, pes, tolerance, True).places.tolist(), decision.places.tolist())
            stands = slow_checker.present_order(places, pes)
            if stands is None:
                self.assertEqual(decision, tezgumi.decide(run, pes), seed)
                continue
            cuts, moved = slow_planner.in_order(loads, sizes, places, pes, tolerance, *stands)
            self.assertEqual((type(decision), decision.keep_order), (tezgumi.NearDecision, True), seed)
            found = decision.cuts.tolist(), decision.moved, decision.bottleneck
            self.assertEqual(found, (cuts, moved, search_all.peak(loads, cuts)), seed)
            self.assertEqual([decision.names.tolist(), decision.order.tolist(), decision.present.tolist()], [stands[0], *stands], seed)
            kept += 1
            dearer += moved > tezgumi.plan(run, pes).moved
        self.assertGreater(min(kept, 10 * dearer), SEEDS // 2)

    def test_what_holds_of_larger_chains(self):
        for seed in range(60):
            rng = random.Random(seed)
            count, pes = rng.randint(1, 400), rng.randint(1, 24)
            places = np.sort(np.array([rng.randrange(pes) for _ in range(count)]))
            loads = [rng.choice((0, 1, rng.randint(0, 30), 500 if rng.random() < 0.02 else 3)) for _ in range(count)]
            run = tezgumi.Run(pes, loads, [rng.randint(0, 50) for _ in range(count)], places)
            least = tezgumi.plan(run)
            for tolerance in (0, 10, 100, 500, 1000):
                decision = tezgumi.decide(run, tolerance=tolerance)
                self.assertTrue(tezgumi.check(run, decision), (seed, tolerance))
                self.assertLessEqual(decision.bottleneck, least.bottleneck + least.bottleneck * tolerance // 1000)
                self.assertLessEqual(decision.moved, least.moved)
                ordered = tezgumi.decide(run, tolerance=tolerance, keep_order=True)
                self.assertTrue(tezgumi.check(run, ordered), (seed, tolerance))
                self.assertLessEqual(ordered.bottleneck, least.bottleneck + least.bottleneck * tolerance // 1000)
                if seed % 6 == 0 and tolerance == 100:
                    self.assertEqual(ordered.moved, plain_near(run, tolerance, True).moved)
                heaviest = int(tezgumi.pe_loads(run, run.places, pes).max())
                if heaviest <= least.bottleneck + least.bottleneck * tolerance // 1000:
                    self.assertEqual((decision.moved, ordered.moved), (0, 0))


class TheExample(TimedTest):
    def test_the_decision(self):
        decision = near()
        self.assertIs(type(decision), tezgumi.NearDecision)
        found = [getattr(decision, name).tolist() for name in ("cuts", "least_cuts", "stops", "order", "present", "names")]
        self.assertEqual(found, [[0, 5, 7, 10], [0, 5, 6, 10], [0, 4, 5, 6], [2, 0, 1], [0, 4, 7, 10], [2, 0, 1]])
        numbers = decision.least, decision.bottleneck, decision.limit, decision.moved, decision.tolerance
        self.assertEqual(numbers, (12, 14, 14, 60, 167))
        self.assertEqual(decision.moves.tolist(), [(4, 0, 2)])
        self.assertIn((5, 60), decision.heights[1])
        self.assertTrue(repr(decision).startswith("NearDecision(pes=3, bottleneck=14, moved=60, "))
        self.assertTrue(repr(decision).endswith("1 moves, tolerance=167, least=12)"))
        self.assertEqual(decision, near())
        self.assertEqual(tezgumi.plan(TEN, tolerance=167), tezgumi.Plan(3, decision.places, 14, 60))

    def test_the_plan(self):
        self.assertEqual(tezgumi.decide(TEN, tolerance=0), tezgumi.decide(TEN))
        self.assertEqual(tezgumi.plan(TEN, tolerance=0), tezgumi.plan(TEN))
        self.assertEqual(tezgumi.decide(THREE, tolerance=1000), tezgumi.decide(THREE))

    def test_the_pes_keep_their_order_or_not(self):
        # By hand: the blocks 0 1, 1 3 and 3 4 are cheapest where the PEs keep their order, and element 1 moves, 37 bytes. By other
        # names elements 0 and 2 move, 17 bytes; and by other cuts, in another order, elements 0 and 3, 8 bytes.
        run = tezgumi.Run(3, [6, 2, 1, 2], [2, 37, 15, 6], [0, 0, 1, 2])
        kept, anew = (tezgumi.decide(run, tolerance=300, keep_order=keep) for keep in (True, False))
        self.assertEqual([kept.cuts.tolist(), kept.names.tolist(), kept.moved], [[0, 1, 3, 4], [0, 1, 2], 37])
        self.assertEqual([anew.cuts.tolist(), anew.names.tolist(), anew.moved], [[0, 1, 3, 4], [1, 0, 2], 17])
        fewer = tezgumi.Plan(3, [2, 0, 1, 1], 6, 8)
        self.assertEqual(int(run.bytes[run.places != fewer.places].sum()), 8)
        self.assertLessEqual(max(tezgumi.pe_loads(run, fewer.places, 3)), anew.limit)
        self.assertTrue(repr(kept).endswith("tolerance=300, least=6, keep_order=True)"))
        self.assertNotIn("keep_order", repr(anew))
        # The plan moves fewer bytes than the cuts in order, which are taken nonetheless.
        self.assertEqual((tezgumi.decide(run).moved, tezgumi.decide(run, tolerance=0, keep_order=True).names.tolist()), (23, [0, 1, 2]))

    def test_without_a_tolerance_all_is_as_it_was(self):
        self.assertIs(type(tezgumi.decide(TEN)), tezgumi.Decision)
        self.assertEqual(tezgumi.decide(TEN, tolerance=None), tezgumi.decide(TEN))

    def test_places_that_keep_to_the_limit(self):
        for keep in (False, True):
            decision = tezgumi.decide(TEN, tolerance=1000, keep_order=keep)
            self.assertEqual((decision.moved, decision.places.tolist()), (0, TEN.places.tolist()))
        # The elements of PE 0 are not together, and 1 byte moves, though no PE is above the limit today.
        apart = tezgumi.Run(2, [1, 1, 1], [1, 1, 1], [0, 1, 0])
        for keep in (False, True):
            decision = tezgumi.decide(apart, tolerance=1000, keep_order=keep)
            self.assertEqual((type(decision), decision.moved), (tezgumi.Decision, 1))

    def test_more_and_fewer_pes(self):
        for pes in (1, 2, 5, 256):
            for tolerance in (0, 50, 1000):
                for keep in (False, True):
                    decision = tezgumi.decide(front(), pes, tolerance, keep)
                    self.assertEqual((decision.pes, len(decision.cuts)), (pes, pes + 1))
                    self.assertTrue(tezgumi.check(front(), decision))

    def test_more_steps_than_there_is_room_for_at_first(self):
        run = large_run(4000, 3, 5)
        decision = tezgumi.decide(run, tolerance=1)
        self.assertGreater(len(decision.step_places), refining.STEPS * 3)
        self.assertTrue(tezgumi.check(run, decision))

    def test_the_largest_run(self):
        run = large_run()
        decision = tezgumi.decide(run, tolerance=20)
        self.assertTrue(tezgumi.check(run, decision))
        self.assertLess(decision.moved, tezgumi.plan(run).moved)

    def test_odd_runs(self):
        for run in (
                tezgumi.Run(3, [], [], []), tezgumi.Run(2, [0, 0, 0], [5, 6, 7], [1, 1, 0]),
                tezgumi.Run(2, [1, 100, 1, 1], [5, 6, 7, 8], [1, 1, 0, 0]), tezgumi.Run(1, [tezgumi.DUMP_LOAD], [1], [0])):
            for tolerance in (0, 20, 1000):
                for keep in (False, True):
                    decision = tezgumi.decide(run, tolerance=tolerance, keep_order=keep)
                    self.assertEqual((str(tezgumi.check(run, decision)), decision.moved), ("check: ok", 0))


# What is put in place of the decision on the example, and the line that a check prints.
FORGED = (
    ({"least_cuts": [0, 5, 10]}, "CutCount"),
    ({"least_cuts": [1, 5, 6, 10]}, "CutStart"),
    ({"least_cuts": [0, 7, 6, 10]}, "CutOrder"),
    ({"least_cuts": [0, 5, 6, 9]}, "CutEnd"),
    ({"least_cuts": [0, 5, 7, 10]}, "Heavy 1"),
    ({"least": 11}, "Heavy 0"),
    ({"stops": [0, 4, 5]}, "FenceCount"),
    ({"stops": [1, 4, 5, 6]}, "FenceStart"),
    ({"stops": [0, 6, 5, 6]}, "FenceOrder"),
    ({"stops": [0, 4, 5, 10]}, "FenceEnd"),
    ({"least": 13}, "FenceLight 1"),
    ({"stops": []}, "ZeroFloor"),
    ({"order": [2, 0]}, "OrderCount"),
    ({"order": [3, 0, 1]}, "OrderRange"),
    ({"order": [0, 0, 1]}, "OrderTwice"),
    ({"cuts": [0, 5, 10]}, "NearCount"),
    ({"cuts": [0, 8, 7, 10]}, "NoDivision"),
    ({"cuts": [0, 5, 8, 10]}, "PastLimit 1"),
    ({"tolerance": 166}, "PastLimit 1"),
    ({"step_starts": [0, 1, 2]}, "HeightCount"),
    ({"step_starts": []}, "HeightCount"),
    ({"cuts": [0, 5, 6, 10]}, "HeightLow"),
    ({"present": [0, 1, 2, 10]}, "OrderWrong"),
    ({"present": [0, 4, 7, 9]}, "OrderWrong"),
    ({"present": [0, 4, 7]}, "OrderWrong"),
    ({"present": []}, "OrderWrong"),
    ({"bottleneck": 15}, "BottleneckWrong"),
    ({"bottleneck": 13}, "BottleneckWrong"),
    ({"bottleneck": 0, "names": [2, 0]}, "BottleneckWrong"),
    ({"bottleneck": 15, "present": []}, "OrderWrong"),
    ({"names": [2, 0]}, "NameCount"),
    ({"names": [3, 0, 1]}, "NameRange"),
    ({"names": [0, 0, 1]}, "NameTwice"),
    ({"block_prices": [0]}, "PriceCount"),
    ({"pe_prices": [1000, 0, 0]}, "PriceHigh 0 0"),
    ({"moved": 61}, "MovedWrong"),
    ({"places": [0, 2, 2, 2, 2, 0, 0, 1, 1, 1]}, "MovesWrong"),
    ({"moves": []}, "MovesWrong"),
    ({"keep_order": True, "names": [2, 1, 0]}, "NamesNotOrder"),
    ({"keep_order": True, "names": [2, 0]}, "NamesNotOrder"),
    ({"keep_order": True, "names": [2, 1, 0], "bottleneck": 15}, "BottleneckWrong"),
    ({"keep_order": True, "names": [2, 1, 0], "moved": 61}, "NamesNotOrder"),
    ({"keep_order": True, "moved": 61}, "MovedWrong"),
    ({"keep_order": True, "places": [0, 2, 2, 2, 2, 0, 0, 1, 1, 1]}, "MovesWrong"),
    ({"keep_order": True, "moves": []}, "MovesWrong"),
)


class Forged(TimedTest):
    def line(self, decision):
        return str(tezgumi.check(TEN, decision))

    def test_one_for_each_flaw(self):
        words = set()
        for changed, line in FORGED:
            with self.subTest(changed=changed):
                self.assertEqual(self.line(replace(near(), **changed)), "check: " + line)
                words.add(line.split()[0])
        words |= {"PriceGap", "HeightStart", "Steep"}
        # That the number of PEs is wrong is refused before a claim is looked at. Those above 34 are of decisions in any order alone.
        self.assertEqual(words, {flaw.word for flaw in Flaw if flaw <= 34} - {"PeCount"})

    def test_prices_and_steps(self):
        decision = near()
        prices, rises, places = decision.block_prices.copy(), decision.step_rises.copy(), decision.step_places.copy()
        prices[0] -= 1
        self.assertEqual(self.line(replace(decision, block_prices=prices)), "check: PriceGap")
        five = int(decision.step_starts[1]) + decision.heights[1].index((5, 60))
        rises[five] = 61
        verdict = tezgumi.check(TEN, replace(decision, step_rises=rises))
        self.assertEqual((str(verdict), verdict.flaw), ("check: Steep 0 5", Flaw.STEEP))
        self.assertIn("from block 0 to the next the heights rise at place 5", verdict.meaning)
        # From there a block of 14 ends at 7, where the height of the next one is 60 and the cut costs nothing.
        rises[five] = 59
        self.assertEqual(self.line(replace(decision, step_rises=rises)), "check: Steep 1 7")
        rises[five], rises[int(decision.step_starts[2])] = 60, 59
        self.assertEqual(self.line(replace(decision, step_rises=rises)), "check: HeightLow")
        places[0] = 0
        self.assertEqual(self.line(replace(decision, step_places=places)), "check: HeightStart")

    def test_what_is_no_part_of_the_proof(self):
        self.assertEqual(self.line(replace(near(), keep_order=True, block_prices=[7], pe_prices=[2**63 - 1] * 5)), "check: ok")
        more = {"step_rises": np.append(near().step_rises, np.uint64(7)), "step_places": np.append(near().step_places, np.uint32(3))}
        self.assertEqual(self.line(replace(near(), **more)), "check: ok")

    def test_an_order_that_is_not_the_present_one(self):
        # In this order no cuts move fewer than 20 bytes, and in the present one none move any.
        run = tezgumi.Run(2, [1] * 4, [10] * 4, [0, 0, 1, 1])
        other = plain_near(run, 1000, order=[1, 0])
        for claim in (other, replace(other, present=[0, 2, 4]), plain_near(run, 1000, True, [1, 0])):
            self.assertEqual((claim.moved > 0, str(tezgumi.check(run, claim))), (True, "check: OrderWrong"))
        for places in ([0, 1, 0, 1], [0, 0, 1, 0]):
            apart = replace(run, places=places)
            self.assertEqual(str(tezgumi.check(apart, plain_near(apart, 1000))), "check: OrderWrong")
        self.assertEqual(str(tezgumi.check(run, plain_near(run, 1000))), "check: ok")

    def test_random_forgeries_beside_a_plain_checker(self):
        lines = set()
        for seed in range(400):
            rng = random.Random(seed)
            count, pes = rng.randint(1, 9), rng.randint(1, 4)
            loads, sizes = ([rng.randint(0, 9) for _ in range(count)] for _ in range(2))
            run = tezgumi.Run(pes, loads, sizes, sorted(rng.randrange(pes) for _ in range(count)))
            right = plain_near(run, rng.choice((0, 100, 500)), rng.random() < 0.5)
            self.assertEqual(str(tezgumi.check(run, right)), "check: ok")
            forged = forge_near(rng, run, right)
            line = slow_checker.first_near_flaw(as_lists(run), as_lists(forged))
            self.assertEqual(str(tezgumi.check(run, forged)), line, (seed, run, forged))
            lines.add(line.split()[1])
        self.assertGreater(len(lines), 20)

    def test_numbers_without_sense(self):
        decision, most = near(), 2**64 - 1
        for changed in (
                {"step_starts": [0, most, 2, 1]}, {"step_starts": [5, 4, 3, 2]}, {"step_places": [], "step_rises": []},
                {"step_rises": np.full(len(decision.step_rises), most, np.uint64)}, {"least": most}, {"moved": most},
                {"present": [7, 3, 2**32 - 1]}, {"order": [2**32 - 1] * 3}, {"cuts": [2**32 - 1] * 4}):
            self.assertIn(self.line(replace(decision, **changed)).split()[0], ("check:",))


class Refused(TimedTest):
    def test_tolerances(self):
        for call in (tezgumi.plan, tezgumi.decide):
            for tolerance in (-1, 1001, True):
                text = "^tolerance is .*; it has to be 0 to 1000 thousandths, or a fraction of whole thousandths as a float: 20 and 0.02 are "
                self.assertRaisesRegex(tezgumi.InputError, text, call, TEN, tolerance=tolerance)
            for fraction, whole in ((0.0, 0), (0.02, 20), (0.167, 167), (1.0, 1000), (np.float64(0.2), 200)):
                self.assertEqual(call(TEN, tolerance=fraction), call(TEN, tolerance=whole))
            for tolerance in (0.0205, 1.001, 20.0, -0.001, float("nan"), float("inf"), "20", None.__class__):
                text = "^tolerance is .*; it has to be 0 to 1000 thousandths, or a fraction"
                self.assertRaisesRegex(tezgumi.InputError, text, call, TEN, tolerance=tolerance)
        self.assertRaisesRegex(tezgumi.InputError, "^tolerance is 1001", replace, near(), tolerance=1001)

    def test_whether_an_order_is_kept(self):
        for call in (tezgumi.plan, tezgumi.decide):
            for keep in (1, 0, None, "yes"):
                text = f"^keep_order is {keep!r}; it has to be True or False$"
                for tolerance in (None, 5):
                    self.assertRaisesRegex(tezgumi.InputError, text, call, TEN, tolerance=tolerance, keep_order=keep)
            text = "^keep_order is for a decision within a tolerance, which may be 0$"
            self.assertRaisesRegex(tezgumi.InputError, text, call, TEN, keep_order=True)
        self.assertEqual(tezgumi.plan(TEN, keep_order=np.False_), tezgumi.plan(TEN))
        self.assertRaisesRegex(tezgumi.InputError, "^keep_order is 1; ", replace, near(), keep_order=1)

    def test_steps_without_a_place_or_a_rise(self):
        count = len(near().step_places)
        for changed, counts in (
                ({"step_rises": near().step_rises[:-1]}, (count, count - 1)), ({"step_rises": []}, (count, 0)),
                ({"step_places": [*near().step_places, 9]}, (count + 1, count))):
            text = "^there are {} places and {} rises of steps; a step has one of each$".format(*counts)
            self.assertRaisesRegex(tezgumi.InputError, text, replace, near(), **changed)
        for name, numbers in (
                ("step_rises", [float("nan")]), ("step_rises", [None]), ("step_rises", ["1"]), ("step_rises", [-1]), ("step_places", [0.5]),
                ("step_starts", [0, 1, 2, 2**64]), ("step_starts", [0, 1, 2, float("nan")])):
            text = rf"^{name}\[{len(numbers) - 1}\] is .*; it has to be a whole number"
            self.assertRaisesRegex(tezgumi.InputError, text, replace, near(), **{name: numbers})

    def test_statuses(self):
        run = replace(TEN)
        object.__setattr__(run, "procs", 4097)
        for call in (lambda: tezgumi.decide(run, 3, tolerance=5), lambda: tezgumi.check(run, near())):
            self.assertRaisesRegex(tezgumi.InputError, "^the library refuses the run or the number of PEs$", call)
        run = replace(TEN)
        object.__setattr__(run, "loads", np.full(10, 2**60, np.uint64))
        for call in (lambda: tezgumi.decide(run, tolerance=5), lambda: tezgumi.check(run, near())):
            self.assertRaisesRegex(tezgumi.LoadError, "^the library refuses the loads, which add up to too much$", call)

    def test_runs_past_the_limits_of_a_tolerance(self):
        text = r"^a tolerance is for at most 65,536 elements, of less than 2\^47 units and at most 1 MiB each, and 256 PEs$"
        many, pes = [0] * 65_537, replace(TEN, procs=257)
        heavy, large = replace(TEN, loads=[1] * 9 + [2**47]), replace(TEN, bytes=[2**20 + 1] + [1] * 9)
        for run, count in ((pes, 3), (TEN, 257), (heavy, 3), (large, 3), (tezgumi.Run(3, many, many, many), 3)):
            for call in (tezgumi.plan, tezgumi.decide):
                self.assertRaisesRegex(tezgumi.InputError, text, call, run, count, tolerance=5)
        for run in (heavy, large, pes):
            self.assertRaisesRegex(tezgumi.InputError, text, tezgumi.check, run, near())
            self.assertTrue(tezgumi.check(run, tezgumi.decide(run, 3)))
