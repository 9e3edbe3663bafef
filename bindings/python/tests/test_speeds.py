"""Divisions over PEs of unequal speed: beside a search of all divisions, checked, forged and refused."""
import itertools
import random
from fractions import Fraction

import numpy as np

import tezgumi
from support import TimedTest

LOADS = [1, 2, 3, 4, 4]


def least_time(loads, speeds, background):
    """The least greatest end time of all divisions, by trying each."""
    def end(cuts):
        return max(Fraction(busy + sum(loads[a:b]), fast) for fast, busy, a, b in zip(speeds, background, cuts, cuts[1:]))

    inner = itertools.combinations_with_replacement(range(len(loads) + 1), len(speeds) - 1)
    return min(end((0, *cuts, len(loads))) for cuts in inner)


class Speeds(TimedTest):
    def test_worked_examples(self):
        fenced = tezgumi.divide(LOADS, speeds=[1, 2], background=[0, 4])
        self.assertEqual((fenced.time, fenced.cuts.tolist(), fenced.stops.tolist(), fenced.idle), (6, [0, 3, 5], [0, 2, 4], None))
        busy = tezgumi.divide(LOADS, speeds=[1, 2], background=[0, 40])
        self.assertEqual((busy.time, busy.work, busy.cuts.tolist(), busy.stops.tolist(), busy.idle), (20, 40, [0, 5, 5], [], 1))
        self.assertEqual((repr(fenced), repr(busy)), (
            "TimedDivision(time=6/1, cuts=[0 3 5], stops=[0 2 4])", "TimedDivision(time=40/2, cuts=[0 5 5], idle=1)"))

    def test_random_chains(self):
        for seed in range(200):
            rng = random.Random(seed)
            loads = [rng.randint(0, 15) for _ in range(rng.randint(0, 7))]
            speeds = [rng.randint(1, 9) for _ in range(rng.randint(1, 4))]
            background = [rng.randint(0, 20) if seed % 3 else 0 for _ in speeds]
            with self.subTest(loads=loads, speeds=speeds, background=background):
                division = tezgumi.divide(loads, speeds=speeds, background=background)
                self.assertEqual(division.time, least_time(loads, speeds, background))
                self.assertTrue(tezgumi.check(loads, division))

    def test_equal_speeds_as_the_loads_alone(self):
        loads = np.random.default_rng(3).integers(0, 1000, 400)
        cuts, stops = tezgumi.divide(loads, 9, fence=True)
        division = tezgumi.divide(loads, speeds=[7] * 9)
        self.assertEqual((division.cuts.tolist(), division.stops.tolist()), (cuts.tolist(), stops.tolist()))

    def test_part_sizes(self):
        division = tezgumi.divide([1] * 12, part_sizes=[0.5, 0.25, 0.25])
        self.assertEqual((division.speeds.tolist(), division.cuts.tolist()), ([1_000_000, 500_000, 500_000], [0, 6, 9, 12]))
        self.assertEqual(tezgumi.scale_speeds([3, 1]).tolist(), [1_000_000, 333_333])

    def test_plan(self):
        run = tezgumi.Run(2, LOADS, [10, 20, 30, 40, 50], [0, 0, 1, 1, 1])
        plan = tezgumi.plan(run, speeds=[1, 2], background=[0, 4])
        self.assertEqual((plan.pes, plan.places.tolist(), plan.bottleneck, plan.moved), (2, [0, 0, 0, 1, 1], 8, 30))
        self.assertRaises(tezgumi.InputError, tezgumi.plan, run, 2, speeds=[1, 2])
        self.assertRaises(tezgumi.InputError, tezgumi.plan, run, background=[0, 4])

    def test_forged(self):
        right = tezgumi.divide(LOADS, speeds=[1, 2], background=[0, 4])
        none = right.stops[:0]
        for change, flaw, numbers in (
                ({"speed": 0}, "NO_SPEED", ()), ({"cuts": [0, 5]}, "CUT_COUNT", ()), ({"cuts": [1, 3, 5]}, "CUT_START", ()),
                ({"cuts": [0, 6, 5]}, "CUT_ORDER", ()), ({"cuts": [0, 3, 4]}, "CUT_END", ()), ({"cuts": [0, 4, 5]}, "LATE", (0,)),
                ({"stops": none, "idle": 2}, "IDLE_RANGE", ()), ({"stops": none, "idle": 1}, "IDLE_EARLY", ()),
                ({"stops": [0, 4]}, "FENCE_COUNT", ()), ({"stops": [1, 2, 4]}, "FENCE_START", ()),
                ({"stops": [0, 3, 2]}, "FENCE_ORDER", ()), ({"stops": [0, 2, 5]}, "FENCE_END", ()),
                ({"stops": [0, 4, 4]}, "FENCE_EARLY", (2,)), ({"work": 7}, "FENCE_EARLY", (1,))):
            verdict = tezgumi.check(LOADS, right._replace(**change))
            self.assertEqual((verdict.flaw.name, verdict.numbers), (flaw, numbers), change)

    def test_refused(self):
        for words in (
                {"speeds": []}, {"speeds": [0, 1]}, {"speeds": [1_000_001]}, {"speeds": [1.5, 2.0]}, {"speeds": [1], "background": [1, 2]},
                {"speeds": [1], "background": [2**47 + 1]}, {"speeds": [1], "part_sizes": [1]}, {"part_sizes": [1.0, 0.0]},
                {"background": [0]}, {"pes": 1, "speeds": [1]}):
            with self.assertRaises(tezgumi.InputError):
                tezgumi.divide(LOADS, **words)
        with self.assertRaises(tezgumi.LoadError):
            tezgumi.divide([2**62, 2**62], speeds=[1, 2])

    def test_what_nobody_can_write_to(self):
        for list_ in tezgumi.divide([3, 4], speeds=[1, 2])[2:4]:
            self.assertRaises(ValueError, list_.__setitem__, 0, 1)
