"""Loads in floating point: the unit that is chosen, the unit that is given, and each refusal."""
from dataclasses import replace
from fractions import Fraction
from unittest import mock

import numpy as np

import tezgumi
from support import TimedTest, most_bytes
from tezgumi import runs, scales


def run(loads, **words):
    count = len(loads)
    return tezgumi.Run(2, loads, [8] * count, [0] * count, **words)


class Scaled(TimedTest):
    def test_the_finest_unit(self):
        found = run([1.5, 0.25], scale=True)
        self.assertEqual((found.loads.tolist(), found.unit), ([3 * 2**45, 2**44], 2.0**-46))
        self.assertEqual(run([0.0, -0.0], scale=True).unit, 5e-324)
        self.assertEqual(run([], scale=True).loads.tolist(), [])
        self.assertEqual(run(np.array([1, 2], np.int32), scale=True).loads.tolist(), [2**45, 2**46])

    def test_exactly_by_fractions(self):
        random = np.random.default_rng(1)
        for _ in range(100):
            loads = np.ldexp(random.random(20), random.integers(-300, 300, 20))
            found = run(loads, scale=True)
            counts = [int(Fraction(float(load)) / Fraction(found.unit)) for load in loads]
            self.assertEqual(found.loads.tolist(), counts)
            self.assertLessEqual(max(counts), 2**47 - 1)
            self.assertGreater(2 * max(counts) + 1, 2**47 - 1)

    def test_more_loads_have_fewer_bits(self):
        for count, bits in ((65_536, 47), (65_537, 46), (131_072, 46), (131_073, 45), (1_000_000, 43)):
            found = run(np.ones(count), scale=True)
            self.assertEqual((found.unit, int(found.loads[0])), (2.0**(1 - bits), 2**(bits - 1)))
            self.assertEqual(found.loads.tolist(), [2**(bits - 1)] * count)

    def test_counts_are_made_once(self):
        count = 1_000_000
        loads, zeros = np.linspace(0, 1, count), np.zeros(count, np.uint32)
        made = []
        for name, words in (("in_units", {"unit": 1e-6}), ("scaled", {"scale": True})):
            before = getattr(runs, name)
            with mock.patch.object(runs, name, lambda *given: made.append(before(*given)) or made[-1]):
                found = tezgumi.Run(2, loads, zeros, zeros, copy=True, **words)
            self.assertIs(found.loads, made[-1] if name == "in_units" else made[-1][0])
            self.assertFalse(found.loads.flags.writeable)
        most, found = most_bytes(lambda: tezgumi.Run(2, loads, zeros, zeros, copy=False, scale=True))
        self.assertEqual((found.loads[-1] * found.unit, found.loads.flags.writeable), (1, False))
        self.assertLess(most, 1.3 * loads.nbytes)

    def test_a_plan_in_seconds(self):
        found = run([0.1, 0.2, 0.3], scale=True)
        decision = tezgumi.decide(found)
        self.assertAlmostEqual(decision.bottleneck * found.unit, 0.3, delta=3 * found.unit)
        self.assertTrue(tezgumi.check(found, decision))
        self.assertEqual(found.after(decision).unit, found.unit)

    def test_a_unit_that_is_given(self):
        found = run([0.0014, 0.25, 3.0], unit=0.001)
        self.assertEqual((found.loads.tolist(), found.unit), ([1, 250, 3000], 0.001))
        self.assertEqual(replace(found, procs=4).loads.tolist(), [1, 250, 3000])
        self.assertEqual(run([7, 8], unit=0.001).loads.tolist(), [7, 8])
        self.assertIn("unit=0.001", repr(found))
        self.assertIsNone(run([7, 8]).unit)

    def test_refusals(self):
        for words in ({"scale": True}, {"unit": 0.5}):
            for load, text in (
                    (float("nan"), "element 1 has the load nan, which is not a number"),
                    (-1.0, "element 1 has the load -1.0, which is negative"),
                    (float("-inf"), "element 1 has the load -inf, which is negative"),
                    (float("inf"), "element 1 has the load inf, which is infinite")):
                self.assertRaisesRegex(tezgumi.InputError, text, run, [1.0, load], **words)
            self.assertRaisesRegex(tezgumi.InputError, "one dimension", run, np.zeros((1, 2)), **words)
        self.assertRaisesRegex(tezgumi.InputError, "a list of numbers", run, [1.0, "a"], scale=True)
        self.assertRaisesRegex(tezgumi.InputError, "there are 3 elements, and at most 2 are taken", scales.scaled, np.zeros(3), 2)
        self.assertRaisesRegex(tezgumi.LoadError, "element 0 has too great a load", run, [1e30, 1.0], unit=0.5)
        self.assertRaisesRegex(tezgumi.LoadError, "element 1 has too great a load: 9.22.*e.18", run, [0.5, 2.0**63], unit=1.0)
        self.assertEqual(run([2.0**62, 2.0**61], unit=1.0).loads.tolist(), [2**62, 2**61])
        self.assertRaisesRegex(tezgumi.LoadError, "the loads add up to 9223372036854775808", run, [2.0**62, 2.0**62], unit=1.0)
        self.assertRaisesRegex(tezgumi.InputError, "leave one out", run, [1.0], scale=True, unit=0.5)
        for unit in (0, -1.0, float("nan"), float("inf"), "a"):
            self.assertRaisesRegex(tezgumi.InputError, "^unit is ", run, [1.0], unit=unit)
        self.assertRaisesRegex(tezgumi.InputError, "not a whole number .*; scale=True", run, [1.0, 0.5], scale=False)
        for load in (float("nan"), -1.0, float("inf")):
            self.assertRaisesRegex(tezgumi.InputError, "element 1 .*; scale counts finite loads from 0 on$", run, [1.0, load])
            self.assertRaisesRegex(tezgumi.InputError, "element 1 .*; scale counts finite loads from 0 on$", tezgumi.divide, [1.0, load], 2)

    def test_floats_are_measured(self):
        random = np.random.default_rng(2)
        for loads in ([1.5, 0.25], np.array([1.5, 0.25], np.float32), np.array([1.5, 0.25]), (1.5, 0.25), [np.float64(1.5), 0.25], random.random(50)):
            found = run(loads)
            self.assertEqual(found, run(loads, scale=True))
            self.assertEqual(found.within, len(loads) * found.unit)
            self.assertIn(f"unit={found.unit!r}, least within {found.within:.3g})", repr(found))
        self.assertEqual((run([7, 8]).unit, run([7, 8]).within), (None, 0))
        # numpy makes floats of these whole numbers, which are none.
        self.assertRaisesRegex(tezgumi.InputError, "^element 1 has the load -1", run, [2**63 - 1, -1, 2**63])

    def test_a_division_of_floats(self):
        random = np.random.default_rng(3)
        for seconds in ([0.5, 0.25, 0.25], random.random(1000), random.random(1000).astype(np.float32), memoryview(random.random(9))):
            counts = tezgumi.scaled(seconds)
            cuts, stops = tezgumi.divide(counts.counts, 3, fence=True)
            pair = tezgumi.divide(seconds, 3, fence=True)
            self.assertEqual([part.tolist() for part in pair], [cuts.tolist(), stops.tolist()])
            self.assertEqual((pair.unit, pair.within), (counts.unit, counts.within))
            self.assertIn("least within ", repr(pair))
            self.assertEqual(tezgumi.divide(seconds, 3).tolist(), cuts.tolist())
        whole = tezgumi.divide([1, 2], 2, fence=True)
        self.assertEqual((whole.unit, whole.within, repr(whole)), (None, 0, "Divided(cuts=[0 1 2], stops=[0 1 1])"))

    def test_figures_of_measured_loads(self):
        found = run([0.1, 0.2, 0.3])
        told = str(tezgumi.figures(found, tezgumi.plan(found)))
        self.assertIn("each rounded down: the greatest after is 0.3, and least within ", told.split("\n")[-1])
        swept = str(tezgumi.sweep(found, (1, 2))).split("\n")
        self.assertEqual(swept[3], f"loads are in units of {found.unit!r}, each rounded down: each greatest is least within {found.within:.3g}")
        whole = tezgumi.Run(2, [1, 2, 3])
        self.assertEqual(len(str(tezgumi.sweep(whole, (1, 2))).split("\n")), 3)
        self.assertEqual(len(tezgumi.table([*tezgumi.sweep(found, (1,)), *tezgumi.sweep(whole, (1,))]).split("\n")), 3)
