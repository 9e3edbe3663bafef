"""Divisions alone: beside a plain search, refused, and without a copy of what is given."""
import array
import random
from unittest import mock

import numpy as np

import slow_planner
import tezgumi
from support import TimedTest, most_bytes
from tezgumi import lists

MILLION = 1_000_000


def random_loads(seed):
    rng = random.Random(seed)
    count = rng.randint(0, 40)
    top = (1, 9, 2**57)[seed % 3]
    return [0 if seed % 4 == 0 and rng.random() < 0.7 else rng.randint(0, top) for _ in range(count)], rng.randint(1, 12)


class Divided(TimedTest):
    def test_random_chains(self):
        for seed in range(300):
            loads, pes = random_loads(seed)
            with self.subTest(loads=loads, pes=pes):
                least = slow_planner.least_bottleneck(loads, pes)
                cuts, stops = tezgumi.divide(loads, pes, fence=True)
                self.assertEqual(cuts.tolist(), slow_planner.greedy_cuts(loads, pes, least))
                self.assertEqual(stops.tolist(), slow_planner.least_fence(loads, pes, least))
                self.assertEqual(max((sum(loads[a:b]) for a, b in zip(cuts, cuts[1:])), default=0), least)
                self.assertEqual((cuts.dtype, stops.dtype), (np.int64, np.int64))
                alone = tezgumi.divide(loads, pes)
                self.assertIsInstance(alone, np.ndarray)
                self.assertEqual(alone.tolist(), cuts.tolist())

    def test_as_decide_does(self):
        loads = np.random.default_rng(2).integers(0, 1000, 5000)
        zero = np.zeros(5000, int)
        for pes in (1, 7, 300, tezgumi.PES):
            decision = tezgumi.decide(tezgumi.Run(1, loads, zero, zero), pes)
            cuts, stops = tezgumi.divide(loads, pes, fence=True)
            self.assertEqual((cuts.tolist(), stops.tolist()), (decision.cuts.tolist(), decision.stops.tolist()))

    def test_at_the_limits(self):
        for loads, pes, wanted in (
                ([], 1, [0, 0]), ([], 3, [0, 0, 0, 0]), ([0, 0], 2, [0, 2, 2]), ([2**62, 2**62 - 1], 1, [0, 2]),
                ([2**62, 2**62 - 1], 2, [0, 1, 2]), ([5], tezgumi.DIVISION_PES, [0] + [1] * tezgumi.DIVISION_PES)):
            self.assertEqual(tezgumi.divide(loads, pes).tolist(), wanted)

    def test_what_nobody_can_write_to(self):
        for answer in tezgumi.divide([3, 4], 2, fence=True):
            self.assertRaises(ValueError, answer.__setitem__, 0, 1)

    def test_no_copy(self):
        loads = np.arange(MILLION, dtype=np.uint64)
        for given in (loads, loads.view(np.int64), memoryview(loads), array.array("Q", loads), loads[1:-1]):
            most, cuts = most_bytes(lambda: tezgumi.divide(given, 64))
            self.assertLess(most, 100_000)
            self.assertEqual(len(cuts), 65)
        self.assertTrue(loads.flags.writeable)
        most, _ = most_bytes(lambda: tezgumi.divide(loads.astype(np.int32), 64))
        self.assertGreater(most, 8 * MILLION)


    def test_no_pass_of_its_own(self):
        before, looked_at = lists._refuse_outside, []
        with mock.patch.object(lists, "_refuse_outside", lambda array, *how: looked_at.append(array.size) or before(array, *how)):
            for loads in (np.arange(MILLION), np.arange(MILLION, dtype=np.uint64), array.array("q", range(1000))):
                self.assertEqual(len(tezgumi.divide(loads, 64)), 65)
        self.assertEqual(set(looked_at), {65})


class Refused(TimedTest):
    def test_each_word(self):
        for words, text in (
                (([None, 0.5], 2), r"^loads\[0\] is None"), (([1, -1], 2), r"^loads\[1\] is -1"), (([[1]], 2), "one dimension"),
                (([2**63], 2), r"^loads\[0\] is 9223372036854775808"), (([True], 2), r"^loads\[0\] is True"),
                (("ab", 2), "^loads"),
                (([1], 0), "^pes is 0"), (([1], 65_537), "^pes is 65537"), (([1], 2.0), r"^pes is 2\.0"), (([1], True), "^pes is True"),
                (([1], 2, 1), "^fence is 1")):
            with self.subTest(words=words):
                self.assertRaisesRegex(tezgumi.InputError, text, tezgumi.divide, *words)
        for loads in (np.array([1, -1]), np.array([5, 1, -7])[::-1], memoryview(np.array([1, -1]))):
            text = r"^loads\[.\] is -.*; it has to be a whole number from 0 to 9223372036854775807$"
            self.assertRaisesRegex(tezgumi.InputError, text, tezgumi.divide, loads, 2)
        self.assertRaisesRegex(tezgumi.InputError, r"^loads\[1\] is 9223372036854775808", tezgumi.divide, np.array([1, 2**63], np.uint64), 2)
        self.assertRaises(tezgumi.LoadError, tezgumi.divide, [2**62, 2**62], 2)
        self.assertRaises(tezgumi.LoadError, tezgumi.divide, np.array([2**62, 2**62]), 2)
        self.assertRaises(tezgumi.LoadError, tezgumi.divide, np.full(3, 2**63 - 1, np.uint64), 2)


class Help(TimedTest):
    def test_least_and_fewest(self):
        for word in ("least", "fewest"):
            self.assertIn(word, " ".join(tezgumi.plan.__doc__.split("With a tolerance")[0].split()))
        self.assertIn("least", tezgumi.divide.__doc__)
