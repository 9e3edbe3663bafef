"""The checker: forged decisions, one for each flaw and hundreds at random, beside a plain checker and lb_sim's lines."""
import random
from dataclasses import replace

import numpy as np

import slow_checker
import tezgumi
from support import THREE, TimedTest, as_lists, front, random_run
from tezgumi import Flaw

RIGHT = tezgumi.Decision(2, [1, 1, 0], 2, 10, [0, 2, 3], [0, 1, 2], [1, 0], [10, 1], [-1, 0], [(0, 0, 1)])

# What is put in place of the decision on the example, and the line that a check prints. The lines without a count of wrong
# length are those of the tests of lb_replay; a dump has no list of a wrong length.
FORGED = (
    ({"cuts": [0, 3]}, "CutCount"),
    ({"cuts": [1, 2, 3]}, "CutStart"),
    ({"cuts": [0, 4, 3]}, "CutOrder"),
    ({"cuts": [0, 2, 2]}, "CutEnd"),
    ({"cuts": [0, 1, 3]}, "Heavy 1"),
    ({"bottleneck": 1}, "Heavy 0"),
    ({"stops": [0, 1]}, "FenceCount"),
    ({"stops": [1, 1, 2]}, "FenceStart"),
    ({"stops": [0, 2, 1]}, "FenceOrder"),
    ({"stops": [0, 1, 3]}, "FenceEnd"),
    ({"stops": [0, 0, 2]}, "FenceLight 1"),
    ({"bottleneck": 3}, "FenceLight 1"),
    ({"stops": []}, "ZeroFloor"),
    ({"names": [1]}, "NameCount"),
    ({"names": [1, 2]}, "NameRange"),
    ({"names": [1, 1]}, "NameTwice"),
    ({"block_prices": [10]}, "PriceCount"),
    ({"pe_prices": [-1, 0, 0]}, "PriceCount"),
    ({"pe_prices": [0, 0]}, "PriceHigh 0 0"),
    ({"block_prices": [9, 1]}, "PriceGap"),
    ({"names": [0, 1]}, "PriceGap"),
    ({"moved": 17}, "MovedWrong"),
    ({"places": [1, 1, 1]}, "MovesWrong"),
    ({"places": [1, 1]}, "MovesWrong"),
    ({"moves": []}, "MovesWrong"),
    ({"moves": [(2, 0, 1)]}, "MovesWrong"),
    ({"moves": [(0, 1, 1)]}, "MovesWrong"),
    ({"moves": [(0, 0, 1), (0, 0, 1)]}, "MovesWrong"),
)


class Forged(TimedTest):
    def assert_line(self, run, decision, line):
        verdict = tezgumi.check(run, decision)
        self.assertEqual(str(verdict), line)
        self.assertEqual(bool(verdict), line == "check: ok")

    def test_a_right_decision(self):
        self.assert_line(THREE, RIGHT, "check: ok")
        self.assertEqual(repr(tezgumi.check(THREE, RIGHT)), "Verdict(right)")

    def test_one_for_each_flaw(self):
        for changed, line in FORGED:
            with self.subTest(changed=changed):
                self.assert_line(THREE, replace(RIGHT, **changed), "check: " + line)
        # Those above 19 are the flaws of decisions within a tolerance alone.
        self.assertEqual({line.split()[0] for _, line in FORGED}, {flaw.word for flaw in Flaw if flaw <= 19})

    def test_a_verdict_in_words(self):
        verdict = tezgumi.check(THREE, replace(RIGHT, pe_prices=[0, 0]))
        self.assertEqual((verdict.flaw, verdict.numbers), (Flaw.PRICE_HIGH, (0, 0)))
        self.assertEqual(
            repr(verdict),
            "Verdict(PRICE_HIGH: the prices of block 0 and PE 0 are above the bytes that the block would move there)")

    def test_prices_at_the_ends_of_64_bits(self):
        low, high = -2**63, 2**63 - 1
        for prices, line in (
                (([high, high], [high, high]), "PriceHigh 0 0"), (([low, low], [low, low]), "PriceGap"),
                (([high, 1], [low, 0]), "PriceHigh 0 1"), (([low, high], [0, low]), "PriceHigh 1 0")):
            self.assert_line(THREE, replace(RIGHT, block_prices=prices[0], pe_prices=prices[1]), "check: " + line)

    def test_other_decisions_that_are_right(self):
        two = tezgumi.Run(2, [1, 1], [8, 8], [0, 0])
        other = tezgumi.Decision(2, [1, 0], 1, 8, [0, 1, 2], [0, 0, 0], [1, 0], [8, 8], [-8, 0], [(0, 0, 1)])
        self.assert_line(two, other, "check: ok")
        self.assert_line(THREE, replace(RIGHT, block_prices=[9, 0], pe_prices=[0, 1]), "check: ok")

    def test_a_decision_for_another_run(self):
        self.assertFalse(tezgumi.check(front(), RIGHT))
        self.assertFalse(tezgumi.check(replace(THREE, places=[1, 1, 0]), RIGHT))
        self.assertFalse(tezgumi.check(replace(THREE, loads=[3, 1, 2]), RIGHT))


class AtRandom(TimedTest):
    limit = 40

    def test_random_forgeries_beside_a_plain_checker(self):
        for seed in range(400):
            run, pes = random_run(seed, elements=12, pes=5)
            forged = forge(random.Random(seed), run, tezgumi.decide(run, pes))
            line = slow_checker.first_flaw(as_lists(run), as_lists(forged))
            self.assertEqual(str(tezgumi.check(run, forged)), line, (seed, run, forged))


NUMBERS = ("bottleneck", "moved", "places", "cuts", "stops", "names", "block_prices", "pe_prices")
NEAR_NUMBERS = NUMBERS + ("least", "tolerance", "least_cuts", "order", "present", "step_starts", "step_places", "step_rises")


def forge(rng, run, decision, names=NUMBERS):
    """The decision with one or two of its numbers changed by a little."""
    for _ in range(rng.randint(1, 2)):
        name = rng.choice(names)
        value = getattr(decision, name)
        if isinstance(value, np.ndarray):
            if not value.size:
                continue
            changed = value.astype(object)
            at = rng.randrange(value.size)
            changed[at] = max(changed[at] + rng.choice((-1, 1)), 0 if "prices" not in name else -2**63)
            decision = replace(decision, **{name: changed})
        else:
            decision = replace(decision, **{name: max(value + rng.choice((-1, 1)), 0)})
    return replace(decision, moves=run.moves_to(decision.places))


def forge_near(rng, run, decision):
    """The same of a decision within a tolerance, which may say too that the PEs keep their order, or that they do not."""
    forged = forge(rng, run, replace(decision, tolerance=min(decision.tolerance, 999)), NEAR_NUMBERS)
    return replace(forged, keep_order=forged.keep_order != (rng.random() < 0.2))
