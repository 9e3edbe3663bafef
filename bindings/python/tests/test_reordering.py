"""Decisions in any order of the PEs: beside a search through all cuts and all names, forged ones beside a plain checker, and what is
refused."""
import os
import random
import sys
from dataclasses import replace

import slow_checker
import tezgumi
from support import CHECKOUT, THREE, TimedTest, as_lists, large_run
from tezgumi import Flaw, reordering

sys.path.append(os.path.join(CHECKOUT, "benches", "refinement"))
import search_all

SEEDS = 1500
FOUR = tezgumi.Run(3, [6, 2, 1, 2], [2, 37, 15, 6], [0, 0, 1, 2])
NUMBERS = ("bottleneck", "moved", "least")
LISTS = ("cuts", "stops", "names", "least_cuts", "level_starts", "level_places", "level_bytes", "places")


def reordered():
    return tezgumi.decide(FOUR, tolerance=300, any_order=True)


def fewest(loads, sizes, places, pes, limit):
    """The fewest bytes that cuts within a limit move with any names of their blocks."""
    least = None
    for cuts in search_all.divisions(len(loads), pes):
        if search_all.peak(loads, cuts) <= limit:
            for names in search_all.permutations(range(pes)):
                moved = search_all.moved(sizes, places, cuts, names)
                least = moved if least is None or moved < least else least
    return least


class BesideASearch(TimedTest):
    limit = 90

    def test_random_chains(self):
        kept = fewer = 0
        for seed in range(SEEDS):
            loads, sizes, places, pes, tolerance = search_all.chain(seed)
            run = tezgumi.Run(4, loads, sizes, places)
            decision = tezgumi.decide(run, pes, tolerance, any_order=True)
            beside = tezgumi.decide(run, pes, tolerance)
            self.assertEqual(str(tezgumi.check(run, decision)), "check: ok", seed)
            self.assertEqual(tezgumi.plan(run, pes, tolerance, any_order=True).places.tolist(), decision.places.tolist())
            if slow_checker.present_order(places, pes) is None:
                self.assertEqual(decision, beside, seed)
                continue
            self.assertIs(type(decision), tezgumi.ReorderedDecision, seed)
            self.assertEqual(decision.moved, fewest(loads, sizes, places, pes, decision.limit), seed)
            self.assertEqual(decision.bottleneck, search_all.peak(loads, decision.cuts.tolist()), seed)
            self.assertEqual(decision.least, tezgumi.plan(run, pes).bottleneck, seed)
            kept += 1
            fewer += decision.moved < beside.moved
        self.assertGreater(min(kept, 30 * fewer), SEEDS // 2)

    def test_what_holds_of_larger_chains(self):
        for seed in range(40):
            rng = random.Random(seed)
            count, pes = rng.randint(1, 300), rng.randint(1, 20)
            order = rng.sample(range(pes), pes)
            places = [order[place] for place in sorted(rng.randrange(pes) for _ in range(count))]
            run = tezgumi.Run(pes, [rng.randint(0, 30) for _ in range(count)], [rng.randint(0, 50) for _ in range(count)], places)
            for tolerance in (0, 20, 200, 1000):
                decision, beside = tezgumi.decide(run, tolerance=tolerance, any_order=True), tezgumi.decide(run, tolerance=tolerance)
                self.assertTrue(tezgumi.check(run, decision), (seed, tolerance))
                self.assertIs(type(decision), tezgumi.ReorderedDecision, (seed, tolerance))
                self.assertLessEqual(decision.moved, beside.moved)
                self.assertLessEqual(decision.bottleneck, decision.limit)


class TheExample(TimedTest):
    def test_the_decision(self):
        # By hand: element 0 or 1 has to move. If element 0 alone moved, its block would need a PE without elements, and there is none.
        decision = reordered()
        self.assertIs(type(decision), tezgumi.ReorderedDecision)
        found = [getattr(decision, name).tolist() for name in ("cuts", "names", "places", "least_cuts")]
        self.assertEqual(found, [[0, 1, 2, 4], [2, 0, 1], [2, 0, 1, 1], [0, 1, 4, 4]])
        numbers = decision.least, decision.bottleneck, decision.limit, decision.moved, decision.tolerance
        self.assertEqual(numbers, (6, 6, 7, 8, 300))
        self.assertEqual(decision.moves.tolist(), [(0, 0, 2), (3, 2, 1)])
        whatever, free = decision.bounds
        self.assertEqual((len(whatever), len(free)), (4, 4))
        self.assertEqual((whatever[3][-1][1], free[1][0]), (8, (1, 2)))
        self.assertTrue(repr(decision).startswith("ReorderedDecision(pes=3, bottleneck=6, moved=8, "))
        self.assertTrue(repr(decision).endswith("2 moves, tolerance=300, least=6)"))
        self.assertEqual(decision, reordered())
        self.assertEqual(tezgumi.plan(FOUR, tolerance=300, any_order=True), tezgumi.Plan(3, [2, 0, 1, 1], 6, 8))
        self.assertEqual(tezgumi.figures(FOUR, decision).moved_bytes, 8)

    def test_elements_that_are_apart(self):
        self.assertEqual(tezgumi.decide(THREE, tolerance=1000, any_order=True), tezgumi.decide(THREE))

    def test_a_search_that_would_be_too_large(self):
        # Within twice the least load each block may have half of the elements of two, so that all blocks are too many to look at.
        run = large_run()
        decision = tezgumi.decide(run, tolerance=1000, any_order=True)
        self.assertEqual(decision, tezgumi.decide(run, tolerance=1000))
        self.assertIs(type(decision), tezgumi.NearDecision)

    def test_more_levels_than_there_is_room_for_at_first(self):
        room = reordering.LEVELS
        try:
            reordering.LEVELS = 0
            self.assertEqual(reordered(), tezgumi.decide(FOUR, tolerance=300, any_order=True))
            self.assertTrue(tezgumi.check(FOUR, reordered()))
        finally:
            reordering.LEVELS = room

    def test_odd_runs(self):
        none = tezgumi.Run(2, [], [], [])
        idle = tezgumi.Run(2, [0, 0, 0], [5, 6, 7], [1, 0, 0])
        for run in (none, idle):
            decision = tezgumi.decide(run, tolerance=5, any_order=True)
            self.assertEqual((type(decision), decision.moved, decision.least), (tezgumi.ReorderedDecision, 0, 0))
            self.assertTrue(tezgumi.check(run, decision))


class Forged(TimedTest):
    limit = 60

    def line(self, decision, run=FOUR):
        return str(tezgumi.check(run, decision))

    def test_one_for_each_flaw(self):
        right = reordered()
        starts, places, there = (getattr(right, name).tolist() for name in ("level_starts", "level_places", "level_bytes"))
        free_of_one = places.index(1, starts[5])
        last = starts[4] - 1
        higher = there[:free_of_one] + [3] + there[free_of_one + 1:]
        for flaw, changed in (
                ("check: CutCount", {"least_cuts": [0, 1, 4]}), ("check: Heavy 0", {"least": 5}), ("check: FenceLight 1", {"least": 7}),
                ("check: ZeroFloor", {"stops": []}), ("check: NameCount", {"names": [2, 0]}), ("check: NameRange", {"names": [3, 0, 1]}),
                ("check: NameTwice", {"names": [0, 0, 1]}), ("check: NearCount", {"cuts": [0, 4]}),
                ("check: NoDivision", {"cuts": [0, 3, 2, 4]}), ("check: PastLimit 0", {"cuts": [0, 2, 2, 4]}),
                ("check: RowCount", {"level_starts": starts[:-1]}), ("check: RowCount", {"level_starts": []}),
                ("check: RowCount", {"level_starts": starts + [starts[-1]]}),
                ("check: BoundStart", {"level_places": [0] + places[1:]}), ("check: BoundSteep 0 0 1", {"level_bytes": higher}),
                ("check: BoundSteep 2 2 4", {"level_bytes": there[:last] + [9] + there[last + 1:]}),
                ("check: BoundLow", {"level_bytes": there[:last] + [7] + there[last + 1:]}),
                ("check: BoundLow", {"level_places": [], "level_bytes": []}), ("check: BottleneckWrong", {"bottleneck": 7}),
                ("check: MovedWrong", {"moved": 9}), ("check: MovesWrong", {"places": [2, 0, 1, 2]}), ("check: MovesWrong", {"moves": []}),
                ("check: BoundSteep 0 0 2", {"tolerance": 1000})):
            forged = replace(right, **changed)
            self.assertEqual(self.line(forged), flaw)
            if flaw != "check: MovesWrong":
                self.assertEqual(slow_checker.first_reordered_flaw(as_lists(FOUR), as_lists(forged)), flaw)
        for flaw in (flaw for flaw in Flaw if 35 <= flaw < Flaw.NO_SPEED):
            self.assertIn(flaw.word, ("RowCount", "BoundStart", "BoundSteep", "BoundLow"))

    def test_what_is_no_part_of_the_proof(self):
        self.assertEqual(self.line(replace(reordered(), block_prices=[5, -7, 2**62], pe_prices=[])), "check: ok")

    def test_a_decision_that_is_dearer(self):
        # The decision in the present order has right cuts and names; that it moves the fewest bytes is wrong.
        near = tezgumi.decide(FOUR, tolerance=300)
        dearer = replace(reordered(), cuts=near.cuts, names=near.names, places=near.places, moved=near.moved, moves=near.moves)
        self.assertEqual(self.line(dearer), "check: BoundLow")

    def test_random_forgeries_beside_a_plain_checker(self):
        found = set()
        for seed in range(3000):
            rng = random.Random(seed)
            loads, sizes, places, pes, tolerance = search_all.chain(rng.randrange(SEEDS))
            run = tezgumi.Run(4, loads, sizes, places)
            decision = tezgumi.decide(run, pes, tolerance, any_order=True)
            if not isinstance(decision, tezgumi.ReorderedDecision):
                continue
            name = rng.choice(NUMBERS + LISTS)
            held = getattr(decision, name)
            if name in NUMBERS:
                forged = replace(decision, **{name: max(0, held + rng.choice((-1, 1)))})
            else:
                numbers = held.tolist()
                if numbers and rng.random() < 0.8:
                    numbers[rng.randrange(len(numbers))] = rng.choice((0, 1, 2, 3, 5, 9, 40))
                elif rng.random() < 0.5:
                    numbers = numbers[:-1]
                else:
                    numbers = numbers + [rng.randint(0, 9)]
                changed = {name: numbers}
                if name in ("level_places", "level_bytes"):
                    other = "level_bytes" if name == "level_places" else "level_places"
                    changed[other] = (getattr(decision, other).tolist() + [0])[:len(numbers)]
                forged = replace(decision, **changed)
            line = self.line(forged, run)
            self.assertEqual(line, slow_checker.first_reordered_flaw(as_lists(run), as_lists(forged)), seed)
            found.add(line.split()[1])
        self.assertLessEqual({"ok", "RowCount", "BoundStart", "BoundSteep", "BoundLow", "BottleneckWrong", "NameTwice"}, found)

    def test_numbers_without_sense(self):
        right, most = reordered(), 2**64 - 1
        for changed in (
                {"level_starts": [most] * 9}, {"level_bytes": [most] * len(right.level_bytes)}, {"level_places": [2**32 - 1] * len(right.level_places)},
                {"bottleneck": most, "moved": most, "least": most}, {"names": [2**32 - 1] * 3}, {"cuts": [2**32 - 1] * 4}):
            self.assertIn(self.line(replace(right, **changed)).split()[0], ("check:",))


class Refused(TimedTest):
    def test_whether_the_order_may_change(self):
        for call in (tezgumi.plan, tezgumi.decide):
            for changes in (1, 0, None, "yes"):
                text = f"^any_order is {changes!r}; it has to be True or False$"
                self.assertRaisesRegex(tezgumi.InputError, text, call, FOUR, tolerance=5, any_order=changes)
            text = "^any_order is for a decision within a tolerance, which may be 0$"
            self.assertRaisesRegex(tezgumi.InputError, text, call, FOUR, any_order=True)
            text = "^keep_order and any_order are two ways to decide: leave one out$"
            self.assertRaisesRegex(tezgumi.InputError, text, call, FOUR, tolerance=5, keep_order=True, any_order=True)

    def test_levels_without_a_place_or_bytes(self):
        text = "^there are 0 places and [0-9]+ numbers of bytes of levels; a level has one of each$"
        self.assertRaisesRegex(tezgumi.InputError, text, replace, reordered(), level_places=[])

    def test_what_has_no_room_for_it(self):
        text = "^a dump records a decision of the plan, and this one is within a tolerance$"
        self.assertRaisesRegex(tezgumi.InputError, text, tezgumi.encode, FOUR, reordered())
        text = "^round 1 is decided in any order of the PEs, and a page has no check of the bounds of such a decision$"
        self.assertRaisesRegex(tezgumi.InputError, text, tezgumi.page, [(FOUR, reordered())], "/no/such/page")

    def test_statuses(self):
        small = tezgumi.Run(3, FOUR.loads, FOUR.bytes, FOUR.places)
        for call in (reordering.plan_in_any_order, reordering.decide_in_any_order):
            self.assertRaisesRegex(tezgumi.InputError, "^the library refuses the tolerance", call, small, 3, 1001)
            self.assertRaisesRegex(tezgumi.InputError, "^the library refuses the run", call, small, 0, 5)
            self.assertRaisesRegex(tezgumi.InputError, "^a tolerance is for at most 65,536 elements", call, small, 257, 5)
