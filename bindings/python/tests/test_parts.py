"""A chain in parts: the rows of bindings/c/tests/parts.c, random chains beside a plain search, forged claims, and each refusal."""
import array
import random

import numpy as np

import slow_planner
import tezgumi
from support import TimedTest, most_bytes
from test_dividing import random_loads
from tezgumi import parts

MILLION = 1_000_000

# Twelve elements in three parts. The least bottleneck of three blocks is 21: they weigh 14, 17 and 21.
FRONT, MIDDLE, BACK = [3, 1, 4, 1, 5], [9, 2, 6, 5], [3, 5, 8]
CHAIN, FIRSTS = (FRONT, MIDDLE, BACK), (0, 5, 9)
LEAST = parts.Division(21, np.array([0, 5, 8, 12], np.uint32), np.array([0, 5, 8, 11], np.uint32))
SUMS = parts.Weights(np.array([14, 17, 21], np.uint64), np.array([23, 22, 21], np.uint64))

# Block 0 has 10 bytes on PE 0 and 9 on PE 1, and block 1 has 8 on PE 0. On PEs 1 and 0 they move 10 bytes.
TABLE = [[10, 9], [8, 0]]
CHEAPEST = parts.Naming(*(np.array(numbers) for numbers in ([1, 0], [2, 0], [0, 8])), 10)


def plain(answer):
    """An answer as plain lists and numbers."""
    return [numbers.tolist() if isinstance(numbers, np.ndarray) else numbers for numbers in answer]


def in_parts(rng, loads):
    """The chain in a few parts, some of them without elements."""
    places = [0, *sorted(rng.randint(0, len(loads)) for _ in range(rng.randint(0, 4))), len(loads)]
    return [loads[first:end] for first, end in zip(places, places[1:])]


class ByHand(TimedTest):
    def test_bounds(self):
        self.assertEqual(parts.bounds(52, 9, 3), (18, 26))
        self.assertEqual(parts.bounds(52, 9, tezgumi.DIVISION_PES), (9, 9))

    def test_limits(self):
        self.assertEqual(parts.limits((18, 26), 3).tolist(), [19, 21, 23])
        self.assertEqual(parts.limits((26, 26)).tolist(), [])
        self.assertEqual(parts.limits(parts.Bounds(18, 26)).tolist(), [18, 19, 20, 21, 22, 23, 24, 25])

    def test_walks(self):
        limits = [19, 21, 23]
        walks = parts.start(limits)
        for part in CHAIN:
            walks = parts.walk(part, 3, limits, walks)
        self.assertEqual(plain(walks), [[3, 2, 2], [0, 21, 8]])
        self.assertEqual(parts.narrow((18, 26), 3, limits, walks.closed), (20, 21))

    def test_walks_are_not_changed(self):
        before = parts.Walks(np.array([0], np.uint32), np.array([14], np.uint64))
        self.assertEqual(plain(parts.walk(MIDDLE, 3, [21], before)), [[2], [5]])
        self.assertEqual(plain(before), [[0], [14]])

    def test_wrong_walks(self):
        # Numbers of walks come by message. Those that no walk has are no cause of harm.
        closed, _ = parts.walk(FRONT, 3, [21, 21], parts.Walks([9, 0], [0, 2**64 - 1]))
        self.assertEqual(closed[0], 3)
        self.assertLessEqual(closed[1], 3)

    def test_ends(self):
        self.assertEqual(plain(parts.ends(MIDDLE, 5, 3, 21, 0, 14)), [[5, 8], 2, 5])
        self.assertEqual(plain(parts.ends(MIDDLE, 5, 3, 26, filled=14)), [[7], 1, 11])

    def test_runs(self):
        self.assertEqual(plain(parts.merge(MIDDLE, 5, [0, 5, 8, 11], [0, 5, 8, 12])), [[17, 5], [8, 9]])
        self.assertEqual(plain(parts.merge(MIDDLE, 5, [], [])), [[22], [9]])
        self.assertEqual(plain(parts.merge([], 5, [0], [9])), [[], []])

    def test_a_division(self):
        runs = [parts.Runs([14], [5]), parts.Runs([17, 5], [8, 9]), parts.Runs([], []), parts.Runs([8, 8], [11, 12])]
        self.assertEqual(plain(parts.divide(runs, 3)), [21, [0, 5, 8, 12], [0, 5, 8, 11]])
        self.assertEqual(plain(parts.divide([parts.Runs([0, 0], [1, 2])], 3)), [0, [0, 2, 2, 2], []])
        self.assertEqual(plain(parts.divide([], 1)), [0, [0, 0], []])

    def test_weights(self):
        blocks, fence = ([14, 0, 0], [0, 17, 5], [0, 0, 16]), ([14, 0, 0], [9, 22, 5], [0, 0, 16])
        for k, part in enumerate(CHAIN):
            self.assertEqual(plain(parts.weigh(part, FIRSTS[k], 3, LEAST)), [blocks[k], fence[k]])
        self.assertEqual(plain(parts.weigh(BACK, 9, 3, LEAST._replace(stops=[]))), [blocks[2], [0, 0, 0]])

    def test_bytes(self):
        self.assertEqual(parts.held([1, 2, 4, 8], 5, [0, 5, 8, 12]).tolist(), [0, 7, 8])

    def test_names(self):
        naming = parts.name(TABLE)
        self.assertEqual((naming.names.tolist(), naming.moved), ([1, 0], 10))
        self.assertTrue(parts.check_names(TABLE, naming))
        self.assertTrue(parts.check_names(TABLE, CHEAPEST))


class Divided(TimedTest):
    limit = 60

    def test_random_chains(self):
        for seed in range(300):
            loads, pes = random_loads(seed)
            given = in_parts(random.Random(seed), loads)
            with self.subTest(parts=given, pes=pes):
                least = slow_planner.least_bottleneck(loads, pes)
                wanted = [least, slow_planner.greedy_cuts(loads, pes, least), slow_planner.least_fence(loads, pes, least)]
                self.assertEqual(plain(parts.divide_all(given, pes)), wanted)

    def test_as_divide_does(self):
        loads = np.random.default_rng(5).integers(0, 10**6, 30_000)
        for pes in (1, 64, 5000):
            cuts, stops = tezgumi.divide(loads, pes, fence=True)
            division = parts.divide_all(np.array_split(loads, 7), pes)
            self.assertEqual(plain(division)[1:], [cuts.tolist(), stops.tolist()])

    def test_random_names(self):
        rng = np.random.default_rng(6)
        for _ in range(60):
            pes, count = int(rng.integers(1, 6)), int(rng.integers(0, 20))
            sizes, places = rng.integers(0, 9, count), rng.integers(0, pes, count)
            cuts = np.sort(np.concatenate([[0, count], rng.integers(0, count + 1, pes - 1)]))
            # Each PE has a part of zeros and of what stands there, which adds up to the same.
            table = np.stack([parts.held(np.where(places == pe, sizes, 0), 0, cuts) for pe in range(pes)], axis=1)
            names, moved = slow_planner.cheapest_naming_by_trial(slow_planner.costs(sizes.tolist(), places.tolist(), cuts.tolist()))
            naming = parts.name(table)
            self.assertEqual((naming.names.tolist(), naming.moved), (names, moved))
            self.assertTrue(parts.check_names(table, naming))

    def test_no_copy(self):
        loads = np.arange(MILLION, dtype=np.int64)
        for given in (loads, memoryview(loads), array.array("q", loads), loads[1:-1]):
            for call in (
                    lambda: parts.walk(given, 3, [5], parts.start([5])), lambda: parts.ends(given, 0, 3, 5),
                    lambda: parts.merge(given, 0, [5], [9]), lambda: parts.weigh(given, 0, 3, LEAST),
                    lambda: parts.divide_all([given, given[:7]], 16)):
                most, _ = most_bytes(call)
                self.assertLess(most, 100_000)

    def test_what_nobody_can_write_to(self):
        walks = parts.start([5])
        for answer in (
                parts.limits((1, 9)), *walks, *parts.walk(FRONT, 3, [5], walks), parts.ends(FRONT, 0, 3, 5).ends,
                *parts.merge(FRONT, 0, [], []), *parts.divide_all(CHAIN, 3)[1:], *parts.weigh(FRONT, 0, 3, LEAST),
                parts.held([1], 0, [0, 1]), *parts.name(TABLE)[:3]):
            self.assertRaises(ValueError, answer.__setitem__, 0, 1)


class Forged(TimedTest):
    """Claims of any numbers."""

    def test_divisions(self):
        put = lambda numbers, at, number: np.where(np.arange(len(numbers)) == at, number, numbers)
        for changed, line in (
                ({}, "ok"), ({"bottleneck": 20}, "Heavy 2"), ({"bottleneck": 16}, "Heavy 1"), ({"bottleneck": 22}, "FenceLight 3"),
                ({"bottleneck": 2**64 - 1}, "FenceLight 1"), ({"stops": []}, "ZeroFloor"), ({"stops": [0, 5, 8]}, "FenceCount"),
                ({"stops": [1, 5, 8, 11]}, "FenceStart"), ({"stops": [0, 8, 5, 11]}, "FenceOrder"),
                ({"stops": [0, 5, 8, 2**32 - 1]}, "FenceEnd"), ({"cuts": []}, "CutCount"), ({"cuts": [0, 5, 8]}, "CutCount"),
                ({"cuts": [1, 5, 8, 12]}, "CutStart"), ({"cuts": [0, 8, 5, 12]}, "CutOrder"), ({"cuts": [0, 5, 8, 11]}, "CutEnd")):
            self.assertEqual(str(parts.check_division(12, 3, LEAST._replace(**changed), SUMS)), f"check: {line}", changed)
        heavy = SUMS._replace(blocks=put(SUMS.blocks, 1, 2**64 - 1))
        self.assertEqual(str(parts.check_division(12, 3, LEAST, heavy)), "check: Heavy 1")
        self.assertEqual(str(parts.check_division(13, 3, LEAST, SUMS)), "check: CutEnd")

    def test_names(self):
        for changed, line in (
                ({"names": [1]}, "NameCount"), ({"names": [1, 2]}, "NameRange"), ({"names": [1, 1]}, "NameTwice"),
                ({"block_prices": [2]}, "PriceCount"), ({"pe_prices": []}, "PriceCount"), ({"block_prices": [3, 0], "moved": 11}, "PriceHigh 0 1"),
                ({"block_prices": [2, 1]}, "PriceHigh 1 0"), ({"pe_prices": [2**63 - 1, 8]}, "PriceHigh 0 0"),
                ({"block_prices": [1, 0]}, "PriceGap"), ({"moved": 11}, "MovedWrong"), ({"moved": 2**64 - 1}, "MovedWrong")):
            self.assertEqual(str(parts.check_names(TABLE, CHEAPEST._replace(**changed))), f"check: {line}", changed)


HEAVY = np.full(2, 2**62)
WALKS = parts.Walks([0], [0])

# What each call refuses, and the text.
REFUSED = (
    (parts.bounds, (-1, 9, 3), "^total is -1"), (parts.bounds, (52, 0.5, 3), r"^greatest is 0\.5"), (parts.bounds, (52, 9, 0), "^pes is 0"),
    (parts.bounds, (52, 9, 65_537), "^pes is 65537"),
    (parts.limits, ((27, 26),), "^low is 27, and high is 26"), (parts.limits, ((1, 2**64),), "^high is 18446744073709551616"),
    (parts.limits, ((1, 9), 0), "^count is 0"),
    (parts.start, ([2**64],), r"^limits\[0\] is 18446744073709551616"), (parts.start, ([True],), r"^limits\[0\] is True"),
    (parts.walk, ([1, -1], 3, [5], WALKS), r"^loads\[1\] is -1"), (parts.walk, ([1], 3, [5.5], WALKS), r"^limits\[0\] is 5\.5"),
    (parts.walk, ([1], 3, [5], parts.Walks([2**32], [0])), r"^closed\[0\] is 4294967296"),
    (parts.walk, ([1], 3, [5], parts.Walks([0], [-2])), r"^filled\[0\] is -2"),
    (parts.walk, ([1], 3, [5, 6], WALKS), "^there are 2 limits, 1 closed and 1 filled"), (parts.walk, ([1], 2.0, [5], WALKS), r"^pes is 2\.0"),
    (parts.narrow, ((1, 9), 3, [2**64 - 1], [0]), r"^limits\[0\] is 18446744073709551615"),
    (parts.narrow, ((1, 9), 3, [5, 6], [0]), "^there are 2 limits and 1 closed"), (parts.narrow, ((1, 9), 3, [5], [-1]), r"^closed\[0\] is -1"),
    (parts.narrow, ((1, 9), 0, [5], [0]), "^pes is 0"),
    (parts.ends, (MIDDLE, 2**32 - 4, 3, 5), "^first is 4294967292, and the last of 4 elements"), (parts.ends, (MIDDLE, -1, 3, 5), "^first is -1"),
    (parts.ends, (MIDDLE, 5, 3, 2**64), "^limit is"), (parts.ends, (MIDDLE, 5, 3, 5, -1), "^closed is -1"),
    (parts.ends, (MIDDLE, 5, 3, 5, 0, "x"), "^filled is 'x'"), (parts.ends, ([[1]], 5, 3, 5), "^loads: a list of one dimension"),
    (parts.merge, (MIDDLE, 5, [0, 5], [0]), "^there are 2 entries of lower and 1 of upper"),
    (parts.merge, (MIDDLE, 5, [0, 5, 4], [0, 5, 8]), r"^lower\[2\] is 4, and lower\[1\] is 5"),
    (parts.merge, (MIDDLE, 5, [0, 5, 8], [0, 9, 8]), r"^upper\[2\] is 8, and upper\[1\] is 9"),
    (parts.merge, (MIDDLE, 5, [0, 5, 8], [0, 5, 7]), r"^upper\[2\] is 7, and lower\[2\] is 8"),
    (parts.merge, (MIDDLE, 5, [-1], [0]), r"^lower\[0\] is -1"), (parts.merge, (MIDDLE, 5, [0], [2**32]), r"^upper\[0\] is 4294967296"),
    (parts.divide, ([parts.Runs([1, 2], [3])], 3), r"^runs\[0\] has 2 loads and 1 ends"),
    (parts.divide, ([parts.Runs([1], [3]), parts.Runs([1, 2], [5, 5])], 3), r"^runs\[1\]\.ends\[1\] is 5; it has to be above 5"),
    (parts.divide, ([parts.Runs([1], [3]), parts.Runs([2], [3])], 3), r"^runs\[1\]\.ends\[0\] is 3; it has to be above 3"),
    (parts.divide, ([parts.Runs([1], [0])], 3), r"^runs\[0\]\.ends\[0\] is 0; it has to be above 0"),
    (parts.divide, ([parts.Runs([-1], [3])], 3), r"^runs\[0\]\.loads\[0\] is -1"), (parts.divide, ([], 0), "^pes is 0"),
    (parts.weigh, (BACK, 9, 3, LEAST._replace(cuts=[0, -5])), r"^cuts\[1\] is -5"),
    (parts.weigh, (BACK, 9, 3, LEAST._replace(stops=[0.5])), r"^stops\[0\] is 0\.5"), (parts.weigh, (BACK, 2**32 - 3, 3, LEAST), "^first is"),
    (parts.check_division, (12, 3, LEAST, SUMS._replace(blocks=[14, 17])), "^there are 2 weights of blocks and 3 of the fence, and 3"),
    (parts.check_division, (12, 3, LEAST, SUMS._replace(fence=[1, 2, -3])), r"^fence\[2\] is -3"),
    (parts.check_division, (2**32, 3, LEAST, SUMS), "^elements is 4294967296"), (parts.check_division, (12, 0, LEAST, SUMS), "^pes is 0"),
    (parts.check_division, (12, 3, LEAST._replace(bottleneck=-1), SUMS), "^bottleneck is -1"),
    (parts.held, ([2**32], 5, [0, 9]), r"^bytes\[0\] is 4294967296"), (parts.held, ([1], 5, []), "^there are no cuts"),
    (parts.held, ([1], 5, [0, "9"]), "^cuts"), (parts.held, ([1, 2, 4, 8], 2**32 - 4, [0, 9]), "^first is 4294967292"),
    (parts.name, ([[1, 2], [3, -4]],), r"^held\[1\]\[1\] is -4"), (parts.name, ([1, 2, 3, 4],), r"^held: .* not of the shape \(4,\)"),
    (parts.name, ([[1, 2]],), r"shape \(1, 2\)"), (parts.name, (np.empty((0, 0)),), "at least one row"), (parts.name, ([[1, 2], [3]],), "^held: "),
    (parts.name, ([[1, 0.5], [3, 4]],), r"^held\[0\]\[1\] is 0\.5"), (parts.name, (np.zeros((4097, 4097), np.uint8),), "^held has 4097 rows"),
    (parts.name, ([[2**47, 1], [0, 0]],), "^held adds up to 140737488355329"),
    (parts.check_names, (TABLE, CHEAPEST._replace(names=[0, -1])), r"^names\[1\] is -1"),
    (parts.check_names, (TABLE, CHEAPEST._replace(block_prices=[2**63, 0])), r"^block_prices\[0\] is 9223372036854775808"),
    (parts.check_names, (TABLE, CHEAPEST._replace(pe_prices=[0, None])), r"^pe_prices\[1\] is None"),
    (parts.check_names, (TABLE, CHEAPEST._replace(moved=-1)), "^moved is -1"),
    (parts.divide_all, ([[1], [2, -3]], 3), r"^parts\[1\]\[1\] is -3"), (parts.divide_all, ([[1]], 65_537), "^pes is 65537"),
)

# Loads that are too great where all else is in order.
TOO_HEAVY = (
    (parts.bounds, (2**63, 9, 3)), (parts.walk, (HEAVY, 3, [5], WALKS)), (parts.ends, (HEAVY, 0, 3, 5)), (parts.merge, (HEAVY, 0, [], [])),
    (parts.divide, ([parts.Runs(HEAVY, [1, 2])], 3)), (parts.weigh, (HEAVY, 0, 3, LEAST)), (parts.divide_all, ([HEAVY[:1], HEAVY[1:]], 3)),
)


class Refused(TimedTest):
    def test_each_word(self):
        for call, words, text in REFUSED:
            with self.subTest(call=call.__name__, text=text):
                self.assertRaisesRegex(tezgumi.InputError, text, call, *words)

    def test_tables(self):
        # Of floats in an array the first is refused, and of those in lists the first that is one.
        self.assertRaisesRegex(tezgumi.InputError, r"^held\[0\]\[0\] is 10\.0", parts.name, np.array(TABLE, float))
        for table in (np.array(TABLE, np.int8), np.array(TABLE).T[::-1].copy()[::-1].T, [np.array(row) for row in TABLE]):
            self.assertEqual(parts.name(table).names.tolist(), [1, 0])

    def test_loads(self):
        for call, words in TOO_HEAVY:
            with self.subTest(call=call.__name__):
                self.assertRaisesRegex(tezgumi.LoadError, "9223372036854775808, and at most 9223372036854775807 is taken", call, *words)


class Help(TimedTest):
    def test_each_call_says_what_it_is_for(self):
        for call in (
                parts.bounds, parts.limits, parts.start, parts.walk, parts.narrow, parts.ends, parts.merge, parts.divide, parts.weigh,
                parts.check_division, parts.held, parts.name, parts.check_names, parts.divide_all):
            self.assertGreater(len(call.__doc__), 40)
