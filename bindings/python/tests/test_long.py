"""Runs past the limits of a dump: beside a plain search for the least bottleneck and a plain checker, spoilt, counted and drawn.

TEZGUMI_CHAINS=10000 in the environment compares so many random chains, in a minute.
"""
import os
import random
import tempfile
import time
from dataclasses import replace
from unittest import SkipTest

import numpy as np

import browser
import slow_checker
import slow_planner
import tezgumi
from support import TimedTest, as_lists, large_run
from test_checking import forge

CHAINS = int(os.environ.get("TEZGUMI_CHAINS", "1000"))
MILLION = 1_000_000
SECONDS = 5
"""Of processor time, so that a machine with other work to do fails nothing."""


def long_run(seed):
    """A run of some hundred elements on 300 to 600 PEs, with loads of up to 2^55, and as many PEs to plan for."""
    rng = np.random.default_rng(seed)
    count, procs, pes = int(rng.integers(0, 900)), *map(int, rng.integers(300, 601, 2))
    top = (3, 1000, min(2**55, tezgumi.TOTAL_LOAD // max(count, 1)))[seed % 3]
    numbers, sizes = rng.integers(0, top + 1, count), rng.integers(0, (10, 2**30)[seed % 2], count)
    places = rng.integers(0, procs, count)
    if seed % 4:
        places.sort()
    return tezgumi.Run(procs, numbers, sizes, places), pes


def million(seed=1):
    """A million elements that stand on 4,096 PEs, with a hot spot that has gone on since."""
    rng = np.random.default_rng(seed)
    index = np.arange(MILLION)
    hot = np.maximum(0, 30_000 - np.abs(index - 300_000)) // 3
    sizes = rng.integers(64, 1064, MILLION).astype(np.uint32)
    return tezgumi.Run(tezgumi.PES, 1000 + rng.integers(0, 100, MILLION) + hot, sizes, index * tezgumi.PES // MILLION)


def costs(run, decision):
    """The bytes that each block moves to each PE."""
    pes = decision.pes
    there = np.zeros((pes, max(pes, run.procs)), np.int64)
    np.add.at(there, (np.repeat(np.arange(pes), np.diff(decision.cuts.astype(np.int64))), run.places), run.bytes)
    return there.sum(axis=1, keepdims=True) - there[:, :pes]


class Planned(TimedTest):
    limit = 120

    def compare(self, run, decision):
        loads, pes, bottleneck = run.loads.tolist(), decision.pes, decision.bottleneck
        self.assertEqual(decision.cuts.tolist(), slow_planner.greedy_cuts(loads, pes, bottleneck))
        self.assertEqual(decision.cuts[-1], len(run))
        if bottleneck:
            # Within one less not even the longest blocks come to the end.
            self.assertLess(slow_planner.greedy_cuts(loads, pes, bottleneck - 1)[-1], len(run))
        self.assertEqual(decision.stops.tolist(), slow_planner.least_fence(loads, pes, bottleneck))
        self.assertEqual(decision.places.tolist(), np.repeat(decision.names, np.diff(decision.cuts.astype(np.int64))).tolist())

    def compare_prices(self, run, decision):
        cost, pes = costs(run, decision), decision.pes
        self.assertEqual(sorted(decision.names.tolist()), list(range(pes)))
        self.assertTrue((decision.block_prices[:, None] + decision.pe_prices <= cost).all())
        self.assertEqual(int(cost[np.arange(pes), decision.names].sum()), decision.moved)
        self.assertEqual(int(decision.block_prices.sum() + decision.pe_prices.sum()), decision.moved)

    def test_random_chains(self):
        for seed in range(CHAINS):
            with self.subTest(seed=seed):
                run, pes = long_run(seed)
                decision = tezgumi.decide(run, pes)
                self.compare(run, decision)
                self.assertTrue(tezgumi.check(run, decision))
                if seed % 5 < 2:
                    self.compare_prices(run, decision)

    def test_each_limit_that_a_dump_has(self):
        count = 70_000
        rng = np.random.default_rng(3)
        zero, light = np.zeros(count, int), rng.integers(0, 1000, count)
        for run, pes in (
                (tezgumi.Run(1, light, light, zero), 2),
                (tezgumi.Run(300, [1, 2, 3], [5, 5, 5], [298, 299, 0]), 4),
                (tezgumi.Run(2, [1, 2, 3], [5, 5, 5], [0, 1, 0]), 4096),
                (tezgumi.Run(2, [1, 2**62, 3, 2**62 - 5], [5, 5, 5, 5], [0, 1, 0, 1]), 2),
                (tezgumi.Run(2, [1, 2, 3], [2**31, 2**32 - 1, 7], [0, 0, 1]), 2)):
            decision = tezgumi.decide(run, pes)
            self.compare(run, decision)
            self.compare_prices(run, decision)
            self.assertTrue(tezgumi.check(run, decision))
            self.assertEqual(tezgumi.plan(run, pes).places.tolist(), decision.places.tolist())

    def test_sums_at_the_limits(self):
        most = tezgumi.Run(2, [2**62, 2**62 - 1], [2**32 - 1, 1], [0, 0])
        decision = tezgumi.decide(most, 1)
        self.assertEqual((decision.bottleneck, decision.moved), (2**63 - 1, 0))
        sizes = np.append(np.full(2**15, 2**32 - 1, np.uint32), np.uint32(2**15))
        run = tezgumi.Run(2, np.zeros(sizes.size, int), sizes, np.ones(sizes.size, int))
        moved = tezgumi.decide(run, 1)
        self.assertEqual(moved.moved, tezgumi.TOTAL_BYTES)
        self.assertTrue(tezgumi.check(run, moved))
        self.assertEqual(tezgumi.figures(run, moved).entering_bytes, tezgumi.TOTAL_BYTES)

    def test_a_million_elements(self):
        run = million()
        began = time.process_time()
        decision = tezgumi.decide(run)
        figures, verdict = tezgumi.figures(run, decision), tezgumi.check(run, decision)
        self.assertLess(time.process_time() - began, SECONDS)
        self.assertTrue(verdict)
        self.compare(run, decision)
        self.compare_prices(run, decision)
        sums = np.concatenate([[0], np.cumsum(run.loads.astype(np.int64))])
        after = np.diff(sums[decision.cuts])
        self.assertEqual((figures.greatest_after, figures.least_after), (after.max(), after.min()))
        before = [int(run.loads[run.places == pe].sum()) for pe in (0, 1228, 4095)]
        self.assertEqual(tezgumi.pe_loads(run, run.places, run.procs)[[0, 1228, 4095]].tolist(), before)
        self.assertEqual(figures.moved_bytes, decision.moved)
        swept = tezgumi.sweep(run)
        self.assertEqual([row.pes for row in swept], [2**k for k in range(13)])
        self.assertEqual((swept[0].greatest_after, swept[-1].greatest_after), (int(sums[-1]), decision.bottleneck))

    def test_loads_of_pes_past_53_bits(self):
        rng = random.Random(4)
        loads = [rng.randrange(2**43) for _ in range(2**20 + 3)]
        run = tezgumi.Run(3, loads, [0] * len(loads), [i % 3 for i in range(len(loads))])
        self.assertEqual(tezgumi.pe_loads(run, run.places, 3).tolist(), [sum(loads[pe::3]) for pe in range(3)])


class Refused(TimedTest):
    """Claims for more than 256 PEs with something wrong in them."""

    limit = 120

    def test_at_random(self):
        for seed in range(60):
            run, pes = long_run(seed)
            forged = forge(random.Random(seed), run, tezgumi.decide(run, pes))
            line = slow_checker.first_flaw(as_lists(run), as_lists(forged))
            self.assertEqual(str(tezgumi.check(run, forged)), line, seed)

    def test_behind_the_first_256(self):
        # 300 elements, each a block of its own on the PE where it is.
        ones, index = np.ones(300, int), np.arange(300)
        run = tezgumi.Run(300, ones, ones * 5, index)
        right = tezgumi.decide(run)
        self.assertEqual((right.bottleneck, right.moved, right.names.tolist()), (1, 0, index.tolist()))
        put = lambda numbers, at, number: np.where(np.arange(len(numbers)) == at, number, numbers)
        for changed, line in (
                ({"cuts": put(right.cuts, 299, 298)}, "Heavy 299"), ({"stops": put(right.stops, 298, 299)}, "FenceOrder"),
                ({"bottleneck": 0, "stops": []}, "Heavy 0"), ({"names": put(right.names, 299, 298)}, "NameTwice"),
                ({"names": put(right.names, 299, 300)}, "NameRange"), ({"names": right.names[:256]}, "NameCount"),
                ({"block_prices": put(right.block_prices, 299, 6)}, "PriceHigh 299 0"),
                ({"block_prices": put(right.block_prices, 299, 1)}, "PriceHigh 299 299"),
                ({"block_prices": put(right.block_prices, 299, 2**63 - 1)}, "PriceHigh 299 0"),
                ({"pe_prices": put(right.pe_prices, 298, 2**62)}, "PriceHigh 0 298"),
                ({"pe_prices": put(right.pe_prices, 299, -1)}, "PriceGap"), ({"moved": 1}, "MovedWrong"),
                ({"places": put(right.places, 299, 0)}, "MovesWrong"), ({"pes": 299}, "CutCount")):
            forged = replace(right, **changed)
            self.assertEqual(str(tezgumi.check(run, forged)), "check: " + line)
            self.assertEqual(slow_checker.first_flaw(as_lists(run), as_lists(forged)), "check: " + line)

    def test_a_million_elements(self):
        run = million()
        right = tezgumi.decide(run)
        places = right.places.copy()
        places[-1] = (places[-1] + 1) % run.procs
        moves = run.moves_to(places)
        prices = right.block_prices.copy()
        prices[4095] += tezgumi.TOTAL_BYTES
        for changed, line in (
                ({"moved": right.moved + 1}, "MovedWrong"), ({"places": places, "moves": moves}, "MovesWrong"),
                ({"block_prices": prices}, "PriceHigh 4095 0"), ({"bottleneck": right.bottleneck + 1}, "FenceLight")):
            self.assertEqual(str(tezgumi.check(run, replace(right, **changed)))[:len("check: " + line)], "check: " + line)


class Drawn(TimedTest):
    limit = 300

    def test_pictures(self):
        try:
            import tezgumi_plot
        except ImportError as error:
            raise SkipTest(f"no pictures: {error}")
        from test_pictures import Texts, written
        run = million()
        scattered = replace(run, places=np.random.default_rng(2).integers(0, run.procs, MILLION))
        few = tezgumi.Run(4096, np.arange(300) % 31, np.ones(300, int), np.arange(300) * 13)
        for name, one, pes in (("near", run, 4096), ("scattered", scattered, 600), ("on 8", run, 8), ("few", few, 4096)):
            decision = tezgumi.decide(one, pes)
            began = time.process_time()
            sheet = tezgumi_plot.decision(one, decision, title=name, checked=True)
            Texts().assert_readable(sheet, name)
            self.assertLess(time.process_time() - began, SECONDS, name)
            texts = [text for text, _ in written(sheet)]
            thin = pes == 4096 and len(one) == MILLION
            self.assertEqual(thin, any("each 8th cut at |" in text for text in texts), texts)
            # No picture has a shape for each element, nor a patch of its own for each block.
            self.assertLess(max(len(axes.patches) for axes in sheet.axes), 300)
            paths = [len(them.get_paths()) for axes in sheet.axes for them in axes.collections]
            self.assertLess(sum(paths), 9000)

    def test_the_largest_run_of_a_dump_has_all_its_marks(self):
        try:
            import tezgumi_plot
        except ImportError as error:
            raise SkipTest(f"no pictures: {error}")
        from test_pictures import written
        run = large_run()
        sheet = tezgumi_plot.decision(run, tezgumi.decide(run))
        self.assertEqual(len(sheet.axes[0].patches), 257)  # a shape for each block, and their outline
        texts = [text for text, _ in written(sheet)]
        self.assertTrue(any(text.startswith("256 blocks, cut at |.") for text in texts), texts)
        self.assertTrue(any(text.startswith("fence |: ") for text in texts), texts)

    def test_a_page(self):
        run = million()
        decision = tezgumi.decide(run)
        with tempfile.TemporaryDirectory() as folder:
            path = os.path.join(folder, "run.html")
            began = time.process_time()
            written = tezgumi.page([(run, decision)], path)
            self.assertLess(time.process_time() - began, SECONDS)
            self.assertEqual(written.left_out, ())
            if browser.found() is None:
                raise SkipTest("no browser (Debian: chromium)")
            with browser.Browser() as seen:
                self.look_at(seen.open(path, 1280, 900), run, decision)

    def look_at(self, page, run, decision):
        page.wait("document.documentElement.dataset.checked", 200)
        self.assertEqual(page.errors, [])
        row = page.rows("all-rounds")[0]
        self.assertEqual([int(row[k]) for k in (2, 3, 8, 15)], [MILLION, 4096, decision.bottleneck, decision.moved])
        self.assertEqual(row[17], "holds")
        self.assertIn("one in 14 is drawn", page.text("#chain-note"))
        page.value("chainPart.show(chainPart.whole * 0.3, chainPart.whole * 0.31)")
        self.assertNotIn("is drawn", page.text("#chain-note"))
        blocks = page.rows("blocks")
        cuts = decision.cuts.tolist()
        self.assertEqual([[int(cell) for cell in row[1:3]] for row in blocks[:100]], [cuts[b:b + 2] for b in range(100)])
        page.close()
