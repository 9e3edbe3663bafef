#!/usr/bin/env python3
"""Chains whose loads drift: the bytes that move and the greatest load, by the plan and within tolerances.

    drifts.py [--rounds 50] [--drift NAME] [--elements N --pes P] [--seed 1]

It needs numpy and the package `tezgumi` (bindings/python) with its library. For each drift it prints a line for the plan and one
for each tolerance: the bytes that moved over the rounds, relative to the plan; the greatest load of a PE, relative to the least
possible one, on average over the rounds; and the time of a decision, in milliseconds and relative to the plan, of the call of the
library alone. Each policy goes on from its own places. The bytes of an element are 64 and its load.

The drifts, of n elements, with u() a number of 0 to 1 and g() a normal one, all drawn by numpy's PCG64 from the seed:

- hot: base loads 500 to 1,500, times 1 + 9 exp(-((i - c) / (n/20))^2), times 1 + g()/100. The middle c begins at n/5, goes n/400 a
  round, and turns where it is above 0.9 n.
- walk: 1,000 exp(x + r), where x of each element begins at 0.3 g() and becomes 0.985 x + 0.05 g(), and r, one for each of 32 equal
  parts, begins at 0 and becomes 0.99 r + 0.02 g().
- skew: x begins at 100 u()^(-1/1.3), at most 100,000, and becomes x exp(0.05 g()), within 20 to 100,000; one in 500 is drawn anew.
- mesh: base loads times 0.4, within each of 12 patches times 4 (of 0.6 of them) or 16, together 64 at most. A patch is n/48 (0.5 +
  u()) long; in a round it jumps anywhere with 0.1, and else with 0.4 goes n/512 to one side.
- zero: no load but that of n/20 particles of 100 to 1,000, in 24 clouds, normal with a deviation of 0.35 n/24 around their middles.
  A particle goes with its cloud, up to 8 n/65,536 a round to either side, and 0.7 g() max(1, n/16,384) of its own; it turns back at
  the ends.
- noise: base loads times 1 + g()/100, drawn anew in each round.
"""
import argparse
import time

import numpy as np

import tezgumi
from tezgumi import library

TOLERANCES = (None, 0, 20, 50)
SIZES = ((1_000, 4), (1_000, 32), (4_096, 16), (4_096, 128), (65_536, 64), (65_536, 256))


class Drift:
    """The loads of a chain, round after round."""

    def __init__(self, n, seed):
        self.n, self.random = n, np.random.Generator(np.random.PCG64(seed))
        self.base = np.floor(self.uniform(500, 1_500))
        self.begin()

    def uniform(self, least, most, count=None):
        return self.random.uniform(least, most, self.n if count is None else count)

    def normal(self, count=None):
        return self.random.normal(size=self.n if count is None else count)

    def begin(self):
        pass

    def step(self):
        pass


class Hot(Drift):
    def begin(self):
        self.middle, self.speed = self.n / 5, self.n / 400

    def loads(self):
        distance = (np.arange(self.n) - self.middle) / (self.n / 20)
        return self.base * (1 + 9 * np.exp(-distance**2)) * (1 + self.normal() / 100)

    def step(self):
        self.middle += self.speed
        if self.middle > 0.9 * self.n:
            self.speed = -self.speed


class Walk(Drift):
    def begin(self):
        self.each, self.parts = 0.3 * self.normal(), np.zeros(32)

    def loads(self):
        return 1_000 * np.exp(self.each + self.parts[np.arange(self.n) * 32 // self.n])

    def step(self):
        self.each = 0.985 * self.each + 0.05 * self.normal()
        self.parts = 0.99 * self.parts + 0.02 * self.normal(32)


class Skew(Drift):
    def drawn(self):
        return np.minimum(100_000, 100 * (1 - self.uniform(0, 1)) ** (-1 / 1.3))

    def begin(self):
        self.each = self.drawn()

    def loads(self):
        return self.each

    def step(self):
        self.each = np.clip(self.each * np.exp(0.05 * self.normal()), 20, 100_000)
        self.each = np.where(self.uniform(0, 1) < 0.002, self.drawn(), self.each)


class Mesh(Drift):
    def begin(self):
        self.at = self.uniform(0, self.n, 12)
        self.long = self.n / 48 * self.uniform(0.5, 1.5, 12)
        self.fine = np.where(self.uniform(0, 1, 12) < 0.6, 4, 16)

    def loads(self):
        factor, places = np.ones(self.n), np.arange(self.n)
        for at, long, fine in zip(self.at, self.long, self.fine):
            inside = (places >= at - long / 2) & (places < at + long / 2)
            factor[inside] = np.minimum(64, factor[inside] * fine)
        return 0.4 * self.base * factor

    def step(self):
        draw, side = self.uniform(0, 1, 12), np.where(self.uniform(0, 1, 12) < 0.5, -1, 1)
        moved = np.clip(self.at + side * self.n / 512, 0, self.n)
        self.at = np.where(draw < 0.1, self.uniform(0, self.n, 12), np.where(draw < 0.5, moved, self.at))


class Zero(Drift):
    def begin(self):
        count = self.n // 20
        self.cloud = self.random.integers(0, 24, count)
        self.speed = self.uniform(-1, 1, 24) * 8 * self.n / 65_536
        self.at = (self.cloud + 0.5) / 24 * self.n + self.normal(count) * 0.35 * self.n / 24
        self.load = np.floor(self.uniform(100, 1_000, count))
        self.turned()

    def turned(self):
        at = np.abs(self.at)
        self.at = np.where(at >= self.n, 2 * self.n - 1 - at, at)

    def loads(self):
        return np.bincount(np.clip(self.at.astype(int), 0, self.n - 1), self.load, self.n)

    def step(self):
        self.at = self.at + self.speed[self.cloud] + 0.7 * self.normal(len(self.at)) * max(1, self.n / 16_384)
        self.turned()


class Noise(Drift):
    def loads(self):
        return self.base * (1 + self.normal() / 100)


DRIFTS = {"hot": Hot, "walk": Walk, "skew": Skew, "mesh": Mesh, "zero": Zero, "noise": Noise}


class Policy:
    """A tolerance, or None for the plan: the places that it left, and its sums."""

    def __init__(self, tolerance):
        self.tolerance = tolerance
        self.moved, self.peaks, self.seconds, self.places = 0, [], 0.0, None

    def decide(self, loads, sizes, pes):
        first = self.places is None
        if first:
            self.places = np.arange(len(loads)) * pes // len(loads)
        run = tezgumi.Run(pes, loads, sizes, self.places)
        timed.seconds = 0.0
        plan = tezgumi.plan(run) if first or self.tolerance is None else tezgumi.plan(run, tolerance=self.tolerance)
        self.places = plan.places
        if not first:
            self.moved += plan.moved
            self.seconds += timed.seconds
            self.peaks.append(np.bincount(plan.places, loads, pes).max())


class Timed:
    """Adds up the processor time of the calls of the library."""

    seconds = 0.0

    def around(self, call):
        def measured(*words):
            start = time.process_time()
            status = call(*words)
            self.seconds += time.process_time() - start
            return status
        return measured


timed = Timed()


def watch_the_library():
    """Lets the two calls be timed, without what Python does around them."""
    loaded = library.library()
    loaded.tezgumi_plan = timed.around(loaded.tezgumi_plan)
    loaded.tezgumi_refine = timed.around(loaded.tezgumi_refine)


def drifted(drift, n, pes, rounds, seed):
    """The policies after so many rounds."""
    chain, policies = DRIFTS[drift](n, seed), [Policy(tolerance) for tolerance in TOLERANCES]
    for _ in range(rounds + 1):
        loads = np.maximum(0, np.rint(chain.loads())).astype(np.uint64)
        sizes = np.minimum(64 + loads, 1_048_576).astype(np.uint32)
        for policy in policies:
            policy.decide(loads, sizes, pes)
        chain.step()
    return policies


def main():
    parser = argparse.ArgumentParser(description=__doc__, formatter_class=argparse.RawDescriptionHelpFormatter)
    parser.add_argument("--rounds", type=int, default=50)
    parser.add_argument("--drift", choices=DRIFTS)
    parser.add_argument("--elements", type=int)
    parser.add_argument("--pes", type=int)
    parser.add_argument("--seed", type=int, default=1)
    words = parser.parse_args()
    watch_the_library()
    sizes = [(words.elements, words.pes)] if words.elements and words.pes else SIZES
    print("drift tolerance bytes peak ms time")
    for drift in [words.drift] if words.drift else DRIFTS:
        runs = [drifted(drift, n, pes, words.rounds, words.seed) for n, pes in sizes]
        for k, tolerance in enumerate(TOLERANCES):
            same, plan = [run[k] for run in runs], [run[0] for run in runs]
            bytes_moved = sum(p.moved for p in same) / max(1, sum(p.moved for p in plan))
            peak = np.mean([np.mean(np.array(p.peaks) / np.array(q.peaks)) for p, q in zip(same, plan)])
            seconds = sum(p.seconds for p in same)
            milliseconds = 1e3 * seconds / (len(runs) * words.rounds)
            ratio = seconds / sum(p.seconds for p in plan)
            print(f"{drift} {'plan' if tolerance is None else tolerance} {bytes_moved:.2f} {peak:.3f} {milliseconds:.2f} {ratio:.2f}", flush=True)


if __name__ == "__main__":
    main()
