"""What the tests share: the examples, limits of time, random runs, and runs and decisions as plain lists."""
import dataclasses
import os
import random
import signal
import sys
import tracemalloc
import unittest

HERE = os.path.dirname(os.path.abspath(__file__))
PACKAGES = os.path.dirname(HERE)
CHECKOUT = os.path.dirname(os.path.dirname(PACKAGES))
EXAMPLES = os.path.join(CHECKOUT, "examples")
sys.path.insert(0, PACKAGES)

import numpy as np

import tezgumi

THREE = tezgumi.Run(2, [1, 1, 2], [10, 9, 8], [0, 1, 0], step=5)

# What lb_sim prints of the examples, as the tests of lb_replay have it.
THREE_TEXT = """step 5 procs 2 elements 3
bottleneck 2
fence 0 1 2
block 0 0..2 load 2 pe 1
block 1 2..3 load 2 pe 0
moved 10
"""
THREE_ON_ONE_TEXT = """step 5 procs 1 elements 3
bottleneck 4
fence 0 2
block 0 0..3 load 4 pe 0
moved 9
"""
FRONT_TEXT = """step 12 procs 16 elements 300
bottleneck 876
fence 0 33 67 100 133 166 178 182 186 189 192 195 199 204 223 256 289
block 0 0..33 load 858 pe 0
block 1 33..67 load 874 pe 2
block 2 67..100 load 860 pe 4
block 3 100..133 load 854 pe 6
block 4 133..166 load 861 pe 7
block 5 166..178 load 801 pe 9
block 6 178..183 load 876 pe 1
block 7 183..187 load 836 pe 3
block 8 187..190 load 675 pe 5
block 9 190..193 load 672 pe 8
block 10 193..197 load 858 pe 12
block 11 197..201 load 760 pe 14
block 12 201..207 load 800 pe 10
block 13 207..236 load 861 pe 11
block 14 236..269 load 860 pe 13
block 15 269..300 load 808 pe 15
moved 82746
"""


class TimedTest(unittest.TestCase):
    """Tests that fail where they take longer than `limit` seconds."""

    limit = 20

    def run(self, result=None):
        def end(*_):
            raise TimeoutError(f"longer than {self.limit} seconds")

        before = signal.signal(signal.SIGALRM, end)
        signal.alarm(self.limit)
        try:
            return super().run(result)
        finally:
            signal.alarm(0)
            signal.signal(signal.SIGALRM, before)


def example(name):
    """The path of an example."""
    return os.path.join(EXAMPLES, name)


def read_bytes(path):
    with open(path, "rb") as file:
        return file.read()


def front():
    return tezgumi.read_dump(example("moving-front.lbd1")).run


def random_run(seed, elements=24, pes=8):
    """A run, and a number of PEs to plan for: every fourth has few loads but 0, and every fifth ones near the limit."""
    rng = random.Random(seed)
    count, procs = rng.randint(0, elements), rng.randint(1, pes)
    top = tezgumi.DUMP_LOAD if seed % 5 == 0 else rng.choice((1, 3, 10, 1000))
    loads = [0 if seed % 4 == 0 and rng.random() < 0.7 else rng.randint(0, top) for _ in range(count)]
    sizes = [rng.choice((0, 1, rng.randint(0, 9), rng.randint(0, tezgumi.DUMP_STATE_BYTES))) for _ in range(count)]
    places = [rng.randrange(procs) for _ in range(count)]
    if seed % 3 == 0:
        places.sort()
    return tezgumi.Run(procs, loads, sizes, places, step=seed), rng.randint(1, pes)


def large_run(elements=tezgumi.DUMP_ELEMENTS, pes=tezgumi.DUMP_PES, seed=1):
    rng = np.random.default_rng(seed)
    places = np.arange(elements) * pes // max(elements, 1)
    return tezgumi.Run(pes, rng.integers(0, 1000, elements), rng.integers(0, 100_000, elements), places)


def most_bytes(call):
    """The most memory that a call has at a time beside what was there before, in bytes, and what it answers."""
    tracemalloc.start()
    try:
        answer = call()
        return tracemalloc.get_traced_memory()[1], answer
    finally:
        tracemalloc.stop()


def as_lists(record):
    """A run or a decision as a dictionary of numbers and plain lists."""
    fields = {field.name: getattr(record, field.name) for field in dataclasses.fields(record)}
    return {name: value.tolist() if isinstance(value, np.ndarray) else value for name, value in fields.items()}
