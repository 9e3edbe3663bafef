#!/usr/bin/env python3
"""Prints what `runs/tests_programs/src/reductions` expects of sums of doubles and of numbers of digits, by plain arithmetic.

usage: benches/reductions/plain_sums.py

The elements of a block of 2^s indices are those of its first half and then those of its second half, where there are any, and each half is
a block. So the parentheses of a sum are those of docs/REDUCTIONS.md. Beside each sum stand those from the left, from the right, exact, and
of how many shuffled orders the sum is the same.
"""

import math
import random
import struct

DOUBLES = [
    (0.7, 1e16, 0.2),
    (-1e16, -9e15, 0.1),
    (1.0, 0.1, 0.001),
    (1e8, -3.0, -4e15),
    (1e16, 9e15, 5.0),
    (-3.0, -1e16, 1e16),
    (2.5, 2.0, -1e16),
    (7e15, 0.3, 4e15),
    (3.0, 1.0, 3.0),
]
DIGITS = ["3141592653589793238462643383279502884", "2718281828459045235360287471352662497", "1414213562373095048801688724209698078"]
SIZES = [1, 2, 7, 8, 9, 37]
SHUFFLES = 1000


def by_blocks(values):
    """Adds up values by the halves of the least block of 2^s indices that has all of them."""
    if len(values) == 1:
        return values[0]
    half = 1
    while 2 * half < len(values):
        half *= 2
    return by_blocks(values[:half]) + by_blocks(values[half:])


def from_the_left(values):
    total = values[0]
    for value in values[1:]:
        total += value
    return total


def bits(value):
    return struct.pack(">d", value).hex()


def shuffled(values, generator):
    order = list(values)
    generator.shuffle(order)
    return order


def main():
    generator = random.Random(1)
    for turn in range(3):
        values = [row[turn] for row in DOUBLES]
        total = by_blocks(values)
        others = [from_the_left(values), from_the_left(values[::-1]), math.fsum(values)]
        same = sum(by_blocks(shuffled(values, generator)) == total for _ in range(SHUFFLES))
        print(f"sum {turn}: {total!r} {bits(total)}; others {others}; the same in {same} of {SHUFFLES} orders")
    for size in SIZES:
        numbers = [int(digits[:size]) % 2**64 for digits in DIGITS]
        print(f"{size} digits: {numbers}, letters {size + 3 * (2 * size - 1)}")


main()
