#!/usr/bin/env python3
"""Prints what runs/tests_decisions/src/refinements/reordered compares with: for the chains of search_all.py, the fewest bytes that
any cuts within the tolerance move under any naming, found by trying all of both. Where the elements of some PE do not stand
together, it is what the decision of search_all.py moves.

    search_any_order.py            a sum for each batch of 1,000 chains, 8 batches
    search_any_order.py SEED       one chain, with the fewest bytes
"""
from itertools import permutations
import sys

from search_all import MASK, chain, decide, divisions, order, peak


def costs(sizes, places, cuts, pes):
    """For each block and each PE the bytes of the block that stand elsewhere."""
    blocks = [range(a, b) for a, b in zip(cuts, cuts[1:])]
    return [[sum(sizes[i] for i in block if places[i] != pe) for pe in range(pes)] for block in blocks]


def fewest(loads, sizes, places, pes, tolerance):
    """The fewest bytes of all cuts within the tolerance and all namings of their blocks."""
    least = min(peak(loads, cuts) for cuts in divisions(len(loads), pes))
    within = [cuts for cuts in divisions(len(loads), pes) if peak(loads, cuts) <= least + least * tolerance // 1000]
    tables = [costs(sizes, places, cuts, pes) for cuts in within]
    return min(sum(table[b][pe] for b, pe in enumerate(names)) for table in tables for names in permutations(range(pes)))


def moved(seed):
    """The bytes that move, whether any order of the PEs was tried, and by how much fewer they are than in the present order."""
    loads, sizes, places, pes, tolerance = chain(seed)
    in_order = decide(loads, sizes, places, pes, tolerance)[2]
    if order(places, pes) is None:
        return in_order, 0, 0
    found = fewest(loads, sizes, places, pes, tolerance)
    return found, 1, in_order - found


def batch(first):
    total, tried, better = 0, 0, 0
    for seed in range(first, first + 1000):
        found, any_order, fewer = moved(seed)
        total = ((total * 31 + found + 1) * 31 + any_order + 1) & MASK
        tried += any_order
        better += fewer > 0
    return total, tried, better


if __name__ == "__main__":
    if len(sys.argv) > 1:
        print(*chain(int(sys.argv[1])))
        print(*moved(int(sys.argv[1])))
    else:
        for first in range(0, 8_000, 1000):
            total, tried, better = batch(first)
            print(f"    ({first}, {total:_}), // {tried} of them in any order, {better} with fewer bytes than in the present one")
