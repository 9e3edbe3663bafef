#!/usr/bin/env python3
"""Prints what runs/tests_decisions/src/refinements/decisions.rt.txt compares with: for chains made by a generator that both
programs have, the decision within a tolerance, found by trying all cuts and all namings. It shares no code with the project, and
follows the definitions alone.

    search_all.py            a sum for each batch of 1,000 chains, 20 batches
    search_all.py SEED       one chain, with its decision
"""
from itertools import combinations_with_replacement, permutations
import sys

MASK = 2**64 - 1


class Numbers:
    """The multiplicative generator of D. E. Knuth's MMIX, of which the upper 31 bits are taken."""

    def __init__(self, seed):
        self.state = seed

    def below(self, most):
        self.state = (self.state * 6364136223846793005 + 1442695040888963407) & MASK
        return (self.state >> 33) % most


def chain(seed):
    """Loads, bytes, places, the number of PEs and the tolerance of one chain."""
    numbers = Numbers(seed)
    elements, pes = numbers.below(9), 1 + numbers.below(4)
    tolerance = (0, 20, 200, 1000)[numbers.below(4)]
    together = numbers.below(4) > 0
    loads, sizes, places = [], [], []
    shift, run = numbers.below(4), 0
    for _ in range(elements):
        loads.append(numbers.below(10))
        sizes.append(numbers.below(4))
        run += numbers.below(3) // 2 if together else numbers.below(4)
        places.append((run + shift) % (pes if together else 4))
    return loads, sizes, places, pes, tolerance


def divisions(elements, blocks):
    return [(0, *inner, elements) for inner in combinations_with_replacement(range(elements + 1), blocks - 1)]


def peak(loads, cuts):
    return max(sum(loads[a:b]) for a, b in zip(cuts, cuts[1:]))


def moved(sizes, places, cuts, names):
    return sum(sizes[i] for b, (x, y) in enumerate(zip(cuts, cuts[1:])) for i in range(x, y) if places[i] != names[b])


def least_naming(sizes, places, cuts, pes):
    return min((moved(sizes, places, cuts, names), names) for names in permutations(range(pes)))


def greedy(loads, pes, limit):
    cuts = [0]
    for _ in range(pes):
        end = cuts[-1]
        while end < len(loads) and sum(loads[cuts[-1]:end + 1]) <= limit:
            end += 1
        cuts.append(end)
    return tuple(cuts)


def order(places, pes):
    """The PEs in the order in which they stand, with the present cuts, or None."""
    names, cuts = [], []
    for i, place in enumerate(places):
        if names and names[-1] == place:
            continue
        if place in names or place >= pes:
            return None
        names.append(place)
        cuts.append(i)
    names += [pe for pe in range(pes) if pe not in names]
    return tuple(names), tuple(cuts + [len(places)] * (pes + 1 - len(cuts)))


def nearest(found, present):
    """Of the cuts that move the fewest bytes those nearest the present ones, chosen from the end of the chain."""
    for b in range(len(present) - 1, -1, -1):
        near = min(abs(cuts[b] - present[b]) for cuts in found)
        found = [cuts for cuts in found if abs(cuts[b] - present[b]) == near]
    assert len(set(found)) == 1
    return found[0]


def decide(loads, sizes, places, pes, tolerance):
    """Cuts, names, bytes moved, and whether they are those of the plan."""
    least = min(peak(loads, cuts) for cuts in divisions(len(loads), pes))
    plan = greedy(loads, pes, least)
    plan_moved, plan_names = least_naming(sizes, places, plan, pes)
    stands = order(places, pes)
    if stands is None:
        return plan, plan_names, plan_moved, True
    names, present = stands
    within = [cuts for cuts in divisions(len(loads), pes) if peak(loads, cuts) <= least + least * tolerance // 1000]
    few = min(moved(sizes, places, cuts, names) for cuts in within)
    cuts = nearest([cuts for cuts in within if moved(sizes, places, cuts, names) == few], present)
    kept_moved, kept_names = least_naming(sizes, places, cuts, pes)
    if plan_moved <= kept_moved:
        return plan, plan_names, plan_moved, True
    return cuts, kept_names, kept_moved, False


def mixed(total, numbers):
    for number in numbers:
        total = (total * 31 + number + 1) & MASK
    return total


def batch(first):
    total, near = 0, 0
    for seed in range(first, first + 1000):
        cuts, names, bytes_moved, planned = decide(*chain(seed))
        total = mixed(mixed(mixed(total, cuts), names), (bytes_moved, int(planned)))
        near += not planned
    return total, near


if __name__ == "__main__":
    if len(sys.argv) > 1:
        it = chain(int(sys.argv[1]))
        print(*it)
        print(*decide(*it))
    else:
        for first in range(0, 20_000, 1000):
            total, near = batch(first)
            print(f"    ({first}, {total:_}), // {near} of them near the present cuts")
