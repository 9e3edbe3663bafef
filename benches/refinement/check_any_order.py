#!/usr/bin/env python3
"""Prints the rows of runs/tests_decisions/src/refinements/reordered/rows.rt.txt: bounds of two chains, made place by place by
their definition, and for each number of a claim what the check has to say where it is one less or one more. It tries every block,
and follows the definitions of crates/any_order/specs alone.

    check_any_order.py
"""
from itertools import permutations

from search_all import divisions, moved, peak
from search_any_order import fewest

TEN = [1, 1, 1, 2, 7, 8, 6, 2, 1, 1], [10, 10, 10, 20, 60, 90, 70, 20, 10, 10], [2, 2, 2, 2, 0, 0, 0, 1, 1, 1], 3, 200, 12, [0, 5, 6, 10], [0, 4, 5, 6]
HOT = [1, 1, 9, 9, 9, 1, 1, 1], [5, 5, 8, 8, 8, 5, 5, 5], [0, 0, 1, 1, 1, 2, 2, 3], 4, 100, 11, [0, 3, 4, 5, 8], [0, 2, 3, 4, 6]


class Claim:
    def __init__(self, chain, cuts, names, any_rows, free_rows):
        self.loads, self.sizes, self.places, self.pes, self.tolerance, self.bottleneck, self.least, self.fence = chain
        self.cuts, self.names, self.any, self.free = cuts, names, any_rows, free_rows

    def limit(self):
        return self.bottleneck + self.bottleneck * self.tolerance // 1000

    def home(self, x):
        return self.places[x] if x < len(self.places) else 0

    def brought(self, y, x, pe):
        return sum(self.sizes[i] for i in range(y, x) if self.places[i] != pe)


def level(steps, x):
    value = 0
    for place, there in steps:
        if place > x:
            break
        value = there
    return value


def table(claim, most):
    """The greatest bounds, at most this many bytes, place by place."""
    n = len(claim.loads)
    rows = [([min(most, 0 if x == 0 else most) for x in range(n + 1)],) * 2]
    for _ in range(claim.pes):
        any_row, free_row = rows[-1]
        next_any, next_free = [], []
        for x in range(n + 1):
            a = f = most
            for y in range(x + 1):
                if sum(claim.loads[y:x]) > claim.limit():
                    continue
                for pe in range(max(claim.places) + 3):
                    own = claim.home(y) == pe
                    a = min(a, (free_row[y] if own else any_row[y]) + claim.brought(y, x, pe))
                    if claim.home(x) != pe:
                        own = own or claim.home(y) == claim.home(x)
                        f = min(f, (free_row[y] if own else any_row[y]) + claim.brought(y, x, pe))
            next_any.append(a)
            next_free.append(f)
        rows.append((next_any, next_free))
    return rows


def steps(values):
    found, last = [], 0
    for x, value in enumerate(values):
        if value != last:
            found.append((x, value))
            last = value
    return found


def is_level(claim, any_row, free_row, x):
    return all(f(x) == f(x + 1) for f in (claim.home, lambda z: level(any_row, z), lambda z: level(free_row, z)))


def rises(claim, b, y, x):
    """Whether the bounds rise by no more than the block brings to any PE."""
    for pe in range(max(claim.places) + 4):
        brought = claim.brought(y, x, pe)
        any_y, free_y = level(claim.any[b], y), level(claim.free[b], y)
        if level(claim.any[b + 1], x) > (free_y if claim.home(y) == pe else any_y) + brought:
            return False
        kept = claim.home(y) in (pe, claim.home(x))
        if claim.home(x) != pe and level(claim.free[b + 1], x) > (free_y if kept else any_y) + brought:
            return False
    return True


def verdict(claim):
    """0 where the claim is right, and else the number of the first flaw with its place."""
    n, pes = len(claim.loads), claim.pes
    for b in range(pes):
        if sum(claim.loads[claim.least[b]:claim.least[b + 1]]) > claim.bottleneck:
            return 5_000_000 + b * 10_000
    for i in range(1, pes + 1):
        if sum(claim.loads[claim.fence[i - 1]:claim.fence[i] + 1]) < claim.bottleneck:
            return 10_000_000 + i * 10_000
    if any(name >= pes for name in claim.names):
        return 22_000_000
    if len(set(claim.names)) < pes:
        return 23_000_000
    cuts = claim.cuts
    if cuts[0] != 0 or cuts[-1] != n or any(a > b for a, b in zip(cuts, cuts[1:])):
        return 25_000_000
    for b in range(pes):
        if sum(claim.loads[cuts[b]:cuts[b + 1]]) > claim.limit():
            return 26_000_000 + b * 10_000
    if level(claim.any[0], 0) != 0 or level(claim.free[0], 0) != 0:
        return 28_000_000
    for b in range(pes):
        for y in range(n + 1):
            for x in range(y, n + 1):
                if sum(claim.loads[y:x]) > claim.limit():
                    continue
                ends = not is_level(claim, claim.any[b], claim.free[b], y) and not is_level(claim, claim.any[b + 1], claim.free[b + 1], x - 1)
                if (x == y or ends) and not rises(claim, b, y, x):
                    return 29_000_000 + b * 10_000 + y * 100 + x
    if level(claim.any[pes], n) < moved(claim.sizes, claim.places, cuts, claim.names):
        return 30_000_000
    return 0


def numbers_of(claim):
    flat = [claim.bottleneck, claim.tolerance, *claim.cuts, *claim.names]
    for rows in (claim.any, claim.free):
        flat += [number for row in rows for step in row for number in step]
    return flat


def forged(claim, chain, k, by):
    """The claim with the number k changed."""
    flat = numbers_of(claim)
    flat[k] = (flat[k] + by) % 2**64
    at = iter(flat)
    bottleneck, tolerance = next(at), next(at)
    place = lambda: min(next(at), 2**32 - 1)
    cuts, names = [place() for _ in claim.cuts], [place() for _ in claim.names]
    rows = [[[(place(), next(at)) for _ in row] for row in side] for side in (claim.any, claim.free)]
    other = Claim(chain, cuts, names, *rows)
    other.bottleneck, other.tolerance = bottleneck, tolerance
    return other


def show(name, chain):
    claim = Claim(chain, None, None, None, None)
    pes, most = claim.pes, fewest(claim.loads, claim.sizes, claim.places, claim.pes, claim.tolerance)
    within = [cuts for cuts in divisions(len(claim.loads), pes) if peak(claim.loads, cuts) <= claim.limit()]
    claim.cuts, claim.names = next(
        (list(cuts), list(names)) for cuts in within for names in permutations(range(pes))
        if moved(claim.sizes, claim.places, cuts, names) == most)
    rows = table(claim, most)
    claim.any, claim.free = [steps(row[0]) for row in rows], [steps(row[1]) for row in rows]
    assert verdict(claim) == 0 and min(peak(claim.loads, cuts) for cuts in divisions(len(claim.loads), pes)) == claim.bottleneck
    flat = numbers_of(claim)
    print(f"// {name}: {most} bytes")
    print("numbers:", flat)
    print("any:", [len(row) for row in claim.any], "free:", [len(row) for row in claim.free])
    print("found:", [(verdict(forged(claim, chain, k, -1)), verdict(forged(claim, chain, k, 1))) for k in range(len(flat))])


if __name__ == "__main__":
    show("TEN", TEN)
    show("HOT", HOT)
