#!/usr/bin/env python3
"""What a tree of balancers loses beside one that sees all: a simulation for more PEs than one decision takes.

tree_of_balancers.py [--elements N] [--pes P] [--seed S]      (1,048,576 elements, 4,096 PEs, a multiple of 256, and seed 1)

A tree 16 x 256 has a root, which divides the chain among 16 groups of 256 PEs so that the heaviest group is as light as can
be, and names these parts by groups; each group then divides and names its own part in the same way. Every decision in a
tree is the best of its kind: least, and then cheapest. The first tree is a single decision for all PEs at once.

For four shapes of load a chain is balanced twice: first from where its elements open, and then once its loads have changed.
For the second decision a line for each tree has

    peak      the greatest load of a PE over the least one possible
    bound     what docs/SCALE.md shows that the peak cannot pass: less than the least and one greatest element, over the least
    moved     the share of all bytes that move
    fewest    the share that the cheapest naming of the same blocks would move

Plain Python, no packages.
"""
import argparse
import heapq
import random
from bisect import bisect_right
from itertools import accumulate
from math import prod


def trees(pes):
    """A single decision, and trees of two and three levels."""
    all_of_them = ([pes], [16, pes // 16], [pes // 16, 16], [16, 16, pes // 256])
    return [tree for at, tree in enumerate(all_of_them) if tree not in all_of_them[:at] and tree[-1] > 1]


def greedy_cuts(sums, first, end, blocks, limit):
    """Blocks of first..end, each as long as the limit lets it be. Where they do not reach the end, None fits."""
    cuts = [first]
    for _ in range(blocks):
        cuts.append(min(bisect_right(sums, sums[cuts[-1]] + limit) - 1, end))
    return cuts if cuts[-1] == end else None


def least_cuts(sums, first, end, blocks, heaviest):
    """The division of first..end into so many blocks whose heaviest block is lightest, by bisection over the limit."""
    total = sums[end] - sums[first]
    low, high = min(total, max(heaviest, -(-total // blocks))), total
    if greedy_cuts(sums, first, end, blocks, low) is None:
        low = low + 1
        while low < high:
            middle = (low + high) // 2
            if greedy_cuts(sums, first, end, blocks, middle):
                high = middle
            else:
                low = middle + 1
        low = high
    return greedy_cuts(sums, first, end, blocks, low)


def cheapest_names(stands):
    """stands[b] maps some of the numbers below len(stands) to the bytes of b that stand there. Gives each b another number,
    so that most bytes stand where they are to be: shortest augmenting paths, and prices that prove it, which are tested."""
    count = len(stands)
    price_b, price_p = [0] * count, [0] * count
    name, holder = [None] * count, [None] * count
    for root in range(count):
        price_b[root] = max(stands[root].values(), default=0)
        distance, before, done, heap = {}, {}, {}, []
        best, best_end, left = price_b[root], ("drop", root), {root: 0}
        at, reached = root, 0
        while True:
            for p, weight in stands[at].items():
                far = reached + price_b[at] + price_p[p] - weight
                if p not in done and far < distance.get(p, best + 1):
                    distance[p], before[p] = far, at
                    heapq.heappush(heap, (far, p))
            while heap and (heap[0][1] in done or heap[0][0] > distance[heap[0][1]]):
                heapq.heappop(heap)
            if not heap or heap[0][0] >= best:
                break
            reached, p = heapq.heappop(heap)
            done[p] = reached
            if holder[p] is None:
                best, best_end = reached, ("free", p)
                break
            at = holder[p]
            left[at] = reached
            if reached + price_b[at] < best:
                best, best_end = reached + price_b[at], ("drop", at)
        for b, far in left.items():
            price_b[b] -= max(0, best - far)
        for p, far in done.items():
            price_p[p] += max(0, best - far)
        kind, end = best_end
        if kind == "drop":
            if end == root:
                continue
            p, name[end] = name[end], None
        else:
            p = end
        while True:
            b = before[p]
            holder[p], name[b], p = b, p, name[b]
            if b == root:
                break
    kept = sum(stands[b].get(name[b], 0) for b in range(count) if name[b] is not None)
    assert min(price_b + price_p) >= 0 and kept == sum(price_b) + sum(price_p)
    assert all(price_b[b] + price_p[p] >= weight for b in range(count) for p, weight in stands[b].items())
    free = iter(p for p in range(count) if holder[p] is None)
    return [next(free) if p is None else p for p in name]


def resident(blocks, sizes, places, number_of):
    """Of each block, the bytes that stand in the groups of PEs that number_of numbers; None is no group."""
    stands = [{} for _ in blocks]
    for (first, end), there in zip(blocks, stands):
        for i in range(first, end):
            number = number_of(places[i])
            if number is not None:
                there[number] = there.get(number, 0) + sizes[i]
    return stands


def decide(sums, heaviest, sizes, places, levels):
    """The blocks and the PE of each, by a tree that branches as its levels say."""
    parts, wide = [(0, len(sizes), 0)], prod(levels)  # ranges of elements, and the group of PEs that each goes to
    for ways in levels:
        wide //= ways  # PEs of a group of this level
        below = []
        for first, end, group in parts:
            cuts = least_cuts(sums, first, end, ways, heaviest)
            blocks = list(zip(cuts, cuts[1:]))
            own = lambda pe: pe // wide % ways if pe // wide // ways == group else None
            names = cheapest_names(resident(blocks, sizes, places, own))
            below += [(*block, group * ways + name) for block, name in zip(blocks, names)]
        parts = below
    return parts


def moved_bytes(blocks, names, sizes, places):
    return sum(sizes[i] for (first, end), name in zip(blocks, names) for i in range(first, end) if places[i] != name)


def shapes(count, rng):
    """Four shapes of load: the loads of the first decision, and those of the second."""
    def drift(loads):
        return [load * rng.randrange(80, 121) // 100 for load in loads]

    def bump(middle):
        width = count // 64
        return [rng.randrange(50, 151) + (2000 * (width - abs(i - middle)) // width if abs(i - middle) < width else 0) for i in range(count)]

    even = [rng.randrange(50, 151) for _ in range(count)]
    yield "even", even, drift(even)
    yield "hot spot", bump(count // 2), bump(count // 2 + count // 128)
    skewed = [min(20_000, int(100 / (1 - rng.random()) ** 0.7)) for _ in range(count)]
    yield "skewed", skewed, drift(skewed)
    zeros = [rng.randrange(1, 1001) if rng.random() < 0.05 else 0 for _ in range(count)]
    yield "most 0", zeros, drift(zeros)


def main():
    words = argparse.ArgumentParser(description=__doc__.split("\n")[0])
    words.add_argument("--elements", type=int, default=1_048_576)
    words.add_argument("--pes", type=int, default=4_096)
    words.add_argument("--seed", type=int, default=1)
    asked = words.parse_args()
    count, pes = asked.elements, asked.pes
    if pes < 256 or pes % 256 or count < pes:
        words.error("--pes takes a multiple of 256, and --elements at least as many")
    rng = random.Random(asked.seed)
    sizes = [rng.randrange(200, 1001) for _ in range(count)]
    print(f"{count} elements on {pes} PEs, {count // pes} a PE")
    print(f"{'shape':10}{'tree':>14}{'peak':>9}{'bound':>9}{'moved':>9}{'fewest':>9}")
    for shape, before, after in shapes(count, rng):
        least = None
        for levels in trees(pes):
            places = [i * pes // count for i in range(count)]
            for loads in (before, after):
                sums, heaviest = list(accumulate(loads, initial=0)), max(loads)
                stood, parts = places, decide(sums, heaviest, sizes, places, levels)
                blocks, names = [part[:2] for part in parts], [part[2] for part in parts]
                places = [name for (first, end), name in zip(blocks, names) for _ in range(first, end)]
            peak = max(sums[end] - sums[first] for first, end in blocks)
            least = least or peak
            bound = least if len(levels) == 1 else least + heaviest - heaviest * levels[0] // pes
            cheapest = cheapest_names(resident(blocks, sizes, stood, lambda pe: pe))
            moved, fewest = (moved_bytes(blocks, of, sizes, stood) for of in (names, cheapest))
            assert least <= peak <= bound and fewest <= moved and sorted(names) == list(range(pes))
            tree, share = " x ".join(map(str, levels)), sum(sizes)
            print(f"{shape:10}{tree:>14}{peak / least:9.4f}{bound / least:9.4f}{moved / share:9.4f}{fewest / share:9.4f}", flush=True)


if __name__ == "__main__":
    main()
