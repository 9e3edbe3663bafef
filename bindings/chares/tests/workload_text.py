#!/usr/bin/env python3
"""workload_text.py FILE: prints what a run of a workload prints, worked out without a run, by trying all names of blocks (so up to 8 PEs)."""
import itertools
import sys


def blocks_of(loads, most):
    """The first ends of blocks as long as `most` lets them be."""
    ends, total = [], 0
    for i, load in enumerate(loads):
        if total + load > most:
            ends.append(i)
            total = 0
        total += load
    return [0, *ends, len(loads)]


def main():
    with open(sys.argv[1], encoding="ascii") as file:
        rows = [[int(word) for word in line.split()[1:]] for line in file]
    pes, rounds, pad, n = (row[0] for row in rows[:4])
    places, sums = [i * pes // n for i in range(n)], [0] * n
    for number, amounts in enumerate(rows[4:], 1):
        loads = [amounts[i - 1] for i in range(n)]
        sums = [a + b for a, b in zip(sums, loads)]
        low, high = max(loads), sum(loads)
        while low < high:
            middle = (low + high) // 2
            low, high = (low, middle) if len(blocks_of(loads, middle)) <= pes + 1 else (middle + 1, high)
        cuts = blocks_of(loads, low)
        cuts += [n] * (pes + 1 - len(cuts))
        on = [[sum(places[i] == pe for i in range(cuts[b], cuts[b + 1])) for pe in range(pes)] for b in range(pes)]
        # Of the names that keep most elements the first in dictionary order.
        kept, names = max(((sum(on[b][pe] for b, pe in enumerate(it)), it) for it in itertools.permutations(range(pes))), key=lambda it: it[0])
        print(f"round {number} bottleneck {low} moved {(n - kept) * (24 + 4 * rounds + pad)}")
        places = [names[b] for b in range(pes) for _ in range(cuts[b], cuts[b + 1])]
    print("sums", *sums)
    print(f"posted {n * rounds} executed {n * rounds} held 0")


main()
