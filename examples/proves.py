#!/usr/bin/env python3
"""Checks a decision by its certificates alone, as docs/CERTIFICATES.md explains it: a fence for the division, and prices for
the assignment. It knows nothing but that argument, and leaves out the bottleneck 0, which needs no fence.

usage: examples/proves.py      (it checks the decision on ten elements, and then those of a table that are wrong)
"""

import sys


def proves(pes, loads, sizes, places, d):
    """Whether fence and prices prove the decision d for so many PEs: least, and cheapest for its blocks."""
    cuts, stops, names, u, v = (d[name] for name in ("cuts", "stops", "names", "u", "v"))
    count, numbers = len(loads), (*loads, *sizes, *cuts, *stops, *names, *u, *v, d["bottleneck"], d["moved"])
    if not (
        all(type(number) is int for number in numbers)  # which are exact, and can be compared
        and len(sizes) == len(places) == count
        and len(cuts) == len(stops) == pes + 1
        and len(names) == len(u) == len(v) == pes
        and cuts[0] == 0 and rises(cuts) and cuts[-1] == count
        and stops[0] == 0 and rises(stops) and stops[-1] < count
    ):
        return False
    blocks, fenced = list(zip(cuts, cuts[1:])), list(zip(stops, stops[1:]))
    cost = [[sum(sizes[i] for i in range(*block) if places[i] != p) for p in range(pes)] for block in blocks]
    return (
        all(sum(loads[a:b]) <= d["bottleneck"] for a, b in blocks)
        and all(sum(loads[a : b + 1]) >= d["bottleneck"] for a, b in fenced)
        and sorted(names) == list(range(pes))
        and all(u[b] + v[p] <= cost[b][p] for b in range(pes) for p in range(pes))
        and sum(u) + sum(v) == d["moved"] == sum(cost[b][p] for b, p in enumerate(names))
    )


def rises(numbers):
    """Whether no number is greater than the next."""
    return all(a <= b for a, b in zip(numbers, numbers[1:]))


LOADS = (1, 1, 1, 2, 7, 8, 6, 2, 1, 1)
SIZES = (10, 10, 10, 20, 60, 90, 70, 20, 10, 10)
PLACES = (2, 2, 2, 2, 0, 0, 0, 1, 1, 1)
TEN = {
    "bottleneck": 12,
    "cuts": (0, 5, 6, 10),
    "stops": (0, 4, 5, 6),
    "names": (2, 0, 1),
    "u": (60, 30, 70),
    "v": (-30, 0, 0),
    "moved": 130,
}
WRONG = (
    {"bottleneck": 11},
    {"moved": 129},
    {"names": (0, 1, 2)},
    {"cuts": (0, 4, 6, 10)},
    # One price too many would pay for anything, and with one stop too few a heavier division would be least.
    {"names": (0, 1, 2), "moved": 250, "v": (-30, 0, 0, 120)},
    {"names": (0, 1, 2), "moved": 250, "u": (60, 30, 70, 120)},
    {"bottleneck": 14, "cuts": (0, 5, 7, 10), "stops": (0, 5, 9), "moved": 60, "u": (60, 0, 0), "v": (0, 0, 0)},
    {"u": (60, 30)},
    {"names": (2, 0)},
    {"cuts": (), "stops": ()},
    {"v": (-30, float("nan"), 0)},
)


def main():
    """Prints what is found of each, and ends with a status where that is not what has to be found."""
    claims = [TEN, *({**TEN, **change} for change in WRONG)]
    found = [proves(3, LOADS, SIZES, PLACES, claim) for claim in claims]
    for told, is_right in zip(("", *WRONG), found):
        print(told or "the decision", "right" if is_right else "wrong")
    others = ((2, LOADS, SIZES, PLACES), (3, LOADS, SIZES[:9], PLACES), (3, LOADS, SIZES, (*PLACES, 1)), (3, LOADS[:9], SIZES, PLACES))
    if found != [True] + [False] * len(WRONG) or any(proves(*other, TEN) for other in others):
        sys.exit("what is right is found wrong, or what is wrong right")

if __name__ == "__main__":
    main()
