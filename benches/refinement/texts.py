#!/usr/bin/env python3
"""Prints what tolerances.rt.txt of runs/tests_dumps/src/replays and of reports beside it compare with: what lb_sim and lb_report
say of decisions within a tolerance, for small dumps. The decisions are those that search_all.py finds by trying all
cuts and all namings; the texts follow docs/FORMATS.md. It shares no code with the project."""
from decimal import ROUND_HALF_UP, Decimal
from math import isqrt

from search_all import decide, divisions, greedy, least_naming, peak

# The name, the step, the PEs of the dump, the loads, the bytes and the places of each dump.
DUMPS = {
    "three": (5, 2, (1, 1, 2), (10, 9, 8), (0, 1, 0)),
    "ten": (7, 3, (1, 1, 1, 2, 7, 8, 6, 2, 1, 1), (10, 10, 10, 20, 60, 90, 70, 20, 10, 10), (2, 2, 2, 2, 0, 0, 0, 1, 1, 1)),
    "idle": (4, 3, (0, 0, 0, 0), (5, 6, 7, 8), (1, 1, 2, 0)),
    "wide": (9, 2, (2**40, 2**33, 2**39, 7), (3, 5, 7, 9), (1, 1, 1, 0)),
    "none": (0, 2, (), (), ()),
}


def fence(loads, pes, least):
    """The first stops between which, both included, the elements weigh the least load or more."""
    if least == 0:
        return "fence zero"
    stops = [0]
    for _ in range(pes):
        stops.append(next(i for i in range(stops[-1], len(loads)) if sum(loads[stops[-1]:i + 1]) >= least))
    return "fence " + " ".join(map(str, stops))


def replay(name, pes, tolerance):
    """What lb_sim --procs PES --tolerance TOLERANCE prints."""
    step, _, loads, sizes, places = DUMPS[name]
    least = min(peak(loads, cuts) for cuts in divisions(len(loads), pes))
    cuts, names, moved, _ = decide(loads, sizes, places, pes, tolerance)
    print(f"step {step} procs {pes} elements {len(loads)}")
    print(f"bottleneck {least}")
    print(fence(loads, pes, least))
    print(f"limit {least + least * tolerance // 1000}")
    for b, (first, end) in enumerate(zip(cuts, cuts[1:])):
        print(f"block {b} {first}..{end} load {sum(loads[first:end])} pe {names[b] if first < end else '-'}")
    print(f"moved {moved}")


def thousandths(above, below):
    return f"{above * 1000 // below // 1000}.{above * 1000 // below % 1000:03}" if below else ""


def figures(word, name, pes, least, before, after, procs):
    """The line of a placement in comma-separated values, with what changes where it is another than the present one."""
    step, _, loads, sizes, _ = DUMPS[name]
    sums = [sum(x for x, place in zip(loads, after) if place == pe) for pe in range(pes)]
    total, most = sum(loads), max(sums)
    values = [f'"{name}"', word, pes, len(loads), most, thousandths(total, pes), thousandths(most * pes, total)]
    moves = [i for i in range(len(loads)) if before[i] != after[i]]
    carried = sum(sizes[i] for i in moves)
    if word == "present":
        values += [""] * 5
    else:
        values += [least, len(moves), thousandths(100 * len(moves), len(loads)), carried, thousandths(100 * carried, sum(sizes))]
    values += [sum(pe not in after for pe in range(pes)), sum(x == 0 for x in sums), min(sums), max(loads, default=0)]
    values.append(max(max(loads, default=0), -(-total // pes)))
    if total:
        # In billionths of the average, each rounded, and the root of the mean square rounded to thousandths.
        parts = [(2 * 10**9 * x * pes + total) // (2 * total) for x in sums]
        square = sum((part - 10**9)**2 for part in parts)
        root = (isqrt(4 * square // (pes * 10**12)) + 1) // 2
        over = (Decimal(100000 * (most * pes - total)) / total).quantize(Decimal(1), ROUND_HALF_UP)
        values += [f"{root // 1000}.{root % 1000:03}", f"{int(over) // 1000}.{int(over) % 1000:03}"]
    else:
        values += ["", ""]
    if word == "present":
        values += ["", ""]
    else:
        values.append(max(sum(sizes[i] for i in moves if before[i] == pe) for pe in range(procs)))
        values.append(max(sum(sizes[i] for i in moves if after[i] == pe) for pe in range(pes)))
    print(*values, step, sep=",")


def placed(cuts, names):
    return [names[b] for b, (first, end) in enumerate(zip(cuts, cuts[1:])) for _ in range(first, end)]


def report(name, pes, tolerance):
    """What lb_report --csv --procs PES --tolerance TOLERANCE prints behind the line of the present placement."""
    _, procs, loads, sizes, places = DUMPS[name]
    least = min(peak(loads, cuts) for cuts in divisions(len(loads), pes))
    plan = greedy(loads, pes, least)
    figures("planned", name, pes, least, places, placed(plan, least_naming(sizes, places, plan, pes)[1]), procs)
    cuts, names, _, _ = decide(loads, sizes, places, pes, tolerance)
    figures("within", name, pes, least, places, placed(cuts, names), procs)


def moves(name, pes, tolerance):
    """What lb_report --csv --moves --procs PES --tolerance TOLERANCE prints."""
    _, _, loads, sizes, places = DUMPS[name]
    cuts, names, _, _ = decide(loads, sizes, places, pes, tolerance)
    for i, (before, after) in enumerate(zip(places, placed(cuts, names))):
        if before != after:
            print(f'"{name}",{pes},{i},{before},{after},{sizes[i]}')


if __name__ == "__main__":
    for row in (("ten", 3, 167), ("ten", 3, 1000), ("ten", 2, 100), ("ten", 4, 250), ("three", 2, 500), ("idle", 3, 20), ("wide", 2, 8),
                ("none", 2, 7)):
        print("--tolerance", *row)
        replay(*row)
    for name, pes, tolerance in (("ten", 3, 167), ("ten", 3, 1000), ("ten", 4, 1000), ("idle", 3, 20), ("wide", 2, 8)):
        _, procs, _, _, places = DUMPS[name]
        print("--csv", name, pes, tolerance)
        figures("present", name, procs, 0, places, list(places), procs)
        report(name, pes, tolerance)
        moves(name, pes, tolerance)
