"""Decisions with certificates that are made without the library: by halving, by filling from the left, and by shortest paths.

They serve to show and to check large runs too, where trying everything is out of reach.
"""
from dataclasses import replace

import numpy as np

import tezgumi


def decided(run, pes=None):
    """A right decision on a run, which need not be the one that the planner would choose among equals."""
    pes = run.procs if pes is None else pes
    sums = np.concatenate([[0], np.cumsum(run.loads.astype(np.int64))])
    bottleneck = least_bottleneck(run, sums, pes)
    cuts = filled(sums, pes, bottleneck)
    cost = costs(run, cuts, pes)
    names, block_prices, pe_prices = cheapest(cost)
    places = np.repeat(names, np.diff(cuts)).astype(np.uint32)
    moved = int(sum(cost[block][pe] for block, pe in enumerate(names)))
    stops = fence(run, sums, pes, bottleneck) if bottleneck else []
    return tezgumi.Decision(
        pes, places, bottleneck, moved, cuts, stops, names, block_prices, pe_prices, run.moves_to(places))


def filled(sums, pes, limit):
    """Cuts: each block takes as many elements as keep within the limit."""
    cuts = [0]
    for _ in range(pes):
        cuts.append(int(np.searchsorted(sums, sums[cuts[-1]] + limit, side="right")) - 1)
    return cuts


def least_bottleneck(run, sums, pes):
    low, high = int(run.loads.max(initial=0)), int(sums[-1])
    while low < high:
        middle = (low + high) // 2
        if filled(sums, pes, middle)[-1] == len(run):
            high = middle
        else:
            low = middle + 1
    return low


def fence(run, sums, pes, bottleneck):
    """Each stop is the first element up to which those from the stop before it, both included, weigh the bottleneck."""
    stops = [0]
    for _ in range(pes):
        stops.append(int(np.searchsorted(sums, sums[stops[-1]] + bottleneck, side="left")) - 1)
    return stops


def costs(run, cuts, pes):
    """The bytes of each block that stand elsewhere, for each PE."""
    rows = np.zeros((pes, pes), np.int64)
    for block in range(pes):
        part = slice(cuts[block], cuts[block + 1])
        there = np.bincount(run.places[part], weights=run.bytes[part], minlength=max(pes, run.procs))
        rows[block] = int(there.sum()) - there[:pes].astype(np.int64)
    return rows


def cheapest(cost):
    """A cheapest naming of the blocks, and prices of blocks and PEs that prove it: one shortest path for each block."""
    count = len(cost)
    most = np.int64(2**62)
    block_prices, pe_prices = np.zeros(count + 1, np.int64), np.zeros(count + 1, np.int64)
    held = np.zeros(count + 1, np.int64)  # the block of each PE, from 1; PE 0 is where a path begins
    for block in range(1, count + 1):
        held[0], pe = block, 0
        least, came = np.full(count + 1, most), np.zeros(count + 1, np.int64)
        done = np.zeros(count + 1, bool)
        while held[pe]:
            done[pe] = True
            reach = cost[held[pe] - 1] - block_prices[held[pe]] - pe_prices[1:]
            nearer = np.flatnonzero(~done[1:] & (reach < least[1:])) + 1
            least[nearer], came[nearer] = reach[nearer - 1], pe
            following = int(np.argmin(np.where(done, most, least)[1:])) + 1
            step = least[following]
            block_prices[held[done]] += step
            pe_prices[done] -= step
            least[~done] -= step
            pe = following
        while pe:
            held[pe] = held[came[pe]]
            pe = came[pe]
    names = np.zeros(count, np.int64)
    names[held[1:] - 1] = np.arange(count)
    return names.tolist(), block_prices[1:].tolist(), pe_prices[1:].tolist()


MOST = 2**50
"""More than any cuts cost."""


def near(run, tolerance, keep_order=False, order=None):
    """Cuts within a tolerance that move the fewest bytes in the order in which the PEs stand, or in another order that is named, with
    heights that prove it. The elements of each PE are together."""
    pes, count = run.procs, len(run)
    sums = np.concatenate([[0], np.cumsum(run.loads.astype(np.int64))])
    least = least_bottleneck(run, sums, pes)
    limit = least + least * tolerance // 1000
    first = {int(pe): int(place) for pe, place in zip(*np.unique(run.places, return_index=True))}
    order = order or sorted(range(pes), key=lambda pe: first.get(pe, count))
    present = [first.get(pe, count) for pe in order] + [count]
    starts = np.searchsorted(sums, sums - limit)
    held = [np.concatenate([[0], np.cumsum(np.where(run.places == pe, run.bytes, 0).astype(np.int64))]) for pe in order]
    begin = np.where(np.arange(count + 1) == 0, 0, MOST)
    heights, costs_to, came = [begin], [begin], []
    for b in range(pes - 1):
        cut = held[b][-1] - held[b] + held[b + 1]
        # The greatest function that never falls and rises to no place by more than the cut there costs.
        heights.append(np.minimum.accumulate(np.minimum(heights[b][starts] + cut, MOST)[::-1])[::-1])
        best = [min(range(starts[x], x + 1), key=lambda y: costs_to[b][y]) for x in range(count + 1)]
        costs_to.append(np.minimum(costs_to[b][best] + cut, MOST))
        came.append(best)
    made = _near_decision(run, tolerance, least, sums, order, present, heights, _read_off(came, costs_to, starts))
    return _kept(run, made) if keep_order else made


def _kept(run, made):
    places = np.repeat(made.order, np.diff(made.cuts.astype(np.int64)))
    none, moved = np.zeros(made.pes, np.int64), int(run.bytes[places != run.places].sum())
    return replace(
        made, places=places, moved=moved, names=made.order, block_prices=none, pe_prices=none, moves=run.moves_to(places), keep_order=True)


def _read_off(came, costs_to, starts):
    # From the last cut to the first: where the last block begins at least cost, and the one before it, and so on.
    count = len(starts) - 1
    cuts = [count, min(range(starts[count], count + 1), key=lambda y: costs_to[-1][y])]
    for best in came[::-1]:
        cuts.append(best[cuts[-1]])
    assert costs_to[-1][cuts[1]] < MOST
    return cuts[::-1]


def _near_decision(run, tolerance, least, sums, order, present, heights, cuts):
    names, block_prices, pe_prices = cheapest(costs(run, cuts, run.procs))
    places = np.repeat(names, np.diff(cuts)).astype(np.uint32)
    moved = int(run.bytes[places != run.places].sum())
    heaviest = int(np.diff(sums[cuts]).max())
    steps = [[(int(x), int(rise)) for x, rise in enumerate(np.diff(row, prepend=0)) if rise] for row in heights]
    return tezgumi.NearDecision(
        run.procs, places, heaviest, moved, cuts, fence(run, sums, run.procs, least) if least else [], names, block_prices,
        pe_prices, run.moves_to(places), tolerance, least, filled(sums, run.procs, least), order, present,
        step_starts=[sum(map(len, steps[:b])) for b in range(run.procs + 1)],
        step_places=[x for row in steps for x, _ in row], step_rises=[rise for row in steps for _, rise in row])
