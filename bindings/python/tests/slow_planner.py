"""A plain planner to compare with: dynamic programming and trying everything, by the definitions alone, in pure Python."""
import itertools


def least_bottleneck(loads, pes):
    """The least greatest block load of all divisions into so many consecutive blocks, the last block over all places."""
    count = len(loads)
    sums = list(itertools.accumulate(loads, initial=0))
    best = sums[:]
    for _ in range(pes - 1):
        best = [min(max(best[cut], sums[end] - sums[cut]) for cut in range(end + 1)) for end in range(count + 1)]
    return best[count]


def greedy_cuts(loads, pes, limit):
    """Each block takes as many elements as keep within the limit."""
    cuts, end = [0], 0
    for _ in range(pes):
        left = limit
        while end < len(loads) and loads[end] <= left:
            left -= loads[end]
            end += 1
        cuts.append(end)
    return cuts


def least_fence(loads, pes, bottleneck):
    """Each stop is the first element up to which those from the stop before it weigh the bottleneck; none where it is 0."""
    if bottleneck == 0:
        return []
    stops = [0]
    for _ in range(pes):
        weight, stop = loads[stops[-1]], stops[-1]
        while weight < bottleneck:
            stop += 1
            weight += loads[stop]
        stops.append(stop)
    return stops


def costs(sizes, places, cuts):
    """The bytes of each block whose present PE is another, for each PE."""
    pes = len(cuts) - 1
    return [
        [sum(sizes[i] for i in range(cuts[block], cuts[block + 1]) if places[i] != pe) for pe in range(pes)]
        for block in range(pes)
    ]


def cheapest_naming_by_trial(cost):
    """Of all namings, tried in dictionary order, the first that moves the fewest bytes, and these bytes."""
    pes = len(cost)
    naming = min(itertools.permutations(range(pes)), key=lambda names: sum(cost[block][pe] for block, pe in enumerate(names)))
    return list(naming), sum(cost[block][pe] for block, pe in enumerate(naming))


def cheapest_naming(cost):
    """The same by dynamic programming over sets of PEs: what the last blocks cost on each set, and then the first choice."""
    pes = len(cost)
    least = {0: 0}
    for taken in range(1, 1 << pes):
        block = pes - bin(taken).count("1")
        least[taken] = min(cost[block][pe] + least[taken & ~(1 << pe)] for pe in range(pes) if taken >> pe & 1)
    free, names = (1 << pes) - 1, []
    for block in range(pes):
        pe = next(
            pe for pe in range(pes)
            if free >> pe & 1 and cost[block][pe] + least[free & ~(1 << pe)] == least[free])
        names.append(pe)
        free &= ~(1 << pe)
    return names, least[(1 << pes) - 1]


def plan(loads, sizes, places, pes):
    """The bottleneck, the cuts, the stops, the names, the bytes moved and the places that the planner has to answer."""
    bottleneck = least_bottleneck(loads, pes)
    cuts = greedy_cuts(loads, pes, bottleneck)
    stops = least_fence(loads, pes, bottleneck)
    names, moved = cheapest_naming(costs(sizes, places, cuts))
    new_places = [names[block] for block in range(pes) for _ in range(cuts[block], cuts[block + 1])]
    return bottleneck, cuts, stops, names, moved, new_places


def moved_by(sizes, places, cuts, names):
    """The bytes that these blocks with these names move."""
    cost = costs(sizes, places, cuts)
    return sum(cost[block][pe] for block, pe in enumerate(names))


def divisions(count, pes):
    """All cuts of so many elements into so many blocks."""
    return [(0, *inner, count) for inner in itertools.combinations_with_replacement(range(count + 1), pes - 1)]


def heaviest(loads, cuts):
    return max(sum(loads[first:end]) for first, end in zip(cuts, cuts[1:]))


def in_order(loads, sizes, places, pes, tolerance, order, present):
    """The cuts within a tolerance that move the fewest bytes where block b runs on order[b], and these bytes: of all cuts, tried in
    turn, those nearest the present ones, chosen from the end of the chain."""
    limit = least_bottleneck(loads, pes) * (1000 + tolerance) // 1000
    found = [cuts for cuts in divisions(len(loads), pes) if heaviest(loads, cuts) <= limit]
    few = min(moved_by(sizes, places, cuts, order) for cuts in found)
    found = [cuts for cuts in found if moved_by(sizes, places, cuts, order) == few]
    for cut in range(pes, -1, -1):
        nearest = min(abs(cuts[cut] - present[cut]) for cuts in found)
        found = [cuts for cuts in found if abs(cuts[cut] - present[cut]) == nearest]
    return list(found[0]), few
