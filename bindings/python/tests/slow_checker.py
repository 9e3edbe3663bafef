"""A plain checker to compare with: the first flaw of a claim, by docs/FORMATS.md, docs/CERTIFICATES.md and the definitions alone."""


def first_flaw(run, claim):
    """The line that a check prints. Both are dictionaries of plain lists and numbers; moves are triples."""
    for look in (flaw_of_cuts, flaw_of_floor, flaw_of_names, flaw_of_prices, flaw_of_moves):
        flaw = look(run, claim)
        if flaw:
            return "check: " + flaw
    return "check: ok"


def first_near_flaw(run, claim, whole=False):
    """The same of a claim within a tolerance. That there are no heights for a block is HeightCount. So it is, where the steps are to be
    whole, as the page wants them, that the lists have only a part of a block's steps. Otherwise its steps are those that they have."""
    least = {**claim, "cuts": claim["least_cuts"], "bottleneck": claim["least"]}
    kept = (flaw_of_kept_names, flaw_of_moved, flaw_of_moves)
    flaw = flaw_of_cuts(run, least) or flaw_of_floor(run, least)
    steps = (flaw_of_steps, flaw_of_heights) if whole else (flaw_of_heights,)
    for look in (flaw_of_order, flaw_of_near_cuts) + steps + (flaw_of_present, flaw_of_bottleneck) + (
            kept if claim["keep_order"] else (flaw_of_names, flaw_of_prices, flaw_of_moves)):
        flaw = flaw or look(run, claim)
    return "check: " + (flaw or "ok")


def falls(numbers):
    return any(a > b for a, b in zip(numbers, numbers[1:]))


def flaw_of_cuts(run, claim):
    cuts, pes = claim["cuts"], claim["pes"]
    if len(cuts) != pes + 1:
        return "CutCount"
    if cuts[0] != 0:
        return "CutStart"
    if falls(cuts):
        return "CutOrder"
    if cuts[-1] != len(run["loads"]):
        return "CutEnd"
    for block in range(pes):
        if sum(run["loads"][cuts[block]:cuts[block + 1]]) > claim["bottleneck"]:
            return f"Heavy {block}"
    return None


def flaw_of_floor(run, claim):
    stops, pes = claim["stops"], claim["pes"]
    if not stops:
        return "ZeroFloor" if claim["bottleneck"] else None
    if len(stops) != pes + 1:
        return "FenceCount"
    if stops[0] != 0:
        return "FenceStart"
    if falls(stops):
        return "FenceOrder"
    if stops[-1] >= len(run["loads"]):
        return "FenceEnd"
    for i in range(1, pes + 1):
        if sum(run["loads"][stops[i - 1]:stops[i] + 1]) < claim["bottleneck"]:
            return f"FenceLight {i}"
    return None


def flaw_of_names(run, claim):
    names, pes = claim["names"], claim["pes"]
    if len(names) != pes:
        return "NameCount"
    if any(name >= pes for name in names):
        return "NameRange"
    if len(set(names)) < pes:
        return "NameTwice"
    return None


def block_costs(run, claim, block):
    """The bytes of a block that stand elsewhere, for each PE."""
    part = range(claim["cuts"][block], claim["cuts"][block + 1])
    costs = [sum(run["bytes"][i] for i in part)] * claim["pes"]
    for i in part:
        if run["places"][i] < claim["pes"]:
            costs[run["places"][i]] -= run["bytes"][i]
    return costs


def flaw_of_prices(run, claim):
    pes, u, v = claim["pes"], claim["block_prices"], claim["pe_prices"]
    if len(u) != pes or len(v) != pes:
        return "PriceCount"
    for block in range(pes):
        for pe, cost in enumerate(block_costs(run, claim, block)):
            if u[block] + v[pe] > cost:
                return f"PriceHigh {block} {pe}"
    if sum(u) + sum(v) != moved_by_names(run, claim):
        return "PriceGap"
    return flaw_of_moved(run, claim)


def flaw_of_moved(run, claim):
    return "MovedWrong" if claim["moved"] != moved_by_names(run, claim) else None


def moved_by_names(run, claim):
    return sum(block_costs(run, claim, block)[pe] for block, pe in enumerate(claim["names"]))


def flaw_of_moves(run, claim):
    cuts = claim["cuts"]
    planned = [pe for block, pe in enumerate(claim["names"]) for _ in range(cuts[block], cuts[block + 1])]
    moves = [(i, a, b) for i, (a, b) in enumerate(zip(run["places"], planned)) if a != b]
    return None if claim["places"] == planned and claim["moves"] == moves else "MovesWrong"


def flaw_of_order(run, claim):
    order, pes = claim["order"], claim["pes"]
    if len(order) != pes:
        return "OrderCount"
    if any(pe >= pes for pe in order):
        return "OrderRange"
    return "OrderTwice" if len(set(order)) < pes else None


def limit_of(claim):
    return claim["least"] + claim["least"] * claim["tolerance"] // 1000


def flaw_of_near_cuts(run, claim):
    cuts, pes = claim["cuts"], claim["pes"]
    if len(cuts) != pes + 1:
        return "NearCount"
    if cuts[0] != 0 or falls(cuts) or cuts[-1] != len(run["loads"]):
        return "NoDivision"
    heavy = [block for block in range(pes) if sum(run["loads"][cuts[block]:cuts[block + 1]]) > limit_of(claim)]
    return f"PastLimit {heavy[0]}" if heavy else None


def flaw_of_steps(run, claim):
    """The numbers of steps rise, and each step has a place and a rise."""
    starts, places = claim["step_starts"], claim["step_places"]
    part = falls(starts) or starts[-1:] > [len(places)] or len(places) != len(claim["step_rises"])
    return "HeightCount" if part else None


def flaw_of_heights(run, claim):
    """The height of a block is the sum of the rises of its steps at a place, up to the first step that lies behind the place."""
    pes, starts, places, count = claim["pes"], claim["step_starts"], claim["step_places"], len(run["loads"])
    if len(starts) != pes + 1:
        return "HeightCount"

    def height(block, place):
        steps = list(zip(places, claim["step_rises"]))[starts[block]:starts[block + 1]]
        behind = [k for k, (at, _) in enumerate(steps) if at > place]
        return sum(rise for _, rise in steps[:min(behind, default=len(steps))])

    if height(0, 0):
        return "HeightStart"
    for block in range(pes - 1):
        for end in range(count + 1):
            begins = [begin for begin in range(end + 1) if sum(run["loads"][begin:end]) <= limit_of(claim)]
            most = min(height(block, begin) for begin in begins) + cut_cost(run, claim, block, end)
            if height(block + 1, end) > most:
                return f"Steep {block} {end}"
    cost = sum(cut_cost(run, claim, block, claim["cuts"][block + 1]) for block in range(pes - 1))
    last = [begin for begin in range(count + 1) if sum(run["loads"][begin:]) <= limit_of(claim)]
    return "HeightLow" if any(height(pes - 1, begin) < cost for begin in last) else None


def cut_cost(run, claim, block, cut):
    """What the PE of a block has behind its end, and that of the next block before it."""
    here, there = claim["order"][block], claim["order"][block + 1]
    elements = list(enumerate(zip(run["places"], run["bytes"])))
    return sum(size for i, (pe, size) in elements if (pe == here and i >= cut) or (pe == there and i < cut))


def present_order(places, pes):
    """The PEs in the order of their elements, behind them those that have none, and where the elements of each begin."""
    starts = [i for i, pe in enumerate(places) if i == 0 or places[i - 1] != pe]
    order = [places[i] for i in starts]
    if len(set(order)) < len(order) or any(pe >= pes for pe in order):
        return None
    order += sorted(set(range(pes)) - set(order))
    return order, starts + [len(places)] * (pes + 1 - len(starts))


def flaw_of_present(run, claim):
    return None if present_order(run["places"], claim["pes"]) == (claim["order"], claim["present"]) else "OrderWrong"


def flaw_of_bottleneck(run, claim):
    heaviest = max(sum(run["loads"][first:end]) for first, end in zip(claim["cuts"], claim["cuts"][1:]))
    return None if heaviest == claim["bottleneck"] else "BottleneckWrong"


def flaw_of_kept_names(run, claim):
    return None if claim["names"] == claim["order"] else "NamesNotOrder"


def first_reordered_flaw(run, claim):
    """The same of a claim in any order of the PEs."""
    least = {**claim, "cuts": claim["least_cuts"], "bottleneck": claim["least"]}
    flaw = flaw_of_cuts(run, least) or flaw_of_floor(run, least)
    for look in (flaw_of_names, flaw_of_near_cuts, flaw_of_bounds, flaw_of_bottleneck, flaw_of_moved, flaw_of_moves):
        flaw = flaw or look(run, claim)
    return "check: " + (flaw or "ok")


def levels_of(claim, first, end):
    """The levels of the rows from one to another, each a list of pairs, as far as the lists go."""
    starts, pairs = claim["level_starts"][first:end + 1], list(zip(claim["level_places"], claim["level_bytes"]))
    return [pairs[a:b] if a < b else [] for a, b in zip(starts, starts[1:])]


def level_at(row, place):
    """The bytes of the last of the leading levels that are not behind a place."""
    level = 0
    for at, there in row:
        if at > place:
            break
        level = there
    return level


def flaw_of_bounds(run, claim):
    pes, count = claim["pes"], len(run["loads"])
    any_rows, free_rows = levels_of(claim, 0, pes + 1), levels_of(claim, pes + 1, len(claim["level_starts"]))
    if len(any_rows) != pes + 1 or len(free_rows) != pes + 1:
        return "RowCount"
    rows = [[level_at(row, place) for place in range(count + 2)] for row in any_rows + free_rows]
    pairs = list(zip(rows[:pes + 1], rows[pes + 1:]))
    if pairs[0][0][0] or pairs[0][1][0]:
        return "BoundStart"
    for blocks in range(pes):
        found = first_steep(run, limit_of(claim), pairs[blocks], pairs[blocks + 1])
        if found:
            return "BoundSteep {} {} {}".format(blocks, *found)
    return "BoundLow" if pairs[pes][0][count] < moved_by_names(run, claim) else None


def first_steep(run, limit, low, high):
    """The first block, by where it begins and then where it ends, that brings less to some PE than the bounds rise by; only at blocks
    that begin where the one bounds or the PE of the elements change, and end where the others or the PE do, and at empty ones."""
    count, homes = len(run["loads"]), run["places"] + [0, 0]

    def is_level(bounds, place):
        return homes[place] == homes[place + 1] and all(bound[place] == bound[place + 1] for bound in bounds)

    for y in range(count + 1):
        for x in range(y, count + 1):
            if sum(run["loads"][y:x]) > limit:
                break
            if (x == y or not (is_level(low, y) or is_level(high, x - 1))) and is_steep(run, homes, low, high, y, x):
                return y, x
    return None


def is_steep(run, homes, low, high, y, x):
    for pe in {*homes, max(homes) + 1}:
        brought = sum(size for size, home in zip(run["bytes"][y:x], homes[y:x]) if home != pe)
        if high[0][x] > low[homes[y] == pe][y] + brought:
            return True
        if homes[x] != pe and high[1][x] > low[homes[y] in (pe, homes[x])][y] + brought:
            return True
    return False
