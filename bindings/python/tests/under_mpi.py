"""Tests of tezgumi.mpi, which mpirun starts on some ranks: python3 tests/under_mpi.py. Rank 0 prints a line for each test, ok
and its name, or FAILED and its name. What is expected comes from plain loops over all elements, which every rank knows here."""
import os
import resource
import sys
import traceback

HERE = os.path.dirname(os.path.abspath(__file__))
sys.path[:0] = [HERE, os.path.dirname(HERE)]

import numpy as np
from mpi4py import MPI

import slow_planner
import tezgumi
import tezgumi.mpi as over_mpi

comm = MPI.COMM_WORLD
RANK, RANKS = comm.rank, comm.size
LAST = RANKS - 1
PAIR = np.dtype([("id", "<i4"), ("weight", "<f8")])  # 12 bytes


def least_cuts(loads):
    """The least greatest load of a rank, and the cuts that fill each block."""
    low, high = 0, sum(loads)
    while low < high:
        middle = (low + high) // 2
        low, high = (low, middle) if slow_planner.greedy_cuts(loads, RANKS, middle)[-1] == len(loads) else (middle + 1, high)
    return low, slow_planner.greedy_cuts(loads, RANKS, low)


def random_cuts(rng, count):
    return [0, *sorted(rng.integers(0, count + 1, RANKS - 1).tolist()), count]


def chain(seed, count):
    """Loads of all elements, and arrays of different types and shapes."""
    rng = np.random.default_rng(seed)
    loads = rng.integers(0, (2, 1000, 2**50)[seed % 3], count)
    pairs = np.zeros(count, PAIR)
    pairs["id"], pairs["weight"] = rng.integers(-9, 9, count), rng.random(count)
    return loads, [rng.random((count, 3)), rng.integers(-128, 127, count).astype(np.int8), pairs, rng.random((count, 2, 5)) > 0.5]


def expect(holds, what):
    if not holds:
        raise AssertionError(what)


def same(one, other):
    return one.dtype == other.dtype and one.shape == other.shape and np.array_equal(one, other)


def raises(kind, call):
    """All ranks raise this kind of exception; its text."""
    try:
        call()
        found, text = "nothing", ""
    except Exception as error:
        found, text = type(error).__name__, str(error)
    kinds = set(comm.allgather(found))
    expect(kinds == {kind.__name__}, f"the ranks raise {kinds}: {text}")
    return text


def test_rebalance_beside_a_slow_count():
    for seed in range(12):
        count = (0, 1, RANKS, 40, 333)[seed % 5]
        loads, fields = chain(seed, count)
        cuts = random_cuts(np.random.default_rng(seed), count)
        first, end = cuts[RANK], cuts[RANK + 1]
        held = [loads[first:end], *(field[first:end] for field in fields)]
        before = [array.copy() for array in held]
        new = over_mpi.rebalance(comm, held[0], held[1:], keep_order=True, room=(0, 100)[seed % 2])
        least, wanted = least_cuts(loads.tolist())
        per_rank = [int(loads[a:b].sum()) for a, b in zip(cuts, cuts[1:])]
        if max(per_rank) == least:
            wanted = cuts  # all stays
        expect(new.first == (wanted[RANK] if wanted[RANK] < wanted[RANK + 1] else new.first), (seed, new.first, wanted))
        expect(same(new.loads, loads[wanted[RANK]:wanted[RANK + 1]]), seed)
        expect(all(same(array, field[wanted[RANK]:wanted[RANK + 1]]) for array, field in zip(new.fields, fields)), seed)
        expect(all(same(*pair) for pair in zip(held, before)), "an array that was given has changed")
        r = new.report
        old_ranks, new_ranks = (np.repeat(np.arange(RANKS), np.diff(it)) for it in (cuts, wanted))
        moves = int(np.count_nonzero(old_ranks != new_ranks))
        expect((r.max_load_before, r.max_load_after) == (max(per_rank), least), seed)
        expect((r.elements_moved, r.bytes_moved) == (moves, moves * (8 + 24 + 1 + 12 + 10)), (seed, r, moves))
        expect((r.exchanges > 0) == (moves > 0), r)
        expect(abs(r.average_load - sum(per_rank) / RANKS) <= 1e-9 * (1 + sum(per_rank)), r)


def test_again_and_again_in_any_order():
    loads, fields = chain(1, 200)
    numbers = np.arange(200)
    held, first = [numbers, fields[0]] if RANK == LAST else [numbers[:0], fields[0][:0]], 0
    for step in range(6):
        loads = np.where(np.abs(numbers - 35 * step) < 20, 30, 1)
        new = over_mpi.rebalance(comm, loads[held[0]], held, first=first)
        held, first = list(new.fields), new.first
        expect(same(held[1], fields[0][held[0]]), step)
        expect(len(held[0]) == 0 or same(held[0], np.arange(first, first + len(held[0]))), step)
        parts = comm.allgather(held[0])
        expect(sorted(np.concatenate(parts).tolist()) == numbers.tolist(), step)
        least = least_cuts(loads.tolist())[0]
        expect(new.report.max_load_after == least == max(int(loads[part].sum()) for part in parts), step)


def test_within_a_tolerance():
    loads = np.full(30, 10 + (RANK == 0))  # rank 0 has 330, and the others 300
    total = 300 * RANKS + 30
    least = least_cuts([11] * 30 + [10] * (30 * LAST))[0]
    near = int(1000 * (330 - least) / least) + 1
    for tolerance in (0, max(near - 2, 0), near + 1, 1000):
        figures = over_mpi.report(comm, loads, 8, tolerance=tolerance, keep_order=True)
        stays = 330 <= least * (1 + tolerance / 1000)
        expect((figures.max_load_before, figures.max_load_after) == (330, 330 if stays else least), (tolerance, figures))
        expect((figures.elements_moved == 0) == stays and figures.exchanges == 0, (tolerance, figures))
        expect(abs(figures.average_load - total / RANKS) < 1e-6, figures)


def most_kept(loads, sizes, cuts, limit):
    """The most bytes that stay where block b goes to rank b and no block is above the limit, by all cuts."""
    kept = {0: 0}
    for rank in range(RANKS):
        ends = {}
        for begin, bytes_before in kept.items():
            for end in range(begin, len(loads) + 1):
                if loads[begin:end].sum() <= limit:
                    stays = sizes[max(begin, cuts[rank]):max(min(end, cuts[rank + 1]), begin)].sum()
                    ends[end] = max(ends.get(end, 0), bytes_before + int(stays))
        kept = ends
    return kept[len(loads)]


def test_the_fewest_bytes_within_a_tolerance():
    for seed in range(6):
        rng = np.random.default_rng(seed)
        loads, sizes, cuts = rng.integers(0, 40, 24), rng.integers(0, 9, 24), random_cuts(rng, 24)
        own, least = slice(cuts[RANK], cuts[RANK + 1]), least_cuts(loads.tolist())[0]
        for tolerance in (0, 50, 300):
            limit = least + least * tolerance // 1000
            figures = over_mpi.report(comm, loads[own], sizes[own], tolerance=tolerance, keep_order=True, refine=True)
            expect(figures.max_load_after <= limit, (seed, tolerance, figures))
            expect(figures.bytes_moved == int(sizes.sum()) - most_kept(loads, sizes, cuts, limit), (seed, tolerance, figures))
    raises(tezgumi.InputError, lambda: over_mpi.report(comm, loads[own], 8, refine=True))


def test_decide():
    loads, _ = chain(4, 90)
    cuts = random_cuts(np.random.default_rng(9), 90)
    sizes = np.arange(90) % 7
    first, end = cuts[RANK], cuts[RANK + 1]
    d = over_mpi.decide(comm, loads[first:end].tolist(), sizes[first:end], keep_order=True)
    least, wanted = least_cuts(loads.tolist())
    expect(d.elements == 90 and d.cuts.tolist() == wanted and d.names.tolist() == list(range(RANKS)), d)
    expect(d.counts.tolist() == np.diff(cuts).tolist() and (d.first, d.end) == tuple(wanted[RANK:RANK + 2]), d)
    old_ranks, new_ranks = (np.repeat(np.arange(RANKS), np.diff(it)) for it in (cuts, wanted))
    expect(d.report.bytes_moved == int(sizes[old_ranks != new_ranks].sum()) and d.report.max_load_after == least, d)


def test_move_by_any_division():
    for seed in range(8):
        rng = np.random.default_rng(seed + 50)
        count = (0, 60, 200)[seed % 3]
        before, after = random_cuts(rng, count), random_cuts(rng, count)
        holders, names = rng.permutation(RANKS), rng.permutation(RANKS)
        counts, firsts = np.zeros(RANKS, int), np.zeros(RANKS, int)
        counts[holders], firsts[holders] = np.diff(before), before[:-1]
        own = int(np.flatnonzero(names == RANK)[0])
        figures = over_mpi.Report(0, 0, 0.0, 0, 0, 0)
        d = over_mpi.Division(count, firsts, counts, np.array(after), names, after[own], after[own + 1], figures)
        _, fields = chain(seed, count)
        first, end = int(firsts[RANK]), int(firsts[RANK] + counts[RANK])
        here = [field[first:end] for field in fields]
        wide = np.repeat(here[0], 2, axis=0)[::2]  # with a gap behind each element
        turned = np.asfortranarray(here[0])  # whose numbers of an element are apart
        backwards = here[1][::-1].copy()[::-1]
        constant = np.broadcast_to(np.float32(7), (end - first, 4))
        new = over_mpi.move(comm, d, [*here, wide, turned, backwards, constant, here[0][:, :0]], room=(0, 1, 200)[seed % 3])
        wanted = [field[d.first:d.end] for field in fields]
        wanted += [wanted[0], wanted[0], wanted[1], np.full((d.end - d.first, 4), 7, np.float32), wanted[0][:, :0]]
        expect(all(same(*pair) for pair in zip(new, wanted)) and len(new) == len(wanted), seed)
        expect(all(array.flags.writeable for array in new), "an array that cannot be written to")
        expect(over_mpi.move(comm, d, []) == (), "no fields")


def moved_after_all(loads, fields):
    """A refusal left everything as it was: the same call goes well."""
    new = over_mpi.rebalance(comm, loads, fields, keep_order=True)
    expect(sum(comm.allgather(len(new.loads))) == sum(comm.allgather(len(loads))), "elements are lost")


def test_what_one_rank_gives_is_refused_on_all():
    wrong = RANK == LAST
    loads, values = np.arange(6 + RANK) * (1 + 5 * (RANK == 0)), np.ones((6 + RANK, 2))
    call = lambda these, *fields, **options: lambda: over_mpi.rebalance(comm, these, fields, **options)
    cases = [
        call(loads * 0.5 if wrong else loads, values),
        call(loads - 9 if wrong else loads, values),
        call(loads[:-1] if wrong else loads, values),
        call(loads, values[:-1] if wrong else values),
        call(loads.reshape(1, -1) if wrong else loads, values),
        call(loads, np.array([None] * len(values)) if wrong else values),
        call(loads, 5 if wrong else values),
        call(loads, values, tolerance=1001 if wrong else 0),
        call(loads, values, tolerance=0.0005 if wrong else 0),
        call(loads, values, keep_order=1 if wrong else True),
        call(loads, values, refine=1 if wrong else False),
        call(loads, values, room=-1 if wrong else 0),
        call(loads, values, first=-1 if wrong else int(sum(range(6, 6 + RANK)))),
        call(loads, values, first=7 if wrong else int(sum(range(6, 6 + RANK)))),
        lambda: over_mpi.decide(comm, loads, -1 if wrong else 1),
        lambda: over_mpi.decide(comm, loads, [1] if wrong else 1)]
    differ = [
        call(loads, values.astype(np.int64) if wrong else values),
        call(loads, values.reshape(-1, 1, 2) if wrong else values),
        call(loads, *([values, values] if wrong else [values])),
        call(loads, values, tolerance=1 if wrong else 0),
        call(loads, values, keep_order=wrong),
        call(loads, values, first=None if wrong else int(sum(range(6, 6 + RANK))))]
    for k, case in enumerate(cases + differ * (RANKS > 1)):
        if k == 13 and RANKS == 1:
            continue  # which is refused there for the first element, and not for what is behind
        text = raises(tezgumi.InputError, case)
        expect(wrong or k >= len(cases) or f"rank {LAST}" in text, (k, text))
        moved_after_all(loads, [values])
    raises(tezgumi.LoadError, lambda: over_mpi.report(comm, np.array([2**63 - 1, 1] if wrong else [], np.uint64)))


def test_a_forged_division_is_refused():
    loads = np.arange(8) + 3 * RANK
    d = over_mpi.decide(comm, loads, 8, keep_order=True)
    forge = lambda **changed: over_mpi.replace(d, **changed)
    cases = [
        forge(names=np.zeros(RANKS, int)) if RANKS > 1 else forge(names=[1]), forge(cuts=d.cuts[::-1]), forge(cuts=d.cuts[1:]),
        forge(counts=d.counts[1:]), forge(names=d.names[:0]), forge(elements=d.elements + 1), forge(elements=-1),
        forge(firsts=d.firsts + np.uint32(1))]
    for division in cases:
        raises(tezgumi.InputError, lambda: over_mpi.move(comm, division, [loads]))
        moved_after_all(loads, [])


class Limited:
    """So many bytes of address space more, and none beyond them, on one rank."""

    def __init__(self, more, on):
        self.more, self.on = more, on

    def __enter__(self):
        if RANK == self.on:
            self.before = resource.getrlimit(resource.RLIMIT_AS)
            with open("/proc/self/statm", encoding="ascii") as file:
                used = int(file.read().split()[0]) * resource.getpagesize()
            resource.setrlimit(resource.RLIMIT_AS, (used + self.more, self.before[1]))

    def __exit__(self, *_):
        if RANK == self.on:
            resource.setrlimit(resource.RLIMIT_AS, self.before)


MIB = 2**20


def test_memory_refused_on_one_rank():
    # Elements of 1 MiB. Rank 0 has all, and nearly all are to leave it: then it is refused the buffer of what it sends, and
    # another rank the array of what it is to hold.
    count = 20 * RANKS
    loads = np.ones(count if RANK == 0 else 0, int)
    loads[:1] = 20
    values = np.zeros((len(loads), MIB), np.uint8)
    values[:] = np.arange(len(loads), dtype=np.uint8)[:, None]
    for on in sorted({0, LAST}):
        with Limited(6 * MIB, on):
            text = raises(tezgumi.OutOfMemory, lambda: over_mpi.rebalance(comm, loads, [values], keep_order=True))
        expect(RANK == on or f"rank {on}" in text, text)
    new = over_mpi.rebalance(comm, loads, [values], keep_order=True)
    kept = np.arange(new.first, new.first + len(new.loads), dtype=np.uint8)
    expect(same(new.fields[0], np.broadcast_to(kept[:, None], (len(kept), MIB))), "elements are lost")


def test_each_array_of_python_refused_in_turn():
    # The requests for arrays that numpy.empty, full, zeros and concatenate make while all else goes on.
    loads, values = np.arange(9) + RANK, np.ones((9, 2))
    for name in ("empty", "full", "concatenate", "ascontiguousarray"):
        for on in range(RANKS):
            real = getattr(np, name)

            def refuse(*_, **__):
                raise MemoryError(name)

            if RANK == on:
                setattr(np, name, refuse)
            try:
                text = raises(tezgumi.OutOfMemory, lambda: over_mpi.rebalance(comm, loads, [np.asfortranarray(values)]))
            finally:
                setattr(np, name, real)
            expect((name if RANK == on else f"rank {on}") in text, text)
            moved_after_all(loads, [values])


def test_a_library_that_is_not_there():
    named = os.environ.get("TEZGUMI_MPI_LIBRARY")
    for on in range(RANKS):
        over_mpi.library.cache_clear()
        if RANK == on:
            os.environ["TEZGUMI_MPI_LIBRARY"] = "/nowhere/libtezgumi-mpi.so"
        try:
            over_mpi.report(comm, [1])
            expect(False, "a report without a library")
        except tezgumi.TezgumiError as error:
            expect(isinstance(error, tezgumi.LibraryError) == (RANK == on), error)
        os.environ.pop("TEZGUMI_MPI_LIBRARY", None)
        if named is not None:
            os.environ["TEZGUMI_MPI_LIBRARY"] = named
    over_mpi.library.cache_clear()
    expect(over_mpi.report(comm, [1]).max_load_after == 1, "the library is not found again")


def passes(name, test):
    """Runs a test on all ranks, and prints how it went."""
    trouble = ""
    try:
        test()
    except Exception:
        trouble = traceback.format_exc()
    all_trouble = [text for text in comm.allgather(trouble) if text]
    if RANK == 0:
        print(f"{'FAILED' if all_trouble else 'ok'}: {name}", *all_trouble[:1], sep="\n", flush=True)
    return not all_trouble


def main():
    tests = [(name[5:].replace("_", " "), test) for name, test in globals().items() if name.startswith("test_")]
    return not all([passes(name, test) for name, test in tests])


if __name__ == "__main__":
    sys.exit(main())
