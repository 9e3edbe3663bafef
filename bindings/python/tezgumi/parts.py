"""Calls on a chain whose consecutive parts lie in different processes, or are too large to be held at once: nobody needs all
elements, and the division is that of all. They are those of tezgumi_parts.h, which docs/BINDINGS.md explains; tezgumi.mpi does all of
this over MPI ranks.

    division = tezgumi.parts.divide_all(parts, pes=64)     # of parts that one process can read, as memory-mapped files

With messages of your own call these in this order. A part is the loads of the elements from number `first` on.

1. `bounds`: two limits that enclose the least load that the heaviest block can have, by the total and the greatest of all loads.
2. `limits`, `walk`, `narrow`: closer bounds. The walks go from part to part, begun by `start`. May be done again, or left out.
3. `ends`: where the blocks of one walk end in each part; once within one below the lower bound, once within the upper bound. The
   ends of all parts, and the number of elements for each block that is not closed behind the last part, are windows: from end b
   of the first walk to end b of the second.
4. `merge`: the runs of a part, of which each element in a window begins one.
5. `divide`: by the runs of all parts, in order, the division of the chain.
6. `weigh`: what a part has of each block, and of each range of the fence. Added up over all parts, `check_division` takes these.
   This alone proves the division least, whatever went wrong before.
7. `held`: what a part has of each block, in bytes. By the table of all parts `name` names the blocks, so that the fewest bytes
   move, and `check_names` checks the names.

Loads, sizes and other lists are numpy arrays, plain lists or other buffers of whole numbers. Loads of 64 bits and sizes of 32, one
behind the other, are read where they are. A number that does not fit is refused by an InputError that names the list and the entry;
loads that add up to 2^63 or more are a LoadError. What is returned is a tuple of numbers and of arrays that nobody writes to; what a
call is given it leaves as it is.
"""
from __future__ import annotations

import ctypes
from typing import Any, List, NamedTuple, Sequence, Tuple, TypeVar

import numpy as np
from numpy.typing import ArrayLike, NDArray

from .checking import Flaw, Verdict, flaw_of
from .errors import InputError, LoadError, TezgumiError
from .library import library, lists
from .lists import frozen, stay_frozen, total, whole_number
from .runs import DIVISION_PES, ELEMENTS, PES, TOTAL_BYTES, TOTAL_LOAD
from .statuses import BAD_LOAD, hold

LIMITS = 64
"""Limits of one pass of walks, if no other number is asked for: the bounds are 65 times as close behind it."""

_WORD, _LONG = 2**32 - 1, 2**64 - 1
_PASSES = 2
_Array = TypeVar("_Array", bound="NDArray[Any]")


class Bounds(NamedTuple):
    """The least load that the heaviest block can have is low to high."""

    low: int
    high: int


class Walks(NamedTuple):
    """Walks behind some parts, one for each limit: the blocks that each has closed, and the load of its open one."""

    closed: NDArray[np.uint32]
    filled: NDArray[np.uint64]


class Ends(NamedTuple):
    """Where blocks of a walk end in a part, as numbers of elements of the chain: each is the one that the block could not take.
    `closed` and `filled` are the walk behind the part."""

    ends: NDArray[np.uint32]
    closed: int
    filled: int


class Runs(NamedTuple):
    """Consecutive elements of a part, merged: the load of each run, and the element behind its last one."""

    loads: NDArray[np.uint64]
    ends: NDArray[np.uint32]


class Division(NamedTuple):
    """A division of the chain. Block b is the elements cuts[b] .. cuts[b + 1] - 1, and none weighs more than the bottleneck. The
    elements from each of the stops to the next, both included, weigh as much as it at least; there are none where it is 0."""

    bottleneck: int
    cuts: NDArray[np.int64]
    stops: NDArray[np.int64]


class Weights(NamedTuple):
    """What a part, or the chain, has of each block of a division, and of each range of its fence."""

    blocks: NDArray[np.uint64]
    fence: NDArray[np.uint64]


class Naming(NamedTuple):
    """The PE of each block, the prices that prove these names cheapest, and the bytes that move."""

    names: NDArray[np.uint32]
    block_prices: NDArray[np.int64]
    pe_prices: NDArray[np.int64]
    moved: int


stay_frozen(Walks, Ends, Runs, Division, Weights, Naming)


def bounds(total: int, greatest: int, pes: int) -> Bounds:
    """The bounds for a chain whose loads add up to `total`, the greatest of them being `greatest`, and 1 to 65,536 blocks."""
    total, greatest = whole_number(total, 0, _LONG, "total"), whole_number(greatest, 0, _LONG, "greatest")
    pes = _blocks(pes)
    if total > TOTAL_LOAD:
        raise LoadError(f"total is {total}, and at most {TOTAL_LOAD} is taken")
    low, high = ctypes.c_uint64(), ctypes.c_uint64()
    hold(library().tezgumi_part_bounds(total, greatest, pes, ctypes.addressof(low), ctypes.addressof(high)))
    return Bounds(low.value, high.value)


def limits(within: Bounds, count: int = LIMITS) -> NDArray[np.uint64]:
    """Limits to try between two bounds, evenly and in ascending order: so many, or all that there are. There are none where the
    bounds have met."""
    low, high = _bounds(within)
    found = np.empty(whole_number(count, 1, _WORD, "count"), np.uint64)
    written = ctypes.c_size_t()
    hold(library().tezgumi_part_limits(low, high, *lists(found), ctypes.addressof(written)))
    return _done(found[:written.value])


def start(limits: ArrayLike) -> Walks:
    """The walks before the first part, one for each limit."""
    count = len(_limits(limits, _LONG))
    return Walks(_done(np.zeros(count, np.uint32)), _done(np.zeros(count, np.uint64)))


def walk(loads: ArrayLike, pes: int, limits: ArrayLike, walks: Walks) -> Walks:
    """The walks behind a part, from those before it. Within each limit a block takes as many elements as fit, in order."""
    part, pes, most = _loads(loads), _blocks(pes), _limits(limits, _LONG)
    closed = frozen(walks.closed, np.uint32, "closed").copy()
    filled = frozen(walks.filled, np.uint64, "filled").copy()
    _refuse_counts("there are {} limits, {} closed and {} filled; a walk has one of each", most, closed, filled)
    _hold(library().tezgumi_part_walk(*lists(part), pes, *lists(most, closed, filled)), part)
    return Walks(_done(closed), _done(filled))


def narrow(within: Bounds, pes: int, limits: ArrayLike, closed: ArrayLike) -> Bounds:
    """Closer bounds, by the blocks that walks within these limits have closed behind the last part. A limit can hold all elements
    where fewer than `pes` blocks are closed."""
    first, last = _bounds(within)
    pes, tried, ended = _blocks(pes), _limits(limits, _LONG - 1), frozen(closed, np.uint32, "closed", copy=False)
    _refuse_counts("there are {} limits and {} closed; a walk has one of each", tried, ended)
    low, high = ctypes.c_uint64(first), ctypes.c_uint64(last)
    hold(library().tezgumi_part_narrow(pes, *lists(tried, ended), ctypes.addressof(low), ctypes.addressof(high)))
    return Bounds(low.value, high.value)


def ends(loads: ArrayLike, first: int, pes: int, limit: int, closed: int = 0, filled: int = 0) -> Ends:
    """Where the blocks of one walk end in a part. Before it the walk has closed so many blocks, and its open one weighs `filled`."""
    part, first = _numbered(_loads(loads), first)
    pes, limit = _blocks(pes), whole_number(limit, 0, _LONG, "limit")
    behind = ctypes.c_uint32(whole_number(closed, 0, _WORD, "closed"))
    weight = ctypes.c_uint64(whole_number(filled, 0, _LONG, "filled"))
    found, count = np.empty(pes, np.uint32), ctypes.c_size_t()
    _hold(library().tezgumi_part_ends(
        *lists(part), first, pes, limit, ctypes.addressof(behind), ctypes.addressof(weight), *lists(found),
        ctypes.addressof(count)), part)
    return Ends(_done(found[:count.value]), behind.value, weight.value)


def merge(loads: ArrayLike, first: int, lower: ArrayLike, upper: ArrayLike) -> Runs:
    """The runs of a part. Window k is the elements lower[k] .. upper[k], in both lists in order; each element in a window begins a
    run, and so does the part."""
    part, first = _numbered(_loads(loads), first)
    begins, last = frozen(lower, np.uint32, "lower", copy=False), frozen(upper, np.uint32, "upper", copy=False)
    _refuse_windows(begins, last)
    room = _most_runs(len(part), first, begins, last)
    weights, behind, count = np.empty(room, np.uint64), np.empty(room, np.uint32), ctypes.c_size_t()
    _hold(library().tezgumi_part_merge(
        *lists(part), first, *lists(begins, last, weights, behind), ctypes.addressof(count)), part)
    return Runs(_done(weights[:count.value]), _done(behind[:count.value]))


def divide(runs: Sequence[Runs], pes: int) -> Division:
    """The division of the chain whose runs these are, those of each part, in order. The runs are divided as `tezgumi.divide` divides
    elements, and the first element of the run is in place of each cut and stop."""
    pes = _blocks(pes)
    weights, behind = _merged(runs)
    cuts, stops = np.empty(pes + 1, np.uint32), np.empty(pes + 1, np.uint32)
    bottleneck, count = ctypes.c_uint64(), ctypes.c_size_t()
    _hold(library().tezgumi_divide(
        *lists(weights), pes, ctypes.addressof(bottleneck), *lists(cuts, stops), ctypes.addressof(count)), weights)
    firsts = np.concatenate([np.zeros(1, np.int64), behind])
    return Division(bottleneck.value, _done(firsts[cuts]), _done(firsts[stops[:count.value]]))


def weigh(loads: ArrayLike, first: int, pes: int, division: Division) -> Weights:
    """What a part has of the blocks of a division, and of the elements from each stop to the next, both included. Cuts and stops may
    be any; where there are no stops the loads of the fence are 0."""
    part, first = _numbered(_loads(loads), first)
    pes, (cuts, stops) = _blocks(pes), _ranges(division)
    blocks, fence = np.empty(pes, np.uint64), np.empty(pes, np.uint64)
    _hold(library().tezgumi_part_loads(*lists(part), first, pes, *lists(cuts, stops, blocks, fence)), part)
    return Weights(_done(blocks), _done(fence))


def check_division(elements: int, pes: int, division: Division, weights: Weights) -> Verdict:
    """What the proved checker says of a division of so many elements, whoever made it, by the weights of all parts together: a
    Verdict, true exactly where the division is right and its fence proves it least, if the weights are what all elements have."""
    pes, (cuts, stops) = _blocks(pes), _ranges(division)
    blocks, fence = (frozen(part, np.uint64, name, copy=False) for part, name in zip(weights, ("blocks", "fence")))
    if not len(blocks) == len(fence) == pes:
        raise InputError(f"there are {len(blocks)} weights of blocks and {len(fence)} of the fence, and {pes} of each are wanted")
    bottleneck = whole_number(division.bottleneck, 0, _LONG, "bottleneck")
    status = library().tezgumi_check_division(
        whole_number(elements, 0, ELEMENTS, "elements"), pes, bottleneck, *lists(cuts, stops, blocks, fence))
    if status == Flaw.HEAVY:
        return Verdict(Flaw.HEAVY, (int(np.argmax(blocks > np.uint64(bottleneck))),))
    if status == Flaw.FENCE_LIGHT:
        return Verdict(Flaw.FENCE_LIGHT, (1 + int(np.argmax(fence < np.uint64(bottleneck))),))
    return _verdict(status)


def held(bytes: ArrayLike, first: int, cuts: ArrayLike) -> NDArray[np.uint64]:
    """What a part has of each block, in bytes: one number fewer than there are cuts. `bytes` has the size of each of its elements."""
    sizes, first = _numbered(frozen(bytes, np.uint32, "bytes", copy=False), first)
    ranges = frozen(cuts, np.uint32, "cuts", copy=False)
    if len(ranges) == 0:
        raise InputError("there are no cuts, and one more than blocks is wanted")
    found = np.empty(len(ranges) - 1, np.uint64)
    hold(library().tezgumi_part_held(*lists(sizes), first, *lists(ranges, found)))
    return _done(found)


def name(held: ArrayLike) -> Naming:
    """The cheapest names of blocks, by a square table of 1 to 4,096 rows: held[b][p] has the bytes of block b on PE p, and all of them
    add up to 2^47 at most. No names move fewer bytes, and of such names these are the first in dictionary order."""
    table, pes = _table(held)
    if pes > PES:
        raise InputError(f"held has {pes} rows, and at most {PES} are taken")
    if total(table) > TOTAL_BYTES:
        raise InputError(f"held adds up to {total(table)}, and at most {TOTAL_BYTES} bytes are taken")
    names, moved = np.empty(pes, np.uint32), ctypes.c_uint64()
    block_prices, pe_prices = np.empty(pes, np.int64), np.empty(pes, np.int64)
    hold(library().tezgumi_name(*lists(table), pes, *lists(names, block_prices, pe_prices), ctypes.addressof(moved)))
    return Naming(_done(names), _done(block_prices), _done(pe_prices), moved.value)


def check_names(held: ArrayLike, naming: Naming) -> Verdict:
    """What the proved checker says of names by such a table, whoever found them: a Verdict, true exactly where these names move so
    many bytes and the prices prove that no others move fewer."""
    table, pes = _table(held)
    names = frozen(naming.names, np.uint32, "names", copy=False)
    block_prices = frozen(naming.block_prices, np.int64, "block_prices", copy=False)
    pe_prices = frozen(naming.pe_prices, np.int64, "pe_prices", copy=False)
    status = library().tezgumi_check_names(
        *lists(table), pes, *lists(names, block_prices, pe_prices), whole_number(naming.moved, 0, _LONG, "moved"))
    if status == Flaw.PRICE_HIGH:
        return Verdict(Flaw.PRICE_HIGH, _first_high_price(table.reshape(pes, pes), block_prices, pe_prices))
    return _verdict(status)


def divide_all(parts: Sequence[ArrayLike], pes: int) -> Division:
    """The division of a chain that is given as its parts, in order: the same as `tezgumi.divide` has for all loads in one list, with
    its bottleneck and its fence. No list of all loads is made, and each part is read some fifteen times; so the parts may be arrays
    that are mapped from files. The division was checked by `check_division`."""
    pes = _blocks(pes)
    chain = _Chain([_loads(part, f"parts[{k}]") for k, part in enumerate(parts)], pes)
    whole = bounds(chain.total, chain.greatest, pes)
    narrowed = whole
    for _ in range(_PASSES):
        narrowed = chain.narrowed(narrowed)
    for within in (narrowed, whole):
        division = chain.divided(within)
        verdict = check_division(chain.count, pes, division, chain.weights(division))
        if verdict:
            return division
    raise TezgumiError(f"the division is not right ({verdict}); were the loads written to meanwhile?")


class _Chain:
    """All parts of a chain, and the steps that go over them."""

    def __init__(self, parts: List[NDArray[np.uint64]], pes: int) -> None:
        firsts = [0]
        for part in parts:
            firsts.append(firsts[-1] + len(part))
        self.parts, self.firsts, self.pes, self.count = parts, firsts[:-1], pes, firsts[-1]
        if self.count > ELEMENTS:
            raise InputError(f"the parts have {self.count} elements, and at most {ELEMENTS} are taken")
        self.total = sum(map(total, parts))
        if self.total > TOTAL_LOAD:
            raise LoadError(f"the loads add up to {self.total}, and at most {TOTAL_LOAD} is taken")
        self.greatest = max((int(part.max()) for part in parts if len(part)), default=0)

    def narrowed(self, within: Bounds) -> Bounds:
        """Closer bounds, by one pass of walks over all parts."""
        tried = limits(within)
        walks = start(tried)
        for part in self.parts:
            walks = walk(part, self.pes, tried, walks)
        return narrow(within, self.pes, tried, walks.closed)

    def windows(self, limit: int) -> NDArray[np.uint32]:
        """Where the blocks of a walk within a limit end; those that it has not closed end behind the last element."""
        found = np.full(self.pes, self.count, np.uint32)
        closed, filled = 0, 0
        for part, first in zip(self.parts, self.firsts):
            before = closed
            here, closed, filled = ends(part, first, self.pes, limit, closed, filled)
            found[before:closed] = here
        return found

    def divided(self, within: Bounds) -> Division:
        """The division, if its bottleneck is within the bounds."""
        lower, upper = self.windows(max(within.low - 1, 0)), self.windows(within.high)
        return divide([merge(part, first, lower, upper) for part, first in zip(self.parts, self.firsts)], self.pes)

    def weights(self, division: Division) -> Weights:
        """What all parts have of the division."""
        blocks, fence = np.zeros(self.pes, np.uint64), np.zeros(self.pes, np.uint64)
        for part, first in zip(self.parts, self.firsts):
            more = weigh(part, first, self.pes, division)
            blocks += more.blocks
            fence += more.fence
        return Weights(blocks, fence)


# What is given


def _loads(loads: ArrayLike, name: str = "loads") -> NDArray[np.uint64]:
    part = frozen(loads, np.uint64, name, most=TOTAL_LOAD, copy=False)
    if len(part) > ELEMENTS:
        raise InputError(f"there are {len(part)} {name}, and at most {ELEMENTS} are taken")
    return part


def _blocks(pes: int) -> int:
    return whole_number(pes, 1, DIVISION_PES, "pes")


def _bounds(within: Bounds) -> Tuple[int, int]:
    low, high = within
    low, high = whole_number(low, 0, _LONG, "low"), whole_number(high, 0, _LONG, "high")
    if low > high:
        raise InputError(f"low is {low}, and high is {high}")
    return low, high


def _limits(limits: ArrayLike, most: int) -> NDArray[np.uint64]:
    return frozen(limits, np.uint64, "limits", most=most, copy=False)


def _numbered(part: _Array, first: int) -> Tuple[_Array, int]:
    """The part, and the number of its first element, where all its elements have numbers that are taken."""
    begin = whole_number(first, 0, _WORD, "first")
    if begin + len(part) > ELEMENTS:
        raise InputError(f"first is {begin}, and the last of {len(part)} elements from there has a number above {ELEMENTS - 1}")
    return part, begin


def _ranges(division: Division) -> Tuple[NDArray[np.uint32], NDArray[np.uint32]]:
    return frozen(division.cuts, np.uint32, "cuts", copy=False), frozen(division.stops, np.uint32, "stops", copy=False)


def _table(held: ArrayLike) -> Tuple[NDArray[np.uint64], int]:
    """The rows of a square table, one behind the other, and how many they are."""
    try:
        array = np.asarray(held)
    except (ValueError, OverflowError) as error:
        raise InputError(f"held: a square table of whole numbers is wanted ({error})") from None
    if array.ndim != 2 or array.shape[0] != array.shape[1] or array.size == 0:
        raise InputError(f"held: a square table of at least one row is wanted, and not of the shape {array.shape}")
    pes = array.shape[1]

    def refuse(index: int, value: Any) -> InputError:
        return InputError(f"held[{index // pes}][{index % pes}] is {value!r}; it has to be a whole number from 0 to {_LONG}")

    # What is in lists, and no array of whole numbers, is looked at number by number.
    is_typed = array.dtype.kind in "iu" or hasattr(held, "__array__")
    rows: Any = array.reshape(-1) if is_typed else [number for row in held for number in row]  # type: ignore[union-attr]
    return frozen(rows, np.uint64, "held", refuse, copy=False), pes


def _merged(runs: Sequence[Runs]) -> Runs:
    """The runs of all parts, which are in order."""
    for k, (weights, behind) in enumerate(runs):
        if len(weights) != len(behind):
            raise InputError(f"runs[{k}] has {len(weights)} loads and {len(behind)} ends; a run has one of each")
    weights = [frozen(part.loads, np.uint64, f"runs[{k}].loads", most=TOTAL_LOAD, copy=False) for k, part in enumerate(runs)]
    behind = [frozen(part.ends, np.uint32, f"runs[{k}].ends", copy=False) for k, part in enumerate(runs)]
    last = np.zeros(1, np.uint32)
    for k, part in enumerate(behind):
        before = np.concatenate([last, part])
        falls = np.flatnonzero(part <= before[:-1])
        if len(falls):
            at = int(falls[0])
            raise InputError(f"runs[{k}].ends[{at}] is {int(part[at])}; it has to be above {int(before[at])}")
        last = before[-1:]
    return Runs(np.concatenate([np.empty(0, np.uint64), *weights]), np.concatenate([np.empty(0, np.uint32), *behind]))


# What is refused


def _refuse_counts(text: str, *arrays: NDArray[Any]) -> None:
    counts = [len(array) for array in arrays]
    if len(set(counts)) > 1:
        raise InputError(text.format(*counts))


def _refuse_windows(lower: NDArray[np.uint32], upper: NDArray[np.uint32]) -> None:
    """Refuses windows that are not in order, or of which one ends before it begins."""
    _refuse_counts("there are {} entries of lower and {} of upper; a window has one of each", lower, upper)
    for name, list_ in (("lower", lower), ("upper", upper)):
        falls = np.flatnonzero(list_[1:] < list_[:-1])
        if len(falls):
            at = int(falls[0]) + 1
            raise InputError(f"{name}[{at}] is {int(list_[at])}, and {name}[{at - 1}] is {int(list_[at - 1])}; windows are in order")
    empty = np.flatnonzero(upper < lower)
    if len(empty):
        at = int(empty[0])
        raise InputError(f"upper[{at}] is {int(upper[at])}, and lower[{at}] is {int(lower[at])}")


def _hold(status: int, loads: NDArray[np.uint64]) -> None:
    if status == BAD_LOAD:
        raise LoadError(f"the loads add up to {total(loads)}, and at most {TOTAL_LOAD} is taken")
    hold(status)


# What is answered


def _most_runs(count: int, first: int, lower: NDArray[np.uint32], upper: NDArray[np.uint32]) -> int:
    """No fewer than the runs of a part of so many elements."""
    begin, end = first + 1, first + count
    inside = np.minimum(upper.astype(np.int64) + 1, end) - np.maximum(lower.astype(np.int64), begin)
    return min(count, 1 + int(np.maximum(inside, 0).sum()))


def _verdict(status: int) -> Verdict:
    if status > 0:
        return Verdict(flaw_of(status))
    hold(status)
    return Verdict()


def _first_high_price(
        table: NDArray[np.uint64], block_prices: NDArray[np.int64], pe_prices: NDArray[np.int64]) -> Tuple[int, ...]:
    """The first block and PE whose prices are together above the bytes that the block would move there. In numbers of any size."""
    others = pe_prices.tolist()
    for block, (row, price) in enumerate(zip(table.tolist(), block_prices.tolist())):
        whole = sum(row)
        for pe, (there, other) in enumerate(zip(row, others)):
            if price + other > whole - there:
                return block, pe
    return ()


def _done(array: _Array) -> _Array:
    array.setflags(write=False)
    return array
