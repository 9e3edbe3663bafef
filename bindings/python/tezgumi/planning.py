"""The calls of the library: to plan, to decide with certificates, to check, and to divide alone."""
from __future__ import annotations

import ctypes
from typing import Any, Literal, NamedTuple, Tuple, TypeVar, overload

import numpy as np
from numpy.typing import ArrayLike, NDArray

from .checking import Flaw, Verdict, flaw_of, numbers_of
from .errors import InputError
from .library import library, lists
from .lists import are_floats, as_they_lie, frozen, refuse_no_list, shown, slices, stay_frozen, truth, whole_number
from .refining import check_near, decide_within, plan_within
from .reordering import check_reordered, decide_in_any_order, plan_in_any_order
from .runs import DIVISION_PES, ELEMENTS, MOVE, PES, TOLERANCE, TOTAL_LOAD, Decision, NearDecision, Plan, ReorderedDecision, Run
from .runs import ends, taken_decision, taken_run, words
from .scales import scaled
from .speeds import TimedDivision, check_by_speeds, divide_by_speeds, plan_by_speeds, taken_speeds
from .statuses import BAD_LOAD, hold

_Array = TypeVar("_Array", bound="NDArray[Any]")


def plan(
        run: Run, pes: int | None = None, tolerance: float | None = None, keep_order: bool = False, any_order: bool = False, *,
        speeds: ArrayLike | None = None, background: ArrayLike | None = None, part_sizes: ArrayLike | None = None) -> Plan:
    """The plan for `pes` PEs, 1 to 4,096; for as many as the run has, if none are named.

    Its greatest load is the least: no division of the chain into so many consecutive blocks has a lighter heaviest block. And
    it moves the fewest bytes: no other way to name these blocks by PEs moves fewer. Both are proved.

    With a tolerance the heaviest block may weigh that much more than the least one can, the limit rounded down: so many
    thousandths, 0 to 1000, or a fraction as a float, so that 20 and 0.02 are two per cent. It is for runs that a dump holds. Where
    the elements of each PE are together, on PEs below `pes`, these stand in an order, and behind them those without elements;
    otherwise it is the plan without a tolerance.

    Of all cuts within the limit those are taken that would move the fewest bytes in this order, and their blocks are named
    anew, so that the fewest bytes move: PEs may change places. Where that saves nothing, it is the plan without a tolerance. So
    never more bytes move than by that; but other cuts within the limit, in another order, may move fewer. With keep_order the
    PEs keep their order: no cuts within the limit move fewer bytes in it, though the plan without a tolerance may. With any_order
    no cuts within the limit, with no names of their blocks, move fewer bytes. But where the elements of some PE are not together, and
    where the search would be too large, it is what is decided without any_order. In each of these ways nothing moves where the PEs
    stand in an order and their present blocks keep to the limit.

    With speeds, background or part_sizes, as `divide` takes them, block b goes to PE b, and the greatest end time is least; neither the
    bottleneck nor the bytes need be.
    """
    fast = taken_speeds(speeds, part_sizes)
    if fast is not None:
        if pes is not None or tolerance is not None or keep_order or any_order:
            raise InputError("a plan by speeds has a PE for each of them and no tolerance: leave pes and the others out")
        return plan_by_speeds(taken_run(run), fast, background)
    if background is not None:
        raise InputError("background is for a plan by speeds, which may all be 1")
    pes, asked = _pes(run, pes), _asked(tolerance, keep_order, any_order)
    if asked is not None:
        return plan_in_any_order(run, pes, asked.tolerance) if asked.any_order else plan_within(run, pes, *asked[:2])
    places = np.empty(len(run), np.uint32)
    bottleneck, moved = ctypes.c_uint64(), ctypes.c_uint64()
    hold(library().tezgumi_plan(*_plan_words(run, pes, places, bottleneck, moved)))
    return Plan(pes, _done(places), bottleneck.value, moved.value)


def decide(
        run: Run, pes: int | None = None, tolerance: float | None = None, keep_order: bool = False,
        any_order: bool = False) -> Decision:
    """The same with certificates, which `check` takes. With a tolerance it is a NearDecision; or the decision without one, where
    the elements of some PE are not together, and, unless the PEs are to keep their order, where that moves no more bytes. With
    any_order it is a ReorderedDecision, or what is decided without any_order."""
    pes, asked = _pes(run, pes), _asked(tolerance, keep_order, any_order)
    if asked is not None:
        return decide_in_any_order(run, pes, asked.tolerance) if asked.any_order else decide_within(run, pes, *asked[:2])
    places = np.empty(len(run), np.uint32)
    cuts, stops, names = (np.empty(count, np.uint32) for count in (pes + 1, pes + 1, pes))
    block_prices, pe_prices = np.empty(pes, np.int64), np.empty(pes, np.int64)
    bottleneck, moved, count = ctypes.c_uint64(), ctypes.c_uint64(), ctypes.c_size_t()
    hold(library().tezgumi_decide(
        *_plan_words(run, pes, places, bottleneck, moved), *lists(cuts, stops), ctypes.addressof(count),
        *lists(names, block_prices, pe_prices)))
    moves = run.moves_to(places)
    return Decision(
        pes, _done(places), bottleneck.value, moved.value, cuts, stops[:count.value], _done(names),
        _done(block_prices), _done(pe_prices), _done(moves))


class _Pair(NamedTuple):
    cuts: NDArray[np.int64]
    stops: NDArray[np.int64]


class Divided(_Pair):
    """A division with its fence: a pair of the cuts and the stops. Where the loads were measured, `unit` is what they were counted in,
    each rounded down, and the heaviest block is above that of any other division by `within` at most. Else they are None and 0."""

    unit: float | None = None
    within: float = 0.0

    def __repr__(self) -> str:
        unit = "" if self.unit is None else f", unit={self.unit!r}, least within {self.within:.3g}"
        return f"Divided(cuts={shown(self.cuts)}, stops={shown(self.stops)}{unit})"


stay_frozen(Divided)


@overload
def divide(loads: ArrayLike, pes: int) -> NDArray[np.int64]: ...
@overload
def divide(loads: ArrayLike, pes: int, fence: Literal[False]) -> NDArray[np.int64]: ...
@overload
def divide(loads: ArrayLike, pes: int, fence: Literal[True]) -> Divided: ...
@overload
def divide(
    loads: ArrayLike, pes: None = None, fence: Literal[False] = False, *, speeds: ArrayLike | None = None,
    background: ArrayLike | None = None, part_sizes: ArrayLike | None = None) -> TimedDivision: ...


def divide(
        loads: ArrayLike, pes: int | None = None, fence: bool = False, *, speeds: ArrayLike | None = None,
        background: ArrayLike | None = None, part_sizes: ArrayLike | None = None) -> Any:
    """The pes + 1 cuts of a chain of loads, 0 first: block b is the elements cuts[b] .. cuts[b + 1] - 1. The greatest load of
    a block is the least: no division into so many consecutive blocks has a lesser one.

    There are 1 to 65,536 blocks, up to 4,294,967,295 elements, and loads that add up to less than 2^63. With fence=True it is
    a pair: the cuts, and the stops of the fence, of which there are none where all loads are 0. From each stop to the next,
    both included, the elements weigh as much as the heaviest block at least, which shows that no lighter blocks do.

    Loads that are floats are counted first, as `scaled` does, each rounded down to a unit. Then the greatest load of a block is above
    the least by a unit for each element at most; with fence=True the pair says so: its `unit`, and `within`, which is all of them.

    An array or a buffer of whole numbers of 64 bits, one behind the other, is read where it is, and not copied.

    With speeds, a whole number for each PE, or with part_sizes, as Zoltan takes them, it is a TimedDivision into a block for each
    PE whose greatest end time (background + load) / speed is least. `background` is work that a PE has besides its block.
    """
    fast = taken_speeds(speeds, part_sizes)
    if fast is not None:
        if pes is not None or fence:
            raise InputError("with speeds there is a block for each of them, and the division has its fence: leave pes and fence out")
        return divide_by_speeds(loads, fast, background)
    if background is not None:
        raise InputError("background is for a division by speeds, which may all be 1")
    refuse_no_list(loads, "loads")
    pes, wanted = whole_number(pes, 1, DIVISION_PES, "pes"), truth(fence, "fence")
    measured = scaled(loads, ELEMENTS) if are_floats(loads) else None
    numbers = measured.counts if measured else as_they_lie(loads)
    if numbers is None:
        numbers = _whole_loads(loads)
    cuts, stops = np.empty(pes + 1, np.uint32), np.empty(pes + 1, np.uint32)
    bottleneck, count = ctypes.c_uint64(), ctypes.c_size_t()
    status = library().tezgumi_divide(
        *lists(numbers), pes, ctypes.addressof(bottleneck), *lists(cuts, stops), ctypes.addressof(count))
    if status == BAD_LOAD:
        # The library has read the loads, and says no more. Where one of them alone is wrong, this names it.
        _whole_loads(loads)
    hold(status)
    kept = ends(cuts, "cuts")
    if not wanted:
        return kept
    pair = Divided(kept, ends(stops[:count.value], "stops"))
    if measured is not None:
        pair.unit, pair.within = measured.unit, measured.within
    return pair


def _whole_loads(loads: ArrayLike) -> NDArray[np.uint64]:
    return frozen(loads, np.uint64, "loads", most=TOTAL_LOAD, copy=False)


def check(run: Run | ArrayLike, decision: Decision | TimedDivision) -> Verdict:
    """What the proved checker says of a decision on a run, whoever made it: a Verdict, true where all of it is right.

    Then no division into so many consecutive blocks has a lighter heaviest block, and no naming of these blocks moves
    fewer bytes. Of a NearDecision: no block is above its limit, no cuts within the limit move fewer bytes in the order in which
    the PEs stand, and no naming of these blocks moves fewer, or with keep_order their names are that order. Of a ReorderedDecision:
    no block is above its limit, and no cuts within the limit, with no naming of their blocks, move fewer bytes. That `moves` lists
    the moves of the places is compared here, in Python. Of a TimedDivision, which is checked with the loads in place of a run: its time is
    the greatest end time of a PE, and no division has a lower one.
    """
    if isinstance(decision, TimedDivision):
        return check_by_speeds(run.loads if isinstance(run, Run) else run, decision)
    run, d = taken_run(run), taken_decision(decision)
    if isinstance(d, (NearDecision, ReorderedDecision)):
        verdict = check_near(run, d) if isinstance(d, NearDecision) else check_reordered(run, d)
        return verdict if not verdict or _are_moves(run, d) else Verdict(Flaw.MOVES_WRONG)
    cuts, stops = words(d.cuts, d.stops)
    status = library().tezgumi_check(
        *lists(run.loads, run.bytes, run.places), run.procs, d.pes, *lists(d.places), d.bottleneck, d.moved,
        *lists(cuts, stops, d.names, d.block_prices, d.pe_prices))
    if status > 0:
        flaw = flaw_of(status)
        return Verdict(flaw, numbers_of(run, d, flaw))
    hold(status)
    return Verdict() if _are_moves(run, d) else Verdict(Flaw.MOVES_WRONG)


def _are_moves(run: Run, decision: Decision) -> bool:
    # Field by field, which takes half the time of making the right list and comparing the two.
    end = 0
    for k in slices(len(run)):
        elements = k.start + np.flatnonzero(run.places[k] != decision.places[k])
        begin, end = end, end + elements.size
        wanted = elements, run.places[elements], decision.places[elements]
        moves = decision.moves[begin:end]
        if not all(np.array_equal(moves[name], numbers) for name, numbers in zip(MOVE.names or (), wanted)):
            return False
    return end == len(decision.moves)


def _pes(run: Run, pes: int | None) -> int:
    run = taken_run(run)
    return run.procs if pes is None else whole_number(pes, 1, PES, "pes")


class _Asked(NamedTuple):
    """A tolerance, and which order the PEs are to have."""

    tolerance: int
    keep_order: bool
    any_order: bool


def _asked(tolerance: float | None, keep_order: bool, any_order: bool) -> _Asked | None:
    """What is asked of a decision within a tolerance; None where there is no tolerance."""
    keeps, changes = truth(keep_order, "keep_order"), truth(any_order, "any_order")
    if keeps and changes:
        raise InputError("keep_order and any_order are two ways to decide: leave one out")
    if tolerance is not None:
        return _Asked(thousandths(tolerance), keeps, changes)
    if keeps or changes:
        raise InputError(f"{'keep_order' if keeps else 'any_order'} is for a decision within a tolerance, which may be 0")
    return None


def thousandths(tolerance: Any) -> int:
    """A tolerance in thousandths, which may be given as a fraction."""
    wanted = f"it has to be 0 to {TOLERANCE} thousandths, or a fraction of whole thousandths as a float: 20 and 0.02 are two per cent"
    if isinstance(tolerance, (float, np.floating)):
        number = round(1000 * float(tolerance)) if 0 <= tolerance <= 1 else -1
        if number < 0 or abs(1000 * float(tolerance) - number) > 1e-6:
            raise InputError(f"tolerance is {tolerance!r}; {wanted}")
        return number
    try:
        return whole_number(tolerance, 0, TOLERANCE, "tolerance")
    except InputError:
        raise InputError(f"tolerance is {tolerance!r}; {wanted}") from None


def _plan_words(
        run: Run, pes: int, places: NDArray[np.uint32], bottleneck: ctypes.c_uint64, moved: ctypes.c_uint64) -> Tuple[int, ...]:
    return (
        *lists(run.loads, run.bytes, run.places), run.procs, pes, *lists(places), ctypes.addressof(bottleneck),
        ctypes.addressof(moved))


def _done(array: _Array) -> _Array:
    array.setflags(write=False)
    return array
