"""What a check says of a decision."""
from __future__ import annotations

import enum
from dataclasses import dataclass
from typing import TYPE_CHECKING, Any, Tuple

import numpy as np
from numpy.typing import NDArray

if TYPE_CHECKING:
    from .runs import Decision, Run


class Flaw(enum.IntEnum):
    """What is wrong with a decision. Of several flaws the first is told, which is the least, but for those of a NearDecision
    or a ReorderedDecision, and of a TimedDivision. `word` is the name that lb_sim prints."""

    word: str
    meaning: str

    def __new__(cls, number: int, word: str, meaning: str) -> Flaw:
        flaw = int.__new__(cls, number)
        flaw._value_ = number
        flaw.word = word
        flaw.meaning = meaning
        return flaw

    CUT_COUNT = 1, "CutCount", "there are not pes + 1 cuts"
    CUT_START = 2, "CutStart", "the first cut is not 0"
    CUT_ORDER = 3, "CutOrder", "a cut is greater than the next"
    CUT_END = 4, "CutEnd", "the last cut is not the number of elements"
    HEAVY = 5, "Heavy", "block {0} is heavier than the bottleneck"
    FENCE_COUNT = 6, "FenceCount", "there are stops, and not pes + 1"
    FENCE_START = 7, "FenceStart", "the first stop is not 0"
    FENCE_ORDER = 8, "FenceOrder", "a stop is greater than the next"
    FENCE_END = 9, "FenceEnd", "the last stop is not an element"
    FENCE_LIGHT = 10, "FenceLight", "the elements up to stop {0} are lighter than the bottleneck"
    ZERO_FLOOR = 11, "ZeroFloor", "there are no stops, and the bottleneck is not 0"
    NAME_COUNT = 12, "NameCount", "there are not pes names"
    NAME_RANGE = 13, "NameRange", "a name is not below pes"
    NAME_TWICE = 14, "NameTwice", "two blocks have the same name"
    PRICE_COUNT = 15, "PriceCount", "there are not pes prices of blocks and pes prices of PEs"
    PRICE_HIGH = 16, "PriceHigh", "the prices of block {0} and PE {1} are above the bytes that the block would move there"
    PRICE_GAP = 17, "PriceGap", "the prices together are not the bytes that the names move"
    MOVED_WRONG = 18, "MovedWrong", "the bytes moved are not those that the names move"
    MOVES_WRONG = 19, "MovesWrong", "the places or the moves are not those that the names ask for"
    # Those of a NearDecision alone, which are looked for before 12 to 19.
    PE_COUNT = 20, "PeCount", "there is no PE, or there are too many"
    ORDER_COUNT = 21, "OrderCount", "there are not pes PEs in the order"
    ORDER_RANGE = 22, "OrderRange", "a PE of the order is not below pes"
    ORDER_TWICE = 23, "OrderTwice", "a PE stands in the order twice"
    NEAR_COUNT = 24, "NearCount", "there are not pes + 1 cuts near the present ones"
    NO_DIVISION = 25, "NoDivision", "the cuts do not divide the elements"
    PAST_LIMIT = 26, "PastLimit", "block {0} is heavier than the tolerance allows"
    HEIGHT_COUNT = 27, "HeightCount", "there are not heights for pes blocks"
    HEIGHT_START = 28, "HeightStart", "the height of the first block at the beginning of the chain is not 0"
    STEEP = 29, "Steep", "from block {0} to the next the heights rise at place {1} by more than the cut costs there"
    HEIGHT_LOW = 30, "HeightLow", "the height of the last block is below what the cuts cost"
    ORDER_WRONG = 31, "OrderWrong", "the order and the present cuts are not those of the elements today, or these stand in no order of PEs"
    BOTTLENECK_WRONG = 32, "BottleneckWrong", "the bottleneck is not the load of the heaviest block"
    NAMES_NOT_ORDER = 33, "NamesNotOrder", "the PEs are to keep their order, and the names are another"
    # Those of a ReorderedDecision alone, of which 12 to 14 are looked for behind 20, then 24 to 26, 35 to 38, 32, 18 and 19.
    ROW_COUNT = 35, "RowCount", "there are not bounds for 0 to pes blocks, twice"
    BOUND_START = 36, "BoundStart", "a bound for no blocks is not 0 at the beginning of the chain"
    BOUND_STEEP = 37, "BoundSteep", "behind {0} blocks the bounds rise by more than one from element {1} to {2} brings to some PE"
    BOUND_LOW = 38, "BoundLow", "the bound for all blocks and the whole chain is below the bytes that move"
    # Those of a TimedDivision alone: 39 is looked for first, 40 to 42 behind 4, and 43 behind 9.
    NO_SPEED = 39, "NoSpeed", "the time has the speed 0"
    LATE = 40, "Late", "PE {0} ends after the time"
    IDLE_RANGE = 41, "IdleRange", "there are no stops, and idle is not below pes"
    IDLE_EARLY = 42, "IdleEarly", "there are no stops, and PE idle ends before the time with its background alone"
    FENCE_EARLY = 43, "FenceEarly", "with the elements up to stop {0}, the PE before it ends before the time"


@dataclass(frozen=True)
class Verdict:
    """What a check says: true where every part of the decision is right, and else its least flaw.

    `numbers` are those of the block, of the stop (from 1), of the block and the PE, or of what else `meaning` names, at which the flaw
    is found at first.
    """

    flaw: Flaw | None = None
    numbers: Tuple[int, ...] = ()

    def __bool__(self) -> bool:
        return self.flaw is None

    def __str__(self) -> str:
        """The line that lb_sim prints."""
        if self.flaw is None:
            return "check: ok"
        return " ".join(["check:", self.flaw.word, *map(str, self.numbers)])

    def __repr__(self) -> str:
        return "Verdict(right)" if self.flaw is None else f"Verdict({self.flaw.name}: {self.meaning})"

    @property
    def meaning(self) -> str:
        """The verdict in words."""
        return "every part is right" if self.flaw is None else self.flaw.meaning.format(*self.numbers)


def flaw_of(status: int) -> Flaw:
    """The flaw whose number this status above 0 is."""
    return next(flaw for flaw in Flaw if flaw == status)


def numbers_of(run: Run, decision: Decision, flaw: Flaw) -> Tuple[int, ...]:
    """Where a flaw that the library found is found at first."""
    if flaw is Flaw.HEAVY:
        return (_first(_between(run.loads, decision.cuts) > np.uint64(decision.bottleneck)),)
    if flaw is Flaw.FENCE_LIGHT:
        stops = decision.stops
        sums = running_sums(run.loads)
        return (1 + _first(sums[stops[1:] + 1] - sums[stops[:-1]] < np.uint64(decision.bottleneck)),)
    if flaw is Flaw.PRICE_HIGH:
        return _first_high_price(run, decision)
    return ()


def running_sums(numbers: NDArray[Any]) -> NDArray[np.uint64]:
    """The sum of the first k numbers, for each k: exact, as all loads together are 63 bits, and all packed sizes fewer."""
    sums = np.zeros(len(numbers) + 1, np.uint64)
    np.cumsum(numbers, dtype=np.uint64, out=sums[1:])
    return sums


def _between(numbers: NDArray[Any], cuts: NDArray[np.int64]) -> NDArray[np.uint64]:
    sums = running_sums(numbers)
    between: NDArray[np.uint64] = sums[cuts[1:]] - sums[cuts[:-1]]
    return between


def _first(found: NDArray[np.bool_]) -> int:
    return int(np.argmax(found))


def _first_high_price(run: Run, decision: Decision) -> Tuple[int, ...]:
    # Block by block, what it would move to each PE: its bytes less those that stand there.
    pes = decision.pes
    for block, price in enumerate(decision.block_prices.tolist()):
        part = slice(int(decision.cuts[block]), int(decision.cuts[block + 1]))
        there = np.bincount(run.places[part], weights=run.bytes[part], minlength=pes)[:pes].astype(np.int64)
        moved = int(run.bytes[part].sum(dtype=np.uint64)) - there
        above = np.flatnonzero(_are_above(price, decision.pe_prices, moved))
        if above.size:
            return block, int(above[0])
    return ()


def _are_above(price: int, prices: NDArray[np.int64], moved: NDArray[np.int64]) -> NDArray[np.bool_]:
    # Whether the price and each of the others are together above the bytes. Great ones may add up to more than 64 bits.
    if abs(price) < 2**62:
        return prices > moved - price
    return np.array([price + other > most for other, most in zip(prices.tolist(), moved.tolist())], bool)
