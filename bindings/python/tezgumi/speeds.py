"""Divisions over PEs of unequal speed, some of which have other work besides. tezgumi_speeds.h says what the two calls of the library
owe and answer."""
from __future__ import annotations

import ctypes
from fractions import Fraction
from typing import Any, NamedTuple

import numpy as np
from numpy.typing import ArrayLike, NDArray

from .checking import Verdict, flaw_of, running_sums
from .errors import InputError
from .library import library, lists
from .lists import are_floats, frozen, refuse_no_list, shown, stay_frozen, total
from .runs import TOTAL_LOAD, Plan, Run, ends, words
from .statuses import hold

SPEED = 1_000_000
"""The greatest speed."""
BACKGROUND = 2**47
"""The greatest background of a PE, in work units."""


class TimedDivision(NamedTuple):
    """A division over PEs of unequal speed. Block b is the elements cuts[b] .. cuts[b + 1] - 1 and runs on PE b, which ends at
    (background[b] + its load) / speeds[b]. The greatest of these times is `work` over `speed`, which no division betters: with the elements
    from each of the stops to the next, both included, the PE of the first stop's number ends then or later. Where there are no stops,
    the background of PE `idle` takes so long by itself; otherwise `idle` is None."""

    work: int
    speed: int
    cuts: NDArray[np.int64]
    stops: NDArray[np.int64]
    idle: int | None
    speeds: NDArray[np.uint32]
    background: NDArray[np.uint64]

    @property
    def time(self) -> Fraction:
        """The greatest end time."""
        return Fraction(self.work, self.speed)

    def __repr__(self) -> str:
        floor = f"stops={shown(self.stops)}" if self.idle is None else f"idle={self.idle}"
        return f"TimedDivision(time={self.work}/{self.speed}, cuts={shown(self.cuts)}, {floor})"


stay_frozen(TimedDivision)


def divide_by_speeds(loads: ArrayLike, speeds: ArrayLike, background: ArrayLike | None = None) -> TimedDivision:
    """The division of a chain into a block for each of these PEs whose greatest end time is least. Speeds are whole numbers from 1 to
    1,000,000; the background of a PE is work that it has besides its block, 0 to 2^47, and 0 for all if none is named."""
    refuse_no_list(loads, "loads")
    numbers = frozen(loads, np.uint64, "loads", most=TOTAL_LOAD, copy=False)
    fast, busy = _speeds(speeds), _background(background, speeds)
    cuts, stops = np.empty(len(fast) + 1, np.uint32), np.empty(len(fast) + 1, np.uint32)
    work, speed, count, idle = ctypes.c_uint64(), ctypes.c_uint32(), ctypes.c_size_t(), ctypes.c_uint32()
    hold(library().tezgumi_divide_speeds(
        *lists(numbers, fast, busy), ctypes.addressof(work), ctypes.addressof(speed), *lists(cuts, stops),
        ctypes.addressof(count), ctypes.addressof(idle)))
    return TimedDivision(
        work.value, speed.value, ends(cuts, "cuts"), ends(stops[:count.value], "stops"), None if count.value else idle.value, fast, busy)


def plan_by_speeds(run: Run, speeds: ArrayLike, background: ArrayLike | None = None) -> Plan:
    """The plan by which block b of that division goes to PE b."""
    division = divide_by_speeds(run.loads, speeds, background)
    counts = np.diff(division.cuts)
    places = np.repeat(np.arange(len(counts), dtype=np.uint32), counts)
    sums = running_sums(run.loads)
    heaviest = int((sums[division.cuts[1:]] - sums[division.cuts[:-1]]).max())
    return Plan(len(counts), places, heaviest, total(run.bytes[run.places != places]))


def check_by_speeds(loads: ArrayLike, division: TimedDivision) -> Verdict:
    """What the proved checker says of a division of these loads: true where its time is the greatest end time of a PE and no division
    has a lower one."""
    refuse_no_list(loads, "loads")
    numbers = frozen(loads, np.uint64, "loads", copy=False)
    fast, busy = _speeds(division.speeds), _background(division.background, division.speeds)
    cuts, stops = words(ends(division.cuts, "cuts"), ends(division.stops, "stops"))
    place = ctypes.c_uint32()
    status = library().tezgumi_check_speeds(
        *lists(numbers, fast, busy), division.work, division.speed, *lists(cuts, stops), division.idle or 0, ctypes.addressof(place))
    if status > 0:
        flaw = flaw_of(status)
        return Verdict(flaw, (place.value,) if "{0}" in flaw.meaning else ())
    hold(status)
    return Verdict()


def scale_speeds(sizes: ArrayLike) -> NDArray[np.uint32]:
    """Speeds in proportion to these sizes, which are above 0: the greatest is 1,000,000, the others are rounded to the nearest whole
    number, and to 1 at least. So each is off by half a millionth of the greatest. Zoltan's part sizes are such sizes."""
    refuse_no_list(sizes, "sizes")
    given = np.asarray(sizes)
    if given.ndim != 1 or given.dtype.kind not in "iuf" or not len(given):
        raise InputError("sizes: a list of numbers above 0 is wanted, one for each PE")
    if not np.all(np.isfinite(given)) or not np.all(given > 0):
        raise InputError(f"sizes: each has to be a number above 0, and sizes[{int(np.argmin(np.isfinite(given) & (given > 0)))}] is not")
    exact = [Fraction(it) for it in given.tolist()]
    most = max(exact)
    return frozen([max(1, round(SPEED * it / most)) for it in exact], np.uint32, "sizes")


def taken_speeds(speeds: ArrayLike | None, part_sizes: ArrayLike | None) -> Any:
    """The speeds that a caller names, itself or by sizes of parts; None where it names none."""
    if speeds is not None and part_sizes is not None:
        raise InputError("speeds and part_sizes are two ways to say how fast PEs are: leave one out")
    return speeds if part_sizes is None else scale_speeds(part_sizes)


def _speeds(speeds: ArrayLike) -> NDArray[np.uint32]:
    refuse_no_list(speeds, "speeds")
    if are_floats(speeds):
        raise InputError("speeds are whole numbers; tezgumi.scale_speeds makes some of floats")
    fast = frozen(speeds, np.uint32, "speeds", most=SPEED, copy=False, least=1)
    if not len(fast):
        raise InputError("speeds: there is no PE")
    return fast


def _background(background: ArrayLike | None, speeds: ArrayLike) -> NDArray[np.uint64]:
    count = len(np.asarray(speeds))
    busy = frozen(np.zeros(count, np.uint64) if background is None else background, np.uint64, "background", most=BACKGROUND, copy=False)
    if len(busy) != count:
        raise InputError(f"there are {count} speeds and {len(busy)} numbers of background; a PE has one of each")
    return busy
