"""Loads that were measured, in seconds say, as whole numbers of a unit."""
from __future__ import annotations

import ctypes
import math
from typing import Any, NamedTuple

import numpy as np
from numpy.typing import ArrayLike, NDArray

from .errors import InputError, LoadError
from .library import library, lists
from .lists import refuse_no_list, refuse_times, stay_frozen
from .statuses import hold

_WRONG = {-4: "which is not a number", -5: "which is negative", -6: "which is infinite"}


class Scaled(NamedTuple):
    """Loads that were measured, as whole numbers of a unit."""

    counts: NDArray[np.uint64]
    unit: float

    @property
    def within(self) -> float:
        """A unit for each load. Each was rounded down by less than one. So the heaviest block of a division of the counts that is
        least is above that of any other division by no more than this, in what was measured."""
        return len(self.counts) * self.unit


stay_frozen(Scaled)


def scaled(loads: ArrayLike, most: int = 2**32 - 1) -> Scaled:
    """The loads counted in a unit that the library chooses, and the unit: a list or an array of floats or whole numbers from 0 on.

    The unit is the least power of two in which no count has more than 47 bits, or so many fewer, where there are more than 65,536
    loads, that all counts add up to TOTAL_LOAD at most. Each count is rounded down, which is proved; and that no division's
    heaviest block is lighter, in seconds, than that of a least division of the counts by more than as many units as there are
    elements. No more than `most` loads are taken. What is not a number, below 0 or infinite is refused: InputError.
    """
    values = measured(loads)
    if values.size > most:
        raise InputError(f"there are {values.size} elements, and at most {most} are taken")
    counts, unit = np.empty(values.size, np.uint64), ctypes.c_double()
    status = library().tezgumi_scale(*lists(values, counts), ctypes.addressof(unit))
    if status in _WRONG:
        raise _first_wrong(values, status)
    hold(status)
    counts.setflags(write=False)
    return Scaled(counts, unit.value)


def in_units(loads: ArrayLike, unit: float, most: int) -> NDArray[np.uint64]:
    """The loads counted in this unit, each rounded to the nearest count. None may count more than `most`."""
    values = measured(loads)
    for status in _WRONG:
        if _is_wrong(values, status).any():
            raise _first_wrong(values, status)
    with np.errstate(over="ignore"):
        rounded = np.divide(values, unit)
    np.rint(rounded, out=rounded)
    if rounded.size and not rounded.max() < most + 1:
        index = int(np.argmax(~(rounded < most + 1)))
        raise LoadError(f"element {index} has too great a load: {values[index]!s} is more than {most} units of {unit!r}")
    counts = rounded.astype(np.uint64)
    counts.setflags(write=False)
    return counts


def unit_of(value: Any) -> float:
    """The unit as a float, which has to be finite and above 0."""
    try:
        unit = float(value)
    except (TypeError, ValueError):
        raise InputError(f"unit is {value!r}, which is no number") from None
    if not (unit > 0 and math.isfinite(unit)):
        raise InputError(f"unit is {value!r}; it has to be finite and above 0")
    return unit


def measured(loads: ArrayLike) -> NDArray[np.float64]:
    """The numbers as doubles."""
    refuse_no_list(loads, "loads")
    try:
        array = np.asarray(loads)
    except (ValueError, OverflowError) as error:
        raise InputError(f"loads: a list of numbers is wanted ({error})") from None
    refuse_times(array, "loads")
    try:
        values = np.ascontiguousarray(loads, dtype=np.float64)
    except (TypeError, ValueError, OverflowError) as error:
        raise InputError(f"loads: a list of numbers is wanted ({error})") from None
    if np.ndim(loads) != 1:
        raise InputError(f"loads: a list of one dimension is wanted, and not of {np.ndim(loads)}")
    return values


def _is_wrong(values: NDArray[np.float64], status: int) -> NDArray[np.bool_]:
    if status == -4:
        return np.isnan(values)
    return np.less(values, 0) if status == -5 else np.isposinf(values)


def _first_wrong(values: NDArray[np.float64], status: int) -> InputError:
    index = int(np.argmax(_is_wrong(values, status)))
    return InputError(f"element {index} has the load {values[index]!s}, {_WRONG[status]}; scale counts finite loads from 0 on")
