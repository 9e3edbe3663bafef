"""The shared library: where it is found, and its calls. tezgumi.h, tezgumi_parts.h, tezgumi_speeds.h and tezgumi_any_order.h in
bindings/c/include say what each owes and answers."""
from __future__ import annotations

import ctypes
import functools
import os
from typing import Any, Dict, List

from numpy.typing import NDArray

from .errors import LibraryError

ABI = 4
"""The number of the interface that these calls are written for."""

_WORD, _LONG, _COUNT, _POINTER, _STATUS = ctypes.c_uint32, ctypes.c_uint64, ctypes.c_size_t, ctypes.c_void_p, ctypes.c_int32
_LIST: List[Any] = [_POINTER, _COUNT]
_RUN = _LIST * 3 + [_WORD, _WORD]
_PLAN = _RUN + _LIST + [_POINTER, _POINTER]
_CALLS: Dict[str, List[Any]] = {
    "tezgumi_plan": _PLAN,
    "tezgumi_decide": _PLAN + _LIST * 2 + [_POINTER] + _LIST * 3,
    "tezgumi_check": _RUN + _LIST + [_LONG, _LONG] + _LIST * 5,
    "tezgumi_refine": _RUN + [_WORD, _WORD] + _LIST + [_POINTER] * 4 + _LIST * 2 + [_POINTER] + _LIST * 9 + [_POINTER],
    "tezgumi_check_refined": _RUN + [_WORD, _WORD] + _LIST + [_LONG] * 3 + _LIST * 11 + [_POINTER] * 2,
    "tezgumi_reorder": _RUN + [_WORD] + _LIST + [_POINTER] * 5 + _LIST * 2 + [_POINTER] + _LIST * 9 + [_POINTER] + _LIST * 3 + [_POINTER],
    "tezgumi_check_reordered": _RUN + [_WORD] + _LIST + [_LONG] * 3 + _LIST * 9 + [_POINTER] * 3,
    "tezgumi_scale": _LIST * 2 + [_POINTER],
    "tezgumi_divide": _LIST + [_WORD, _POINTER] + _LIST * 2 + [_POINTER],
    "tezgumi_divide_speeds": _LIST * 3 + [_POINTER, _POINTER] + _LIST * 2 + [_POINTER, _POINTER],
    "tezgumi_check_speeds": _LIST * 3 + [_LONG, _WORD] + _LIST * 2 + [_WORD, _POINTER],
    "tezgumi_part_bounds": [_LONG, _LONG, _WORD, _POINTER, _POINTER],
    "tezgumi_part_limits": [_LONG, _LONG] + _LIST + [_POINTER],
    "tezgumi_part_walk": _LIST + [_WORD] + _LIST * 3,
    "tezgumi_part_narrow": [_WORD] + _LIST * 2 + [_POINTER, _POINTER],
    "tezgumi_part_ends": _LIST + [_WORD, _WORD, _LONG, _POINTER, _POINTER] + _LIST + [_POINTER],
    "tezgumi_part_merge": _LIST + [_WORD] + _LIST * 4 + [_POINTER],
    "tezgumi_part_loads": _LIST + [_WORD, _WORD] + _LIST * 4,
    "tezgumi_check_division": [_WORD, _WORD, _LONG] + _LIST * 4,
    "tezgumi_part_held": _LIST + [_WORD] + _LIST * 2,
    "tezgumi_name": _LIST + [_WORD] + _LIST * 3 + [_POINTER],
    "tezgumi_check_names": _LIST + [_WORD] + _LIST * 3 + [_LONG],
}
"""The arguments of each call, in the order of its declaration."""
_HELP = "the wheel has it, bindings/build makes it, and TEZGUMI_LIBRARY may name it"


def place() -> str:
    """The library's place: in this package, as a wheel has it; or where TEZGUMI_LIBRARY says; or where bindings/build puts it
    beside a package that lies in a clone; or its name, for the system's loader to look for."""
    here = os.path.dirname(os.path.abspath(__file__))
    packed = os.path.join(here, "libtezgumi.so")
    if os.path.exists(packed):
        return packed
    named = os.environ.get("TEZGUMI_LIBRARY")
    if named:
        return named
    built = os.path.join(os.path.dirname(os.path.dirname(here)), "out", "lib", "libtezgumi.so")
    return built if os.path.exists(built) else f"libtezgumi.so.{ABI}"


@functools.lru_cache(maxsize=None)
def library() -> ctypes.CDLL:
    """The library, loaded at the first call."""
    path = place()
    try:
        found = ctypes.CDLL(path)
        found.tezgumi_abi.restype = _WORD
        abi = found.tezgumi_abi()
        calls = {name: getattr(found, name) for name in _CALLS}
    except (OSError, AttributeError) as error:
        raise LibraryError(f"no libtezgumi ({error}); {_HELP}") from error
    if abi != ABI:
        raise LibraryError(f"{path} has the interface {abi}, and this package is written for {ABI}")
    for name, call in calls.items():
        call.restype, call.argtypes = _STATUS, _CALLS[name]
    return found


def lists(*arrays: NDArray[Any]) -> List[int]:
    """The pointer and the length of each. numpy has a pointer for an array without numbers too, and it is not null."""
    return [part for array in arrays for part in (array.__array_interface__["data"][0], array.size)]
