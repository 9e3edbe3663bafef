"""What the library refuses, as exceptions."""
from __future__ import annotations

from typing import Dict, Tuple, Type

from .errors import InputError, LoadError, OutOfMemory, TezgumiError

BAD_LOAD = -3
"""The status of loads that add up to 2^63 or more, where all else is in order."""

_FAILURES: Dict[int, Tuple[Type[TezgumiError], str]] = {
    -1: (InputError, "the library refuses the run or the number of PEs"),
    -2: (OutOfMemory, "out of memory"),
    BAD_LOAD: (LoadError, "the library refuses the loads, which add up to too much"),
    -7: (InputError, "the library refuses the tolerance as too great"),
    -13: (InputError, "the library refuses a speed or a background as out of range"),
    -8: (InputError, "a tolerance is for at most 65,536 elements, of less than 2^47 units and at most 1 MiB each, and 256 PEs"),
}


def hold(status: int) -> None:
    """Raises what a status other than 0 stands for."""
    if status != 0:
        kind, text = _FAILURES.get(status, (TezgumiError, f"the library answers the status {status}"))
        raise kind(text)
