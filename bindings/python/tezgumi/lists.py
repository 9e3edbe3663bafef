"""Lists of whole numbers: taken from numpy arrays, plain lists and what else numpy reads (a series of pandas, or what has a
buffer, as array.array and memoryview), tested, and kept as arrays that nobody writes to."""
from __future__ import annotations

import copyreg
import operator
from collections import abc
from typing import Any, Callable, Iterable, Iterator, Tuple, Type, TypeVar

import numpy as np
from numpy.typing import ArrayLike, NDArray

from .errors import InputError

_Whole = TypeVar("_Whole", bound="np.integer[Any]")
_Refuser = Callable[[int, Any], InputError]
_FEW = 2**20


def frozen(
        values: ArrayLike, kind: Type[_Whole], name: str, refuse: _Refuser | None = None, most: int | None = None,
        copy: bool = True, least: int | None = None) -> NDArray[_Whole]:
    """The numbers as an array of this type that cannot be written to, each from `least` to `most`, or to the ends of the type.

    Nothing is rounded or wrapped. The first number that does not fit is handed to `refuse` with its index, which answers
    the exception. Without `copy` an array or a buffer that has the type, or the signed or unsigned one of the same size, is
    not copied, and its owner can still write to it.
    """
    limits = np.iinfo(kind)
    most = int(limits.max) if most is None else most
    return _kept(whole(values, name, int(limits.min) if least is None else least, most, refuse), kind, copy)


def as_they_lie(values: ArrayLike) -> NDArray[np.uint64] | None:
    """The numbers of an array or a buffer of whole numbers of 64 bits, one behind the other, none of which has been looked at: one
    below 0 is above 2^63 here. None where the values are anything else."""
    if not _has_a_type(values) or isinstance(values, np.ma.MaskedArray):
        return None
    array = np.asarray(values)
    if array.ndim != 1 or array.dtype.kind not in "iu" or array.dtype.itemsize != 8 or not _is_flat(array):
        return None
    seen = array.view(np.uint64)
    seen.setflags(write=False)
    return seen


def refuse_no_list(values: Any, name: str) -> None:
    """Raises InputError for what numpy would not read as a list of numbers, though it looks like one."""
    if isinstance(values, np.ma.MaskedArray):
        raise InputError(f"{name}: a masked array is not taken, as its mask would be lost; filled(0) or compressed() makes an array")
    if values is None or isinstance(values, (str, bytes, abc.Iterator, abc.Set, abc.Mapping, abc.MappingView)):
        kind = "None" if values is None else f"a {type(values).__name__}"
        hint = ": list(..) makes one" if isinstance(values, (abc.Iterator, abc.MappingView)) else ""
        hint = ": list(it.values()) makes one of its values" if isinstance(values, abc.Mapping) else hint
        raise InputError(f"{name}: a list or an array of numbers is wanted, and not {kind}{hint}")


def refuse_times(array: NDArray[Any], name: str) -> None:
    """Raises InputError for an array of times, which are no numbers."""
    if array.dtype.kind in "mM":
        hint = "; divide it by np.timedelta64(1, 's') for seconds" if array.dtype.kind == "m" else ""
        raise InputError(f"{name}: a list or an array of numbers is wanted, and not one of {array.dtype}{hint}")


def are_floats(values: Any) -> bool:
    """Whether these numbers were measured: an array or a buffer of floats, or a list with a float in it, which numpy reads as floats.
    A list of whole numbers is none, though numpy makes floats of very great ones."""
    try:
        array = np.asarray(values)
    except (ValueError, OverflowError):
        return False
    return array.dtype.kind == "f" and (_has_a_type(values) or any(isinstance(it, (float, np.floating)) for it in _flat(values)))


def _flat(values: Any) -> Iterator[Any]:
    # Lists in a list, which are refused later, are looked into.
    for it in values if isinstance(values, abc.Iterable) else ():
        if isinstance(it, (list, tuple)):
            yield from _flat(it)
        else:
            yield it


def whole(values: ArrayLike, name: str, least: int, most: int, refuse: _Refuser | None = None) -> NDArray[Any]:
    """The numbers as an array of whole numbers of some type, each from least to most. An array that is one is not copied."""
    refuse = refuse or _refuser(name, least, most)
    array = _array(values, name)
    if array.size and array.dtype.kind not in "iu":
        array = _one_by_one(values, array, least, most, refuse)
    if array.size:
        _refuse_outside(array, least, most, refuse)
    return array


def whole_number(value: Any, least: int, most: int, name: str) -> int:
    """The number as an int, from least to most."""
    try:
        number = operator.index(value)
    except TypeError:
        raise InputError(f"{name} is {value!r}, which is no whole number") from None
    if isinstance(value, (bool, np.bool_)) or not least <= number <= most:
        raise InputError(f"{name} is {value!r}; it has to be {least} to {most}")
    return number


def truth(value: Any, name: str) -> bool:
    """The value as a bool, which it has to be."""
    if not isinstance(value, (bool, np.bool_)):
        raise InputError(f"{name} is {value!r}; it has to be True or False")
    return bool(value)


def total(numbers: NDArray[Any]) -> int:
    """The sum of whole numbers from 0 on, exact. No list of all of them is made."""
    if len(numbers) * int(numbers.max(initial=0)) < 2**64:
        return int(numbers.sum(dtype=np.uint64))
    return sum(_total_of(numbers[k]) for k in slices(len(numbers)))


def slices(count: int) -> Iterator[slice]:
    """All of so many places, in order and a few at a time, for work that makes lists of its own."""
    return (slice(first, min(first + _FEW, count)) for first in range(0, count, _FEW))


def shown(array: NDArray[Any], ends: int = 3) -> str:
    """The numbers in a line: all of a short list, the first and last ones of a long one."""
    if array.size <= 2 * ends + 2:
        return "[" + " ".join(map(str, array.tolist())) + "]"
    first, last = (" ".join(map(str, part.tolist())) for part in (array[:ends], array[-ends:]))
    return f"[{first} .. {last}]"


def stay_frozen(*kinds: Type[Any]) -> None:
    """Makes tuples of these kinds such that nobody can write to their arrays after they were pickled, or copied as deep, either."""
    for kind in kinds:
        copyreg.pickle(kind, _reduced)


def _reduced(it: Any) -> Tuple[Callable[..., Any], Tuple[Any, ...], Any]:
    return _made_again, (type(it), *it), getattr(it, "__dict__", None) or None


def _made_again(kind: Type[Any], *fields: Any) -> Any:
    for field in fields:
        if isinstance(field, np.ndarray):
            field.setflags(write=False)
    return kind(*fields)


def same_fields(one: object, other: object, fields: Iterable[str]) -> bool:
    """Whether these fields of two objects hold the same numbers."""
    return all(np.array_equal(getattr(one, name), getattr(other, name)) for name in fields)


def _total_of(few: NDArray[Any]) -> int:
    low, high = few & np.uint64(2**32 - 1), few >> np.uint64(32)
    return int(low.sum(dtype=np.uint64)) + (int(high.sum(dtype=np.uint64)) << 32)


def _array(values: ArrayLike, name: str) -> NDArray[Any]:
    refuse_no_list(values, name)
    try:
        array = np.asarray(values)
    except (ValueError, OverflowError) as error:
        raise InputError(f"{name}: a list of whole numbers is wanted ({error})") from None
    refuse_times(array, name)
    if array.ndim != 1:
        raise InputError(f"{name}: a list of one dimension is wanted, and not of {array.ndim}")
    return array


def _refuser(name: str, least: int, most: int) -> _Refuser:
    def refusal(index: int, value: Any) -> InputError:
        is_load = name == "loads" or name.startswith("parts[")
        hint = "; tezgumi.scaled counts floats" if is_load and isinstance(value, float) else ""
        return InputError(f"{name}[{index}] is {value!r}; it has to be a whole number from {least} to {most}{hint}")

    return refusal


def _one_by_one(values: Any, array: NDArray[Any], least: int, most: int, refuse: _Refuser) -> NDArray[Any]:
    # numpy has no type of whole numbers for them: there is a float among them, a number past 64 bits, or another thing.
    numbers = array if _has_a_type(values) else values
    if numbers is array and array.dtype.kind != "O":
        # All are of one type, floats say, which nobody need go through to find the first.
        raise refuse(0, array[:1].tolist()[0])
    for index, number in enumerate(numbers):
        if isinstance(number, np.integer):
            number = int(number)
        if isinstance(number, bool) or not isinstance(number, int) or not least <= number <= most:
            raise refuse(index, number)
    return np.array(numbers, dtype=np.uint64 if least == 0 else np.int64)


def _has_a_type(values: Any) -> bool:
    """Whether the numbers are those of an array or a buffer, and not each of a type of its own, as in a list."""
    if hasattr(values, "__array__"):
        return True
    try:
        memoryview(values).release()
    except TypeError:
        return False
    return True


def _refuse_outside(array: NDArray[Any], least: int, most: int, refuse: _Refuser) -> None:
    if array.dtype.kind == "i" and least == 0:
        # A number below 0 is a very great one of the unsigned type of the same size: so one pass tells both.
        if int(array.view(array.dtype.str.replace("i", "u")).max()) <= min(most, np.iinfo(array.dtype).max):
            return
    elif int(array.max()) <= most and (array.dtype.kind == "u" or int(array.min()) >= least):
        return
    # Where some number is outside, the type of the array holds that number, and the limit beside it.
    outside = array > most if int(array.max()) > most else array < least
    index = int(np.argmax(outside))
    raise refuse(index, int(array[index]))


def _is_flat(array: NDArray[Any]) -> bool:
    return bool(array.dtype.isnative and array.flags.c_contiguous and array.flags.aligned)


def _kept(array: NDArray[Any], kind: Type[_Whole], copy: bool) -> NDArray[_Whole]:
    flat = _is_flat(array)
    if array.dtype == kind and flat and array.flags.owndata and not array.flags.writeable:
        return array
    # A number that fits both the signed and the unsigned type of a size has the same bits in each.
    fits = flat and array.dtype.kind in "iu" and array.dtype.itemsize == np.dtype(kind).itemsize
    kept = array.view(kind) if fits and not copy else np.array(array, dtype=kind)
    kept.setflags(write=False)
    return kept
