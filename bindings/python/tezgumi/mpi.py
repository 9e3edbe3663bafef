"""Rebalancing of numpy arrays over MPI ranks, by libtezgumi-mpi and mpi4py.

    from mpi4py import MPI
    import tezgumi.mpi

    new = tezgumi.mpi.rebalance(MPI.COMM_WORLD, loads, [positions, names], keep_order=True)
    loads, (positions, names) = new.loads, new.fields

The elements lie along a chain, and each rank holds some consecutive ones: entry k of each of its arrays is its k-th element.
Behind a rebalance each rank holds consecutive elements again, and no other division has a smaller greatest load of a rank.
Unless the ranks are to keep their order, they get their parts so that the fewest bytes move. No rank sees all elements.

- rebalance: decides and moves; decide: decides alone; move: moves arrays by what was decided; report: what a rebalance would give
- Division, what was decided; Rebalanced, what was moved; Report, the figures of either

Each call is made by all ranks of the communicator. Where one rank fails, be it by an array that does not fit or by memory
that it is refused, all ranks raise, and the arrays that were given are as they were: a call writes new arrays alone. The text
of the others names that rank.

The library is looked for where TEZGUMI_MPI_LIBRARY says, then, in a clone, where bindings/build puts it, and then by the
system's loader. It is for one MPI, which has to be that of mpi4py. This module is tested, and not proved; the division is, and
is checked.
"""
from __future__ import annotations

import ctypes
import functools
import os
import sys
import zlib
from dataclasses import dataclass, replace
from typing import Any, Callable, Dict, List, NamedTuple, NoReturn, Sequence, Tuple, Type, TypeVar

import numpy as np
from numpy.typing import ArrayLike, NDArray

try:
    from mpi4py import MPI
except ImportError as error:
    raise ImportError(f"tezgumi.mpi needs mpi4py (python3-mpi4py of Debian), and {sys.executable} has none") from error

from .errors import InputError, LibraryError, LoadError, OutOfMemory, TezgumiError
from .library import ABI
from .lists import frozen, truth, whole_number
from .planning import thousandths
from .runs import ends

ELEMENT_BYTES = 2**30
"""The most bytes that an element may have, its load and all its fields together."""

_Answer = TypeVar("_Answer")
_WORD, _LONG, _SIZE, _POINTER = ctypes.c_uint32, ctypes.c_uint64, ctypes.c_size_t, ctypes.c_void_p
_BAD_INPUT, _NO_MEMORY, _DISAGREE = -1, -2, -12
_FAILURES: Dict[int, Type[TezgumiError]] = {
    _BAD_INPUT: InputError, _NO_MEMORY: OutOfMemory, -3: LoadError, -10: InputError, _DISAGREE: InputError, -14: LibraryError}
_HELP = "bindings/build makes it where mpicc is, and TEZGUMI_MPI_LIBRARY may name it"


class _Options(ctypes.Structure):
    _fields_ = [
        ("tolerance", ctypes.c_double), ("room", _SIZE), ("skip_check", ctypes.c_int), ("refine", ctypes.c_int),
        ("keep_order", ctypes.c_int)]


class _Part(ctypes.Structure):
    _fields_ = [("loads", _POINTER), ("bytes", _POINTER), ("first", _WORD), ("count", _WORD)]


class _Layout(ctypes.Structure):
    _fields_ = [
        ("n", _WORD), ("ranks", _WORD), ("firsts", _POINTER), ("counts", _POINTER), ("cuts", _POINTER), ("names", _POINTER),
        ("sent", _POINTER), ("received", _POINTER), ("move", _LONG), ("room", _POINTER)]


class _Field(ctypes.Structure):
    _fields_ = [
        ("before", _POINTER), ("after", _POINTER), ("stride_before", _SIZE), ("stride_after", _SIZE), ("bytes", _SIZE)]


class _Report(ctypes.Structure):
    _fields_ = [
        ("max_load_before", _LONG), ("max_load_after", _LONG), ("average_load", ctypes.c_double), ("bytes_moved", _LONG),
        ("elements_moved", _WORD), ("exchanges", _WORD), ("failed_rank", ctypes.c_int), ("failed_at", _WORD),
        *((f"{name}_seconds", ctypes.c_double) for name in ("gather", "plan", "check", "agree", "move", "walk", "name")),
        ("gathered", _WORD), ("passes", _WORD), ("retries", _WORD), ("failed_rule", ctypes.c_int)]


@dataclass(frozen=True)
class Report:
    """The figures of a decision or a move: of all ranks together, and the same on all."""

    max_load_before: int
    """The load of the heaviest rank, before,"""
    max_load_after: int
    """and by the decision."""
    average_load: float
    """The load of all elements, over the number of ranks."""
    bytes_moved: int
    elements_moved: int
    exchanges: int
    """Exchanges of the move, 0 where nothing was moved yet."""


@dataclass(frozen=True)
class Division:
    """What was decided, the same on all ranks but for `first` and `end`.

    Rank r holds the elements firsts[r] .. firsts[r] + counts[r] - 1. Block b is the elements cuts[b] .. cuts[b + 1] - 1, and
    goes to rank names[b].
    """

    elements: int
    firsts: NDArray[np.uint32]
    counts: NDArray[np.uint32]
    cuts: NDArray[np.int64]
    names: NDArray[np.uint32]
    first: int
    """This rank is to hold the elements first,"""
    end: int
    """to end - 1."""
    report: Report


class Rebalanced(NamedTuple):
    """The arrays of the elements that this rank holds now."""

    loads: NDArray[Any]
    fields: Tuple[NDArray[Any], ...]
    first: int
    """The number of the first of them along the chain, for the next call."""
    report: Report


def place() -> str:
    """The library's place: where TEZGUMI_MPI_LIBRARY says; or where bindings/build puts it beside a package that lies in a clone;
    or its name, for the system's loader to look for."""
    named = os.environ.get("TEZGUMI_MPI_LIBRARY")
    if named:
        return named
    packages = os.path.dirname(os.path.dirname(os.path.abspath(__file__)))
    built = os.path.join(os.path.dirname(packages), "out", "lib", "libtezgumi-mpi.so")
    return built if os.path.exists(built) else f"libtezgumi-mpi.so.{ABI}"


@functools.lru_cache(maxsize=None)
def library() -> ctypes.CDLL:
    """The library, loaded at the first call."""
    try:
        found = ctypes.CDLL(place())
        calls = found.tezgumi_mpi_decide_part, found.tezgumi_mpi_move_arrays
        found.tezgumi_mpi_status_name.restype = found.tezgumi_mpi_rule_name.restype = ctypes.c_char_p
        found.tezgumi_mpi_layout_free.restype = None
        theirs = _mpi_of(found)
    except (OSError, AttributeError) as error:
        raise LibraryError(f"no libtezgumi-mpi ({error}); {_HELP}") from error
    if theirs != MPI.Get_library_version().rstrip("\0"):
        raise LibraryError(f"{place()} is for another MPI ({theirs}) than mpi4py; mpi/build makes it again")
    for call in calls:
        call.restype = ctypes.c_int
    return found


def decide(
        comm: MPI.Intracomm, loads: ArrayLike, sizes: ArrayLike | int, tolerance: float = 0, keep_order: bool = False,
        first: int | None = None, refine: bool = False) -> Division:
    """Where all elements are to be. `loads` has the load of each element that this rank holds, whole numbers that add up to less
    than 2^63 on all ranks, and `sizes` the bytes of each, or of every one, which is what moving it costs.

    `first` is the number of this rank's first element along the chain, given on all ranks or on none. Without it the ranks
    hold the chain in their own order, as keep_order=True leaves it.

    Nothing is to move where the heaviest rank has at most so many thousandths more than the least possible load, `tolerance`,
    and, with keep_order, the ranks hold the chain in their own order. With keep_order rank 0 gets the first block, and so on;
    without it the ranks get their blocks so that the fewest bytes move. With refine, which needs keep_order, the fewest bytes
    move that the tolerance lets, where the ranks hold the chain in their own order.
    """
    def prepare() -> _Asked:
        numbers = _loads(loads)
        return _Asked(numbers, _sizes(sizes, len(numbers)), _options(tolerance, keep_order, refine), _given_first(first))

    def has_first(it: _Asked) -> int:
        return int(it.first >= 0)

    found = _together(comm, library)
    it = _together(comm, prepare, has_first)
    begin = it.first if it.first >= 0 else _before(comm, len(it.loads))
    part = _Part(_address(it.loads), _address(it.sizes), begin, len(it.loads))
    layout, figures = _Layout(), _Report()
    try:
        _hold(found.tezgumi_mpi_decide_part(
            _handle(comm), ctypes.byref(part), ctypes.byref(it.options), ctypes.byref(layout), ctypes.byref(figures)), figures)
        return _together(comm, lambda: _division(comm, layout, figures))
    finally:
        found.tezgumi_mpi_layout_free(ctypes.byref(layout))


def move(comm: MPI.Intracomm, division: Division, fields: Sequence[ArrayLike], room: int = 0) -> Tuple[NDArray[Any], ...]:
    """New arrays of the elements that this rank is to hold, from those of the elements that it holds.

    The first axis of each array is the elements. Types and the other axes are the same on all ranks, also where a rank has no
    elements. Elements are sent in exchanges of at most `room` bytes from a rank and to a rank, 64 MiB if that is 0. More arrays
    may be moved by the same division, and the division may come from another partitioner.
    """
    return _move(comm, division, fields, room)[0]


def rebalance(
        comm: MPI.Intracomm, loads: ArrayLike, fields: Sequence[ArrayLike], tolerance: float = 0, keep_order: bool = False,
        first: int | None = None, room: int = 0, refine: bool = False) -> Rebalanced:
    """Decides, by `decide`, and moves the loads and the fields, by `move`. Give the `first` of what it returns to the next call,
    or keep the order. What moving an element costs is the bytes of its load and of all its fields. Where nothing is to move the
    arrays are copies too."""
    arrays = _together(comm, lambda: _given(loads, fields), _print_of)
    division = decide(comm, arrays[0], sum(map(_row_bytes, arrays)), tolerance, keep_order, first, refine)
    (new_loads, *new_fields), exchanges = _move(comm, division, arrays, room)
    return Rebalanced(new_loads, tuple(new_fields), division.first, replace(division.report, exchanges=exchanges))


def report(
        comm: MPI.Intracomm, loads: ArrayLike, sizes: ArrayLike | int = 0, tolerance: float = 0, keep_order: bool = False,
        first: int | None = None, refine: bool = False) -> Report:
    """What a rebalance would give: the greatest load now and then, and how much would move. Nothing moves."""
    return decide(comm, loads, sizes, tolerance, keep_order, first, refine).report


# What is given


class _Asked(NamedTuple):
    """What a decision is asked for; the first element is -1 where it is not given."""

    loads: NDArray[np.uint64]
    sizes: NDArray[np.uint32]
    options: _Options
    first: int


def _loads(loads: ArrayLike) -> NDArray[np.uint64]:
    return frozen(loads, np.uint64, "loads", most=2**63 - 1, copy=False)


def _sizes(sizes: ArrayLike | int, count: int) -> NDArray[np.uint32]:
    if np.ndim(sizes) == 0:
        return np.full(count, whole_number(sizes, 0, ELEMENT_BYTES, "sizes"), np.uint32)
    each = frozen(sizes, np.uint32, "sizes", most=ELEMENT_BYTES, copy=False)
    if len(each) != count:
        raise InputError(f"there are {count} loads and {len(each)} sizes")
    return each


def _options(tolerance: float, keep_order: bool, refine: bool = False, room: int = 0) -> _Options:
    within = thousandths(tolerance) / 1000
    keeps, refines = truth(keep_order, "keep_order"), truth(refine, "refine")
    if refines and not keeps:
        raise InputError("refine needs keep_order")
    return _Options(within, whole_number(room, 0, 2**63, "room"), 0, refines, keeps)


def _given_first(first: int | None) -> int:
    return -1 if first is None else whole_number(first, 0, 2**32 - 1, "first")


def _before(comm: MPI.Intracomm, count: int) -> int:
    """How many elements the ranks before this one hold; at most 2^32 - 1, as what is past it is refused."""
    before = comm.exscan(count)
    return min(before or 0, 2**32 - 1)


def _names(fields: Sequence[Any]) -> List[str]:
    return [f"fields[{k}]" for k in range(len(fields))]


def _given(loads: ArrayLike, fields: Sequence[ArrayLike]) -> List[NDArray[Any]]:
    """The loads, which are numbers that `decide` takes, and the fields."""
    return _arrays(["loads", *_names(fields)], [loads, *fields], len(_loads(loads)))


def _arrays(names: Sequence[str], fields: Sequence[ArrayLike], count: int) -> List[NDArray[Any]]:
    return [_array(field, name, count) for name, field in zip(names, fields)]


def _array(field: ArrayLike, name: str, count: int) -> NDArray[Any]:
    """The field as an array of so many elements, the bytes of each one behind the other. What has them so is not copied."""
    array = np.asarray(field)
    if array.ndim == 0 or len(array) != count:
        raise InputError(f"{name} has the shape {array.shape}, and this rank has {count} elements")
    if array.dtype.hasobject:
        raise InputError(f"{name} has objects of Python, of which only this rank knows where they are")
    if count > 0 and not (array[:1].flags.c_contiguous and (count == 1 or array.strides[0] >= _row_bytes(array))):
        return np.ascontiguousarray(array)
    return array


def _row_bytes(array: NDArray[Any]) -> int:
    """The bytes of an element."""
    return array.dtype.itemsize * int(np.prod(array.shape[1:], dtype=np.int64))


def _print_of(arrays: List[NDArray[Any]]) -> int:
    """A fingerprint of what all ranks have to have in common."""
    return zlib.crc32(repr([(array.dtype.descr, array.shape[1:]) for array in arrays]).encode())


# What the library is given, and answers


def _division(comm: MPI.Intracomm, layout: _Layout, figures: _Report) -> Division:
    ranks = layout.ranks
    cuts, names = _words(layout.cuts, ranks + 1), _words(layout.names, ranks)
    own = int(np.flatnonzero(names == comm.Get_rank())[0])
    made = Report(*(getattr(figures, name) for name in Report.__dataclass_fields__))
    firsts, counts = _words(layout.firsts, ranks), _words(layout.counts, ranks)
    return Division(layout.n, firsts, counts, ends(cuts, "cuts"), names, int(cuts[own]), int(cuts[own + 1]), made)


def _words(pointer: int, count: int) -> NDArray[np.uint32]:
    array: NDArray[np.uint32] = np.ctypeslib.as_array((_WORD * count).from_address(pointer)).copy()
    array.setflags(write=False)
    return array


def _layout_of(comm: MPI.Intracomm, division: Division) -> Tuple[_Layout, NDArray[np.uint32]]:
    """The layout before the move, and the numbers that it is in, which it does not own."""
    d, ranks = division, comm.Get_size()
    lists: List[NDArray[Any]] = [d.firsts, d.counts, d.cuts, d.names]
    if [len(numbers) for numbers in lists] != [ranks, ranks, ranks + 1, ranks]:
        raise InputError(f"the division is for {len(d.names)} ranks, or its lists do not fit each other; there are {ranks}")
    zeros = np.zeros(ranks, np.uint32)
    words = np.concatenate([frozen(numbers, np.uint32, "division", copy=False) for numbers in lists] + [zeros, zeros])
    at = np.cumsum([0, ranks, ranks, ranks + 1, ranks, ranks]) * words.itemsize + _address(words)
    return _Layout(whole_number(d.elements, 0, 2**32 - 1, "elements"), ranks, *map(int, at), 0, _address(words)), words


def _own_block(comm: MPI.Intracomm, division: Division) -> int:
    """The elements that this rank is to hold; the library refuses a division in which they are none of its."""
    own = np.flatnonzero(division.names == comm.Get_rank())
    return max(int(division.cuts[own[0] + 1]) - int(division.cuts[own[0]]), 0) if len(own) else 0


class _Move(NamedTuple):
    """What a move needs, all memory of Python's included."""

    layout: _Layout
    words: NDArray[np.uint32]
    old: List[NDArray[Any]]
    new: Tuple[NDArray[Any], ...]
    fields: Any
    options: _Options


def _prepared(comm: MPI.Intracomm, division: Division, fields: Sequence[ArrayLike], room: int) -> _Move:
    layout, words = _layout_of(comm, division)
    old = _arrays(_names(fields), fields, int(division.counts[comm.Get_rank()]))
    count = _own_block(comm, division)
    new = tuple(np.empty((count, *array.shape[1:]), array.dtype) for array in old)
    return _Move(layout, words, old, new, (_Field * len(old))(*map(_field, old, new)), _options(0, False, room=room))


def _move(comm: MPI.Intracomm, division: Division, fields: Sequence[ArrayLike], room: int) -> Tuple[Tuple[NDArray[Any], ...], int]:
    """The new arrays, and how many exchanges there were."""
    def prepare() -> _Move:
        return _prepared(comm, division, fields, room)

    def print_of(it: _Move) -> int:
        return _print_of(it.old)

    found = _together(comm, library)
    it = _together(comm, prepare, print_of)
    figures = _Report()
    status = found.tezgumi_mpi_move_arrays(
        _handle(comm), ctypes.byref(it.layout), it.fields, len(it.old), ctypes.byref(it.options), ctypes.byref(figures))
    _hold(status, figures)
    return it.new, figures.exchanges


def _field(old: NDArray[Any], new: NDArray[Any]) -> _Field:
    size = _row_bytes(old)
    stride = old.strides[0] if len(old) > 1 else size
    return _Field(_address(old), _address(new), stride, size, size)


def _address(array: NDArray[Any]) -> int:
    return int(array.__array_interface__["data"][0])


def _handle(comm: MPI.Intracomm) -> Any:
    """The communicator, as C knows it: a number for one MPI, and a pointer for another."""
    kind = ctypes.c_int if MPI._sizeof(MPI.Comm) == ctypes.sizeof(ctypes.c_int) else ctypes.c_void_p
    return kind.from_address(MPI._addressof(comm))


def _mpi_of(found: ctypes.CDLL) -> str:
    """The version of the MPI that the library calls."""
    text, length = ctypes.create_string_buffer(8192), ctypes.c_int()
    found.MPI_Get_library_version(text, ctypes.byref(length))
    return text.value.decode(errors="replace")


# How the ranks fail together


def _together(comm: MPI.Intracomm, work: Callable[[], _Answer], common: Callable[[_Answer], int] = lambda _: 0) -> _Answer:
    """What `work` answers, where it does so on all ranks, and what is common is the same on all. Otherwise all raise."""
    if comm.Is_inter():
        raise InputError("the communicator has two groups of ranks")
    mine, least = np.zeros(3, np.int64), np.zeros(3, np.int64)
    answer: List[_Answer] = []
    caught: Exception | None = None
    try:
        answer.append(work())
        mine[1] = common(answer[0])
        mine[2] = -mine[1]
    except Exception as error:
        caught = error
        mine[0] = -((2 if isinstance(error, MemoryError) else 1) << 32 | comm.Get_rank())
    comm.Allreduce(mine, least, MPI.MIN)
    if caught is not None:
        raise _own(caught) from caught
    if least[0] < 0:
        _refuse(-(-int(least[0]) >> 32), -int(least[0]) & 0xFFFFFFFF)
    if least[1] != -least[2]:
        raise InputError("the ranks have arrays of different types, or axes, or only some of them are given `first`")
    return answer[0]


def _own(caught: Exception) -> Exception:
    if isinstance(caught, MemoryError) and not isinstance(caught, OutOfMemory):
        return OutOfMemory(f"out of memory ({caught})")
    return caught


def _refuse(status: int, rank: int) -> NoReturn:
    raise _FAILURES[status](f"rank {rank} {'is out of memory' if status == _NO_MEMORY else 'refuses what it was given'}")


def _hold(status: int, figures: _Report) -> None:
    """Raises what a status of the library other than 0 stands for."""
    if status != 0:
        text = library().tezgumi_mpi_status_name(status).decode()
        if figures.failed_rule:
            text += f": {library().tezgumi_mpi_rule_name(figures.failed_rule).decode()}"
        where = f" (rank {figures.failed_rank}, element {figures.failed_at})" if figures.failed_rank >= 0 else ""
        raise _FAILURES.get(status, TezgumiError)(text + where)
