"""Tables in NPY, the files of one array that numpy.save writes: loads, rows of load[,bytes[,place]], or records with these names."""
from __future__ import annotations

import ast
import math
from typing import Any, Dict, Tuple

import numpy as np
from numpy.typing import NDArray

from .csv_tables import COLUMNS, WANTED
from .errors import TableError
from .runs import PES, TOTAL_LOAD

MAGIC = b"\x93NUMPY"
_MOST_HEAD = 65_536


def npy_columns(data: bytes, procs: int | None = None) -> Dict[str, NDArray[Any]]:
    """The columns of a table, by their names. Places are below the number of PEs, where it is known."""
    columns = _columns(_array(data))
    for name, column in columns.items():
        if column.ndim != 1 or column.dtype.kind not in "iuf":
            raise TableError(f"the {name} is of the type {column.dtype}, and numbers are wanted, whole ones or floats")
    kept = {"load": _loads(columns["load"])}
    for name, most in (("bytes", 2**32 - 1), ("place", PES - 1 if procs is None else procs - 1)):
        if name in columns:
            kept[name] = _whole(name, columns[name], most)
    return kept


def _array(data: bytes) -> NDArray[Any]:
    """The array. Its bytes are looked at where they are, and it is known that all of them are there."""
    if not data.startswith(MAGIC):
        raise TableError(f"it begins with {data[:6]!r}, and a file of numpy.save with {MAGIC!r}")
    head, at = _head(data)
    formats: Any = np.lib.format
    try:
        kind: np.dtype[Any] = formats.descr_to_dtype(head["descr"])
    except Exception as error:  # whatever numpy says of a type that is none
        raise TableError(f"no type of numpy: {head['descr']!r:.60} ({error})") from None
    if kind.hasobject or kind.subdtype or not kind.itemsize:
        raise TableError(f"the array is of the type {kind}, and numbers are wanted, whole ones or floats")
    shape = head["shape"]
    count = math.prod(shape)
    if len(data) - at != count * kind.itemsize:
        raise TableError(
            f"there are {len(data) - at} bytes behind the head, and an array of {kind} and the shape {shape} has {count * kind.itemsize}")
    try:
        array: NDArray[Any] = np.frombuffer(data, kind, count, at) if count else np.zeros(0, kind)
        return array.reshape(shape, order="F" if head["fortran_order"] else "C")
    except ValueError as error:
        raise TableError(f"no array has the shape {shape} ({error})") from None


def _head(data: bytes) -> Tuple[Dict[str, Any], int]:
    """The head of the file, a dictionary in the words of Python, and where the array begins."""
    width = {1: 2, 2: 4, 3: 4}.get(data[6] if len(data) > 6 else 0)
    if width is None:
        raise TableError("it is of no version of NPY that is known: 1, 2 or 3")
    at = 8 + width + int.from_bytes(data[8:8 + width], "little")
    if at > len(data) or at > _MOST_HEAD:
        raise TableError(f"its head is to end at byte {at}, and there are {len(data)}")
    try:
        head = ast.literal_eval(data[8 + width:at].decode("utf-8" if data[6] == 3 else "latin1").strip())
    except (ValueError, SyntaxError, TypeError, MemoryError, RecursionError):
        head = None
    if not isinstance(head, dict) or set(head) != {"descr", "fortran_order", "shape"} or not _is_shape(head["shape"]):
        raise TableError("its head is not the type, the order and the shape of an array")
    return head, at


def _is_shape(shape: Any) -> bool:
    return isinstance(shape, tuple) and all(type(size) is int and 0 <= size < 2**63 for size in shape)


def _columns(array: NDArray[Any]) -> Dict[str, NDArray[Any]]:
    if array.dtype.names:
        fields = [name.lower() for name in array.dtype.names]
        if array.ndim != 1 or fields.count("load") != 1 or any(fields.count(name) > 1 for name in COLUMNS):
            raise TableError(
                f"there are records of the fields {', '.join(array.dtype.names)} in the shape {array.shape}, and load is wanted, and "
                "perhaps bytes and place, in one dimension")
        return {name: array[array.dtype.names[fields.index(name)]] for name in COLUMNS if name in fields}
    if array.ndim == 1:
        return {"load": array}
    if array.ndim != 2 or not 1 <= array.shape[1] <= len(COLUMNS):
        raise TableError(f"the array has the shape {array.shape}, and rows of load, bytes and place are wanted")
    return {name: array[:, k] for k, name in enumerate(COLUMNS[:array.shape[1]])}


def _loads(loads: NDArray[Any]) -> NDArray[Any]:
    if loads.dtype.kind == "f":
        # A float that is longer than those of C may be finite, and is none here.
        with np.errstate(over="ignore"):
            loads = loads.astype(np.float64)
        wrong = ~(np.isfinite(loads) & (loads >= 0))
    else:
        wrong = (loads < 0) | (loads > TOTAL_LOAD)
    _refuse("load", loads, wrong, 0)
    return loads


def _whole(name: str, column: NDArray[Any], most: int) -> NDArray[Any]:
    """Bytes or places, which may stand as floats beside loads that are some."""
    if column.dtype.kind != "f":
        _refuse(name, column, (column < 0) | (column > most), most)
        return column
    with np.errstate(over="ignore", invalid="ignore"):
        wide = column.astype(np.float64)
        _refuse(name, wide, ~((wide >= 0) & (wide <= most) & (wide == np.floor(wide))), most)
    return wide.astype(np.int64)


def _refuse(name: str, column: NDArray[Any], wrong: NDArray[np.bool_], most: int) -> None:
    if not wrong.any():
        return
    element = int(np.argmax(wrong))
    there, _, wanted = WANTED[name]
    if name == "load" and column.dtype.kind != "f":
        wanted = f"a whole number from 0 to {TOTAL_LOAD} is wanted"
    raise TableError(f"element {element}: {there.format(column[element])}, and {wanted.format(most=most)}")
