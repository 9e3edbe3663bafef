"""Runs from tables: CSV and NPY, with a row for each element: load[,bytes[,place]]."""
from __future__ import annotations

import os
from typing import Any, Mapping

import numpy as np

from .csv_tables import csv_columns
from .errors import InputError, TableError
from .files import Path, read_bytes, told
from .lists import whole_number
from .npy_tables import MAGIC, npy_columns
from .runs import PES, Run


PACKED = {
    b"PK\x03\x04": "it is an archive, as .npz and .xlsx are: save one table as .npy or .csv",
    b"\x1f\x8b": "it is compressed, as .gz is: unpack it first",
}
"""How files begin that have tables in them and are none, and what to do."""


class NoPlaces(InputError):
    """A table without places, where nobody says how many PEs there are."""


def read_table(path: Path, procs: int | None = None, step: int = 0) -> Run:
    """The run of a table in a file, CSV or NPY; `-` is the standard input.

    A row is an element: its load, its bytes, its place. Bytes and places may be left out, as in `Run`. A CSV is text in UTF-8 with
    commas. It may begin with a line of names: load, bytes and place, in any order, beside other columns, which are left aside. Without
    one the columns stand in this order. Empty lines are left out, and so are lines that begin with `#`, unless the one before the first
    element names its columns. An NPY is an array of one dimension, of rows with one to three columns, or of records with these names.

    Loads may be floats, which are counted as in `Run`: the `unit` and `within` of the run say what that may cost. Bytes and places may be
    floats that are whole, as 10.0. `procs` is the number of PEs that the elements are on. Where it is None that is one more than the
    greatest place. TableError tells where the table is wrong, and what is wanted; InputError that no number of PEs is known.
    """
    return table_of(read_bytes(path), procs, step, name=told(path), ending=os.fsdecode(path))


def table_of(
        data: bytes, procs: int | None = None, step: int = 0, spread_over: int | None = None, name: str = "", ending: str = "") -> Run:
    """The run of a table that these bytes are. One without places may be spread over a number of PEs. The name is told of the file, and
    the ending of its path says what it is where its first bytes do not."""
    step = whole_number(step, 0, 2**32 - 1, "step")
    if procs is not None:
        procs = whole_number(procs, 1, PES, "procs")
    try:
        if data.startswith(b"LBD"):
            raise TableError("it is a dump, and a table is wanted: read_dump reads dumps")
        for start, hint in PACKED.items():
            if data.startswith(start):
                raise TableError(hint)
        is_npy = data.startswith(MAGIC) or ending.lower().endswith(".npy")
        columns = npy_columns(data, procs) if is_npy else csv_columns(data, procs)
        return _run_of(columns, procs, step, spread_over)
    except NoPlaces:
        raise NoPlaces(f"{name or 'the table'} has no places, so the number of PEs has to be given: procs, or --procs P") from None
    except InputError as error:
        # All numbers but those of the table were looked at before.
        fault = error.fault if isinstance(error, TableError) else str(error)
        raise TableError(f"{name}: {fault}" if name else fault) from None


def _run_of(columns: Mapping[str, Any], procs: int | None, step: int, spread_over: int | None) -> Run:
    loads, sizes, places = (columns.get(name) for name in ("load", "bytes", "place"))
    if procs is None and places is None:
        if spread_over is None:
            raise NoPlaces
        procs = spread_over
    elif procs is None:
        procs = int(np.max(places, initial=0)) + 1
    return Run(procs, loads, sizes, places, step)
