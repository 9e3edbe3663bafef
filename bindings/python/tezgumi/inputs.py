"""Files of a run: a dump or a table, whichever it is."""
from __future__ import annotations

import os

from .csv_tables import UTF_16, is_csv
from .dumps import MOST_BYTES, Dump, decode
from .errors import DumpError, TableError
from .files import Path, opened, told
from .npy_tables import MAGIC
from .tables import PACKED, table_of

_HEAD = 65_536
_NO_TABLE = "; and it is no table, which begins with a number or with names of columns, among them load"


def read_input(path: Path, spread_over: int | None = None, step: int = 0) -> Dump:
    """The dump, or the run of the table, in a file; `-` is the standard input. A table has this step, and one without places may be
    spread over a number of PEs.

    What a file begins with says what it is: `LBD` a dump, and the first six bytes of an NPY one of those. Else the ending of its name does:
    .csv, .npy, .lbd1, .lbd2. A file of another name is a CSV where it begins like one, and else a dump. DumpError and TableError tell what
    is wrong with it, by its name. No more is read than the longest dump has, and a byte, of what looks like a dump.
    """
    name, ending = told(path), os.path.splitext(os.fsdecode(path))[1].lower()
    is_named_table = ending in (".csv", ".npy")
    try:
        with opened(path) as file:
            data = file.read(_HEAD)
            is_table = _is_table(data, ending)
            data += file.read(-1 if is_table else MOST_BYTES + 1 - len(data))
    except OSError as error:
        raise TableError(f"read failed ({error})") if is_named_table else DumpError("read failed", error) from None
    if is_table:
        return Dump(table_of(data, step=step, spread_over=spread_over, name=name, ending=ending))
    try:
        return decode(data)
    except DumpError as error:
        hint = "" if data.startswith(b"LBD") or ending in (".lbd1", ".lbd2") else _NO_TABLE
        raise DumpError(error.fault, f"{name}{': ' if error.found else ''}{error.found}{hint}") from None


def _is_table(head: bytes, ending: str) -> bool:
    if head.startswith(b"LBD"):
        return False
    # Of what is packed, and of UTF-16, the reader of tables says what to do.
    return head.startswith((MAGIC, *PACKED, *UTF_16)) or ending in (".csv", ".npy") or ending not in (".lbd1", ".lbd2") and is_csv(head)
