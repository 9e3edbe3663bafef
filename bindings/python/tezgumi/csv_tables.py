"""Tables in CSV: a line for each element, load[,bytes[,place]], perhaps behind a line of names."""
from __future__ import annotations

import csv
import io
import math
import re
from typing import Any, Dict, Iterator, List, Sequence, Tuple

from .errors import TableError
from .runs import PES, TOTAL_LOAD

COLUMNS = ("load", "bytes", "place")
"""The columns of a table, in the order in which those without names stand. All but the first may be left out."""
WANTED = {
    "load": ("the load is {}", "there is no load", "a finite number from 0 on is wanted"),
    "bytes": ("the bytes are {}", "there are no bytes", f"a whole number from 0 to {2**32 - 1} is wanted"),
    "place": ("the place is {}", "there is no place", "a whole number from 0 to {most} is wanted"),
}
"""Of each column what is told of a value, what where there is none, and what is wanted."""
UTF_16 = (b"\xff\xfe", b"\xfe\xff")
"""How texts begin that are no UTF-8."""
_NUMBER = re.compile(r"[+-]?([0-9]+(\.[0-9]*)?|\.[0-9]+)([eE][+-]?[0-9]+)?")
_DIGITS = 400
_COMMAS = "; columns are separated by commas"


def csv_columns(data: bytes, procs: int | None = None) -> Dict[str, List[Any]]:
    """The columns of a table, by their names. Places are below the number of PEs, where it is known."""
    lines = _Lines(_text(data))
    rows = _rows(lines)
    names, first = _head(lines, next(rows, None))
    columns: Dict[str, List[Any]] = {name: [] for name in names if name in COLUMNS}
    taken = [(k, name, columns[name]) for k, name in enumerate(names) if name in COLUMNS]
    greatest = _Greatest()
    most = {"bytes": 2**32 - 1, "place": PES - 1 if procs is None else procs - 1}
    for line, cells in _with_first(first, rows):
        if len(cells) != len(names):
            raise TableError(_ragged(line, cells, names))
        for k, name, values in taken:
            cell = cells[k].strip()
            value = _load(cell) if name == "load" else _whole(cell, most[name])
            if value is None:
                raise TableError(_wrong(line, k, name, cell, most.get(name, 0)))
            if name == "load" and type(value) is int and value > TOTAL_LOAD:
                greatest.note(line, k, cell)
            values.append(value)
    columns["load"] = greatest.settled(columns["load"])
    return columns


def is_csv(head: bytes) -> bool:
    """Whether bytes with this beginning look like a table in CSV: the first line that is no comment begins with a number, or names
    columns, among them load."""
    try:
        line, cells = next(_rows(_Lines(head.decode("utf-8-sig", "replace").replace("\0", "\ufffd"))))
    except (StopIteration, TableError):
        return False
    return "load" in _names(cells) or number_of(cells[0].strip()) is not None


def number_of(word: str) -> Any:
    """A whole number as it is, however great, and else a float; None for what is neither, and for what is no finite number."""
    if not _NUMBER.fullmatch(word):
        return None
    if word.lstrip("+-").isdigit() and len(word) <= _DIGITS:
        return int(word)
    value = float(word)
    return value if math.isfinite(value) else None


class _Greatest:
    """The first whole load that is above what the loads of a run may be together. It is wrong unless floats stand beside it."""

    def __init__(self) -> None:
        self.found: Tuple[int, int, str] | None = None

    def note(self, line: int, k: int, cell: str) -> None:
        self.found = self.found or (line, k, cell)

    def settled(self, loads: List[Any]) -> List[Any]:
        if self.found is None:
            return loads
        line, k, cell = self.found
        if not any(type(load) is float for load in loads):
            raise TableError(f"line {line}, column {k + 1}: the load is {_shown(cell)}, and at most {TOTAL_LOAD} is taken")
        try:
            return [float(load) for load in loads]
        except OverflowError:
            raise TableError(f"line {line}, column {k + 1}: the load is {_shown(cell)}, which is too great for a float") from None


class _Lines:
    """The lines of a text. A comment, a line that begins with `#`, is handed on as an empty line, and the last one is kept."""

    def __init__(self, text: str) -> None:
        self.text = text
        self.comment, self.comment_line = "", 0

    def __iter__(self) -> Iterator[str]:
        for number, line in enumerate(io.StringIO(self.text, newline=None), 1):
            if line.lstrip().startswith("#"):
                self.comment, self.comment_line, line = line.lstrip().lstrip("#").strip(), number, "\n"
            yield line


def _text(data: bytes) -> str:
    if data.startswith(UTF_16):
        raise TableError("the text is UTF-16, and UTF-8 is wanted: save it as CSV in UTF-8")
    try:
        text = data.decode("utf-8-sig")
    except UnicodeDecodeError as error:
        line = data.count(b"\n", 0, error.start) + 1
        raise TableError(f"line {line} has the byte {data[error.start]:#04x} at byte {error.start}, and a text in UTF-8 is wanted") from None
    if "\0" in text:
        raise TableError(f"line {text.count(chr(10), 0, text.index(chr(0))) + 1} has a NUL byte, and a text in UTF-8 is wanted")
    return text


def _rows(lines: _Lines) -> Iterator[Tuple[int, List[str]]]:
    """The cells of each line that is not empty, with the number of the line, from 1."""
    reader = csv.reader(iter(lines), skipinitialspace=True, strict=True)
    while True:
        line = reader.line_num + 1
        try:
            cells = next(reader)
        except StopIteration:
            return
        except csv.Error as error:
            raise TableError(f"line {line} is no line of CSV ({error})") from None
        if len(cells) > 1 or cells and cells[0].strip():
            yield line, cells


def _names(cells: Sequence[str]) -> List[str]:
    return [cell.strip().lower() for cell in cells]


def _head(lines: _Lines, row: Tuple[int, List[str]] | None) -> Tuple[List[str], Tuple[int, List[str]] | None]:
    """The names of the columns, and the first row, unless that is the names themselves."""
    if row is None:
        raise TableError("there is no line of numbers or of names")
    line, cells = row
    names = _names(cells)
    if "load" in names:
        return _once(names, line), None
    if not any(_NUMBER.fullmatch(name) for name in names):
        words = re.split(r"[;\t ]+", ",".join(names))
        hint = _COMMAS if "load" in words or all(number_of(word) is not None for word in words) else ""
        raise TableError(f"line {line} is {_shown(','.join(cells))}, and numbers are wanted, or names of columns, among them load{hint}")
    told = _names(lines.comment.split(","))
    if "load" in told and len(told) == len(cells):
        return _once(told, lines.comment_line), row
    if len(cells) > len(COLUMNS):
        raise TableError(f"line {line} has {len(cells)} columns without names, and at most load, bytes and place are taken")
    return list(COLUMNS[:len(cells)]), row


def _once(names: List[str], line: int) -> List[str]:
    twice = [name for name in COLUMNS if names.count(name) > 1]
    if twice:
        raise TableError(f"line {line} names two columns {twice[0]}")
    return names


def _with_first(first: Tuple[int, List[str]] | None, rows: Iterator[Tuple[int, List[str]]]) -> Iterator[Tuple[int, List[str]]]:
    if first is not None:
        yield first
    yield from rows


def _load(cell: str) -> Any:
    value = number_of(cell)
    return None if value is None or value < 0 else value


def _whole(cell: str, most: int) -> int | None:
    # Programs that know no whole numbers write 10 as 10.0 or 1e1.
    value = number_of(cell)
    if value is None or value != int(value) or not 0 <= value <= most:
        return None
    return int(value)


def _wrong(line: int, k: int, name: str, cell: str, most: int) -> str:
    there, missing, wanted = WANTED[name]
    told = there.format(_shown(cell)) if cell else missing
    hint = _COMMAS if re.search(r"[;\t ]", cell) else ""
    return f"line {line}, column {k + 1}: {told}, and {wanted.format(most=most)}{hint}"


def _ragged(line: int, cells: List[str], names: List[str]) -> str:
    hint = _COMMAS if len(cells) == 1 and re.search(r"[;\t ]", cells[0].strip()) else ""
    return f"line {line} has {len(cells)} column{'' if len(cells) == 1 else 's'}, and {len(names)} are wanted: {_short(','.join(names))}{hint}"


def _shown(cell: str) -> str:
    return repr(_short(cell))


def _short(text: str) -> str:
    return text if len(text) <= 60 else text[:57] + ".."
