"""Tables of runs, plans and figures for others: DataFrames of pandas, and tables that a notebook shows."""
from __future__ import annotations

import html
from typing import Any, Callable, Dict, Iterable, List, Sequence

ENDS = 5
"""A notebook is shown so many rows of each end of a long table."""


def frame(columns: Dict[str, Any], index: Sequence[str] | None = None) -> Any:
    """A DataFrame with these columns. Without pandas it is an ImportError that names its package."""
    try:
        import pandas
    except ImportError as error:
        raise ImportError("to_frame needs pandas (python3-pandas of Debian, or pip install pandas)") from error
    return pandas.DataFrame(columns) if index is None else pandas.DataFrame(columns, index=list(index))


def rows_of_ends(count: int, row: Callable[[int], Sequence[Any]]) -> List[Sequence[Any]]:
    """The rows of a table: all of a short one; the first and the last of a long one, and between them one of dots."""
    if count <= 2 * ENDS + 1:
        return [row(k) for k in range(count)]
    first, last = [row(k) for k in range(ENDS)], [row(k) for k in range(count - ENDS, count)]
    return [*first, ["\u22ee"] * len(first[0]), *last]


def html_table(head: Iterable[Any], rows: Iterable[Sequence[Any]], caption: str = "") -> str:
    """A table in HTML. Numbers are grouped, and texts shown as they are."""
    lines = ["<table>"]
    if caption:
        lines.append(f"<caption>{html.escape(caption)}</caption>")
    lines.append("<thead>" + _row("th", head) + "</thead>")
    lines.append("<tbody>" + "".join(_row("td", row) for row in rows) + "</tbody></table>")
    return "".join(lines)


def _row(kind: str, cells: Iterable[Any]) -> str:
    return "<tr>" + "".join(f"<{kind}>{html.escape(_told(cell))}</{kind}>" for cell in cells) + "</tr>"


def _told(cell: Any) -> str:
    return cell if isinstance(cell, str) else f"{int(cell):,}"
