"""Columns of whole numbers as a page holds them: compressed, in letters that a text may have.

A column is written in as many bytes for each number as its greatest one needs: the lowest byte of each number, then the next
of each, and so on, as equal bytes that stand together are compressed best. Where that takes less room, it is written as the
difference of each number from the one before it. Columns follow one another in a block, which is compressed by zlib and written
in base 64. What reads it is web/data.js.
"""
from __future__ import annotations

import base64
import zlib
from typing import Any, Iterable, List, Tuple, Union

import numpy as np
from numpy.typing import ArrayLike, NDArray

Head = List[Union[str, int]]
"""Of a column: its name, how many numbers it has, the bytes of each, and 1 where they are differences, or 0."""


def block(columns: Iterable[Tuple[str, ArrayLike]]) -> Tuple[List[Head], str]:
    """The heads of the columns, and their numbers in letters."""
    heads: List[Head] = []
    parts = []
    for name, values in columns:
        numbers = np.asarray(values).astype("<u8")
        forms = [_planes(numbers), _planes(folded(np.diff(numbers, prepend=np.uint64(0)).astype("<i8")))]
        form = min((0, 1), key=lambda k: len(zlib.compress(forms[k][1], 1)))
        width, text = forms[form]
        heads.append([name, len(numbers), width, form])
        parts.append(text)
    return heads, base64.b64encode(zlib.compress(b"".join(parts), 6)).decode()


def folded(values: NDArray[np.int64]) -> NDArray[np.uint64]:
    """Signed numbers as whole ones: 0, -1, 1, -2 .. are 0, 1, 2, 3 .."""
    doubled: NDArray[np.uint64] = values.astype(np.uint64) << np.uint64(1)
    return np.where(values < 0, ~doubled, doubled)


def _planes(values: NDArray[Any]) -> Tuple[int, bytes]:
    width = max(1, (int(values.max(initial=0)).bit_length() + 7) // 8)
    rows = np.ascontiguousarray(values).view(np.uint8).reshape(-1, 8)
    return width, rows[:, :width].T.tobytes()
