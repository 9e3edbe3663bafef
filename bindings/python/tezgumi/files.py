"""Files that are read and written: `-` is the standard input, and what is read is never written over."""
from __future__ import annotations

import contextlib
import os
import sys
from typing import BinaryIO, Iterable, Iterator, Union

from .errors import InputError

Path = Union[str, "os.PathLike[str]"]
STDIN = "-"


@contextlib.contextmanager
def opened(path: Path) -> Iterator[BinaryIO]:
    """A file, or the standard input, to read bytes from."""
    if os.fspath(path) == STDIN:
        yield sys.stdin.buffer
    else:
        with open(path, "rb") as file:
            yield file


def read_bytes(path: Path, most: int = -1) -> bytes:
    """The bytes of a file, or of the standard input; with `most` no more than one byte past so many."""
    with opened(path) as file:
        return file.read(-1 if most < 0 else most + 1)


def told(path: Path) -> str:
    """What a file is called where something is said of it."""
    return "standard input" if os.fspath(path) == STDIN else os.fsdecode(path)


def refuse_one_input_twice(paths: Iterable[Path | None]) -> None:
    """Raises InputError where the standard input is to be read more than once: the second reader would find nothing."""
    if sum(path is not None and os.fspath(path) == STDIN for path in paths) > 1:
        raise InputError("- is named more than once, and the standard input can be read once: name files for the others")


def refuse_inputs(out: Path, inputs: Iterable[Path | None]) -> None:
    """Raises InputError where what is to be written is one of the files that are read."""
    for path in inputs:
        if path is not None and os.fspath(path) != STDIN and os.path.exists(path) and os.path.exists(out) and os.path.samefile(path, out):
            raise InputError(f"{os.fspath(out)} is a file that is read: it would be written over, so name another")
