"""Dumps of a run, and of the decision on it, in the formats LBD1 and LBD2. docs/FORMATS.md has the tables of their bytes."""
from __future__ import annotations

import struct
from typing import Any, Callable, NamedTuple, Tuple, Union

import numpy as np
from numpy.typing import NDArray

from .errors import DumpError, InputError
from .files import Path, read_bytes
from .lists import whole_number
from .runs import DUMP_ELEMENTS, DUMP_LOAD, DUMP_PES, DUMP_STATE_BYTES, MOVE, Decision, NearDecision, ReorderedDecision, Run
from .runs import taken_decision, taken_run

_ROW = {
    1: np.dtype([("load", ">u4"), ("bytes", ">u4"), ("place", ">u4")]),
    2: np.dtype([("load", ">u8"), ("bytes", ">u4"), ("place", ">u4")]),
}
_MOVE_ROW = np.dtype([(name, ">u4") for name in MOVE.names or ()])

# No dump is longer: its head, its elements, and a decision by which all of them move.
MOST_BYTES = 16 + 16 * DUMP_ELEMENTS + 4 + 12 + 8 * (DUMP_PES + 1) + 4 + 20 * DUMP_PES + 12 + 12 * DUMP_ELEMENTS

_Rows = NDArray[np.void]
# Of a field: its name, the rows that break its rule, the fault, and what to tell of it.
_Faults = Tuple[Tuple[str, "NDArray[np.bool_]", str, str], ...]


class Dump(NamedTuple):
    """What a dump holds: a run, and the decision that was recorded on it, if there is one."""

    run: Run
    decision: Decision | None = None


def read_dump(path: Path) -> Dump:
    """The dump in a file, as `run, decision`; `-` is the standard input. DumpError tells the first fault, as lb_sim does. No more
    is read than the longest dump has, and a byte."""
    return decode(read_bytes(path, MOST_BYTES))


def write_dump(path: Path, run: Run, decision: Decision | None = None, version: int = 2) -> None:
    """Writes a dump into a file: LBD2, or with version=1 LBD1, which has loads below 2**32 and no decision. InputError tells what
    the format does not hold: a dump has DUMP_ELEMENTS and DUMP_PES at most, and each element DUMP_LOAD and DUMP_STATE_BYTES."""
    data = encode(run, decision, version)
    with open(path, "wb") as file:
        file.write(data)


def decode(data: Union[bytes, bytearray, memoryview]) -> Dump:
    """The dump that these bytes are. DumpError tells the first fault from left to right."""
    text = _Text(bytes(data))
    version = text.letters()
    step = text.word()
    procs = text.ruled_word(lambda n: 1 <= n <= DUMP_PES, f"procs out of 1..{DUMP_PES}")
    count = text.ruled_word(lambda n: n <= DUMP_ELEMENTS, f"more than {DUMP_ELEMENTS} elements")
    rows = text.rows(_ROW[version], count, lambda rows: _element_faults(rows, procs))
    run = Run(procs, rows["load"], rows["bytes"], rows["place"], step)
    decision = None
    if version == 2 and text.ruled_word(lambda n: n <= 1, "flag is not 0 or 1"):
        decision = _decision(text, run)
    text.end()
    return Dump(run, decision)


def encode(run: Run, decision: Decision | None = None, version: int = 2) -> bytes:
    """The bytes of a dump."""
    run = taken_run(run)
    if decision is not None:
        decision = taken_decision(decision)
    if version not in _ROW:
        raise InputError(f"version is {version!r}, and the formats are 1 and 2")
    if isinstance(decision, (NearDecision, ReorderedDecision)):
        raise InputError("a dump records a decision of the plan, and this one is within a tolerance")
    _refuse_large(run)
    rows = np.empty(len(run), _ROW[version])
    if version == 1:
        _refuse_for_lbd1(run, decision)
    rows["load"], rows["bytes"], rows["place"] = run.loads, run.bytes, run.places
    data = struct.pack(">4sIII", b"LBD%d" % version, run.step, run.procs, len(run)) + rows.tobytes()
    if version == 1:
        return data
    if decision is None:
        return data + struct.pack(">I", 0)
    return data + struct.pack(">I", 1) + _decision_bytes(run, decision)


def _element_faults(rows: _Rows, procs: int) -> _Faults:
    # The fields of an element in order: which rows break each rule, the fault, and what to tell of it.
    return (
        ("load", rows["load"] > DUMP_LOAD, "element {} has too great a load", f"at most {DUMP_LOAD}"),
        ("bytes", rows["bytes"] > DUMP_STATE_BYTES, f"element {{}} has more than {DUMP_STATE_BYTES} bytes", "the packed size"),
        ("place", rows["place"] >= procs, "element {} is on no processor", f"the run has {procs} PEs"),
    )


def _move_faults(rows: _Rows, count: int) -> _Faults:
    fault = "move {} is out of range"
    return (
        ("element", rows["element"] >= count, fault, f"an element of {count}"),
        ("present", rows["present"] >= DUMP_PES, fault, "its present PE"),
        ("planned", rows["planned"] >= DUMP_PES, fault, "its planned PE"),
    )


class _Text:
    """Bytes that are read from left to right. What reads a field tells its fault, or that the bytes end within it."""

    def __init__(self, data: bytes) -> None:
        self.data = data
        self.at = 0

    def letters(self) -> int:
        """The number of the format."""
        for place, code in enumerate(self.data[:4]):
            if code not in (b"L", b"B", b"D", b"12")[place]:
                raise DumpError("not LBD1 or LBD2", f"byte {place} is {bytes([code])!r}")
        return int(self._take(4)[3:])

    def word(self) -> int:
        return int.from_bytes(self._take(4), "big")

    def long(self) -> int:
        return int.from_bytes(self._take(8), "big")

    def ruled_word(self, holds: Callable[[int], bool], fault: str) -> int:
        """A number for which the rule holds."""
        number = self.word()
        if not holds(number):
            raise DumpError(fault, f"byte {self.at - 4} begins {number}")
        return number

    def numbers(self, letters: str, count: int) -> NDArray[Any]:
        """So many numbers, of a type with the highest byte first."""
        kind: np.dtype[Any] = np.dtype(letters)
        return np.frombuffer(self._take(count * kind.itemsize), kind)

    def rows(self, kind: np.dtype[Any], count: int, faults: Callable[[_Rows], _Faults]) -> _Rows:
        """So many rows of fields with rules, all of whose whole fields are looked at before the end is told."""
        there = self.data[self.at:self.at + count * kind.itemsize]
        if len(there) == count * kind.itemsize:
            rows: _Rows = np.frombuffer(there, kind)
            self._refuse(rows, faults(rows), len(there))
        else:
            # The fields that are not whole are zeros here, and not looked at.
            padded = there + bytes(-len(there) % kind.itemsize)
            rows = np.frombuffer(padded, kind)
            self._refuse(rows, faults(rows), len(there))
            raise self._short()
        self.at += len(there)
        return rows

    def end(self) -> None:
        if self.at < len(self.data):
            raise DumpError("bytes after the last element", f"{len(self.data) - self.at} of them, from byte {self.at} on")

    def _refuse(self, rows: _Rows, faults: _Faults, there: int) -> None:
        fields: Any = rows.dtype.fields
        found = []
        for order, (field, broken, fault, told) in enumerate(faults):
            kind, offset = fields[field]
            broken = broken & (np.arange(len(rows)) * rows.dtype.itemsize + offset + kind.itemsize <= there)
            if broken.any():
                row = int(np.argmax(broken))
                place = self.at + row * rows.dtype.itemsize + offset
                found.append((row, order, fault.format(row), f"{int(rows[field][row])} at byte {place}; {told}"))
        if found:
            _, _, fault, told = min(found)
            raise DumpError(fault, told)

    def _take(self, count: int) -> bytes:
        taken = self.data[self.at:self.at + count]
        if len(taken) < count:
            raise self._short()
        self.at += count
        return taken

    def _short(self) -> DumpError:
        return DumpError(f"ends at byte {len(self.data)}")


def _decision(text: _Text, run: Run) -> Decision:
    pes = text.ruled_word(lambda n: 1 <= n <= DUMP_PES, f"target out of 1..{DUMP_PES}")
    bottleneck = text.long()
    cuts = text.numbers(">u4", pes + 1)
    is_fence = text.ruled_word(lambda n: n <= 1, "floor is not 0 or 1")
    stops = text.numbers(">u4", pes + 1 if is_fence else 0)
    names = text.numbers(">u4", pes)
    block_prices, pe_prices = text.numbers(">i8", pes), text.numbers(">i8", pes)
    moved = text.long()
    count = text.ruled_word(lambda n: n <= len(run), "more moves than elements")
    moves = text.rows(_MOVE_ROW, count, lambda rows: _move_faults(rows, len(run)))
    places = _places_after(run, moves)
    return Decision(pes, places, bottleneck, moved, cuts, stops, names, block_prices, pe_prices, moves)


def _places_after(run: Run, moves: _Rows) -> NDArray[np.uint32]:
    places = run.places.copy()
    places[moves["element"]] = moves["planned"]
    return places


def _refuse_large(run: Run) -> None:
    # A run may be larger than the formats are made for.
    if len(run) > DUMP_ELEMENTS:
        raise InputError(f"there are {len(run)} elements, and a dump has at most {DUMP_ELEMENTS}")
    if run.procs > DUMP_PES:
        raise InputError(f"the run has {run.procs} PEs, and a dump has at most {DUMP_PES}")
    for numbers, most, told in ((run.loads, DUMP_LOAD, "the load {}"), (run.bytes, DUMP_STATE_BYTES, "{} bytes")):
        above = numbers > most
        if above.any():
            element = int(np.argmax(above))
            raise InputError(f"element {element} has {told.format(int(numbers[element]))}, and in a dump it has at most {most}")


def _refuse_for_lbd1(run: Run, decision: Decision | None) -> None:
    if decision is not None:
        raise InputError("LBD1 holds no decision; version=2 does")
    wide = run.loads >= 2**32
    if wide.any():
        element = int(np.argmax(wide))
        load = int(run.loads[element])
        raise InputError(f"element {element} has the load {load}, and LBD1 holds those below {2**32}; version=2 holds it")


def _decision_bytes(run: Run, decision: Decision) -> bytes:
    d = decision
    _refuse_unspelled(run, d)
    parts = [struct.pack(">IQ", d.pes, d.bottleneck), d.cuts.astype(">u4").tobytes()]
    parts.append(struct.pack(">I", 1 if d.stops.size else 0))
    parts += [d.stops.astype(">u4").tobytes(), d.names.astype(">u4").tobytes()]
    parts += [prices.astype(">i8").tobytes() for prices in (d.block_prices, d.pe_prices)]
    parts += [struct.pack(">QI", d.moved, len(d.moves)), d.moves.astype(_MOVE_ROW).tobytes()]
    return b"".join(parts)


def _refuse_unspelled(run: Run, decision: Decision) -> None:
    # The format has no room for lists of other lengths, and its places are those that the moves lead to.
    d = decision
    if d.pes > DUMP_PES:
        raise InputError(f"the decision is for {d.pes} PEs, and a dump has at most {DUMP_PES}")
    pes = whole_number(d.pes, 1, DUMP_PES, "pes")
    for name, wanted in (("cuts", pes + 1), ("names", pes), ("block_prices", pes), ("pe_prices", pes)):
        if len(getattr(d, name)) != wanted:
            raise InputError(f"there are {len(getattr(d, name))} {name}, and for {pes} PEs a dump has {wanted}")
    if len(d.stops) not in (0, pes + 1):
        raise InputError(f"there are {len(d.stops)} stops, and for {pes} PEs a dump has {pes + 1} or none")
    if len(d.moves) > len(run):
        raise InputError(f"there are {len(d.moves)} moves, and a dump has at most one for each of {len(run)} elements")
    for field, broken, _, told in _move_faults(d.moves, len(run)):
        if broken.any():
            move = int(np.argmax(broken))
            raise InputError(f"move {move} is out of range: {field} is {int(d.moves[field][move])}, {told}")
    if not np.array_equal(_places_after(run, d.moves), d.places):
        raise InputError("the places are not those that the moves lead to, and a dump has the moves alone")
