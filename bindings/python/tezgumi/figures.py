"""Figures of a plan: how loads are spread before and after, and what moves."""
from __future__ import annotations

import math
from dataclasses import dataclass
from typing import Any, Dict, Iterable, List, Protocol, Sequence, Tuple

import numpy as np
from numpy.typing import ArrayLike, NDArray

from .frames import frame, html_table
from .lists import whole, whole_number
from .planning import plan as plan_for
from .runs import PES, Plan, Run, on_no_processor, taken_plan, taken_run


_HEAD = ("", "before", "after")
_SWEEP_HEAD = ("PEs", "greatest load", "average load", "imbalance", "moved elements", "moved bytes")

PART = 2**20
"""Loads are added up by so many elements at once."""


class _Printer(Protocol):
    """What IPython hands to a value that is to be shown."""

    def text(self, text: str) -> Any: ...


@dataclass(frozen=True)
class Figures:
    """What a plan does to a run. They are counted from its places, and not taken from what it states.

    An average is all load over the number of PEs. The imbalance is the greatest load of a PE over the average, and 1 where
    there is no load; the excess is how far it is above 1, in per cent. No greatest load can be below the average, nor below
    the load of the heaviest element: the bound is the greater of the two, the average rounded up. A deviation is the
    standard deviation of the loads of the PEs over their average. An idle PE has no load, and an empty one no element.
    Leaving and entering bytes are those of the PE with the most. `unit` is that of the run, where its loads were measured.

    As a text they are a table, in which an imbalance has three decimals, rounded down as lb_report does.
    """

    elements: int
    procs: int
    pes: int
    total_load: int
    heaviest_element: int
    greatest_before: int
    greatest_after: int
    least_before: int
    least_after: int
    deviation_before: float
    deviation_after: float
    idle_before: int
    idle_after: int
    empty_before: int
    empty_after: int
    moved_elements: int
    moved_bytes: int
    total_bytes: int
    leaving_bytes: int
    entering_bytes: int
    unit: float | None = None

    @property
    def average_before(self) -> float:
        return self.total_load / self.procs

    @property
    def average_after(self) -> float:
        return self.total_load / self.pes

    @property
    def imbalance_before(self) -> float:
        return _ratio(self.greatest_before * self.procs, self.total_load)

    @property
    def imbalance_after(self) -> float:
        return _ratio(self.greatest_after * self.pes, self.total_load)

    @property
    def excess_before(self) -> float:
        return _excess(self.greatest_before * self.procs, self.total_load)

    @property
    def excess_after(self) -> float:
        return _excess(self.greatest_after * self.pes, self.total_load)

    @property
    def bound_before(self) -> int:
        return max(self.heaviest_element, -(-self.total_load // self.procs))

    @property
    def bound_after(self) -> int:
        return max(self.heaviest_element, -(-self.total_load // self.pes))

    def __str__(self) -> str:
        told = "" if self.unit is None else f"\n{self._told_unit()}"
        return _aligned((_HEAD, *self._rows())) + told

    def _rows(self) -> List[Tuple[str, str, str]]:
        return [
            ("PEs", f"{self.procs:,}", f"{self.pes:,}"),
            ("greatest load", f"{self.greatest_before:,}", f"{self.greatest_after:,}"),
            ("average load", _hundredths(self.total_load, self.procs), _hundredths(self.total_load, self.pes)),
            ("imbalance", imbalance(self.greatest_before, self.procs, self.total_load),
             imbalance(self.greatest_after, self.pes, self.total_load)),
            ("moved elements", f"{self.moved_elements:,}", f"of {self.elements:,}"),
            ("moved bytes", f"{self.moved_bytes:,}", f"of {self.total_bytes:,}"),
        ]

    def _told_unit(self) -> str:
        unit = self.unit or 0.0
        return (f"loads are in units of {unit!r}, each rounded down: the greatest after is {self.greatest_after * unit:.6g}, "
                f"and least within {self.elements * unit:.3g}")

    def to_frame(self) -> Any:
        """A DataFrame of pandas with a row before and a row after: the number of PEs, their greatest, least and average load, the
        imbalance, the excess, the deviation, and the idle and the empty ones."""
        names = ("greatest", "least", "average", "imbalance", "excess", "deviation", "bound", "idle", "empty")
        columns: Dict[str, Any] = {"pes": [self.procs, self.pes]}
        columns.update({name: [getattr(self, f"{name}_before"), getattr(self, f"{name}_after")] for name in names})
        return frame(columns, ("before", "after"))

    def _repr_html_(self) -> str:
        return html_table(_HEAD, self._rows(), "" if self.unit is None else self._told_unit())

    def _repr_pretty_(self, printer: _Printer, _: bool) -> None:
        # How IPython and notebooks show it.
        printer.text(str(self))


class Sweep(List[Figures]):
    """The figures for several numbers of PEs. As a text it is a table, which a notebook shows."""

    def __str__(self) -> str:
        return table(self)

    def to_frame(self) -> Any:
        """A DataFrame of pandas with a row for each number of PEs: the greatest, least and average load, the imbalance, the deviation,
        and the elements and bytes that move."""
        names = ("greatest_after", "least_after", "average_after", "imbalance_after", "deviation_after", "moved_elements", "moved_bytes")
        columns: Dict[str, Any] = {"pes": [row.pes for row in self]}
        columns.update({name.replace("_after", ""): [getattr(row, name) for row in self] for name in names})
        return frame(columns)

    def _repr_html_(self) -> str:
        return html_table(_SWEEP_HEAD, map(_sweep_row, self))

    def _repr_pretty_(self, printer: _Printer, _: bool) -> None:
        printer.text(str(self))


def figures(run: Run, plan: Plan) -> Figures:
    """The figures of a plan, or of a decision, on a run."""
    run, plan = taken_run(run), taken_plan(plan)
    run.refuse_other_places(plan.places)
    before = pe_loads(run, run.places, run.procs)
    after = pe_loads(run, plan.places, plan.pes)
    moves = run.places != plan.places
    total = int(run.loads.sum(dtype=np.uint64))
    return Figures(
        elements=len(run),
        procs=run.procs,
        pes=plan.pes,
        total_load=total,
        heaviest_element=int(run.loads.max(initial=0)),
        greatest_before=int(before.max()),
        greatest_after=int(after.max()),
        least_before=int(before.min()),
        least_after=int(after.min()),
        deviation_before=_deviation(before, total),
        deviation_after=_deviation(after, total),
        idle_before=int(np.count_nonzero(before == 0)),
        idle_after=int(np.count_nonzero(after == 0)),
        empty_before=_empty(run.places, run.procs),
        empty_after=_empty(plan.places, plan.pes),
        moved_elements=int(np.count_nonzero(moves)),
        moved_bytes=int(run.bytes.sum(dtype=np.uint64, where=moves)),
        total_bytes=int(run.bytes.sum(dtype=np.uint64)),
        leaving_bytes=int(_sums(run.bytes[moves], run.places[moves], run.procs).max()),
        entering_bytes=int(_sums(run.bytes[moves], plan.places[moves], plan.pes).max()),
        unit=run.unit,
    )


def pe_loads(run: Run, places: ArrayLike, pes: int) -> NDArray[np.uint64]:
    """The load of each PE where the elements stand at these places, whole numbers below `pes`. Exact."""
    run, pes = taken_run(run), whole_number(pes, 1, PES, "pes")
    stands = whole(places, "places", 0, pes - 1, lambda index, place: on_no_processor(index, place, pes))
    run.refuse_other_places(stands)
    return _sums(run.loads, stands, pes)


def _sums(numbers: NDArray[Any], places: NDArray[Any], pes: int) -> NDArray[np.uint64]:
    # A double holds sums up to 53 bits: those of the lower 32 bits of 2^20 numbers have 52, and those of the rest fewer.
    sums = np.zeros(pes, np.uint64)
    for first in range(0, len(numbers), PART):
        part = numbers[first:first + PART].astype(np.uint64, copy=False)
        stands = places[first:first + PART].astype(np.intp, copy=False)
        for shift in (0, 32) if int(part.max()) >> 32 else (0,):
            halves = part >> np.uint64(shift) & np.uint64(2**32 - 1)
            sums += np.bincount(stands, weights=halves, minlength=pes).astype(np.uint64) << np.uint64(shift)
    return sums


def sweep(run: Run, counts: Iterable[int] | None = None) -> Sweep:
    """The figures of the plan for each number of PEs, as a Sweep. If none are named, for 1, 2, 4 .. 256, and on to the run's own."""
    run = taken_run(run)
    if counts is None:
        counts = sorted({2**k for k in range(13) if k <= 8 or 2**k < run.procs} | {run.procs})
    return Sweep(figures(run, plan_for(run, pes)) for pes in counts)


def table(swept: Iterable[Figures]) -> str:
    """A sweep as lines of text, a row for each number of PEs, and where the loads of the run were measured one that tells their unit."""
    rows = list(swept)
    text = _aligned([_SWEEP_HEAD, *map(_sweep_row, rows)])
    units = {(row.unit, row.elements) for row in rows}
    unit, elements = next(iter(units)) if len(units) == 1 else (None, 0)
    if unit is None:
        return text
    return f"{text}\nloads are in units of {unit!r}, each rounded down: each greatest is least within {elements * unit:.3g}"


def _sweep_row(row: Figures) -> Tuple[str, ...]:
    return (
        f"{row.pes:,}", f"{row.greatest_after:,}", _hundredths(row.total_load, row.pes),
        imbalance(row.greatest_after, row.pes, row.total_load), f"{row.moved_elements:,}", f"{row.moved_bytes:,}")


def imbalance(greatest: int, pes: int, total: int) -> str:
    """The greatest load of a PE over the average, in three decimals, rounded down: as lb_report and a page have it."""
    thousandths = 1000 * greatest * pes // total if total else 1000
    return f"{thousandths // 1000:,}.{thousandths % 1000:03}"


def _ratio(one: int, other: int) -> float:
    # Of whole numbers, so that it is rounded once, and no imbalance comes out below 1.
    return one / other if other else 1.0


def _excess(one: int, other: int) -> float:
    # As _ratio, which is rounded once; the difference is one of whole numbers.
    return 100 * (one - other) / other if other else 0.0


def _deviation(loads: NDArray[Any], total: int) -> float:
    # Of whole numbers up to the root: squares of loads of 63 bits are no doubles.
    squares = sum(int(load) ** 2 for load in loads)
    return math.sqrt(len(loads) * squares - total**2) / total if total else 0.0


def _empty(places: NDArray[Any], pes: int) -> int:
    taken = np.zeros(pes, bool)
    taken[places] = True
    return pes - int(np.count_nonzero(taken))


def _hundredths(number: int, parts: int) -> str:
    # In whole numbers: a total of 63 bits is no double.
    hundredths = (200 * number + parts) // (2 * parts)
    return f"{hundredths // 100:,}.{hundredths % 100:02}"


def _aligned(rows: Sequence[Sequence[str]]) -> str:
    # The first column of a table of figures holds words, where its head is empty.
    words = rows[0][0] == ""
    widths = [max(len(row[column]) for row in rows) for column in range(len(rows[0]))]
    lines = []
    for row in rows:
        cells = [cell.ljust(width) if words and column == 0 else cell.rjust(width)
                 for column, (cell, width) in enumerate(zip(row, widths))]
        lines.append("  ".join(cells).rstrip())
    return "\n".join(lines)
