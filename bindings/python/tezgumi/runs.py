"""Runs, plans and decisions: what a load balancer is given, and what it answers."""
from __future__ import annotations

from dataclasses import InitVar, dataclass, fields, replace
from typing import TYPE_CHECKING, Any, Dict, List, Sized, Tuple

import numpy as np
from numpy.typing import ArrayLike, NDArray

from .errors import InputError, LoadError, PlanError
from .frames import frame, html_table, rows_of_ends
from .lists import are_floats, frozen, refuse_no_list, same_fields, shown, slices, total, truth, whole, whole_number
from .scales import in_units, scaled, unit_of

ELEMENTS = 4_294_967_295
"""At most so many elements."""
PES = 4_096
"""At most so many processing elements (PEs), and at least one."""
DIVISION_PES = 65_536
"""At most so many blocks of a division alone, and at least one."""
TOTAL_LOAD = 9_223_372_036_854_775_807
"""The greatest load of all elements together, in work units: 63 bits."""
TOTAL_BYTES = 140_737_488_355_328
"""The greatest packed size of all elements together, in bytes: 2**47."""
TOLERANCE = 1_000
"""The greatest tolerance, in thousandths of the least load that the heaviest block can have."""

DUMP_ELEMENTS = 65_536
"""At most so many elements of a dump, and of a run that is decided within a tolerance."""
DUMP_PES = 256
"""At most so many PEs of the same."""
DUMP_LOAD = 140_737_488_355_327
"""The greatest load of an element of the same, in work units: 47 bits."""
DUMP_STATE_BYTES = 1_048_576
"""The greatest packed size of an element of the same, in bytes."""

_WORD, _LONG = 2**32 - 1, 2**64 - 1
_SIZE = _WORD  # of one element: it is a number of 32 bits

MOVE = np.dtype([("element", np.uint32), ("present", np.uint32), ("planned", np.uint32)])
"""A move: the index of an element, the PE on which it stands, and the PE on which it is to run."""


class _Record:
    """Frozen, compared by all fields, and not to be hashed: the fields hold arrays."""

    __hash__ = None  # type: ignore[assignment]

    def __setstate__(self, state: Dict[str, Any]) -> None:
        # numpy lets anybody write to an array that was pickled, or copied as deep.
        for value in state.values():
            if isinstance(value, np.ndarray):
                value.setflags(write=False)
        self.__dict__.update(state)

    def _keep(self, name: str, value: object) -> None:
        # How a frozen dataclass puts its own fields in order.
        object.__setattr__(self, name, value)

    def __eq__(self, other: object) -> bool:
        if type(self) is not type(other):
            return NotImplemented
        return same_fields(self, other, [field.name for field in fields(self)])


@dataclass(frozen=True, eq=False, repr=False)
class Run(_Record):
    """A chain of elements, in order, on `procs` PEs: the load, the packed size and the present PE of each.

    The lists may be numpy arrays or plain lists of whole numbers, or what else has them in a buffer, as array.array. They are
    copied, and cannot be written to; with copy=False one that has numbers of the same size, 64 bits for loads and 32 for the
    others, is taken as it is, and must not be written to while the run is in use. `replace(run, procs=4)` of dataclasses makes
    another run. All loads together are TOTAL_LOAD at most, and all packed sizes TOTAL_BYTES. Without `bytes` each element has 1, so
    that bytes that move are elements that move; without `places` the PEs hold equally many, in order: element i is on PE
    i * procs // elements.

    Loads that are floats are measured, in seconds say. They are counted in the finest unit of a power of two that the limit of loads
    allows, each rounded down. With scale=True whole numbers are counted so too, and with scale=False floats are refused. With
    unit=0.001 floats are counted in that unit, each rounded to the nearest, and whole numbers are counts in it already. `unit` has
    the unit, or None. A bottleneck times the unit is in seconds again; and for scaled loads it is proved that no division has a
    heaviest block that is lighter, in seconds, than that of the plan by more than `within`.
    """

    procs: int
    loads: NDArray[np.uint64]
    bytes: NDArray[np.uint32] = None  # type: ignore[assignment]
    places: NDArray[np.uint32] = None  # type: ignore[assignment]
    step: int = 0
    copy: InitVar[bool] = True
    unit: float | None = None
    scale: InitVar["bool | None"] = None

    if TYPE_CHECKING:
        def __init__(
                self, procs: int, loads: ArrayLike, bytes: ArrayLike | None = None, places: ArrayLike | None = None, step: int = 0,
                copy: bool = True, unit: float | None = None, scale: bool | None = None) -> None: ...

    def __post_init__(self, copy: bool, scale: bool | None) -> None:
        self._keep("procs", whole_number(self.procs, 1, PES, "procs"))
        self._keep("step", whole_number(self.step, 0, _WORD, "step"))
        has_all = self.bytes is not None and self.places is not None
        if not has_all:
            # Then it is the loads that say how many elements there are.
            self._keep_loads(copy, scale)
            self._keep_defaults()
        self._keep("bytes", frozen(self.bytes, np.uint32, "bytes", _wrong_bytes, _SIZE, copy))
        self._keep("places", frozen(self.places, np.uint32, "places", self._wrong_place, self.procs - 1, copy))
        if has_all:
            self._keep_loads(copy, scale)
        counts = len(self.loads), len(self.bytes), len(self.places)
        if len(set(counts)) > 1:
            raise InputError("there are {} loads, {} packed sizes and {} places; an element has one of each".format(*counts))
        if counts[0] > ELEMENTS:
            raise InputError(f"there are {counts[0]} elements, and at most {ELEMENTS} are taken")
        self._refuse_totals()

    def _refuse_totals(self) -> None:
        size, load = total(self.bytes), total(self.loads)
        if size > TOTAL_BYTES:
            raise InputError(f"the packed sizes add up to {size}, and at most {TOTAL_BYTES} bytes are taken")
        if load > TOTAL_LOAD:
            raise LoadError(f"the loads add up to {load}, and at most {TOTAL_LOAD} is taken")

    def _keep_loads(self, copy: bool, scale: bool | None) -> None:
        refuse_no_list(self.loads, "loads")
        self._count(scale)
        self._keep("loads", frozen(self.loads, np.uint64, "loads", _wrong_load, TOTAL_LOAD, copy))

    def _keep_defaults(self) -> None:
        count = len(self.loads)
        if self.bytes is None:
            self._keep("bytes", np.ones(count, np.uint32))
        if self.places is None:
            self._keep("places", (np.arange(count, dtype=np.uint64) * np.uint64(self.procs) // np.uint64(max(count, 1))).astype(np.uint32))

    def _count(self, scale: bool | None) -> None:
        if scale and self.unit is not None:
            raise InputError("scale chooses a unit, and unit gives one: leave one out")
        if scale or scale is None and self.unit is None and are_floats(self.loads):
            counts, unit = scaled(self.loads, ELEMENTS)
            self._keep("loads", counts)
            self._keep("unit", unit)
        elif self.unit is not None:
            self._keep("unit", unit_of(self.unit))
            if are_floats(self.loads):
                self._keep("loads", in_units(self.loads, self.unit, TOTAL_LOAD))

    @property
    def within(self) -> float:
        """How far, in what was measured, the heaviest block of a plan may be above that of another division because the loads were
        rounded to units: a unit for each element, and 0 where the loads were given as whole numbers."""
        return 0.0 if self.unit is None else len(self) * self.unit

    def _wrong_place(self, index: int, value: Any) -> InputError:
        return on_no_processor(index, value, self.procs)

    def __len__(self) -> int:
        return len(self.loads)

    def __repr__(self) -> str:
        lists = ", ".join(f"{name}={shown(getattr(self, name))}" for name in ("loads", "bytes", "places"))
        unit = "" if self.unit is None else f", unit={self.unit!r}, least within {self.within:.3g}"
        return f"Run({len(self)} elements, procs={self.procs}, {lists}, step={self.step}{unit})"

    def after(self, plan: Plan, step: int | None = None) -> Run:
        """The run as it stands once the elements of a plan or a decision have moved."""
        self.refuse_other_places(plan.places)
        return replace(self, procs=plan.pes, places=plan.places, step=self.step if step is None else step)

    def to_frame(self, plan: Plan | None = None) -> Any:
        """A DataFrame of pandas with a row for each element: its load, its bytes and its place, and of a plan or a decision where it
        is planned."""
        columns = {"load": self.loads, "bytes": self.bytes, "place": self.places}
        if plan is not None:
            self.refuse_other_places(plan.places)
            columns["planned"] = plan.places
        return frame(columns)

    def _repr_html_(self) -> str:
        # How a notebook shows it.
        shown_rows = rows_of_ends(len(self), lambda i: (i, self.loads[i], self.bytes[i], self.places[i]))
        unit = "" if self.unit is None else f", loads in units of {self.unit!r}"
        caption = f"Run: {len(self):,} elements on {self.procs:,} PEs, step {self.step:,}{unit}"
        return html_table(("element", "load", "bytes", "PE"), shown_rows, caption)

    def moves_to(self, places: ArrayLike) -> NDArray[np.void]:
        """The elements whose present and planned place differ, in order of index, as an array of MOVE."""
        planned = whole(places, "places", 0, _WORD)
        self.refuse_other_places(planned)
        moves = np.empty(sum(np.count_nonzero(self.places[k] != planned[k]) for k in slices(len(self))), MOVE)
        end = 0
        for k in slices(len(self)):
            elements = k.start + np.flatnonzero(self.places[k] != planned[k])
            begin, end = end, end + elements.size
            rows = moves[begin:end]
            rows["element"], rows["present"], rows["planned"] = elements, self.places[elements], planned[elements]
        return moves

    def refuse_other_places(self, places: Sized) -> None:
        """Raises InputError unless there is one place for each element."""
        if len(places) != len(self):
            raise InputError(f"the plan is for {len(places)} elements, and the run has {len(self)}")


def taken_run(run: Any) -> Run:
    """The run, where it is one."""
    if isinstance(run, Run):
        return run
    hint = "read_dump returns `run, decision`" if hasattr(run, "run") else "Run(procs, loads) makes one"
    raise InputError(f"run: a tezgumi.Run is wanted, and not a {type(run).__name__}; {hint}")


def taken_plan(plan: Any) -> Plan:
    """The plan or the decision, where it is one."""
    if isinstance(plan, Plan):
        return plan
    raise InputError(f"plan: a Plan or a Decision is wanted, and not a {type(plan).__name__}; plan(run) or decide(run) makes one")


def taken_decision(decision: Any) -> Decision:
    """The decision, where it is one."""
    if isinstance(decision, Decision):
        return decision
    told = "a Plan, which has no certificates" if isinstance(decision, Plan) else f"a {type(decision).__name__}"
    raise InputError(f"decision: a Decision is wanted, and not {told}; decide(run) makes one")


def on_no_processor(index: int, place: Any, pes: int) -> InputError:
    """The refusal of an element's place."""
    return InputError(f"element {index} is on no processor: its place is {place!r}, and with {pes} PEs it is 0 to {pes - 1}")


def _wrong_load(index: int, value: Any) -> InputError:
    if isinstance(value, int) and not isinstance(value, bool) and value > TOTAL_LOAD:
        return LoadError(f"element {index} has too great a load: {value}, and at most {TOTAL_LOAD} is taken")
    hint = "; scale=True counts measured loads" if isinstance(value, float) else ""
    return InputError(f"element {index} has the load {value!r}, and not a whole number from 0 to {TOTAL_LOAD}{hint}")


def _wrong_bytes(index: int, value: Any) -> InputError:
    if isinstance(value, int) and not isinstance(value, bool) and value > _SIZE:
        return InputError(f"element {index} has more than {_SIZE} bytes: {value}")
    return InputError(f"element {index} has the packed size {value!r}, and not a whole number from 0 to {_SIZE}")


@dataclass(frozen=True, eq=False, repr=False)
class Plan(_Record):
    """Where each element runs from now on.

    `places` has the PE of each element, from 0 to pes - 1. `bottleneck` is the load of the heaviest block, which is least
    for so many PEs, or within the tolerance that was asked for, and `moved` the bytes of all elements that move, which are
    fewest for these blocks, or for these blocks in the order of the PEs where that is to be kept.
    """

    pes: int
    places: NDArray[np.uint32]
    bottleneck: int
    moved: int

    if TYPE_CHECKING:
        def __init__(self, pes: int, places: ArrayLike, bottleneck: int, moved: int) -> None: ...

    def __post_init__(self) -> None:
        self._keep("pes", whole_number(self.pes, 1, PES, "pes"))
        self._keep("places", frozen(self.places, np.uint32, "places"))
        self._keep("bottleneck", whole_number(self.bottleneck, 0, _LONG, "bottleneck"))
        self._keep("moved", whole_number(self.moved, 0, _LONG, "moved"))

    @classmethod
    def from_json(cls, text: str | bytes, run: Run, check: bool = True) -> Decision:
        """The decision that a text of `json_of` has, whoever wrote it, for this run.

        The text is believed in nothing: its lists have to be as long as a decision for so many PEs has them, its numbers whole ones within
        their limits, and the proved checker has to find every part right. PlanError tells the first fault, and of a flawed decision the
        `verdict`. With check=False a decision is returned that may be flawed, for `tezgumi.check` to say. What the text says of a check is
        left aside. It is a Decision, a NearDecision or a ReorderedDecision; another kind than that of the class is refused.
        """
        # Which is made of the classes below.
        from .json_plans import read_plan

        decision = read_plan(text, run, check)
        if not isinstance(decision, cls):
            raise PlanError(f"a {cls.__name__} is wanted, and it is a {type(decision).__name__}")
        return decision

    def __repr__(self) -> str:
        return f"Plan({self._shown()})"

    def _shown(self) -> str:
        return f"pes={self.pes}, bottleneck={self.bottleneck}, moved={self.moved}, places={shown(self.places)}"


@dataclass(frozen=True, eq=False, repr=False)
class Decision(Plan):
    """A plan with its certificates, which `check` takes. It may be anybody's: no number is believed.

    Block b is the elements cuts[b] .. cuts[b + 1] - 1, and runs on PE names[b]. The elements from each of the `stops` to
    the next, both included, weigh at least the bottleneck, so that no division has a lesser one; there are none where the
    bottleneck is 0. The prices of a block and a PE are at most the bytes that the block would move there, and all prices
    together are the bytes moved, so that no naming moves fewer. `moves` lists the elements that move (see MOVE).
    `dataclasses.replace` makes another decision.
    """

    cuts: NDArray[np.int64]
    stops: NDArray[np.int64]
    names: NDArray[np.uint32]
    block_prices: NDArray[np.int64]
    pe_prices: NDArray[np.int64]
    moves: NDArray[np.void]

    if TYPE_CHECKING:
        def __init__(
                self, pes: int, places: ArrayLike, bottleneck: int, moved: int, cuts: ArrayLike, stops: ArrayLike,
                names: ArrayLike, block_prices: ArrayLike, pe_prices: ArrayLike, moves: Any) -> None: ...

    def __post_init__(self) -> None:
        super().__post_init__()
        for name in ("cuts", "stops"):
            self._keep(name, ends(getattr(self, name), name))
        self._keep("names", frozen(self.names, np.uint32, "names"))
        for name in ("block_prices", "pe_prices"):
            self._keep(name, frozen(getattr(self, name), np.int64, name))
        self._keep("moves", _moves(self.moves))

    def __repr__(self) -> str:
        lists = ", ".join(f"{name}={shown(getattr(self, name))}" for name in ("cuts", "names", "stops"))
        return f"Decision({self._shown()}, {lists}, {len(self.moves)} moves)"

    def to_frame(self) -> Any:
        """A DataFrame of pandas with a row for each block: its first element, the one behind its last, its PE and its price. The
        cuts, names and prices have to be those of `pes` blocks."""
        counts = len(self.cuts) - 1, len(self.names), len(self.block_prices)
        if set(counts) != {self.pes}:
            raise InputError("there are cuts for {} blocks, {} names and {} prices, and {} PEs".format(*counts, self.pes))
        return frame({"first": self.cuts[:-1], "end": self.cuts[1:], "pe": self.names, "price": self.block_prices})

    def _repr_html_(self) -> str:
        count = min(len(self.cuts) - 1, len(self.names))
        shown_rows = rows_of_ends(count, lambda b: (b, self.cuts[b], self.cuts[b + 1], self.names[b]))
        caption = f"{type(self).__name__}: bottleneck {self.bottleneck:,}, {self.moved:,} bytes and {len(self.moves):,} elements move"
        return html_table(("block", "first element", "end", "PE"), shown_rows, caption)


@dataclass(frozen=True, eq=False, repr=False)
class _WithinTolerance(Decision):
    """A decision within a tolerance: of `least`, the least load that the heaviest block can have, which `least_cuts` and the `stops`
    prove, in thousandths. `bottleneck` is the load of this decision's heaviest block."""

    tolerance: int
    least: int
    least_cuts: NDArray[np.int64]

    def __post_init__(self) -> None:
        super().__post_init__()
        self._keep("tolerance", whole_number(self.tolerance, 0, TOLERANCE, "tolerance"))
        self._keep("least", whole_number(self.least, 0, _LONG, "least"))
        self._keep("least_cuts", ends(self.least_cuts, "least_cuts"))

    @property
    def limit(self) -> int:
        """The greatest load that a block may have."""
        return self.least + self.least * self.tolerance // 1000


@dataclass(frozen=True, eq=False, repr=False)
class NearDecision(_WithinTolerance):
    """A decision within a tolerance, whose cuts are near the present ones, with its certificates. It may be anybody's too.

    `tolerance` is in thousandths of `least`, the least load that the heaviest block can have, which `least_cuts` and the
    `stops` prove; `bottleneck` is the load of this decision's heaviest block. `order` has the PEs in the order in which they
    stand, and `present` the present cuts. The heights prove that no cuts within the tolerance cost fewer bytes in this order:
    those of block b are the steps step_starts[b] .. step_starts[b + 1] - 1, each of which has a place, from which on the
    height is greater by the rise. The names are the cheapest for these cuts, which the prices prove, and need not be in this
    order; so other cuts in another order may move fewer bytes. With `keep_order` the names are the order, and no price counts.
    """

    order: NDArray[np.uint32]
    present: NDArray[np.int64]
    step_starts: NDArray[np.uintp]
    step_places: NDArray[np.uint32]
    step_rises: NDArray[np.uint64]
    keep_order: bool = False

    if TYPE_CHECKING:
        def __init__(
                self, pes: int, places: ArrayLike, bottleneck: int, moved: int, cuts: ArrayLike, stops: ArrayLike,
                names: ArrayLike, block_prices: ArrayLike, pe_prices: ArrayLike, moves: Any, tolerance: int, least: int,
                least_cuts: ArrayLike, order: ArrayLike, present: ArrayLike, step_starts: ArrayLike, step_places: ArrayLike,
                step_rises: ArrayLike, keep_order: bool = False) -> None: ...

    def __post_init__(self) -> None:
        super().__post_init__()
        for name in ("order", "step_places"):
            self._keep(name, frozen(getattr(self, name), np.uint32, name))
        self._keep("present", ends(self.present, "present"))
        self._keep("step_starts", frozen(self.step_starts, np.uintp, "step_starts"))
        self._keep("step_rises", frozen(self.step_rises, np.uint64, "step_rises"))
        self._keep("keep_order", truth(self.keep_order, "keep_order"))
        counts = len(self.step_places), len(self.step_rises)
        if counts[0] != counts[1]:
            raise InputError("there are {} places and {} rises of steps; a step has one of each".format(*counts))

    @property
    def heights(self) -> List[List[Tuple[int, int]]]:
        """The steps of each block: the place and the rise of each."""
        return _rows(self.step_starts, self.step_places, self.step_rises)

    def __repr__(self) -> str:
        kept = ", keep_order=True" if self.keep_order else ""
        return f"Near{super().__repr__()[:-1]}, tolerance={self.tolerance}, least={self.least}{kept})"


@dataclass(frozen=True, eq=False, repr=False)
class ReorderedDecision(_WithinTolerance):
    """A decision within a tolerance whose cuts and names move the fewest bytes of all, with its certificates. It may be anybody's too.

    `tolerance`, `least` and `least_cuts` are those of a NearDecision, and so is `limit`. The bounds prove that no cuts within the
    tolerance, with no names of their blocks, move fewer bytes, wherever the elements are. No price counts.

    Row r of the bounds is the levels level_starts[r] .. level_starts[r + 1] - 1, each of which has a place, from which on the bound is
    so many bytes; before the first it is 0. Rows 0 to pes are for so many blocks: at a place they move so many bytes at least, if they
    end there. Rows pes + 1 to 2 * pes + 1 are for 0 to pes blocks of which none is named after the PE of the element behind them.
    """

    level_starts: NDArray[np.uintp]
    level_places: NDArray[np.uint32]
    level_bytes: NDArray[np.uint64]

    if TYPE_CHECKING:
        def __init__(
                self, pes: int, places: ArrayLike, bottleneck: int, moved: int, cuts: ArrayLike, stops: ArrayLike,
                names: ArrayLike, block_prices: ArrayLike, pe_prices: ArrayLike, moves: Any, tolerance: int, least: int,
                least_cuts: ArrayLike, level_starts: ArrayLike, level_places: ArrayLike, level_bytes: ArrayLike) -> None: ...

    def __post_init__(self) -> None:
        super().__post_init__()
        self._keep("level_starts", frozen(self.level_starts, np.uintp, "level_starts"))
        self._keep("level_places", frozen(self.level_places, np.uint32, "level_places"))
        self._keep("level_bytes", frozen(self.level_bytes, np.uint64, "level_bytes"))
        counts = len(self.level_places), len(self.level_bytes)
        if counts[0] != counts[1]:
            raise InputError("there are {} places and {} numbers of bytes of levels; a level has one of each".format(*counts))

    @property
    def bounds(self) -> Tuple[List[List[Tuple[int, int]]], List[List[Tuple[int, int]]]]:
        """The levels for 0 to pes blocks, a place and the bytes of each: whatever the PEs are, and where that of the next element is free."""
        rows = _rows(self.level_starts, self.level_places, self.level_bytes)
        return rows[:self.pes + 1], rows[self.pes + 1:]

    def __repr__(self) -> str:
        return f"Reordered{super().__repr__()[:-1]}, tolerance={self.tolerance}, least={self.least})"


def ends(values: ArrayLike, name: str) -> NDArray[np.int64]:
    """Cuts or stops, as numbers whose differences may be below 0."""
    return frozen(values, np.int64, name, most=_WORD, least=0)


def words(*numbers: NDArray[np.int64]) -> List[NDArray[np.uint32]]:
    """Cuts or stops as the library takes them."""
    return [part.astype(np.uint32) for part in numbers]


def _rows(starts: NDArray[np.uintp], places: NDArray[np.uint32], numbers: NDArray[np.uint64]) -> List[List[Tuple[int, int]]]:
    where, there = places.tolist(), numbers.tolist()
    ends = starts.tolist()
    return [list(zip(where[first:end], there[first:end])) for first, end in zip(ends, ends[1:])]


def _moves(values: Any) -> NDArray[np.void]:
    names = MOVE.names or ()
    if isinstance(values, np.ndarray) and values.dtype.names:
        if values.dtype == MOVE and not values.flags.writeable:
            return values
        rows = np.column_stack([values[name] for name in names])
    else:
        rows = np.asarray(values).reshape(-1, 3) if len(values) else np.empty((0, 3), np.uint32)
    moves = np.empty(len(rows), MOVE)
    for column, name in enumerate(names):
        moves[name] = frozen(rows[:, column], np.uint32, f"moves.{name}")
    moves.setflags(write=False)
    return moves
