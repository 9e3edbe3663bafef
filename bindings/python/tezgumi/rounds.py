"""The rounds of a page: what each may be given as, and in which order they stand."""
from __future__ import annotations

import os
from dataclasses import dataclass
from typing import Callable, List, Sequence, Tuple, Union

import numpy as np

from .errors import InputError
from .files import Path, told
from .inputs import read_input
from .runs import Decision, ReorderedDecision, Run

Given = Union[Path, Run, Tuple[Run, "Decision | None"]]
"""A round: the file of a dump or a table, a run, or a run and the decision on it, as `read_dump` returns them."""
Decide = Callable[[Run], "Decision | None"]

RECORDED = "recorded"
NO_RECORD = "planned here; the file records no decision"
NOT_GIVEN = "planned here; the run was given without a decision"
LEFT_ASIDE = "planned here; the recorded decision is left aside"


@dataclass(frozen=True)
class Round:
    """A round of a page: what it is called, the run, the decision if there is one, and in words who made that."""

    name: str
    run: Run
    decision: Decision | None
    made: str
    is_file: bool

    @property
    def is_new(self) -> bool:
        """Whether the decision was made for the page. Nobody says that the elements moved by it."""
        return self.decision is not None and self.made != RECORDED


def taken_rounds(given: Sequence[Given], decide: Decide | None, anew: bool, procs: int | None = None) -> Tuple[List[Round], List[str]]:
    """The rounds, in order, and what is to be said of the order, and of loads that were counted. A table has the step behind that of the
    round before it; one without places may be spread over a number of PEs."""
    read: List[Round] = []
    for number, one in enumerate(given, 1):
        step = read[-1].run.step + 1 if read else 0
        read.append(_read_round(number, one, min(step, 2**32 - 1), procs))
    rounds, notes = in_order(read)
    return [_decided(one, decide, anew) for one in rounds], notes + _told_units(rounds)


def in_order(rounds: List[Round]) -> Tuple[List[Round], List[str]]:
    """The rounds in the order of their steps, and what is to be said of them, where all of them are files. Files of two runs are
    refused: InputError. Rounds that a program hands over stand in its own order."""
    if len(rounds) < 2 or not all(one.is_file for one in rounds):
        return rounds, []
    ordered = sorted(rounds, key=lambda one: one.run.step)
    for one, other in zip(ordered, ordered[1:]):
        if one.run.step == other.run.step:
            raise InputError(f"{one.name} and {other.name} are both step {one.run.step}, and a page shows the rounds of one run")
    first = ordered[0]
    for one in ordered[1:]:
        if len(one.run) != len(first.run):
            raise InputError(f"{first.name} has {_counted(len(first.run))} and {one.name} {len(one.run):,}: a page shows one array")
    notes = [] if ordered == rounds else ["the rounds were put in the order of their steps"]
    return ordered, notes + _told_missing(ordered) + _told_moves(ordered)


def _told_missing(rounds: Sequence[Round]) -> List[str]:
    gaps = []
    for one, other in zip(rounds, rounds[1:]):
        low, high = one.run.step + 1, other.run.step - 1
        if low <= high:
            gaps.append(f"{low:,}" if low == high else f"{low:,} to {high:,}")
    if not gaps:
        return []
    only = len(gaps) == 1 and " " not in gaps[0]
    return [f"{'step' if only else 'steps'} {', '.join(gaps)} {'is' if only else 'are'} not among the rounds"]


def _told_moves(rounds: Sequence[Round]) -> List[str]:
    # The elements of a round stand where the recorded decision of the round before has put them, if that is of the same run.
    return [
        f"the elements of {other.name} are not where the decision that {one.name} records puts them"
        for one, other in zip(rounds, rounds[1:])
        if other.run.step == one.run.step + 1 and one.decision is not None
        and not np.array_equal(one.decision.places, other.run.places)]


def _told_units(rounds: Sequence[Round]) -> List[str]:
    return [
        f"{one.name}: loads are in units of {one.run.unit!r}, each rounded down: in what was measured all holds within {one.run.within:.3g}"
        for one in rounds if one.is_file and one.run.unit is not None]


def _read_round(number: int, given: Given, step: int, procs: int | None) -> Round:
    name = f"round {number}"
    if isinstance(given, Run):
        return Round(name, given, None, NOT_GIVEN, False)
    if isinstance(given, tuple) and len(given) == 2 and isinstance(given[0], Run):
        run, decision = given
        if decision is not None and not isinstance(decision, Decision):
            raise InputError(f"{name}: a Decision is wanted beside the run, and not a {type(decision).__name__}")
        return Round(name, run, decision, RECORDED if decision is not None else NOT_GIVEN, False)
    if not isinstance(given, (str, os.PathLike)):
        raise InputError(f"{name}: the path of a file, a Run, or a Run and its Decision is wanted, and not a {type(given).__name__}")
    run, decision = read_input(given, procs, step)
    return Round(told(given), run, decision, RECORDED if decision is not None else NO_RECORD, True)


def _decided(one: Round, decide: Decide | None, anew: bool) -> Round:
    decision, made = one.decision, one.made
    if decide is not None and (anew or decision is None):
        made = LEFT_ASIDE if decision is not None else made
        decision = decide(one.run)
    if isinstance(decision, ReorderedDecision):
        raise InputError(f"{one.name} is decided in any order of the PEs, and a page has no check of the bounds of such a decision")
    return Round(one.name, one.run, decision, made, one.is_file)


def _counted(count: int) -> str:
    return f"{count:,} element{'' if count == 1 else 's'}"
