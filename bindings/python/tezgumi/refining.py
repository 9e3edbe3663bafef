"""The calls of the library for decisions within a tolerance."""
from __future__ import annotations

import ctypes
from typing import Any, List, Tuple

import numpy as np

from .checking import Verdict, flaw_of
from .library import library, lists
from .runs import Decision, NearDecision, Plan, Run, words
from .statuses import hold

STEPS = 8
"""At first there is room for so many steps of heights for each PE."""


class Room:
    """The lists and numbers that tezgumi_refine writes, with room for so many steps."""

    def __init__(self, count: int, pes: int, steps: int) -> None:
        self.pes = pes
        self.places, self.names, self.order = (np.empty(size, np.uint32) for size in (count, pes, pes))
        self.cuts, self.stops, self.least_cuts, self.present = (np.empty(pes + 1, np.uint32) for _ in range(4))
        self.block_prices, self.pe_prices = np.empty(pes, np.int64), np.empty(pes, np.int64)
        self.step_starts = np.empty(pes + 1, np.uintp)
        self.step_places, self.step_rises = np.empty(steps, np.uint32), np.empty(steps, np.uint64)
        self.least, self.bottleneck, self.moved = ctypes.c_uint64(), ctypes.c_uint64(), ctypes.c_uint64()
        self.near = ctypes.c_uint32()
        self.stops_count, self.steps_count = ctypes.c_size_t(), ctypes.c_size_t()

    def words(self) -> List[int]:
        """What is passed behind the run, the number of PEs, the tolerance and whether the PEs keep their order."""
        return self.decided(self.least, self.bottleneck, self.moved, self.near)

    def decided(self, *numbers: ctypes.c_uint64 | ctypes.c_uint32) -> List[int]:
        """The lists of the decision and of the steps, with these numbers behind the places."""
        return [
            *lists(self.places), *map(ctypes.addressof, numbers), *lists(self.cuts, self.stops), ctypes.addressof(self.stops_count),
            *lists(self.names, self.block_prices, self.pe_prices, self.least_cuts, self.order, self.present),
            *lists(self.step_starts, self.step_places, self.step_rises), ctypes.addressof(self.steps_count)]

    def told(self, run: Run) -> Tuple[Any, ...]:
        """What every decision has."""
        return (
            self.pes, self.places, self.bottleneck.value, self.moved.value, self.cuts, self.stops[:self.stops_count.value],
            self.names, self.block_prices, self.pe_prices, run.moves_to(self.places))

    def decision(self, run: Run, tolerance: int, keep_order: bool) -> Decision:
        """The decision that was written: a NearDecision, or that of the plan."""
        if not self.near.value:
            return Decision(*self.told(run))
        steps = self.steps_count.value
        return NearDecision(
            *self.told(run), tolerance, self.least.value, self.least_cuts, self.order, self.present, self.step_starts,
            self.step_places[:steps], self.step_rises[:steps], keep_order)


def plan_within(run: Run, pes: int, tolerance: int, keep_order: bool) -> Plan:
    """The places of a decision within a tolerance."""
    room = _refined(run, pes, tolerance, keep_order, 0)
    return Plan(pes, room.places, room.bottleneck.value, room.moved.value)


def decide_within(run: Run, pes: int, tolerance: int, keep_order: bool) -> Decision:
    """The decision within a tolerance: a NearDecision, or that of the plan."""
    room = _refined(run, pes, tolerance, keep_order, STEPS * pes)
    if room.steps_count.value > room.step_places.size:
        room = _refined(run, pes, tolerance, keep_order, room.steps_count.value)
    return room.decision(run, tolerance, keep_order)


def check_near(run: Run, decision: NearDecision) -> Verdict:
    """What the proved checker says of it."""
    d = decision
    first, second = ctypes.c_uint32(), ctypes.c_uint32()
    cuts, stops, least_cuts, present = words(d.cuts, d.stops, d.least_cuts, d.present)
    status = library().tezgumi_check_refined(
        *lists(run.loads, run.bytes, run.places), run.procs, d.pes, d.tolerance, d.keep_order, *lists(d.places), d.least,
        d.bottleneck, d.moved, *lists(cuts, stops, d.names, d.block_prices, d.pe_prices, least_cuts, d.order, present),
        *lists(d.step_starts, d.step_places, d.step_rises), ctypes.addressof(first), ctypes.addressof(second))
    if status > 0:
        flaw = flaw_of(status)
        return Verdict(flaw, (first.value, second.value)[:flaw.meaning.count("{")])
    hold(status)
    return Verdict()


def _refined(run: Run, pes: int, tolerance: int, keep_order: bool, steps: int) -> Room:
    room = Room(len(run), pes, steps)
    hold(library().tezgumi_refine(
        *lists(run.loads, run.bytes, run.places), run.procs, pes, tolerance, keep_order, *room.words()))
    return room
