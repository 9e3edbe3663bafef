"""The calls of the library for decisions within a tolerance in any order of the PEs."""
from __future__ import annotations

import ctypes
from typing import List

import numpy as np

from .checking import Flaw, Verdict
from .library import library, lists
from .refining import STEPS, Room
from .runs import Decision, Plan, ReorderedDecision, Run, words
from .statuses import hold

LEVELS = 8
"""At first there is room for so many levels of bounds for each PE."""


class _AnyRoom(Room):
    """The lists and numbers that tezgumi_reorder writes, with room for so many steps and levels."""

    def __init__(self, count: int, pes: int, steps: int, levels: int) -> None:
        super().__init__(count, pes, steps)
        self.level_starts = np.empty(2 * pes + 3, np.uintp)
        self.level_places, self.level_bytes = np.empty(levels, np.uint32), np.empty(levels, np.uint64)
        self.reordered = ctypes.c_uint32()
        self.levels_count = ctypes.c_size_t()

    def words(self) -> List[int]:
        """What is passed behind the run, the number of PEs and the tolerance."""
        return [
            *self.decided(self.least, self.bottleneck, self.moved, self.near, self.reordered),
            *lists(self.level_starts, self.level_places, self.level_bytes), ctypes.addressof(self.levels_count)]

    def reordered_decision(self, run: Run, tolerance: int) -> ReorderedDecision:
        """The decision that was written, where no cuts and names move fewer bytes."""
        levels = self.levels_count.value
        return ReorderedDecision(
            *self.told(run), tolerance, self.least.value, self.least_cuts, self.level_starts, self.level_places[:levels],
            self.level_bytes[:levels])


def plan_in_any_order(run: Run, pes: int, tolerance: int) -> Plan:
    """The places of a decision in any order of the PEs."""
    room = _reordered(run, pes, tolerance, 0, 0)
    return Plan(pes, room.places, room.bottleneck.value, room.moved.value)


def decide_in_any_order(run: Run, pes: int, tolerance: int) -> Decision:
    """The decision in any order of the PEs: a ReorderedDecision, or what is decided where that is not asked for."""
    steps, levels = STEPS * pes, LEVELS * pes
    room = _reordered(run, pes, tolerance, steps, levels)
    if room.steps_count.value > steps or room.levels_count.value > levels:
        room = _reordered(run, pes, tolerance, max(steps, room.steps_count.value), max(levels, room.levels_count.value))
    return room.reordered_decision(run, tolerance) if room.reordered.value else room.decision(run, tolerance, False)


def check_reordered(run: Run, decision: ReorderedDecision) -> Verdict:
    """What the proved checker says of it."""
    d = decision
    at = [ctypes.c_uint32() for _ in range(3)]
    cuts, stops, least_cuts = words(d.cuts, d.stops, d.least_cuts)
    status = library().tezgumi_check_reordered(
        *lists(run.loads, run.bytes, run.places), run.procs, d.pes, d.tolerance, *lists(d.places), d.least, d.bottleneck, d.moved,
        *lists(cuts, stops, d.names, d.block_prices, d.pe_prices, least_cuts, d.level_starts, d.level_places, d.level_bytes),
        *map(ctypes.addressof, at))
    if status > 0:
        flaw = next(flaw for flaw in Flaw if flaw == status)
        return Verdict(flaw, tuple(number.value for number in at)[:flaw.meaning.count("{")])
    hold(status)
    return Verdict()


def _reordered(run: Run, pes: int, tolerance: int, steps: int, levels: int) -> _AnyRoom:
    room = _AnyRoom(len(run), pes, steps, levels)
    hold(library().tezgumi_reorder(*lists(run.loads, run.bytes, run.places), run.procs, pes, tolerance, *room.words()))
    return room
