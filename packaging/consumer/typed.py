"""A user's program, which mypy --strict takes as it stands, and which runs."""
from __future__ import annotations

from typing import List, Tuple

import numpy as np
from numpy.typing import NDArray

import tezgumi


class Series:
    """What has numbers as a series of pandas has them."""

    def __init__(self, numbers: List[int]) -> None:
        self.numbers = np.array(numbers, dtype=np.int16)

    def __array__(self, *_: object, **__: object) -> NDArray[np.int16]:
        return self.numbers


def heaviest(run: tezgumi.Run, pes: int) -> int:
    decision: tezgumi.Decision = tezgumi.decide(run, pes)
    verdict: tezgumi.Verdict = tezgumi.check(run, decision)
    if not verdict:
        raise tezgumi.TezgumiError(verdict.meaning)
    moves: NDArray[np.void] = decision.moves
    cuts: List[int] = decision.cuts.tolist()
    assert len(moves) <= len(run) and cuts[0] == 0
    within: tezgumi.Decision = tezgumi.decide(run, pes, tolerance=200)
    assert tezgumi.check(run, within) and within.moved <= decision.moved
    if isinstance(within, tezgumi.NearDecision):
        heights: List[List[Tuple[int, int]]] = within.heights
        assert within.bottleneck <= within.limit and len(heights) == pes
    return decision.bottleneck


def main() -> None:
    loads, sizes, places = [2, 1, 2, 4, 4, 5], [100, 100, 100, 300, 300, 300], [0, 0, 1, 2, 2, 2]
    run = tezgumi.Run(3, np.array(loads, np.int32), np.array(sizes, np.uint16), Series(places))
    assert run == tezgumi.Run(procs=3, loads=loads, bytes=sizes, places=places)
    print("tezgumi", tezgumi.__version__, "heaviest", heaviest(run, 3))
    plan: tezgumi.Plan = tezgumi.plan(run)
    figures: tezgumi.Figures = tezgumi.figures(run, plan)
    print(f"{figures.imbalance_after:.3f}", *run.after(plan).places.tolist())


main()
