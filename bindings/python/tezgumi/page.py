"""A page that shows a run: one file, which any browser opens, without a network.

The page has what was measured and decided in each round as numbers, compressed, and the program that draws it and checks the
decisions again. Its parts stand in web/: the page itself, its style, and the scripts, in the order of SCRIPTS.
"""
from __future__ import annotations

import base64
import hashlib
import html
import json
import os
from collections import abc
from dataclasses import dataclass
from typing import Any, Dict, Iterable, List, Sequence, Tuple

import numpy as np
from numpy.typing import NDArray

from .columns import Head, block, folded
from .dumps import Dump
from .errors import InputError
from .figures import pe_loads
from .files import Path, refuse_inputs, refuse_one_input_twice
from .planning import decide as decide_now
from .rounds import Decide, Given, Round, taken_rounds
from .runs import Decision, Plan, Run
from .traces import packed, read_trace
from .version import __version__

MOST_BYTES = 8_000_000
"""A page has at most so many bytes: the elements of rounds for which there is no room are left out, and the page says which."""
SCRIPTS = (
    "check.js", "heights.js", "data.js", "numbers.js", "colors.js", "canvas.js", "rounds.js", "pictures.js", "tables.js",
    "chain.js", "checks.js", "timeline.js", "main.js")
_WEB = os.path.join(os.path.dirname(os.path.abspath(__file__)), "web")


@dataclass(frozen=True)
class Written:
    """What was written: how many bytes; which rounds, from 1, have their elements left out for want of room; and what is to be said
    of the order of the rounds."""

    bytes: int
    left_out: Tuple[int, ...]
    notes: Tuple[str, ...] = ()


def page(
        rounds: Iterable[Given], path: Path, trace: Path | None = None, title: str | None = None,
        decide: Decide | None = decide_now, anew: bool = False, most: int = MOST_BYTES, procs: int | None = None) -> Written:
    """Writes a page that shows the rounds of a run, in order, into a file.

    A round is the path of a dump or a table (`-` is the standard input), a Run, or a Run with its Decision. Where all are paths they are
    put in the order of their steps; two of one step, and arrays of different lengths, are refused. Rounds of other kinds stand as given.
    A table has the step behind that of the round before it, and `procs` is the number of PEs of one without places.

    Where no decision is recorded, or of every round where `anew` is set, `decide` makes one now, and the page says at that round that
    it was planned here; with decide=None such a round has none. A ReorderedDecision is refused. `trace` is a file in the Trace Event
    Format. A page has at most `most` bytes where the elements of enough rounds can be left out for that. InputError tells that there
    are no rounds, or that the page would be written over a file that is read; DumpError, TableError and TraceError what is wrong with a file.
    """
    if isinstance(rounds, (str, bytes, os.PathLike)):
        raise InputError(f"rounds is {rounds!r}, and a list of rounds is wanted")
    if isinstance(rounds, (Run, Dump)) or not isinstance(rounds, abc.Iterable):
        raise InputError(f"rounds: a list of rounds is wanted, and not a {type(rounds).__name__}")
    given = list(rounds)
    if not given:
        raise InputError("a page has one round at least")
    inputs = [*(one for one in given if isinstance(one, (str, os.PathLike))), trace]
    refuse_inputs(path, inputs)
    refuse_one_input_twice(inputs)
    taken, notes = taken_rounds(given, decide, anew, procs)
    text, left_out = _page_of(taken, notes, title or _title_of(taken), trace, most)
    data = _bytes(text)
    with open(path, "wb") as out:
        out.write(data)
    return Written(len(data), tuple(left_out), tuple(notes))


def _title_of(rounds: Sequence[Round]) -> str:
    name = os.path.basename(rounds[0].name)
    return name if len(rounds) == 1 else f"{name} to {os.path.basename(rounds[-1].name)}"


# The page


def _page_of(
        rounds: Sequence[Round], notes: Sequence[str], title: str, trace: Path | None, most: int) -> Tuple[str, List[int]]:
    described: Dict[str, Any] = {
        "title": title, "version": __version__, "notes": list(notes),
        "rounds": [_described(one) for one in rounds]}
    blocks = {}
    if trace is not None:
        described["trace"], blocks["trace"] = packed(read_trace(trace))
        described["trace"]["file"] = os.path.basename(os.fspath(trace))
    described["load_heads"], blocks["loads"] = block(_load_columns(rounds))
    whole = _filled(described, blocks)
    elements = _Elements(rounds)
    kept = elements.kept(most - len(_bytes(whole)))
    for number, one in enumerate(described["rounds"]):
        if number in kept:
            one["heads"], one["sizes"] = elements.heads[number], elements.sizes[number]
    described["size_heads"] = elements.size_heads
    blocks.update(elements.blocks(kept))
    return _filled(described, blocks), [number + 1 for number in range(len(rounds)) if number not in kept]


def _filled(described: Dict[str, Any], blocks: Dict[str, str]) -> str:
    """The text of the page. What comes from files is in its title and its description, as text and never as markup."""
    scripts = "\n".join(_part(name) for name in SCRIPTS)
    rows = [f'<script type="text/plain" id="{name}">{letters}</script>' for name, letters in blocks.items()]
    parts = {
        "title": html.escape(described["title"]),
        "style": _part("page.css"),
        "hash": base64.b64encode(hashlib.sha256(scripts.encode("utf-8")).digest()).decode(),
        "run": json.dumps(described, separators=(",", ":")).replace("<", "\\u003c"),
        "blocks": "\n".join(rows),
        "scripts": scripts,
    }
    pieces = _part("page.html").split("@@")
    return "".join(parts[piece] if place % 2 else piece for place, piece in enumerate(pieces))


def _bytes(text: str) -> bytes:
    # A title that is the name of a file may have what is no character.
    return text.encode("utf-8", "replace")


def _part(name: str) -> str:
    with open(os.path.join(_WEB, name), encoding="utf-8") as file:
        return file.read()


# What is told of a round


def _described(one: Round) -> Dict[str, Any]:
    run, decision = one.run, one.decision
    described: Dict[str, Any] = {
        "file": os.path.basename(one.name), "step": run.step, "procs": run.procs, "elements": len(run),
        "heaviest": str(int(run.loads.max(initial=0))), "bytes": str(int(run.bytes.sum(dtype=np.uint64))),
    }
    if decision is not None:
        described["decision"] = {"new": one.is_new, "made": one.made, **_described_decision(run, decision)}
    return described


def _described_decision(run: Run, decision: Decision) -> Dict[str, Any]:
    described: Dict[str, Any] = {
        "pes": decision.pes, "bottleneck": str(decision.bottleneck), "moved": str(decision.moved),
        "least": str(getattr(decision, "least", decision.bottleneck)), "tolerance": getattr(decision, "tolerance", None),
        "keep_order": getattr(decision, "keep_order", False),
    }
    if len(decision.places) == len(run):
        moving = run.places != decision.places
        described["moved_elements"] = int(np.count_nonzero(moving))
        described["moved_bytes"] = str(int(run.bytes.sum(dtype=np.uint64, where=moving)))
    return described


def _load_columns(rounds: Sequence[Round]) -> Iterable[Tuple[str, NDArray[np.uint64]]]:
    # Of each round the loads of the PEs as measured, and as decided: no numbers where the decision has no such loads.
    for one in rounds:
        yield "before", pe_loads(one.run, one.run.places, one.run.procs)
        yield "after", _loads_after(one.run, one.decision)


def _loads_after(run: Run, plan: Plan | None) -> NDArray[np.uint64]:
    try:
        return np.zeros(0, np.uint64) if plan is None else pe_loads(run, plan.places, plan.pes)
    except InputError:
        return np.zeros(0, np.uint64)


# The elements of the rounds


class _Elements:
    """The elements of each round and the decision on them, in letters. Packed sizes that several rounds have stand once."""

    def __init__(self, rounds: Sequence[Round]) -> None:
        self.heads: List[List[Head]] = []
        self.letters: List[str] = []
        self.sizes: List[int] = []
        self.size_heads: List[List[Head]] = []
        self.size_letters: List[str] = []
        known: Dict[bytes, int] = {}
        for one in rounds:
            heads, letters = block(_columns(one.run, one.decision))
            self.heads.append(heads)
            self.letters.append(letters)
            self.sizes.append(self._sizes(one.run, known))

    def _sizes(self, run: Run, known: Dict[bytes, int]) -> int:
        text = run.bytes.tobytes()
        if text not in known:
            known[text] = len(known)
            heads, letters = block([("bytes", run.bytes)])
            self.size_heads.append(heads)
            self.size_letters.append(letters)
        return known[text]

    def kept(self, room: int) -> Dict[int, None]:
        """The rounds whose elements there is room for, in this many bytes: the first, the last, and those between, spread out."""
        kept: Dict[int, None] = {}
        sizes = set()
        for number in _spread(len(self.letters)):
            needed = len(self.letters[number]) + 100 + 34 * len(self.heads[number])
            if self.sizes[number] not in sizes:
                needed += len(self.size_letters[self.sizes[number]]) + 120
            if needed > room:
                continue
            room -= needed
            sizes.add(self.sizes[number])
            kept[number] = None
        return kept

    def blocks(self, kept: Iterable[int]) -> Dict[str, str]:
        named = {}
        for number in sorted(kept):
            named[f"round-{number}"] = self.letters[number]
            named[f"sizes-{self.sizes[number]}"] = self.size_letters[self.sizes[number]]
        return named


def _spread(count: int) -> List[int]:
    """The numbers below a count, so that the first ones of them are always far apart: the ends, the middle, the quarters .."""
    order: Dict[int, None] = {}
    parts = 1
    while len(order) < count:
        order.update(dict.fromkeys(round(k * (count - 1) / parts) for k in range(parts + 1)))
        parts *= 2
    return list(order)


def _named_places(count: int, decision: Decision) -> NDArray[np.uint32]:
    """The place of each element by the name of its block; none where the cuts do not divide the elements."""
    cuts = decision.cuts
    lengths = np.diff(cuts)
    if cuts.size != len(decision.names) + 1 or cuts[0] != 0 or cuts[-1] != count or (lengths < 0).any():
        return np.zeros(0, np.uint32)
    return np.repeat(decision.names, lengths)


def _columns(run: Run, decision: Decision | None) -> Iterable[Tuple[str, Any]]:
    yield "loads", run.loads
    yield "places", run.places
    if decision is None:
        return
    for name in ("cuts", "stops", "names"):
        yield name, getattr(decision, name)
    yield "block_prices", folded(decision.block_prices)
    yield "pe_prices", folded(decision.pe_prices)
    # Mostly the places are those that the names tell, and the moves those that the places tell: then the page lists them itself.
    if not np.array_equal(_named_places(len(run), decision), decision.places):
        yield "planned", decision.places
    if len(decision.places) != len(run) or not np.array_equal(run.moves_to(decision.places), decision.moves):
        for name in decision.moves.dtype.names or ():
            yield f"move_{name}", decision.moves[name]
    # Those of a decision within a tolerance.
    for name in ("least_cuts", "order", "present", "step_starts", "step_places", "step_rises"):
        if hasattr(decision, name):
            yield name, getattr(decision, name)
