"""Plans in JSON: a decision with its certificates as a line of text, and the reader that has it checked, whoever wrote it."""
from __future__ import annotations

import json
from dataclasses import fields
from typing import Any, Callable, Dict, List, NamedTuple, NoReturn, Tuple, Type, Union

import numpy as np
from numpy.typing import NDArray

from .checking import Verdict
from .errors import InputError, PlanError
from .lists import truth
from .planning import check as checked_by
from .runs import MOVE, PES, TOLERANCE, Decision, NearDecision, ReorderedDecision, Run, taken_decision, taken_run

MOST_BYTES = 2**30
"""So many bytes a plan has at most."""

_KINDS: Dict[str, Type[Decision]] = {kind.__name__: kind for kind in (Decision, NearDecision, ReorderedDecision)}
_WORD, _LONG = 2**32 - 1, 2**64 - 1
_DIGITS = 20


class _List(NamedTuple):
    """A list of whole numbers from `least` to `most`: as many as `count` says of the number of PEs, or any number."""

    least: int
    most: int
    count: Callable[[int], Tuple[int, ...]] | None


def _of_pes(more: int, times: int = 1, or_none: bool = False) -> Callable[[int], Tuple[int, ...]]:
    return lambda pes: (times * pes + more, *((0,) if or_none else ()))


_NUMBERS = {"bottleneck": _LONG, "moved": _LONG, "least": _LONG, "tolerance": TOLERANCE}
_LISTS = {
    "cuts": _List(0, _WORD, _of_pes(1)), "stops": _List(0, _WORD, _of_pes(1, or_none=True)), "names": _List(0, _WORD, _of_pes(0)),
    "block_prices": _List(-2**63, 2**63 - 1, _of_pes(0)), "pe_prices": _List(-2**63, 2**63 - 1, _of_pes(0)),
    "least_cuts": _List(0, _WORD, _of_pes(1)), "order": _List(0, _WORD, _of_pes(0)), "present": _List(0, _WORD, _of_pes(1)),
    "step_starts": _List(0, _LONG, _of_pes(1)), "step_places": _List(0, _WORD, None), "step_rises": _List(0, _LONG, None),
    "level_starts": _List(0, _LONG, _of_pes(3, times=2)), "level_places": _List(0, _WORD, None), "level_bytes": _List(0, _LONG, None),
}
_TOLD = ("step", "procs", "elements", "unit", "kind")
# What says nothing that the run and the fields do not: a reader does without.
_LEFT_ASIDE = ("within", "check")


def json_of(run: Run, decision: Decision, checked: Verdict | None = None) -> str:
    """A decision as a line of JSON, which `Plan.from_json` reads: an object with the step, the number of PEs and of elements of the run,
    the unit of its loads and what counting in it may cost, and each field of the decision by its name, but for `places`, which the run and
    the moves tell; a move is the element, its PE and the planned one. `kind` is the name of the class. With `checked` it has what a check
    says, as `check`."""
    run, decision = taken_run(run), taken_decision(decision)
    told: Dict[str, Any] = {
        "step": run.step, "procs": run.procs, "elements": len(run), "unit": run.unit, "within": run.within, "kind": type(decision).__name__}
    for field in fields(decision):
        if field.name != "places":
            value = getattr(decision, field.name)
            told[field.name] = value.tolist() if isinstance(value, np.ndarray) else value
    if checked is not None:
        told["check"] = str(checked)
    return json.dumps(told)


def read_plan(text: Union[str, bytes], run: Run, check: bool) -> Decision:
    """The decision that a text of `json_of` has, which with `check` has to be right. PlanError tells what is wrong."""
    decision = _decision_of(text, taken_run(run))
    if truth(check, "check"):
        verdict = checked_by(run, decision)
        if not verdict:
            raise PlanError(f"it is flawed, {verdict}: {verdict.meaning}", verdict)
    return decision


def _decision_of(text: Union[str, bytes], run: Run) -> Decision:
    told = _object(text)
    name = told.get("kind")
    kind = _KINDS.get(name) if isinstance(name, str) else None
    if kind is None:
        _refuse(f"kind is {_shown(name)}, and {', '.join(_KINDS)} are known" if "kind" in told else "there is no kind")
    names = [field.name for field in fields(kind) if field.name != "places"]
    _refuse_other_names(told, names, kind.__name__)
    _refuse_other_run(told, run)
    pes = _whole(told["pes"], 1, PES, "pes")
    # Within a tolerance no price may count: in the present order of the PEs, and where bounds prove the names.
    is_priced = kind is not ReorderedDecision and told.get("keep_order") is not True
    values = {field: _field(field, told[field], pes, len(run), is_priced) for field in names if field != "pes"}
    for one, other in (("step_places", "step_rises"), ("level_places", "level_bytes")):
        if one in values and len(values[one]) != len(values[other]):
            _refuse(f"there are {len(values[one])} {one} and {len(values[other])} {other}, and as many are wanted")
    return kind(pes=pes, places=_places_after(run, values["moves"]), **values)


# What a text is


def _object(text: Union[str, bytes]) -> Dict[str, Any]:
    if not isinstance(text, (str, bytes)):
        raise InputError(f"text: the JSON of a plan is wanted, and not a {type(text).__name__}")
    if len(text) > MOST_BYTES:
        _refuse(f"more than {MOST_BYTES} bytes")
    try:
        letters = text.decode("utf-8-sig") if isinstance(text, bytes) else text
        told = json.loads(letters, object_pairs_hook=_once, parse_constant=_no_number, parse_int=_few_digits)
    except UnicodeDecodeError as error:
        _refuse(f"byte {error.start} is no text in UTF-8")
    except json.JSONDecodeError as error:
        _refuse(f"no JSON: line {error.lineno}, column {error.colno}: {error.msg}")
    except RecursionError:
        _refuse("no JSON of a plan: lists stand in lists, and these in others, too often")
    if not isinstance(told, dict):
        _refuse(f"an object is wanted, and not {_shown(told)}")
    return told


def _once(pairs: List[Tuple[str, Any]]) -> Dict[str, Any]:
    told: Dict[str, Any] = {}
    for name, value in pairs:
        if name in told:
            _refuse(f"{_shown(name)} stands there twice")
        told[name] = value
    return told


def _no_number(word: str) -> NoReturn:
    _refuse(f"{word} is no number of JSON")


def _few_digits(word: str) -> int:
    if len(word) > _DIGITS:
        _refuse(f"a number is {_shown(word)}, and at most {_DIGITS} digits are taken")
    return int(word)


# What it has to have


def _refuse_other_names(told: Dict[str, Any], names: List[str], kind: str) -> None:
    for name in (*_TOLD, *names):
        if name not in told:
            _refuse(f"there is no {name}, which a {kind} has")
    for name in told:
        if name not in (*_TOLD, *_LEFT_ASIDE, *names):
            _refuse(f"{_shown(name)} is nothing that a {kind} has")


def _refuse_other_run(told: Dict[str, Any], run: Run) -> None:
    """The step is told, and not compared: a table of the run has none."""
    _whole(told["step"], 0, _WORD, "step")
    for name, most, there in (("elements", _WORD, len(run)), ("procs", PES, run.procs)):
        number = _whole(told[name], 0, most, name)
        if number != there:
            _refuse(f"it is for a run of {number} {'PEs' if name == 'procs' else name}, and this one has {there}")
    unit = told["unit"]
    if unit is not None and (isinstance(unit, bool) or not isinstance(unit, (int, float))):
        _refuse(f"unit is {_shown(unit)}, and a number or null is wanted")
    if unit != run.unit:
        _refuse(f"its loads are counted in units of {unit!r}, and those of this run of {run.unit!r}")


def _field(name: str, value: Any, pes: int, elements: int, is_priced: bool) -> Any:
    if name in _NUMBERS:
        return _whole(value, 0, _NUMBERS[name], name)
    if name == "keep_order":
        if not isinstance(value, bool):
            _refuse(f"keep_order is {_shown(value)}, and true or false is wanted")
        return value
    if name == "moves":
        return _moves(value, elements)
    rule = _LISTS[name]
    numbers = _list(value, name)
    counts = rule.count(pes) if rule.count else (len(numbers),)
    if len(numbers) not in counts and (numbers or is_priced or "prices" not in name):
        _refuse(f"there are {len(numbers)} {name}, and for {pes} PEs {' or '.join(map(str, counts))} are wanted")
    for index, number in enumerate(numbers):
        _whole(number, rule.least, rule.most, f"{name}[{index}]")
    return numbers


def _moves(value: Any, elements: int) -> NDArray[np.void]:
    rows = _list(value, "moves")
    if len(rows) > elements:
        _refuse(f"there are {len(rows)} moves, and at most one for each of {elements} elements is wanted")
    for index, row in enumerate(rows):
        if len(_list(row, f"moves[{index}]")) != 3:
            _refuse(f"moves[{index}] is {_shown(row)}, and an element, its PE and the planned one are wanted")
        for number, name, most in zip(row, MOVE.names or (), (elements - 1, PES - 1, PES - 1)):
            _whole(number, 0, most, f"moves[{index}].{name}")
    moves = np.array([tuple(row) for row in rows], MOVE)
    moves.setflags(write=False)
    return moves


def _places_after(run: Run, moves: NDArray[np.void]) -> NDArray[np.uint32]:
    places = run.places.copy()
    places[moves["element"]] = moves["planned"]
    return places


def _list(value: Any, name: str) -> List[Any]:
    if not isinstance(value, list):
        _refuse(f"{name} is {_shown(value)}, and a list is wanted")
    return value


def _whole(value: Any, least: int, most: int, name: str) -> int:
    if isinstance(value, bool) or not isinstance(value, int) or not least <= value <= most:
        _refuse(f"{name} is {_shown(value)}, and a whole number from {least} to {most} is wanted")
    return value


def _shown(value: Any) -> str:
    if isinstance(value, list):
        return f"a list of {len(value)}"
    if isinstance(value, dict):
        return "an object"
    text = json.dumps(value[:60] if isinstance(value, str) else value)
    return text if len(text) <= 60 else text[:57] + ".."


def _refuse(fault: str) -> NoReturn:
    raise PlanError(fault)
