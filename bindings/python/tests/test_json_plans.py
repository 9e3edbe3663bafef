"""Plans in JSON: what they hold, and the reader that believes nothing, beside a plain checker."""
import json
import random
from dataclasses import replace
from unittest import mock

import numpy as np

import plain_decisions
import slow_checker
import tezgumi
from support import THREE, TimedTest, as_lists, example, front, random_run
from test_checking import FORGED, RIGHT, forge, forge_near
from test_tables import spoiled

# The plan of the three elements by hand, as docs/FORMATS.md has it in a dump.
TOLD = {
    "step": 5, "procs": 2, "elements": 3, "unit": None, "within": 0.0, "kind": "Decision", "pes": 2, "bottleneck": 2, "moved": 10,
    "cuts": [0, 2, 3], "stops": [0, 1, 2], "names": [1, 0], "block_prices": [10, 1], "pe_prices": [-1, 0], "moves": [[0, 0, 1]]}
# Loads 6, 2, 1 and 2 of 2, 37, 15 and 6 bytes on PEs 0, 0, 1 and 2: with 30 per cent the cuts 0 1 2 4 and the names 2 0 1 move 8 bytes,
# those of the first element and the last, as docs/FORMATS.md has it. The bounds are of no use: a reader looks at their form alone.
FOUR = tezgumi.Run(3, [6, 2, 1, 2], [2, 37, 15, 6], [0, 0, 1, 2], step=1)
REORDERED = tezgumi.ReorderedDecision(
    3, [2, 0, 1, 1], 6, 8, [0, 1, 2, 4], [0, 0, 0, 0], [2, 0, 1], [0, 0, 0], [0, 0, 0], [(0, 0, 2), (3, 2, 1)], 300, 6, [0, 1, 4, 4],
    [0] * 9, [], [])


def ten():
    return tezgumi.read_dump(example("ten-elements.lbd2"))


def near_ten(**how):
    return plain_decisions.near(ten().run, 200, **how)


def read(told, run=THREE, kind=tezgumi.Plan, **words):
    return kind.from_json(told if isinstance(told, (str, bytes)) else json.dumps(told), run, **words)


class Written(TimedTest):
    def test_by_hand(self):
        self.assertEqual(json.loads(tezgumi.json_of(THREE, RIGHT)), TOLD)
        self.assertEqual(json.loads(tezgumi.json_of(THREE, RIGHT, tezgumi.Verdict())), {**TOLD, "check": "check: ok"})
        self.assertNotIn("\n", tezgumi.json_of(THREE, RIGHT))

    def test_what_counting_may_cost(self):
        run = tezgumi.Run(2, [0.5, 0.25, 0.25], unit=None, scale=True)
        told = json.loads(tezgumi.json_of(run, plain_decisions.decided(run)))
        self.assertEqual((told["unit"], told["within"]), (run.unit, 3 * run.unit))
        self.assertEqual(told["bottleneck"] * told["unit"], 0.5)


class Read(TimedTest):
    def test_what_was_written(self):
        for run, decision in ((THREE, RIGHT), ten(), (ten().run, near_ten()), (ten().run, near_ten(keep_order=True)), (FOUR, REORDERED)):
            for text in (tezgumi.json_of(run, decision), tezgumi.json_of(run, decision, tezgumi.Verdict()).encode(),
                b"\xef\xbb\xbf" + tezgumi.json_of(run, decision).encode()):
                again = tezgumi.Plan.from_json(text, run, check=False)
                self.assertEqual(again, decision)
                self.assertIs(type(again), type(decision))
                self.assertFalse(any(value.flags.writeable for value in vars(again).values() if isinstance(value, np.ndarray)))

    def test_of_random_runs(self):
        for seed in range(80):
            run, pes = random_run(seed, elements=16, pes=6)
            decision = plain_decisions.decided(run, pes)
            again = tezgumi.Plan.from_json(tezgumi.json_of(run, decision), run)
            self.assertEqual(again, decision)
            self.assertTrue(tezgumi.check(run, again))

    def test_of_each_kind_by_the_planner(self):
        # What docs/BINDINGS.md shows of this run.
        kinds = []
        for options in {}, {"tolerance": 300}, {"tolerance": 300, "keep_order": True}, {"tolerance": 300, "any_order": True}:
            decision = tezgumi.decide(FOUR, **options)
            again = tezgumi.Plan.from_json(tezgumi.json_of(FOUR, decision), FOUR)
            self.assertEqual(again, decision)
            kinds.append((type(again).__name__, again.moved))
        self.assertEqual(kinds, [("Decision", 23), ("NearDecision", 17), ("NearDecision", 37), ("ReorderedDecision", 8)])

    def test_of_measured_loads(self):
        run = tezgumi.Run(2, [0.1, 0.2, 0.3])
        text = tezgumi.json_of(run, plain_decisions.decided(run))
        self.assertAlmostEqual(tezgumi.Plan.from_json(text, run).bottleneck * run.unit, 0.3, delta=run.within)
        other = replace(run, unit=2 * run.unit)
        self.assertRaisesRegex(
            tezgumi.PlanError, f"^plan: its loads are counted in units of {run.unit}, and those of this run of {other.unit}$",
            tezgumi.Plan.from_json, text, other)

    def test_what_is_left_aside(self):
        for changed in ({"step": 77}, {"check": "check: MovedWrong"}, {"check": 5}, {"within": "much"}):
            self.assertEqual(read({**TOLD, **changed}), RIGHT)
        self.assertEqual(read(dict(reversed(TOLD.items()))), RIGHT)
        self.assertEqual(read({name: value for name, value in TOLD.items() if name != "within"}), RIGHT)
        self.assertEqual(read(json.dumps(TOLD, indent=2) + "\n"), RIGHT)

    def test_kinds(self):
        near, text = near_ten(), tezgumi.json_of(ten().run, near_ten())
        for kind in (tezgumi.Plan, tezgumi.Decision, tezgumi.NearDecision):
            self.assertEqual(read(text, ten().run, kind, check=False), near)
        self.assertRaisesRegex(
            tezgumi.PlanError, "^plan: a ReorderedDecision is wanted, and it is a NearDecision$", read, text, ten().run, tezgumi.ReorderedDecision,
            check=False)
        self.assertRaisesRegex(tezgumi.PlanError, "^plan: a NearDecision is wanted, and it is a Decision$", read, TOLD, THREE, tezgumi.NearDecision)

    def test_without_prices(self):
        for run, decision in ((ten().run, near_ten(keep_order=True)), (FOUR, REORDERED)):
            bare = replace(decision, block_prices=[], pe_prices=[])
            self.assertEqual(read(tezgumi.json_of(run, bare), run, check=False), bare)
        bare = replace(near_ten(keep_order=True), block_prices=[], pe_prices=[])
        self.assertEqual(read(tezgumi.json_of(ten().run, bare), ten().run), bare)
        for run, decision in ((THREE, RIGHT), (ten().run, near_ten())):
            text = tezgumi.json_of(run, replace(decision, pe_prices=[]))
            self.assertRaisesRegex(tezgumi.PlanError, f"^plan: there are 0 pe_prices, and for {run.procs} PEs {run.procs} are wanted$", read, text,
                run, check=False)

    def test_without_the_library(self):
        with mock.patch.object(tezgumi.json_plans, "checked_by", side_effect=AssertionError):
            self.assertEqual(read(TOLD, check=False), RIGHT)


class Forged(TimedTest):
    limit = 60

    def refuses(self, text, told, run=THREE, **words):
        with self.assertRaisesRegex(tezgumi.PlanError, "^plan: " + text + "$") as caught:
            read(told, run, **words)
        self.assertIsNone(caught.exception.verdict)

    def test_each_flaw(self):
        # Lists of other lengths are refused, and so is what no list can be; the rest is for the check to say.
        for changed, line in FORGED:
            forged = replace(RIGHT, **changed)
            text = tezgumi.json_of(THREE, forged)
            if line in ("CutCount", "FenceCount", "NameCount", "PriceCount"):
                (name, numbers), = changed.items()
                self.refuses(f"there are {len(numbers)} {name}, and for 2 PEs .* wanted", text, check=False)
            elif "places" not in changed:
                with self.assertRaisesRegex(tezgumi.PlanError, f"^plan: it is flawed, check: {line}: ") as caught:
                    read(text)
                self.assertEqual(str(caught.exception.verdict), f"check: {line}")
                self.assertEqual(str(tezgumi.check(THREE, read(text, check=False))), f"check: {line}")

    def test_random_forgeries_beside_a_plain_checker(self):
        for seed in range(200):
            run, pes = random_run(seed, elements=12, pes=5)
            forged = forge(random.Random(seed), run, plain_decisions.decided(run, pes))
            self.assert_as_checked(run, forged, slow_checker.first_flaw)
        for seed in range(60):
            rng = random.Random(seed)
            count, pes = rng.randint(1, 9), rng.randint(1, 4)
            loads, sizes = ([rng.randint(0, 9) for _ in range(count)] for _ in range(2))
            run = tezgumi.Run(pes, loads, sizes, sorted(rng.randrange(pes) for _ in range(count)))
            forged = forge_near(rng, run, plain_decisions.near(run, rng.choice((0, 100, 500)), rng.random() < 0.5))
            self.assert_as_checked(run, forged, slow_checker.first_near_flaw)

    def test_spoiled_at_random(self):
        """Whatever a text is, it is a decision, or refused as a plan."""
        rng, read_well = random.Random(1), 0
        given = [(tezgumi.json_of(run, decision).encode(), run) for run, decision in ((THREE, RIGHT), (ten().run, near_ten()), (FOUR, REORDERED))]
        for _ in range(3000):
            text, run = rng.choice(given)
            try:
                read_well += isinstance(tezgumi.Plan.from_json(spoiled(rng, text), run, check=False), tezgumi.Decision)
            except tezgumi.PlanError as error:
                self.assertTrue(str(error).startswith("plan: "))
        self.assertGreater(read_well, 20)

    def assert_as_checked(self, run, forged, first_flaw):
        """What the reader makes of a forged decision has the places that the forged moves lead to, and the flaw that a plain checker tells."""
        wanted = as_lists(forged)
        wanted["places"] = run.places.tolist()
        for element, _, planned in wanted["moves"]:
            wanted["places"][element] = planned
        text = tezgumi.json_of(run, forged)
        self.assertEqual(as_lists(tezgumi.Plan.from_json(text, run, check=False)), wanted)
        line = first_flaw(as_lists(run), wanted)
        if line == "check: ok":
            self.assertEqual(as_lists(tezgumi.Plan.from_json(text, run)), wanted)
        else:
            self.assertRaisesRegex(tezgumi.PlanError, f"^plan: it is flawed, {line}: ", tezgumi.Plan.from_json, text, run)

    def test_numbers_that_are_none(self):
        words = ((None, "null"), (True, "true"), (0.5, "0.5"), (1.0, "1.0"), ("1", '"1"'), ((), "a list of 0"), ((1, (2,)), "a list of 2"))
        for run, told in ((THREE, TOLD), (ten().run, json.loads(tezgumi.json_of(ten().run, near_ten()))),
            (FOUR, json.loads(tezgumi.json_of(FOUR, REORDERED)))):
            for name, value in told.items():
                if name in ("within", "kind", "unit", "keep_order"):
                    continue
                for wrong, shown in words:
                    for place in range(len(value)) if isinstance(value, list) else [None]:
                        changed = [*value] if place is not None else wrong
                        if place is not None:
                            changed[place] = wrong
                        if name == "moves" and isinstance(wrong, tuple):
                            shown_as = f"moves\\[{place}\\] is {shown}, and an element, its PE and the planned one are wanted"
                        elif name == "moves":
                            shown_as = f"moves\\[{place}\\] is {shown}, and a list is wanted"
                        else:
                            at = f"{name}\\[{place}\\]" if place is not None else name
                            shown_as = f"{at} is {shown}, and a whole number from -?[0-9]+ to [0-9]+ is wanted"
                        self.refuses(shown_as, {**told, name: changed}, run, check=False)
        for row, text in (([0, 0], "moves\\[0\\] is a list of 2, and .*"), ([0, 0, 1.5], "moves\\[0\\].planned is 1.5, .*"),
            ([3, 0, 1], "moves\\[0\\].element is 3, .* from 0 to 2 .*"),
                          ([0, -1, 1], "moves\\[0\\].present is -1, .*"), ([0, 4096, 1], "moves\\[0\\].present is 4096, .*"),
                          ([0, 0, 4096], "moves\\[0\\].planned is 4096, .*")):
            self.refuses(text, {**TOLD, "moves": [row]})
        self.refuses("there are 4 moves, and at most one for each of 3 elements is wanted", {**TOLD, "moves": [[0, 0, 1]] * 4})
        self.refuses("moves is an object, and a list is wanted", {**TOLD, "moves": {}})
        self.refuses('cuts is "0 2 3", and a list is wanted', {**TOLD, "cuts": "0 2 3"})
        self.refuses("keep_order is 1, and true or false is wanted", {**json.loads(tezgumi.json_of(ten().run, near_ten())), "keep_order": 1},
            ten().run)

    def test_words_of_javascript(self):
        text = json.dumps(TOLD)
        for word in ("NaN", "Infinity", "-Infinity"):
            for old in ('"moved": 10', '"unit": null', '"within": 0.0'):
                name = old.split(":")[0]
                self.refuses(f"{word} is no number of JSON", text.replace(old, f"{name}: {word}"))
            self.refuses(f"{word} is no number of JSON", text.replace("[0, 2, 3]", f"[0, {word}, 3]"))

    def test_limits(self):
        for name, least, most in (
                ("pes", 1, 4096), ("bottleneck", 0, 2**64 - 1), ("moved", 0, 2**64 - 1), ("step", 0, 2**32 - 1), ("procs", 0, 4096),
                ("elements", 0, 2**32 - 1)):
            for number in (least - 1, most + 1):
                self.refuses(f"{name} is {number}, and a whole number from {least} to {most} is wanted", {**TOLD, name: number})
        for name, least, most in (
                ("cuts", 0, 2**32 - 1), ("stops", 0, 2**32 - 1), ("names", 0, 2**32 - 1), ("block_prices", -2**63, 2**63 - 1),
                ("pe_prices", -2**63, 2**63 - 1)):
            for number in (least - 1, most + 1):
                self.refuses(f"{name}\\[1\\] is {number}, and a whole number from {least} to {most} is wanted",
                    {**TOLD, name: [0, number, *TOLD[name][2:]]})
            for number in (least, most):
                made = read({**TOLD, name: [0, number, *TOLD[name][2:]]}, check=False)
                self.assertEqual(int(getattr(made, name)[1]), number)
        near = json.loads(tezgumi.json_of(ten().run, near_ten()))
        for number in (-1, 1001):
            self.refuses(f"tolerance is {number}, and a whole number from 0 to 1000 is wanted", {**near, "tolerance": number}, ten().run)
        for digits in ("9" * 21, "-" + "9" * 20, "9" * 100_000):
            self.refuses("a number is .*, and at most 20 digits are taken", json.dumps(TOLD).replace('"moved": 10', f'"moved": {digits}'))

    def test_lengths(self):
        near, reordered = json.loads(tezgumi.json_of(ten().run, near_ten())), json.loads(tezgumi.json_of(FOUR, REORDERED))
        counts = {"cuts": 1, "stops": 1, "names": 0, "block_prices": 0, "pe_prices": 0, "least_cuts": 1, "order": 0, "present": 1, "step_starts": 1}
        for told, run, more in ((TOLD, THREE, {}), (near, ten().run, {}), (reordered, FOUR, {"level_starts": told_levels(3) - 3})):
            for name in [name for name in {**counts, **more} if name in told]:
                wanted = told["pes"] + {**counts, **more}[name]
                self.assertEqual(len(told[name]), wanted)
                may_be_none = name == "stops" or "prices" in name and told is reordered
                for numbers in (told[name][:-1], told[name] + [0], *([] if may_be_none else [[]])):
                    self.refuses(f"there are {len(numbers)} {name}, and for {told['pes']} PEs {wanted}( or 0)? are wanted", {**told, name: numbers},
                        run)
        self.assertEqual(read({**TOLD, "stops": []}, check=False).stops.size, 0)
        for one, other, told, run in (("step_places", "step_rises", near, ten().run), ("level_places", "level_bytes", reordered, FOUR)):
            count = len(told[one])
            self.refuses(f"there are {count + 1} {one} and {count} {other}, and as many are wanted", {**told, one: told[one] + [0]}, run)
            self.refuses(f"there are {count} {one} and {count + 1} {other}, and as many are wanted", {**told, other: told[other] + [0]}, run)
        self.refuses("there are 3 cuts, and for 3 PEs 4 are wanted", {**TOLD, "pes": 3})

    def test_names(self):
        for name in TOLD:
            if name != "within":
                which = "" if name == "kind" else ", which a Decision has"
                self.refuses(f"there is no {name}{which}", {other: value for other, value in TOLD.items() if other != name})
        self.refuses('"tolerance" is nothing that a Decision has', {**TOLD, "tolerance": 20})
        self.refuses('"places" is nothing that a Decision has', {**TOLD, "places": [1, 1, 0]})
        self.refuses("there is no tolerance, which a NearDecision has", {**TOLD, "kind": "NearDecision"})
        self.refuses('kind is "Plan", and Decision, NearDecision, ReorderedDecision are known', {**TOLD, "kind": "Plan"})
        self.refuses("kind is a list of 1, and Decision, NearDecision, ReorderedDecision are known", {**TOLD, "kind": ["Decision"]})
        self.refuses('"moved" stands there twice', json.dumps(TOLD)[:-1] + ', "moved": 0}')
        self.refuses('"a" stands there twice', json.dumps(TOLD)[:-1] + ', "check": {"a": 1, "a": 1}}')

    def test_another_run(self):
        self.refuses("it is for a run of 3 elements, and this one has 300", TOLD, front())
        self.refuses("it is for a run of 2 PEs, and this one has 3", TOLD, replace(THREE, procs=3))
        for unit in (2.0**-40, 1, 0, -1.5):
            self.refuses(f"its loads are counted in units of {unit}, and those of this run of None", {**TOLD, "unit": unit})
        for unit, shown in (("1", '"1"'), (True, "true"), ([1], "a list of 1"), ({}, "an object")):
            self.refuses(f"unit is {shown}, and a number or null is wanted", {**TOLD, "unit": unit})
        self.refuses("its loads are counted in units of inf, and those of this run of None",
            json.dumps(TOLD).replace('"unit": null', '"unit": 1e999'))
        # The lists fit, and the loads are others: the check sees it.
        with self.assertRaisesRegex(tezgumi.PlanError, "^plan: it is flawed, check: Heavy 0: block 0 is heavier than the bottleneck$"):
            read(TOLD, replace(THREE, loads=[3, 1, 2]))

    def test_texts_that_are_none(self):
        for text, fault in (
                ("", "no JSON: line 1, column 1: .*"), ("{", "no JSON: line 1, column 2: .*"), (json.dumps(TOLD) + "x", "no JSON: line 1, column .*"),
                ("\n{'a': 1}", "no JSON: line 2, column 2: .*"), ("[]", "an object is wanted, and not a list of 0"),
                ("5", "an object is wanted, and not 5"),
                ("null", "an object is wanted, and not null"), (b"\xff", "byte 0 is no text in UTF-8"), ("{}", "there is no kind"),
                ("[" * 100_000, "no JSON of a plan: lists stand in lists, .*"), ('{"a":' * 100_000, "no JSON of a plan: lists stand in lists, .*")):
            self.refuses(fault, text)
        self.refuses("cuts\\[0\\] is a list of 1, and .*",
            json.dumps({**TOLD, "cuts": [0, 2, 3]}).replace('"cuts": [0', '"cuts": [' + "[" * 300 + "0" + "]" * 300))
        with mock.patch.object(tezgumi.json_plans, "MOST_BYTES", 10):
            self.refuses("more than 10 bytes", TOLD)
        for text, kind in ((5, "int"), (None, "NoneType"), (TOLD, "dict")):
            self.assertRaisesRegex(tezgumi.InputError, f"^text: the JSON of a plan is wanted, and not a {kind}$", tezgumi.Plan.from_json, text, THREE)
        self.assertRaisesRegex(tezgumi.InputError, "^run: a tezgumi.Run is wanted, and not a Dump", tezgumi.Plan.from_json, json.dumps(TOLD), ten())
        self.assertRaisesRegex(tezgumi.InputError, "^check is 1; it has to be True or False$", tezgumi.Plan.from_json, json.dumps(TOLD), THREE, 1)


def told_levels(pes):
    """There are bounds for 0 to pes blocks, twice, and where the last of them end."""
    return 2 * (pes + 1) + 1
