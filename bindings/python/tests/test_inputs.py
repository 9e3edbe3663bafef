"""Runs and decisions: what they take, what they refuse and why, and how they are shown."""
import array
import collections
import copy
import pickle
from dataclasses import FrozenInstanceError, replace
from unittest import mock

import numpy as np

import tezgumi
from support import THREE, TimedTest, front, most_bytes
from tezgumi import planning, runs


class Taken(TimedTest):
    def test_lists_and_arrays_of_any_whole_numbers(self):
        kinds = [lambda n, kind=kind: np.array(n, kind) for kind in (np.int8, np.uint64, object, ">u4")]
        for make in (list, tuple, np.array, lambda n: np.repeat(np.array(n), 2)[::2], *kinds):
            run = tezgumi.Run(2, make([1, 1, 2]), make([10, 9, 8]), make([0, 1, 0]), step=5)
            self.assertEqual(run, THREE)
            self.assertEqual([a.dtype for a in (run.loads, run.bytes, run.places)], [np.uint64, np.uint32, np.uint32])

    def test_no_elements(self):
        self.assertEqual(len(tezgumi.Run(1, [], [], [])), 0)
        self.assertEqual(len(tezgumi.Run(1, range(0), np.array([]), ())), 0)

    def test_the_greatest_numbers(self):
        run = tezgumi.Run(4096, [tezgumi.TOTAL_LOAD], [2**32 - 1], [4095], step=2**32 - 1)
        self.assertEqual((run.loads[0], run.bytes[0], run.places[0]), (2**63 - 1, 2**32 - 1, 4095))
        sizes = np.append(np.full(2**15, 2**32 - 1, np.uint32), np.uint32(2**15))
        run = tezgumi.Run(1, np.zeros(2**15 + 1, int), sizes, np.zeros(2**15 + 1, int))
        self.assertEqual(int(run.bytes.sum(dtype=np.uint64)), tezgumi.TOTAL_BYTES)

    def test_what_has_a_buffer(self):
        loads, sizes, places = (array.array(kind, numbers) for kind, numbers in (("Q", [1, 1, 2]), ("I", [10, 9, 8]), ("I", [0, 1, 0])))
        for make in (lambda numbers: numbers, memoryview, np.asarray):
            lists = [make(numbers) for numbers in (loads, sizes, places)]
            self.assertEqual(tezgumi.Run(2, *lists, step=5), THREE)
            seen = tezgumi.Run(2, *lists, step=5, copy=False)
            self.assertEqual(seen, THREE)
            for numbers, own in ((seen.loads, loads), (seen.bytes, sizes), (seen.places, places)):
                self.assertEqual(numbers.__array_interface__["data"][0], own.buffer_info()[0])
                self.assertFalse(numbers.flags.writeable)
            self.assertEqual(tezgumi.decide(seen).places.tolist(), [1, 1, 0])
        signed = [array.array(kind, numbers) for kind, numbers in (("q", loads), ("i", sizes), ("i", places))]
        seen = tezgumi.Run(2, *signed, step=5, copy=False)
        self.assertEqual(seen, THREE)
        for numbers, own in zip((seen.loads, seen.bytes, seen.places), signed):
            self.assertEqual(numbers.__array_interface__["data"][0], own.buffer_info()[0])
        other = array.array("I", [1, 1, 2])
        seen = tezgumi.Run(2, other, sizes, places, step=5, copy=False)
        self.assertEqual(seen, THREE)
        self.assertNotEqual(seen.loads.__array_interface__["data"][0], other.buffer_info()[0])

    def test_a_run_is_a_copy_that_stays(self):
        loads = np.array([1, 1, 2], np.uint64)
        run = replace(THREE, loads=loads)
        loads[0] = 9
        self.assertEqual(run, THREE)
        for numbers in (run.loads, run.bytes, run.places):
            with self.assertRaises(ValueError):
                numbers[0] = 9
        with self.assertRaises(FrozenInstanceError):
            run.procs = 9
        self.assertIs(replace(run, step=6).loads, run.loads)
        seen = tezgumi.Run(2, loads, run.bytes, run.places, copy=False)
        self.assertFalse(np.shares_memory(replace(seen, step=6).loads, loads))

    def test_a_run_without_a_copy(self):
        loads = np.array([1, 1, 2], np.uint64)
        run = tezgumi.Run(2, loads, [10, 9, 8], [0, 1, 0], step=5, copy=False)
        self.assertEqual(run, THREE)
        self.assertTrue(np.shares_memory(run.loads, loads))
        with self.assertRaises(ValueError):
            run.loads[0] = 9
        self.assertTrue(loads.flags.writeable)
        for other in (loads.astype(np.uint32), loads.astype(">i8"), loads.astype(">u8"), np.repeat(loads, 2)[::2]):
            run = tezgumi.Run(2, other, [10, 9, 8], [0, 1, 0], step=5, copy=False)
            self.assertFalse(np.shares_memory(run.loads, other))
            self.assertEqual(run, THREE)

    def test_signed_numbers_without_a_copy(self):
        signed = np.array([1, 1, 2]), np.array([10, 9, 8], np.int32), np.array([0, 1, 0], np.int32)
        run = tezgumi.Run(2, *signed, step=5, copy=False)
        self.assertEqual(run, THREE)
        for numbers, kind, own in zip((run.loads, run.bytes, run.places), (np.uint64, np.uint32, np.uint32), signed):
            self.assertTrue(np.shares_memory(numbers, own))
            self.assertEqual((numbers.dtype, numbers.flags.writeable, own.flags.writeable), (kind, False, True))
        self.assertFalse(np.shares_memory(tezgumi.Run(2, *signed, step=5).loads, signed[0]))
        for place, name in enumerate(("loads", "bytes", "places")):
            wrong = [*signed[:place], -signed[place] - 1, *signed[place + 1:]]
            self.assertRaisesRegex(tezgumi.InputError, "^element 0 .* -", tezgumi.Run, 2, *wrong, copy=False)
            self.assertEqual(getattr(run, name).tolist(), getattr(THREE, name).tolist())
        prices = np.array([10, 1], np.uint64)
        kept = tezgumi.lists.frozen(prices, np.int64, "prices", copy=False)
        self.assertTrue(np.shares_memory(kept, prices))
        self.assertEqual((kept.dtype, kept.tolist()), (np.int64, [10, 1]))
        prices[0] = 2**63
        self.assertRaisesRegex(tezgumi.InputError, "9223372036854775808", tezgumi.lists.frozen, prices, np.int64, "prices", copy=False)

    def test_whole_numbers_that_numpy_has_no_type_for(self):
        for make in (list, tuple, collections.deque, lambda numbers: np.array(numbers, object)):
            self.assertEqual(tezgumi.Run(2, make([np.uint64(1), np.int64(1), 2]), [10, 9, 8], [0, 1, 0], step=5), THREE)

    def test_equality(self):
        self.assertNotEqual(THREE, replace(THREE, step=6))
        self.assertNotEqual(THREE, replace(THREE, loads=[1, 1, 1]))
        self.assertNotEqual(THREE, 5)
        self.assertRaises(TypeError, hash, THREE)

    def test_left_out(self):
        run = tezgumi.Run(3, [5, 6, 7, 8])
        self.assertEqual(run, tezgumi.Run(3, [5, 6, 7, 8], [1, 1, 1, 1], [0, 0, 1, 2]))
        self.assertEqual(tezgumi.Run(2, [5, 6], places=[1, 1]), tezgumi.Run(2, [5, 6], [1, 1], [1, 1]))
        self.assertEqual(tezgumi.Run(2, [5, 6], [7, 8]), tezgumi.Run(2, [5, 6], [7, 8], [0, 1]))
        self.assertEqual(len(tezgumi.Run(2, [])), 0)
        # As charm_run opens the worked run and the hot spot.
        self.assertEqual(tezgumi.Run(2, np.zeros(4, int)).places.tolist(), [0, 0, 1, 1])
        self.assertEqual(tezgumi.Run(16, np.zeros(300, int)).places.tolist(), front().places.tolist())
        for array in (run.bytes, run.places):
            self.assertEqual((array.dtype, array.flags.writeable), (np.uint32, False))
        loads = np.array([1, 2], np.uint64)
        self.assertTrue(np.shares_memory(tezgumi.Run(2, loads, copy=False).loads, loads))

    def test_what_was_pickled_or_copied(self):
        for record in (THREE, tezgumi.Decision(2, [1, 1, 0], 2, 10, [0, 2, 3], [0, 1, 2], [1, 0], [10, 1], [-1, 0], [(0, 0, 1)])):
            for again in (pickle.loads(pickle.dumps(record)), copy.deepcopy(record)):
                self.assertEqual(again, record)
                arrays = [value for value in vars(again).values() if isinstance(value, np.ndarray)]
                self.assertGreater(len(arrays), 2)
                self.assertFalse(any(array.flags.writeable for array in arrays))
        frozen = np.array([1, 2])
        frozen.setflags(write=False)
        divided = planning.Divided(frozen, frozen)
        divided.unit = 0.5
        for given in (divided, tezgumi.Scaled(frozen, 0.5), tezgumi.parts.Division(2, frozen, frozen), tezgumi.parts.Weights(frozen, frozen)):
            for again in (pickle.loads(pickle.dumps(given)), copy.deepcopy(given)):
                self.assertIs(type(again), type(given))
                self.assertEqual(repr(again), repr(given))
                self.assertFalse(any(part.flags.writeable for part in again if isinstance(part, np.ndarray)))

    def test_differences_of_cuts(self):
        decision = tezgumi.Decision(2, [1, 1, 0], 2, 10, [0, 2, 3], [0, 1, 2], [1, 0], [10, 1], [-1, 0], [(0, 0, 1)])
        self.assertEqual((decision.cuts - [0, 3, 3]).tolist(), [0, -1, 0])
        self.assertEqual((decision.cuts.dtype, decision.stops.dtype), (np.int64, np.int64))

    def test_after_a_plan(self):
        plan = tezgumi.Plan(3, [2, 1, 0], 2, 18)
        self.assertEqual(THREE.after(plan, step=6), tezgumi.Run(3, [1, 1, 2], [10, 9, 8], [2, 1, 0], step=6))
        self.assertRaisesRegex(tezgumi.InputError, "the plan is for 3 elements, and the run has 300", front().after, plan)


class Refused(TimedTest):
    def refuses(self, text, kind=tezgumi.InputError, **changed):
        with self.assertRaisesRegex(kind, text):
            replace(THREE, **changed)

    def test_a_load(self):
        text = "^element 1 has too great a load: 9223372036854775808, and at most 9223372036854775807 is taken$"
        self.refuses(text, tezgumi.LoadError, loads=[1, 2**63, 1])
        self.refuses("^element 2 has too great a load", tezgumi.LoadError, loads=[1, 1, 2**70])
        self.refuses("^element 1 has too great a load", tezgumi.LoadError, loads=np.array([1, np.uint64(2**63), 2], object))
        self.refuses("^element 0 has the load -1, and not a whole number from 0 to 9223372036854775807$", loads=[-1, 1, 1])
        for scale in (None, False):
            self.refuses("^element 1 has the load 1.5, and not a whole number .*; scale=True", loads=np.array([1, 1.5, 1], object), scale=scale)
        self.refuses("^element 1 has the load 1.5, and not a whole number .*; scale=True", loads=[1, 1.5, 1], scale=False)
        self.refuses("^element 0 has the load nan", loads=np.array([np.nan, 1, 1]), scale=False)
        self.refuses("^element 0 has the load 1.0", loads=np.array([1.0, 1.0, 1.0]), scale=False)
        self.refuses("^element 1 has the load None", loads=[1, None, 2])
        self.refuses("^element 0 has the load True", loads=[True, False, True])
        self.refuses("^element 0 has the load '1'", loads=["1", "2", "3"])
        self.refuses("^element 1 has the load -1", loads=[2**63, -1, 1][::-1])

    def test_the_first_that_is_none(self):
        for make in (list, tuple, collections.deque):
            self.refuses("^element 1 has the load 1.5", loads=make([1, 1.5, 1]), scale=False)
            self.refuses("^element 2 has the load None", loads=make([1, 1, None]))
        for loads, shown in (
                (array.array("d", [1.5, 2.0, 3.0]), "1.5"), (memoryview(array.array("d", [1.5, 2.0, 3.0])), "1.5"),
                (np.array([1.5, 2, 3], np.float32), "1.5"), (np.array([True, False, True]), "True"), (np.array(["a", "b", "c"]), "'a'"),
                (np.array([1j, 2, 3]), "1j")):
            self.refuses("^element 0 has the load " + shown, loads=loads, scale=False)

    def test_an_array_of_floats_is_refused_at_once(self):
        count = 1_000_000
        floats, zeros = np.linspace(0, 1, count), np.zeros(count, np.uint32)
        for loads in (floats, floats[::2], floats.astype(np.float32), memoryview(floats), floats > 0):
            words = 2, loads, zeros, zeros
            most, _ = most_bytes(lambda: self.assertRaisesRegex(
                tezgumi.InputError, "^element 0 has the load", tezgumi.Run, *words, copy=False, scale=False))
            self.assertLess(most, count // 4)
        for words, text in (((2, zeros, floats, zeros), "packed size 0.0"), ((2, zeros, zeros, floats), "place is 0.0")):
            most, _ = most_bytes(lambda: self.assertRaisesRegex(tezgumi.InputError, text, tezgumi.Run, *words, copy=False))
            self.assertLess(most, count // 4)
        odd = np.array([*range(count), 0.5], object)
        most, _ = most_bytes(lambda: self.assertRaisesRegex(
            tezgumi.InputError, rf"^numbers\[{count}\] is 0.5", tezgumi.lists.frozen, odd, np.uint64, "numbers"))
        self.assertLess(most, count // 4)

    def test_loads_that_add_up_to_too_much(self):
        for loads, whole in (([2**62, 2**62, 0], 2**63), ([2**63 - 1, 2**63 - 1, 3], 2**64 + 1), ([1, 2**63 - 1, 0], 2**63)):
            text = f"^the loads add up to {whole}, and at most 9223372036854775807 is taken$"
            self.refuses(text, tezgumi.LoadError, loads=loads)
        self.assertEqual(replace(THREE, loads=[2**62, 2**62 - 1, 0]).loads.tolist(), [2**62, 2**62 - 1, 0])

    def test_packed_sizes_that_add_up_to_too_much(self):
        sizes = np.append(np.full(2**15, 2**32 - 1, np.uint32), np.uint32(2**15 + 1))
        text = "^the packed sizes add up to 140737488355329, and at most 140737488355328 bytes are taken$"
        with self.assertRaisesRegex(tezgumi.InputError, text):
            tezgumi.Run(1, np.full(sizes.size, 2**60), sizes, np.zeros(sizes.size, int))

    def test_a_packed_size(self):
        self.refuses("^element 2 has more than 4294967295 bytes: 4294967296$", bytes=[1, 1, 2**32])
        self.refuses("^element 0 has the packed size -3, and not a whole number from 0 to 4294967295$", bytes=[-3, 1, 1])

    def test_a_place(self):
        self.refuses("^element 1 is on no processor: its place is 2, and with 2 PEs it is 0 to 1$", places=[0, 2, 0])
        self.refuses("^element 2 is on no processor: its place is -1", places=np.array([0, 0, -1]))
        self.refuses("^element 1 is on no processor: its place is 1, and with 1 PEs", procs=1)

    def test_numbers_of_pes_and_steps(self):
        for procs in (0, 4097, -1, True):
            self.refuses("^procs is .*; it has to be 1 to 4096$", procs=procs)
        self.refuses("^procs is 2.0, which is no whole number$", procs=2.0)
        self.refuses("^step is 4294967296; it has to be 0 to 4294967295$", step=2**32)

    def test_what_is_no_list(self):
        for given, text in (
                ((n for n in [1]), "a generator: list"), ({1, 2, 3}, "a set$"), (frozenset([1]), "a frozenset$"), ({1: 2}, r"a dict: list\(it.values"),
                ({1: 2}.values(), "a dict_values: list"), (iter([1]), "a list_iterator: list"), ("123", "a str$"), (b"123", "a bytes$"),
                (np.array([3, 2, 1], "m8[s]"), r"one of timedelta64\[s\]; divide it by np.timedelta64\(1, 's'\) for seconds$"),
                (np.array(["2024-01-01"], "M8[D]"), r"one of datetime64\[D\]$"), ([np.timedelta64(3, "s")], "one of timedelta64")):
            for name in ("loads", "bytes", "places"):
                self.refuses(f"^{name}: a list or an array of numbers is wanted, and not {text}", **{name: given})
            self.assertRaisesRegex(tezgumi.InputError, "^loads: a list or an array of numbers is wanted, and not ", tezgumi.divide, given, 2)
            self.assertRaisesRegex(tezgumi.InputError, "^loads: a list or an array of numbers is wanted, and not ", tezgumi.scaled, given)
        self.refuses("^loads: a list or an array of numbers is wanted, and not None$", loads=None)

    def test_a_mask(self):
        for mask in ([0, 0, 1], False):
            masked = np.ma.array([1, 1, 2], mask=mask)
            for name in ("loads", "bytes", "places"):
                self.refuses(f"^{name}: a masked array is not taken, as its mask would be lost", **{name: masked})
            for call in (lambda: tezgumi.divide(masked, 2), lambda: tezgumi.divide(masked.astype(float), 2), lambda: tezgumi.scaled(masked)):
                self.assertRaisesRegex(tezgumi.InputError, "^loads: a masked array is not taken", call)

    def test_other_things_than_runs_and_decisions(self):
        plan = tezgumi.Plan(2, [1, 1, 0], 2, 10)
        dump = tezgumi.Dump(THREE)
        for call, text in (
                (lambda: tezgumi.plan([2, 1], 3), r"^run: a tezgumi.Run is wanted, and not a list; Run\(procs, loads\) makes one$"),
                (lambda: tezgumi.decide(dump), "^run: a tezgumi.Run is wanted, and not a Dump; read_dump returns `run, decision`$"),
                (lambda: tezgumi.check(THREE, plan), "^decision: a Decision is wanted, and not a Plan, which has no certificates; decide"),
                (lambda: tezgumi.check(plan, plan), "^run: a tezgumi.Run is wanted, and not a Plan"),
                (lambda: tezgumi.figures(THREE, THREE), "^plan: a Plan or a Decision is wanted, and not a Run"),
                (lambda: tezgumi.figures(None, plan), "^run: .* not a NoneType"), (lambda: tezgumi.sweep([1]), "^run: .* not a list"),
                (lambda: tezgumi.pe_loads([1], [0], 1), "^run: .* not a list"), (lambda: tezgumi.encode(plan), "^run: .* not a Plan"),
                (lambda: tezgumi.encode(THREE, plan), "^decision: .* not a Plan"),
                (lambda: tezgumi.replay_text(THREE, plan), "^decision: .* not a Plan"),
                (lambda: tezgumi.json_of(THREE, plan), "^decision: .* not a Plan"),
                (lambda: tezgumi.page(THREE, "no.html"), "^rounds: a list of rounds is wanted, and not a Run$"),
                (lambda: tezgumi.page(dump, "no.html"), "^rounds: a list of rounds is wanted, and not a Dump$"),
                (lambda: tezgumi.page(5, "no.html"), "^rounds: a list of rounds is wanted, and not a int$"),
                (lambda: tezgumi.page([plan], "no.html"), "^round 1: the path of a file, a Run, or a Run and its Decision is wanted, and not a Plan"),
                (lambda: tezgumi.page([(THREE, plan)], "no.html"), "^round 1: a Decision is wanted beside the run, and not a Plan$")):
            self.assertRaisesRegex(tezgumi.InputError, text, call)

    def test_the_form_of_the_lists(self):
        self.refuses("^there are 2 loads, 3 packed sizes and 3 places", loads=[1, 2])
        self.refuses("^loads: a list of one dimension is wanted, and not of 2$", loads=[[1], [2], [3]])
        self.refuses("^bytes: a list of one dimension is wanted, and not of 0$", bytes=5)
        self.refuses("^places: a list of whole numbers is wanted", places=[[1], [2, 3]])
        text = "^there are 3 elements, and at most 2 are taken$"
        with mock.patch.object(runs, "ELEMENTS", 2), self.assertRaisesRegex(tezgumi.InputError, text):
            replace(THREE)

    def test_a_place_is_told_before_a_load_that_is_too_great(self):
        self.refuses("^element 2 is on no processor", loads=[2**63, 1, 1], places=[0, 0, 2])

    def test_a_decision(self):
        decision = tezgumi.Decision(2, [1, 1, 0], 2, 10, [0, 2, 3], [0, 1, 2], [1, 0], [10, 1], [-1, 0], [(0, 0, 1)])
        for changed, text in (
                ({"pes": 0}, "^pes is 0"),
                ({"bottleneck": -1}, "^bottleneck is -1"),
                ({"moved": 2**64}, "^moved is 18446744073709551616"),
                ({"cuts": [0, -1, 3]}, r"^cuts\[1\] is -1; it has to be a whole number from 0 to 4294967295$"),
                ({"names": [0, 2**32]}, r"^names\[1\] is 4294967296"), ({"stops": [0.5]}, r"^stops\[0\] is 0.5"),
                ({"pe_prices": [2**63, 0]}, r"^pe_prices\[0\] is 9223372036854775808"),
                ({"moves": [(0, 0, -1)]}, r"^moves.planned\[0\] is -1")):
            with self.assertRaisesRegex(tezgumi.InputError, text):
                replace(decision, **changed)
        self.assertEqual(replace(decision, moves=decision.moves.copy()), decision)
        self.assertEqual(replace(decision, moves=np.array([[0, 0, 1]])), decision)


class Shown(TimedTest):
    def test_a_run(self):
        self.assertEqual(repr(THREE), "Run(3 elements, procs=2, loads=[1 1 2], bytes=[10 9 8], places=[0 1 0], step=5)")
        self.assertEqual(
            repr(front()),
            "Run(300 elements, procs=16, loads=[20 22 24 .. 29 31 20], bytes=[200 799 597 .. 281 880 678], "
            "places=[0 0 0 .. 15 15 15], step=12)")

    def test_a_plan_and_a_decision(self):
        self.assertEqual(repr(tezgumi.Plan(2, [1, 1, 0], 2, 10)), "Plan(pes=2, bottleneck=2, moved=10, places=[1 1 0])")
        decision = tezgumi.Decision(2, [1, 1, 0], 2, 10, [0, 2, 3], [0, 1, 2], [1, 0], [10, 1], [-1, 0], [(0, 0, 1)])
        self.assertEqual(
            repr(decision),
            "Decision(pes=2, bottleneck=2, moved=10, places=[1 1 0], cuts=[0 2 3], names=[1 0], stops=[0 1 2], 1 moves)")
