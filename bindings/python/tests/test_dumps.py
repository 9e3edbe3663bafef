"""Dumps of both formats: written, read, and every fault told as lb_sim tells it."""
import os
import tempfile
from dataclasses import replace

import numpy as np

import slow_reader
import tezgumi
from tezgumi import dumps
from support import THREE, TimedTest, as_lists, example, front, large_run, read_bytes

EXAMPLES = ("three-elements.lbd1", "three-elements.lbd2", "forged.lbd2", "moving-front.lbd1")
THREE_1, THREE_2 = (read_bytes(example(f"three-elements.lbd{version}")) for version in (1, 2))


def put(data, first, last, new):
    """The bytes with those from first to last replaced."""
    return data[:first] + new + data[last:]


def found(data):
    """What the package reads, as the slow reader has it, or the line of the fault."""
    try:
        run, decision = tezgumi.decode(data)
    except tezgumi.DumpError as error:
        return error.line
    lists = None if decision is None else as_lists(decision)
    if lists:
        lists.pop("places")
    rows = list(zip(run.loads.tolist(), run.bytes.tolist(), run.places.tolist()))
    return run.step, run.procs, rows, lists


def wanted(data):
    try:
        return slow_reader.read(data)
    except slow_reader.Fault as fault:
        return str(fault)


class Reading(TimedTest):
    limit = 40

    def assert_read(self, data):
        if found(data) != wanted(data):
            self.fail(f"{data!r}: {found(data)} and not {wanted(data)}")

    def test_the_examples(self):
        for name in EXAMPLES:
            self.assert_read(read_bytes(example(name)))
        self.assertEqual(tezgumi.read_dump(example("three-elements.lbd1")), (THREE, None))
        run, decision = tezgumi.read_dump(example("three-elements.lbd2"))
        self.assertEqual(run, THREE)
        self.assertEqual(as_lists(decision), {
            "pes": 2, "places": [1, 1, 0], "bottleneck": 2, "moved": 10, "cuts": [0, 2, 3], "stops": [0, 1, 2],
            "names": [1, 0], "block_prices": [10, 1], "pe_prices": [-1, 0], "moves": [(0, 0, 1)]})

    def test_cut_at_each_byte(self):
        for name in EXAMPLES[:3]:
            data = read_bytes(example(name))
            for end in range(len(data)):
                self.assertEqual(found(data[:end]), f"dump: ends at byte {end}")
        data = read_bytes(example(EXAMPLES[3]))
        for end in range(len(data)):
            self.assertRaisesRegex(tezgumi.DumpError, f"^dump: ends at byte {end}$", tezgumi.decode, data[:end])

    def test_each_byte_changed(self):
        for data in (THREE_1, THREE_2):
            for place, old in enumerate(data):
                for byte in {old ^ 1 << bit for bit in range(8)} | {0, 1, 2, 3, 4, 5, 127, 254, 255} - {old}:
                    self.assert_read(put(data, place, place + 1, bytes([byte])))

    def test_a_byte_changed_and_cut_behind_it(self):
        for data in (THREE_1, THREE_2):
            for place in range(len(data)):
                changed = put(data, place, place + 1, b"\xff")
                for end in range(place, min(place + 20, len(data))):
                    self.assert_read(changed[:end])

    def test_a_byte_changed_in_the_moving_front(self):
        data = read_bytes(example("moving-front.lbd1"))
        for place in range(0, len(data), 7):
            self.assert_read(put(data, place, place + 1, bytes([data[place] ^ 0xE0])))

    def test_bytes_behind(self):
        for data in (THREE_1, THREE_2):
            self.assertEqual(found(data + b"\0"), "dump: bytes after the last element")
            self.assertEqual(found(data + data), "dump: bytes after the last element")

    def test_lines_of_the_tests_of_lb_replay(self):
        rows = (
            (b"LBD3", "not LBD1 or LBD2"), (b"", "ends at byte 0"), (THREE_1[:15], "ends at byte 15"),
            (put(THREE_1, 51, 52, b"\2"), "element 2 is on no processor"),
            (put(THREE_1, 33, 34, b"\xff"), "element 1 has more than 1048576 bytes"),
            (put(THREE_1, 10, 11, b"\xff"), "procs out of 1..256"),
            (put(THREE_1, 13, 14, b"\1"), "more than 65536 elements"),
            (put(THREE_2, 18, 19, b"\x80"), "element 0 has too great a load"),
            (put(THREE_2, 67, 68, b"\2"), "flag is not 0 or 1"),
            (put(THREE_2, 71, 72, b"\0"), "target out of 1..256"),
            (put(THREE_2, 95, 96, b"\2"), "floor is not 0 or 1"),
            (put(THREE_2, 159, 160, b"\4"), "more moves than elements"),
            (put(THREE_2, 163, 164, b"\3"), "move 0 is out of range"),
            (THREE_2[:171], "ends at byte 171"), (THREE_2 + b"\0", "bytes after the last element"),
        )
        for data, line in rows:
            self.assertEqual(found(data), "dump: " + line)

    def test_the_text_tells_the_number_and_its_byte(self):
        for data, text in (
                (put(THREE_1, 51, 52, b"\2"), r"^dump: element 2 is on no processor \(2 at byte 48; the run has 2 PEs\)$"),
                (put(THREE_2, 18, 19, b"\x80"), r"load \(140737488355329 at byte 16; at most 140737488355327\)$"),
                (put(THREE_2, 171, 172, b"\0") + b"12", r"element \(2 of them, from byte 172 on\)$"),
                (put(THREE_2, 170, 171, b"\1"), r"range \(257 at byte 168; its planned PE\)$")):
            self.assertRaisesRegex(tezgumi.DumpError, text, tezgumi.decode, data)

    def test_no_elements_and_the_most(self):
        for data in (b"LBD1\0\0\0\0\0\0\0\3\0\0\0\0", b"LBD2\0\0\0\0\0\0\1\0\0\0\0\0\0\0\0\0"):
            self.assert_read(data)
        self.assertEqual(found(b"LBD1\0\0\0\0\0\0\0\3\0\1\0\0"), "dump: ends at byte 16")
        self.assertEqual(found(b"LBD1\0\0\0\0\0\0\0\3\0\1\0\1"), "dump: more than 65536 elements")

    def test_no_more_is_read_than_the_longest_dump(self):
        read = dumps.read_bytes("/dev/zero", dumps.MOST_BYTES)
        self.assertEqual(len(read), dumps.MOST_BYTES + 1)
        with self.assertRaisesRegex(tezgumi.DumpError, "not LBD1 or LBD2"):
            tezgumi.read_dump("/dev/zero")

    def test_a_file_that_is_not_there(self):
        self.assertRaises(FileNotFoundError, tezgumi.read_dump, example("no-such-dump"))


class Writing(TimedTest):
    def test_the_examples_are_written_again(self):
        for name in EXAMPLES:
            data = read_bytes(example(name))
            self.assertEqual(tezgumi.encode(*tezgumi.decode(data), version=int(name[-1])), data)
        self.assertEqual(tezgumi.encode(THREE, version=1), THREE_1)
        self.assertEqual(tezgumi.encode(THREE), THREE_2[:64] + bytes(4))

    def test_full_and_empty_runs(self):
        run = large_run()
        most = replace(run, loads=np.full(len(run), tezgumi.DUMP_LOAD), bytes=np.full(len(run), tezgumi.DUMP_STATE_BYTES))
        for one in (run, most, tezgumi.Run(256, [], [], [])):
            self.assertEqual(tezgumi.decode(tezgumi.encode(one)), (one, None))
        self.assertEqual(tezgumi.decode(tezgumi.encode(run, version=1)), (run, None))

    def test_a_file(self):
        run, decision = tezgumi.decode(THREE_2)
        with tempfile.TemporaryDirectory() as folder:
            path = os.path.join(folder, "mine.lbd2")
            tezgumi.write_dump(path, run, decision)
            self.assertEqual(read_bytes(path), THREE_2)

    def test_without_a_fence(self):
        run = replace(THREE, loads=[0, 0, 0])
        decision = tezgumi.Decision(2, [0, 0, 0], 0, 9, [0, 3, 3], [], [0, 1], [9, 0], [0, 0], [(1, 1, 0)])
        self.assertEqual(tezgumi.decode(tezgumi.encode(run, decision)), (run, decision))

    def test_runs_that_are_larger_than_a_dump(self):
        many, run, decision = [0] * 65_537, *tezgumi.decode(THREE_2)
        wide = tezgumi.Decision(257, [1, 1, 0], 2, 10, [0] * 258, [], range(257), [0] * 257, [0] * 257, [(0, 0, 1)])
        for given, text in (
                ((tezgumi.Run(2, many, many, many),), "^there are 65537 elements, and a dump has at most 65536$"),
                ((replace(run, procs=257), decision), "^the run has 257 PEs, and a dump has at most 256$"),
                ((replace(run, loads=[1, 2**47, 1]),), "^element 1 has the load 140737488355328, and in a dump it has at most 140737488355327$"),
                ((replace(run, bytes=[1, 1, 2**20 + 1]),), "^element 2 has 1048577 bytes, and in a dump it has at most 1048576$"),
                ((run, wide), "^the decision is for 257 PEs, and a dump has at most 256$")):
            for version in (1, 2) if len(given) == 1 else (2,):
                self.assertRaisesRegex(tezgumi.InputError, text, tezgumi.encode, *given, version=version)
        with tempfile.TemporaryDirectory() as folder:
            path = os.path.join(folder, "mine.lbd2")
            self.assertRaises(tezgumi.InputError, tezgumi.write_dump, path, tezgumi.Run(2, many, many, many))
            self.assertFalse(os.path.exists(path))

    def test_what_a_format_has_no_room_for(self):
        run, decision = tezgumi.decode(THREE_2)
        for given, text in (
                ((run, decision, 1), "LBD1 holds no decision"),
                ((replace(run, loads=[0, 2**32, 0]), None, 1), "element 1 has the load 4294967296"),
                ((run, None, 3), "version is 3"),
                ((run, replace(decision, cuts=[0, 3])), "there are 2 cuts, and for 2 PEs a dump has 3"),
                ((run, replace(decision, stops=[0])), "there are 1 stops"),
                ((run, replace(decision, names=[])), "there are 0 names"),
                ((run, replace(decision, block_prices=[1])), "there are 1 block_prices"),
                ((run, replace(decision, pe_prices=[1, 2, 3])), "there are 3 pe_prices"),
                ((run, replace(decision, moves=[(0, 0, 1)] * 4)), "there are 4 moves"),
                ((run, replace(decision, moves=[(0, 0, 1), (3, 0, 1)])), "move 1 is out of range: element is 3"),
                ((run, replace(decision, moves=[(0, 256, 1)])), "move 0 is out of range: present is 256"),
                ((run, replace(decision, places=[1, 0, 0])), "the places are not those that the moves lead to"),
                ((front(), decision), "the places are not")):
            self.assertRaisesRegex(tezgumi.InputError, text, tezgumi.encode, *given)
