"""Tables of elements: CSV and NPY, read as runs; and what is handed on as DataFrames and HTML."""
import gzip
import io
import os
import pathlib
import random
import re
import sys
import tempfile
import types
from unittest import mock

import numpy as np

import tezgumi
from support import THREE, TimedTest, example, random_run, read_bytes
from test_checking import RIGHT
from tezgumi.csv_tables import is_csv
from tezgumi.inputs import read_input
from tezgumi.tables import table_of

THREE_CSV = "1,10,0\n1,9,1\n2,8,0\n"
LOAD = "a finite number from 0 on is wanted"


def npy(array):
    file = io.BytesIO()
    np.save(file, array)
    return file.getvalue()


def spoiled(rng, data):
    """The bytes with one to four of them changed, put in, left out or said twice."""
    text = bytearray(data)
    for _ in range(rng.randint(1, 4)):
        at, letter = rng.randrange(len(text) + 1), rng.choice(b"0123456789.,-+eE#\"\n\r \t;'\0(){}[]:fiu\xff")
        kind = rng.randrange(4)
        if kind == 0 and at < len(text):
            text[at] = letter
        elif kind == 1:
            text[at:at] = bytes([letter])
        elif kind == 2:
            del text[at:at + rng.randint(1, 5)]
        else:
            text[at:at] = text[rng.randrange(len(text) + 1):][:rng.randint(0, 12)]
    return bytes(text)


def npz():
    file = io.BytesIO()
    np.savez(file, loads=np.array([1, 2]))
    return file.getvalue()


class Read(TimedTest):
    def test_csv(self):
        head = "load,bytes,place\n"
        for text in (
                THREE_CSV, head + THREE_CSV, THREE_CSV.replace("\n", "\r\n"), THREE_CSV.rstrip("\n"), "\ufeff" + head + THREE_CSV,
                "\n" + THREE_CSV + "\n\n", "place, name ,LOAD,\"bytes\"\n0,a,1,10\n1,b,1,9\n0,,2,8\n"):
            with self.subTest(text=text):
                self.assertEqual(table_of(text.encode(), step=5), THREE)
                self.assertTrue(is_csv(text.encode()))
        self.assertEqual(table_of(b"1\n1\n2\n", 2), tezgumi.Run(2, [1, 1, 2]))
        self.assertEqual(table_of(b"load\n1\n1\n2\n", 2), tezgumi.Run(2, [1, 1, 2]))
        self.assertEqual(table_of(b"load,place\n1,1\n1,1\n", 4), tezgumi.Run(4, [1, 1], places=[1, 1]))
        self.assertEqual(table_of(b"9223372036854775807\n", 1).loads.tolist(), [2**63 - 1])
        self.assertEqual(len(table_of(b"load\n", 2)), 0)

    def test_npy(self):
        rows = np.array([[1, 10, 0], [1, 9, 1], [2, 8, 0]])
        names = [("place", "u1"), ("load", ">i4"), ("bytes", "<u8"), ("other", "f4")]
        records = np.array([(0, 1, 10, 0), (1, 1, 9, 0), (0, 2, 8, 0)], names)
        for array in (rows, rows.astype(np.uint8), np.asfortranarray(rows), records):
            self.assertEqual(table_of(npy(array), step=5), THREE)
        self.assertEqual(table_of(npy(rows[:, :2]), 2), tezgumi.Run(2, [1, 1, 2], [10, 9, 8]))
        for array in (rows[:, 0], rows[:, :1]):
            self.assertEqual(table_of(npy(array), 2), tezgumi.Run(2, [1, 1, 2]))

    def test_a_file(self):
        with tempfile.TemporaryDirectory() as folder:
            path = os.path.join(folder, "three")
            for data in (THREE_CSV.encode(), npy(np.array([[1, 10, 0], [1, 9, 1], [2, 8, 0]]))):
                with open(path, "wb") as file:
                    file.write(data)
                self.assertEqual(tezgumi.read_table(path, step=5), THREE)
                with mock.patch.object(sys, "stdin", types.SimpleNamespace(buffer=io.BytesIO(data))):
                    self.assertEqual(tezgumi.read_table("-", step=5), THREE)
                self.assertEqual(tezgumi.read_table(pathlib.Path(path), step=5), THREE)
            with open(path, "w", encoding="utf-8") as file:
                file.write("1,1,0\n1,-1,0\n")
            for given in (path, pathlib.Path(path), os.fsencode(path)):
                self.assertRaisesRegex(
                    tezgumi.TableError, f"^table: {re.escape(path)}: line 2, column 2: the bytes are '-1', and a whole number from 0 to 4294967295 is wanted$",
                    tezgumi.read_table, given)
            self.assertRaises(FileNotFoundError, tezgumi.read_table, path + ".csv")

    def test_comments_and_empty_lines(self):
        for text in (
                "# three elements\n" + THREE_CSV, "#\n\n  # two\n" + THREE_CSV, THREE_CSV.replace("\n", "\n# between\n"), THREE_CSV + "\n \n#",
                "# a \"quote\n" + THREE_CSV, "# load, bytes and place\n" + THREE_CSV, "# load,bytes,place\n" + THREE_CSV,
                "# place,bytes,load\n0,10,1\n1,9,1\n0,8,2\n", "# place,bytes,load\n\n0,10,1\n#\n1,9,1\n0,8,2\n"):
            with self.subTest(text=text):
                self.assertEqual(table_of(text.encode(), step=5), THREE)
        # A comment names columns only where it is the last one before the first element, and has as many names as that has columns.
        self.assertEqual(table_of(b"# place,load\n# by hand\n1,0\n", 2), tezgumi.Run(2, [1], [0]))
        self.assertEqual(table_of(b"# place,load\n1,0,1\n", 2), tezgumi.Run(2, [1], [0], [1]))

    def test_what_a_line_may_be(self):
        three = tezgumi.Run(2, [1, 1, 2], [10, 9, 8], [0, 1, 0], step=5)
        for text in (
                "1, 10, 0\n 1,9 ,1\n2,8,0 \n", "\"1\",\"10\",\"0\"\n1,9,1\n2,8,0\n", "+1,10,0\n01,9,1\n2,8,-0\n", "1,10,0\r1,9,1\r2,8,0\r",
                "1,1e1,0.0\n1,9.0,1.\n2,.8e1,0e7\n", "load,bytes,place,a note\n1,10,0,\"a, b\"\n1,9,1,\"a\nb\"\n2,8,0,\n"):
            with self.subTest(text=text):
                self.assertEqual(table_of(text.encode(), step=5), three)

    def test_floats(self):
        # 1000 and 2, and 0.5 and 0.25: exact in any unit that is a power of two and small enough.
        for text, loads in (("load\n1e3\n2\n", [1000.0, 2.0]), ("5E-1\n.25\n", [0.5, 0.25]), ("0.5\n-0.0\n", [0.5, 0.0]), ("0.1\n3\n", [0.1, 3.0])):
            run = table_of(text.encode(), 1)
            self.assertEqual(run, tezgumi.Run(1, loads))
            self.assertEqual(run.within, 2 * run.unit)
        self.assertIsNone(table_of(b"1\n2\n", 1).unit)
        # Beside a float a whole number is a float too, however great.
        run = table_of(b"18446744073709551616\n0.5\n", 1)
        self.assertEqual([int(load) * run.unit for load in run.loads], [2.0**64, 0.0])

    def test_as_numpy_writes_it(self):
        rows = np.array([[1, 10, 0], [1, 9, 1], [2, 8, 0]])
        for head, columns in (("", [0, 1, 2]), ("load,bytes,place", [0, 1, 2]), ("place,load,bytes", [2, 0, 1])):
            file = io.StringIO()
            np.savetxt(file, rows[:, columns], delimiter=",", header=head)
            run = table_of(file.getvalue().encode(), step=5)
            self.assertEqual((run.bytes.tolist(), run.places.tolist(), [int(load) * run.unit for load in run.loads]),
                ([10, 9, 8], [0, 1, 0], [1, 1, 2]))
            file = io.StringIO()
            np.savetxt(file, rows[:, columns], delimiter=",", header=head, fmt="%d")
            self.assertEqual(table_of(file.getvalue().encode(), step=5), THREE)

    def test_random_tables(self):
        for seed in range(60):
            run, _ = random_run(seed)
            rng = random.Random(seed)
            names = rng.sample(["load", "bytes", "place", "other"], 4)
            columns = {"load": run.loads.tolist(), "bytes": run.bytes.tolist(), "place": run.places.tolist(), "other": ["x"] * len(run)}
            end = rng.choice(("\n", "\r\n"))
            lines = [",".join(names), *(",".join(str(columns[name][i]) for name in names) for i in range(len(run)))]
            self.assertEqual(table_of(end.join(lines).encode(), run.procs, run.step), run)
            rows = np.array([columns["load"], columns["bytes"], columns["place"]], np.uint64).T.reshape(-1, 3)
            self.assertEqual(table_of(npy(rows), run.procs, run.step), run)
            records = np.zeros(len(run), [("place", ">i2"), ("load", "<u8"), ("bytes", "<i4")])
            for name in records.dtype.names:
                records[name] = columns[name]
            self.assertEqual(table_of(npy(records), run.procs, run.step), run)

    def test_many_elements(self):
        count = 65_537
        text = "load,place\n" + "".join(f"{i % 7},{i * 3 // count}\n" for i in range(count))
        run = tezgumi.Run(3, np.arange(count) % 7, places=np.arange(count) * 3 // count)
        self.assertEqual(table_of(text.encode()), run)
        self.assertEqual(table_of(npy(np.column_stack([run.loads, run.bytes, run.places]))), run)

    def test_faults(self):
        commas = "; columns are separated by commas"
        none = "numbers are wanted, or names of columns, among them load"
        size = "a whole number from 0 to 4294967295 is wanted"
        for text, fault in (
                ("", "there is no line of numbers or of names"), ("\n \n\n", "there is no line of numbers or of names"),
                ("# load\n", "there is no line of numbers or of names"), ("a,b\n", f"line 1 is 'a,b', and {none}"),
                ("\n\nnan\n", f"line 3 is 'nan', and {none}"),
                ("load;bytes\n1;2\n", f"line 1 is 'load;bytes', and {none}{commas}"), ("1;10;0\n", f"line 1 is '1;10;0', and {none}{commas}"),
                ("1 10 0\n", f"line 1 is '1 10 0', and {none}{commas}"), ("a;b\n", f"line 1 is 'a;b', and {none}"),
                ("1,2,3,4\n", "line 1 has 4 columns without names, and at most load, bytes and place are taken"),
                ("load,load\n1,2\n", "line 1 names two columns load"), ("# a\n# load,load\n1,2\n", "line 2 names two columns load"),
                ("1,2\n3\n", "line 2 has 1 column, and 2 are wanted: load,bytes"), ("1\n2,3\n", "line 2 has 2 columns, and 1 are wanted: load"),
                ("load,bytes\n1,2,\n", "line 2 has 3 columns, and 2 are wanted: load,bytes"),
                ("load,bytes\n1\t2\n", f"line 2 has 1 column, and 2 are wanted: load,bytes{commas}"),
                ("load\n\nx\n", f"line 3, column 1: the load is 'x', and {LOAD}"),
                ("bytes,load\n1,\n", f"line 2, column 2: there is no load, and {LOAD}"),
                ("load\n1 2\n", f"line 2, column 1: the load is '1 2', and {LOAD}{commas}"),
                ("1,\n", f"line 1, column 2: there are no bytes, and {size}"),
                *((f"load\r\n1\r\n{cell}\r\n", f"line 3, column 1: the load is '{cell}', and {LOAD}") for cell in (
                    "nan", "-1", "-1e-9", "inf", "-inf", "Infinity", "1e999", "1_0", "0x10", "1e", "e1", ".", "--1", "\u0661", "1.2.3", "None")),
                *((f"1,{cell}\n", f"line 1, column 2: the bytes are '{cell}', and {size}") for cell in ("0.5", "-1", "4294967296", "nan", "1e300",
                    "1e400", "x")),
                *((f"1,1,0\n1,1,{cell}\n", f"line 2, column 3: the place is '{cell}', and a whole number from 0 to 1 is wanted") for cell in ("2",
                    "-1", "1.5", "a")),
                ("9223372036854775808\n", "line 1, column 1: the load is '9223372036854775808', and at most 9223372036854775807 is taken"),
                ("load,x\n" + "1" * 400 + ",\n0.5,\n", f"line 2, column 1: the load is '{'1' * 57}..', which is too great for a float"),
                ("9223372036854775807\n1\n", "the loads add up to 9223372036854775808, and at most 9223372036854775807 is taken"),
                ("1\n1\0\n", "line 2 has a NUL byte, and a text in UTF-8 is wanted"), ("load\n1\n\"2\n3\n", "line 3 is no line of CSV "),
                ("load,a\n1,\"a\"b\n", "line 2 is no line of CSV "),
                (b"1\n2\n\xff\n", "line 3 has the byte 0xff at byte 4, and a text in UTF-8 is wanted"),
                ("load\n1\n".encode("utf-16"), "the text is UTF-16, and UTF-8 is wanted: save it as CSV in UTF-8"),
                (read_bytes(example("three-elements.lbd2")), "it is a dump, and a table is wanted: read_dump reads dumps"),
                (b"PK\x03\x04", "it is an archive, as .npz and .xlsx are: save one table as .npy or .csv"),
                (gzip.compress(b"1\n"), "it is compressed, as .gz is: unpack it first")):
            with self.subTest(text=text):
                data = text if isinstance(text, bytes) else text.encode()
                self.assertRaisesRegex(tezgumi.TableError, "^table: " + re.escape(fault), table_of, data, 2)
                self.assertRaisesRegex(tezgumi.TableError, "^table: a.csv: " + re.escape(fault), table_of, data, 2, name="a.csv")
        self.assertRaisesRegex(
            tezgumi.TableError, "^table: line 1, column 3: the place is '4096', and a whole number from 0 to 4095 is wanted$", table_of,
            b"1,1,4096\n")
        self.assertRaisesRegex(
            tezgumi.InputError, "^the table has no places, so the number of PEs has to be given: procs, or --procs P$", table_of, b"1\n")
        for words, text in (({"procs": 0}, "^procs is 0; it has to be 1 to 4096$"), ({"step": -1}, "^step is -1; it has to be 0 to 4294967295$")):
            with self.assertRaisesRegex(tezgumi.InputError, text) as caught:
                table_of(b"1\n", **words)
            self.assertNotIsInstance(caught.exception, tezgumi.TableError)
        self.assertTrue(issubclass(tezgumi.TableError, tezgumi.InputError))

    def test_only_names(self):
        for text in ("load", "load,bytes,place\n", "# none\nplace,load\r\n\r\n"):
            self.assertEqual(len(table_of(text.encode(), 3)), 0)

    def test_faults_of_npy(self):
        whole = "a whole number from 0 to 9223372036854775807 is wanted"
        size = "a whole number from 0 to 4294967295 is wanted"
        place = "a whole number from 0 to 1 is wanted"
        floats = np.array([[0.5, 10, 0], [0.25, 9, 1]])
        for changed, fault in (
                ((0, 0, np.nan), f"element 0: the load is nan, and {LOAD}"), ((1, 0, -0.5), f"element 1: the load is -0.5, and {LOAD}"),
                ((1, 0, np.inf), f"element 1: the load is inf, and {LOAD}"), ((0, 1, 0.5), f"element 0: the bytes are 0.5, and {size}"),
                ((1, 1, 2.0**32), f"element 1: the bytes are 4294967296.0, and {size}"),
                ((1, 1, np.nan), f"element 1: the bytes are nan, and {size}"),
                ((1, 1, np.inf), f"element 1: the bytes are inf, and {size}"), ((0, 2, 2), f"element 0: the place is 2.0, and {place}"),
                ((1, 2, -1), f"element 1: the place is -1.0, and {place}")):
            for kind in (np.float64, np.float32, np.float16):
                # A float of 16 bits has no 2^32: it is infinite there.
                if kind is not np.float16 or changed[2] != 2.0**32:
                    spoiled = floats.astype(kind)
                    spoiled[changed[:2]] = changed[2]
                    self.assertRaisesRegex(tezgumi.TableError, "^table: " + re.escape(fault) + "$", table_of, npy(spoiled), 2)
        for array, fault in (
                (np.array([1, -1]), f"element 1: the load is -1, and {whole}"),
                (np.array([2**63], np.uint64), f"element 0: the load is 9223372036854775808, and {whole}"),
                (np.array([[1, -1]]), f"element 0: the bytes are -1, and {size}"),
                (np.array([[1, 1, 2]], np.uint8), f"element 0: the place is 2, and {place}"),
                (np.array([2**62, 2**62]), "the loads add up to 9223372036854775808, and at most 9223372036854775807 is taken"),
                (np.zeros((2, 4)), "the array has the shape (2, 4), and rows of load, bytes and place are wanted"),
                (np.zeros((2, 0)), "the array has the shape (2, 0)"),
                (np.zeros((2, 2, 2)), "the array has the shape (2, 2, 2)"), (np.float64(1), "the array has the shape ()"),
                (np.zeros(2, [("a", int)]), "there are records of the fields a in the shape (2,), and load is wanted"),
                (np.zeros((2, 2), [("load", int)]), "there are records of the fields load in the shape (2, 2), and load is wanted"),
                (np.zeros(2, [("load", int), ("LOAD", int)]), "there are records of the fields load, LOAD"),
                (np.zeros(2, [("load", int, 2)]), "the load is of the type int64, and numbers are wanted"),
                (np.zeros(2, [("load", int), ("place", "S1")]), "the place is of the type |S1, and numbers are wanted, whole ones or floats"),
                (np.array(["1"]), "the load is of the type <U1, and numbers are wanted"), (np.array([True]), "the load is of the type bool"),
                (np.array([1j]), "the load is of the type complex128"), (np.array(["2026"], "M8[Y]"), "the load is of the type datetime64[Y]"),
                (np.array([{}]), "the array is of the type object, and numbers are wanted"), (np.zeros(2, "V0"), "the array is of the type |V0")):
            with self.subTest(array=array):
                self.assertRaisesRegex(tezgumi.TableError, "^table: " + re.escape(fault), table_of, npy(array), 2)

    def test_spoiled_npy(self):
        data = npy(np.arange(9.0))
        for end in range(len(data)):
            self.assertRaisesRegex(tezgumi.TableError, "^table: ", table_of, data[:end], 2, ending=".npy")
        for end, fault in (
                (0, "it begins with b'', and a file of numpy.save with "), (6, "it is of no version of NPY that is known"),
                (100, "its head is to end at byte 128, and there are 100"),
                (199, r"there are 71 bytes behind the head, and an array of float64 and the shape \(9,\) has 72$")):
            self.assertRaisesRegex(tezgumi.TableError, "^table: " + fault, table_of, data[:end], 2, ending=".NPY")
        self.assertRaisesRegex(tezgumi.TableError, "^table: there are 73 bytes behind the head", table_of, data + b"0", 2)
        self.assertRaisesRegex(tezgumi.TableError, "^table: it begins with b'1,2', and", table_of, b"1,2", 2, ending=".npy")
        for head, fault in (
                ("{}", "its head is not"), ("x()", "its head is not"), ("(" * 900, "its head is not"), ("[1]", "its head is not"),
                ("{'descr': '<f8', 'fortran_order': False, 'shape': (10**9,)}", "its head is not"),
                ("{'descr': '<f8', 'fortran_order': False, 'shape': (-1,)}", "its head is not"),
                ("{'descr': '<f8', 'fortran_order': False, 'shape': (True,)}", "its head is not"),
                ("{'descr': '<f8', 'fortran_order': False, 'shape': (1000000000000000,)}",
                    "there are 0 bytes behind the head, and an array of float64"),
                ("{'descr': '<f8', 'fortran_order': False, 'shape': (0, 4611686018427387904, 4611686018427387904)}", ""),
                ("{'descr': 'no', 'fortran_order': False, 'shape': (0,)}", "no type of numpy: 'no' "),
                ("{'descr': 5.5, 'fortran_order': False, 'shape': (0,)}", ""),
                ("{'descr': ('<f8', (2,)), 'fortran_order': False, 'shape': (0,)}", "the array is of the type ")):
            text = head.encode()
            for version, width in ((1, 2), (2, 4), (3, 4)):
                self.assertRaisesRegex(
                    tezgumi.TableError, "^table: " + fault, table_of, b"\x93NUMPY" + bytes([version, 0]) + len(text).to_bytes(width, "little") + text, 2)

    def test_versions_of_npy(self):
        for version in (1, 0), (2, 0), (3, 0):
            file = io.BytesIO()
            np.lib.format.write_array(file, np.array([[1, 10, 0], [1, 9, 1], [2, 8, 0]]), version)
            self.assertEqual(table_of(file.getvalue(), step=5), THREE)

    def test_spoiled_at_random(self):
        """Whatever is in a file, it is a run, or refused as a table, or wants a number of PEs."""
        rng, read = random.Random(1), 0
        given = [THREE_CSV.encode(), b"load,bytes,place\n" + THREE_CSV.encode(), b"# place,load\r\n0,0.5\r\n1,1e3\r\n",
            npy(np.array([[1, 10, 0], [1, 9, 1]])),
                 npy(np.array([0.5, 0.25])), npy(np.array([(0, 1, 10)], [("place", "u1"), ("load", ">i4"), ("bytes", "<u8")]))]
        for _ in range(3000):
            data = spoiled(rng, rng.choice(given))
            try:
                read += len(table_of(data, rng.choice((None, 2)), ending=rng.choice(("", ".npy", ".csv")))) > 0
            except tezgumi.TableError as error:
                self.assertTrue(str(error).startswith("table: "))
            except tezgumi.InputError as error:
                self.assertIn("has no places", str(error))
        self.assertGreater(read, 50)

    def test_what_is_no_table(self):
        for name in ("three-elements.lbd1", "ten-elements.lbd2", "README.md", "worked.workload"):
            self.assertFalse(is_csv(read_bytes(example(name))), name)
        self.assertFalse(is_csv(b""))


class EitherKind(TimedTest):
    """Files that may be dumps or tables."""

    def setUp(self):
        folder = tempfile.TemporaryDirectory()
        self.addCleanup(folder.cleanup)
        self.folder = folder.name

    def read(self, name, data, **words):
        path = os.path.join(self.folder, name)
        with open(path, "wb") as file:
            file.write(data)
        return read_input(path, **words)

    def test_what_a_file_begins_with_wins(self):
        dump, array = read_bytes(example("three-elements.lbd1")), npy(np.array([[1, 10, 0], [1, 9, 1], [2, 8, 0]]))
        for ending in ("", ".lbd1", ".lbd2", ".csv", ".npy", ".txt", ".CSV"):
            self.assertEqual(self.read("a" + ending, dump), (THREE, None))
            self.assertEqual(self.read("a" + ending, array, step=5), (THREE, None))
        for ending in ("", ".csv", ".txt", ".CSV"):
            self.assertEqual(self.read("a" + ending, THREE_CSV.encode(), step=5), (THREE, None))
            self.assertEqual(self.read("a" + ending, b"\xef\xbb\xbf# a\nload,bytes,place\n" + THREE_CSV.encode(), step=5), (THREE, None))
        self.assertEqual(self.read("a", b"1\n1\n", spread_over=2).run, tezgumi.Run(2, [1, 1]))

    def test_faults_by_name(self):
        no_table = r"; and it is no table, which begins with a number or with names of columns, among them load\)$"
        for name, data, kind, fault in (
                ("a", b"", "DumpError", r"^dump: ends at byte 0 \(.*/a" + no_table),
                ("a.lbd1", b"", "DumpError", r"^dump: ends at byte 0 \(.*/a.lbd1\)$"),
                ("a.csv", b"", "TableError", "^table: .*/a.csv: there is no line"),
                ("a.npy", b"", "TableError", "^table: .*/a.npy: it begins with b''"),
                ("a", b"# A page\n\nof text.\n", "DumpError", r"^dump: not LBD1 or LBD2 \(.*/a: byte 0 is b'#'" + no_table),
                ("a.csv", b"# A page\n\nof text.\n", "TableError", "^table: .*/a.csv: line 3 is 'of text.', and numbers are wanted"),
                ("a.lbd2", b"1,2,0\n", "DumpError", r"^dump: not LBD1 or LBD2 \(.*/a.lbd2: byte 0 is b'1'\)$"),
                ("a.csv", b"LBD1\0", "DumpError", r"^dump: ends at byte 5 \(.*/a.csv\)$"),
                ("a.npy", b"1,2,0\n", "TableError", "^table: .*/a.npy: it begins with b'1,2,0.n'"),
                ("a", b"1,2,0\n1,2\n", "TableError", "^table: .*/a: line 2 has 2 columns, and 3 are wanted: load,bytes,place$"),
                ("a.npz", npz(), "TableError", "^table: .*/a.npz: it is an archive, as .npz and .xlsx are: save one table as .npy or .csv$"),
                ("a.csv.gz", gzip.compress(b"1\n"), "TableError", "^table: .*/a.csv.gz: it is compressed, as .gz is: unpack it first$"),
                ("a.txt", "load\n1\n".encode("utf-16"), "TableError",
                    "^table: .*/a.txt: the text is UTF-16, and UTF-8 is wanted: save it as CSV in UTF-8$"),
                ("a", b"1\n", "InputError", "/a has no places, so the number of PEs has to be given: procs, or --procs P$")):
            with self.subTest(name=name, data=data):
                self.assertRaisesRegex(getattr(tezgumi, kind), fault, self.read, name, data)
        for name, kind in (("no.csv", "TableError"), ("no.npy", "TableError"), ("no.lbd1", "DumpError"), ("no", "DumpError"), ("", "DumpError")):
            self.assertRaisesRegex(getattr(tezgumi, kind), r"read failed \(\[Errno ", read_input, os.path.join(self.folder, name))

    def test_no_more_is_read_than_is_wanted(self):
        with self.assertRaisesRegex(tezgumi.DumpError, "^dump: not LBD1 or LBD2"):
            read_input("/dev/zero")


class HandedOn(TimedTest):
    def frames(self):
        """A stand-in of pandas, whose DataFrame keeps what it is given; the real one need not be there."""
        return mock.patch.dict(sys.modules, pandas=types.SimpleNamespace(DataFrame=lambda columns, index=None: (columns, index)))

    def test_frames(self):
        told, plan = tezgumi.figures(THREE, RIGHT), tezgumi.Plan(2, [1, 1, 0], 2, 10)
        with self.frames():
            columns, index = THREE.to_frame(plan)
            self.assertEqual({name: column.tolist() for name, column in columns.items()}, {
                "load": [1, 1, 2], "bytes": [10, 9, 8], "place": [0, 1, 0], "planned": [1, 1, 0]})
            self.assertIsNone(index)
            self.assertEqual(list(THREE.to_frame()[0]), ["load", "bytes", "place"])
            columns, _ = RIGHT.to_frame()
            self.assertEqual({name: column.tolist() for name, column in columns.items()}, {
                "first": [0, 2], "end": [2, 3], "pe": [1, 0], "price": [10, 1]})
            columns, index = told.to_frame()
            self.assertEqual((columns["pes"], columns["greatest"], columns["imbalance"], index), ([2, 2], [3, 2], [1.5, 1.0], ["before", "after"]))
            columns, _ = tezgumi.Sweep([told, told]).to_frame()
            self.assertEqual((columns["pes"], columns["greatest"], columns["moved_bytes"]), ([2, 2], [2, 2], [10, 10]))
        with mock.patch.dict(sys.modules, pandas=None):
            self.assertRaisesRegex(ImportError, "^to_frame needs pandas", THREE.to_frame)

    def test_the_real_pandas(self):
        try:
            import pandas
        except ImportError:
            return  # which the stand-in has shown above
        self.assertEqual(pandas.DataFrame(THREE.to_frame()).shape, (3, 3))
        self.assertEqual(RIGHT.to_frame()["end"].tolist(), [2, 3])

    def test_notebooks(self):
        told = tezgumi.figures(THREE, RIGHT)
        for shown, texts in (
                (THREE, ("3 elements on 2 PEs, step 5", "<td>2</td><td>2</td><td>8</td><td>0</td>")),
                (RIGHT, ("Decision: bottleneck 2, 10 bytes", "<td>0</td><td>0</td><td>2</td><td>1</td>")),
                (told, ("<th>before</th>", "<td>imbalance</td><td>1.500</td><td>1.000</td>")),
                (tezgumi.Sweep([told]), ("<th>moved bytes</th>", "<td>1.000</td>"))):
            for text in texts:
                self.assertIn(text, shown._repr_html_())
        many = tezgumi.Run(2, range(1000))._repr_html_()
        self.assertEqual(many.count("<tr>"), 12)
        self.assertNotIn("<script", tezgumi.frames.html_table(["<script>"], [["<script>"]], "<script>"))
