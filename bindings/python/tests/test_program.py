"""python3 -m tezgumi, and the lines that a user reads first."""
import contextlib
import io
import json
import os
import re
import shutil
import subprocess
import sys
import tempfile
import types
from unittest import mock

import numpy as np

import tezgumi
from test_tables import npy
from tezgumi.__main__ import main
from support import CHECKOUT, EXAMPLES, PACKAGES, TimedTest, example, read_bytes

try:
    import matplotlib
except ImportError:
    matplotlib = None

THREE_FIGURES = """                before  after
PEs                  2      2
greatest load        3      2
average load      2.00   2.00
imbalance        1.500  1.000
moved elements       1   of 3
moved bytes         10  of 27
check: ok
"""


def call(*words, program=("-m", "tezgumi"), given=b""):
    """Status, output and errors, in the folder of the checkout, of a call with this standard input."""
    ended = subprocess.run(
        [sys.executable, *program, *words], cwd=CHECKOUT, input=given, stdout=subprocess.PIPE, stderr=subprocess.PIPE, timeout=30,
        env={**os.environ, "PYTHONPATH": PACKAGES})
    return ended.returncode, ended.stdout.decode(), ended.stderr.decode()


def said(*words, given=b""):
    """Status, output and errors of such a call in this process, where a test makes many."""
    out, errors = io.StringIO(), io.StringIO()
    stdin = types.SimpleNamespace(buffer=io.BytesIO(given))
    with mock.patch.object(sys, "stdin", stdin), contextlib.redirect_stdout(out), contextlib.redirect_stderr(errors):
        try:
            status = main(words)
        except SystemExit as ended:
            status = ended.code
    return status, out.getvalue(), errors.getvalue()


class Program(TimedTest):
    limit = 150

    def test_figures(self):
        head = "examples/three-elements.lbd1: 3 elements on 2 PEs, step 5\n"
        self.assertEqual(call("examples/three-elements.lbd1"), (0, head + THREE_FIGURES, ""))

    def test_a_recorded_decision(self):
        for name, line, ended, last in (
                ("three-elements.lbd2", "check: ok", 0, ""),
                ("forged.lbd2", "check: MovedWrong", 4, "the recorded decision is flawed, check: MovedWrong\n")):
            status, out, _ = call("examples/" + name)
            self.assertEqual(out.split("\n")[1], "recorded for 2 PEs, " + line)
            self.assertEqual((status, out.split("\n", 2)[2]), (ended, THREE_FIGURES + last))

    def test_json(self):
        status, out, errors = call("examples/ten-elements.lbd2", "--json", "--procs", "3,2")
        three, two = map(json.loads, out.splitlines())
        self.assertEqual((status, errors, three["pes"], two["pes"]), (0, "", 3, 2))
        self.assertEqual([three[name] for name in ("cuts", "stops", "names", "block_prices", "pe_prices", "moves", "check")], [
            [0, 5, 6, 10], [0, 4, 5, 6], [2, 0, 1], [60, 30, 70], [-30, 0, 0], [[4, 0, 2], [6, 0, 1]], "check: ok"])
        near = json.loads(call("examples/ten-elements.lbd2", "--json", "--tolerance", "0.167")[1])
        self.assertEqual([near[name] for name in ("kind", "tolerance", "cuts", "least", "present")], [
            "NearDecision", 167, [0, 5, 7, 10], 12, [0, 4, 7, 10]])
        status, out, errors = call("examples/forged.lbd2", "--json")
        self.assertEqual((status, json.loads(out)["check"], errors), (4, "check: ok", "the recorded decision is flawed, check: MovedWrong\n"))

    def test_tables(self):
        dump = read_bytes(example("three-elements.lbd1"))
        table = b"load,bytes,place\n1,10,0\n1,9,1\n2,8,0\n"
        status, out, errors = call("-", given=dump)
        self.assertEqual((status, out, errors), (0, "standard input: 3 elements on 2 PEs, step 5\n" + THREE_FIGURES, ""))
        status, out, errors = call("-", given=table)
        self.assertEqual((status, out, errors), (0, "standard input: 3 elements on 2 PEs, step 0\n" + THREE_FIGURES, ""))
        with tempfile.TemporaryDirectory() as folder:
            path = os.path.join(folder, "loads.csv")
            with open(path, "wb") as file:
                file.write(b"0.5\n0.25\n0.25\n")
            status, out, errors = call(path)
            self.assertEqual((status, out), (2, ""))
            self.assertIn(f"error: {path} has no places, so the number of PEs has to be given: procs, or --procs P\n", errors)
            status, out, errors = call(path, "--procs", "2")
            self.assertEqual((status, errors, out.split("\n")[0]), (0, "", f"{path}: 3 elements on 2 PEs, step 0"))
            self.assertIn("each rounded down: the greatest after is 0.5, and least within ", out)
            with open(path, "wb") as file:
                file.write(b"load\nx\n")
            self.assertEqual(call(path, "--procs", "2")[::2],
                (3, f"table: {path}: line 2, column 1: the load is 'x', and a finite number from 0 on is wanted\n"))
            page = os.path.join(folder, "page.html")
            self.assertEqual(call("page", "-", "-o", page, given=dump)[:1], (0,))
            self.assertIn(b"planned here; the file records no decision", read_bytes(page))

    def test_inputs_at_their_edges(self):
        """What each standard input and these words end with; where it is 0, the first line."""
        load = "and a finite number from 0 on is wanted"
        zeros = "load,place\n" + "0,0\n" * 65_537
        for given, words, status, text in (
                ("load\n", ("--procs", "2"), 0, "standard input: 0 elements on 2 PEs, step 0"),
                ("load,bytes,place\r\n\r\n", (), 0, "standard input: 0 elements on 1 PEs, step 0"),
                ("\ufeffload,place\r\n1,0\r\n1,1\r\n\r\n\r\n", (), 0, "standard input: 2 elements on 2 PEs, step 0"),
                ("# a\n1e0,1,0\n2.5e-1,1,0\n", ("--procs", "2"), 0, "standard input: 2 elements on 1 PEs, step 0"),
                (zeros, (), 0, "standard input: 65,537 elements on 1 PEs, step 0"),
                (npy(np.array([[1, 10, 0], [1, 9, 1]])), (), 0, "standard input: 2 elements on 2 PEs, step 0"),
                (npy(np.array([0.5, -0.5])), ("--procs", "2"), 3, f"table: standard input: element 1: the load is -0.5, {load}\n"),
                (npy(np.array([0.5])), (), 2, "usage: "), ("0.5\n", (), 2, "usage: "),
                ("\n\n", (), 3, "dump: not LBD1 or LBD2 (standard input: byte 0 is b'\\n'; and"),
                ("1,1,0\n1,1\n", (), 3, "table: standard input: line 2 has 2 columns, and 3 are wanted: load,bytes,place\n"),
                ("load\n1\n1\0\n", ("--procs", "2"), 3, "table: standard input: line 3 has a NUL byte, and a text in UTF-8 is wanted\n"),
                *((f"1,1,0\n{load_of},1,0\n", (), 3,
                    f"table: standard input: line 2, column 1: the load is '{load_of}', {load}\n") for load_of in ("nan", "inf", "-1")),
                (zeros, ("--tolerance", "20"), 5,
                    "a tolerance is for at most 65,536 elements, of less than 2^47 units and at most 1 MiB each, and 256 PEs\n")):
            with self.subTest(given=given[:40]):
                ended, out, errors = said("-", *words, given=given if isinstance(given, bytes) else given.encode())
                self.assertEqual(ended, status, errors)
                self.assertEqual((errors, out.split("\n")[0]) if status == 0 else errors[:len(text)], ("", text) if status == 0 else text)

    def test_plans_that_travel(self):
        with tempfile.TemporaryDirectory() as folder:
            path, table, ten = os.path.join(folder, "plans.json"), os.path.join(folder, "loads.csv"), example("ten-elements.lbd2")
            with open(table, "wb") as file:
                file.write(b"0.5\n0.25\n0.25\n")
            for given, words in ((ten, ("--procs", "3,2")), (table, ("--procs", "2"))):
                plans = said(given, *words, "--json")[1]
                with open(path, "w", encoding="utf-8") as file:
                    file.write(plans)
                status, out, errors = said(given, *words, "--check", path)
                self.assertEqual((status, errors), (0, ""))
                self.assertEqual(said(given, *words, "--check", "-", given=plans.encode())[1], out.replace(path, "standard input"))
            unit = tezgumi.Run(2, [0.5, 0.25, 0.25]).unit
            self.assertEqual(out.split("\n"), [
                f"{path}, line 1: Decision for 2 PEs, greatest load 0.5, 1 bytes move, check: ok",
                f"loads are in units of {unit!r}, each rounded down: in what was measured all holds within {3 * unit:.3g}", ""])
            self.assertEqual(said(given, "--check", path)[0], 2)
            plans = said(ten, "--json", "--tolerance", "0.167")[1] + "\n" + said(ten, "--json")[1]
            for forged, status, out, errors in (
                    (plans, 0, ("NearDecision for 3 PEs, greatest load 14, 60 bytes move, check: ok",
                        "Decision for 3 PEs, greatest load 12, 130 bytes move, check: ok"), ""),
                    (plans.replace('"moved": 130', '"moved": 129'), 4, (
                        "NearDecision for 3 PEs, greatest load 14, 60 bytes move, check: ok",
                        "Decision for 3 PEs, greatest load 12, 129 bytes move, check: MovedWrong"), ""),
                    (plans.replace('"moved": 130', '"moved": NaN'), 3, (), "plan: standard input, line 3: NaN is no number of JSON\n"),
                    ("", 3, (), "plan: standard input: there is no plan\n"),
                    (plans[:100], 3, (), "plan: standard input, line 1: no JSON: line 1, column "),
                    (plans.replace('"elements": 10', '"elements": 11'), 3, (),
                        "plan: standard input, line 1: it is for a run of 11 elements, and this one has 10\n")):
                ended, told, wrong = said(ten, "--check", "-", given=forged.encode())
                self.assertEqual((ended, told, wrong[:len(errors)]),
                    (status, "".join(f"standard input, line {line}: {it}\n" for line, it in zip((1, 3), out)), errors))
            self.assertEqual(said(ten, "--check", os.path.join(folder, "no"))[:2], (3, ""))

    def test_an_output_that_takes_nothing(self):
        for unbuffered in ("", "1"):
            with open("/dev/full", "wb") as full:
                ended = subprocess.run(
                    [sys.executable, "-m", "tezgumi", "examples/three-elements.lbd1"], cwd=CHECKOUT, stdout=full, stderr=subprocess.PIPE, timeout=30,
                    env={**os.environ, "PYTHONPATH": PACKAGES, "PYTHONUNBUFFERED": unbuffered})
            self.assertEqual((ended.returncode, ended.stderr.decode()), (
                5, "standard output: No space left on device; give it a place that takes all of the text\n"))

    def test_what_is_read_is_not_written_over(self):
        with tempfile.TemporaryDirectory() as folder:
            path = os.path.join(folder, "dump.png")
            shutil.copyfile(example("three-elements.lbd1"), path)
            for words in ((path, "--plot", path), ("timeline", path, "--plot", path), ("page", path, "-o", path)):
                status, out, errors = call(*words)
                self.assertEqual((status, out, errors), (5, "", f"{path} is a file that is read: it would be written over, so name another\n"))
            self.assertEqual(read_bytes(path), read_bytes(example("three-elements.lbd1")))

    def test_other_numbers_of_pes(self):
        status, out, _ = call("examples/three-elements.lbd1", "--procs", "1")
        self.assertEqual((status, out.split("\n")[3]), (0, "greatest load        3      4"))
        status, out, _ = call("--procs", "16,4,1", "examples/moving-front.lbd1")
        rows = [line.split() for line in out.split("\n")]
        self.assertEqual(rows[1], "PEs greatest load average load imbalance moved elements moved bytes".split())
        self.assertEqual([row[:2] for row in rows[2:5]], [["16", "876"], ["4", "3,329"], ["1", "13,114"]])
        self.assertEqual(rows[5], ["check:", "ok"])

    def test_a_tolerance(self):
        status, out, errors = call("examples/ten-elements.lbd2", "--tolerance", "167")
        lines = out.split("\n")
        self.assertEqual((status, errors), (0, ""))
        self.assertIn("greatest load       21      14", lines)
        self.assertIn("moved bytes         60  of 310", lines)
        self.assertEqual(lines[-3:], ["within 167 thousandths: 1 near the present cuts, 0 by the plan", "check: ok", ""])
        self.assertEqual(call("examples/ten-elements.lbd2", "--tolerance", "0.167")[1], out)
        status, out, _ = call("examples/ten-elements.lbd2", "--tolerance", "0", "--procs", "3,2")
        self.assertEqual(out.split("\n")[-3:], ["within 0 thousandths: 0 near the present cuts, 2 by the plan", "check: ok", ""])
        status, out, _ = call("examples/ten-elements.lbd2", "--tolerance", "0", "--keep-order")
        self.assertEqual(out.split("\n")[-3:], ["within 0 thousandths: 1 near the present cuts, 0 by the plan", "check: ok", ""])
        status, out, _ = call("examples/ten-elements.lbd2", "--tolerance", "167", "--any-order", "--procs", "3,2")
        told = "within 167 thousandths: 1 with the fewest bytes of all, 0 near the present cuts, 1 by the plan"
        self.assertEqual((status, out.split("\n")[-3:]), (0, [told, "check: ok", ""]))
        with tempfile.TemporaryDirectory() as folder:
            page = os.path.join(folder, "page.html")
            self.assertEqual(call("page", "examples/ten-elements.lbd2", "--tolerance", "0", "--keep-order", "-o", page)[0], 0)
            self.assertIn(b'"keep_order":true', read_bytes(page))
            if matplotlib:
                path = os.path.join(folder, "near.png")
                self.assertEqual(call("examples/ten-elements.lbd2", "--tolerance", "167", "--plot", path)[0], 0)
                self.assertTrue(read_bytes(path).startswith(b"\x89PNG"))

    def test_words_that_are_not_understood(self):
        for words, text in (
                ((), "FILE"), (("a", "b"), "unrecognized"), (("a", "--procs"), "expected one argument"),
                (("a", "--procs", "0"), "0 is not 1 to 4096"), (("a", "--procs", "4097"), "4097 is not 1 to 4096"),
                *((("a", "--procs", word), f"{word!r} is no list of whole numbers, as 4,8,16") for word in ("2,x", "", "2,,3", "1_0", "\u0662", "2.0",
                    "9" * 5000)),
                *((("a", "--tolerance", word), f"{word!r} is not 0 to 1000 thousandths, nor a fraction of whole thousandths, as 0.02")
                  for word in ("1001", "2%", "1.5", "0.0205", "-1", ".", "1_0", "nan")),
                (("a", "--keep-order"), "argument --keep-order: it is for a --tolerance, which may be 0"),
                (("a", "--any-order"), "argument --any-order: it is for a --tolerance, which may be 0"),
                (("a", "--tolerance", "0", "--keep-order", "--any-order"), "argument --any-order: not allowed with argument --keep-order"),
                (("page", "a", "-o", "b", "--keep-order"), "argument --keep-order: it is for a --tolerance, which may be 0"),
                *((("a", "--check", "b", *words), f"argument {words[0]}: not allowed with argument --check, which plans nothing")
                  for words in (("--tolerance", "0"), ("--json",), ("--plot", "c.png"))),
                *((words, "- is named more than once, and the standard input can be read once: name files for the others")
                  for words in (("-", "--check", "-"), ("page", "-", "-", "-o", "a"), ("page", "-", "-o", "a", "--trace", "-")))):
            status, out, errors = said(*words)
            self.assertEqual((status, out), (2, ""))
            self.assertIn(text, errors)

    def test_help(self):
        for words, told in ((("--help",), "--check PLANS"), (("page", "--help"), "--trace FILE"), (("timeline", "--help"), "--unit TEXT")):
            status, out, errors = said(*words)
            self.assertEqual((status, errors), (0, ""))
            self.assertIn(told, out)
            self.assertIn("is the standard input", " ".join(out.split()))
            self.assertEqual("a table, CSV or NPY, of load[,bytes[,place]]" in " ".join(out.split()), words[0] != "timeline")
        self.assertEqual(said("--version"), (0, f"tezgumi {tezgumi.__version__}\n", ""))

    def test_faults_of_dumps(self):
        self.assertEqual(call("no-such-file")[:2], (3, ""))
        self.assertTrue(call("no-such-file")[2].startswith("dump: read failed ("))
        told = "and it is no table, which begins with a number or with names of columns, among them load"
        self.assertEqual(call("README.md")[2], f"dump: not LBD1 or LBD2 (README.md: byte 0 is b'#'; {told})\n")
        self.assertEqual(call("-")[2], f"dump: ends at byte 0 (standard input; {told})\n")

    def test_pictures(self):
        if matplotlib is None:
            self.skipTest("no matplotlib")
        with tempfile.TemporaryDirectory() as folder:
            for words, name, start in (
                    ((), "one.png", b"\x89PNG"), ((), "one.pdf", b"%PDF"), (("--procs", "1,2,4"), "sweep.svg", b"<?xml")):
                path = os.path.join(folder, name)
                self.assertEqual(call("examples/three-elements.lbd2", *words, "--plot", path)[0], 0)
                self.assertTrue(read_bytes(path).startswith(start))
            status, _, errors = call("examples/three-elements.lbd2", "--plot", os.path.join(folder, "a.b.c"))
            self.assertEqual(status, 2)
            self.assertIn("pdf", errors)

    def test_the_first_lines_of_the_package(self):
        lines = re.search(r"\n\n((?:    .*\n|\n)+)", tezgumi.__doc__).group(1)
        text = "\n".join(line[4:] for line in lines.split("\n"))
        self.assertIn("tezgumi.decide", text)
        status, out, errors = call(program=("-c", text))
        self.assertEqual((status, errors), (0, ""))
        self.assertEqual(out, THREE_FIGURES.replace("check: ok\n", ""))
