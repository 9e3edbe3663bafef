"""Tezgumi's proved load balancer, and its proved checker, from Python.

    import tezgumi

    run, recorded = tezgumi.read_dump("examples/three-elements.lbd2")
    decision = tezgumi.decide(run, pes=2)
    print(tezgumi.figures(run, decision))
    assert tezgumi.check(run, decision)

A `Run` is a chain of elements: the load, the packed size and the present PE of each. `plan` says where each runs from now
on, `decide` says it with certificates, and `check` says whether every part of a decision is right, whoever made it. With
`tolerance=20` the heaviest PE may have 2 per cent more than the least possible load, where fewer bytes move by that, and with
`keep_order=True` beside it the PEs keep their order; with `any_order=True` no cuts and no names move fewer bytes. `divide` says
where to cut a chain of loads, and no more. Loads that are floats are measured ones, which `scaled` counts in a unit. These five
call libtezgumi.so, whose planner and checker are proved; all else is plain Python, and tested. The library is looked for in
this package, where the wheel has it; then where TEZGUMI_LIBRARY says; then by the system's loader. (In a clone, what
bindings/build made comes before that.)

- runs: Run, Plan, Decision, NearDecision, ReorderedDecision, and the limits
- planning: plan, decide, check, divide; checking: Verdict, Flaw; scales: scaled
- speeds: TimedDivision, which `divide` returns for PEs of unequal speed, and scale_speeds
- figures: figures, sweep, table, pe_loads
- dumps: read_dump, write_dump, decode, encode, of the formats LBD1 and LBD2
- tables: read_table, of CSV and NPY
- texts: replay_text, the text that lb_sim prints
- json_plans: json_of, a decision as a line of JSON, which Plan.from_json reads and checks
- parts: the steps of a division of a chain whose parts lie in different processes, and divide_all, which takes them for parts
  that one process can read
- mpi: rebalance, decide, move and report of arrays on MPI ranks; `import tezgumi.mpi`, which needs mpi4py
- page: page, which shows the rounds of a run in a browser
- errors: TezgumiError and its kinds

docs/PYTHON.md has all of it, with examples. `tezgumi_plot`, beside this package, draws. `python3 -m tezgumi FILE`, or tezgumi-plan
where the wheel is installed, prints the figures of a dump or a table. numpy is needed, and matplotlib to draw.
"""
import sys

try:
    import numpy
except ImportError as error:
    raise ImportError(f"tezgumi needs numpy (python3-numpy of Debian), and {sys.executable} has none") from error

from . import parts
from .checking import Flaw, Verdict
from .dumps import Dump, decode, encode, read_dump, write_dump
from .errors import DumpError, InputError, LibraryError, LoadError, OutOfMemory, PlanError, TableError, TezgumiError, TraceError
from .figures import Figures, Sweep, figures, pe_loads, sweep, table
from .json_plans import json_of
from .page import page
from .planning import Divided, check, decide, divide, plan
from .runs import DIVISION_PES, DUMP_ELEMENTS, DUMP_LOAD, DUMP_PES, DUMP_STATE_BYTES, ELEMENTS, MOVE, PES, TOLERANCE
from .runs import TOTAL_BYTES, TOTAL_LOAD
from .runs import Decision, NearDecision, Plan, ReorderedDecision, Run
from .scales import Scaled, scaled
from .speeds import TimedDivision, scale_speeds
from .tables import read_table
from .texts import replay_text
from .version import __version__

__all__ = [
    "DIVISION_PES", "DUMP_ELEMENTS", "DUMP_LOAD", "DUMP_PES", "DUMP_STATE_BYTES", "Decision", "Divided", "Dump", "DumpError",
    "ELEMENTS", "Figures", "Flaw", "InputError", "LibraryError", "LoadError", "MOVE", "NearDecision", "OutOfMemory", "PES", "Plan",
    "PlanError", "ReorderedDecision", "Run", "Scaled", "Sweep", "TOLERANCE", "TOTAL_BYTES", "TOTAL_LOAD", "TableError", "TezgumiError",
    "TimedDivision", "TraceError", "Verdict", "__version__", "check", "decide", "decode", "divide", "encode", "figures", "json_of", "page", "parts",
    "pe_loads", "plan", "read_dump", "read_table", "replay_text", "scale_speeds", "scaled", "sweep", "table", "write_dump",
]
