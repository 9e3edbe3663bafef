"""python3 -m tezgumi FILE, or tezgumi-plan FILE: the figures of the plan of a dump or a table, checked; for other numbers of PEs,
as JSON, and drawn, where asked. With --check: what the check says of plans in JSON for this file.

python3 -m tezgumi page FILE.. -o OUT: a page that shows the rounds of these dumps or tables in a browser.

python3 -m tezgumi timeline FILE --plot OUT: a picture of what happened in a run, by its trace.
"""
from __future__ import annotations

import argparse
import os
import sys
from typing import List, Sequence, Tuple

import tezgumi
from tezgumi.files import read_bytes, refuse_inputs, refuse_one_input_twice, told
from tezgumi.inputs import read_input
from tezgumi.json_plans import MOST_BYTES
from tezgumi.planning import thousandths
from tezgumi.tables import NoPlaces
from tezgumi.traces import read_trace, timeline_of

# As those of lb_sim: words that are not understood, or that do not fit each other or the file, have 2, by argparse.
RIGHT, FILE_FAULT, FLAWED, FAILED = 0, 3, 4, 5


def main(words: Sequence[str] | None = None) -> int:
    words = sys.argv[1:] if words is None else words
    # The word alone is a file of that name.
    named = {"page": (_page_parser, _write_page), "timeline": (_timeline_parser, _draw_timeline)}
    parser, answer = named.get(words[0], (_parser, _answer)) if len(words) > 1 else (_parser, _answer)
    asking = parser()
    asked = asking.parse_args(words if parser is _parser else words[1:])
    _refuse_clashes(asking, asked)
    status = RIGHT
    fault: str | None = None
    try:
        status = answer(asked)
    except NoPlaces as error:
        asking.error(str(error))
    except (tezgumi.DumpError, tezgumi.TableError, tezgumi.TraceError, tezgumi.PlanError) as error:
        status, fault = FILE_FAULT, str(error)
    except (tezgumi.TezgumiError, _Unwritten, MemoryError, OSError, ImportError) as error:
        status, fault = FAILED, str(error) or "out of memory"
    return _ended(status, fault)


def _refuse_clashes(asking: argparse.ArgumentParser, asked: argparse.Namespace) -> None:
    for name in "keep_order", "any_order":
        if getattr(asked, name, False) and asked.tolerance is None:
            asking.error(f"argument --{name.replace('_', '-')}: it is for a --tolerance, which may be 0")
    if getattr(asked, "any_order", False) and asked.keep_order:
        asking.error("argument --any-order: not allowed with argument --keep-order")
    if getattr(asked, "check", None) is not None:
        for name in "tolerance", "json", "plot":
            if getattr(asked, name) is not None and getattr(asked, name) is not False:
                asking.error(f"argument --{name}: not allowed with argument --check, which plans nothing")
    try:
        refuse_one_input_twice([*getattr(asked, "files", []), *(getattr(asked, name, None) for name in ("file", "check", "trace"))])
    except tezgumi.InputError as error:
        asking.error(str(error))


class _Unwritten(Exception):
    """The standard output did not take the text."""

    def __init__(self, error: OSError) -> None:
        super().__init__(f"standard output: {error.strerror}; give it a place that takes all of the text")


def _say(text: object) -> None:
    try:
        print(text)
    except OSError as error:
        raise _Unwritten(error) from None


def _ended(status: int, fault: str | None) -> int:
    """The status, once all is written that was printed, and the fault if there is one."""
    try:
        sys.stdout.flush()
    except OSError as error:
        # What was not written is thrown away, so that nobody tries again at the end.
        os.dup2(os.open(os.devnull, os.O_WRONLY), sys.stdout.fileno())
        status, fault = FAILED, str(_Unwritten(error))
    if fault is not None:
        print(fault, file=sys.stderr)
    return status


_TABLE = ("a table, CSV or NPY, of load[,bytes[,place]]: a CSV may begin with these names, in any order; loads may be floats. - is the "
          "standard input")


def _parser() -> argparse.ArgumentParser:
    parser = argparse.ArgumentParser(
        prog=_name(), description="Plans the run of a dump or of a table, checks the decision, and prints its figures.",
        epilog=f"{_name()} page FILE.. -o OUT writes a page that shows the rounds of a run in a browser, and {_name()} timeline "
        "FILE --plot OUT draws a trace; page --help and timeline --help tell more. The status is 0 where all is right, 2 for words that "
        "are not understood, 3 for a file with a fault, 4 for a flawed decision, and 5 for all else, as memory or an output.")
    parser.add_argument("file", metavar="FILE", help="a dump, LBD1 or LBD2, or " + _TABLE)
    parser.add_argument("--version", action="version", version=f"tezgumi {tezgumi.__version__}")
    parser.add_argument(
        "--procs", type=_counts, metavar="P[,P..]", help="numbers of PEs to plan for, 1 to 4096; of several a row each. A table "
        "without places stands on the first of them in equal parts")
    _ask_for_tolerance(parser, "decide")
    _ask_for_order(parser)
    parser.add_argument(
        "--any-order", action="store_true", help="within a tolerance, let the PEs change their order, so that the fewest bytes move")
    parser.add_argument("--json", action="store_true", help="print each decision as a line of JSON, with its certificates, in place of figures")
    parser.add_argument(
        "--check", metavar="PLANS", help="plan nothing, and check the plans in this file, lines that --json has printed, whoever wrote "
        "them; - is the standard input")
    parser.add_argument(
        "--plot", type=_picture, metavar="OUT", help="draw into this file, .png, .pdf or .svg; of several P the sweep")
    return parser


def _page_parser() -> argparse.ArgumentParser:
    parser = argparse.ArgumentParser(
        prog=_name() + " page", description="Writes a page that shows the rounds of a run: loads, moves, and the certificates of "
        "the decisions, which the reader's browser checks again. It is one file, and needs no network. The rounds stand in the order "
        "of their steps.")
    parser.add_argument(
        "files", metavar="FILE", nargs="+", help=f"the dump of a round, LBD1 or LBD2, or {_TABLE}. A table has the step behind that of the "
        "file before it")
    parser.add_argument("-o", "--output", metavar="OUT", required=True, help="the page, as run.html; none of the files that are read")
    parser.add_argument("--trace", metavar="FILE", help="what happened in the run, in the Trace Event Format; - is the standard input")
    parser.add_argument("--title", metavar="TEXT", help="what stands above the page; the names of the files, if left out")
    parser.add_argument(
        "--procs", type=_count, metavar="P", help="decide anew for so many PEs, 1 to 4096, and leave recorded decisions aside. A table "
        "without places stands on them in equal parts")
    _ask_for_tolerance(parser, "decide anew")
    _ask_for_order(parser)
    return parser


def _ask_for_tolerance(parser: argparse.ArgumentParser, decide: str) -> None:
    parser.add_argument(
        "--tolerance", type=_tolerance, metavar="N",
        help=f"{decide} within N thousandths of the least load, 0 to 1000, or a fraction, as 0.02, where fewer bytes move by that")


def _ask_for_order(parser: argparse.ArgumentParser) -> None:
    parser.add_argument(
        "--keep-order", action="store_true", help="within a tolerance, let the PEs keep the order in which their elements stand")


def _timeline_parser() -> argparse.ArgumentParser:
    parser = argparse.ArgumentParser(
        prog=_name() + " timeline", description="Draws what happened in a run: the handlers of each PE in the colors of their "
        "elements, letters and elements that go from one PE to another, and decisions.")
    parser.add_argument("file", metavar="FILE", help="a trace, in the Trace Event Format; - is the standard input")
    parser.add_argument(
        "--plot", type=_picture, metavar="OUT", required=True, help="draw into this file, .png, .pdf or .svg")
    parser.add_argument("--title", metavar="TEXT", help="what stands above the picture; the name of the file, if left out")
    parser.add_argument(
        "--unit", metavar="TEXT", default="microseconds", help="what its times are: microseconds, or events in a run by a seed")
    return parser


def _name() -> str:
    """How this program was called: by the script of an installed package, or as a module."""
    called = os.path.basename(sys.argv[0])
    return called if called.startswith("tezgumi") else "python3 -m tezgumi"


def _counts(words: str) -> List[int]:
    split = [word.strip() for word in words.split(",")]
    if not all(word.isascii() and word.lstrip("-").isdigit() and len(word) < 20 for word in split):
        raise argparse.ArgumentTypeError(f"{words!r} is no list of whole numbers, as 4,8,16")
    counts = [int(word) for word in split]
    for count in counts:
        if not 1 <= count <= tezgumi.PES:
            raise argparse.ArgumentTypeError(f"{count} is not 1 to {tezgumi.PES}")
    return counts


def _count(word: str) -> int:
    counts = _counts(word)
    if len(counts) > 1:
        raise argparse.ArgumentTypeError(f"{word!r} is more than one number")
    return counts[0]


def _tolerance(word: str) -> int:
    try:
        if word.isascii() and (word.isdigit() or word.replace(".", "", 1).isdigit()):
            return thousandths(float(word) if "." in word else int(word))
    except tezgumi.InputError:
        pass
    raise argparse.ArgumentTypeError(f"{word!r} is not 0 to {tezgumi.TOLERANCE} thousandths, nor a fraction of whole thousandths, as 0.02")


def _picture(path: str) -> str:
    if not path.lower().endswith((".png", ".pdf", ".svg")):
        raise argparse.ArgumentTypeError(f"{path!r} does not end with .png, .pdf or .svg")
    return path


def _answer(asked: argparse.Namespace) -> int:
    if asked.plot:
        refuse_inputs(asked.plot, [asked.file])
    run, recorded = read_input(asked.file, asked.procs[0] if asked.procs else None)
    if asked.check is not None:
        return _check(run, asked.check)
    counts = asked.procs or [run.procs]
    found = None if recorded is None else tezgumi.check(run, recorded)
    if not asked.json:
        _say(f"{told(asked.file)}: {len(run):,} elements on {run.procs} PEs, step {run.step}")
    if found is not None and recorded is not None and not asked.json:
        _say(f"recorded for {recorded.pes} PEs, {found}")
    decisions = [tezgumi.decide(run, pes, asked.tolerance, asked.keep_order, asked.any_order) for pes in counts]
    verdicts = [tezgumi.check(run, decision) for decision in decisions]
    if asked.json:
        for decision, verdict in zip(decisions, verdicts):
            _say(tezgumi.json_of(run, decision, verdict))
    else:
        _print_figures(asked, run, decisions, verdicts)
    if asked.plot:
        _draw(asked, run, decisions, verdicts[0])
    return FLAWED if _told_flaw(asked, found) or not all(verdicts) else RIGHT


def _print_figures(
        asked: argparse.Namespace, run: tezgumi.Run, decisions: Sequence[tezgumi.Decision], verdicts: Sequence[tezgumi.Verdict]) -> None:
    swept = [tezgumi.figures(run, decision) for decision in decisions]
    _say(swept[0] if len(swept) == 1 else tezgumi.table(swept))
    if asked.tolerance is not None:
        near, any_order = (sum(isinstance(decision, kind) for decision in decisions) for kind in (tezgumi.NearDecision, tezgumi.ReorderedDecision))
        fewest = f"{any_order} with the fewest bytes of all, " if asked.any_order else ""
        _say(f"within {asked.tolerance} thousandths: {fewest}{near} near the present cuts, {len(decisions) - near - any_order} by the plan")
    _say(next((verdict for verdict in verdicts if not verdict), verdicts[0]))


def _told_flaw(asked: argparse.Namespace, found: tezgumi.Verdict | None) -> bool:
    """Whether the recorded decision is flawed, which is the last word then: behind a plan that is right, or beside the JSON."""
    if found is None or found:
        return False
    flawed = f"the recorded decision is flawed, {found}"
    if asked.json:
        print(flawed, file=sys.stderr)
    else:
        _say(flawed)
    return True


def _write_page(asked: argparse.Namespace) -> int:
    written = tezgumi.page(
        asked.files, asked.output, trace=asked.trace, title=asked.title,
        anew=asked.procs is not None or asked.tolerance is not None, procs=asked.procs,
        decide=lambda run: tezgumi.decide(run, asked.procs, asked.tolerance, asked.keep_order))
    count = len(asked.files)
    _say(f"{asked.output}: {count:,} round{'s' if count > 1 else ''}, {written.bytes:,} bytes")
    for note in written.notes:
        _say(note)
    if written.left_out:
        _say(f"without the elements of {len(written.left_out):,} rounds, for which there was no room")
    return RIGHT


def _check(run: tezgumi.Run, path: str) -> int:
    """Prints what the check says of each plan in a file, a line each."""
    plans = _plans(run, path)
    verdicts = [tezgumi.check(run, plan) for _, plan in plans]
    for (line, plan), verdict in zip(plans, verdicts):
        greatest = f"{plan.bottleneck:,}" if run.unit is None else f"{plan.bottleneck * run.unit:.6g}"
        _say(f"{told(path)}, line {line}: {type(plan).__name__} for {plan.pes} PEs, greatest load {greatest}, {plan.moved:,} bytes move, {verdict}")
    if run.unit is not None:
        _say(f"loads are in units of {run.unit!r}, each rounded down: in what was measured all holds within {run.within:.3g}")
    return RIGHT if all(verdicts) else FLAWED


def _plans(run: tezgumi.Run, path: str) -> List[Tuple[int, tezgumi.Decision]]:
    """The plans, each with the number of its line, from 1."""
    plans = []
    try:
        lines = read_bytes(path, MOST_BYTES).split(b"\n")
    except OSError as error:
        raise tezgumi.PlanError(f"read failed ({error})") from None
    for number, line in enumerate(lines, 1):
        if line.strip():
            try:
                plans.append((number, tezgumi.Plan.from_json(line, run, check=False)))
            except tezgumi.PlanError as error:
                raise tezgumi.PlanError(f"{told(path)}, line {number}: {error.fault}") from None
    if not plans:
        raise tezgumi.PlanError(f"{told(path)}: there is no plan")
    return plans


def _draw(
        asked: argparse.Namespace, run: tezgumi.Run, decisions: Sequence[tezgumi.Decision], verdict: tezgumi.Verdict) -> None:
    import tezgumi_plot

    look = {"title": os.path.basename(told(asked.file)), "medium": _medium(asked)}
    if len(decisions) == 1:
        picture = tezgumi_plot.decision(run, decisions[0], checked=verdict, **look)
    else:
        picture = tezgumi_plot.sweep([tezgumi.figures(run, decision) for decision in decisions], **look)
    tezgumi_plot.save(picture, asked.plot)


def _draw_timeline(asked: argparse.Namespace) -> int:
    refuse_inputs(asked.plot, [asked.file])
    import tezgumi_plot

    happened = timeline_of(read_trace(asked.file))
    picture = tezgumi_plot.timeline(happened, asked.title or os.path.basename(told(asked.file)), _medium(asked), asked.unit)
    tezgumi_plot.save(picture, asked.plot)
    counts = ", ".join(f"{count:,} {word}{'' if count == 1 else 's'}" for word, count in happened.counts().items())
    _say(f"{asked.plot}: {counts}")
    return RIGHT


def _medium(asked: argparse.Namespace) -> str:
    return "print" if asked.plot.lower().endswith(".pdf") else "screen"


if __name__ == "__main__":
    sys.exit(main())
