"""The text of a decision that lb_sim prints."""
from __future__ import annotations

from .checking import running_sums
from .errors import InputError
from .runs import Decision, Run, taken_decision, taken_run


def replay_text(run: Run, decision: Decision) -> str:
    """The text that `lb_sim` prints, where the decision is the planner's own for this run. docs/FORMATS.md tells each line."""
    run, decision = taken_run(run), taken_decision(decision)
    lines = [f"step {run.step} procs {decision.pes} elements {len(run)}", f"bottleneck {decision.bottleneck}"]
    lines.append("fence " + (" ".join(map(str, decision.stops.tolist())) or "zero"))
    sums = running_sums(run.loads).tolist()
    cuts = decision.cuts.tolist()
    if max(cuts, default=0) > len(run):
        raise InputError(f"the cuts go to element {max(cuts)}, and the run has {len(run)}")
    for block, (first, end, pe) in enumerate(zip(cuts, cuts[1:], decision.names.tolist())):
        name = "-" if first == end else str(pe)
        lines.append(f"block {block} {first}..{end} load {sums[end] - sums[first]} pe {name}")
    lines.append(f"moved {decision.moved}")
    return "\n".join(lines) + "\n"
