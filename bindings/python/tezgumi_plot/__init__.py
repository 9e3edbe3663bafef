"""Pictures of decisions of Tezgumi's load balancer, by matplotlib.

    import tezgumi, tezgumi_plot

    run, _ = tezgumi.read_dump("examples/moving-front.lbd1")
    decision = tezgumi.decide(run)
    picture = tezgumi_plot.decision(run, decision, checked=tezgumi.check(run, decision))
    tezgumi_plot.save(picture, "decision.png")

`decision`, `sweep` and `timeline`, of a trace, answer a matplotlib Figure, which a notebook shows. medium="print" makes it fit a
page.
"""
from .paper import save
from .pictures import decision, sweep
from .timelines import timeline

__all__ = ["decision", "save", "sweep", "timeline"]
