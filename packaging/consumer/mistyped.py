"""A user's program with two mistakes, which mypy names."""
import tezgumi

run = tezgumi.Run(2, [1, 2], [1, 1], [0, 1])
tezgumi.plan([1, 2])
bottleneck: str = tezgumi.decide(run).bottleneck
