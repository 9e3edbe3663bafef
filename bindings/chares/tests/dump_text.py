#!/usr/bin/env python3
"""dump_text.py EXAMPLES DUMP..: prints of each dump of a balanced round the line that hot_spot prints, by the reader of examples/dumps.py.
A decision that is not the one of its elements is an error."""
import sys

sys.path.insert(0, sys.argv[1])
import dumps

for name in sys.argv[2:]:
    with open(name, "rb") as file:
        step, procs, elements, decision = dumps.read(file.read())
    on = [0] * procs
    for load, _, place in elements:
        on[place] += load
    d = decision
    places = [pe for b, pe in enumerate(d["names"]) for _ in range(d["cuts"][b], d["cuts"][b + 1])]
    moves = [(i, it[2], pe) for i, (it, pe) in enumerate(zip(elements, places)) if it[2] != pe]
    blocks = [sum(it[0] for it in elements[d["cuts"][b] : d["cuts"][b + 1]]) for b in range(procs)]
    if [tuple(it) for it in d["moves"]] != moves or max(blocks) != d["bottleneck"] or sum(elements[i][1] for i, _, _ in moves) != d["moved"]:
        sys.exit(f"{name}: the decision is not that of its elements")
    print(f"round {step} greatest {max(on)} average {sum(on) // procs} moved {d['moved']}")
