#!/usr/bin/env python3
"""trace_text.py FILE ELEMENTS ROUNDS: what a merged trace of a run shows that balanced each of its rounds, in one line.

An element starts, and goes on after each round. It leaves a PE and comes to another at the same time later, and never has two handlers at a time."""
import collections
import json
import sys

events = json.load(open(sys.argv[1], encoding="utf-8"))
elements, rounds = int(sys.argv[2]), int(sys.argv[3])
slices = [it for it in events if it["ph"] == "X"]
resumed = collections.Counter(it["args"]["element"] for it in slices if it["name"] == "resume")
flows = collections.defaultdict(list)
for it in events:
    if it["ph"] in "sf":
        flows[it["id"]].append((it["ts"], it["ph"], it["tid"]))
busy = collections.defaultdict(list)
for it in slices:
    busy[it["args"]["element"]].append((it["ts"], it["ts"] + it["dur"]))
apart = all(one[1] <= other[0] + 0.002 for spans in busy.values() for one, other in zip(sorted(spans), sorted(spans)[1:]))
moves = all(len(it) == 2 and sorted(it)[0][1] == "s" and it[0][2] != it[1][2] for it in flows.values())
idle = [value for it in events if it["ph"] == "C" for value in it["args"].values()]
decided = sorted(it["args"]["round"] for it in events if it["ph"] == "i" and it["s"] == "g")
print("resumed", resumed == {i: rounds + 1 for i in range(elements)}, "moves", moves, "apart", apart,
      "idle", all(0 <= it <= 100 for it in idle), "rounds", decided == list(range(1, rounds + 1)), "first", min(it["ts"] for it in events if "ts" in it))
