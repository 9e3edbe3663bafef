#!/usr/bin/env python3
"""Writes and reads dumps of both formats, LBD1 and LBD2, with nothing but Python's standard library.

usage: examples/dumps.py [FILE..]      (with no FILE: the dumps beside it)

It prints what each dump holds. docs/FORMATS.md has the formats field by field. It checks nothing that a reader of dumps from
strangers has to check: `lb_sim` does. First it writes the worked example and compares it with the file beside it.
"""

import glob
import os
import struct
import sys

HERE = os.path.dirname(os.path.abspath(__file__))


def dump1(step, procs, elements):
    """The text in LBD1 of elements (load, size, place)."""
    text = b"LBD1" + struct.pack(">III", step, procs, len(elements))
    for load, size, place in elements:
        text += struct.pack(">III", load, size, place)
    return text


def dump2(step, procs, elements, decision=None):
    """The text in LBD2 of elements (load, size, place), with a decision or without."""
    text = b"LBD2" + struct.pack(">III", step, procs, len(elements))
    for load, size, place in elements:
        text += struct.pack(">QII", load, size, place)
    if decision is None:
        return text + struct.pack(">I", 0)
    d = decision
    target = len(d["names"])
    text += struct.pack(">IIQ", 1, target, d["bottleneck"])
    text += struct.pack(f">{target + 1}I", *d["cuts"])
    if d["stops"] is None:
        text += struct.pack(">I", 0)
    else:
        text += struct.pack(f">I{target + 1}I", 1, *d["stops"])
    text += struct.pack(f">{target}I{target}q{target}q", *d["names"], *d["u"], *d["v"])
    text += struct.pack(">QI", d["moved"], len(d["moves"]))
    for move in d["moves"]:
        text += struct.pack(">III", *move)
    return text


# No dump has more bytes: 65,536 elements, and a decision for 256 PEs by which all of them move.
MOST_BYTES = 16 + 16 * 65536 + 4 + 12 + 4 * 257 + 4 + 4 * 257 + 20 * 256 + 12 + 12 * 65536


def text_of(name):
    """The text of a file, of which no more is read than a dump has."""
    with open(name, "rb") as file:
        text = file.read(MOST_BYTES + 1)
    if len(text) > MOST_BYTES:
        sys.exit(f"{name} is longer than any dump")
    return text


def read(text):
    """Returns the step, the number of PEs, the elements and the decision, or None for that, of a text."""
    at = 0

    def take(form):
        nonlocal at
        values = struct.unpack_from(">" + form, text, at)
        at += struct.calcsize(">" + form)
        return values

    magic, step, procs, count = take("4sIII")
    wide = magic == b"LBD2"
    elements = [take("QII" if wide else "III") for _ in range(count)]
    if not wide or take("I") == (0,):
        return step, procs, elements, None
    target, bottleneck = take("IQ")
    d = {"bottleneck": bottleneck, "cuts": take(f"{target + 1}I")}
    d["stops"] = take(f"{target + 1}I") if take("I") == (1,) else None
    d["names"], d["u"], d["v"] = take(f"{target}I"), take(f"{target}q"), take(f"{target}q")
    d["moved"], moves = take("QI")
    d["moves"] = [take("III") for _ in range(moves)]
    return step, procs, elements, d


def main(names):
    three = [(1, 10, 0), (1, 9, 1), (2, 8, 0)]
    decision = {
        "bottleneck": 2,
        "cuts": (0, 2, 3),
        "stops": (0, 1, 2),
        "names": (1, 0),
        "u": (10, 1),
        "v": (-1, 0),
        "moved": 10,
        "moves": [(0, 0, 1)],
    }
    for name, text in (("three-elements.lbd1", dump1(5, 2, three)), ("three-elements.lbd2", dump2(5, 2, three, decision))):
        with open(os.path.join(HERE, name), "rb") as file:
            if file.read() != text:
                sys.exit(f"{name} is not the worked example")
    for name in names or sorted(glob.glob(os.path.join(HERE, "*.lbd?"))):
        step, procs, elements, decision = read(text_of(name))
        print(os.path.basename(name), "step", step, "procs", procs, "elements", len(elements), "bottleneck", decision and decision["bottleneck"])


if __name__ == "__main__":
    if sys.argv[1:2] in (["-h"], ["--help"]):
        sys.exit(__doc__)
    main(sys.argv[1:])
