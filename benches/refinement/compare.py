#!/usr/bin/env python3
"""Compares what a program prints for `--tolerance T FILE` with what the search of search_all.py says, as texts.py writes it.

    compare.py PROGRAM [--chains 500] [--least]

The dumps are those of texts.py, with some tolerances each, and so many chains of search_all.py, all of whose elements are on PEs of
theirs. Several namings of the blocks may be cheapest: what the program prints has to be one of them. With --least it has to be the
least, so that the texts are the same byte for byte: lb_sim itself prints that. The status is 0 where all are as they have to be.
"""
import argparse
import os
import re
import struct
import subprocess
import sys
import tempfile
from contextlib import redirect_stdout
from io import StringIO
from itertools import chain, count, islice

sys.dont_write_bytecode = True
import search_all  # noqa: E402
import texts  # noqa: E402


def named():
    """The dumps of texts.py: the name, the number of PEs, and a tolerance."""
    for name, (_, pes, *_) in list(texts.DUMPS.items()):
        for tolerance in (0, 20, 167, 500, 1000):
            yield name, pes, tolerance


def drawn():
    """The same of the chains of search_all.py, which are put with the others under their seeds."""
    for seed in count():
        loads, sizes, places, pes, tolerance = search_all.chain(seed)
        if all(place < pes for place in places):
            texts.DUMPS[seed] = (seed, pes, loads, sizes, places)
            yield seed, pes, tolerance


def searched(name, pes, tolerance):
    """What is to be printed."""
    text = StringIO()
    with redirect_stdout(text):
        texts.replay(name, pes, tolerance)
    return text.getvalue()


def printed(program, folder, name, tolerance):
    """What the program prints of a dump in the format LBD2, without a decision."""
    step, pes, loads, sizes, places = texts.DUMPS[name]
    path = os.path.join(folder, "dump")
    with open(path, "wb") as file:
        file.write(b"LBD2" + struct.pack(">III", step, pes, len(loads)))
        file.writelines(struct.pack(">QII", *element) for element in zip(loads, sizes, places))
        file.write(bytes(4))
    return subprocess.run([program, "--tolerance", str(tolerance), path], stdout=subprocess.PIPE, check=True).stdout.decode()


def without_names(text):
    return re.sub(r" pe .*", "", text)


def is_cheapest(text, name):
    """Whether the blocks of a text have PEs of their own, so that just the bytes move that it says."""
    _, pes, _, sizes, places = texts.DUMPS[name]
    blocks = [[int(it) for it in row] for row in re.findall(r"^block \d+ (\d+)\.\.(\d+) load \d+ pe (\d+)$", text, re.M)]
    moved = sum(sizes[i] for first, end, pe in blocks for i in range(first, end) if places[i] != pe)
    names = [pe for _, _, pe in blocks]
    return len(set(names)) == len(names) and max(names, default=0) < pes and f"\nmoved {moved}\n" in text


def main():
    words = argparse.ArgumentParser(description=__doc__, formatter_class=argparse.RawDescriptionHelpFormatter)
    words.add_argument("program")
    words.add_argument("--chains", type=int, default=500)
    words.add_argument("--least", action="store_true")
    asked = words.parse_args()
    same, alike = 0, 0
    with tempfile.TemporaryDirectory() as folder:
        for name, pes, tolerance in chain(named(), islice(drawn(), asked.chains)):
            there, here = searched(name, pes, tolerance), printed(asked.program, folder, name, tolerance)
            if here == there:
                same += 1
            elif not asked.least and without_names(here) == without_names(there) and is_cheapest(here, name):
                alike += 1
            else:
                sys.exit(f"of {name} on {pes} PEs within {tolerance} the program prints\n{here}and the search\n{there}")
    print(f"{same} texts are the same, and {alike} have other names that are as cheap")


if __name__ == "__main__":
    main()
