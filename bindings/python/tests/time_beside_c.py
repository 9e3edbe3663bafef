"""Times plan, decide and check from Python beside the same calls from C, on 65,536 elements and 256 PEs, in one run.

    python3 bindings/python/tests/time_beside_c.py [ROUNDS]

A round calls from C and from Python in turn, so that both meet the same load of the machine. Prints the least and the median
of each, and their ratio. `plan, from arrays` makes the Run from numpy arrays in each call, with all its tests, and `from
copies` copies them too. A C compiler is needed.
"""
import ctypes
import os
import statistics
import subprocess
import sys
import tempfile
import time

HERE = os.path.dirname(os.path.abspath(__file__))
sys.path[:0] = [os.path.dirname(HERE), HERE]

import numpy as np

import tezgumi
from tezgumi.library import place

INCLUDE = os.path.join(os.path.dirname(os.path.dirname(HERE)), "c", "include")
SOURCE = r"""
#define _POSIX_C_SOURCE 199309L
#include <stdint.h>
#include <time.h>
#include "tezgumi.h"
static double now(void) { struct timespec t; clock_gettime(CLOCK_MONOTONIC, &t); return 1e3 * t.tv_sec + 1e-6 * t.tv_nsec; }
/* Milliseconds of one call of each kind, 0 plan, 1 decide, 2 check; below 0 where it fails. */
double call(int kind, uint32_t n, uint32_t pes, const uint64_t *loads, const uint32_t *bytes, const uint32_t *places)
{
    tezgumi_run r = { n, pes, loads, bytes, places };
    tezgumi_decision d;
    uint64_t bottleneck, moved;
    double start, taken;
    int32_t status = tezgumi_decision_room(&d, n, pes);
    if (status == TEZGUMI_OK && kind == 2) status = tezgumi_decide_run(&r, &d);
    start = now();
    if (status == TEZGUMI_OK)
        status = kind == 0 ? tezgumi_plan_run(&r, pes, d.new_places, &bottleneck, &moved)
               : kind == 1 ? tezgumi_decide_run(&r, &d) : tezgumi_check_run(&r, &d);
    taken = now() - start;
    tezgumi_decision_free(&d);
    return status == TEZGUMI_OK ? taken : -1;
}
"""


def compiled(folder):
    path = os.path.join(folder, "caller.so")
    library = os.path.abspath(place())
    words = ["cc", "-O2", "-std=c99", "-shared", "-fPIC", "-I", INCLUDE, "-x", "c", "-", "-x", "none", library, "-o", path]
    subprocess.run(words, input=SOURCE.encode(), check=True)
    caller = ctypes.CDLL(path, mode=ctypes.RTLD_GLOBAL)
    caller.call.restype = ctypes.c_double
    caller.call.argtypes = [ctypes.c_int, ctypes.c_uint32, ctypes.c_uint32] + [ctypes.c_void_p] * 3
    return caller.call


def timed(call):
    start = time.perf_counter()
    call()
    return 1e3 * (time.perf_counter() - start)


def main(rounds):
    count, pes = 65_536, 256
    index = np.arange(count)
    front = 200 - np.minimum(np.abs(index - 40_000) // 20, 200)
    lists = (20 + index * 7 % 13 + front, np.uint64), (200 + index * 599 % 801, np.uint32), (index * pes // count, np.uint32)
    arrays = [numbers.astype(kind) for numbers, kind in lists]
    run = tezgumi.Run(pes, *arrays)
    decision = tezgumi.decide(run)
    calls = (
        ("plan", 0, lambda: tezgumi.plan(run)),
        ("plan, from arrays", 0, lambda: tezgumi.plan(tezgumi.Run(pes, *arrays, copy=False))),
        ("plan, from copies", 0, lambda: tezgumi.plan(tezgumi.Run(pes, *arrays))),
        ("decide", 1, lambda: tezgumi.decide(run)), ("check", 2, lambda: tezgumi.check(run, decision)))
    with tempfile.TemporaryDirectory() as folder:
        from_c = compiled(folder)
        pointers = [array.ctypes.data for array in arrays]
        print(f"{count:,} elements, {pes} PEs, {rounds} rounds, milliseconds: least (median)")
        for name, kind, call in calls:
            in_c, in_python = [], []
            for _ in range(rounds):
                in_c.append(from_c(kind, count, pes, *pointers))
                in_python.append(timed(call))
            c, python = ((min(times), statistics.median(times)) for times in (in_c, in_python))
            ratios = [one / other for one, other in zip(python, c)]
            told = (("C", c), ("Python", python), ("ratio", ratios))
            print(f"{name:18}", *(f"{what} {least:.3f} ({median:.3f})" for what, (least, median) in told), sep="  ")


if __name__ == "__main__":
    main(int(sys.argv[1]) if len(sys.argv) > 1 else 200)
