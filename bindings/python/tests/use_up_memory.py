"""Plans, decides and checks where no memory is left for the library, and prints the name of each refusal."""
import resource

import numpy as np

import tezgumi
from tezgumi import planning

index = np.arange(tezgumi.DUMP_ELEMENTS)
run = tezgumi.Run(256, index % 1000, index % 1000, index % 256)
# What a division asks for is half a byte of an element.
many = np.zeros(10_000_000, np.uint64)
# What a check asks for is little, and most for the most PEs.
right = tezgumi.decide(run, tezgumi.PES)


def call_without_memory(name, call):
    """The outcome, for a call that is made once nothing is left but what a small exception takes."""
    held = []
    resource.setrlimit(resource.RLIMIT_AS, (0, resource.RLIM_INFINITY))
    for size in (1 << 20, 1 << 16, 1 << 13):
        try:
            while True:
                held.append(bytes(size))
        except MemoryError:
            continue
    del held[-16:]
    try:
        call()
        outcome = "none"
    except MemoryError as error:
        outcome = type(error).__name__
    resource.setrlimit(resource.RLIMIT_AS, (resource.RLIM_INFINITY, resource.RLIM_INFINITY))
    held.clear()
    print(name, outcome)


# The arrays that the answers go into are made beforehand.
room = iter([np.empty(tezgumi.DUMP_ELEMENTS, np.uint32) for _ in range(2)])
numpy_empty = np.empty


def empty(count, kind):
    return next(room) if count == tezgumi.DUMP_ELEMENTS else numpy_empty(count, kind)


planning.np.empty = empty
call_without_memory("plan", lambda: tezgumi.plan(run))
call_without_memory("decide", lambda: tezgumi.decide(run))
planning.np.empty = numpy_empty
call_without_memory("divide", lambda: tezgumi.divide(many, 2))
call_without_memory("check", lambda: tezgumi.check(run, right))
print("after", bool(tezgumi.check(run, tezgumi.decide(run))))
