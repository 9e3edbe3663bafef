"""A hot spot that wanders over a chain of cells, which are numpy arrays on the ranks of an MPI program:

    mpirun -n 4 python3 arrays.py

Rank 0 begins with all cells. Each line has what a rebalance gave, and the last one says whether every cell is still there.
"""
import numpy as np
from mpi4py import MPI

import tezgumi.mpi

CELLS, STEPS, WIDTH = 1000, 5, 50
comm = MPI.COMM_WORLD


def loads_at(step, numbers):
    """The load of a cell: 1, and near the spot 20 more."""
    spot = CELLS * (2 * step + 1) // (2 * STEPS)
    return np.where(np.abs(numbers - spot) < WIDTH, 21, 1).astype(np.uint64)


def main():
    numbers = np.arange(CELLS if comm.rank == 0 else 0)
    values = np.stack([np.sqrt(numbers), 1.0 / (numbers + 1)], axis=1)  # two numbers of each cell
    for step in range(STEPS):
        new = tezgumi.mpi.rebalance(comm, loads_at(step, numbers), [numbers, values], tolerance=20, keep_order=True)
        numbers, values = new.fields
        if comm.rank == 0:
            r = new.report
            print(f"step {step}: greatest load {r.max_load_before}, then {r.max_load_after}; {r.elements_moved} cells moved")
    everything = comm.gather((numbers, values))
    if comm.rank == 0:
        numbers, values = (np.concatenate(parts) for parts in zip(*everything))
        whole = np.array_equal(numbers, np.arange(CELLS)) and np.array_equal(values[:, 0], np.sqrt(numbers))
        print("all cells are there" if whole else "cells are lost")


if __name__ == "__main__":
    main()
