#!/usr/bin/env python3
"""Runs three desks on some PEs by the seeds 1 to N, in the order that each draws, and prints what schedule_run's tell_seeds writes.

    desks.py PES N

Element 0 opens the desk, which is element 2, and element 1 hands something in: where the desk is not open yet, its handler is refused.
The world and the draws are those of slow_schedule.py.
"""
import sys

sys.dont_write_bytecode = True
import slow_schedule  # noqa: E402

OPENS, HANDED_IN = 0, 1


class Refused(Exception):
    """A handler was refused."""


class Desk:
    def __init__(self, index):
        self.index, self.is_open = index, False

    def on_resume(self):
        return [(2, self.index)] if self.index in (OPENS, HANDED_IN) else [], 0, False, True

    def on_letter(self, body):
        if body == HANDED_IN and not self.is_open:
            raise Refused
        self.is_open = True
        return [], 0, False, False


class Desks:
    """What a world asks of a workload."""

    def __init__(self, pes):
        self.pes, self.chares, self.pad, self.amounts = pes, 3, 0, []


class World(slow_schedule.World):
    def __init__(self, pes):
        super().__init__(Desks(pes))
        for pe in self.pes:
            for element in pe.room.values():
                element.tally = Desk(element.index)

    def act(self, number):
        """A letter whose handler is refused stays in the hand, and is not executed."""
        pe = self.pes[number]
        hand, look = pe.hand, pe.look
        try:
            return super().act(number)
        except Refused:
            pe.hand, pe.look = hand, look
            pe.room[hand.target].journal.remove(hand)
            raise

    def assert_laws(self):
        """Those of slow_schedule.py are of tallies."""


def line_of(pes, seed):
    """The line of a run that a handler ended, or nothing where it ended well."""
    world = World(pes)
    try:
        _, fault = slow_schedule.run(world, slow_schedule.Schedule(seed))
        assert fault is None
        return ""
    except Refused:
        return f"seed {seed} fault stranger held {world.account()[2]}\n"


def main():
    pes, seeds = map(int, sys.argv[1:])
    lines = [line_of(pes, seed) for seed in range(1, seeds + 1)]
    print("".join(lines) + f"seeds {seeds} faults {sum(map(bool, lines))}")


if __name__ == "__main__":
    main()
