#!/usr/bin/env python3
"""Runs a workload of charm_run in a world of PEs, event by event, in the order that a seed draws, and prints the events.

    slow_schedule.py FILE [--seed S] [--limit N] [--tolerance T] [--letters-first] [--moves-first] [--stale-looks] [--starve P]
                     [--text] [--trace]

One line for each event. With --text the lines that charm_run prints of such a run follow, and with --trace each event has behind
it, after a tab, what it adds to the trace.

It follows the table of docs/EVENTS.md, the formats of docs/FORMATS.md and the rules of docs/RUNS.md, and shares no code with
the project. The decision of a round is that of slow_planner.py beside the tests of the Python package, and within a tolerance
that of search_all.py: both try everything, so it is for small workloads. After each event every letter and every element is
looked for, place by place.
"""
import argparse
import os
import sys
from collections import Counter, deque

sys.dont_write_bytecode = True
HERE = os.path.dirname(os.path.abspath(__file__))
sys.path[:0] = [os.path.join(HERE, "..", "refinement"), os.path.join(HERE, "..", "..", "bindings", "python", "tests")]
import search_all  # noqa: E402
import slow_planner  # noqa: E402

MASK = 2**64 - 1
MOST_LOAD = 140_737_488_355_327
DRAWS = 16

# The kinds of events, in the order in which they are drawn from.
LOOK, FLUSH, DELIVER, ACT, REPORT, ELEMENT, DECIDE = range(7)
LETTERS_FIRST, MOVES_FIRST, STALE_LOOKS = {LOOK, FLUSH, DELIVER, ACT}, {REPORT, ELEMENT, DECIDE}, {LOOK}


class Numbers:
    """SplitMix64: G. L. Steele, D. Lea, C. H. Flood, "Fast splittable pseudorandom number generators", OOPSLA 2014."""

    def __init__(self, seed):
        self.state = seed

    def next(self):
        self.state = (self.state + 0x9E3779B97F4A7C15) & MASK
        z = self.state
        z = (z ^ (z >> 30)) * 0xBF58476D1CE4E5B9 & MASK
        z = (z ^ (z >> 27)) * 0x94D049BB133111EB & MASK
        return z ^ (z >> 31)

    def below(self, most):
        return self.next() * most >> 64


class Workload:
    """The text of a workload, which has to be right."""

    def __init__(self, text):
        rows = [line.split(" ") for line in text.splitlines()]
        heads = [int(row[1]) for row in rows[:4]]
        assert [row[0] for row in rows] == ["pes", "rounds", "pad", "chares"] + ["amounts"] * heads[1]
        self.pes, self.rounds, self.pad, self.chares = heads
        self.amounts = [[int(word) for word in row[1:]] for row in rows[4:]]
        assert all(len(row) == self.chares for row in self.amounts)


class Letter:
    def __init__(self, name, target, amount):
        self.name, self.target, self.amount, self.hops = name, target, amount, 0


class Tally:
    """A chare: what it is given to send in each round, what it has sent and got, and its neighbor."""

    def __init__(self, amounts, pad, neighbor):
        self.amounts, self.pad, self.neighbor = amounts, pad, neighbor
        self.posted, self.got, self.sum = 0, 0, 0

    def packed_bytes(self):
        return 24 + 4 * len(self.amounts) + self.pad

    # Each handler returns what it posts, as pairs of a target and an amount, the units, and whether it is at sync or finished.

    def on_resume(self):
        if self.posted == len(self.amounts):
            return [], 0, False, True
        posts = [(self.neighbor, self.amounts[self.posted])]
        self.posted += 1
        return posts, 0, self.got >= self.posted, False

    def on_letter(self, amount):
        self.got += 1
        self.sum += amount
        return [], amount, self.got == self.posted, False


class Element:
    def __init__(self, index, tally):
        self.index, self.tally, self.journal = index, tally, []
        self.round, self.load = 0, 0
        self.has_started, self.waits, self.has_finished = False, False, False


class Pe:
    def __init__(self):
        self.room, self.shelf, self.outbox, self.notes, self.count = {}, [], deque(), deque(), 0
        self.hand, self.look = None, None  # a parcel, and the PE that a look gave

    def stray(self):
        """The letter in the hand whose element does not stand here, or None."""
        return self.hand if isinstance(self.hand, Letter) and self.hand.target not in self.room else None


class Board:
    """What the elements have reported in the round under way, which have finished, and the rounds that were decided."""

    def __init__(self, workload, tolerance):
        self.workload, self.tolerance = workload, tolerance
        self.reports, self.finished, self.rounds = {}, set(), []  # of each round the bottleneck, the bytes moved, the places

    def take(self, note):
        word, index, *rest = note
        if word == "finished":
            assert index not in self.finished
            self.finished.add(index)
            return ""
        round_number, load, size, pe = rest
        assert round_number == len(self.rounds) + 1 and index not in self.reports
        self.reports[index] = (load, size, pe)
        return f"Synced({index}, {round_number})"

    def is_complete(self):
        return len(self.reports) == self.workload.chares

    def decide(self):
        loads, sizes, places = zip(*(self.reports[index] for index in range(self.workload.chares)))
        pes = self.workload.pes
        if self.tolerance is None:
            peak, _, _, _, moved, after = slow_planner.plan(loads, sizes, places, pes)
        else:
            cuts, names, moved, _ = search_all.decide(loads, sizes, places, pes, self.tolerance)
            peak = search_all.peak(loads, cuts)
            after = [names[b] for b in range(pes) for _ in range(cuts[b], cuts[b + 1])]
        self.rounds.append((peak, moved, after))
        self.reports = {}
        return f"Decided({len(self.rounds)})"


class World:
    def __init__(self, workload, tolerance=None):
        count, pes = workload.chares, workload.pes
        self.pes, self.queues = [Pe() for _ in range(pes)], [deque() for _ in range(pes)]
        self.board = Board(workload, tolerance)
        self.words = [index * pes // count for index in range(count)]
        for index, pe in enumerate(self.words):
            amounts = [row[index] for row in workload.amounts]
            self.pes[pe].room[index] = Element(index, Tally(amounts, workload.pad, (index + 1) % count))

    # What may happen.

    def enabled(self):
        """The events that may happen, kind by kind, each in the order of PE or element number."""
        kinds = [[] for _ in range(7)]
        for number, pe in enumerate(self.pes):
            stray, front = pe.stray(), pe.outbox[0] if pe.outbox else None
            if stray and pe.look is None or front and isinstance(front[0], Letter) and front[1] is None:
                kinds[LOOK].append(("Look", number))
            if front and front[1] is not None:
                kinds[FLUSH].append(("Flush", number))
            if pe.hand is None and self.queues[number]:
                kinds[DELIVER].append(("Deliver", number))
            if pe.hand and self.can_act(pe):
                kinds[ACT].append(("Act", number))
            if pe.notes:
                kinds[REPORT].append(("Report", number))
        kinds[ELEMENT] = self.element_events()
        if self.board.is_complete():
            kinds[DECIDE].append(("Decide",))
        return kinds

    def can_act(self, pe):
        if isinstance(pe.hand, Element):
            return True
        if pe.stray():
            return pe.look is not None
        return pe.room[pe.hand.target].has_started

    def element_events(self):
        found = {}
        for number, pe in enumerate(self.pes):
            for index, element in pe.room.items():
                if not element.has_started:
                    found[index] = ("Start", number, index)
                elif element.waits and element.round < len(self.board.rounds):
                    place = self.board.rounds[element.round][2][index]
                    found[index] = ("Resume" if place == number else "Depart", number, index)
        return [found[index] for index in sorted(found)]

    # What each event does. It returns what the event adds to the trace.

    def step(self, event):
        return getattr(self, event[0].lower())(*event[1:])

    def start(self, number, index):
        element = self.pes[number].room[index]
        element.has_started = True
        return [f"Resumed({index}, 0)"] + self.handled(number, element, element.tally.on_resume())

    def resume(self, number, index):
        element = self.pes[number].room[index]
        element.waits = False
        element.round += 1
        return [f"Resumed({index}, {element.round})"] + self.handled(number, element, element.tally.on_resume())

    def handled(self, number, element, effect):
        """What a handler leads to: its letters in the outbox, its units in the load, and a note."""
        posts, units, at_sync, finished = effect
        pe, trace = self.pes[number], []
        element.load = min(element.load + units, MOST_LOAD)
        for target, amount in posts:
            letter = Letter((number, pe.count), target, amount)
            pe.count += 1
            pe.outbox.append([letter, None])
            trace.append(f"Posted({named(letter)}, {target})")
        if finished:
            if not element.has_finished:
                element.has_finished = True
                pe.notes.append(("finished", element.index))
        elif at_sync and not element.waits and not element.has_finished:
            element.waits = True
            pe.notes.append(("sync", element.index, element.round + 1, element.load, element.tally.packed_bytes(), number))
            element.load = 0
        return trace

    def look(self, number):
        pe = self.pes[number]
        if pe.stray() and pe.look is None:
            pe.look = self.words[pe.hand.target]
        else:
            pe.outbox[0][1] = self.words[pe.outbox[0][0].target]
        return []

    def flush(self, number):
        parcel, address = self.pes[number].outbox.popleft()
        self.queues[address].append(parcel)
        return []

    def deliver(self, number):
        self.pes[number].hand = self.queues[number].popleft()
        return []

    def act(self, number):
        pe = self.pes[number]
        parcel, look = pe.hand, pe.look
        pe.hand, pe.look = None, None
        if isinstance(parcel, Element):
            return self.install(number, parcel)
        if parcel.target in pe.room:
            element = pe.room[parcel.target]
            element.journal.append(parcel)
            entry = f"Executed({named(parcel)}, {parcel.target})"
            return [entry] + self.handled(number, element, element.tally.on_letter(parcel.amount))
        if look == number:
            pe.shelf.append(parcel)
            return [f"Shelved({named(parcel)})"]
        parcel.hops += 1
        pe.outbox.append([parcel, look])
        return [f"Forwarded({named(parcel)})"]

    def install(self, number, element):
        pe = self.pes[number]
        pe.room[element.index] = element
        pe.outbox.extend([letter, number] for letter in pe.shelf if letter.target == element.index)
        pe.shelf = [letter for letter in pe.shelf if letter.target != element.index]
        return [f"Installed({element.index})"]

    def report(self, number):
        entry = self.board.take(self.pes[number].notes.popleft())
        return [entry] if entry else []

    def decide(self):
        return [self.board.decide()]

    def depart(self, number, index):
        pe = self.pes[number]
        element = pe.room.pop(index)
        place = self.board.rounds[element.round][2][index]
        pe.outbox.append([element, place])
        self.words[index] = place
        return [f"Departed({index})"]

    # What there is.

    def held(self):
        """Each parcel that is in a hand, a shelf, an outbox or a queue, with the PE that it is on or is to go to next."""
        for number, pe in enumerate(self.pes):
            yield from ((parcel, number) for parcel in [pe.hand, *pe.shelf, *self.queues[number]] if parcel)
            yield from pe.outbox

    def elements(self):
        """Each element, with the PE that it stands on, or is on its way to."""
        for number, pe in enumerate(self.pes):
            yield from ((element, number) for element in pe.room.values())
        yield from ((parcel, number) for parcel, number in self.held() if isinstance(parcel, Element))

    def account(self):
        """How many letters were posted, were executed, and are held."""
        executed = sum(len(element.journal) for element, _ in self.elements())
        return sum(pe.count for pe in self.pes), executed, sum(isinstance(parcel, Letter) for parcel, _ in self.held())

    def assert_laws(self):
        elements = {element.index: (element, number) for element, number in self.elements()}
        assert sorted(element.index for element, _ in self.elements()) == list(range(len(self.words)))
        for index, (element, number) in elements.items():
            assert self.words[index] == number
            assert all(letter.target == index for letter in element.journal)
            assert element.tally.sum == sum(letter.amount for letter in element.journal)
        letters = [parcel for parcel, _ in self.held() if isinstance(parcel, Letter)]
        letters += [letter for element, _ in elements.values() for letter in element.journal]
        assert Counter(it.name for it in letters) == Counter((p, k) for p, pe in enumerate(self.pes) for k in range(pe.count))
        # Whatever waits on a shelf waits for an element on its way here.
        for number, pe in enumerate(self.pes):
            assert all(letter.target not in pe.room and self.words[letter.target] == number for letter in pe.shelf)


def named(letter):
    return f"{letter.name[0]}.{letter.name[1]}"


class Schedule:
    """How the next event is drawn: the seed, and what is drawn more or less often than the rest."""

    def __init__(self, seed, letters_first=False, moves_first=False, stale_looks=False, starve=None):
        self.numbers, self.starve, self.draws = Numbers(seed), starve, 0
        biases = ((letters_first, LETTERS_FIRST), (moves_first, MOVES_FIRST), (stale_looks, STALE_LOOKS))
        self.weights = [16 ** sum(is_on and kind in kinds for is_on, kinds in biases) for kind in range(7)]

    def draw(self, kinds):
        left = self.numbers.below(sum(weight * len(events) for weight, events in zip(self.weights, kinds)))
        for weight, events in zip(self.weights, kinds):
            if left < weight * len(events):
                return events[left // weight]
            left -= weight * len(events)

    def choose(self, kinds):
        for _ in range(DRAWS):
            event = self.draw(kinds)
            self.draws += 1
            if self.starve is None or event[1:2] != (self.starve,):
                break
        return event


def run(world, schedule, limit=None):
    """The events with what each adds to the trace, and the word of the fault, or None where the run ends well."""
    events = []
    while True:
        posted, executed, _ = world.account()
        if len(world.board.finished) == len(world.words) and posted == executed:
            return events, None
        if len(events) == limit:
            return events, "stopped"
        kinds = world.enabled()
        if not any(kinds):
            return events, "idle"
        event = schedule.choose(kinds)
        events.append((event, world.step(event)))
        world.assert_laws()


def text_of(world, fault):
    """What charm_run prints."""
    lines = [f"round {number} bottleneck {peak} moved {moved}" for number, (peak, moved, _) in enumerate(world.board.rounds, 1)]
    if fault:
        lines.append(f"fault {fault}")
    else:
        sums = {element.index: element.tally.sum for element, _ in world.elements()}
        lines.append(" ".join(["sums"] + [str(sums[index]) for index in sorted(sums)]))
    lines.append("posted {} executed {} held {}".format(*world.account()))
    return "".join(line + "\n" for line in lines)


def line_of(event):
    return " ".join(map(str, event)) + "\n"


def main():
    words = argparse.ArgumentParser(description=__doc__, formatter_class=argparse.RawDescriptionHelpFormatter)
    words.add_argument("file")
    words.add_argument("--seed", type=int, default=0)
    for name in ("--limit", "--tolerance", "--starve"):
        words.add_argument(name, type=int)
    for name in ("--letters-first", "--moves-first", "--stale-looks", "--text", "--trace"):
        words.add_argument(name, action="store_true")
    asked = words.parse_args()
    with open(asked.file, encoding="ascii") as file:
        world = World(Workload(file.read()), asked.tolerance)
    schedule = Schedule(asked.seed, asked.letters_first, asked.moves_first, asked.stale_looks, asked.starve)
    events, fault = run(world, schedule, asked.limit)
    for event, added in events:
        told = "\t" + ", ".join(added) if asked.trace and added else ""
        print(*event, end=told + "\n")
    if asked.text:
        print(text_of(world, fault), end="")


if __name__ == "__main__":
    main()
