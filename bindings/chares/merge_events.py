#!/usr/bin/env python3
"""merge_events.py PREFIX [-o LIST]: merges the events that the PEs of a run of chares in C++ wrote down, PREFIX.0, PREFIX.1 and so on, into
one list of events of a world, and writes it to LIST, or to the standard output.

In the list the events of each PE stand in the order in which it did them. The parcels of each queue come out of it in the order in which they
were put into it, and a look for an element comes where the location word of the element says what the look gave. Where no order has all that,
the run is none of a world: a parcel overtook another, or a PE knew too little of a move. Then a line says which events go round in a ring.

The status is 0 where a list was written, 2 for words that are not understood, 3 where the files are not those of one run, 4 where the run is
none of a world, and 5 where the list was not written; then a file that was there is as it was. Events that stand before their own causes
are those of no run, so the status is 3.
"""
import argparse
import bisect
import heapq
import os
import re
import stat
import sys

RIGHT, BAD_FILE, NO_WORLD, UNWRITTEN = 0, 3, 4, 5
NUMBER = r"(0|[1-9][0-9]{0,9})"
# What each line is, by its first word. N is a number.
FORMS = {
    "Start": ["N N"],
    "Look": ["N element N at N round N", "N element N here"],
    "Flush": ["N to N letter N N", "N to N element N"],
    "Deliver": ["N from N letter N N", "N from N element N"],
    "Act": ["N"],
    "Report": ["N element N round N", "N element N finished"],
    "Decide": ["round N"],
    "Depart": ["N N to N round N"],
    "Resume": ["N N round N"],
}
PATTERNS = {
    word: [re.compile(f"{word} {form}".replace("N", NUMBER)) for form in forms] for word, forms in FORMS.items()
}
# So many numbers of a line belong to the event.
COUNTS = {"Start": 2, "Depart": 2, "Resume": 2, "Decide": 0}


class BadFile(Exception):
    """A file that is not there, or is no file of such events, or not of the same run as the others."""


class NoWorld(Exception):
    """The events are those of no world, in whatever order."""


class Event:
    """A line of a file: its event, what kind of line it is, the numbers on it, and where it stands."""

    def __init__(self, word, form, numbers, file, line):
        self.word, self.form, self.numbers, self.file, self.line = word, form, numbers, file, line
        self.after = []  # the events that come behind this one
        self.missing = 0  # how many are to come before it

    def text(self):
        return " ".join([self.word, *map(str, self.numbers[: COUNTS.get(self.word, 1)])])

    def fail(self, why):
        raise BadFile(f"{self.file}: line {self.line}: {why}")


def before(first, second):
    if first.file == second.file and first.line > second.line:
        second.fail(f"{second.text()} stands before {first.text()} of line {first.line}, which it is to follow")
    first.after.append(second)
    second.missing += 1


# ---- The files ----


def read_lines(path):
    try:
        with open(path, encoding="ascii", newline="\n") as file:
            text = file.read()
    except (OSError, UnicodeDecodeError) as error:
        raise BadFile(f"{path}: {getattr(error, 'strerror', None) or 'it has bytes that are no text'}") from None
    if not text.endswith("\n"):
        raise BadFile(f"{path}: its last line has no end")
    return text[:-1].split("\n")


def read_head(path, line):
    found = re.fullmatch("pe N of N elements N".replace("N", NUMBER), line)
    if not found:
        raise BadFile(f"{path}: line 1: it does not say whose events these are")
    return [int(it) for it in found.groups()]


def read_event(path, number, line):
    word = line.partition(" ")[0]
    for form, pattern in enumerate(PATTERNS.get(word, [])):
        found = pattern.fullmatch(line)
        if found:
            return Event(word, form, [int(it) for it in found.groups()], path, number)
    raise BadFile(f"{path}: line {number}: it is no event")


def read_file(path, pe):
    """Returns the numbers of PEs and elements, and the events of a PE."""
    lines = read_lines(path)
    me, pes, n = read_head(path, lines[0])
    if lines[-1] != f"end {len(lines) - 2}":
        raise BadFile(f"{path}: the last line does not count the others")
    if me != pe or not me < pes <= 256 or n > 65536:
        raise BadFile(f"{path}: line 1: this is PE {me} of {pes}, with {n} elements")
    events = [read_event(path, number, line) for number, line in enumerate(lines[1:-1], 2)]
    for event in events:
        check_event(event, pe, pes, n)
    return pes, n, events


def check_event(event, pe, pes, n):
    """The PE is that of the file, and other PEs and the element are there."""
    word, numbers = event.word, event.numbers
    if word != "Decide" and numbers[0] != pe:
        event.fail("it is an event of another PE")
    # Where PEs and elements stand among the numbers of a line.
    others = {"Look": numbers[2:3], "Flush": numbers[1:2], "Deliver": numbers[1:2], "Depart": numbers[2:3]}.get(word, [])
    if word in ("Flush", "Deliver"):
        elements = numbers[2:3] if event.form == 1 else []
        others = others + (numbers[2:3] if event.form == 0 else [])
    else:
        elements = [] if word in ("Act", "Decide") else numbers[1:2]
    if any(it >= pes for it in others) or any(it >= n for it in elements):
        event.fail("there is no such PE, or no such element")


def read_run(prefix):
    """Returns the number of elements, and the events of each PE."""
    pes, n, first = read_file(f"{prefix}.0", 0)
    events = [first]
    for pe in range(1, pes):
        path = f"{prefix}.{pe}"
        their_pes, their_n, theirs = read_file(path, pe)
        if (their_pes, their_n) != (pes, n):
            raise BadFile(f"{path}: line 1: it is of another run than {prefix}.0")
        events.append(theirs)
    return n, events


# ---- What comes before what ----


def link_files(events):
    for own in events:
        for first, second in zip(own, own[1:]):
            before(first, second)


def link_parcels(events):
    """A parcel comes once it has left, and those from one PE to another come in the order in which they left. Returns of each PE how its
    parcels left: of those that it took, in this order, and of those that it never took."""
    flushed, taken, queues = {}, {}, []
    for event in (it for own in events for it in own if it.word == "Flush"):
        flushed.setdefault((event.numbers[0], event.numbers[1]), []).append(event)
    for pe, own in enumerate(events):
        queue = []
        for event in (it for it in own if it.word == "Deliver"):
            pair = event.numbers[1], pe
            at = taken[pair] = taken.get(pair, 0) + 1
            if at > len(flushed.get(pair, [])):
                event.fail("the parcel was not sent")
            source = flushed[pair][at - 1]
            if (source.form, source.numbers[2:]) != (event.form, event.numbers[2:]):
                event.fail(f"line {source.line} of {source.file} sent another parcel")
            before(source, event)
            queue.append(source)
        queues.append((queue, [it for pair, all_of in flushed.items() if pair[1] == pe for it in all_of[taken.get(pair, 0):]]))
    return queues


def link_rounds(n, events):
    """A round is decided once all elements have reported for it and the round before is decided. Elements go on, and PEs look by a round, once
    it is decided."""
    reports, decided, later = {}, {}, []
    for event in (it for own in events for it in own):
        if event.word == "Report" and event.form == 0:
            element, number = event.numbers[1:]
            if reports.setdefault(number, {}).setdefault(element, event) is not event:
                event.fail("the element has reported for this round before")
        elif event.word == "Decide":
            if decided.setdefault(event.numbers[0], event) is not event:
                event.fail("the round was decided before")
        elif event.word in ("Depart", "Resume") or (event.word == "Look" and event.form == 0 and event.numbers[3] > 0):
            later.append(event)
    for number, event in sorted(decided.items()):
        if number == 0 or (number > 1 and number - 1 not in decided):
            event.fail("the round before was not decided")
        if n == 0 or len(reports.get(number, {})) != n:
            event.fail("not all elements have reported for this round")
        for cause in [*reports[number].values(), *([decided[number - 1]] if number > 1 else [])]:
            before(cause, event)
    for event in later:
        if event.numbers[-1] not in decided:
            event.fail("the round was not decided")
        before(decided[event.numbers[-1]], event)


def link_queues(queues):
    """Parcels are put into the queue of a PE in the order in which they come out of it, and those that it never takes behind them."""
    for queue, left in queues:
        for first, second in zip(queue, queue[1:]):
            before(first, second)
        for source in left if queue else ():
            before(queue[-1], source)


def link_looks(events):
    """The word of an element changes as it departs. A look by the decision of a round comes behind the last departure for that round or an
    earlier one, and before the first for a later one. A look for an element that is on the PE has its place among the events of the PE."""
    moves = {}
    for event in (it for own in events for it in own if it.word == "Depart"):
        of_element = moves.setdefault(event.numbers[1], {})
        if of_element.setdefault(event.numbers[3], event) is not event:
            event.fail("the element has departed in this round before")
    moves = {element: (sorted(of_element), [of_element[it] for it in sorted(of_element)]) for element, of_element in moves.items()}
    for event in (it for own in events for it in own if it.word == "Look" and it.form == 0):
        numbers, departures = moves.get(event.numbers[1], ([], []))
        behind = bisect.bisect_right(numbers, event.numbers[3])
        if behind > 0:
            before(departures[behind - 1], event)
        if behind < len(departures):
            before(event, departures[behind])


def in_order(events, fault):
    """Returns all events, each behind those that come before it: of those that may come next the one whose line has the lowest number, on the
    PE with the lowest."""
    ready = [(it.line, pe, it) for pe, own in enumerate(events) for it in own[:1] if not it.missing]
    pe_of = {it: pe for pe, own in enumerate(events) for it in own}
    missing = {it: it.missing for it in pe_of}
    done = []
    while ready:
        done.append(heapq.heappop(ready)[2])
        for event in done[-1].after:
            missing[event] -= 1
            if not missing[event]:
                heapq.heappush(ready, (event.line, pe_of[event], event))
    if len(done) < len(pe_of):
        raise fault("these events are in a ring: " + ring_of([it for it in pe_of if missing[it]]))
    return done


def ring_of(left):
    """Returns a ring in words: of events that stand one behind the other in a file the first and the last. It is not within one file, since
    `before` refuses that."""
    cause = {event: it for it in left for event in it.after}
    ring, at = {}, left[0]
    while at not in ring:
        ring[at] = len(ring)
        at = cause[at]
    ring = list(ring)[ring[at]:][::-1]
    ring = [it for i, it in enumerate(ring) if not ring[i - 1].file == it.file == ring[(i + 1) % len(ring)].file]
    told = [f"{it.text()} (line {it.line} of {it.file})" for it in ring]
    return ", ".join(told[:6] + ["and so on"] * (len(told) > 6))


def follow_words(n, pes, events):
    """Keeps the location word of each element, as a world does, and compares it with what looks gave, and with where elements go on."""
    words = [i * pes // n for i in range(n)]
    for event in events:
        if event.word in ("Start", "Resume", "Depart"):
            pe, element = event.numbers[:2]
            if words[element] != pe:
                event.fail(f"the word of the element says {words[element]}")
        if event.word == "Depart":
            if event.numbers[2] == pe:
                event.fail("the element stays")
            words[element] = event.numbers[2]
        elif event.word == "Look":
            element, address = event.numbers[1], event.numbers[0 if event.form == 1 else 2]
            if words[element] != address:
                event.fail(f"the word of the element says {words[element]}")


def merge(prefix):
    """Returns the list of events of these files, as text."""
    n, events = read_run(prefix)
    link_files(events)
    queues = link_parcels(events)
    link_rounds(n, events)
    in_order(events, BadFile)  # so far by causes alone, which are in order in each run
    link_queues(queues)
    link_looks(events)
    merged = in_order(events, NoWorld)
    follow_words(n, len(events), merged)
    return "".join(it.text() + "\n" for it in merged)


def write(path, text):
    """Writes the list. It is written beside its place first, so that a file that was there stays as it was where that fails."""
    if not path:
        if sys.stdout is None:
            raise OSError(0, "there is no standard output")
        with sys.stdout as file:
            file.write(text)
        return
    if os.path.exists(path) and not os.path.isfile(path):
        with open(path, "w", encoding="ascii") as file:
            file.write(text)
        return
    place = os.path.realpath(path)
    beside = f"{place}.{os.getpid()}.part"
    file = open(beside, "x", encoding="ascii")
    try:
        with file:
            file.write(text)
        if os.path.exists(place):
            os.chmod(beside, stat.S_IMODE(os.stat(place).st_mode))
        os.replace(beside, place)
    except OSError:
        os.remove(beside)
        raise


def tell(why):
    if sys.stderr is not None:
        print(f"merge_events.py: {why}", file=sys.stderr)


def main(words):
    parser = argparse.ArgumentParser(description="Merges the events of the PEs of a run of chares in C++ into one list of events of a world.")
    parser.add_argument("prefix", metavar="PREFIX", help="the files are this name, a dot, and the number of a PE")
    parser.add_argument("-o", "--output", metavar="LIST", help="where the list goes; the standard output, if left out")
    asked = parser.parse_args(words)
    try:
        text = merge(asked.prefix)
    except BadFile as fault:
        tell(fault)
        return BAD_FILE
    except NoWorld as fault:
        tell(f"no order of a world: {fault}")
        return NO_WORLD
    try:
        write(asked.output, text)
    except OSError as error:
        tell(f"the list was not written: {error.strerror}")
        return UNWRITTEN
    return RIGHT


if __name__ == "__main__":
    sys.exit(main(sys.argv[1:]))
