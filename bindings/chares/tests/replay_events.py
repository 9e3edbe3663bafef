#!/usr/bin/env python3
"""replay_events.py CHARM_RUN WORKLOAD [WORKLOAD_RANKS LAUNCH..]: runs a thousand small workloads by the program WORKLOAD, on threads, and some
of them by WORKLOAD_RANKS, which the words LAUNCH start on ranks. Of each run the events are merged, and CHARM_RUN replays them: it is to
print what the run printed. Then lists and files are forged. Each test prints a line. A line "events" for threads, and one for ranks, says how
many runs were of a world. A program may take TEZGUMI_TEST_SECONDS, 300 if that is not set.
"""
import collections
import concurrent.futures
import contextlib
import io
import os
import pathlib
import random
import resource
import subprocess
import sys
import tempfile
import threading

sys.path.insert(0, str(pathlib.Path(__file__).parent.parent))
sys.dont_write_bytecode = True
import merge_events  # noqa: E402  (it stands in the folder above)

RUNS, ON_RANKS, SECONDS = 1000, 40, int(os.environ.get("TEZGUMI_TEST_SECONDS") or 300)
# Of a hundred runs on two PEs or more so many are of a world, at least; of few runs on a slow machine some more may not be. On one PE all are.
LEAST = {"threads": 92, "ranks": 80}
AT_ONCE = {"threads": threading.Semaphore(4), "ranks": threading.Semaphore(2)}

failed = 0


def expect(name, good, why=""):
    global failed
    failed += not good
    print(f"ok: {name}" if good else f"FAILED: {name}{why and ': ' + why}", flush=True)


def finish(words):
    """Runs a program to its end: its status, and what it prints."""
    ended = subprocess.run(words, stdin=subprocess.DEVNULL, capture_output=True, text=True, timeout=SECONDS)
    return ended.returncode, ended.stdout, ended.stderr


# ---- Runs ----


class Run:
    """A small run of unequal amounts, by its number: the workload, and the words that bound messages and let PEs wait."""

    def __init__(self, number, folder, ranks=False):
        it = random.Random(number)
        self.number, self.kind = number, "ranks" if ranks else "threads"
        self.pes = it.randint(1, 4)
        self.n, self.rounds = it.randint(1, 9), it.randint(1, 4)
        self.file, self.prefix, self.list = (f"{folder}/{number}.{end}" for end in ("workload", "events", "list"))
        heavy = [it.randrange(self.n) for _ in range(self.rounds)]
        rows = [[it.randrange(10) + 40 * (abs(i - at) < 2) for i in range(self.n)] for at in heavy]
        with open(self.file, "w", encoding="ascii") as file:
            print(f"pes {self.pes}\nrounds {self.rounds}\npad {it.randrange(40)}\nchares {self.n}", file=file)
            for row in rows:
                print("amounts", *row, file=file)
        self.words = ["--delays", str(it.choice([0, number + 1])), "--batch", str(it.choice([1, 100, 65536]))]
        self.words += ["--window", str(it.choice([1, 2, 4])), "--backlog", str(it.choice([0, 200, 65536]))]
        tolerance = it.choice([None, None, 0, 100])
        self.way = [] if tolerance is None else ["--tolerance", str(tolerance)]

    def drive(self, programs):
        words = [str(self.pes) if it == "RANKS" else it for it in programs[self.kind]]
        with AT_ONCE[self.kind]:
            return finish([*words, *self.words, *self.way, "--events", self.prefix, self.file])

    def replay(self, charm_run, text):
        with open(self.list, "w", encoding="ascii") as file:
            file.write(text)
        return finish([charm_run, "--replay", self.list, *self.way, self.file])


def broken_on(pe, pes, n, own):
    """What the events of a PE say against two rules: elements that leave for a round go before those that stay are resumed, and a letter to an
    element which is on the PE gets this PE as its address."""
    here, hand, resumed, broken = {i for i in range(n) if i * pes // n == pe}, None, 0, []
    for it in own:
        if it.word == "Deliver":
            hand = it
        elif it.word == "Act" and hand.form == 1:
            here.add(hand.numbers[2])
        elif it.word == "Resume":
            resumed = it.numbers[2]
        elif it.word == "Depart":
            here.discard(it.numbers[1])
            broken += [f"{it.text()} in round {it.numbers[3]} is late"] if it.numbers[3] <= resumed else []
        elif it.word == "Look" and (it.form == 1) != (it.numbers[1] in here):
            broken.append(f"{it.text()} of line {it.line} does not see where element {it.numbers[1]} is")
    return broken


def broken_rules(prefix):
    """The same of all PEs. And a letter comes from another PE once, and once more for each round."""
    n, events = merge_events.read_run(prefix)
    rounds = sum(it.word == "Decide" for own in events for it in own)
    came = [it for pe, own in enumerate(events) for it in own if it.word == "Deliver" and it.form == 0 and it.numbers[1] != pe]
    times = collections.Counter((it.numbers[2], it.numbers[3]) for it in came)
    broken = [f"letter {letter} came {count} times in {rounds} rounds" for letter, count in times.items() if count > 1 + rounds]
    return broken + [it for pe, own in enumerate(events) for it in broken_on(pe, len(events), n, own)]


def judge(run, programs, charm_run):
    """Returns what a run is: "world", "none" or a fault in words."""
    try:
        status, text, told = run.drive(programs)
        if status != 0:
            return f"run {run.number} ends with {status}: {text}{told}"
        broken = broken_rules(run.prefix)
        if broken:
            return f"run {run.number} breaks a rule: {broken[0]}"
        run.text = text
        run.merged = merge_events.merge(run.prefix)
        replayed = run.replay(charm_run, run.merged)
        return "world" if replayed[:2] == (0, text) else f"run {run.number} printed {text}and its replay {replayed}"
    except merge_events.NoWorld:
        return "none"
    except (merge_events.BadFile, subprocess.TimeoutExpired) as error:
        return f"run {run.number}: {error}"


def test_runs(folder, programs, charm_run):
    """Returns the runs on threads that are of a world."""
    ranks = ON_RANKS if "ranks" in programs else 0
    runs = [Run(number, folder, number >= RUNS - ranks) for number in range(RUNS)]
    found = collections.defaultdict(collections.Counter)
    with concurrent.futures.ThreadPoolExecutor(max_workers=min(4, os.cpu_count() or 1)) as pool:
        for run, word in zip(runs, pool.map(lambda it: judge(it, programs, charm_run), runs)):
            run.verdict = word
            found[run.kind, run.pes]["world" if word == "world" else "none" if word == "none" else "fault"] += 1
    for kind in ["threads", "ranks"] if ranks else ["threads"]:
        faults = [it.verdict for it in runs if it.kind == kind and it.verdict not in ("world", "none")]
        expect(f"replays of runs on {kind} print what the runs did", not faults, "\n".join(faults[:3]))
        one, more = found[kind, 1], sum((found[kind, pes] for pes in (2, 3, 4)), collections.Counter())
        expect(f"all runs on one PE are of a world, {kind}", one["world"] == total(one))
        expect(f"runs of a world, {kind}", 100 * more["world"] >= LEAST[kind] * total(more), str(dict(more)))
        by_pes = ", ".join(f"{found[kind, pes]['world']} of {total(found[kind, pes])} on {pes}" for pes in (1, 2, 3, 4))
        print(f"events: {one['world'] + more['world']} of {total(one) + total(more)} runs on {kind} were of a world: {by_pes}")
    return [it for it in runs if it.kind == "threads" and it.verdict == "world"]


def total(counter):
    return sum(counter.values())


# ---- What is forged ----


def test_lists(run, charm_run):
    """No event of a list may be missing, and none come before what it needs."""
    lines = run.merged.splitlines(keepends=True)
    kept = [at for at in range(len(lines)) if run.replay(charm_run, "".join(lines[:at] + lines[at + 1:]))[0] == 0]
    expect(f"run {run.number} without an event is no run", not kept, f"event {kept[:3]} of {len(lines)}")
    swapped = []
    for at, (first, second) in enumerate(zip(lines, lines[1:])):
        if first.split()[1:] == second.split()[1:] and are_bound(first, second):
            swapped.append(run.replay(charm_run, "".join([*lines[:at], second, first, *lines[at + 2:]])))
    expect(f"run {run.number} with swapped events is no run", swapped and all(it[0] == 3 for it in swapped), str(swapped[:1]))


def are_bound(first, second):
    """Whether the second of these events of a PE, which follow each other, needs the first one."""
    return (first.split()[0], second.split()[0]) in (("Look", "Flush"), ("Deliver", "Act"))


def refused(prefix, status, words):
    """Whether the merger ends with this status for these files, and says these words. What it says otherwise."""
    told = io.StringIO()
    with contextlib.redirect_stderr(told), contextlib.redirect_stdout(io.StringIO()):
        found = merge_events.main([prefix])
    return found == status and words in told.getvalue(), f"{found} {told.getvalue()}"


def expect_bad(name, prefix, words):
    expect(f"{name} is refused", *refused(prefix, merge_events.BAD_FILE, words))


def forge(folder, files):
    """Writes files of events, each as bytes, and returns their prefix."""
    prefix = f"{folder}/forged"
    for pe in range(4):
        pathlib.Path(f"{prefix}.{pe}").unlink(missing_ok=True)
    for pe, data in enumerate(files):
        pathlib.Path(f"{prefix}.{pe}").write_bytes(data)
    return prefix


def test_files(folder, run, other):
    """Files that are none, or of two runs. Of the first line that may be another one nothing else depends."""
    files = [pathlib.Path(f"{run.prefix}.{pe}").read_bytes() for pe in range(run.pes)]
    first, rest = files[0], files[1:]
    lines = first.splitlines(keepends=True)
    act, flush = (next(i for i, it in enumerate(lines) if it.startswith(word)) for word in (b"Act", b"Flush"))

    def with_line(line, at=act):
        return b"".join([*lines[:at], line, *lines[at + 1:]])

    forged = {
        "an empty file": (b"", "its last line has no end"),
        "a line without an end": (first[:-1], "its last line has no end"),
        "a file cut short": (b"".join(lines[: len(lines) // 2]), "the last line does not count the others"),
        "a line that is missing": (with_line(b""), "the last line does not count the others"),
        "the last line alone": (lines[-1], "it does not say whose events these are"),
        "another PE's file": (rest[0], "this is PE 1 of 3"),
        "bytes that are no text": (with_line(b"\xff\n"), "bytes that are no text"),
        "a word that is none": (with_line(b"Fact 0\n"), "it is no event"),
        "an empty line": (with_line(b"\n"), "it is no event"),
        "an event without what merging needs": (with_line(b"Look 0\n"), "it is no event"),
        "a leading zero": (with_line(b"Start 0 00\n"), "it is no event"),
        "a carriage return": (with_line(b"Act 0\r\n"), "it is no event"),
        "an event of another PE": (with_line(b"Act 1\n"), "it is an event of another PE"),
        "a PE that is not there": (with_line(b"Flush 0 to 3 element 0\n"), "there is no such PE"),
        "an element that is not there": (with_line(b"Start 0 9\n"), "there is no such PE, or no such element"),
        "a round that was not decided": (with_line(b"Resume 0 0 round 7\n"), "the round was not decided"),
        "a round that is decided twice": (with_line(b"Decide round 1\n" * 2).replace(*ends(lines, 1)), "the round was decided before"),
        "a parcel that is another": (with_line(b" ".join(lines[flush].split()[:4]) + b" letter 0 4294967295\n", flush), "sent another parcel"),
        "a file of another run": (pathlib.Path(f"{other.prefix}.0").read_bytes(), "it is of another run"),
    }
    for name, (data, words) in forged.items():
        expect_bad(name, forge(folder, [data, *rest]), words)
    for pe in range(1, run.pes):
        theirs = pathlib.Path(f"{other.prefix}.{pe}").read_bytes()
        expect_bad(f"a file of another run for PE {pe}", forge(folder, files[:pe] + [theirs] + files[pe + 1:]), "it is of another run")
    expect_bad("a file that is not there", forge(folder, files[:-1]), "No such file")


def test_lost_lists(folder, run):
    """Lists that are not written. The last one would fill a file that may have 100 bytes, and no part of it is left."""
    place, size = f"{folder}/part.list", resource.getrlimit(resource.RLIMIT_FSIZE)
    with contextlib.redirect_stderr(io.StringIO()):
        lost = [merge_events.main([run.prefix, "-o", it]) for it in ("/dev/full", f"{folder}/no/such/list")]
        resource.setrlimit(resource.RLIMIT_FSIZE, (100, size[1]))
        lost.append(merge_events.main([run.prefix, "-o", place]))
        resource.setrlimit(resource.RLIMIT_FSIZE, size)
    expect("a list that is not written is told", lost == [merge_events.UNWRITTEN] * 3, str(lost))
    expect("a list is written as a whole or not at all", not os.path.exists(place))
    pathlib.Path(place).write_text("of before")
    os.chmod(place, 0o640)
    with contextlib.redirect_stderr(io.StringIO()):
        resource.setrlimit(resource.RLIMIT_FSIZE, (100, size[1]))
        status = merge_events.main([run.prefix, "-o", place])
        resource.setrlimit(resource.RLIMIT_FSIZE, size)
    beside = [it.name for it in pathlib.Path(folder).iterdir() if it.name.startswith("part.list")]
    expect("a list that was there stays where writing fails",
           status == merge_events.UNWRITTEN and pathlib.Path(place).read_text() == "of before" and beside == ["part.list"], str(beside))
    expect("a list that was there is written over, with its mode",
           merge_events.main([run.prefix, "-o", place]) == merge_events.RIGHT and pathlib.Path(place).read_text() == merge_events.merge(run.prefix)
           and os.stat(place).st_mode & 0o777 == 0o640)
    os.remove(place)
    closed = finish(["sh", "-c", 'exec "$@" >&-', "sh", sys.executable, "-B", merge_events.__file__, run.prefix])
    expect("a closed output is told", closed[0] == merge_events.UNWRITTEN and "there is no standard output" in closed[2], str(closed))


def ends(lines, more):
    """The last line of a file, and what it is with so many lines more."""
    return lines[-1], f"end {len(lines) - 2 + more}\n".encode()


def test_swaps(folder, run, charm_run):
    """Two neighboring lines of a file change places, anywhere. What comes of it is refused, or prints the same: no run prints anything else.
    Where the second needs the first one it is refused."""
    files = [pathlib.Path(f"{run.prefix}.{pe}").read_bytes() for pe in range(run.pes)]
    wrong, found = [], collections.Counter()
    for pe, data in enumerate(files):
        lines = data.splitlines(keepends=True)
        for at in range(1, len(lines) - 2):
            swapped = b"".join([*lines[:at], lines[at + 1], lines[at], *lines[at + 2:]])
            try:
                merged = merge_events.merge(forge(folder, files[:pe] + [swapped] + files[pe + 1:]))
            except (merge_events.BadFile, merge_events.NoWorld) as error:
                found[type(error).__name__] += 1
                continue
            status, text, _ = run.replay(charm_run, merged)
            found["same" if status == 0 else "refused"] += 1
            if status == 0 and (text != run.text or are_bound(lines[at].decode(), lines[at + 1].decode())):
                wrong.append(f"line {at + 1} of PE {pe}")
    expect(f"swapped lines of run {run.number} are refused, or of no account", not wrong and found["refused"], f"{dict(found)} {wrong[:3]}")


def by_hand(*events, n=3):
    """The files of a run of n elements that is written down by hand: of each PE the lines."""
    head = [f"pe {pe} of {len(events)} elements {n}" for pe in range(len(events))]
    return ["".join(it + "\n" for it in [head[pe], *own, f"end {len(own)}"]).encode() for pe, own in enumerate(events)]


def test_rings(folder):
    """Runs that are of no world, whatever the order."""
    # A parcel from PE 0 to PE 2 is overtaken by what comes of a later one by way of PE 1.
    overtaken = by_hand(
        ["Flush 0 to 2 letter 0 0", "Flush 0 to 1 letter 0 1"],
        ["Deliver 1 from 0 letter 0 1", "Act 1", "Flush 1 to 2 letter 1 0"],
        ["Deliver 2 from 1 letter 1 0", "Act 2", "Deliver 2 from 0 letter 0 0", "Act 2"],
    )
    expect("a parcel that is overtaken is of no world", *refused(forge(folder, overtaken), merge_events.NO_WORLD, "these events are in a ring: Flush"))
    in_turn = list(overtaken)
    in_turn[2] = by_hand([], [], ["Deliver 2 from 0 letter 0 0", "Act 2", "Deliver 2 from 1 letter 1 0", "Act 2"])[2]
    text = merge_events.merge(forge(folder, in_turn))
    expect("parcels that come in turn are merged", text == "".join(
        it + "\n" for it in ("Flush 0", "Deliver 2", "Flush 0", "Deliver 1", "Act 1", "Act 2", "Flush 1", "Deliver 2", "Act 2")), text)
    # PE 1 looks for an element by the decision of round 1, and PE 0 has a letter of PE 1 that left behind that before the element departs.
    reports = ["Report 0 element 0 round 1", "Report 0 element 1 round 1"]
    early = by_hand(
        [*reports, "Decide round 1", "Deliver 0 from 1 letter 1 0", "Act 0", "Depart 0 0 to 1 round 1"],
        ["Report 1 element 2 round 1", "Look 1 element 0 at 1 round 1", "Flush 1 to 0 letter 1 0"],
    )
    expect("a look that knows of a move too early is of no world", *refused(forge(folder, early), merge_events.NO_WORLD, "Depart 0 0 (line 7 of "))
    late = [it.replace(b"at 1 round 1", b"at 0 round 0") for it in early]
    expect("a look that knows of no move is merged", merge_events.merge(forge(folder, late)).endswith("Act 0\nDepart 0 0\n"))
    wrong = [it.replace(b"at 1 round 1", b"at 1 round 0") for it in early]
    expect_bad("a look that gave what no word says", forge(folder, wrong), "the word of the element says 0")
    twice = [it.replace(b"element 1 round 1", b"element 0 round 1") for it in late]
    expect_bad("an element that reports twice", forge(folder, twice), "the element has reported for this round before")
    missing = [late[0], late[1].replace(b"Report 1 element 2 round 1", b"Report 1 element 2 finished")]
    expect_bad("a round that is decided too early", forge(folder, missing), "not all elements have reported for this round")


def test_causes(folder):
    """Events that no run has in this order, or at all, are those of no run. What the merger says of them names the event, or two."""
    first, second = "Report 0 element 0 round 1", "Report 1 element 1 round 1"
    forged = {
        "a parcel that was not sent": ([["Deliver 0 from 0 letter 0 0", "Act 0"]], "line 2: the parcel was not sent"),
        "a parcel that comes before it was sent": (
            [["Deliver 0 from 0 letter 0 0", "Act 0", "Flush 0 to 0 letter 0 0"]], "line 2: Deliver 0 stands before Flush 0 of line 4"),
        "parcels that two PEs send before they come": (
            [["Deliver 0 from 1 letter 1 0", "Act 0", "Flush 0 to 1 letter 0 0"], ["Deliver 1 from 0 letter 0 0", "Act 1", "Flush 1 to 0 letter 1 0"]],
            "these events are in a ring: "),
        "a decision for no element": ([["Decide round 1"]], "line 2: not all elements have reported for this round"),
        "a decision before its report": ([["Decide round 1", first]], "line 2: Decide stands before Report 0 of line 3"),
        "decisions in another order": (
            [[first, "Report 0 element 0 round 2", "Decide round 2", "Decide round 1"]], "line 4: Decide stands before Decide of line 5"),
        "a round that is left out": ([["Report 0 element 0 round 2", "Decide round 2"]], "line 3: the round before was not decided"),
        "an element that goes on before the decision": ([[first, "Resume 0 0 round 1", "Decide round 1"]], "line 3: Resume 0 0 stands before Decide"),
        "an element that goes on before it reported": (
            [["Resume 0 0 round 1", first], [second, "Decide round 1"]], "these events are in a ring: "),
        "a look by a round that nobody decided": ([["Look 0 element 0 at 0 round 1"]], "line 2: the round was not decided"),
        "a look by a round before it is decided": ([["Look 0 element 0 at 0 round 1", first, "Decide round 1"]], "line 2: Look 0 stands before Decide"),
        "an element that goes on elsewhere": ([[first, "Decide round 1"], ["Resume 1 0 round 1"]], "the word of the element says 0"),
        "an element that starts elsewhere": ([[], ["Start 1 0"]], "the word of the element says 0"),
        "an element that departs and stays": ([[first, "Decide round 1", "Depart 0 0 to 0 round 1"]], "line 4: the element stays"),
    }
    elements = {"a decision for no element": 0, "an element that goes on before it reported": 2}
    for name, (events, words) in forged.items():
        expect_bad(name, forge(folder, by_hand(*events, n=elements.get(name, 1))), words)


def main():
    charm_run, threads, *ranks = sys.argv[1:]
    programs = {"threads": [threads]}
    if ranks:
        programs["ranks"] = [*ranks[1:], "-n", "RANKS", ranks[0]]
    with tempfile.TemporaryDirectory() as folder:
        worlds = test_runs(folder, programs, charm_run)
        test_rings(folder)
        test_causes(folder)
        busy = [it for it in worlds if it.pes == 3 and it.n >= 4 and it.rounds >= 2 and "Depart" in it.merged]
        other = [it for it in worlds if it.pes == 3 and busy and it.n != busy[0].n]
        expect("there are runs to be forged", bool(other))
        if other:
            test_lists(busy[0], charm_run)
            test_files(folder, busy[0], other[0])
            test_lost_lists(folder, busy[0])
            test_swaps(folder, busy[0], charm_run)
    return 1 if failed else 0


if __name__ == "__main__":
    sys.exit(main())
