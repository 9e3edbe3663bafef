#!/usr/bin/env python3
"""The lists of events that slow_schedule.py draws for some seeds, which are kept in the folder expected.

    lists.py                   compares the files with what slow_schedule.py says; the status is 1 where one differs
    lists.py --beside PROGRAM  compares them with what the plain program of benches/beside/schedules.rs says, which knows no tolerance
    lists.py --write           writes them
    lists.py --rattle          prints them as a table for a test

NAME.events is a list of events, and NAME.stdout what charm_run prints of that run. The seeds were chosen so that each rule of
docs/RUNS.md and docs/EVENTS.md that can change a list changes one of these.
"""
import os
import subprocess
import sys

sys.dont_write_bytecode = True
import slow_schedule  # noqa: E402

HERE = os.path.dirname(os.path.abspath(__file__))
FOLDER = os.path.join(HERE, "expected")
WORKLOADS = {
    "worked": os.path.join(HERE, "..", "..", "examples", "worked.workload"),
    "three": os.path.join(FOLDER, "three.workload"),
}
# The name of each run, its workload, its seed, and what else is asked for.
RUNS = (
    ("worked-39", "worked", 39, {}),
    ("worked-79", "worked", 79, {}),
    ("three-63", "three", 63, {}),
    ("three-73", "three", 73, {}),
    ("letters-22", "three", 22, {"letters_first": True}),
    ("moves-26", "three", 26, {"moves_first": True}),
    ("stale-2", "three", 2, {"stale_looks": True}),
    ("starved-91", "worked", 91, {"starve": 1}),
    ("all-41", "three", 41, {"letters_first": True, "moves_first": True, "stale_looks": True, "starve": 0}),
    ("within-42", "three", 42, {"tolerance": 500}),
    ("stopped", "three", 2**64 - 1, {"limit": 40}),
)
FLAGS, NUMBERS = ("letters_first", "moves_first", "stale_looks"), ("limit", "tolerance", "starve")
WIDTH = 100


def text_of(name):
    with open(WORKLOADS[name], encoding="ascii") as file:
        return file.read()


def drawn(workload, seed, asked):
    """The list of events of a run, and what charm_run prints of it."""
    world = slow_schedule.World(slow_schedule.Workload(text_of(workload)), asked.get("tolerance"))
    schedule = slow_schedule.Schedule(seed, *(asked.get(flag, False) for flag in FLAGS), asked.get("starve"))
    events, fault = slow_schedule.run(world, schedule, asked.get("limit"))
    return "".join(slow_schedule.line_of(event) for event, _ in events), slow_schedule.text_of(world, fault)


def files():
    """The name and the text of each file."""
    for name, *run in RUNS:
        for ending, text in zip(("events", "stdout"), drawn(*run)):
            yield f"{name}.{ending}", text


def said(program, name, workload, seed, asked):
    """The same, as this program says it, and the files that keep it."""
    words = [program, WORKLOADS[workload], "--seed", str(seed)]
    for option, value in asked.items():
        words += ["--" + option.replace("_", "-"), *([] if value is True else [str(value)])]
    for ending, more in (("events", ["--events"]), ("stdout", [])):
        yield f"{name}.{ending}", subprocess.run(words + more, stdout=subprocess.PIPE, check=True, encoding="ascii").stdout


def write():
    for name, text in files():
        with open(os.path.join(FOLDER, name), "w", encoding="ascii") as file:
            file.write(text)


def compare(wanted, is_all):
    """Compares the files with these, which are all of them or some."""
    there = {name for name in os.listdir(FOLDER) if name.endswith((".events", ".stdout"))}
    different = sorted(there ^ wanted.keys() if is_all else wanted.keys() - there)
    for name in sorted(there & wanted.keys()):
        with open(os.path.join(FOLDER, name), encoding="ascii", newline="") as file:
            if file.read() != wanted[name]:
                different.append(name)
    for name in different:
        print(f"{name}: differs, or is not there, or is none of these")
    print(f"{len(wanted) - len(wanted.keys() & different)} files are right, {len(different)} are not")
    return 1 if different else 0


def literal(text, indent):
    """A literal of Rattle, in lines that are not too long."""
    rows, row = [], ""
    for part in text.splitlines():
        if len(indent) + len(row) + len(part) + 5 > WIDTH:
            rows.append(row)
            row = ""
        row += part + "\\n"
    return '"' + f"\\\n{indent}    ".join([*rows, row]) + '"'


def table():
    """The runs as a table of Rattle."""
    fields = ["name: &'static str", "workload: &'static str", "seed: u64"]
    fields += [f"{flag}: bool" for flag in FLAGS] + ["limit: Option<u64>", "tolerance: Option<u32>", "starve: Option<u32>"]
    fields += ["events: &'static str", "text: &'static str"]
    lines = ["//! What a seed has to lead to: lists of events that a program outside drew, benches/schedules/slow_schedule.py.", ""]
    for name in WORKLOADS:
        lines += [f"const {name.upper()}: &str = {literal(text_of(name), '')};", ""]
    lines += ["/// A run by a seed: what is asked for, the events that happen, and what is printed."]
    lines += ["#[derive(Clone, Copy)]", "pub(crate) struct Listed {", *(f"    pub(crate) {field}," for field in fields), "}", ""]
    lines += ["/// Some runs, each with another seed.", f"pub(crate) const LISTED: [Listed; {len(RUNS)}] = ["]
    for name, workload, seed, asked in RUNS:
        events, text = drawn(workload, seed, asked)
        lines += ["    Listed {", f'        name: "{name}",', f"        workload: {workload.upper()},", f"        seed: {seed},"]
        lines += [f"        {flag}: {str(asked.get(flag, False)).lower()}," for flag in FLAGS]
        lines += [f"        {it}: {f'Some({asked[it]})' if it in asked else 'None'}," for it in NUMBERS]
        lines += [f"        events: {literal(events, ' ' * 8)},", f"        text: {literal(text, ' ' * 8)},", "    },"]
    return "\n".join([*lines, "];"])


def main(words):
    if words == ["--write"]:
        write()
    elif words == ["--rattle"]:
        print(table())
    elif words[:1] == ["--beside"] and len(words) == 2:
        return compare(dict(file for run in RUNS if "tolerance" not in run[3] for file in said(words[1], *run)), is_all=False)
    elif not words:
        return compare(dict(files()), is_all=True)
    else:
        sys.exit(__doc__)
    return 0


if __name__ == "__main__":
    sys.exit(main(sys.argv[1:]))
