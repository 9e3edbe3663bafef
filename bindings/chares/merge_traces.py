#!/usr/bin/env python3
"""Makes one trace of those that the PEs of a run wrote (settings::trace of tezgumi/chares.hpp).

usage: merge_traces.py NAME [-o FILE]

NAME is that of the setting: the files are NAME.0, NAME.1 and so on. The trace is a list in the Trace Event Format, which chrome://tracing,
Perfetto and `tezgumi-plan page --trace` read. Its times begin with 0. Clocks of several machines are not compared. Without -o it goes to
the standard output. The status is 2 for other words, 3 where a file is missing or is no trace, and 5 where the output was not written.
"""
import json
import os
import sys


class NoTrace(Exception):
    """A file is missing, or is no trace."""


def events_of(path):
    try:
        with open(path, encoding="utf-8") as file:
            events = json.load(file)
    except OSError as error:
        raise NoTrace(f"{path}: {error.strerror}") from None
    except (ValueError, RecursionError):
        raise NoTrace(f"{path}: is no list of events: the run did not end, or its trace was lost") from None
    if not isinstance(events, list) or not all(isinstance(it, dict) and isinstance(it.get("ph"), str) for it in events):
        raise NoTrace(f"{path}: is no list of events")
    for event in events:
        if event["ph"] != "M" and not isinstance(event.get("ts"), (int, float)):
            raise NoTrace(f"{path}: an event has no time")
    return events


def merged(name):
    """The events of all PEs of a run, in the order of their times."""
    paths = []
    while os.path.exists(f"{name}.{len(paths)}"):
        paths.append(f"{name}.{len(paths)}")
    if not paths:
        raise NoTrace(f"{name}.0: there is no such file")
    events = [event for path in paths for event in events_of(path)]
    first = min((event["ts"] for event in events if "ts" in event), default=0)
    for event in events:
        if "ts" in event:
            event["ts"] = round(event["ts"] - first, 3)
    return sorted(events, key=lambda event: event.get("ts", -1))


def main(words):
    if len(words) not in (1, 3) or (len(words) == 3 and words[1] != "-o") or words[0].startswith("-"):
        sys.stderr.write("usage: merge_traces.py NAME [-o FILE]\n")
        return 2
    try:
        events = merged(words[0])
    except NoTrace as error:
        sys.stderr.write(f"merge_traces: {error}\n")
        return 3
    text = "[\n" + ",\n".join(json.dumps(event, separators=(",", ":")) for event in events) + "\n]\n"
    try:
        if len(words) == 1:
            sys.stdout.write(text)
            sys.stdout.flush()
        else:
            with open(words[2] + ".new", "w", encoding="utf-8") as file:
                file.write(text)
            os.replace(words[2] + ".new", words[2])
    except OSError as error:
        sys.stderr.write(f"merge_traces: {error}\n")
        return 5
    return 0


if __name__ == "__main__":
    sys.exit(main(sys.argv[1:]))
