#!/usr/bin/env python3
"""Moves the pages of examples/ at every place of their events, on a program.

    .ci/moves.py PROGRAM [NAME..]    moves examples/NAME.html, or each page with events of its name, and prints where lines differ

At each place the page is saved after the events before it, the saved page runs on the later ones, and the lines of both have to be
those of the page that never moved. The saved page is also saved again, before any event, and has to have the same bytes.
"""
import concurrent.futures
import json
import os
import subprocess
import sys
import tempfile

TOP = os.path.dirname(os.path.dirname(os.path.abspath(__file__)))
EXAMPLES = os.path.join(TOP, "examples")
# So many that a busy machine is no finding.
SECONDS = 300


def names():
    """The pages that have events of the same name."""
    found = {os.path.splitext(it)[0] for it in os.listdir(EXAMPLES) if it.endswith(".json")}
    return sorted(it for it in found if os.path.isfile(os.path.join(EXAMPLES, it + ".html")))


def output(program, *words):
    run = subprocess.run([program, *words], capture_output=True, timeout=SECONDS)
    if run.returncode != 0:
        raise ValueError(f"{words[0]} ends with {run.returncode}: {run.stderr.decode('utf-8', 'replace').strip()}")
    return run.stdout


def fault_at(program, page, events, place):
    """What is wrong with the move at this place, or None."""
    with tempfile.TemporaryDirectory() as folder:
        paths = {name: os.path.join(folder, name) for name in ("all", "before", "after", "none", "moved")}
        for name, items in (("all", events), ("before", events[:place]), ("after", events[place:]), ("none", [])):
            with open(paths[name], "w", encoding="utf-8") as file:
                json.dump(items, file)
        try:
            moved = output(program, "save", page, paths["before"])
            with open(paths["moved"], "wb") as file:
                file.write(moved)
            if output(program, "save", paths["moved"], paths["none"]) != moved:
                return "saved again it has other bytes"
            lines = output(program, "replay", page, paths["before"]) + output(program, "replay", paths["moved"], paths["after"])
            return None if lines == output(program, "replay", page, paths["all"]) else "the lines differ"
        except (ValueError, subprocess.TimeoutExpired) as fault:
            return str(fault)


def moves(names_wanted):
    """Each move: the name, the page, its events and the place."""
    for name in names_wanted:
        with open(os.path.join(EXAMPLES, name + ".json"), encoding="utf-8") as file:
            events = json.load(file)
        for place in range(len(events) + 1):
            yield name, os.path.join(EXAMPLES, name + ".html"), events, place


def faults(program, names_wanted):
    """The moves that are wrong, each with the name, the place and what is wrong."""
    all_moves = list(moves(names_wanted))
    with concurrent.futures.ThreadPoolExecutor(os.cpu_count()) as threads:
        ends = threads.map(lambda it: fault_at(program, *it[1:]), all_moves)
        for (name, _, _, place), end in zip(all_moves, ends):
            if end:
                yield name, place, end


def main(words):
    if not words or words[0].startswith("-"):
        print(__doc__)
        return 0 if words and words[0] in ("-h", "--help") else 2
    wanted = words[1:] or names()
    found = list(faults(os.path.abspath(words[0]), wanted))
    for name, place, end in found:
        print(f"{name} after {place} events: {end}")
    print(f"moves: {len(wanted)} pages, {len(list(moves(wanted)))} moves, {len(found)} wrong")
    return 1 if found else 0


if __name__ == "__main__":
    sys.exit(main(sys.argv[1:]))
