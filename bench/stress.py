#!/usr/bin/env python3
"""Runs `stress` with ever more parts, and prints its line, the seconds of processor time (the best of three runs), the most megabytes, and the
nanoseconds for each part and event. There is an event more than parts, a third of them go over all parts, and a third move the clock, where two of three
intervals fire: so the work grows with the square of the parts, and what is told last stays about the same where the cost is in proportion. Firing costs the number
of live timers each time, since the next one is looked for, which shows from some hundred parts on.

    bench/stress.py [PROGRAM [PARTS..]]
"""
import os
import subprocess
import sys

sys.dont_write_bytecode = True
sys.path.insert(0, os.path.join(os.path.dirname(os.path.dirname(os.path.abspath(__file__))), "tools"))
import command_words

TOP = os.path.dirname(os.path.dirname(os.path.abspath(__file__)))
PROGRAM = command_words.program(__doc__)
SIZES = (1, 3, 10, 30, 100, 300, 1_000)


def run(parts):
    """The line, the seconds of processor time and the most megabytes of one run."""
    child = subprocess.Popen([PROGRAM, "stress", str(parts)], stdout=subprocess.PIPE, text=True)
    line = child.stdout.read().rstrip("\n")
    _, ended, used = os.wait4(child.pid, 0)
    child.returncode = os.waitstatus_to_exitcode(ended)
    if child.returncode:
        sys.exit(f"stress {parts} ended with {child.returncode}")
    return line, used.ru_utime + used.ru_stime, used.ru_maxrss / 1e3


def main():
    for parts in map(int, sys.argv[2:] or SIZES):
        runs = [run(parts) for _ in range(3)]
        if len({line for line, _, _ in runs}) != 1:
            sys.exit(f"stress {parts} printed two lines: {runs}")
        spent = min(it[1] for it in runs)
        print(f"{spent:8.2f} s {max(it[2] for it in runs):6.1f} MB {spent * 1e9 / parts / (parts + 1):12.0f} ns   {runs[0][0]}", flush=True)


main()
