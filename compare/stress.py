#!/usr/bin/env python3
"""Compares the lines of `stress` with a simulation of generated pages, which knows neither scripts nor nodes.

    compare/stress.py PROGRAM [N..]

The simulation keeps a number for each part and when its interval is due; the bytes are those that `save` writes after half of the events. Prints
what differs, and how many lines were compared."""
import json
import os
import subprocess
import sys
import tempfile

sys.dont_write_bytecode = True
sys.path.insert(0, os.path.join(os.path.dirname(os.path.dirname(os.path.abspath(__file__))), "tools"))
import command_words

HEAD = """<html><body></body><script>"use strict";
var parts=[],sum=0;
function part(i,k){var n=k,o={"id":i,"next":null},d=document.createElement("p");o.self=o;
if(parts.length>0){o.next=parts[parts.length-1].o;}
d.setAttribute("id","p"+i);
d.addEventListener("click",function(){n=n+1;sum=sum+n;},false);
document.body.appendChild(d);
setInterval(function(){n=n+k;},10+k);
parts.push({"o":o,"get":function(){return n;}});}
function total(){var s=0;parts.forEach(function(p){if(p.o.self===p.o){s=s+p.get();}});console.log(s,sum,parts.length);}
"""


def draws(count):
    state, drawn = 1, []
    for _ in range(count):
        state = (1103515245 * state + 12345) % 2147483648
        drawn.append(state // 65536)
    return drawn


def event(n, y):
    if y % 3 == 0:
        return {"fire": "click", "at": f"p{1 + y // 3 % n}"}
    return {"tick": y // 3 % 20} if y % 3 == 1 else {"call": "total"}


def made(n):
    """The numbers that the parts of a page begin with, and its events."""
    drawn = draws(2 * n)
    return [y % 10 for y in drawn[:n]], [event(n, y) for y in drawn[n:]] + [{"call": "total"}]


def lines_after(starts, events):
    """For each event, the lines that were put out up to it."""
    numbers, due = list(starts), [10 + k for k in starts]
    clock = clicked = 0
    lines, told = [], []
    for item in events:
        if "tick" in item:
            clock += item["tick"]
            for at, step in enumerate(starts):
                while due[at] <= clock:
                    numbers[at] += step
                    due[at] += 10 + step
        elif "fire" in item:
            at = int(item["at"][1:]) - 1
            numbers[at] += 1
            clicked += numbers[at]
        else:
            lines.append(f"log {sum(numbers)} {clicked} {len(numbers)}")
        told.append(len(lines))
    return lines, told


def wanted(program, n):
    starts, events = made(n)
    half = (n + 1) // 2
    lines, told = lines_after(starts, events)
    with tempfile.TemporaryDirectory() as folder:
        with open(f"{folder}/page", "w") as page:
            page.write(HEAD + "".join(f"part({i},{k});\n" for i, k in enumerate(starts, 1)) + "</script></html>")
        with open(f"{folder}/events", "w") as file:
            json.dump(events[:half], file)
        saved = subprocess.run([program, "save", "page", "events"], cwd=folder, capture_output=True).stdout
    return f"stress {n}: {len(lines)} lines, {len(lines) - told[half - 1]} after the move, {len(saved)} bytes, {lines[-1]}\n"


def main():
    command_words.or_help(__doc__, 1)
    program = os.path.abspath(sys.argv[1])
    numbers = [int(it) for it in sys.argv[2:]] or [*range(1, 41), 100, 300]
    differ = 0
    for n in numbers:
        given = subprocess.run([program, "stress", str(n)], capture_output=True, text=True).stdout
        want = wanted(program, n)
        if given != want:
            differ += 1
            print(f"given:  {given}wanted: {want}", end="")
    print(f"{len(numbers)} lines, {differ} differ")
    return differ > 0


if __name__ == "__main__":
    sys.exit(main())
