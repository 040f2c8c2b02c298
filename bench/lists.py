#!/usr/bin/env python3
"""Times what long lists and texts cost: each page does one thing with 1,000, 10,000 and 100,000 elements. It prints the nanoseconds for each
element, the best of five runs less the best of a page that does nothing, and their ratio to those of the shortest list. The ratios stay near
1 where the cost is in proportion.

    bench/lists.py [PROGRAM]
"""
import os
import subprocess
import sys
import tempfile
import time

sys.dont_write_bytecode = True
sys.path.insert(0, os.path.join(os.path.dirname(os.path.dirname(os.path.abspath(__file__))), "tools"))
import command_words

TOP = os.path.dirname(os.path.dirname(os.path.abspath(__file__)))
PROGRAM = command_words.program(__doc__)
FILL = "var a=[],i;for(i=0;i<N;i++)a[i]=i;"
PAGES = {
    "push": "var a=[],i;for(i=0;i<N;i++)a.push(i);",
    "pop": FILL + "for(i=0;i<N;i++)a.pop();",
    "join": FILL + 'a.join("");',
    "concat": FILL + "a.concat(a);",
    "slice": FILL + "a.slice();",
    "splice": FILL + "a.splice(0,1);",
    "reverse": FILL + "a.reverse();",
    "indexOf": FILL + "a.indexOf(-1);",
    "map": FILL + "a.map(function(v){return v;});",
    "reduce": FILL + "a.reduce(function(s,v){return v;});",
    "apply": FILL + "Math.max.apply(null,a);",
    "split": FILL + 'a.join("-").split("-");',
}


def best(script, folder):
    page, events = f"{folder}/page.html", f"{folder}/events.json"
    with open(page, "w", encoding="ascii") as file:
        file.write(f'<html><body></body><script>"use strict";{script}</script></html>')
    with open(events, "w", encoding="ascii") as file:
        file.write("[]")
    spent = []
    for _ in range(5):
        begun = time.perf_counter()
        said = subprocess.run([PROGRAM, "replay", page, events], capture_output=True, check=True).stdout
        spent.append(time.perf_counter() - begun)
        if said:
            sys.exit(f"the page printed {said!r}")
    return min(spent)


with tempfile.TemporaryDirectory() as folder:
    nothing = best("", folder)
    for name, script in PAGES.items():
        costs = []
        for count in (1_000, 10_000, 100_000):
            costs.append((best(script.replace("<N", f"<{count}"), folder) - nothing) / count * 1e9)
        print(name, *[f"{cost:.0f} ns" for cost in costs], *[f"{cost / costs[0]:.2f}" for cost in costs[1:]])
