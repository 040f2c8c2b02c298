#!/usr/bin/env python3
"""Times what nodes, listeners, dispatches and timers cost when a page runs: each kind at three sizes. It prints the microseconds for each of so many
things, the best of three runs less the best of a page that does nothing, and their ratio to those of the smallest size. The ratios stay near 1
where the cost is in proportion.

    bench/events.py [PROGRAM [KIND..]]
"""
import json
import os
import subprocess
import sys
import tempfile
import time

sys.dont_write_bytecode = True
sys.path.insert(0, os.path.join(os.path.dirname(os.path.dirname(os.path.abspath(__file__))), "tools"))
import command_words

TOP = os.path.dirname(os.path.dirname(os.path.abspath(__file__)))
PROGRAM = command_words.program(__doc__)
B = 'var b=document.getElementById("b"),i;'
FIRE = {"fire": "x", "at": "b"}


def walk(count):
    """A script that walks, reads and moves all of so many elements."""
    body = "<p>a</p>" * count
    return body, 'var c=document.body,l=c.lastChild,n=0,x,y;for(x=c.firstChild.nextSibling;x!==l;x=y){y=x.nextSibling;n=n+x.textContent.length;c.appendChild(x);}', []


def made(count):
    return "", f'var c=document.body,i,e;for(i=0;i<{count};i++){{e=document.createElement("p");e.id="a"+i;e.appendChild(document.createTextNode("t"));c.appendChild(e);}}', []


def listeners(count):
    return '<p id="b"></p>', B + f'for(i=0;i<{count};i++){{b.addEventListener("x",(function(k){{return function(){{k=k+1;}};}})(i),false);}}', [FIRE]


def path(count):
    """An event whose path has so many places, a listener at each."""
    return "<i>" * count + '<p id="b"></p>' + "</i>" * count, B + 'function f(){}for(i=b.parentNode;i!==document;i=i.parentNode){i.addEventListener("x",f,false);}', [FIRE]


def fires(count):
    return '<p id="b"></p>', B + 'b.addEventListener("x",function(){i=1;},false);', [FIRE] * count


def started(count):
    return "", f"function f(){{}}for(var i=0;i<{count};i++)setTimeout(f,i);", []


def fired(count):
    return "", f"function f(){{}}for(var i=0;i<{count};i++)setTimeout(f,i);", [{"tick": count}]


def interval(count):
    return "", "function f(){}setInterval(f,1);", [{"tick": count}]


KINDS = {
    "walk": (walk, (1_000, 3_000, 10_000)),
    "made": (made, (1_000, 3_000, 10_000)),
    "listeners": (listeners, (100, 1_000, 10_000)),
    "path": (path, (10, 100, 1_000)),
    "fires": (fires, (1_000, 10_000, 100_000)),
    "started": (started, (1_024, 8_192, 65_536)),
    "fired": (fired, (1_024, 8_192, 65_536)),
    "interval": (interval, (1_000, 30_000, 1_000_000)),
}


def best(folder, body, script, events):
    page, file_of_events = f"{folder}/page.html", f"{folder}/events.json"
    with open(page, "w", encoding="ascii") as file:
        file.write(f'<html><body>{body}</body><script>"use strict";{script}</script></html>')
    with open(file_of_events, "w", encoding="ascii") as file:
        json.dump(events, file)
    spent = []
    for _ in range(3):
        begun = time.perf_counter()
        said = subprocess.run([PROGRAM, "replay", page, file_of_events], capture_output=True, check=True).stdout
        spent.append(time.perf_counter() - begun)
        if said not in (b"", b"stopped\n"):
            sys.exit(f"the page printed {said!r}")
    return min(spent)


with tempfile.TemporaryDirectory() as folder:
    nothing = best(folder, "", "", [])
    for name, (kind, counts) in KINDS.items():
        if sys.argv[2:] and name not in sys.argv[2:]:
            continue
        costs = [(best(folder, *kind(count)) - nothing) / count * 1e6 for count in counts]
        print(name, *[f"{cost:.2f} us" for cost in costs], *[f"{cost / costs[0]:.2f}" for cost in costs[1:]], flush=True)
