#!/usr/bin/env python3
"""Times what it costs to write a page that rebuilds another one, and how much memory that takes. Each page makes things of a kind, so many that it
weighs about 1,000, 10,000 and 74,900, where 75,000 is the most that may be saved. For each size it prints the milliseconds of processor time of
`save`, those that are left over less the ones of `replay` of the page with opened scopes, and the most megabytes. Last it prints how much more of
the time left over the largest takes than the one before, for their sizes, which stays near 1 where the cost is in proportion. Times are the best of
three runs.

Closures of one long code are more text than a saved page may have: of these the cost is that of finding it out. First there are ten times as many,
where the ratio stays near 10, and then as many of a code that is ten times as long, where it stays near 1, since each code is gone through once.

    bench/saving.py [PROGRAM [KIND..]]
"""
import os
import subprocess
import sys
import tempfile

sys.dont_write_bytecode = True
sys.path.insert(0, os.path.join(os.path.dirname(os.path.dirname(os.path.abspath(__file__))), "tools"))
import command_words

TOP = os.path.dirname(os.path.dirname(os.path.abspath(__file__)))
PROGRAM = command_words.program(__doc__)
SIZES = (1_000, 10_000, 74_900)
# What one turn makes, and how much that weighs with its element.
KINDS = {
    "objects": ("a[i]={};", 2),
    "properties": ('a[i]={"x":i,"y":"t","z":a};', 5),
    "arrays": ("a[i]=[i];", 4),
    "errors": ("a[i]=new Error();", 2),
    "functions": ("a[i]=function(){return i;};", 5),
    "closures": ("a[i]=g(i);", 8),
    "bound": ("a[i]=f.bind(a,i);", 3),
    "chains": ("o=a[i]=Object.create(o);", 2),
    "numbers": ("a[i]=i;", 1),
    "elements": ('d.body.appendChild(d.createElement("p"));', 1),
    "texts": ('d.body.appendChild(d.createTextNode("t"));', 1),
    "lone": ('a[i]=d.createElement("p");', 2),
    "attributes": ('if(i%10===0){o=d.createElement("p");d.body.appendChild(o);}o.setAttribute("a"+i%10,"v");', 1.1),
    "values": ('o=d.createElement("input");d.body.appendChild(o);o.value="v";', 1),
    "listeners": ('d.body.addEventListener("t"+i,f,false);', 1),
    "heard": ('o=d.createElement("p");d.body.appendChild(o);o.addEventListener("x",f,false);', 2),
    "listening": ('d.body.addEventListener("x",g(i),false);', 8),
    "events": ('a[i]=d.createEvent("Event");', 2),
    "dispatches": ('a[i]=o=d.createEvent("Event");o.initEvent("x",true,true);d.body.dispatchEvent(o);', 2),
    "timeouts": ("setTimeout(f,i);", 2),
    "intervals": ("setInterval(f,i);", 2),
    "ticking": ("setInterval(g(i),i);", 9),
}
TOO_LARGE = 6
# How many closures of one code, and about how many characters the code has.
LONG = {
    "more closures": ((7_000, 10_000), (70_000, 10_000)),
    "longer code": ((20_000, 1_000), (20_000, 10_000)),
}


def run(command, status, written=subprocess.DEVNULL):
    """The processor time in milliseconds and the most memory in megabytes that a command took."""
    child = subprocess.Popen([PROGRAM, *command], stdout=written, stderr=subprocess.DEVNULL)
    _, ended, used = os.wait4(child.pid, 0)
    child.returncode = os.waitstatus_to_exitcode(ended)
    if child.returncode != status:
        sys.exit(f"{PROGRAM} {command[0]} ended with {child.returncode} in place of {status}")
    return (used.ru_utime + used.ru_stime) * 1e3, used.ru_maxrss / 1e3


def best(script, folder, status=0):
    """What `save` of a page costs, the same less `replay` of the opened page, and the memory of `save`."""
    page, opened, events = (f"{folder}/{name}" for name in ("page.html", "opened.html", "events.json"))
    with open(page, "w", encoding="ascii") as file:
        file.write(f'<html><body></body><script>"use strict";{script}</script></html>')
    with open(events, "w", encoding="ascii") as file:
        file.write("[]")
    with open(opened, "wb") as file:
        run(("instrument", page), 0, file)
    saves = [run(("save", page, events), status) for _ in range(3)]
    loads = [run(("replay", opened, events), 0) for _ in range(3)]
    spent = min(it[0] for it in saves)
    return spent, spent - min(it[0] for it in loads), max(it[1] for it in saves)


def tell(name, costs, times=1.0):
    told = [f"{whole:8.1f} {saving:8.1f} {most:6.1f}" for whole, saving, most in costs]
    print(f"{name:14}", *told, f"{costs[-1][1] / max(costs[-2][1], 1e-9) / times:8.2f}", flush=True)


with tempfile.TemporaryDirectory() as folder:
    wanted = sys.argv[2:] or [*KINDS, *LONG]
    print(f"{'kind':14}", *[f"{f'{size}: ms':>8}  saving     MB" for size in SIZES], "   ratio")
    for name in (it for it in KINDS if it in wanted):
        turn, weight = KINDS[name]
        made = 'var a=[],d=document,o=null,i,f=function(){},g=function(n){return function(){n=n+1;return n;};};for(i=0;i<%d;i++){%s}'
        tell(name, [best(made % (int((size - 30) / weight), turn), folder) for size in SIZES], SIZES[-1] / SIZES[-2])
    for name in (it for it in LONG if it in wanted):
        costs = []
        for count, characters in LONG[name]:
            code = "n=n+1;" * (characters // 6)
            made = f"var a=[],i,g=function(n){{return function(){{{code}return n;}};}};for(i=0;i<{count};i++){{a[i]=g(i);}}"
            costs.append(best(made, folder, TOO_LARGE))
        tell(name, costs)
