#!/usr/bin/env python3
"""compare/chromium.py PROGRAM [CHROMIUM]

Moves sessions with nodes, listeners, timers and closures into a browser: `save` writes the page as it is at each place of its events, headless
Chromium loads that page and is given the later events, and its lines have to be those of `replay` of the page that never moved. The page itself is
loaded, too, and given all events. Prints for each session how many moves gave equal lines, and what differs.

The saved page runs as it is. Before its script stands SHIM, which gives the browser what it does not have or has otherwise: the lines of
`console.log`, `alert` and of what nothing catches, a clock that the events move, timers with the least free id, and `setIntervalFrom`.
"""
import json
import os
import re
import shutil
import subprocess
import sys
import tempfile
import urllib.parse

sys.dont_write_bytecode = True
sys.path.insert(0, os.path.join(os.path.dirname(os.path.dirname(os.path.abspath(__file__))), "tools"))
import command_words

TOP = os.path.dirname(os.path.dirname(os.path.abspath(__file__)))
# A list whose lines are taken out by a click on them, drawn anew at each change, with a timer that counts and one that is started by a click.
ITEMS = """<!DOCTYPE html>
<html><head><title>Items</title></head><body><input id="what"><button id="add" class="main">Add</button><p id="count">0</p><ul id="list"></ul></body>
<script>"use strict";
var app = (function () {
    var items = [], list = document.getElementById("list"), seconds = 0;
    function draw() {
        while (list.firstChild) { list.removeChild(list.firstChild); }
        items.forEach(function (item, i) {
            var line = document.createElement("li");
            line.setAttribute("id", "line" + i);
            line.appendChild(document.createTextNode(item.name));
            line.addEventListener("click", function (event) {
                console.log("drop", item.name, event.eventPhase, event.currentTarget === line, this === line);
                items.splice(i, 1);
                draw();
            }, false);
            list.appendChild(line);
        });
    }
    list.addEventListener("click", function (event) { console.log("seen", event.target.id, event.eventPhase); }, true);
    setInterval(function () {
        seconds = seconds + 1;
        document.getElementById("count").firstChild.data = String(seconds);
        if (seconds % 3 === 0) { null.x; }
    }, 1000);
    return {
        add: function () {
            var what = document.getElementById("what"), name = what.value;
            items.push(Object.freeze({"name": name, "next": items[0]}));
            what.value = "";
            setTimeout(function () { console.log("added", name, items.length); }, 700);
            draw();
        },
        show: function () { console.log(items.length, seconds, items.map(function (it) { return it.name; }).join()); }
    };
})();
document.getElementById("add").addEventListener("click", app.add, false);
function show() { app.show(); }
</script></html>
"""
ITEMS_EVENTS = [
    {"input": "tea", "at": "what"}, {"fire": "click", "at": "add"}, {"tick": 400}, {"input": "nuts", "at": "what"}, {"fire": "click", "at": "add"},
    {"tick": 350}, {"call": "show"}, {"tick": 2500}, {"fire": "click", "at": "line0"}, {"dom": True}, {"fire": "click", "at": "line1"},
    {"input": "a \\ & <b>", "at": "what"}, {"fire": "click", "at": "add"}, {"tick": 1234}, {"fire": "click", "at": "line0", "bubbles": False},
    {"call": "show"}, {"call": "nowhere"}, {"dom": True}]
SHIM = r"""(function () {
    var lines = [], timers = [], clock = 0, start = function (call, first, period) {
        var id = 1;
        while (timers.some(function (it) { return it.id === id; })) { id++; }
        timers.push({"id": id, "due": clock + Math.max(0, Number(first) || 0), "period": period, "call": call});
        return id;
    };
    function text(v) { return v !== null && /object|function/.test(typeof v) ? Object.prototype.toString.call(v) : String(v); }
    function put(kind, values) {
        lines.push(kind + values.map(function (v) {
            return " " + text(v).replace(/\\/g, "\\\\").replace(/[\0-\x1f\x7f-\x9f]/g, function (c) { return "\\u" + ("000" + c.charCodeAt(0).toString(16).toUpperCase()).slice(-4); });
        }).join(""));
    }
    function uncaught(e) { put("uncaught", [e instanceof Error ? e.name : e]); }
    function safely(f, self) { try { f.call(self); } catch (e) { uncaught(e); } }
    function tick(n) {
        var end = clock + n, next, due = function (a, b) { return b.due < a.due ? b : a; };
        while (timers.length && (next = timers.reduce(due)).due <= end) {
            clock = Math.max(clock, next.due);
            timers.splice(timers.indexOf(next), 1);
            if (next.period) { timers.push({"id": next.id, "due": next.due + next.period, "period": next.period, "call": next.call}); }
            safely(next.call, window);
        }
        clock = end;
    }
    function fire(e, kind, bubbles, cancelable) { e.dispatchEvent(new Event(kind, {"bubbles": bubbles !== false, "cancelable": cancelable !== false})); }
    function act(it) {
        var at = "at" in it && document.getElementById(it.at);
        if (at === null) { put("no element", []); }
        else if ("fire" in it) { fire(at, it.fire, it.bubbles, it.cancelable); }
        else if ("input" in it) { if (/^(INPUT|TEXTAREA)$/.test(at.tagName)) { at.value = it.input; } fire(at, "input", true, false); }
        else if ("tick" in it) { tick(it.tick); }
        else if ("call" in it) { safely(function () { var f = window[it.call]; if (!(it.call in window)) { throw new ReferenceError(); } f(); }); }
        else { put("dom", [document.documentElement.outerHTML]); }
    }
    console.log = function () { put("log", [].slice.call(arguments)); };
    window.alert = function (v) { put("alert", [v]); };
    window.addEventListener("error", function (e) { uncaught(e.error); });
    window.setTimeout = function (f, d) { return start(f, d, 0); };
    window.setInterval = function (f, p) { p = Math.max(1, Number(p) || 0); return start(f, p, p); };
    window.setIntervalFrom = function (f, first, p) { return start(f, first, Math.max(1, Number(p) || 0)); };
    window.clearTimeout = window.clearInterval = function (id) { timers = timers.filter(function (it) { return it.id !== id; }); };
    window.addEventListener("load", function () {
        var shown = document.createElement("pre");
        EVENTS.forEach(act);
        shown.setAttribute("data-lines", encodeURIComponent(JSON.stringify(lines)));
        document.documentElement.appendChild(shown);
    });
})();"""


def known(line, has_moved=True):
    """A line without the messages of errors, which each engine words itself. Of a page that was not moved the document is told without its scripts and
    line ends: a browser's reader puts what stands after the body into it, and the shim is among them."""
    line = re.sub(r"^(uncaught \w*Error): .*", r"\1", line)
    return line if has_moved else re.sub(r"(\\u000A)*<script>.*?</script>(\\u000A)*", "", line)


class Browser:
    def __init__(self, program, chromium, folder):
        self.program, self.chromium, self.folder = program, chromium, folder

    def run(self, command, page, events):
        for name, data in (("p", page), ("e", json.dumps(events))):
            with open(f"{self.folder}/{name}", "w", encoding="utf-8") as file:
                file.write(data)
        return subprocess.run([self.program, command, "p", "e"], cwd=self.folder, stdout=subprocess.PIPE, check=True).stdout.decode()

    def lines(self, page, events):
        return self.run("replay", page, events).split("\n")[:-1]

    def loaded(self, page, events):
        """The lines of a page in the browser, where the shim stands before its first script. A byte order mark tells that it is UTF-8."""
        shim = "<script>%s</script>" % SHIM.replace("EVENTS", json.dumps(events), 1).replace("</script", "<\\/script")
        before, script, after = page.partition("<script>")
        with open(f"{self.folder}/page.html", "w", encoding="utf-8-sig") as file:
            file.write(before + shim + script + after)
        words = [self.chromium, "--headless", "--no-sandbox", "--disable-gpu", f"--user-data-dir={self.folder}/profile", "--dump-dom", f"file://{self.folder}/page.html"]
        shown = subprocess.run(words, stdout=subprocess.PIPE, stderr=subprocess.DEVNULL, timeout=120, check=True).stdout.decode()
        found = re.search(r'data-lines="([^"]*)"', shown)
        return json.loads(urllib.parse.unquote(found.group(1))) if found else ["nothing: " + shown]


def sessions():
    """The name, the page and the events of each session."""
    yield "items", ITEMS, ITEMS_EVENTS
    for name in ("list", "counter", "circle"):
        with open(f"{TOP}/examples/{name}.html", encoding="utf-8") as page, open(f"{TOP}/examples/{name}.json", encoding="utf-8") as events:
            yield name, page.read(), json.load(events)


def main():
    command_words.or_help(__doc__, 1)
    chromium = sys.argv[2] if len(sys.argv) > 2 else shutil.which("chromium")
    if not chromium:
        sys.exit("no chromium is found; name one as second word")
    failed = 0
    with tempfile.TemporaryDirectory() as folder:
        browser = Browser(os.path.abspath(sys.argv[1]), chromium, folder)
        for name, page, events in sessions():
            wanted = browser.lines(page, events)
            runs = [("not moved", browser.loaded(page, events), wanted, False)]
            for place in range(len(events) + 1):
                begun = len(browser.lines(page, events[:place]))
                saved = browser.run("save", page, events[:place])
                runs.append((f"moved after {place} events", browser.loaded(saved, events[place:]), wanted[begun:], True))
            told = [([known(it, moved) for it in got], [known(it, moved) for it in lines]) for _, got, lines, moved in runs]
            equal = [got == lines for got, lines in told]
            print(f"{name}: {equal.count(True)} of {len(runs)} runs with equal lines, {sum(len(lines) for _, lines in told)} lines", flush=True)
            for (what, *_), (got, lines) in zip(runs, told):
                if got != lines:
                    failed += 1
                    print(f"{name}, {what}\n  got    {got}\n  wanted {lines}")
    return 1 if failed else 0


if __name__ == "__main__":
    sys.exit(main())
