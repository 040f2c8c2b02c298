#!/usr/bin/env python3
"""compare/round_trip.py PROGRAM [PAGE ..]

From a browser and back, in headless Chromium. Without words the pages are those of examples/ that have events beside them, and the rows below, for what a
browser lacks and for what the recorder refuses; a page NAME.html has its events in NAME.json. Each page is done its events as a person would, while
browser/recorder.js notes them: a click by the mouse, an input by keys, a tick by the browser's virtual time, a call as the page makes it known, and what no hand
can do, as a click at what is hidden, by the recorder. Then, for the recorded file: `replay` has to give the lines that the browser printed; and at each place
between two events, and in the midst of each that was recorded as several, as keys are, `save` writes the page, which browser/open makes ready, the browser
loads it, and it is done the rest: the recorder has to note the rest again, and the lines, a last `dom` among them, have to be the rest of the lines. So it is
once more for pages that were saved twice. The last line is `N passed, M failed`.
"""
import concurrent.futures
import contextlib
import fcntl
import glob
import importlib.machinery
import importlib.util
import json
import os
import re
import shutil
import subprocess
import sys
import tempfile
import time

TOP = os.path.dirname(os.path.dirname(os.path.abspath(__file__)))
sys.dont_write_bytecode = True
MOST_LOADS = 20
WORKERS = 3
# An example of fractions, which browsers have.
OTHERWISE = ["error"]


def open_script():
    loader = importlib.machinery.SourceFileLoader("open_page", f"{TOP}/browser/open")
    module = importlib.util.module_from_spec(importlib.util.spec_from_loader("open_page", loader))
    loader.exec_module(module)
    return module


OPEN = open_script()

# A point of the window at which an element itself is hit, and none inside it or above it, or null.
POINT = r"""(function (node) {
    var parts = [0.5, 0.98, 0.02, 0.75, 0.25], found = null;
    if (node && node.getClientRects().length) {
        node.scrollIntoView({"block": "center", "behavior": "instant"});
        [].forEach.call(node.getClientRects(), function (box) {
            parts.forEach(function (down) {
                parts.forEach(function (right) {
                    var x = box.left + right * box.width, y = box.top + down * box.height;
                    found = found || document.elementFromPoint(x, y) === node && [x, y];
                });
            });
        });
    }
    return found || null;
})"""
# Puts the focus on a field and tells its text. What is typed comes after the text, or stands for it.
FIELD = r"""(function (id, isAdded) {
    var node = document.getElementById(id);
    if (!node || !/^(INPUT|TEXTAREA)$/.test(node.tagName)) { return null; }
    node.focus();
    node.setSelectionRange(isAdded ? node.value.length : 0, node.value.length);
    return document.activeElement === node ? node.value : null;
})"""
# The text of the document, as Imagen writes it. In a plain page the browser has nodes for the doctype, for the texts of scripts and for the space in `html`.
DOM = r"""(function text(node) {
    var isMore = node.nodeType === 10 || node.nodeType === 3 && (node.parentNode.tagName === "SCRIPT" || node.parentNode === document.documentElement);
    var inside = [].map.call(node.childNodes, text).join("");
    if (isMore && !document.imagenIsExact) { return ""; }
    function escaped(unit) { return {"&": "&amp;", "<": "&lt;", ">": "&gt;", "\"": "&quot;"}[unit]; }
    if (node.nodeType === 3) { return node.data.replace(/[&<>]/g, escaped); }
    if (node.nodeType === 8) { return "<!--" + node.data + "-->"; }
    if (node.nodeType === 10) { return "<!doctype " + node.name + ">"; }
    if (node.nodeType === 9) { return inside; }
    return "<" + node.localName + [].map.call(node.attributes, function (it) {
        return " " + it.name + "=\"" + it.value.replace(/[&<"]/g, escaped) + "\"";
    }).join("") + ">" + inside + (!inside && /^(area|base|br|col|embed|hr|img|input|link|meta|param|source|track|wbr)$/.test(node.localName) ? "" : "</" + node.localName + ">");
})(document)"""
NOTED = "'imagenRecorder' in window ? (imagenRecorder.text(), JSON.stringify(imagenRecorder.items)) : '[]'"


class Chromium:
    """A browser, spoken to by its own protocol over two pipes."""

    def __init__(self, program, folder):
        ends = [fcntl.fcntl(end, fcntl.F_DUPFD_CLOEXEC, 10) for pair in (os.pipe(), os.pipe()) for end in pair]
        words = [program, "--headless", "--no-sandbox", "--disable-gpu", "--remote-debugging-pipe", f"--user-data-dir={folder}/profile", "about:blank"]
        self.process = subprocess.Popen(words, close_fds=False, stdout=subprocess.DEVNULL, stderr=subprocess.DEVNULL,
                                        preexec_fn=lambda: (os.dup2(ends[0], 3), os.dup2(ends[3], 4)))
        self.writer, self.reader = ends[1], ends[2]
        os.close(ends[0])
        os.close(ends[3])
        self.number, self.rest, self.answers = 0, b"", {}
        self.heard = lambda method, params: None

    def read(self):
        while b"\0" not in self.rest:
            part = os.read(self.reader, 1 << 20)
            if not part:
                raise EOFError("the browser ended")
            self.rest += part
        text, _, self.rest = self.rest.partition(b"\0")
        told = json.loads(text)
        if "id" in told:
            self.answers[told["id"]] = told
        else:
            self.heard(told["method"], told["params"])

    def send(self, method, session=None, **params):
        self.number += 1
        told = {"id": self.number, "method": method, "params": params}
        if session:
            told["sessionId"] = session
        os.write(self.writer, json.dumps(told).encode() + b"\0")
        return self.number

    def answer(self, number):
        while number not in self.answers:
            self.read()
        answer = self.answers.pop(number)
        if "error" in answer:
            raise RuntimeError(answer["error"])
        return answer["result"]

    def ask(self, method, session=None, **params):
        return self.answer(self.send(method, session, **params))

    def close(self):
        self.ask("Browser.close")
        self.process.wait(60)


class Tab:
    """A tab in virtual time. `lines` are what the page printed, as Imagen would print it."""

    def __init__(self, browser, folder, is_virtual=True):
        self.browser, self.folder = browser, folder
        target = browser.ask("Target.createTarget", url="about:blank")["targetId"]
        self.session = browser.ask("Target.attachToTarget", targetId=target, flatten=True)["sessionId"]
        self.lines, self.events = [], []
        browser.heard = self.hear
        for domain in ("Page", "Runtime"):
            self.ask(f"{domain}.enable")
        if is_virtual:
            self.ask("Emulation.setVirtualTimePolicy", policy="pause")

    def ask(self, method, **params):
        return self.browser.ask(method, self.session, **params)

    def hear(self, method, params):
        self.events.append(method)
        if method == "Runtime.consoleAPICalled" and params["type"] == "log":
            self.put("log", " ".join(text_of(it) for it in params["args"]))
        elif method == "Runtime.executionContextsCleared":
            self.lines.clear()
        elif method == "Runtime.exceptionThrown":
            self.put("uncaught", thrown(params["exceptionDetails"]["exception"]))
        elif method == "Page.javascriptDialogOpening":
            self.put(params["type"], params["message"])
            self.browser.send("Page.handleJavaScriptDialog", self.session, accept=True)

    def put(self, kind, text):
        def escaped(unit):
            return "\\\\" if unit[0] == "\\" else f"\\u{ord(unit[0]):04X}"
        self.lines.append(kind + " " + re.sub(r"[\\\0-\x1f\x7f-\x9f\ud800-\udfff]", escaped, text) if text is not None else kind)

    def value(self, expression):
        answer = self.ask("Runtime.evaluate", expression=expression, returnByValue=True)
        if "exceptionDetails" in answer:
            raise RuntimeError(f"{expression[:200]}: {answer['exceptionDetails']}")
        return answer["result"].get("value")

    def call(self, function, *words):
        return self.value(f"({function})({', '.join(json.dumps(it) for it in words)})")

    def spend(self, policy, budget, *ends):
        """Virtual time, up to the budget's end or to one of the events."""
        self.events.clear()
        self.ask("Emulation.setVirtualTimePolicy", policy=policy, budget=budget)
        while not any(it in self.events for it in ("Emulation.virtualTimeBudgetExpired", *ends)):
            self.browser.read()

    def go(self, text):
        with open(f"{self.folder}/page.html", "w", encoding="utf-8", newline="") as file:
            file.write(text)
        self.events.clear()
        self.ask("Page.navigate", url=f"file://{self.folder}/page.html")

    def load(self, text, is_exact):
        """Loads a page in virtual time; one that Imagen wrote once more, where a millisecond passes before the time stands."""
        for _ in range(MOST_LOADS):
            self.go(text)
            has_loaded = False
            while not has_loaded:
                self.spend("advance", 1)
                has_loaded = "Page.loadEventFired" in self.events or self.value("document.readyState") == "complete"
            self.value(f"document.imagenIsExact = {json.dumps(is_exact)}")
            if not is_exact or sum(it["tick"] for it in self.noted()) == 0:
                return
        raise RuntimeError("time passes while the page loads")

    def noted(self):
        return json.loads(self.value(NOTED))

    def click(self, node):
        """A click by the mouse at the element that an expression gives, where it has a point of its own."""
        point = self.value(f"{POINT}({node})")
        if point:
            mouse = {"x": point[0], "y": point[1], "button": "left", "clickCount": 1}
            self.browser.send("Input.dispatchMouseEvent", self.session, type="mousePressed", **mouse)
            self.ask("Input.dispatchMouseEvent", type="mouseReleased", **mouse)

    def keys(self, keys, code=0):
        """One key after the other; the browser has done all of them when the last is answered."""
        for key in keys:
            text = {} if code else {"text": key, "unmodifiedText": key}
            for kind in ("rawKeyDown" if code else "keyDown", "keyUp"):
                number = self.browser.send("Input.dispatchKeyEvent", self.session, type=kind, key=key, windowsVirtualKeyCode=code, **text)
        self.browser.answer(number)

    def type(self, at, text, has_keys=True):
        """Types what makes the text of a field this one, by keys or, where these are noted and not wanted, as an input method does."""
        before = self.call(FIELD, at, True)
        is_added = before is not None and text.startswith(before) and text != before
        if before is None or not is_added and self.call(FIELD, at, False) is None:
            return
        if text == "" and has_keys:
            self.keys(["Backspace"], 8)
        elif has_keys:
            self.keys(["\r" if letter == "\n" else letter for letter in text[len(before) if is_added else 0:]])
        elif text != "":
            self.ask("Input.insertText", text=text[len(before) if is_added else 0:])

    def act(self, item):
        """What no hand can do."""
        if not self.call("imagenRecorder.act", item):
            self.put("no element", None)

    def do(self, item, then=None):
        """An event by real input, or what of it there is. `then` are the recorded ones after it, where it is one of those: keys bring inputs with them."""
        typed = typed_text([item] + (then or []))
        if "tick" in item:
            if item["tick"] > 0:
                self.spend("advance", item["tick"])
        elif item.get("fire") == "click":
            self.click(f"document.getElementById({json.dumps(item['at'])})")
        elif item.get("fire") == "change":
            self.value(f"document.activeElement && document.activeElement.id === {json.dumps(item['at'])} && document.activeElement.blur()")
        elif typed is not None:
            self.type(item["at"], typed)
        elif item.get("fire") == "keydown" and self.call(FIELD, item["at"], True) is not None:
            self.keys(["Shift"], 16)
        elif "input" in item:
            self.type(item["at"], item["input"], then is None)
        elif "dom" in item:
            self.act(item)
            self.put("dom", self.value(DOM))
        elif "call" in item:
            self.act(item)


def typed_text(items):
    """The text that a field has after the keys at the beginning of the items, each of which puts one letter to its end, or None where there are none."""
    text = None
    for key, put in zip(items[::2], items[1::2]):
        is_key = key.get("fire") == "keydown" and "input" in put and put["at"] == key["at"] == items[0]["at"]
        if not is_key or text is not None and (text == "" or put["input"][:-1] != text):
            break
        text = put["input"]
    return text


def text_of(value):
    """The text of a value that the protocol tells of."""
    if value["type"] == "function":
        return "[object Function]"
    if value["type"] != "object" or value.get("subtype") == "null":
        return value.get("value", value.get("description", "undefined")) if value["type"] == "string" else shown(value)
    classes = {"node": "Node", "error": "Error", "array": "Array"}
    return f"[object {classes.get(value.get('subtype'), value.get('className'))}]"


def shown(value):
    if value["type"] == "undefined" or value.get("subtype") == "null":
        return value.get("subtype", "undefined")
    return json.dumps(value["value"]) if "value" in value else value["unserializableValue"]


def thrown(value):
    """An error's name and message, or the text of another value. The browser's own errors of nodes are errors of the language in Imagen."""
    if value.get("subtype") != "error":
        return text_of(value)
    if value.get("className") == "DOMException":
        return "Error: "
    return value["description"].split("\n    at ")[0]


def known(line):
    """A line without the messages of errors of the language, which each engine words itself, and of those of nodes."""
    return re.sub(r"^(uncaught (?:Type|Range|Reference)Error): .*|^(uncaught Error): [A-Z_]*_ERR$", lambda it: (it.group(1) or it.group(2)) + ": ", line)


def roughly(lines, page):
    """The lines of a plain page. The browser's reader supplies a head, and puts what stands after the body into it: where that is more than space, no `dom`
    is compared."""
    is_alike = "<head" in page and page.rfind("</body>") > page.rfind("</script>")
    return [re.sub(r"(?:\\u000A| )*</body>", "</body>", it) if it.startswith("dom ") else known(it) for it in lines
            if is_alike or not it.startswith("dom ")]


class Program:
    def __init__(self, program, folder):
        self.program, self.folder = program, folder

    def run(self, command, page, events):
        for name, data in (("p", page), ("e", json.dumps(events))):
            with open(f"{self.folder}/{name}", "w", encoding="utf-8", newline="") as file:
                file.write(data)
        words = [self.program, command, f"{self.folder}/p"] + ([] if events is None else [f"{self.folder}/e"])
        return subprocess.run(words, stdout=subprocess.PIPE, check=True).stdout.decode()

    def lines(self, page, events):
        return self.run("replay", page, events).split("\n")[:-1]


class Trip:
    """The trips of a page, in a tab of its own, what there is to print of them, and how many passed."""

    def __init__(self, program, tab):
        self.program, self.tab, self.passed, self.failed, self.notes, self.by_script = program, tab, 0, 0, [], 0

    def see(self, what, got, wanted):
        if got == wanted:
            self.passed += 1
            return
        self.failed += 1
        at = next((k for k, pair in enumerate(zip(got, wanted)) if pair[0] != pair[1]), min(len(got), len(wanted)))
        self.notes.append(f"{what}\n  got    {got[at:at + 3]}\n  wanted {wanted[at:at + 3]}")

    def record(self, page, events):
        """What is recorded while the events are done to a page, its lines, and the places at which the next event begins."""
        self.tab.load(page, False)
        self.by_script, places = 0, [0]
        for item in events:
            before = len(self.tab.noted())
            self.tab.do(item)
            if "tick" not in item and item not in self.tab.noted()[before:]:
                self.tab.act(item)
                self.by_script += 1
            places.append(len(self.tab.noted()))
        return self.tab.noted(), list(self.tab.lines), places

    def follow(self, page, rest):
        """What is recorded while the rest is done to a page that is made ready for the browser, and its lines."""
        self.tab.load(page, True)
        told = self.tab.noted()
        while len(told) < len(rest):
            at = len(told)
            self.tab.do(rest[at], rest[at + 1:])
            told = self.tab.noted()
            if len(told) == at and "tick" not in rest[at]:
                self.tab.act(rest[at])
                told = self.tab.noted()
            if len(told) == at or told != rest[:len(told)]:
                break
        return told, list(self.tab.lines)

    def go(self, name, page, events, has_alone=True):
        """All trips of a page. A page that needs the prelude is not recorded alone."""
        events, passed, failed = events + [{"dom": True}], self.passed, self.failed
        types = sorted({it["fire"] for it in events if "fire" in it})
        ways = [("alone", alone(page, types)), ("after the prelude", OPEN.opened(page, types=types))]
        for what, text in ways if has_alone else ways[1:]:
            recorded, lines, places = self.record(text, events)
            refused = self.tab.value("imagenRecorder.refused.join('; ')")
            self.see(f"{name}: recorded {what}", roughly(lines, page), roughly(self.program.lines(page, recorded), page))
            if refused:
                self.notes.append(f"{name}: not recorded: {refused}")
        wanted, saved = self.program.lines(page, recorded), {}
        places = sorted({*places, *((it + other) // 2 for it, other in zip(places, places[1:]))})
        for at, place in enumerate(places):
            rest, before = recorded[place:], places[at // 2]
            begun = len(self.program.lines(page, recorded[:place]))
            saved[place] = self.program.run("save", page, recorded[:place])
            twice = self.program.run("save", saved[before], recorded[before:place])
            for how, moved in (("", saved[place]), (" twice", twice)):
                told, lines = self.follow(OPEN.opened(moved, types=types), rest)
                self.see(f"{name}: moved{how} after {place} of {len(recorded)} events", told, rest)
                self.see(f"{name}: moved{how} after {place} of {len(recorded)} events, lines", [known(it) for it in lines], [known(it) for it in wanted[begun:]])
        how = f"{len(events)} events, {self.by_script} of them by no hand, {len(recorded)} recorded, moved at {len(places)} places"
        self.notes.append(f"{name}: {self.passed - passed} of {self.passed + self.failed - passed - failed}, {how}, {len(wanted)} lines")
        return saved

    def lack(self, name, page, events, trait):
        """The trips of a row for what a browser lacks, and that a saved page shows the lack without the prelude: by its lines, or by a trait of the document."""
        saved, wanted = self.go(name, page, events, False)[0], None
        for text, has_prelude in ((OPEN.opened(saved, types=[]), True), (without_prelude(saved), False)):
            self.tab.load(text, has_prelude)
            for item in events:
                self.tab.do(item)
            recorded = self.tab.noted()
            wanted = wanted or [known(it) for it in self.program.lines(page, recorded)] + [True]
            shown = [known(it) for it in self.tab.lines] + [self.tab.value(trait)]
            self.see(f"{name}: {'with' if has_prelude else 'without'} the prelude", [shown == wanted], [has_prelude])
        self.notes.append(f"{name}: seen without the prelude, where {next((it for it in shown if it not in wanted), 'lines are missing')}")

    def refuse(self, name, page, deeds, wanted):
        """That the recorder refuses what a person does."""
        self.tab.load(OPEN.opened(page, types=[]), False)
        deeds(self.tab)
        refused = self.tab.value("imagenRecorder.refused")
        self.see(f"{name}: refused", refused, wanted)
        self.notes.append(f"{name}: {refused}")


def alone(page, types):
    """A plain page with the recorder before its first script, without the prelude."""
    return OPEN.opened(page, types=types).replace(OPEN.element("prelude.js"), "", 1)


def without_prelude(page):
    """A saved page as it is, with the recorder alone."""
    return alone(page, []).replace("<!doctype html>", "", 1)


def plain(body, script):
    return f"<!DOCTYPE html>\n<html><head><title>Row</title></head><body>{body}<script>\"use strict\";\n{script}</script></body></html>\n"


# What a browser lacks: the name, the page, its events, and what holds of the document of a copy.
LACKS = [
    ("a live interval", plain("", "setInterval(function () { console.log(\"beat\"); }, 100);"), [{"tick": 250}, {"tick": 50}, {"tick": 1}], "true"),
    ("functions of nodes as values", plain("<p id=\"p\" class=\"old\">text</p>", """
var of = {}, all = [document.getElementById, document.createElement, document.createTextNode, document.createComment, document.createEvent,
    document.body.getAttribute, document.body.hasAttribute, document.body.setAttribute, document.body.removeAttribute,
    document.insertBefore, document.appendChild, document.replaceChild, document.removeChild, document.hasChildNodes,
    document.addEventListener, document.removeEventListener, document.dispatchEvent];
function use() {
    var p = all[0].call(document, "p"), made = all[1].call(document, "b"), event = all[4].call(document, "Event"), hear = function (e) { console.log(e.type); };
    all[10].call(made, all[2].call(document, "in"));
    all[9].call(made, all[3].call(document, "before"), made.firstChild);
    console.log(all[5].call(p, "class"), all[6].call(p, "title"), all[13].call(made), all[12].call(made, made.firstChild).data);
    all[7].call(made, "title", "set");
    all[8].call(p, "class");
    all[11].call(p, made, p.firstChild);
    event.initEvent("heard", true, true);
    all[14].call(p, "heard", hear, false);
    console.log(all[16].call(made, event), all[0] === document.getElementById, all[0] === Node.prototype.getElementById);
    all[15].call(p, "heard", hear, false);
}
"""), [{"call": "use"}, {"call": "use"}, {"dom": True}], "true"),
    ("ids of timers", plain("", """
var ids = [];
function f() {}
function ask() { console.log(setTimeout(f, 10), ids.push(setInterval(f, 20))); }
function give() { clearTimeout(2); console.log(setTimeout(f, 1000), setIntervalFrom(f, 5, 50), setTimeout(f, -1)); }
"""), [{"call": "ask"}, {"tick": 10}, {"call": "give"}, {"tick": 0}, {"call": "ask"}, {"tick": 7}, {"call": "give"}], "true"),
    ("timers that are due at once", plain("", """
var n = 0, rounds = 0, fast = setInterval(function () { n += 1; if (n === 40) { clearInterval(fast); console.log("forty"); } }, 1);
setInterval(function () { console.log("two", n); }, 2);
setTimeout(function again() { rounds += 1; console.log("again", n); if (rounds < 9) { setTimeout(again, rounds % 2 === 0 ? 0 : 3); } }, 1);
setTimeout(function () { throw new Error("of a timer"); }, 4);
"""), [{"tick": 3}, {"tick": 4}, {"tick": 50}], "true"),
    ("the doctype", plain("", "function ask() { console.log(document.firstChild === document.documentElement, document.lastChild.tagName); }"),
     [{"call": "ask"}], "document.compatMode === 'CSS1Compat'"),
    ("the comment of the mark", plain("", """
function ask() { for (var node = document.firstChild; node; node = node.nextSibling) { console.log(node.nodeType); } }
"""), [{"call": "ask"}, {"dom": True}], "true"),
    ("what leaves the page", plain("""<form id="form"><input id="field"><button id="send">Send</button><button id="clear" type="reset">Clear</button></form>
<p><a id="away" href="about:blank">away</a></p>""", """
["form", "away"].forEach(function (id) {
    ["click", "submit"].forEach(function (type) {
        document.getElementById(id).addEventListener(type, function (event) { console.log(type, event.target.id, document.getElementById("field").value); }, false);
    });
});
document.getElementById("send").addEventListener("click", function () { alert("sent"); }, false);
"""), [{"input": "x", "at": "field"}, {"fire": "click", "at": "send"}, {"fire": "click", "at": "clear"}, {"fire": "click", "at": "away"}], "true"),
]
# What the recorder refuses: the name, the page, what a person does, and what the recorder says.
REFUSALS = [
    ("an element without an id", plain("<button>No name</button>", ""), lambda tab: tab.click("document.querySelector('button')"),
     ["click at BUTTON: the element has no id"]),
    ("two elements with one id", plain("<b id=\"b\">one</b><b id=\"b\">two</b>", ""), lambda tab: tab.click("document.querySelectorAll('b')[1]"),
     ["click at b: another element before it has its id, or it is not in the document"]),
    ("the code of a key", plain("<input id=\"i\">", """
document.getElementById("i").addEventListener("keydown", function (event) { console.log(event.type, event.target.id, event.key); }, false);
"""), lambda tab: tab.type("i", "ab"), ["keydown at i: the page asks for key, which no item has"]),
    ("half of a pair of units", plain("<input id=\"i\">", "document.getElementById(\"i\").value = \"\\uD83D\";"), lambda tab: tab.type("i", "\ud83dx"),
     ["input at i: half of a pair of units is no text"]),
]


def own_element(trip):
    """An opened page finds the elements that it had, and without that line of the prelude one more."""
    page = plain("", """
function count(node) {
    var sum = node.tagName === "SCRIPT" ? 1 : 0, at = node.firstChild;
    for (; at; at = at.nextSibling) { sum += count(at); }
    return sum;
}
console.log("first", count(document));
function ask() { console.log(count(document)); }
""")
    opened, line = OPEN.opened(trip.program.run("instrument", page, None), types=[]), "own.parentNode.removeChild(own);"
    for text, is_equal in ((opened, True), (opened.replace(line, "", 1), False)):
        told, lines = trip.follow(text, [{"call": "ask"}])
        trip.see("the prelude's own element", [lines == trip.program.lines(page, told)], [is_equal])


def in_real_time(trip):
    """A page with timers, recorded while time passes by itself: the order of timers and events is the one that is recorded."""
    page = plain("<button id=\"b\">B</button>", """
var n = 0;
setInterval(function () { n += 1; console.log("beat", n); }, 30);
document.getElementById("b").addEventListener("click", function () {
    console.log("click", n);
    setTimeout(function () { console.log("later", n); }, 45);
}, false);
""")
    recorded, before = [], []
    for page_of_now in (OPEN.opened(page, types=[]), None):
        if page_of_now is None:
            page_of_now = OPEN.opened(trip.program.run("save", page, recorded), types=[])
        trip.tab.go(page_of_now)
        while trip.tab.value("document.readyState") != "complete" or "Page.loadEventFired" not in trip.tab.events:
            time.sleep(0.01)
        for pause in (0.1, 0.017, 0.2, 0.05):
            time.sleep(pause)
            trip.tab.click("document.getElementById('b')")
        told = trip.tab.noted()
        lines, wanted = list(trip.tab.lines), trip.program.lines(page, recorded + told)
        trip.see("in real time", [lines, sum("tick" in it for it in told) >= 4], [wanted[len(before):], True])
        recorded, before = recorded + told, wanted
    trip.notes.append(f"in real time: {recorded}")


def from_console(trip):
    """The recorder, run from the console: it notes, and tells that it came late."""
    trip.tab.go(plain("<button id=\"b\">B</button>", ""))
    time.sleep(0.3)
    with open(f"{TOP}/browser/recorder.js", encoding="utf-8") as file:
        trip.tab.value(file.read())
    trip.tab.click("document.getElementById('b')")
    tick, click = trip.tab.noted()[:2]
    trip.see("from the console", [100 < tick["tick"] < 100000, click], [True, {"fire": "click", "at": "b"}])
    trip.see("from the console", trip.tab.value("imagenRecorder.refused"), ["what was done before the recorder came"])


def pages(words):
    """The pages and the files of their events."""
    for page in words or sorted(glob.glob(f"{TOP}/examples/*.html")):
        name = re.sub(r"\.html$", "", page)
        if words or os.path.isfile(f"{name}.json") and os.path.basename(name) not in OTHERWISE:
            with open(page, encoding="utf-8", newline="") as text, open(f"{name}.json", encoding="utf-8") as items:
                yield os.path.basename(name), text.read(), json.load(items)


@contextlib.contextmanager
def tab_of(chromium, is_virtual=True):
    with tempfile.TemporaryDirectory(ignore_cleanup_errors=True) as folder:
        browser = Chromium(chromium, folder)
        try:
            yield Tab(browser, folder, is_virtual)
        finally:
            browser.close()


def tell(trip):
    print("\n".join(trip.notes), flush=True)
    return trip.passed, trip.failed


def main():
    if "--help" in sys.argv[1:]:
        print(__doc__.strip())
        return 0
    chromium = shutil.which("chromium") or shutil.which("chromium-browser") or shutil.which("google-chrome")
    if not chromium or len(sys.argv) < 2:
        sys.exit("usage: compare/round_trip.py PROGRAM [PAGE ..], where chromium is installed")

    def trip_of(page):
        with tab_of(chromium) as tab:
            trip = Trip(Program(os.path.abspath(sys.argv[1]), tab.folder), tab)
            trip.go(*page)
            return tell(trip)

    def trip_of_rows():
        with tab_of(chromium) as tab:
            trip = Trip(Program(os.path.abspath(sys.argv[1]), tab.folder), tab)
            for row in LACKS:
                trip.lack(*row)
            for row in REFUSALS:
                trip.refuse(*row)
            own_element(trip)
        with tab_of(chromium, False) as trip.tab:
            trip.program.folder = trip.tab.folder
            in_real_time(trip)
            from_console(trip)
        return tell(trip)

    with concurrent.futures.ThreadPoolExecutor(WORKERS) as workers:
        runs = [] if sys.argv[2:] else [workers.submit(trip_of_rows)]
        runs += [workers.submit(trip_of, page) for page in pages(sys.argv[2:])]
        passed, failed = (sum(it) for it in zip(*(run.result() for run in runs)))
    print(f"{passed} passed, {failed} failed")
    return 1 if failed else 0


if __name__ == "__main__":
    sys.exit(main())
