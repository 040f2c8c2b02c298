#!/usr/bin/env python3
"""tools/explain.py PROGRAM PAGE [EVENTS]

Tells where a page, or the events for it, are refused, by line and column. The program says that they are refused, and why; the place is found by
readers of its own, written from docs/PROFILE.md, which know the commonest causes: a tag that is not closed, a text that is no token, a
word of a later edition, an item that is no event. `./imagen explain PAGE [EVENTS]` runs it. The status is that of the program.
"""
import json
import os
import re
import subprocess
import sys
import tempfile

sys.dont_write_bytecode = True
sys.path.insert(0, os.path.dirname(os.path.abspath(__file__)))
from page_faults import Fault, Page, place
from script_faults import Script, Tokens

REFUSED, EVENTS_REFUSED = 1, 3
LONGEST_TICK = 1000000000
MOST_EVENTS = 100000
WIDEST = 120
# The members of an item, by the one that tells its kind.
MEMBERS = {"fire": {"at", "bubbles", "cancelable"}, "input": {"at"}, "tick": set(), "call": set(), "dom": set()}
NOTES = {
    "too long": "the file is longer than a page may be",
    "too deep": "this script nests too deep",
    "not in form": "the page begins with the mark of a saved page, and this script is not as those of saved pages are",
    "not strict": "the script does not begin with \"use strict\";",
}
TOO_HIGH = "no fault was found in its grammar: it seems to nest deeper than a script may"
NONE = "no common cause was found here; docs/PROFILE.md has all rules"


def shown(path, text, fault):
    """The place and what is wrong, then the line, and a mark under the place."""
    line, column = place(text, fault.at)
    source = text.split("\n")[line - 1]
    start = max(0, column - 1 - WIDEST // 2)
    piece = re.sub(r"[^\x20-\uffff]", " ", source[start:start + WIDEST])
    return f"{path}:{line}:{column}: {fault.text}\n    {piece}\n    {' ' * (column - 1 - start)}^"


def script_fault(script, cause):
    """What is wrong in a script of which the program tells this cause; the place counts from its start."""
    start = len(script) - len(script.lstrip())
    if cause == "reserved name":
        for token in Tokens(script).all():
            if token.kind == "name" and token.text.startswith("$$"):
                return Fault(token.at, f"{token.text}: names that begin with $$ are those of saved pages")
    rule = re.fullmatch(r"early error (\d+)", cause)
    if cause not in ("not tokens", "not a script") and not rule:
        return Fault(start, NOTES.get(cause, cause))
    reader = Script(Tokens(script).all())
    try:
        reader.whole()
    except RecursionError:
        return Fault(start, TOO_HIGH)
    for number, fault in sorted(reader.early, key=lambda it: it[1].at):
        if rule and number == int(rule[1]):
            return fault
    return Fault(start, f"{cause}: {NONE}" if rule or cause == "not tokens" else TOO_HIGH)


def page_fault(text, note):
    """What is wrong in a page of which the program tells this note."""
    page = Page(text)
    try:
        page.read()
    except Fault as fault:
        return fault
    told = re.fullmatch(r"script (\d+): (.*)", note)
    if not told or int(told[1]) > len(page.scripts):
        return Fault(0, f"{NOTES.get(note, note)}: {NONE}")
    at, script = page.scripts[int(told[1]) - 1]
    try:
        fault = script_fault(script, told[2])
    except Fault as found:
        fault = found
    return Fault(at + fault.at, f"script {told[1]}: {fault.text}")


def item_fault(item):
    """Why a JSON value is no event, or None."""
    if not isinstance(item, dict):
        return "an item is an object, as {\"tick\": 1000}"
    kind = next((it for it in MEMBERS if it in item), None)
    if kind is None:
        return f"an item has one of the members {', '.join(MEMBERS)}"
    beyond = [it for it in item if it != kind and it not in MEMBERS[kind]]
    if beyond:
        return f"beside {kind} no member {beyond[0]} stands"
    if kind in ("fire", "input") and "at" not in item:
        return f"{kind} needs the member at, with the id of an element"
    for name, value in item.items():
        if name in ("fire", "input", "at", "call") and not isinstance(value, str):
            return f"{name} is a text"
        if name in ("bubbles", "cancelable") and not isinstance(value, bool):
            return f"{name} is true or false"
        if name == "tick" and (type(value) is not int or not 0 <= value <= LONGEST_TICK):
            return f"tick is a whole number from 0 to {LONGEST_TICK:,}"
        if name == "dom" and value is not True:
            return "dom is true"
    return None


def events_fault(text, number):
    """What is wrong in a file of events of which the program tells this number."""
    decoder, blank = json.JSONDecoder(), re.compile(r"[ \t\n\r]*")
    at = blank.match(text).end()
    if not text.startswith("[", at):
        return Fault(at, "a file of events is a list: it begins with [")
    at = blank.match(text, at + 1).end()
    for count in range(1, MOST_EVENTS + 2):
        if text.startswith("]", at):
            break
        try:
            item, end = decoder.raw_decode(text, at)
        except json.JSONDecodeError as error:
            return Fault(min(error.pos, len(text)), f"this is no JSON: {error.msg}")
        except RecursionError:
            return Fault(at, "this nests too deep")
        if count == number:
            return Fault(at, f"item {number}: {item_fault(item) or NONE if count <= MOST_EVENTS else 'there are too many items'}")
        at = blank.match(text, end).end()
        if text.startswith(",", at):
            at = blank.match(text, at + 1).end()
        elif not text.startswith("]", at):
            return Fault(at, "this is no JSON: , or ] is wanted here")
    rest = blank.match(text, at + 1).end()
    return Fault(min(rest, len(text)), "after the list nothing stands" if rest < len(text) else f"the file is refused: {NONE}")


def read_text(path):
    """The text of a file, or the place of what is no UTF-8 in what comes before it."""
    with open(path, "rb") as file:
        content = file.read()
    try:
        text, fault = content.decode(), None
    except UnicodeDecodeError as error:
        text = content.decode("utf-8", "replace")
        fault = len(content[:error.start].decode())
    has_mark = text.startswith("\ufeff")
    at = None if fault is None else Fault(text[:fault].replace("\r\n", "\n").count("") - 1 - has_mark, "this is no UTF-8")
    return text[has_mark:].replace("\r\n", "\n").replace("\r", "\n"), at


def answer(*words):
    run = subprocess.run(words, capture_output=True)
    return run.returncode, run.stdout.decode().strip(), run.stderr.decode("utf-8", "replace").strip()


def explain_page(program, path):
    status, kind, note = answer(program, "check", path)
    if status == REFUSED:
        text, fault = read_text(path)
        print(shown(path, text, fault or page_fault(text, note.removeprefix("page refused: "))))
    else:
        print(f"{path}: {f'accepted, {kind}' if status == 0 else note}")
    return status


def explain_events(program, path):
    with tempfile.NamedTemporaryFile("w", suffix=".html") as page:
        page.write("<html></html>")
        page.flush()
        status, _, note = answer(program, "replay", page.name, path)
    if status == EVENTS_REFUSED:
        text, fault = read_text(path)
        print(shown(path, text, fault or events_fault(text, int(note.removeprefix("events refused: ")))))
    else:
        print(f"{path}: {'accepted' if status == 0 else note}")
    return status


def main(words):
    if len(words) not in (2, 3) or words[0] in ("-h", "--help"):
        print(__doc__)
        return 0 if words and words[0] in ("-h", "--help") else 2
    sys.setrecursionlimit(100000)
    program = os.path.abspath(words[0])
    status = explain_page(program, words[1])
    if len(words) == 3:
        status = explain_events(program, words[2]) or status
    return status


if __name__ == "__main__":
    sys.exit(main(sys.argv[1:]))
