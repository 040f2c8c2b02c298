#!/usr/bin/env python3
"""tools/timeline.py PAGE EVENTS [PROGRAM] > timeline.html

Writes a page of HTML that shows a session: a row for each event, with the lines that it prints, what `save` writes after it, and what changed since
the event before. It asks the program for nothing but `replay` and `save`; without PROGRAM it asks the launcher of this repository.
"""
import concurrent.futures
import difflib
import html
import json
import os
import subprocess
import sys
import tempfile

sys.dont_write_bytecode = True
HERE = os.path.dirname(os.path.abspath(__file__))
sys.path.insert(0, HERE)
from saved_page import SavedPage, changes

MOST_CHANGES = 16
MOST_LINES = 80
STYLE = """
body { font: 14px/1.4 system-ui, sans-serif; margin: 2em; color: #222; }
table { border-collapse: collapse; width: 100%; }
th, td { border-top: 1px solid #ccc; padding: .4em .6em; text-align: left; vertical-align: top; }
th { border-top: 0; }
td.number, td.clock { color: #777; text-align: right; }
code, pre { font: 12px/1.4 ui-monospace, monospace; white-space: pre-wrap; overflow-wrap: anywhere; margin: 0; }
td.event { width: 16%; }
td.lines { width: 22%; }
td.saved { width: 20%; }
td.event code { font-weight: bold; }
.uncaught, .stopped, .fault { color: #b00; }
.dom, .no { color: #777; }
ul { list-style: none; margin: 0; padding: 0; }
li { overflow-wrap: anywhere; }
li.new::before { content: "+ "; color: #080; }
li.gone::before { content: "- "; color: #b00; }
li.other::before { content: "~ "; color: #06c; }
del { color: #777; }
ins { text-decoration: none; font-weight: bold; }
summary { color: #06c; cursor: pointer; }
"""


class Session:
    """A page under the first of its events, as many as one wants."""

    def __init__(self, program, page, events):
        self.program, self.page, self.events = program, page, events

    def run(self, verb, count):
        with tempfile.NamedTemporaryFile("w", suffix=".json", encoding="utf-8") as file:
            json.dump(self.events[:count], file)
            file.flush()
            return subprocess.run([*self.program, verb, self.page, file.name], capture_output=True)

    def state(self, count):
        """The lines that were printed so far, and the saved page or why there is none."""
        lines, saved = self.run("replay", count), self.run("save", count)
        if lines.returncode != 0:
            raise ValueError(lines.stderr.decode("utf-8", "replace").strip())
        page = SavedPage(saved.stdout.decode()) if saved.returncode == 0 else None
        return lines.stdout.decode().split("\n")[:-1], page, saved.stderr.decode("utf-8", "replace").strip()


def told(event):
    """An event in words."""
    if "fire" in event:
        flags = "".join(f", not {word}" for word, key in (("bubbling", "bubbles"), ("cancelable", "cancelable")) if not event.get(key, True))
        return f"{event['fire']} at {event['at']}{flags}"
    if "input" in event:
        return f"input {json.dumps(event['input'], ensure_ascii=False)} at {event['at']}"
    if "tick" in event:
        return f"{event['tick']:,} ms pass"
    return f"call {event['call']}()" if "call" in event else "the document is printed"


def code(text, kind=""):
    return f"<code{f' class={json.dumps(kind)}' if kind else ''}>{html.escape(text)}</code>"


def lines_cell(lines):
    shown = [f"<div>{code(line if len(line) < 200 else line[:200] + '..', line.partition(' ')[0])}</div>" for line in lines[:MOST_LINES]]
    if len(lines) > MOST_LINES:
        shown.append(f"<div>and {len(lines) - MOST_LINES} more</div>")
    return "".join(shown)


def details(summary, lines):
    text = "\n".join(it if len(it) < 300 else it[:300] + ".." for it in lines[:MOST_LINES])
    more = f"\nand {len(lines) - MOST_LINES} more" if len(lines) > MOST_LINES else ""
    return f"<details><summary>{summary}</summary><pre>{html.escape(text + more)}</pre></details>"


def saved_cell(before, after, why):
    """What is written: the lines that are new or gone, apart from the numbers of things, which change with each thing that comes or goes."""
    if after is None:
        return code(why, "fault")
    size = f"{len(after.text.encode()):,} bytes"
    if before is None:
        return size + details(f"{len(after.statements):,} lines", after.statements)
    if before.text == after.text:
        return f"{size}<br>the same"
    olds, news, gone, new = before.named(), after.named(), [], []
    for kind, start, end, begin, stop in difflib.SequenceMatcher(None, olds, news, autojunk=False).get_opcodes():
        if kind != "equal":
            gone += ["- " + it for it in before.statements[start:end]]
            new += ["+ " + it for it in after.statements[begin:stop]]
    return size + (details(f"{len(new):,} new, {len(gone):,} gone", new + gone) if new or gone else "<br>other numbers alone")


def changed_cell(before, after):
    if before is None or after is None:
        return ""
    found = changes(before, after)
    items = []
    for name, was, now in found[:MOST_CHANGES]:
        kind = "new" if was is None else "gone" if now is None else "other"
        value = "" if "is there" in (was, now) else f"<del>{html.escape(was)}</del>" if now is None else f"<ins>{html.escape(now)}</ins>"
        arrow = f"<del>{html.escape(was)}</del> &rarr; " if kind == "other" else ""
        items.append(f"<li class={kind}>{html.escape(name)}{': ' if value else ''}{arrow}{value}</li>")
    if len(found) > MOST_CHANGES:
        items.append(f"<li>and {len(found) - MOST_CHANGES} more</li>")
    return f"<ul>{''.join(items)}</ul>" if items else "nothing"


def written(session, name):
    """The page of a session."""
    with concurrent.futures.ThreadPoolExecutor(os.cpu_count()) as threads:
        states = list(threads.map(session.state, range(len(session.events) + 1)))
    rows, clock = [], 0
    for number, (lines, saved, why) in enumerate(states):
        event = session.events[number - 1] if number else None
        clock += event.get("tick", 0) if event else 0
        had, before = (len(states[number - 1][0]), states[number - 1][1]) if number else (0, None)
        cells = [("number", str(number)), ("clock", f"{clock:,}"), ("event", code(told(event)) if event else "the page is loaded"), ("lines", lines_cell(lines[had:])),
                 ("changed", changed_cell(before, saved)), ("saved", saved_cell(before, saved, why))]
        rows.append("<tr>" + "".join(f"<td class={kind}>{cell}</td>" for kind, cell in cells) + "</tr>")
    heads = "".join(f"<th>{it}</th>" for it in ("", "ms", "Event", "Lines", "What changed", "Lines that save writes"))
    return (f'<!DOCTYPE html>\n<html lang="en"><head><meta charset="utf-8"><title>{html.escape(name)}</title><style>{STYLE}</style></head>\n<body><h1>{html.escape(name)}</h1>\n'
            f"<table><thead><tr>{heads}</tr></thead><tbody>\n" + "\n".join(rows) + "\n</tbody></table></body></html>\n")


def main(words):
    if len(words) not in (2, 3) or words[0] in ("-h", "--help"):
        print(__doc__)
        return 0 if words and words[0] in ("-h", "--help") else 2
    program = [os.path.abspath(words[2])] if len(words) == 3 else [os.path.join(os.path.dirname(HERE), "imagen")]
    try:
        with open(words[1], encoding="utf-8") as file:
            events = json.load(file)
        sys.stdout.write(written(Session(program, words[0], events), os.path.basename(words[0])))
    except (ValueError, OSError) as fault:
        print(f"timeline: {fault}", file=sys.stderr)
        return 1
    return 0


if __name__ == "__main__":
    sys.exit(main(sys.argv[1:]))
