#!/usr/bin/env python3
"""tools/test_timeline.py PROGRAM [CHROMIUM]

Tries timeline.py on the pages of examples/ that have events of their name: headless Chromium loads the page that it writes, and that has to have a row for
each event with its lines, in their order, and to tell a change wherever the saved pages differ. Needs Debian's package chromium.
"""
import html.parser
import json
import os
import subprocess
import sys
import tempfile

sys.dont_write_bytecode = True
HERE = os.path.dirname(os.path.abspath(__file__))
EXAMPLES = os.path.join(os.path.dirname(HERE), "examples")
WIDEST = 200


class Rows(html.parser.HTMLParser):
    """The rows of the table: for each the texts of its cells, by class, those of single lines apart."""

    def __init__(self, text):
        super().__init__()
        self.rows, self.cell = [], None
        self.feed(text)

    def handle_starttag(self, tag, attributes):
        if tag == "tr":
            self.rows.append({})
        elif tag == "td":
            self.cell = self.rows[-1].setdefault(dict(attributes)["class"], [])
        elif tag in ("code", "li", "details") and self.cell is not None:
            self.cell.append("")

    def handle_endtag(self, tag):
        if tag == "td":
            self.cell = None

    def handle_data(self, text):
        if self.cell is not None:
            self.cell[-1:] = [(self.cell or [""])[-1] + text]


def in_chromium(chromium, path):
    words = [chromium, "--headless", "--no-sandbox", "--disable-gpu", "--virtual-time-budget=1000", "--dump-dom", "file://" + path]
    return subprocess.run(words, capture_output=True, timeout=120, check=True).stdout.decode()


def fault(program, chromium, name):
    """What is wrong with the timeline of an example, or None."""
    page, file = (os.path.join(EXAMPLES, name + ending) for ending in (".html", ".json"))
    with open(file, encoding="utf-8") as it:
        events = json.load(it)
    written = subprocess.run([sys.executable, os.path.join(HERE, "timeline.py"), page, file, program], capture_output=True, check=True).stdout
    with tempfile.NamedTemporaryFile(suffix=".html") as it:
        it.write(written)
        it.flush()
        rows = Rows(in_chromium(chromium, it.name)).rows[1:]
    if len(rows) != len(events) + 1:
        return f"{len(rows)} rows for {len(events)} events"
    wanted = subprocess.run([program, "replay", page, file], capture_output=True, check=True).stdout.decode().split("\n")[:-1]
    shown = [line for row in rows for line in row.get("lines", [])]
    if [it[:WIDEST] for it in shown] != [it[:WIDEST] for it in wanted]:
        return f"the lines are {shown}"
    for number, row in enumerate(rows[1:], 1):
        is_same = "the same" in "".join(row["saved"])
        if ("".join(row["changed"]) == "nothing") != is_same:
            return f"event {number} shows {row['changed']} where the saved page is {row['saved']}"
    return None


def main(words):
    if len(words) not in (1, 2) or words[0].startswith("-"):
        print(__doc__)
        return 0 if words and words[0] in ("-h", "--help") else 2
    program, chromium = os.path.abspath(words[0]), words[1] if len(words) == 2 else "chromium"
    names = sorted(it[:-5] for it in os.listdir(EXAMPLES) if it.endswith(".json") and os.path.isfile(os.path.join(EXAMPLES, it[:-5] + ".html")))
    found = [(name, wrong) for name in names if (wrong := fault(program, chromium, name))]
    for name, wrong in found:
        print(f"{name}: {wrong}"[:2000])
    print(f"timeline: {len(names)} pages, {len(found)} wrong")
    return 1 if found else 0


if __name__ == "__main__":
    sys.exit(main(sys.argv[1:]))
