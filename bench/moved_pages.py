#!/usr/bin/env python3
"""bench/moved_pages.py PROGRAM [COUNT [SEED [KIND]]]

Makes COUNT random pages (1,000) with events, of everything that pages may have (KIND `whole`, compare/whole_pages.py), or of scripts alone (`scripts`,
compare/random_pages.py), and moves each at a random event: `save` after the earlier events, `replay` of the saved page on the later ones; half of them
are moved once more at a later event. The lines have to be those of the page that never moved, and the saved page, saved again, has to have the same
bytes. The page with opened scopes (`instrument`) has to print the lines of the page. Prints each page that does otherwise, and then how many were
moved, how many scripts and events took all their steps, how many lines came after the move, and how many of the saved pages have each kind of
statement.
"""
import collections
import json
import os
import re
import shlex
import subprocess
import sys
import tempfile

sys.dont_write_bytecode = True
sys.path.insert(0, os.path.join(os.path.dirname(os.path.dirname(os.path.abspath(__file__))), "tools"))
import command_words

sys.path.insert(0, os.path.join(os.path.dirname(os.path.dirname(os.path.abspath(__file__))), "compare"))
from random_pages import Page
from whole_pages import WholePage


def whole_page(seed):
    page = WholePage(seed)
    return page.page(), page.events(), page.r


def page_of_scripts(seed):
    page = Page(seed)
    text = "<html><script>%s</script></html>" % page.script()
    return text, [{"call": page.r.choice(page.functions + ["nowhere"])} for _ in range(page.r.randrange(6))], page.r


KINDS = {"whole": whole_page, "scripts": page_of_scripts}
# What stands at the beginning of a line of a saved page that has a statement of the kind.
STATEMENTS = {kind: re.compile(b"^" + text, re.M) for kind, text in {
    "nodes": rb"\$\$\[\d+\]=document\.create(?!Event)", "attributes": rb"\S+\.setAttribute\(", "values": rb"\$\$\[\d+\]\.value=",
    "events": rb"\$\$\[\d+\]=document\.createEvent\(", "initialised": rb"\S+\.initEvent\(", "dispatches": rb"\S+\.dispatchEvent\(",
    "listeners": rb"\S+\.addEventListener\(", "timeouts": rb"setTimeout\(\$\$", "intervals": rb"setIntervalFrom\(",
    "closures": rb"\$\$\[\d+\]=\(function\(", "bound": rb"\S+\.bind\([^{]*\);$", "arrays": rb"\$\$\[\d+\]=\[\];", "errors": rb"\$\$\[\d+\]=new ",
    "frozen": rb"Object\.preventExtensions\(",
}.items()}


class Fault(Exception):
    """What a page does otherwise once it has moved or its scopes are opened."""


class Mover:
    """A program with the files that it is given."""

    def __init__(self, words, folder):
        self.words = words
        self.folder = folder
        self.seen = collections.Counter()

    def run(self, command, page, events):
        with open(os.path.join(self.folder, "p"), "wb") as file:
            file.write(page)
        with open(os.path.join(self.folder, "e"), "w", encoding="utf-8") as file:
            json.dump(events, file)
        names = ["p"] if command == "instrument" else ["p", "e"]
        try:
            done = subprocess.run(self.words + [command] + names, cwd=self.folder, capture_output=True, timeout=300)
        except subprocess.TimeoutExpired:
            raise Fault("%s does not end" % command) from None
        if done.returncode:
            raise Fault("%s: status %d %s" % (command, done.returncode, done.stderr.decode().strip()))
        return done.stdout

    def lines(self, page, events):
        return self.run("replay", page, events).split(b"\n")[:-1]

    def moved(self, page, events, places):
        """The lines of the page after it was moved at each of these places, and how many come after the first move."""
        lines, begun = [], 0
        for number, place in enumerate(places):
            lines += self.lines(page, events[begun:place])
            saved = self.run("save", page, events[begun:place])
            if self.run("save", saved, []) != saved:
                raise Fault("other bytes after move %d" % (number + 1))
            self.seen.update(kind for kind, statement in STATEMENTS.items() if statement.search(saved))
            page, begun = saved, place
            first = first if number else len(lines)
        lines += self.lines(page, events[begun:])
        return lines, len(lines) - first

    def compare(self, page, events, places):
        """How many scripts and events of the page took all their steps, and how many lines come after its first move."""
        whole = self.lines(page, events)
        opened = self.run("instrument", page, [])
        if self.lines(opened, events) != whole:
            raise Fault("other lines with opened scopes")
        moved, after = self.moved(page, events, places)
        if moved != whole:
            raise Fault("other lines after the move: %r in place of %r" % next(
                ((got, wanted) for got, wanted in zip(moved, whole) if got != wanted), (len(moved), len(whole))))
        return whole.count(b"stopped"), after


def main():
    command_words.or_help(__doc__, 1)
    count = int(sys.argv[2]) if len(sys.argv) > 2 else 1000
    seed = int(sys.argv[3]) if len(sys.argv) > 3 else 1
    make = KINDS[sys.argv[4] if len(sys.argv) > 4 else "whole"]
    moved = faults = stops = lines = 0
    with tempfile.TemporaryDirectory() as folder:
        mover = Mover(shlex.split(sys.argv[1]), folder)
        for k in range(count):
            text, events, chance = make(seed * 1000003 + k)
            places = sorted(chance.randrange(len(events) + 1) for _ in range(chance.choice((1, 2))))
            try:
                stopped, after = mover.compare(text.encode(), events, places)
            except Fault as fault:
                faults += 1
                print("page %d of seed %d: %s\n%s\nevents %s, moved at %s\n" % (k, seed, fault, text, json.dumps(events), places), flush=True)
            else:
                moved += 1
                stops += stopped
                lines += after
    print("%d pages moved, %d otherwise; %d scripts and events stopped, %d lines after the move" % (moved, faults, stops, lines))
    print("saved pages with", ", ".join("%s %d" % it for it in mover.seen.most_common()))
    sys.exit(1 if faults else 0)


main()
