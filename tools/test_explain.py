#!/usr/bin/env python3
"""tools/test_explain.py PROGRAM

Tries explain.py: each page or file of events below is refused by the program, and explained with this line and column and these words."""
import os
import subprocess
import sys
import tempfile

sys.dont_write_bytecode = True
HERE = os.path.dirname(os.path.abspath(__file__))
HEAD = '<html><body>\n<p id="a">x</p>\n'
PAGES = [
    (HEAD + "<ul>\n  <li>one\n</ul></body></html>", "5:1", "</ul> stands where <li> of line 4, column 3 is still open"),
    (HEAD + "<div></body></html>", "3:6", "</body> stands where <div> of line 3, column 1"),
    (HEAD + "<div>", "3:1", "<div> is not closed"),
    (HEAD + "1 < 2</body></html>", "3:3", "&lt;"),
    (HEAD + "&copy; me</body></html>", "3:1", "&copy; is no reference"),
    (HEAD + '<b onclick="f()"></b></body></html>', "3:4", "addEventListener"),
    (HEAD + "<img src=></body></html>", "3:6", "no value"),
    (HEAD + "<br></br></body></html>", "3:5", "no </br>"),
    (HEAD + "<div/></body></html>", "3:5", "needs an end tag"),
    (HEAD + '<script src="a.js"></script></body></html>', "3:9", "src is refused"),
    (HEAD + "<!-- open </body></html>", "3:1", "no -->"),
    ("hello", "1:1", "<html> is missing"),
    ("<html></html><p></p>", "1:14", "after </html>"),
    ("<html>\r\n<p></html>", "2:4", "</html> stands where <p>"),
    ("<html>é\xff</html>".encode("latin-1"), "1:7", "no UTF-8"),
    ("<html>\n<script>\nvar a = 1;\n</script></html>", "3:1", "use strict"),
]
# What stands in a script after its directive, in a line of its own.
SCRIPTS = [
    ("var a = 1.5;", "3:9", "whole"),
    ("var a = 'it;", "3:9", "not closed"),
    ("var a = `x`;", "3:9", "join texts by +"),
    ("var a = 012;", "3:9", "0x"),
    ("let a = 1;", "3:1", "let is of a later edition"),
    ("const a = 1;", "3:1", "const is of a later edition"),
    ("f(a => 1);", "3:5", "=> is of a later edition"),
    ("var a = /b/;", "3:9", "regular expressions"),
    ("if (a) {", "3:8", "not closed"),
    ("f(1;", "3:4", ") or ,"),
    ("var o = {get a() { return 1; }};", "3:10", "getters"),
    ("var o = {a, b};", "3:10", "write name: value"),
    ("a: for (;;) {}", "3:1", "labels"),
    ("with (a) {}", "3:1", "with"),
    ("if (a) { function f() {} }", "3:10", "top"),
    ("function f(a, a) {}", "3:15", "twice a formal"),
    ("delete a;", "3:1", "delete takes a property"),
    ("f(arguments);", "3:3", "arguments"),
    ("return 1;", "3:1", "no function"),
    ("break;", "3:1", "no loop"),
    ("f() = 1;", "3:1", "assigned"),
    ("var f = function g() { g = 1; };", "3:24", "own name"),
    ("function alert() {}", "3:10", "built-in"),
    ("var $$1 = 1;", "3:5", "saved pages"),
]
EVENTS = [
    ('[{"tick": 1},\n {"tick": -1}]', "2:2", "item 2: tick is a whole number"),
    ('[{"click": "a"}]', "1:2", "one of the members"),
    ('[{"fire": "click"}]', "1:2", "needs the member at"),
    ('[{"dom": true, "at": "a"}]', "1:2", "no member at"),
    ('[{"tick": 1}\n{"tick": 2}]', "2:1", ", or ]"),
    ('[{"tick": 1,}]', "1:13", "no JSON"),
    ('{"tick": 1}', "1:1", "begins with ["),
]


def write(path, content):
    with open(path, "wb") as file:
        file.write(content if isinstance(content, bytes) else content.encode())


def faults(program):
    """What is explained otherwise."""
    pages = PAGES + [(f'<html><script>"use strict";\n\n{text}</script></html>', at, words) for text, at, words in SCRIPTS]
    with tempfile.TemporaryDirectory() as folder:
        page, events = os.path.join(folder, "page"), os.path.join(folder, "events")
        for content, at, words in pages:
            write(page, content)
            run = subprocess.run([sys.executable, os.path.join(HERE, "explain.py"), program, page], capture_output=True, text=True)
            if run.returncode != 1 or f":{at}: " not in run.stdout or words not in run.stdout:
                yield f"{content!r}: wanted {at} and {words!r}, found {run.returncode} {run.stdout} {run.stderr[-300:]}"
        write(page, "<html></html>")
        for content, at, words in EVENTS:
            write(events, content)
            run = subprocess.run([sys.executable, os.path.join(HERE, "explain.py"), program, page, events], capture_output=True, text=True)
            if run.returncode != 3 or f":{at}: " not in run.stdout or words not in run.stdout:
                yield f"{content!r}: wanted {at} and {words!r}, found {run.returncode} {run.stdout} {run.stderr[-300:]}"


def main(words):
    if len(words) != 1 or words[0].startswith("-"):
        print(__doc__)
        return 0 if words and words[0] in ("-h", "--help") else 2
    found = list(faults(os.path.abspath(words[0])))
    print(*found, f"explain: {len(PAGES) + len(SCRIPTS) + len(EVENTS)} tried, {len(found)} wrong", sep="\n")
    return 1 if found else 0


if __name__ == "__main__":
    sys.exit(main(sys.argv[1:]))
