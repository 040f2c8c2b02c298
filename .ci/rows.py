#!/usr/bin/env python3
"""Runs the rows of crates/rows/data over a program, as the crate `rows` does over files, an output and a keeper in memory.

    .ci/rows.py PROGRAM [FILE..]    runs those of these files, or of all, and prints each row that ends otherwise

Each row has a folder of its own, with the files `p` and `e` and, where rows are kept before, a file of sessions that Python's sqlite3 made. A read
that fails is that of a folder; the room of an output is the greatest size of a file. Rows that ask for a fault of the keeper, or of a
certain call that writes, cannot be had of a system: they stay with the crate `rows`.
"""
import collections
import concurrent.futures
import contextlib
import json
import os
import resource
import sqlite3
import subprocess
import sys
import tempfile

TOP = os.path.dirname(os.path.dirname(os.path.abspath(__file__)))
DATA = os.path.join(TOP, "crates/rows/data")
ROOM = 1000
# So many that a busy machine is no finding.
SECONDS = 300
# What no system can be asked for.
FAULTS = {"calls", "puts", "notes"}
# What the text of a key stands between, to be a page.
PAGES = {
    "page": (b"", b""),
    "script": (b"<html><script>", b"</script></html>"),
    "items": (b'<html><body></body><script>"use strict";', b"</script></html>"),
    "form": (b'<!--imagen 1--><html><script>"use strict";', b"</script></html>"),
}
# The table of the file of sessions, as crates/shelf has it.
TABLE = """CREATE TABLE IF NOT EXISTS kept(name TEXT NOT NULL, version INTEGER NOT NULL, size INTEGER NOT NULL, bytes BLOB NOT NULL,
    PRIMARY KEY(name, version)) STRICT"""


def text_of(value):
    """The bytes of a text: a string, or a list of strings, bytes and pairs of a number and what stands there so many times."""
    if isinstance(value, str):
        return value.encode()
    return b"".join(piece.encode() if isinstance(piece, str) else bytes([piece]) if isinstance(piece, int) else
                    piece[0] * text_of(piece[1]) for piece in value)


def is_of_systems(row):
    return not FAULTS & set(row)


def put_file(path, content):
    with open(path, "wb") as file:
        file.write(content)


def lay_out(row, folder):
    """Puts there what the command of the row finds."""
    for key, (before, after) in PAGES.items():
        if key in row:
            put_file(os.path.join(folder, "p"), before + text_of(row[key]) + after)
    if row.get("events", "[]") is not None:
        put_file(os.path.join(folder, "e"), text_of(row.get("events", "[]")))
    for number in row.get("reads", []):
        # The nth file that is read is the nth that is named after the command.
        name = (row.get("words", []) + ["", "", ""])[number]
        if name in ("p", "e"):
            with contextlib.suppress(FileNotFoundError):
                os.remove(os.path.join(folder, name))
            os.mkdir(os.path.join(folder, name))
    if row.get("kept"):
        with contextlib.closing(sqlite3.connect(os.path.join(folder, "imagen.db"))) as sessions, sessions:
            sessions.execute(TABLE)
            for name, version, text in row["kept"]:
                content = text_of(text)
                sessions.execute("INSERT INTO kept VALUES(?, ?, ?, ?)", (name, version, len(content), content))


def kept_text(folder):
    """The rows that are kept, a line each."""
    path = os.path.join(folder, "imagen.db")
    if not os.path.isfile(path):
        return b""
    with contextlib.closing(sqlite3.connect(path)) as sessions:
        rows = sessions.execute("SELECT name, version, bytes FROM kept ORDER BY name, version").fetchall()
    return b"".join(b"%s %d %s\n" % (name.encode(), version, content) for name, version, content in rows)


def narrow(room):
    """Before the program: no file may become longer."""
    return lambda: resource.setrlimit(resource.RLIMIT_FSIZE, (room, room))


def run(program, row):
    """How the command of a row ends: the status, what was written to the output and to the notes, and what is kept then."""
    with tempfile.TemporaryDirectory() as folder, tempfile.TemporaryDirectory() as outside:
        lay_out(row, folder)
        # Python has the signal of a file that is too long ignored, and so has the program then: its writes fail.
        limit = {"preexec_fn": narrow(row.get("room", ROOM)), "restore_signals": False} if row.get("status") == 5 else {}
        with open(os.path.join(outside, "text"), "w+b") as text, open(os.path.join(outside, "note"), "w+b") as note:
            status = subprocess.run([program, *row.get("words", [])], cwd=folder, stdin=subprocess.DEVNULL, stdout=text, stderr=note,
                                    timeout=SECONDS, **limit).returncode
            text.seek(0)
            note.seek(0)
            return status, text.read(), note.read(), kept_text(folder)


def difference(program, row):
    """What is otherwise than the row says, or None."""
    wanted = row.get("status", 0), *(text_of(row.get(key, "")) for key in ("text", "note", "rows"))
    try:
        found = run(program, row)
    except subprocess.TimeoutExpired:
        return f"does not end in {SECONDS} seconds"
    for name, one, other in zip(("status", "text", "note", "rows"), wanted, found):
        if one != other:
            return f"{name}: wanted {str(one)[:300]}, found {str(other)[:300]}"
    return None


def rows_of(name):
    with open(os.path.join(DATA, name), encoding="utf-8") as file:
        return [(name, number, json.loads(line)) for number, line in enumerate(file.read().split("\n"), 1) if line]


def file_names():
    return sorted(name for name in os.listdir(DATA) if name.endswith(".rows"))


def differences(program, names):
    """The rows of these files that end otherwise, each with its file, its number and how."""
    rows = [it for name in names for it in rows_of(name) if is_of_systems(it[2])]
    # What is set before a program begins is not for several threads.
    narrowed = [it for it in rows if it[2].get("status") == 5]
    others = [it for it in rows if it[2].get("status") != 5]
    with concurrent.futures.ThreadPoolExecutor(os.cpu_count()) as threads:
        ends = list(threads.map(lambda it: difference(program, it[2]), others))
    for (name, number, _), end in [*zip(others, ends), *((it, difference(program, it[2])) for it in narrowed)]:
        if end:
            yield name, number, end


def main(words):
    if not words or words[0].startswith("-"):
        print(__doc__)
        return 0 if words and words[0] in ("-h", "--help") else 2
    names = [os.path.basename(name) for name in words[1:]] or file_names()
    found = list(differences(os.path.abspath(words[0]), names))
    for name, number, end in found:
        print(f"{name} {number}: {end}")
    left = collections.Counter(is_of_systems(row) for name in names for _, _, row in rows_of(name))
    print(f"rows: {left[True]} run, {len(found)} differ, {left[False]} left to the crate rows")
    return 1 if found else 0


if __name__ == "__main__":
    sys.exit(main(sys.argv[1:]))
