#!/usr/bin/env python3
"""memory.py PROGRAM

Shows how much memory `check` takes at most for scripts of 1,500,000 characters, and of two and four times as many: ordinary
statements, functions, short statements, and empty ones, which have as many tokens and statements as characters. The last column stays
about the same where memory is in proportion.
"""
import os
import subprocess
import sys
import tempfile

sys.dont_write_bytecode = True
sys.path.insert(0, os.path.join(os.path.dirname(os.path.dirname(os.path.abspath(__file__))), "tools"))
import command_words

SIZES = [1_500_000, 3_000_000, 6_000_000]
KINDS = {
    "statements": lambda k: f"var item{k % 1000} = count + other.value({k % 97});\n",
    "functions": lambda k: f"function f{k}(a, b) {{ var c = a + b * {k % 97}; if (c > 10) {{ return c - 1; }} return b; }}\n",
    "short": lambda k: "a=1;",
    "empty": lambda k: ";",
}


def script(piece, size):
    """Pieces that have so many characters or a few more."""
    pieces, length = [], 0
    while length < size:
        pieces.append(piece(len(pieces)))
        length += len(pieces[-1])
    return "".join(pieces)


def peak(program, page):
    """The most memory, in bytes, that `check` of the page took, and what it wrote."""
    child = subprocess.Popen([program, "check", page], stdout=subprocess.PIPE, text=True)
    written = child.stdout.read()
    _, _, used = os.wait4(child.pid, 0)
    return used.ru_maxrss * 1024, written.strip()


def main():
    program = command_words.program(__doc__)
    with tempfile.TemporaryDirectory() as folder:
        page = os.path.join(folder, "page.html")

        def measured(text):
            with open(page, "w", encoding="utf-8") as file:
                file.write(f'<html><script>"use strict";{text}</script></html>')
            return peak(program, page)

        print("kind         characters   MB      bytes each   answer")
        for kind, piece in KINDS.items():
            for size in SIZES:
                text = script(piece, size)
                most, written = measured(text)
                print(f"{kind:12} {len(text):10}   {most / 1e6:7.1f}   {most / len(text):7.1f}      {written}")


if __name__ == "__main__":
    main()
