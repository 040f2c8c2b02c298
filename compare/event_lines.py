#!/usr/bin/env python3
"""Answers the rows of crates/tables/data/events.rows by Python's own JSON reader, and prints them with its answers: they are to be
the same. It was written from the table of items alone, so that the two readings are compared.

    compare/event_lines.py < crates/tables/data/events.rows
"""
import json
import os
import sys

sys.dont_write_bytecode = True
sys.path.insert(0, os.path.join(os.path.dirname(os.path.dirname(os.path.abspath(__file__))), "tools"))
import command_words

DEEPEST = 127
MOST = 100000
LONGEST = 1000000000


class Float:
    """A number that is no integer of 64 bits."""


def integer(text):
    value = int(text)
    if text == "-0" or not -2**63 <= value < 2**64:
        return real(text)
    return value


def real(text):
    if abs(float(text)) == float("inf"):
        raise ValueError("out of range")
    return Float()


def constant(text):
    raise ValueError(text)


def depth(text):
    deepest, now, quoted, escaped = 0, 0, False, False
    for c in text:
        if escaped:
            escaped = False
        elif quoted:
            escaped, quoted = c == "\\", c != '"'
        elif c == '"':
            quoted = True
        elif c in "[{":
            now += 1
            deepest = max(deepest, now)
        elif c in "]}":
            now -= 1
    return deepest


def has_lone_surrogate(value):
    if isinstance(value, str):
        return any(0xD800 <= ord(c) <= 0xDFFF for c in value)
    if isinstance(value, list):
        return any(map(has_lone_surrogate, value))
    if isinstance(value, dict):
        return any(map(has_lone_surrogate, list(value) + list(value.values())))
    return False


def text(value):
    out = ""
    for c in value:
        n = ord(c)
        out += "\\\\" if c == "\\" else "\\u%04X" % n if n < 0x20 or 0x7F <= n < 0xA0 else c
    return out


def word(truth):
    return "true" if truth else "false"


def event(item):
    """The event as it is written, or None."""
    if not isinstance(item, dict):
        return None
    keys = set(item)
    if {"fire", "at"} <= keys <= {"fire", "at", "bubbles", "cancelable"}:
        flags = item.get("bubbles", True), item.get("cancelable", True)
        if isinstance(item["fire"], str) and isinstance(item["at"], str) and all(isinstance(f, bool) for f in flags):
            return "fire(%s,%s,%s,%s)" % (text(item["fire"]), text(item["at"]), word(flags[0]), word(flags[1]))
    if keys == {"input", "at"} and isinstance(item["input"], str) and isinstance(item["at"], str):
        return "input(%s,%s)" % (text(item["input"]), text(item["at"]))
    if keys == {"tick"} and type(item["tick"]) is int and 0 <= item["tick"] <= LONGEST:
        return "tick(%d)" % item["tick"]
    if keys == {"call"} and isinstance(item["call"], str):
        return "call(%s)" % text(item["call"])
    if keys == {"dom"} and item["dom"] is True:
        return "dom()"
    return None


def answer(line):
    try:
        value = json.loads(line, parse_int=integer, parse_float=real, parse_constant=constant)
    except (ValueError, RecursionError):
        return "refused 0"
    if depth(line) > DEEPEST or has_lone_surrogate(value) or not isinstance(value, list):
        return "refused 0"
    found = ["events"]
    for number, item in enumerate(value, 1):
        written = event(item)
        if number > MOST or written is None:
            return "refused %d" % number
        found.append(written)
    return " ".join(found)


command_words.or_help(__doc__)
for line in sys.stdin.buffer.read().decode().split("\n")[:-1]:
    asked = line.rpartition("\t")[0]
    sys.stdout.buffer.write((asked + "\t" + answer(asked) + "\n").encode())
