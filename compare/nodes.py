#!/usr/bin/env python3
"""Runs the rows of crates/tables/data/nodes.rows on Python's minidom, and compares the text that is left. Prints the rows that
differ and how many there are; the status is 1 where one differs. Minidom does not look for ancestors, so these are looked for here;
a node before itself is left out."""
import os
import sys
import xml.dom
from xml.dom import minidom

sys.dont_write_bytecode = True
sys.path.insert(0, os.path.join(os.path.dirname(os.path.dirname(os.path.abspath(__file__))), "tools"))
import command_words

SOURCE = os.path.join(os.path.dirname(os.path.abspath(__file__)), "../crates/tables/data/nodes.rows")
VOID = "area base br col embed hr img input link meta param source track wbr".split()


def rows():
    with open(SOURCE, encoding="utf-8") as file:
        return file.read().splitlines()


def is_above(node, other):
    while other is not None:
        if other is node:
            return True
        other = other.parentNode
    return False


def place(verb, parent, child, before):
    try:
        if verb == "empty":
            while parent.firstChild:
                parent.removeChild(parent.firstChild)
        elif verb == "cut":
            parent.removeChild(child)
        elif verb == "swap":
            return swap(parent, child, before)
        elif child is before:
            return None
        elif is_above(child, parent):
            return "hierarchy"
        else:
            if before is not None and before.parentNode is not parent:
                # Minidom takes the child out before it looks for the reference.
                if child.nodeType not in parent._child_node_types:
                    return "hierarchy"
                return "missing"
            parent.insertBefore(child, before)
        return "ok"
    except xml.dom.HierarchyRequestErr:
        return "hierarchy"
    except xml.dom.NotFoundErr:
        return "missing"


def swap(parent, child, old):
    """Replaces the old node by minidom's own call, once the rules on ancestors and on the document are judged, which it lacks."""
    others = [it for it in parent.childNodes if it not in (child, old) and it.nodeType == it.ELEMENT_NODE]
    misplaced = parent.nodeType == parent.DOCUMENT_NODE and child.nodeType == child.ELEMENT_NODE and others
    if child.nodeType not in getattr(parent, "_child_node_types", ()) or is_above(child, parent) or misplaced:
        return "hierarchy"
    if old.parentNode is not parent:
        # Minidom takes the child out before it looks for the old node.
        return "missing"
    parent.replaceChild(child, old)
    return "ok"


def line_of(node):
    """The numbers of the nodes above, with commas after them."""
    up = node.parentNode
    return "." if up is None else "%d,%s" % (up.number, line_of(up))


def found(document, id):
    """The number of the first element of this id, in the order of the document."""
    inside = [node for node in document.getElementsByTagName("*") if node.getAttribute("id") == id]
    return str(inside[0].number) if inside else "none"


def text_of(node):
    if node.nodeType == node.TEXT_NODE:
        return node.data
    return "".join(map(text_of, node.childNodes))


def step(document, nodes, line):
    verb, _, rest = line.partition(" ")
    words = rest.split(" ", 2) + ["", ""]
    if verb in "etc":
        if verb == "e" and not rest[0].isalpha():
            return "name"
        make = {"e": document.createElement, "t": document.createTextNode, "c": document.createComment}[verb]
        nodes.append(make(rest.lower() if verb == "e" else rest))
        nodes[-1].number = len(nodes) - 1
        return "ok"
    if verb in ("set", "unset"):
        if verb == "set" and not words[1][0].isalpha():
            return "name"
        if verb == "set":
            nodes[int(words[0])].setAttribute(words[1].lower(), words[2])
        elif nodes[int(words[0])].hasAttribute(words[1].lower()):
            nodes[int(words[0])].removeAttribute(words[1].lower())
        return "ok"
    if verb == "find":
        return found(document, rest)
    if verb == "text":
        return text_of(nodes[int(rest)])
    if verb == "line":
        return line_of(nodes[int(rest)])
    if verb == "child":
        named = [it for it in nodes[int(words[0])].childNodes if it.nodeName == words[1]]
        return str(named[0].number) if named else "none"
    before = None if words[2] in ("-", "") else nodes[int(words[2])]
    return place(verb, nodes[int(words[0])], nodes[int(words[1] or 0)], before)


def shown(node):
    if node.nodeType == node.DOCUMENT_NODE:
        return "".join(map(shown, node.childNodes))
    if node.nodeType == node.TEXT_NODE:
        return node.data.replace("&", "&amp;").replace("<", "&lt;").replace(">", "&gt;")
    if node.nodeType == node.COMMENT_NODE:
        return "<!--" + node.data + "-->"
    escape = lambda v: v.replace("&", "&amp;").replace("<", "&lt;").replace('"', "&quot;")
    start = "<" + node.tagName + "".join(' %s="%s"' % (k, escape(v)) for k, v in node.attributes.items()) + ">"
    end = "" if node.tagName in VOID and not node.childNodes else "</%s>" % node.tagName
    return start + "".join(map(shown, node.childNodes)) + end


command_words.or_help(__doc__)
differing = 0
for row in rows():
    steps, wanted = row.split("\t")
    ends, left = wanted.split(" | ")
    document = minidom.Document()
    document.number = 0
    nodes = [document]
    got = [step(document, nodes, line) for line in steps.split("; ")]
    same = all(g is None or g == w for g, w in zip(got, ends.split(" "))) and len(got) == len(ends.split(" "))
    if not same or shown(document) != left:
        differing += 1
        print(row, "\n  here:", " ".join(map(str, got)), "|", shown(document))
print(len(rows()), "rows,", differing, "differ")
sys.exit(differing != 0)
