#!/usr/bin/env python3
"""Makes the table of pages in crates/tables/data: each page with how it is read, by a reader of its own.

The reader is written from the rules of pages alone, by regular expressions, and shares no code with page_reader. A row is a page, a
tab and its reading: `not utf8`, `not page`, or `page` with the document's text, and for each script its place in the bytes and its text.
"""
import os
import re
import sys

sys.dont_write_bytecode = True
sys.path.insert(0, os.path.join(os.path.dirname(os.path.dirname(os.path.abspath(__file__))), "tools"))
import command_words

VOID = set("area base br col embed hr img input link meta param source track wbr".split())
REFUSED = set("frame frameset iframe noembed noframes noscript plaintext template xmp".split())
NAMED = {"amp": "&", "lt": "<", "gt": ">", "quot": '"', "apos": "'", "nbsp": "\u00a0"}
SPACE = "[\t\n\f ]"
NAME = "[A-Za-z_:][A-Za-z0-9_:.-]*"
VALUE = "\"([^\"]*)\"|'([^']*)'|([^\t\n\f \"'=<>`]+)"
ATTRIBUTE = re.compile(f"{SPACE}+({NAME})(?:{SPACE}*=({SPACE}*(?:{VALUE})?))?")


class NotPage(Exception):
    pass


def folded(name):
    return "".join(c.lower() if "A" <= c <= "Z" else c for c in name)


def decoded(text):
    def one(match):
        whole = match.group(0)
        if whole.startswith("&#"):
            number = re.fullmatch(r"&#(?:x([0-9a-fA-F]+)|([0-9]+));", whole)
            if not number:
                raise NotPage
            value = int(number[1], 16) if number[1] else int(number[2])
            if value == 0 or 128 <= value <= 159 or 0xD800 <= value <= 0xDFFF or value > 0x10FFFF:
                raise NotPage
            return chr(value)
        if whole.endswith(";"):
            if whole[1:-1] not in NAMED:
                raise NotPage
            return NAMED[whole[1:-1]]
        return whole
    return re.sub(r"&#[xX]?[0-9a-fA-F]*;?|&[A-Za-z0-9]+;?", one, text)


class Reader:
    def __init__(self, text, places):
        self.text, self.places, self.at = text, places, 0
        self.scripts = []

    def take(self, pattern, flags=0):
        match = re.compile(pattern, flags).match(self.text, self.at)
        if match:
            self.at = match.end()
        return match

    def tag(self):
        """A start tag: its name, its attributes and whether it is closed; or None."""
        match = re.compile("<([A-Za-z][A-Za-z0-9_:.-]*)").match(self.text, self.at)
        if not match:
            return None
        self.at = match.end()
        tag_name = folded(match[1])
        attributes = {}
        while True:
            match = ATTRIBUTE.match(self.text, self.at)
            if not match:
                break
            self.at = match.end()
            name = folded(match[1])
            if name.startswith("on"):
                raise NotPage
            value = ""
            if match[2] is not None:
                found = [g for g in match.groups()[2:] if g is not None]
                if not found:
                    raise NotPage
                value = decoded(found[0])
            attributes.setdefault(name, value)
        end = self.take(f"{SPACE}*(/?)>")
        if not end:
            raise NotPage
        return tag_name, attributes, end[1] == "/"

    def element(self):
        name, attributes, closed = self.tag()
        if name in REFUSED or closed and name not in VOID:
            raise NotPage
        if name == "script":
            kind = folded(attributes.get("type", ""))
            if "src" in attributes or kind not in ("", "text/javascript", "application/javascript"):
                raise NotPage
        children = []
        if name in VOID:
            return ("element", name, attributes, children)
        if name in ("script", "style"):
            end = re.compile(f"</{name}(?=[\t\n\f />])", re.I).search(self.text, self.at)
            if not end:
                raise NotPage
            raw, start, self.at = self.text[self.at:end.start()], self.at, end.end()
            if not self.take(f"{SPACE}*>"):
                raise NotPage
            if name == "script":
                self.scripts.append((self.places[start], self.places[end.start()], raw))
            elif raw:
                children.append(("text", raw))
            return ("element", name, attributes, children)
        self.content(name, children)
        return ("element", name, attributes, children)

    def content(self, name, children):
        while True:
            end = self.take(f"</({NAME}){SPACE}*>")
            if end:
                if folded(end[1]) != name:
                    raise NotPage
                return
            run = self.take("[^<]+")
            if run:
                value = decoded(run[0])
                if not (name == "html" and re.fullmatch(f"{SPACE}*", value)):
                    children.append(("text", value))
                continue
            comment = self.take("<!--(.*?)-->", re.S)
            if comment:
                children.append(("comment", comment[1]))
            elif re.compile("<[A-Za-z]").match(self.text, self.at):
                children.append(self.element())
            else:
                raise NotPage

    def page(self):
        doctype = False
        while True:
            if self.take(f"{SPACE}+") or self.take("<!--(.*?)-->", re.S):
                continue
            if not doctype and self.take("<!doctype[^>]*>", re.I):
                doctype = True
                continue
            break
        if not re.compile("<html(?![A-Za-z0-9_:.-])", re.I).match(self.text, self.at):
            raise NotPage
        root = self.element()
        while self.take(f"{SPACE}+") or self.take("<!--(.*?)-->", re.S):
            pass
        if self.at != len(self.text):
            raise NotPage
        return root


def dom_text(node):
    def calm(text, quote):
        text = text.replace("&", "&amp;").replace("<", "&lt;")
        return text.replace('"', "&quot;") if quote else text.replace(">", "&gt;")
    kind = node[0]
    if kind == "text":
        return calm(node[1], False)
    if kind == "comment":
        return f"<!--{node[1]}-->"
    _, name, attributes, children = node
    text = "<" + name + "".join(f' {key}="{calm(value, True)}"' for key, value in attributes.items()) + ">"
    if name in VOID:
        return text
    return text + "".join(dom_text(child) for child in children) + f"</{name}>"


def line_text(text):
    out = []
    for c in text:
        code = ord(c)
        out.append("\\\\" if c == "\\" else f"\\u{code:04X}" if code < 32 or 127 <= code < 160 else c)
    return "".join(out)


def reading(data):
    try:
        text = data.decode("utf-8")
    except UnicodeDecodeError:
        return "not utf8"
    if "\0" in text:
        return "not page"
    at = 0
    if text.startswith("\ufeff"):
        text, at = text[1:], 3
    lines, places, k = [], [], 0
    while k < len(text):
        size = len(text[k].encode())
        places.append(at)
        if text[k:k + 2] == "\r\n":
            lines.append("\n")
            k, at = k + 2, at + 2
        else:
            lines.append("\n" if text[k] == "\r" else text[k])
            k, at = k + 1, at + size
    places.append(at)
    reader = Reader("".join(lines), places)
    try:
        root = reader.page()
    except NotPage:
        return "not page"
    return "page " + line_text(dom_text(root)) + "".join(f" {a}-{b} " + line_text(s) for a, b, s in reader.scripts)


def html(inner):
    return b"<html>" + inner + b"</html>"


def pages():
    ok = [b"", b"<html></html>", b"<html>", b"<html", b"<html></html", b"<html></htm>", b"<html></html >", b"<HTML></Html>",
          b"\xef\xbb\xbf<html></html>", b"\xef\xbb\xbf\xef\xbb\xbf<html></html>", b"<html></html>\xff", b"<html>\xc3</html>",
          b" \t\f\n\r<html></html>\r\n", b"\x0b<html></html>", b"x<html></html>", b"<html></html>x", b"<html></html>&#32;",
          b"<!doctype html><html></html>", b"<!DOCTYPE a b><html></html>", b"<!doctype a><!doctype a><html></html>",
          b"<html></html><!doctype a>", b"<!doctype a", b"<!-- a --><html></html><!-- b -->", b"<!--><html></html>",
          b"<!--><html>--><html></html>", b"<!--a--!><html></html>", b"<html></html><html></html>", b"<p></p>", b"<html/>", b"<htmlx></htmlx>",
          b" <!doctype html>\n<!--a--><HTML><body> x </body>\n</HTML> <!--b-->\n", b"<html></html><p></p>", b"<html></html><!doctype html>",
          b"<!doctype a><!doctype b><html></html>", b"&#32;<html></html>", b"<html></html>\r\n", b"<html>\xff</html>",
          b"\xef\xbb\xbf\r\n<html><script></script>\r<script>\n</script></html>"]
    inner = [b"\0", b"a\r\nb\rc\n\n", b" \t\n", b"&#32;&#9;", b" a ", b"<body> </body>", b"<p>&nbsp;</p>", b"<br>", b"<br/>", b"<br />",
             b"<br/ >", b"<br></br>", b"</br>", b"<b/>", b"<b></i>", b"<b><i></b></i>", b"<b></B >", b"< b></b>", b"<b", b"<b></b", b"<1></1>",
             b"<a:b-c.d_e></A:B-c.d_e>", b"<_a></_a>", b"<!doctype a>", b"<!a>", b"<!--a-b--c-->", b"<!---->", b"<!-->-->", b"<!--a",
             b"<b a></b>", b"<b a=1 A=2></b>", b"<b a = '1\"' b=\"2'\"></b>", b"<b a=\"1\"b=2></b>", b"<b a=1=2></b>", b"<b a=></b>",
             b"<b a=1`></b>", b"<b a='1></b>", b"<b a=/></b>", b"<b a=&lt;&#65;&#x42;></b>", b"<b a=&x;></b>", b"<b on=1></b>", b"<b ONa></b>",
             b"<b o n></b>", b"<b 1=2></b>", b"&amp;&lt;&gt;&quot;&apos;&nbsp;", b"&AMP;", b"&copy;", b"& &; &a &a b;", b"&#65;&#x41;&#x1F600;",
             b"&#X41;", b"&#0;", b"&#127;&#160;", b"&#128;", b"&#159;", b"&#xD800;", b"&#1114112;", b"&#;", b"&#x;", b"&#a", b"&#00065;",
             b"<script>a<b</script>", b"<script></scripty></script>", b"<script></SCRIPT\t>", b"<script></script/>", b"<script></script x>",
             b"<script><!--<script></script>", b"<script/>", b"<script src=a></script>", b"<script type=''></script>",
             b"<script type=Text/JavaScript>\r\n\xc3\xa9\r</script>x<script type=application/javascript>2</script>", b"<script type=module></script>",
             b"<style>a<b &amp;</style>", b"<style></style>", b"<style></script></style >", b"<title>a<b>c</b></title>",
             b"<textarea>&lt;<!--a--></textarea>", b"<p id=a ID=b><b>1</b>2<!--c--></p>", b"<br><img/>t", b"<p>&#32;</p>",
             b"<script>a<b</script><style>b{}</style>", b"<script type='Text/JavaScript'></script>", b"<b onclick=a></b>", b"<b ONx></b>",
             b"<p>a\r\nb\rc\r\r\n</p>", b"<p>\xc3\xa9\xe2\x82\xac\xf0\x9f\x98\x80</p>\r\n<script>\r\na\r</script>",
             b"a b", b" \n\t\f<i>&#32;</i>", b"<P a=1>x</p >", b"<!--a--b-->", b"<br/><br />", b"<a  B = 'x\"y' c d=\"&lt;\" b></a>",
             b"<script>a</scripty></SCRIPT ><style>&amp;</style>", b"&&; &#65;&#x1F600;&nbsp;&am p;", b"<", b"< a></a>", b"<1>", b"<!>", b"<!-",
             b"<!--->", b"<!-- --", b"<!doctype", b"</a", b"</ a>", b"</1>", b"<a", b"<a b='></a>", b"<a b=></a>", b"<a b==c></a>",
             b"<a b=`c></a>", b"<a 'b'></a>", b"<a b='1'c></a>", b"<a /b></a>", b"&foo;", b"&#x110000;", b"&#65", b"&#99999999999;",
             b"<script>", b"<script></script", b"<style></script>", b"<a b=&x;></a>"]
    inner += [b"<%s></%s>" % (name.encode(), name.encode()) for name in sorted(REFUSED)]
    marked = [b"<!--imagen 1--><html><script>'use strict';\n1</script></html>",
              b"\xef\xbb\xbf<html><body></body><script>'use strict';\r\n1</script></html>",
              b"\xef\xbb\xbf<html>\r\n<script>\r\na</script>\xc3\xa9<SCRIPT ></script ></html>"]
    return ok + [html(it) for it in inner] + marked


def main():
    command_words.or_help(__doc__)
    rows = []
    for data in pages():
        source = "".join(chr(b) if 32 <= b < 127 and b != 92 else f"\\x{b:02x}" for b in data)
        rows.append(source + "\t" + reading(data) + "\n")
    top = os.path.dirname(os.path.dirname(os.path.abspath(__file__)))
    with open(os.path.join(top, "crates/tables/data/pages.rows"), "w", encoding="utf-8") as file:
        file.writelines(rows)
    print(len(rows))


main()
