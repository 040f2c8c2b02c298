"""Where a page breaks the rules of pages (docs/PROFILE.md): a reader that stops at the first place at which it cannot go on, and says why."""
import re

VOID = set("area base br col embed hr img input link meta param source track wbr".split())
REFUSED = set("frame frameset iframe noembed noframes noscript plaintext template xmp".split())
NAMED = set("amp lt gt quot apos nbsp".split())
TYPES = ("", "text/javascript", "application/javascript")
SPACE = re.compile(r"[\t\n\f ]*")
TAG_NAME = re.compile(r"[A-Za-z][A-Za-z0-9_:.-]*")
ATTRIBUTE_NAME = re.compile(r"[A-Za-z_:][A-Za-z0-9_:.-]*")
BARE_VALUE = re.compile(r"[^\t\n\f \"'=<>`]+")
REFERENCE = re.compile(r"&(?:#[xX]?[0-9A-Za-z]*;?|[A-Za-z0-9]+;)")
NUMBER = re.compile(r"&#(?:x([0-9a-fA-F]+)|([0-9]+));")


class Fault(Exception):
    """What is wrong, and at which character."""

    def __init__(self, at, text):
        super().__init__(text)
        self.at, self.text = at, text


def place(text, at):
    """The line and the column of a character, both from 1."""
    return text.count("\n", 0, at) + 1, at - text.rfind("\n", 0, at)


class Page:
    """Reads a page; `scripts` are the places and texts of the scripts that were met."""

    def __init__(self, text):
        self.text, self.at, self.scripts = text, 0, []

    def sees(self, what):
        return self.text.startswith(what, self.at)

    def take(self, pattern):
        match = pattern.match(self.text, self.at)
        self.at = match.end() if match else self.at
        return match and match.group()

    def line(self, at):
        return place(self.text, at)[0]

    def comment(self):
        end = self.text.find("-->", self.at + 4)
        if end < 0:
            raise Fault(self.at, "this comment has no -->")
        self.at = end + 3

    def outside(self, may_have_doctype):
        """What stands before and after html."""
        while True:
            self.take(SPACE)
            if self.sees("<!--"):
                self.comment()
            elif may_have_doctype and self.text[self.at:self.at + 9].lower() == "<!doctype":
                may_have_doctype = False
                end = self.text.find(">", self.at)
                if end < 0:
                    raise Fault(self.at, "this doctype has no >")
                self.at = end + 1
            else:
                return

    def read(self):
        """Reads the whole page, or raises Fault."""
        if "\0" in self.text:
            raise Fault(self.text.index("\0"), "the character U+0000 stands in no page")
        self.outside(True)
        if self.text[self.at:self.at + 5].lower() != "<html":
            raise Fault(self.at, "a page is one element html, and before it only comments and one doctype: here <html> is missing")
        self.elements()
        self.outside(False)
        if self.at < len(self.text):
            raise Fault(self.at, "after </html> only white space and comments may stand")

    def elements(self):
        """Reads an element with all in it. Those that are open are a list, since pages may be deep."""
        opened = []
        self.start_tag(opened)
        while opened:
            if self.at == len(self.text):
                at, name = opened[-1]
                raise Fault(at, f"<{name}> is not closed: </{name}> is missing")
            if self.sees("<!--"):
                self.comment()
            elif self.sees("</"):
                self.end_tag(opened)
            elif self.sees("<"):
                self.start_tag(opened)
            else:
                end = self.text.find("<", self.at)
                end = len(self.text) if end < 0 else end
                self.references(self.at, end)
                self.at = end

    def references(self, start, end):
        for match in REFERENCE.finditer(self.text, start, end):
            whole = match.group()
            if not whole.startswith("&#") and whole[1:-1] not in NAMED:
                raise Fault(match.start(), f"{whole} is no reference that is known: those by name are &{'; &'.join(sorted(NAMED))};")
            number = NUMBER.fullmatch(whole)
            if whole.startswith("&#") and not number:
                raise Fault(match.start(), f"{whole} is no reference: these are &#65; and &#x41;")
            if number:
                value = int(number[1], 16) if number[1] else int(number[2])
                if value == 0 or 128 <= value <= 159 or 0xD800 <= value <= 0xDFFF or value > 0x10FFFF:
                    raise Fault(match.start(), f"{whole} is no character")

    def end_tag(self, opened):
        start = self.at
        self.at += 2
        name = (self.take(TAG_NAME) or "").lower()
        self.take(SPACE)
        if not name or not self.sees(">"):
            raise Fault(start, "this is no end tag: it is </, a name and >")
        if name in VOID:
            raise Fault(start, f"<{name}> has no content, so there is no </{name}>")
        at, wanted = opened.pop()
        if name != wanted:
            line, column = place(self.text, at)
            raise Fault(start, f"</{name}> stands where <{wanted}> of line {line}, column {column} is still open: </{wanted}> is missing, or </{name}> is too much")
        self.at += 1

    def start_tag(self, opened):
        start = self.at
        self.at += 1
        name = (self.take(TAG_NAME) or "").lower()
        if not name:
            raise Fault(start, "this < begins no tag: in text it is written &lt;")
        if name in REFUSED:
            raise Fault(start, f"<{name}> is not among the elements of a page")
        attributes = self.attributes(start, name)
        if self.sees("/>"):
            if name not in VOID:
                raise Fault(self.at, f"<{name}> needs an end tag: / closes only {', '.join(sorted(VOID))}")
            self.at += 1
        self.at += 1
        if name == "script":
            self.look_at_script(attributes)
        if name in ("script", "style"):
            self.raw(start, name)
        elif name not in VOID:
            opened.append((start, name))

    def attributes(self, start, tag):
        """The attributes, up to the > or />, each with its place and value."""
        found = {}
        while True:
            before = self.at
            self.take(SPACE)
            if self.sees(">") or self.sees("/>"):
                return found
            if self.at == len(self.text):
                raise Fault(start, f"the tag <{tag} has no >")
            at = self.at
            name = (self.take(ATTRIBUTE_NAME) or "").lower()
            if not name:
                raise Fault(at, f"{self.text[at]} begins no attribute of <{tag}>")
            if before == at:
                raise Fault(at, "before an attribute stands white space")
            if name.startswith("on"):
                raise Fault(at, f"the attribute {name} is refused: write addEventListener in a script")
            found.setdefault(name, (at, self.value(at, name)))

    def value(self, at, name):
        back = self.at
        self.take(SPACE)
        if not self.sees("="):
            self.at = back
            return ""
        self.at += 1
        self.take(SPACE)
        quote = self.text[self.at:self.at + 1]
        start = self.at
        if quote in ('"', "'"):
            end = self.text.find(quote, start + 1)
            if end < 0:
                raise Fault(start, f"the value of {name} is not closed: {quote} is missing")
            start, self.at = start + 1, end + 1
        elif self.take(BARE_VALUE):
            end = self.at
        else:
            raise Fault(at, f"the attribute {name} has = and no value")
        self.references(start, end)
        return self.text[start:end]

    def look_at_script(self, attributes):
        if "src" in attributes:
            raise Fault(attributes["src"][0], "a script stands in the page itself: src is refused")
        at, kind = attributes.get("type", (0, ""))
        if kind.lower() not in TYPES:
            raise Fault(at, f"a script of type {kind} is refused: there is text/javascript, and modules are not of the language")

    def raw(self, start, name):
        end = re.compile(f"</{name}(?=[\t\n\f />])", re.I).search(self.text, self.at)
        if not end:
            raise Fault(start, f"<{name}> is not closed: </{name}> is missing")
        if name == "script":
            self.scripts.append((self.at, self.text[self.at:end.start()]))
        self.at = end.end()
        self.take(SPACE)
        if not self.sees(">"):
            raise Fault(end.start(), f"after </{name} stands >")
        self.at += 1
