"""Random pages of everything that pages may have: nodes, attributes, listeners, events, dispatches, timers, closures and objects that refer to each
other, with their events. They are made of the parts that random_pages.py makes, and reach beyond what node has."""
from random_pages import FIELDS, Page

# Names of properties that hold any value, apart from FIELDS, which hold numbers.
LINKS = ["p", "q", "u", "w"]
TYPES = ["click", "go", "input", "x", ""]
TAGS = ["p", "div", "ul", "li", "button", "input", "textarea", "br", "script"]
ATTRIBUTES = ["id", "class", "title", "value", "data-x", "ID"]
# Prints all that can be reached from the globals by properties, prototypes and the parts of nodes and events, each object by its place in the order
# of being met: so pages that print the same have the same objects, but for what closures hold and who listens.
LOOK = r"""
function look() {
    var seen = [Object.prototype, Array.prototype, Function.prototype, Error.prototype, TypeError.prototype, RangeError.prototype,
        ReferenceError.prototype, Node.prototype, Event.prototype, window, Object, Array, Error, TypeError];
    var parts = ["parentNode", "firstChild", "lastChild", "nextSibling", "previousSibling", "nodeName", "nodeValue", "id", "className", "value",
        "type", "target", "currentTarget", "eventPhase", "bubbles", "cancelable"];
    var first = seen.length, at, name, i, k, o, names, d, texts;
    function show(v) {
        var place;
        if (v === null || typeof v !== "object" && typeof v !== "function") {
            return typeof v + " " + v;
        }
        place = seen.indexOf(v);
        if (place < 0) {
            place = seen.length;
            seen.push(v);
        }
        return "#" + place;
    }
    for (name in window) {
        console.log(name, show(window[name]));
    }
    show(document);
    for (at = first; at < seen.length && at < 200; at++) {
        o = seen[at];
        texts = ["#" + at, typeof o, Array.isArray(o), show(Object.getPrototypeOf(o)), Object.isExtensible(o)];
        names = Object.getOwnPropertyNames(o);
        for (i = 0; i < names.length; i++) {
            d = Object.getOwnPropertyDescriptor(o, names[i]);
            texts.push(names[i] + "=" + show(d.value) + (d.writable ? "w" : "") + (d.enumerable ? "e" : "") + (d.configurable ? "c" : ""));
        }
        for (k = 0; k < parts.length; k++) {
            if (parts[k] in o && !Object.prototype.hasOwnProperty.call(o, parts[k])) {
                texts.push(parts[k] + ":" + show(o[parts[k]]));
            }
        }
        console.log(texts.join(" "));
    }
}
"""
# Dispatches a new event, at most three inside one another.
SEND = r"""
var deep = 0;
function send(n, t, b, c) {
    var e;
    if (deep > 2) {
        return false;
    }
    deep = deep + 1;
    try {
        e = document.createEvent("Event");
        e.initEvent(t, b, c);
        return n.dispatchEvent(e);
    } finally {
        deep = deep - 1;
    }
}
"""
# Takes all steps of an event: in a listener while an event is under dispatch, or in a timer.
SPIN = r"""
function spin() {
    kept = document.createEvent("Event");
    kept.initEvent("spin", true, true);
    document.addEventListener("spin", function (e) {
        while (true) {
            e.turns = e.turns + 1;
        }
    }, true);
    document.body.dispatchEvent(kept);
}
setTimeout(function () {
    var n = 0;
    while (true) {
        n++;
    }
}, 30);
"""


class WholePage(Page):
    """One random page, whose scopes also have names of nodes, events and functions without a name."""

    def __init__(self, seed):
        super().__init__(seed)
        self.ids = []
        self.fields = []
        self.inner = 0
        self.spins = self.r.random() < 0.01

    def names(self, kind):
        return [name for scope in self.scopes for name in scope.get(kind, [])]

    def add(self, kind, name):
        self.scopes[-1].setdefault(kind, []).append(name)
        return name

    def any_name(self, *kinds):
        names = [name for kind in kinds for name in self.names(kind)]
        return self.r.choice(names) if names else "null"

    # ---- markup

    def markup(self, d):
        parts = []
        for _ in range(self.r.randrange(1, 4)):
            pick = self.r.randrange(6)
            if pick == 0:
                parts.append(self.one("text", " a &amp; b ", "&lt;", " "))
            elif pick == 1:
                parts.append("<!--%s-->" % self.one("", "note", " - "))
            else:
                parts.append(self.element(d))
        return "".join(parts)

    def element(self, d):
        tag = self.one("p", "div", "ul", "button", "input", "textarea", "br")
        text = "<" + tag
        if self.r.random() < 0.7:
            self.ids.append("i%d" % len(self.ids))
            text += ' id="%s"' % self.ids[-1]
            if tag in ("input", "textarea"):
                self.fields.append(self.ids[-1])
        for name in ("class", "title", "value"):
            if self.r.random() < 0.2:
                text += ' %s="%s"' % (name, self.one("", "one two", "&quot;", "7"))
        if tag in ("input", "br"):
            return text + ">"
        inner = self.markup(d - 1) if d > 0 and tag != "textarea" else self.one("", "t")
        return "%s>%s</%s>" % (text, inner, tag)

    # ---- values

    def id_text(self):
        return self.r.choice(self.ids) if self.ids and self.r.random() < 0.9 else "nowhere"

    def node(self):
        """A node, or null where there is none."""
        pick = self.r.randrange(10)
        if pick < 4 and self.names("node"):
            return self.r.choice(self.names("node"))
        if pick < 7:
            return 'document.getElementById("%s")' % self.id_text()
        if pick == 7:
            return self.one("document", "document.body", "document.documentElement", "document.body.firstChild")
        if pick == 8 and self.names("node"):
            return "%s.%s" % (self.r.choice(self.names("node")), self.one("parentNode", "firstChild", "lastChild", "nextSibling", "previousSibling"))
        return self.new_node()

    def new_node(self):
        pick = self.r.randrange(5)
        if pick == 0:
            return "document.createTextNode(%s)" % self.text(1)
        if pick == 1:
            return 'document.createComment("%s")' % self.one("", "note", "- -")
        return 'document.createElement("%s")' % self.r.choice(TAGS)

    def event_type(self):
        return '"%s"' % self.r.choice(TYPES)

    def flag(self):
        return self.one("true", "false")

    def value(self):
        """Any value."""
        pick = self.r.randrange(8)
        if pick == 0:
            return self.one("null", "undefined", "NaN", "-1", '"\\u2028<\\/script>"', "9007199254740991")
        if pick == 1:
            return self.one(self.num(1), self.text(1), self.truth(1))
        if pick == 2:
            return self.node()
        if pick == 3:
            return self.one("{}", "[]", "[,1]", "window", "document", "Object.prototype", "Math", "[].push", "Node.prototype", 'new RangeError("r")', "new Error()")
        return self.any_name("object", "list", "node", "event", "closure", "function")

    def closure(self, body, formal="e"):
        """A function with variables of its own round it."""
        kept, seen = self.fresh("n"), self.fresh("v")
        self.scopes.append({"num": [kept], "text": [], "object": [], "list": []})
        loops, self.loops = self.loops, 0
        inner = body()
        self.loops = loops
        self.scopes.pop()
        name = self.one("", "", " " + self.fresh("g"))
        pick = self.r.randrange(4)
        if pick == 0:
            return "(function () {var %s = %s, %s = %s; return function%s(%s) {%s = (%s + 1) %% 1000;%s};})()" % (
                kept, self.num(0), seen, self.value(), name, formal, kept, kept, inner + "console.log(%s === %s, %s);" % (seen, self.value(), kept))
        if pick == 1:
            return "(function (%s) {return function%s(%s) {%s++;%s};})(%s)" % (kept, name, formal, kept, inner, self.num(0))
        if pick == 2:
            return "(function () {try {throw %s;} catch (%s) {return function%s(%s) {%s++;%s};}})()" % (self.num(0), kept, name, formal, kept, inner)
        return "function%s(%s) {var %s = %s;%s}" % (name, formal, kept, self.num(0), inner)

    def some_statements(self):
        self.inner += 1
        text = "".join(self.statement(1) for _ in range(self.r.randrange(1, 3)))
        self.inner -= 1
        return text

    def heard(self):
        """What a listener does."""
        label = self.fresh("h")
        text = 'console.log("%s", e.type, e.eventPhase, e.target === this, e.currentTarget === this, e.bubbles);' % label
        text += self.one("", "", "", "e.stopPropagation();", "e.preventDefault();", "throw %s;" % self.num(0), "kept = e;", 'e.initEvent("z", false, false);',
                         "e.%s = %s;" % (self.r.choice(LINKS), self.num(0)))
        return text + (self.some_statements() if self.r.random() < 0.5 else "")

    def listener(self):
        closures = self.names("closure")
        if closures and self.r.random() < 0.4:
            return self.r.choice(closures)
        return self.closure(self.heard) if self.inner < 2 else self.one("look", "t", "Object")

    def callback(self):
        closures = self.names("closure")
        if closures and self.r.random() < 0.3:
            return self.r.choice(closures)
        if self.inner >= 2:
            return self.one("t", "Object", "alert")
        return self.closure(lambda: 'console.log("%s");' % self.fresh("c") + self.some_statements(), "")

    # ---- statements

    def tree_change(self):
        pick = self.r.randrange(8)
        if pick < 2:
            name = self.fresh("d")
            return "var %s = %s;" % (self.add("node", name), self.node())
        if pick < 5:
            return "%s.appendChild(%s);" % (self.node(), self.node())
        if pick == 5:
            return "%s.insertBefore(%s, %s);" % (self.node(), self.node(), self.one("null", self.node()))
        if pick == 6:
            return "%s.replaceChild(%s, %s);" % (self.node(), self.node(), self.node())
        return "%s.removeChild(%s);" % (self.node(), self.node())

    def content_change(self):
        pick = self.r.randrange(7)
        if pick < 2:
            if self.r.random() < 0.5:
                self.ids.append("i%d" % len(self.ids))
            return '%s.setAttribute("%s", %s);' % (self.node(), self.r.choice(ATTRIBUTES), self.one('"%s"' % self.id_text(), self.text(1)))
        if pick == 2:
            return '%s.removeAttribute("%s");' % (self.node(), self.r.choice(ATTRIBUTES))
        if pick == 3:
            return "%s.%s = %s;" % (self.node(), self.one("id", "className", "value", "data", "nodeValue"), self.text(1))
        if pick == 4:
            return "%s.textContent = %s;" % (self.node(), self.one('""', self.text(1)))
        return "%s.%s = %s;" % (self.node(), self.r.choice(LINKS), self.value())

    def listening(self):
        pick = self.r.randrange(6)
        if pick == 0:
            name = self.fresh("f")
            made = self.closure(self.heard)
            return "var %s = %s;" % (self.add("closure", name), made)
        if pick == 1 and self.names("closure"):
            return "%s.removeEventListener(%s, %s, %s);" % (self.node(), self.event_type(), self.any_name("closure"), self.flag())
        return "%s.addEventListener(%s, %s, %s);" % (self.node(), self.event_type(), self.listener(), self.flag())

    def dispatching(self):
        pick = self.r.randrange(5)
        if pick < 2:
            return "console.log(send(%s, %s, %s, %s));" % (self.node(), self.event_type(), self.flag(), self.flag())
        name = self.fresh("e")
        text = 'var %s = document.createEvent("%s");' % (name, self.one("Event", "Events", "htmlevents"))
        if pick < 4:
            text += "%s.initEvent(%s, %s, %s);" % (name, self.event_type(), self.flag(), self.flag())
        if self.r.random() < 0.4 and self.inner == 0:
            text += "console.log(%s.dispatchEvent(%s));" % (self.node(), name)
        if self.r.random() < 0.5:
            text += "kept = %s;" % name
        self.add("event", name)
        return text

    def timing(self):
        pick = self.r.randrange(7)
        delay = str(self.r.randrange(1, 60))
        name = self.fresh("t")
        if pick < 2:
            made = "var %s = setTimeout(%s, %s);" % (name, self.callback(), delay)
        elif pick == 2:
            made = "var %s = setInterval(%s, %s);" % (name, self.callback(), str(self.r.randrange(5, 60)))
        elif pick == 3:
            made = "var %s = setIntervalFrom(%s, %s, %s);" % (name, self.callback(), delay, str(self.r.randrange(5, 60)))
        else:
            return "%s(%s);" % (self.one("clearTimeout", "clearInterval"), self.one(str(self.r.randrange(1, 6)), self.num(0)))
        self.add("num", name)
        return made + ("console.log(%s);" % name if self.r.random() < 0.3 else "")

    def linking(self):
        pick = self.r.randrange(9)
        owner = self.any_name("object", "list", "node", "event", "closure", "function")
        if pick < 3:
            return "%s.%s = %s;" % (owner, self.r.choice(LINKS), self.value())
        if pick == 3:
            marks = ", ".join('"%s": %s' % (mark, self.flag()) for mark in ("writable", "enumerable", "configurable") if self.r.random() < 0.6)
            return 'Object.defineProperty(%s, "%s", {%s"value": %s});' % (owner, self.r.choice(LINKS), marks + ", " if marks else "", self.value())
        if pick == 4:
            return "Object.%s(%s);" % (self.one("preventExtensions", "seal", "freeze"), owner)
        if pick == 5:
            name = self.fresh("o")
            return "var %s = Object.create(%s);" % (self.add("object", name), self.value())
        if pick == 6:
            name = self.fresh("b")
            return "var %s = %s.bind(%s, %s);" % (self.add("closure", name), self.any_name("closure", "function"), self.value(), self.value())
        if pick == 7:
            return "window.%s = %s;" % (self.one("m1", "m2", "m3"), self.value())
        return "delete %s.%s;" % (self.one(owner, "window"), self.one(self.r.choice(LINKS), "m1", "m2"))

    def telling(self):
        node = self.node()
        return self.one("console.log(%s, %s);" % (self.value(), node), "console.log(%s.textContent);" % node,
                        "console.log(kept && kept.type, kept && kept.eventPhase, kept && kept.currentTarget);", "console.log(%s.getAttribute(\"id\"));" % node)

    def host_statement(self):
        return self.one(self.tree_change, self.content_change, self.listening, self.dispatching, self.timing, self.linking, self.telling)()

    def guarded(self):
        return "try {%s} catch (x) {console.log(x && x.name, x && x.code);}" % self.host_statement()

    def statement(self, d):
        if self.r.random() < 0.5:
            return self.guarded() if self.r.random() < 0.8 else self.host_statement()
        return super().statement(d)

    def function(self):
        text = super().function()
        self.add("function", self.functions[-1])
        return text

    # ---- pages

    def page(self):
        """The text of a page: a body with elements, and one script or more."""
        body = self.markup(2)
        begun = self.script()[len('"use strict";'):] + "".join("\n" + self.guarded() for _ in range(self.r.randrange(4, 16)))
        scripts = [LOOK + SEND + 'var kept = null;function t() {console.log("t", this === window);}\n' + (SPIN if self.spins else "") + begun]
        for _ in range(self.r.choice((0, 0, 1, 2))):
            scripts.append("\n".join(self.statement(2) for _ in range(self.r.randrange(1, 4))))
        return "<html><body>%s</body>%s</html>" % (body, "".join('<script>"use strict";%s</script>' % text for text in scripts))

    def event(self):
        pick = self.r.randrange(10)
        if self.spins and pick > 7:
            return {"call": "spin"}
        if pick < 3:
            event = {"fire": self.r.choice(TYPES), "at": self.id_text()}
            for mark in ("bubbles", "cancelable"):
                if self.r.random() < 0.2:
                    event[mark] = False
            return event
        if pick == 3:
            return {"input": self.one("", "tea", "\"<&"), "at": self.r.choice(self.fields) if self.fields else self.id_text()}
        if pick < 6:
            return {"tick": self.r.randrange(0, 120)}
        if pick == 6:
            return {"dom": True}
        if pick == 7:
            return {"call": self.one("look", "t", "nowhere")}
        return {"call": self.r.choice(self.functions)}

    def events(self):
        """Events, the last of which shows the page."""
        return [self.event() for _ in range(self.r.randrange(10))] + [{"tick": 50}, {"dom": True}, {"call": "look"}]


assert not set(FIELDS) & set(LINKS)


if __name__ == "__main__":
    print(__doc__)
