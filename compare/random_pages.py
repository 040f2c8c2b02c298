#!/usr/bin/env python3
"""random_pages.py PROGRAM [COUNT] [SEED]

Makes COUNT random pages (10,000), runs each under `PROGRAM replay` with calls of its functions as events, and in a context of node, and
compares the lines. Prints each page whose lines differ, and then how many were equal. A page keeps to what both mean alike: whole
numbers that stay in range, no division, no object that is made a primitive value, names of properties that are no numbers. Later editions give `concat`, `slice` and the array of `splice` a length
at their end, so these are taken of arrays without holes, or not looked at. A name that hides one
of its prototype is not deleted: node's for-in then visits it still. No name that is nowhere is assigned to: node's contexts let that pass at times.
"""
import json
import os
import random
import shlex
import subprocess
import sys
import tempfile

sys.dont_write_bytecode = True
sys.path.insert(0, os.path.join(os.path.dirname(os.path.dirname(os.path.abspath(__file__))), "tools"))
import command_words

# The lines of the pages of a folder, as a list of texts, one for each page.
HARNESS = r"""
var fs = require("fs"), vm = require("vm");
var folder = process.argv[2], count = Number(process.argv[3]), all = [];
function text(v) {
  return v !== null && (typeof v === "object" || typeof v === "function") ? Object.prototype.toString.call(v) : String(v);
}
function run(context, code, lines) {
  try { vm.runInContext(code, context); } catch (e) {
    lines.push(e !== null && typeof e === "object" && Object.prototype.toString.call(e) === "[object Error]" ? "uncaught error" : "uncaught " + text(e));
  }
}
for (var k = 0; k < count; k++) {
  var page = JSON.parse(fs.readFileSync(folder + "/" + k + ".json", "utf8")), lines = [];
  var log = function (lines) { return function () { lines.push("log " + Array.prototype.map.call(arguments, text).join(" ")); }; }(lines);
  var context = vm.createContext({console: {log: log}});
  run(context, page.script, lines);
  page.calls.forEach(function (name) { run(context, name + "()", lines); });
  all.push(lines);
}
fs.writeFileSync(folder + "/node.json", JSON.stringify(all));
"""

NUMBERS = ["+", "-", "*", "%", "&", "|", "^"]
TESTS = ["<", ">", "<=", ">=", "==", "!=", "===", "!=="]
FIELDS = ["a", "b", "c", "d"]


class Page:
    """One random page: the names in scope by what they hold, and the parts that are made of them."""

    def __init__(self, seed):
        self.r = random.Random(seed)
        self.count = 0
        self.scopes = [{"num": [], "text": [], "object": [], "list": []}]
        self.functions = []
        self.heirs = []
        self.loops = 0

    def fresh(self, letter):
        self.count += 1
        return letter + str(self.count)

    def names(self, kind):
        return [name for scope in self.scopes for name in scope[kind]]

    def one(self, *choices):
        return self.r.choice(choices)

    # ---- expressions

    def built_in_num(self, d):
        """A number that a built-in function gives."""
        lists = self.names("list")
        pick = self.r.randrange(9)
        if pick == 0:
            return "Math.%s(%s, %s)" % (self.one("max", "min"), self.num(d - 1), self.num(d - 1))
        if pick == 1:
            return "Math.%s(%s)" % (self.one("abs", "round", "floor", "ceil"), self.num(d - 1))
        if pick == 2:
            return "(parseInt(%s, %d) | 0)" % (self.text(d - 1), self.r.randrange(2, 37))
        if pick == 3:
            return "%s.%s(%s)" % (self.text(d - 1), self.one("indexOf", "lastIndexOf"), self.text(0))
        if pick == 4:
            return "(%s.charCodeAt(%d) | 0)" % (self.text(d - 1), self.r.randrange(-1, 4))
        if pick == 5 and lists:
            return "%s.%s(%s)" % (self.r.choice(lists), self.one("indexOf", "lastIndexOf"), self.num(0))
        if pick == 6 and lists:
            return "%s.reduce(function (s, v, i) { return (s * 3 + v + i) %% 1000; }, %s)" % (self.r.choice(lists), self.num(0))
        if pick == 7 and lists:
            return "%s.%s(%s)" % (self.r.choice(lists), self.one("push", "unshift"), ", ".join(self.num(0) for _ in range(self.r.randrange(3))))
        return "(isNaN(%s) ? 1 : Number(%s))" % (self.text(0), self.one('"12"', '" 7 "', '""'))

    def num(self, d):
        names = self.names("num")
        if d > 0 and self.r.random() < 0.15:
            return self.built_in_num(d)
        if d == 0 or self.r.random() < 0.2:
            return self.r.choice(names) if names and self.r.random() < 0.6 else str(self.r.randrange(20))
        pick = self.r.randrange(16)
        if pick < 6:
            op = self.r.choice(NUMBERS)
            right = self.num(d - 1)
            if op == "%":
                right = str(self.r.randrange(1, 30))
            return "(%s %s %s)" % (self.num(d - 1), op, right)
        if pick == 6:
            return "(%s ? %s : %s)" % (self.truth(d - 1), self.num(d - 1), self.num(d - 1))
        if pick == 7 and self.names("object"):
            return "%s.%s" % (self.r.choice(self.names("object")), self.r.choice(FIELDS))
        if pick == 8 and self.names("list"):
            return "%s[%s]" % (self.r.choice(self.names("list")), self.one(str(self.r.randrange(5)), self.num(0)))
        if pick == 9 and self.names("list"):
            return self.r.choice(self.names("list")) + ".length"
        if pick == 10:
            return "(%s%s)" % (self.one("-", "+", "~"), self.num(d - 1))
        if pick == 11 and self.functions and self.loops == 0:
            return "%s(%s)" % (self.r.choice(self.functions), ", ".join(self.num(d - 1) for _ in range(self.r.randrange(4))))
        if pick == 12:
            return "(%s, %s)" % (self.num(d - 1), self.num(d - 1))
        if pick == 13:
            return self.text(d - 1) + ".length"
        if pick == 14:
            return "(%s %s (%s << %d))" % (self.num(d - 1), self.one("+", "^"), self.num(0), self.r.randrange(5))
        return "(%s %s %s)" % (self.truth(d - 1), self.one("&&", "||"), self.num(d - 1)) + " * 1"

    def built_in_text(self, d):
        """A text that a built-in function gives."""
        lists = self.names("list")
        pick = self.r.randrange(9)
        places = "%d, %d" % (self.r.randrange(-4, 6), self.r.randrange(-4, 6))
        if pick == 0:
            return "%s.%s(%s)" % (self.text(d - 1), self.one("slice", "substring"), places)
        if pick == 1:
            return "%s.%s()" % (self.text(d - 1), self.one("toUpperCase", "toLowerCase", "trim", "toString", "valueOf"))
        if pick == 2:
            return "%s.charAt(%d)" % (self.text(d - 1), self.r.randrange(-1, 4))
        if pick == 3:
            return '%s.split(%s).join("/")' % (self.text(d - 1), self.one('""', '"x"', '" "', self.text(0)))
        if pick == 4:
            return "%s.concat(%s, %s)" % (self.text(d - 1), self.num(0), self.truth(0))
        if pick == 5:
            return "(%s).toString(%d)" % (self.num(d - 1), self.r.randrange(2, 37))
        if pick == 6 and lists:
            return '%s.join("%s")' % (self.r.choice(lists), self.one("", "-", "ab"))
        if pick == 7 and lists:
            dense = "%s.filter(function (v) { return v %% 3 !== 0; })" % self.r.choice(lists)
            return '%s.%s.join()' % (dense, self.one("slice(%s)" % places, "concat([1], 2)", "map(function (v, i) { return v + i; })", "reverse()"))
        return "String(%s)" % self.one(self.num(0), self.truth(0), "null", "undefined")

    def text(self, d):
        names = self.names("text")
        if d > 0 and self.r.random() < 0.2:
            return self.built_in_text(d)
        if d <= 0 or self.r.random() < 0.3:
            return self.r.choice(names) if names and self.r.random() < 0.5 else '"%s"' % self.one("", "x", "yz", "w ", "7", "-3")
        pick = self.r.randrange(5)
        if pick == 0:
            return "(%s + %s)" % (self.text(d - 1), self.num(d - 1))
        if pick == 1:
            return "(%s + %s)" % (self.text(d - 1), self.truth(d - 1))
        if pick == 2:
            return "(typeof %s)" % self.one(self.num(d - 1), self.text(d - 1), "nowhere", "null", "undefined")
        if pick == 3:
            return '("" + %s[%d])' % (self.text(d - 1), self.r.randrange(3))
        return "(%s + %s)" % (self.text(d - 1), self.text(d - 1))

    def truth(self, d):
        pick = self.r.randrange(6)
        if d > 0 and self.names("list") and self.r.random() < 0.1:
            return "%s.%s(function (v, i) { return v > i; })" % (self.r.choice(self.names("list")), self.one("every", "some"))
        if d <= 0 or pick == 0:
            return self.one("true", "false", "(%s < %s)" % (self.num(0), self.num(0)))
        if pick == 1:
            return "(%s %s %s)" % (self.text(d - 1), self.r.choice(TESTS), self.text(d - 1))
        if pick == 2:
            return "(!%s)" % self.truth(d - 1)
        if pick == 3 and self.names("object"):
            return '("%s" in %s)' % (self.r.choice(FIELDS), self.r.choice(self.names("object")))
        if pick == 4:
            return "(%s %s %s)" % (self.truth(d - 1), self.one("&&", "||"), self.truth(d - 1))
        return "(%s %s %s)" % (self.num(d - 1), self.r.choice(TESTS), self.num(d - 1))

    def object(self):
        names = self.r.sample(FIELDS, self.r.randrange(4))
        return "{%s}" % ", ".join("%s: %s" % (name, self.num(1)) for name in names)

    def list(self):
        return "[%s]" % ", ".join(self.num(1) for _ in range(self.r.randrange(5)))

    # ---- statements

    def block(self, d):
        return "{%s}" % "".join(self.statement(d) for _ in range(self.r.randrange(1, 4)))

    def log(self):
        parts = [self.one(self.num(2), self.text(2), self.truth(2)) for _ in range(self.r.randrange(1, 3))]
        parts += [self.r.choice(self.names(kind)) for kind in ("object", "list") if self.names(kind) and self.r.random() < 0.1]
        return "console.log(%s);" % ", ".join(parts)

    def change(self):
        pick = self.r.randrange(9)
        nums, texts, objects, lists = (self.names(kind) for kind in ("num", "text", "object", "list"))
        if lists and self.r.random() < 0.2:
            added = ", ".join(self.num(0) for _ in range(self.r.randrange(3)))
            how = self.one("pop()", "shift()", "reverse()", "forEach(function (v, i, l) { l[i] = (v + i) % 1000; })",
                           "splice(%d, %d%s)" % (self.r.randrange(-3, 5), self.r.randrange(4), ", " + added if added else ""))
            return "%s.%s;" % (self.r.choice(lists), how)
        if pick == 0 and texts:
            return "%s = %s;" % (self.r.choice(texts), self.text(2))
        if pick == 1 and objects:
            return "%s.%s %s %s;" % (self.r.choice(objects), self.r.choice(FIELDS), self.one("=", "+=", "-="), self.num(2) + " % 1000")
        deleted = [name for name in objects if name not in self.heirs]
        if pick == 2 and deleted:
            return "delete %s.%s;" % (self.r.choice(deleted), self.r.choice(FIELDS))
        if pick == 3 and lists:
            name = self.r.choice(lists)
            return "%s[%s] = %s;" % (name, self.one(name + ".length", str(self.r.randrange(6))), self.num(2) + " % 1000")
        if pick == 4 and lists:
            return "%s.length = %d;" % (self.r.choice(lists), self.r.randrange(5))
        if pick == 5 and nums:
            return "%s%s;" % (self.r.choice(nums), self.one("++", "--"))
        if pick == 6 and objects:
            return "%s%s.%s;" % (self.one("++", "--"), self.r.choice(objects), self.r.choice(FIELDS))
        if nums:
            return "%s %s (%s) %% 1000;" % (self.r.choice(nums), self.one("=", "+=", "^=", "|="), self.num(3))
        return self.log()

    def loop(self, d):
        name = self.fresh("i")
        bound = self.r.randrange(1, 5)
        self.loops += 1
        jump = self.one("", "", "if (%s) %s;" % (self.truth(1), self.one("break", "continue")))
        inner = self.block(d - 1)[:-1] + jump + "}"
        self.loops -= 1
        pick = self.r.randrange(3)
        if pick == 0:
            return "for (var %s = 0; %s < %d; %s++) %s" % (name, name, bound, name, inner)
        if pick == 1:
            return "var %s = 0; while (%s++ < %d) %s" % (name, name, bound, inner)
        return "var %s = 0; do %s while (++%s < %d);" % (name, inner, name, bound)

    def for_in(self, d):
        name = self.fresh("k")
        source = self.r.choice(self.names("object"))
        self.loops += 1
        self.scopes.append({"num": [], "text": [name], "object": [], "list": []})
        inner = "{console.log(%s, %s[%s]);%s" % (name, source, name, self.block(d - 1)[1:])
        self.scopes.pop()
        self.loops -= 1
        return "for (var %s in %s) %s" % (name, source, inner)

    def attempt(self, d):
        name = self.fresh("e")
        wrong = self.one("undefined.x;", "null.y = 1;", "(7)();", "nowhere;", "throw %s;" % self.num(1), "throw %s;" % self.text(1), "")
        tell = "console.log(typeof %s, %s instanceof TypeError, %s instanceof ReferenceError);" % (name, name, name)
        last = self.one("", "finally %s" % self.block(0))
        return "try {%s%s%s} catch (%s) {%s} %s" % (self.statement(d - 1), wrong, self.statement(0), name, tell, last)

    def switch(self, d):
        cases = ["case %s:%s%s" % (self.num(0), self.statement(d - 1), self.one("break;", "")) for _ in range(self.r.randrange(1, 4))]
        cases.insert(self.r.randrange(len(cases) + 1), "default:%s%s" % (self.statement(d - 1), self.one("break;", "")))
        return "switch (%s) {%s}" % (self.num(1), "".join(cases))

    def statement(self, d):
        pick = self.r.randrange(14)
        if d > 0 and pick == 0:
            return "if (%s) %s%s" % (self.truth(2), self.block(d - 1), self.one("", " else " + self.block(d - 1)))
        if d > 0 and pick in (1, 2) and self.loops < 2:
            return self.loop(d)
        if d > 0 and pick == 3 and self.names("object") and self.loops < 1:
            return self.for_in(d)
        if d > 0 and pick == 4:
            return self.attempt(d)
        if d > 0 and pick == 5:
            return self.switch(d)
        if pick < 9:
            return self.log()
        return self.change()

    def variables(self):
        parts = []
        for kind, letter, make in (("num", "n", lambda: self.num(1)), ("text", "s", lambda: self.text(1)), ("object", "o", self.object), ("list", "l", self.list)):
            for _ in range(self.r.randrange(1, 3)):
                name, value = self.fresh(letter), make()
                parts.append("var %s = %s;" % (name, value))
                self.scopes[-1][kind].append(name)
        return "".join(parts)

    def function(self):
        name = self.fresh("f")
        formals = [self.fresh("p") for _ in range(self.r.randrange(3))]
        self.scopes.append({"num": list(formals), "text": [], "object": [], "list": []})
        body = self.variables() + "".join(self.statement(2) for _ in range(self.r.randrange(1, 5)))
        result = self.num(2)
        if self.r.random() < 0.3:
            shared = self.fresh("n")
            body += "var %s = %s; function up() { %s = (%s + 1) %% 1000; return %s; } up();" % (shared, result, shared, shared, shared)
            result = "up() + up()"
        self.scopes.pop()
        self.functions.append(name)
        return "function %s(%s) {%sreturn %s;}" % (name, ", ".join(formals), body, result)

    def made(self):
        maker, field = self.fresh("M"), self.r.choice(FIELDS)
        name = self.fresh("o")
        text = "function %s(x) {this.%s = x;} %s.prototype.%s = %s; var %s = new %s(%s);" % (
            maker, field, maker, self.r.choice(FIELDS), self.num(1), name, maker, self.num(1))
        self.scopes[0]["object"].append(name)
        self.heirs.append(name)
        return text + "console.log(%s instanceof %s, %s.hasOwnProperty(\"%s\"));" % (name, maker, name, self.r.choice(FIELDS))

    def built(self):
        name = self.r.choice(self.names("object"))
        return self.one("console.log(Object.keys(%s).length);" % name, "try {Object.freeze(%s); %s.a = 1;} catch (x) {console.log(x instanceof TypeError);}" % (name, name),
                        "console.log(Object.isFrozen(%s), Object.isExtensible(%s));" % (name, name), "console.log(Array.isArray(%s), Object.create(%s).a);" % (name, name))

    def script(self):
        parts = [self.variables()]
        parts += [self.function() for _ in range(self.r.randrange(1, 4))]
        parts += [self.made()] if self.r.random() < 0.5 else []
        parts += [self.statement(3) for _ in range(self.r.randrange(2, 7))]
        parts += [self.built()] if self.r.random() < 0.4 else []
        parts += ["throw %s;" % self.one(self.num(1), self.text(1), "new TypeError(%s)" % self.text(1))] if self.r.random() < 0.1 else []
        return '"use strict";' + "\n".join(parts)


def lines_of(words, folder, number, page):
    """The lines of a page under the program."""
    with open(os.path.join(folder, "p"), "w", encoding="utf-8") as file:
        file.write("<html><script>%s</script></html>" % page["script"])
    with open(os.path.join(folder, "e"), "w", encoding="utf-8") as file:
        json.dump([{"call": name} for name in page["calls"]], file)
    done = subprocess.run(words + ["replay", "p", "e"], cwd=folder, capture_output=True, text=True, timeout=60)
    if done.returncode:
        return ["status %d %s" % (done.returncode, done.stderr.strip())]
    lines = done.stdout.split("\n")[:-1]
    errors = ("uncaught TypeError: ", "uncaught ReferenceError: ", "uncaught RangeError: ")
    return ["uncaught error" if line.startswith(errors) else line for line in lines]


def main():
    command_words.or_help(__doc__, 1)
    words = shlex.split(sys.argv[1])
    count = int(sys.argv[2]) if len(sys.argv) > 2 else 10000
    seed = int(sys.argv[3]) if len(sys.argv) > 3 else 1
    with tempfile.TemporaryDirectory() as folder:
        pages = []
        for k in range(count):
            page = Page(seed * 1000003 + k)
            script = page.script()
            calls = [page.r.choice(page.functions + ["nowhere"]) for _ in range(page.r.randrange(4))]
            pages.append({"script": script, "calls": calls})
            with open(os.path.join(folder, "%d.json" % k), "w", encoding="utf-8") as file:
                json.dump(pages[-1], file)
        with open(os.path.join(folder, "harness.js"), "w", encoding="utf-8") as file:
            file.write(HARNESS)
        subprocess.run(["node", "harness.js", folder, str(count)], cwd=folder, check=True)
        with open(os.path.join(folder, "node.json"), encoding="utf-8") as file:
            wanted = json.load(file)
        equal = 0
        for k in range(count):
            got = lines_of(words, folder, k, pages[k])
            if got == wanted[k]:
                equal += 1
            else:
                print("page %d of seed %d differs\n%s\ncalls %s\nwanted %s\ngot    %s\n" % (k, seed, pages[k]["script"], pages[k]["calls"], wanted[k], got))
        print("%d pages, %d with equal lines, %d lines" % (count, equal, sum(map(len, wanted))))
    sys.exit(0 if equal == count else 1)


if __name__ == "__main__":
    main()
