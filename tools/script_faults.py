"""Where a script breaks the rules of tokens, of the grammar, or an early rule (docs/PROFILE.md): a reader that stops at the first place at which it
cannot go on. What people write most often and the language does not have is called by its name."""
import re

from page_faults import Fault

RESERVED = set("""break case catch continue debugger default delete do else finally for function if in instanceof new return switch this throw try
    typeof var void while with class const enum export extends import super implements interface let package private protected public static yield
    null true false""".split())
LATER = {"let": "write var", "const": "write var", "class": "write a function with a prototype", "import": "write scripts one after the other",
         "export": "write scripts one after the other", "yield": "there are no generators", "super": "call the function of the prototype"}
GLOBALS = set("""window console alert Object Function Array String Number Boolean Math Error TypeError RangeError ReferenceError isNaN isFinite parseInt
    undefined NaN Node Event document setTimeout setInterval setIntervalFrom clearTimeout clearInterval""".split())
PUNCTUATORS = """>>>= === !== >>> <<= >>= <= >= == != ++ -- << >> && || += -= *= %= &= |= ^= /= { } ( ) [ ] . ; , < > + - * % & | ^ ! ~ ? : = /""".split()
ASSIGNS = set("= *= /= %= += -= <<= >>= >>>= &= ^= |=".split())
LEVELS = [["||"], ["&&"], ["|"], ["^"], ["&"], ["==", "!=", "===", "!=="], ["<", ">", "<=", ">=", "instanceof", "in"], ["<<", ">>", ">>>"], ["+", "-"], ["*", "/", "%"]]
LEVEL = {operator: level for level, operators in enumerate(LEVELS) for operator in operators}
BLANK = re.compile(r"(?:[\t\v\f \u00a0\u1680\u2000-\u200a\u202f\u205f\u3000\ufeff\n\r\u2028\u2029]|//[^\n\r\u2028\u2029]*|/\*[\s\S]*?\*/)*")
LINE_END = re.compile(r"[\n\r\u2028\u2029]")
NUMBER = re.compile(r"0[xX][0-9a-fA-F]+|0|[1-9][0-9]*")
MOST = 9007199254740991
END = "the end of the script"


class Token:
    def __init__(self, kind, text, at, is_after_line_end):
        self.kind, self.text, self.at, self.is_after_line_end = kind, text, at, is_after_line_end


def begins_name(c):
    return c in ("$", "_") or c <= "\uffff" and c.isidentifier()


def goes_on_name(c):
    return c != "" and (begins_name(c) or c <= "\uffff" and ("a" + c).isidentifier() or c in "\u200c\u200d")


class Tokens:
    """The tokens of a script, or Fault."""

    def __init__(self, text):
        self.text, self.at = text, 0

    def all(self):
        found = []
        while True:
            start = self.at
            self.at = BLANK.match(self.text, self.at).end()
            if self.text.startswith("/*", self.at):
                raise Fault(self.at, "this comment has no */")
            after = bool(LINE_END.search(self.text, start, self.at))
            if self.at == len(self.text):
                return [*found, Token("end", END, self.at, after)]
            found.append(self.one(after))

    def one(self, after):
        start, c = self.at, self.text[self.at]
        if begins_name(c):
            while goes_on_name(self.text[self.at:self.at + 1]):
                self.at += 1
            if self.text.startswith("\\", self.at):
                raise Fault(self.at, "names have no escapes")
            word = self.text[start:self.at]
            return Token("reserved" if word in RESERVED else "name", word, start, after)
        if c.isdigit() and c.isascii() or c == "." and self.text[start + 1:start + 2].isdigit():
            return self.number(start, after)
        if c in "\"'":
            return self.string(start, c, after)
        for mark in PUNCTUATORS:
            if self.text.startswith(mark, start):
                self.at += len(mark)
                if mark == "=" and self.text.startswith(">", self.at):
                    raise Fault(start, "=> is of a later edition: write function")
                return Token("mark", mark, start, after)
        raise Fault(start, {"`": "texts in back quotes are of a later edition: join texts by +", "\\": "\\ begins no token; regular expressions are not of the language",
                            "#": "# begins no token", "@": "@ begins no token"}.get(c, f"the character {c!a} begins no token"))

    def number(self, start, after):
        match = NUMBER.match(self.text, start)
        if not match:
            raise Fault(start, "numbers are whole: a decimal point is refused")
        self.at = match.end()
        c = self.text[self.at:self.at + 1]
        if c == ".":
            raise Fault(start, "numbers are whole: a decimal point is refused; before a name write two points, or put the number in parentheses")
        if c in ("e", "E") and match.group()[:2].lower() != "0x":
            raise Fault(start, "numbers have no exponent")
        if c.isdigit() or goes_on_name(c):
            why = "a number begins with 0 only as 0x.." if match.group() == "0" else "after a number stands no name"
            raise Fault(start, why)
        if int(match.group(), 0) > MOST:
            raise Fault(start, f"a number is at most {MOST:,}")
        return Token("number", match.group(), start, after)

    def string(self, start, quote, after):
        self.at += 1
        while True:
            c = self.text[self.at:self.at + 1]
            if c == "" or LINE_END.match(c):
                raise Fault(start, f"this text is not closed: {quote} is missing in its line")
            self.at += 1
            if c == quote:
                return Token("string", self.text[start + 1:self.at - 1], start, after)
            if c == "\\":
                self.escape()

    def escape(self):
        at = self.at - 1
        c = self.text[self.at:self.at + 1]
        self.at += 1
        if c == "0" and not self.text[self.at:self.at + 1].isdigit():
            return
        if c.isdigit() and c.isascii():
            raise Fault(at, "octal escapes are not of strict code")
        for mark, length in (("x", 2), ("u", 4)):
            if c == mark:
                if not re.compile("[0-9a-fA-F]{%d}" % length).match(self.text, self.at):
                    raise Fault(at, f"after \\{mark} stand {length} hexadecimal digits")
                self.at += length
        if c == "\r" and self.text.startswith("\n", self.at):
            self.at += 1


class Script:
    """Reads the tokens by the grammar; `early` are the early rules that are broken, each with its number and a Fault."""

    def __init__(self, tokens):
        self.tokens, self.at, self.early = tokens, 0, []
        # Of each function that is open: its own name, where it is an expression, the names that it declares, and those that it assigns to.
        self.scopes = [(None, set(), [])]
        self.functions, self.loops, self.switches, self.takes_in = 0, 0, 0, True

    @property
    def now(self):
        return self.tokens[self.at]

    def sees(self, *texts):
        return self.now.kind in ("mark", "reserved") and self.now.text in texts

    def take(self, *texts):
        if self.sees(*texts):
            self.at += 1
            return self.tokens[self.at - 1]
        return None

    def fail(self, wanted):
        token = self.now
        if token.text in LATER and token.kind == "reserved":
            raise Fault(token.at, f"{token.text} is of a later edition: {LATER[token.text]}")
        found = token.text if token.kind == "end" else f"a text" if token.kind == "string" else token.text
        raise Fault(token.at, f"{wanted} is wanted here, and {found} stands there")

    def want(self, text, why=""):
        return self.take(text) or self.fail(f"{text}{why}")

    def name(self, what):
        if self.now.kind != "name":
            self.fail(what)
        token = self.now
        self.look_at_name(token)
        self.at += 1
        return token

    def look_at_name(self, token):
        if token.text in ("eval", "arguments"):
            self.breaks(4, token.at, f"{token.text} is no name of a variable, and is not of the language")

    def breaks(self, rule, at, text):
        self.early.append((rule, Fault(at, text)))

    def whole(self):
        while self.now.kind != "end":
            self.item()

    def item(self):
        if self.sees("function"):
            token = self.tokens[self.at + 1]
            if self.functions == 0 and token.text in GLOBALS:
                self.breaks(9, token.at, f"{token.text} is the name of a built-in: a function of the page has another name")
            self.at += 1
            self.declare(self.name("the name of the function"))
            self.function(None)
        else:
            self.statement()

    def declare(self, token):
        self.scopes[-1][1].add(token.text)

    def function(self, own):
        self.scopes.append((own, set(), []))
        self.want("(")
        formals = []
        while not self.sees(")"):
            token = self.name("the name of a formal, or )")
            if token.text in formals:
                self.breaks(1, token.at, f"{token.text} is twice a formal of this function")
            formals.append(token.text)
            self.declare(token)
            if not self.take(","):
                break
        self.want(")")
        kept = self.loops, self.switches, self.takes_in
        self.functions, self.loops, self.switches, self.takes_in = self.functions + 1, 0, 0, True
        opening = self.want("{")
        while not self.sees("}"):
            if self.now.kind == "end":
                raise Fault(opening.at, "this { is not closed")
            self.item()
        self.at += 1
        self.functions -= 1
        self.loops, self.switches, self.takes_in = kept
        _, declared, assigned = self.scopes.pop()
        for token in assigned:
            if token.text not in declared and token.text == own:
                self.breaks(8, token.at, f"{own} is the own name of this function, and cannot be assigned to")
            elif token.text not in declared:
                self.scopes[-1][2].append(token)

    def end(self):
        if self.take(";") or self.sees("}") or self.now.kind == "end" or self.now.is_after_line_end:
            return
        self.fail("; or a line end, or what goes on with this statement,")

    def block(self):
        opening = self.want("{")
        while not self.sees("}"):
            if self.now.kind == "end":
                raise Fault(opening.at, "this { is not closed")
            self.statement()
        self.at += 1

    def statement(self):
        token = self.now
        if token.kind == "reserved" and hasattr(self, "on_" + token.text):
            self.at += 1
            return getattr(self, "on_" + token.text)(token)
        if self.sees("{"):
            return self.block()
        if self.take(";"):
            return None
        if self.sees("function"):
            self.fail("a statement (a function declaration stands at the top of a script or of a function's body)")
        if token.kind == "name" and self.tokens[self.at + 1].text == ":" and self.tokens[self.at + 1].kind == "mark":
            raise Fault(token.at, "labels are not of the language")
        self.expression()
        return self.end()

    def on_var(self, _):
        self.declarations()
        self.end()

    def declarations(self):
        count, has_value = 0, False
        while True:
            self.declare(self.name("the name of a variable"))
            count += 1
            if self.take("="):
                has_value = True
                self.assignment()
            if not self.take(","):
                return count == 1 and not has_value

    def on_if(self, _):
        self.condition()
        self.statement()
        if self.take("else"):
            self.statement()

    def condition(self):
        self.want("(")
        self.expression()
        self.want(")")

    def body(self):
        self.loops += 1
        self.statement()
        self.loops -= 1

    def on_while(self, _):
        self.condition()
        self.body()

    def on_do(self, _):
        self.body()
        self.want("while")
        self.condition()
        self.end()

    def on_for(self, _):
        self.want("(")
        self.takes_in = False
        start, is_target = self.now, True
        if self.take("var"):
            is_target = self.declarations()
        elif not self.sees(";"):
            kind = self.expression()
            if self.sees("in"):
                self.target(kind, start)
        self.takes_in = True
        if self.sees("in") and is_target:
            self.at += 1
            self.expression()
        else:
            self.want(";", " of the header of this for")
            if not self.sees(";"):
                self.expression()
            self.want(";", " of the header of this for")
            if not self.sees(")"):
                self.expression()
        self.want(")")
        self.body()

    def jump(self, token, is_in):
        if not is_in:
            self.breaks(6, token.at, f"{token.text} stands in no loop{' or switch' if token.text == 'break' else ''} of this function")
        if self.now.kind == "name" and not self.now.is_after_line_end:
            raise Fault(self.now.at, "labels are not of the language")
        self.end()

    def on_break(self, token):
        self.jump(token, self.loops or self.switches)

    def on_continue(self, token):
        self.jump(token, self.loops)

    def on_return(self, token):
        if not self.functions:
            self.breaks(5, token.at, "return stands in no function")
        if not (self.sees(";", "}") or self.now.kind == "end" or self.now.is_after_line_end):
            self.expression()
        self.end()

    def on_throw(self, _):
        if self.now.is_after_line_end:
            raise Fault(self.now.at, "what is thrown stands in the line of throw")
        self.expression()
        self.end()

    def on_try(self, token):
        self.block()
        found = self.take("catch")
        if found:
            self.want("(")
            self.declare(self.name("the name of what is caught"))
            self.want(")")
            self.block()
        if self.take("finally"):
            self.block()
        elif not found:
            raise Fault(token.at, "this try has neither catch nor finally")

    def on_switch(self, _):
        self.condition()
        self.want("{")
        self.switches += 1
        has_default = False
        while not self.take("}"):
            if self.take("case"):
                self.expression()
            elif self.sees("default") and not has_default:
                has_default, self.at = True, self.at + 1
            else:
                self.fail("case or }" if has_default else "case, default or }")
            self.want(":")
            while not self.sees("case", "default", "}"):
                if self.now.kind == "end":
                    self.fail("}")
                self.statement()
        self.switches -= 1

    def on_with(self, token):
        raise Fault(token.at, "with is not of strict code")

    def on_debugger(self, token):
        raise Fault(token.at, "debugger is not of the language")

    # Each of these tells what it read: a name, a member or another expression.

    def expression(self):
        kind = self.assignment()
        while self.take(","):
            kind = self.assignment() and "other"
        return kind

    def target(self, kind, token):
        if kind not in ("name", "member"):
            self.breaks(7, token.at, "only a name or a property can be assigned to")
        elif kind == "name" and token.kind == "name":
            self.scopes[-1][2].append(token)

    def assignment(self):
        start = self.now
        kind = self.conditional()
        if self.now.kind == "mark" and self.now.text in ASSIGNS:
            self.target(kind, start)
            self.at += 1
            self.assignment()
            return "other"
        return kind

    def conditional(self):
        kind = self.binary(0)
        if not self.take("?"):
            return kind
        takes_in, self.takes_in = self.takes_in, True
        self.assignment()
        self.takes_in = takes_in
        self.want(":")
        self.assignment()
        return "other"

    def binary(self, least):
        kind = self.unary()
        while self.now.kind in ("mark", "reserved") and LEVEL.get(self.now.text, -1) >= least and (self.takes_in or self.now.text != "in"):
            level = LEVEL[self.now.text]
            self.at += 1
            self.binary(level + 1)
            kind = "other"
        return kind

    def unary(self):
        token = self.take("delete", "void", "typeof", "++", "--", "+", "-", "~", "!")
        if token:
            start = self.now
            kind = self.unary()
            if token.text == "delete" and kind == "name":
                self.breaks(3, token.at, "delete takes a property, and no variable")
            if token.text in ("++", "--"):
                self.target(kind, start)
            return "other"
        start = self.now
        kind = self.chain()
        if self.sees("++", "--") and not self.now.is_after_line_end:
            self.target(kind, start)
            self.at += 1
            return "other"
        return kind

    def chain(self):
        news = 0
        while self.take("new"):
            news += 1
        kind = self.primary()
        while True:
            if self.take("."):
                if self.now.kind not in ("name", "reserved"):
                    self.fail("the name of a property")
                self.at += 1
                kind = "member"
            elif self.take("["):
                takes_in, self.takes_in = self.takes_in, True
                self.expression()
                self.takes_in = takes_in
                self.want("]")
                kind = "member"
            elif self.sees("("):
                self.arguments()
                kind = "other"
                news = max(0, news - 1)
            else:
                return kind if not news else "other"

    def arguments(self):
        opening = self.want("(")
        takes_in, self.takes_in = self.takes_in, True
        is_first = True
        while not is_first or not self.sees(")"):
            if self.now.kind == "end":
                raise Fault(opening.at, "this ( is not closed")
            is_first = False
            self.assignment()
            if not self.take(","):
                break
        self.takes_in = takes_in
        self.want(")", " or , of these arguments")

    def primary(self):
        token = self.now
        if token.kind == "name":
            self.look_at_name(token)
        if token.kind in ("name", "number", "string") or self.sees("this", "null", "true", "false"):
            self.at += 1
            return "name" if token.kind == "name" else "other"
        if self.sees("/", "/="):
            raise Fault(token.at, "regular expressions are not of the language")
        takes_in, self.takes_in = self.takes_in, True
        kind = "other"
        if self.take("("):
            kind = self.expression()
            self.want(")")
        elif self.take("["):
            self.elements(token)
        elif self.take("{"):
            self.properties(token)
        elif self.take("function"):
            own = self.name("the name of the function").text if self.now.kind == "name" else None
            self.function(own)
        else:
            self.fail("an expression")
        self.takes_in = takes_in
        return kind

    def elements(self, opening):
        while not self.take("]"):
            if self.now.kind == "end":
                raise Fault(opening.at, "this [ is not closed")
            if not self.take(","):
                self.assignment()
                if not self.sees("]"):
                    self.want(",", " or ] of this list")

    def properties(self, opening):
        names = set()
        while not self.take("}"):
            token = self.now
            if token.kind == "end":
                raise Fault(opening.at, "this { is not closed")
            if token.kind not in ("name", "reserved", "string", "number"):
                self.fail("the name of a property, or }")
            self.at += 1
            if token.kind == "name" and token.text in ("get", "set") and not self.sees(":", ",", "}", "("):
                raise Fault(token.at, "getters and setters are not of the language")
            if self.sees(",", "}", "("):
                raise Fault(token.at, "short names and methods in literals are of a later edition: write name: value")
            text = str(int(token.text, 0)) if token.kind == "number" else token.text
            if text in names:
                self.breaks(2, token.at, f"{text} is twice a name of this literal")
            names.add(text)
            self.want(":")
            self.assignment()
            if not self.sees("}"):
                self.want(",", " or } of this literal")
