"""Reads what `save` writes, and names what is in it, so that two saved pages can be compared: a thing is called by the shortest way to it from the names
of the page, the document and the timers, since its number changes from one saved page to the next."""
import collections
import json
import re

TEXT = r'"(?:[^"\\]|\\.)*"'
THING = re.compile(r"\$\$\[(\d+)\]")
MADE = re.compile(r"\$\$\[(\d+)\]=(.*);", re.S)
NODE = re.compile(rf"document\.create(Element|TextNode|Comment|Event)\(({TEXT})\)")
PUT = re.compile(r"(.+?)\.appendChild\(\$\$\[(\d+)\]\);")
ATTRIBUTE = re.compile(rf"(.+?)\.setAttribute\(({TEXT}),({TEXT})\);")
VALUE = re.compile(rf"(.+?)\.value=({TEXT});")
LISTENER = re.compile(rf"(.+?)\.addEventListener\(({TEXT}),(.+),(true|false)\);")
PROPERTY = re.compile(rf'Object\.defineProperty\((.+?),({TEXT}),\{{"value":({TEXT}|.*?),"writable":.*\}}\);')
TIMER = re.compile(r"set(Timeout|IntervalFrom)\((.+?),(\d+)(?:,(\d+))?\);")
# The values of the variables that a function is made with.
SCOPES = re.compile(r"\}\)\(([^()]*)\)$")
LONGEST = 60


def shortened(text):
    return text if len(text) <= LONGEST else text[:LONGEST - 2] + ".."


class SavedPage:
    """The things of a saved page: `names` calls them by their numbers, and `facts` tells of each name what stands there."""

    def __init__(self, text):
        self.made, self.children, self.attributes, self.properties = {}, collections.defaultdict(list), collections.defaultdict(dict), collections.defaultdict(dict)
        self.listeners, self.timers, self.names, self.facts = [], [], {}, {}
        self.text, self.statements = text, text.split("\n")
        for statement in self.statements:
            self.read(statement)
        self.name_all()
        self.tell_all()

    def read(self, statement):
        if match := MADE.fullmatch(statement):
            self.made[f"$$[{match[1]}]"] = match[2]
        elif match := PUT.fullmatch(statement):
            self.children[match[1]].append(f"$$[{match[2]}]")
        elif match := ATTRIBUTE.fullmatch(statement):
            self.attributes[match[1]][json.loads(match[2])] = match[3]
        elif match := VALUE.fullmatch(statement):
            self.attributes[match[1]]["(value)"] = match[2]
        elif match := LISTENER.fullmatch(statement):
            self.listeners.append((match[1], json.loads(match[2]), match[3]))
        elif match := PROPERTY.fullmatch(statement):
            self.properties[match[1]][json.loads(match[2])] = match[3]
        elif (match := TIMER.fullmatch(statement)) and match[2] != "Object":
            self.timers.append((match[2], int(match[3]), match[4]))

    # ---- names

    def node(self, thing):
        """The kind of a node and its own text, or None."""
        match = NODE.fullmatch(self.made.get(thing, ""))
        return match and (match[1], json.loads(match[2]))

    def tag(self, thing, siblings):
        """How a node is called among those beside it."""
        kind, text = self.node(thing)
        if kind != "Element":
            return f"{kind.lower().replace('node', '')}"
        own = self.attributes[thing].get("id")
        if own:
            return f"{text}#{json.loads(own)}"
        same = [it for it in siblings if self.node(it) == (kind, text) and "id" not in self.attributes[it]]
        return text if len(same) == 1 else f"{text}[{same.index(thing) + 1}]"

    def name_all(self):
        waiting = collections.deque()

        def give(thing, name):
            if THING.fullmatch(thing) and thing not in self.names:
                self.names[thing] = name
                waiting.append(thing)

        for name, value in self.properties["window"].items():
            give(value, name)
        for child in self.children["document"]:
            give(child, self.tag(child, self.children["document"]))
        for target, kind, function in [it for it in self.listeners if it[0] == "document"]:
            give(function, f"listener of {kind} at document")
        for at, (function, _, _) in enumerate(self.timers):
            give(function, f"function of timer {at + 1}")
        while waiting:
            thing = waiting.popleft()
            self.name_below(thing, self.names[thing], give)

    def name_below(self, thing, name, give):
        children = self.children[thing]
        for child in children:
            tag = self.tag(child, children)
            # An element with an id, and a text that stands alone, need no more than that.
            give(child, tag if "#" in tag else f"{name} > {tag}" if len(children) > 1 or tag != "text" else f"text of {name}")
        for target, kind, function in self.listeners:
            if target == thing:
                give(function, f"listener of {kind} at {name}")
        for key, value in self.properties[thing].items():
            give(value, self.property_name(thing, key))
        made = self.made[thing]
        scopes = SCOPES.search(made) if made.startswith("(function(") else None
        for scope in THING.finditer(scopes[1] if scopes else ""):
            give(scope.group(), f"variables of {name}")
        bound = made.partition(".bind(") if ".bind(" in made and not made.startswith(("(", "f")) else None
        for other in THING.finditer(made if bound else ""):
            give(other.group(), f"what {name} is bound to")

    def property_name(self, thing, key):
        name = self.names.get(thing, thing)
        if name.startswith("variables of "):
            return key
        return f"{name}[{key}]" if key.isdigit() else f"{name}.{key}"

    def named(self):
        """The statements with names in place of numbers."""
        return [THING.sub(lambda it: self.names.get(it.group(), it.group()), statement) for statement in self.statements]

    # ---- facts

    def shown(self, value, name):
        """The value of a property of this name: a thing that has another name by that one."""
        if not THING.fullmatch(value):
            return shortened(value)
        made = self.made[value]
        if self.names.get(value, name) != name:
            return self.names[value]
        if made == "[]":
            return f"a list of {self.properties[value].get('length', '0')}"
        if "function(" in made or ".bind(" in made:
            return "a function"
        return "an error" if made.startswith("new ") else "an object"

    def tell(self, name, value):
        count, key = 1, name
        while key in self.facts:
            count += 1
            key = f"{name} ({count})"
        self.facts[key] = value

    def tell_all(self):
        for thing in sorted(self.names, key=lambda it: int(it[3:-1])):
            node = self.node(thing)
            if node and node[0] == "Element":
                self.tell(f"<{node[1]}> {self.names[thing]}", "is there")
            elif node and node[0] != "Event":
                self.tell(self.names[thing], shortened(json.dumps(node[1], ensure_ascii=False)))
            for key, value in self.attributes[thing].items():
                if key != "id" or "#" not in self.names[thing]:
                    self.tell(f"{self.names[thing]} {key}", shortened(value))
        for thing in ["window", "document", *sorted(self.names, key=lambda it: int(it[3:-1]))]:
            for key, value in self.properties[thing].items():
                if key not in ("prototype", "constructor", "length"):
                    name = key if thing == "window" else self.property_name(thing, key)
                    self.tell(name, self.shown(value, name))
        for target, kind, function in self.listeners:
            self.tell(f"listener of {kind} at {self.names.get(target, target)}", "is there")
        for at, (_, left, period) in enumerate(self.timers):
            self.tell(f"timer {at + 1}", f"due in {left} ms" + (f", then each {period} ms" if period else ""))


def changes(before, after):
    """What is otherwise: triples of a name, what was and what is, None where there is nothing."""
    names = [*before.facts, *(it for it in after.facts if it not in before.facts)]
    return [(name, before.facts.get(name), after.facts.get(name)) for name in names if before.facts.get(name) != after.facts.get(name)]
