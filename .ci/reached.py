#!/usr/bin/env python3
"""Which definitions the clauses of `run` reach, and how many lines these are: docs/BELIEVE.md says so, and .ci/check compares.

Names are followed one definition at a time, from the theorem (`run` in crates/command_line/src/program.rt) through the files of `specs/`, the
types of `src/` that definitions match on, and the traits of its parameters. Proofs and the library's own definitions are not followed.

    .ci/reached.py            the rows of docs/BELIEVE.md as they should be
    .ci/reached.py --write    writes them there; a new row may stand anywhere as `| `FILE` | what it says |`
    .ci/reached.py FILE       the definitions of one file that are reached

The page has a table, too, of how many lines each sentence of README.md asks to be read: those that are reached from the definitions
where the sentence begins.
"""
import os
import re
import sys

TOP = os.path.dirname(os.path.dirname(os.path.abspath(__file__)))
PAGE = "docs/BELIEVE.md"
START = ("command_line/src/program.rt", "run")
UNREACHED = "What no clause of `run` reaches"
# Words of a definition: names with the dots that join them, so that what stands after a dot is told from a name of its own.
NAME = r"[^\W\d][\w'?!-]*|◌\S*◌"
WORD = re.compile(rf"(?:{NAME})(?:\.(?:{NAME}|\d+))*")
BEGINS = re.compile(rf"^\s*(?:abbrev |unfoldable )?(?:pub )?(?:(record|data) (?=.*:))?({NAME})(?(1)\s| :)")
PRECEDENCE = re.compile(r"infix[lr]? \d")
APART = re.compile(r"--|(?:pub )?(?:use|mod) ")
GROUP = re.compile(r"(?:abbrev |unfoldable )?(?:pub )?mutual\b")
# A row: the file, its lines, those that are reached, and what it says. Of a new row the numbers may be missing.
ROW = re.compile(r"^\| `([\w/]+\.(?:antt|rt))` \|(?: (\d+) \|)?(?: (\d+) \|)? (.*) \|$")

# A row of the table of sentences: the sentence, the file and the definitions where it begins, and how many lines these reach.
SENTENCE = re.compile(r"^\| (\d+) \| `([\w/]+\.(?:antt|rt))`((?:,? `\w+`)+) \|(?: ([\d,]+) \|)?$")


def read(path):
    with open(os.path.join(TOP, path), encoding="utf-8") as file:
        return file.read()


def sections():
    """The headings of crates.txt in order, each with its crates."""
    found = {}
    heading = None
    for line in read("crates.txt").splitlines():
        if line.startswith("# "):
            heading = line[2:]
            found[heading] = []
        elif ":" in line and heading:
            found[heading].append(line.split(":")[0].split()[0])
    return found


def imported(text):
    """The names that a file imports, each with the module and the name there, and the modules that it has another name for."""
    names, aliases = {}, {}
    for path, listed, alias in re.findall(r"^\s*(?:pub )?(?:ghost )?use Rattle\.([\w.]+?)(?:\.\{([^}]*)\}| as (\w+))?;?$", text, re.M):
        if listed:
            for name in listed.split(","):
                origin, _, other = name.strip().partition(" as ")
                names[other or origin] = (path, origin)
        elif alias:
            aliases[alias] = path
    return names, aliases


class Block:
    """One definition: where it stands, its text without comments, and how many lines it has with the comments on it."""

    def __init__(self, names, text, lines):
        self.names, self.text, self.lines = names, text, lines


def flat(text):
    """The lines of a file of specs, each with the heading of the module with parameters in which it stands, out of which it is taken."""
    found, heading = [], ""
    for line in text.splitlines():
        if re.match(r"module _ .* where$", line):
            heading = line
            found.append(("-- " + line, heading))
        elif heading and (line.startswith("  ") or not line.strip()):
            found.append((line[2:], heading))
        else:
            heading = heading if not line.strip() else ""
            found.append((line, heading))
    return found


def blocks_of_specs(text):
    """The definitions of a file of specs. A group of mutual ones is one."""
    lines = flat(text)
    comments, found, k = 0, [], 0
    while k < len(lines):
        line, heading = lines[k]
        begun = k
        k += 1
        if line.startswith("--") or PRECEDENCE.match(line):
            comments += 1
            continue
        if not line.strip() or APART.match(line):
            comments = 0
            continue
        while k < len(lines) and goes_on(line, lines[k:]):
            k += 1
        body = [it for it, _ in lines[begun:k] if it.strip()]
        bare = heading + "\n" + "\n".join(it.split(" -- ")[0] for it in body if not it.strip().startswith("--"))
        begins = None if GROUP.match(line) else BEGINS.match(line)
        own = begins.group(2) if begins else line.split()[0].strip("(")
        # A clause after a comment belongs to what is defined already.
        held = None if begins or GROUP.match(line) else next((it for it in reversed(found) if own in it.names), None)
        if held:
            held.text += "\n" + bare
            held.lines += len(body) + comments
        else:
            found.append(Block(declared_names(body, own if begins else None), bare, len(body) + comments))
        comments = 0
    return found


def goes_on(first, rest):
    """Whether a definition that begins with this line goes on with the first line of the rest."""
    line = rest[0][0]
    if not line.strip():
        return bool(GROUP.match(first)) and next((it for it, _ in rest if it.strip()), "").startswith(" ")
    return line.startswith(" ") or not any(it.match(line) for it in (PRECEDENCE, APART, BEGINS, GROUP))


def declared_names(body, own):
    """The names that a definition makes: its own, its constructors, and those inside a group."""
    names = {own} if own else set()
    data = False
    for line in body:
        begins = BEGINS.match(line)
        if GROUP.match(line):
            continue
        if begins and begins.group(1):
            names.add(begins.group(2))
            data = begins.group(1) == "data"
        elif begins and (data or GROUP.match(body[0])) and line.startswith(" "):
            names.add(begins.group(2))
    return names


def blocks_of_source(text):
    """The types and traits of a file of code, and the clauses of `run`. What is inside a type that contracts see as something else
    is seen by no definition: of that type the line counts that says as what it is seen."""
    found, seen = {}, {}
    lines = text.splitlines()
    for k, line in enumerate(lines):
        begins = re.match(r"(?:pub(?:\(\w+\))? )?(enum|struct|trait|fn) (\w+)", line)
        model = re.match(r"impl(?:<[^>]*>)? Model for (\w+)", line)
        if begins:
            end = k if line.endswith((";", "}")) else next(j for j in range(k, len(lines)) if lines[j] == ("{" if begins.group(1) == "fn" else "}"))
            first = k
            while first and lines[first - 1].startswith(("///", "#[")):
                first -= 1
            body = lines[first:end + (begins.group(1) != "fn")]
            count = len([it for it in body if it.strip() and not it.strip().startswith("#[")])
            bare = "\n".join(it for it in body if not it.strip().startswith(("//", "#[")))
            held = found.setdefault(begins.group(2), Block({begins.group(2)}, "", 0))
            held.text += bare
            held.lines += count
        elif model:
            seen[model.group(1)] = "".join(re.findall(r"^    ghost Value = (.*)$", "\n".join(lines[k:lines.index("}", k)]), re.M))
    for name in seen.keys() & found.keys():
        found[name].text = seen[name]
        found[name].lines += 1
    return list(found.values())


class Definitions:
    """All files that were read, and what is reached of them."""

    def __init__(self):
        self.files, self.reached = {}, {}

    def file(self, path):
        """A file's text, definitions, imports and other names of modules, and its definitions by name; None where there is no such file."""
        if path not in self.files:
            full = os.path.join(TOP, "crates", path)
            if not os.path.isfile(full):
                self.files[path] = None
                return None
            text = read("crates/" + path)
            blocks = blocks_of_specs(text) if path.endswith(".antt") else blocks_of_source(text)
            names, aliases = imported(text)
            index = {}
            for block in blocks:
                for name in block.names:
                    index.setdefault(name, block)
            self.files[path] = (text, blocks, names, aliases, index)
        return self.files[path]

    def place(self, module, name):
        """The file and the name there of what a module of the repository holds, or None where it is another's."""
        parts = module.split(".")
        crate = parts[0]
        if len(parts) > 2 and parts[1] == "specs" and parts[2] in ("declared", "contracts"):
            kinds = [it for it in parts[3:] if it[0].isupper() and not it.startswith("The")]
            folders = [it for it in parts[3:] if not it[0].isupper()]
            path = f"{crate}/src/{'/'.join(folders)}.rt"
            return (path, kinds[0] if kinds else name) if self.file(path) and parts[2] == "declared" else None
        if len(parts) > 2 and parts[1] == "specs":
            path = f"{crate}/specs/{'/'.join(parts[2:])}.antt"
            return (path, name) if self.file(path) else None
        return None

    def rust_place(self, path, name):
        """The file and the name of a type or trait that code names."""
        text = self.file(path)[0]
        crate = path.split("/")[0]
        for origin, listed in re.findall(r"^use ([\w:]+)::(\{[^}]*\}|\w+);$", text, re.M):
            if name not in re.findall(r"\w+", listed):
                continue
            parts = origin.split("::")
            if parts[0] == "crate":
                return f"{crate}/src/{'/'.join(parts[1:])}.rt", name
            door = self.file(f"{parts[0]}/src/lib.rt")
            for module, out in re.findall(r"^pub use ([\w:]+)::(\{[^}]*\}|\w+);$", door[0] if door else "", re.M):
                if name in re.findall(r"\w+", out):
                    return f"{parts[0]}/src/{module.replace('::', '/')}.rt", name
        return None

    def operators(self, path, block):
        """The operators in a definition. `do` joins by one that is not written."""
        _, _, names, _, index = self.file(path)
        for name in {*names, *index}:
            signs = [it for it in name.split("◌") if it]
            if "◌" in name and (all(it in block.text for it in signs) or signs == [">>="] and re.search(r"\bdo$", block.text, re.M)):
                yield name

    def resolve(self, path, word):
        """The file and the name there of what a word of a definition names, or None."""
        _, _, names, aliases, index = self.file(path)
        first, _, rest = word.partition(".")
        if first in aliases and rest:
            return self.place(aliases[first], rest.split(".")[0])
        if first in names:
            return self.place(*names[first])
        if first in index:
            return path, first
        if path.endswith(".rt") and first[0].isupper():
            return self.rust_place(path, first)
        return None

    def follow(self, start):
        """Reaches the definition that stands there, all that it names, and so on."""
        waiting = [start]
        while waiting:
            path, name = waiting.pop()
            file = self.file(path)
            block = file and file[4].get(name)
            if file and not block:
                # A module may hand on what it imports.
                again = self.place(*file[2][name]) if name in file[2] else None
                waiting += [again] if again else []
                continue
            if not block or block in self.reached.get(path, []):
                continue
            self.reached.setdefault(path, []).append(block)
            for word in {*WORD.findall(block.text), *self.operators(path, block)}:
                target = self.resolve(path, word)
                if target and target != (path, name):
                    waiting.append(target)


def lines_of(path):
    """The lines of a file without those that are blank or import."""
    return len([it for it in read("crates/" + path).splitlines() if it.strip() and not re.match(r"\s*(pub )?use ", it)])


def reached():
    definitions = Definitions()
    definitions.follow(START)
    return definitions


def says_of(path):
    """What a new row says: the comment at the beginning of the file."""
    first = next((it for it in read("crates/" + path).splitlines() if it.startswith(("-- ", "//! "))), "")
    return re.sub(r"^(--|//!) ", "", first)


def rows(page, definitions):
    """The rows of each section as they should be."""
    said = {path: says for path, _, _, says in (row.groups() for row in map(ROW.match, page.splitlines()) if row)}
    crates = sections()
    found = {heading: [] for heading in [*crates, UNREACHED]}
    order = {path: place for place, path in enumerate(said)}
    paths = sorted({*definitions.reached, *(it for it in said if os.path.isfile(os.path.join(TOP, "crates", it)))},
                   key=lambda it: (order.get(it, len(order)), it))
    for path in paths:
        count = sum(it.lines for it in definitions.reached.get(path, []))
        whole = lines_of(path) if path.endswith(".antt") else count
        if not whole:
            continue
        heading = next((it for it, listed in crates.items() if count and path.split("/")[0] in listed), UNREACHED)
        place = crates[heading].index(path.split("/")[0]) if heading in crates else 0
        found[heading].append((place, f"| `{path}` | {whole} | {count} | {said.get(path, says_of(path))} |"))
    return {heading: [row for _, row in sorted(listed, key=lambda it: it[0])] for heading, listed in found.items()}


def totals(table):
    counts = [tuple(map(int, ROW.match(row).group(2, 3))) for listed in table.values() for row in listed]
    return sum(it[0] for it in counts), sum(it[1] for it in counts)


def sentence(line):
    """The row of a sentence as it should be."""
    number, path, names, _ = SENTENCE.match(line).groups()
    definitions = Definitions()
    for name in re.findall(r"`(\w+)`", names):
        definitions.follow((path, name))
    count = sum(block.lines for blocks in definitions.reached.values() for block in blocks)
    return f"| {number} | `{path}`{names} | {count:,} |"


def written(page, definitions):
    """The page with its rows and its two sums as they should be."""
    table = rows(page, definitions)
    page = "\n".join(sentence(it) if SENTENCE.match(it) else it for it in page.splitlines())
    lines, done, heading = [], set(), None
    for line in page.splitlines():
        if line.startswith("## "):
            heading = line[3:]
        if ROW.match(line):
            if heading not in done:
                lines += table.get(heading, [])
                done.add(heading)
            continue
        if re.match(r"\|-", line):
            lines.append(line)
            if heading in table and heading not in done:
                lines += table[heading]
                done.add(heading)
            continue
        lines.append(line)
    whole, part = totals(table)
    text = "\n".join(lines) + "\n"
    text = re.sub(r"In all [\d,]+ lines, of which the clauses of `run` reach [\d,]+\.",
                  f"In all {whole:,} lines, of which the clauses of `run` reach {part:,}.", text)
    return text


def main():
    if sys.argv[1:2] in (["-h"], ["--help"]):
        print(__doc__.strip())
        return 0
    definitions = reached()
    if sys.argv[1:] == ["--write"]:
        text = written(read(PAGE), definitions)
        with open(os.path.join(TOP, PAGE), "w", encoding="utf-8") as file:
            file.write(text)
    elif sys.argv[1:]:
        for block in definitions.reached.get(sys.argv[1], []):
            print(block.text.rstrip() + "\n")
    else:
        for heading, listed in rows(read(PAGE), definitions).items():
            print(f"## {heading}")
            print("\n".join(listed))
    return 0


if __name__ == "__main__":
    sys.exit(main())
