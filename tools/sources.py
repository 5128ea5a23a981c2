"""Reads the crates' sources for tools/contracts, tools/believed, tools/papers and tools/definitions; no command.

Of code (.rt): the public functions with their contracts, the types, the constants. Of definitions (.antt): each with
its lines and the names that stand in it. A line belongs to the declaration above it if it is further in or an equation.
"""
import re
from dataclasses import dataclass, field
from pathlib import Path

ROOT = Path(__file__).resolve().parent.parent
HEAD = re.compile(r'^[ \t]*(?:#\[[^\]]*\]\s*)?pub (?:extern "C" )?fn (\w+)', re.M)
CLAUSE = re.compile(r"(requires\*?|ensures\*?|ghost)(\s+\w+:?)?$")
LAWS = ("crates/*/specs/*.antt", "crates/*/proofs/*.antt")  # the folders of functions below proofs/ are none of them
TYPE = re.compile(r"^pub (?:struct|enum) (\w+)[^\n]*\{\n(.*?)^\}", re.M | re.S)
ALIAS = re.compile(r"^pub type (\w+) = ([^;]*);", re.M)
CONSTANT = re.compile(r"^[ \t]*(?:pub )?const (\w+)[^;]*;", re.M)
DECLARATION = re.compile(r"((?:unfoldable |abbrev |pub )*)((?:record |data )?)(\S+)(.*)", re.S)


@dataclass
class Item:
    """A definition, a type, a constant, a contract or a theorem's statement, with its lines and the names in it."""

    file: str
    name: str
    kind: str
    lines: set
    cites: set = field(default_factory=set)  # names of definitions, or of what it binds itself
    types: set = field(default_factory=set)  # names of types and constants, in code
    patterns: set = field(default_factory=set)  # names on the left of its equations: constructors, or bound there
    bound: set = field(default_factory=set)  # names that it binds in brackets, after λ or let, or as fields
    constructors: list = field(default_factory=list)
    exported: bool = False


# ---- code


def signature(text):
    """The text of a function up to the bracket that opens its body."""
    depth = 0
    for i, ch in enumerate(text):
        if ch == "{":
            if depth == 0 and not CLAUSE.search(text[:i].rstrip()):
                return text[:i]
            depth += 1
        elif ch == "}":
            depth -= 1
    return text


def functions(text):
    """The name, the place and the signature of each public function."""
    return [(found[1], found.start(), signature(text[found.start() :])) for found in HEAD.finditer(text)]


def clauses(head, kind="requires|ensures"):
    """What stands within the brackets of a signature's clauses."""
    found = []
    for start in re.finditer(rf"\b(?:{kind})\*?(?:\s+\w+)?\s*\{{", head):
        depth, end = 1, start.end()
        while depth:
            depth += {"{": 1, "}": -1}.get(head[end], 0)
            end += 1
        found.append(head[start.end() : end - 1])
    return found


def lines_of(text, start, end):
    """The lines from one place of the text up to another, and the attributes and comment lines directly above them."""
    lines, first = text.splitlines(), text[:start].count("\n") + 1
    last = text[: start + len(text[start:end].rstrip())].count("\n") + 1
    while first > 1 and lines[first - 2].lstrip().startswith(("//", "#[")):
        first -= 1
    return set(range(first, last + 1))


def code_names(text):
    """The types that a piece of code names, and the constants that stand under a type's name."""
    plain = re.sub(r"//[^\n]*", "", text)
    return set(re.findall(r"\b[A-Z]\w*[a-z]\w*\b(?!::)", plain)) | set(re.findall(r"\w+::[A-Z][A-Z_]+\b", plain))


def code_items(file, text):
    """The types, the constants and the public functions of a file of code."""
    items = []
    for found in TYPE.finditer(text):
        parts = " ".join(re.sub(r"^\s*(?:pub )?\w+", "", line) for line in found[2].splitlines())
        items.append(Item(file, found[1], "type", lines_of(text, *found.span()), types=code_names(parts)))
    for found in ALIAS.finditer(text):
        items.append(Item(file, found[1], "type", lines_of(text, *found.span()), types=code_names(found[2])))
    for found in CONSTANT.finditer(text):
        items.append(Item(file, found[1], "constant", lines_of(text, *found.span())))
    for name, start, head in functions(text):
        said = " ".join(clauses(head))
        item = Item(file, name, "function", lines_of(text, start, start + len(head)), names_in(said))
        item.exported = 'extern "C"' in head
        item.types = code_names(re.split(r"\b(?:requires|ensures)\b", head)[0]) - {"Self"}
        item.bound = set(re.findall(r"(\w+): ", head)) | bound_in(said) | {"self", "result"}
        items.append(item)
    return items


class Code:
    """A file of code: its items, and what its uses and its ghost uses name."""

    def __init__(self, file, text):
        self.file, self.crate, self.items = file, file.split("/")[1], code_items(file, text)
        self.crates = {}
        for crate, names in re.findall(r"^use (\w+)::([^;]*);", text, re.M):
            self.crates |= {name: crate for name in re.findall(r"\b\w+\b(?!::)", names)}
        self.uses, self.aliases, self.names = {}, {}, {}
        for module, names in re.findall(r"^ghost use (\S+)\.\{(.*)\};", text, re.M):
            self.uses |= imported(module, names)


# ---- definitions


def names_in(text):
    """The names in a piece of text, with the projections that are tight on them; no other projections, no numbers."""
    words = (word.rstrip(".") for word in re.split(r"[\s(){};,⌜⌝«»]+", text))
    return {word for word in words if word and not word.startswith(".") and not word.isdigit()}


def bound_in(text):
    """The names that a piece of text binds: in brackets before a colon, after λ, after let."""
    found = set(re.findall(r"\blet (\S+)", text))
    for group in re.findall(r"[({]([^(){}:=]+) : ", text):
        found |= set(group.split())
    for group in re.findall(r"λ ([^.]*)\.", text):
        found |= set(re.sub(r"[({][^)}]*[)}]", " ", group).split())
    return found


def signs(name):
    """A name, and the signs of an operator: ◌⊕◌ is written ⊕."""
    return [name, *(sign for sign in name.split("◌") if "◌" in name and sign)]


def imported(module, names):
    """The local names of a use line, each with its module and its name there."""
    found = {}
    for name in names.split(", "):
        theirs, _, ours = name.partition(" as ")
        found |= {sign: (module, theirs) for sign in signs(ours or theirs)}
    return found


def inner_names(body):
    """The fields of a record or the constructors of a data type, and the text without them."""
    margin = min((len(line) - len(line.lstrip()) for line in body if line), default=0)
    names, text = [], []
    for line in body:
        found = re.match(rf"\s{{{margin}}}(?:pub )?([^\s:]+(?: [^\s:]+)*) :(.*)", line)
        names += found[1].split() if found else []
        text.append(found[2] if found else line)
    return names, " ".join(text)


def filled(item, outer, parts):
    """The item with its lines and names; outer is the text of the modules that it stands in."""
    item.lines |= {number for _, lines in parts for number, _ in lines}
    head, *body = [line for _, line in parts[0][1]]
    text = DECLARATION.fullmatch(head)[4]
    if item.kind in ("record", "data"):
        inner, rest = inner_names(body)
        item.constructors = inner if item.kind == "data" else []
        item.bound |= set(inner) if item.kind == "record" else set()
    else:
        rest = " ".join(body)
    text += " " + rest + " " + outer
    for kind, lines in parts[1:]:
        if kind == "equation":
            left, right = re.split(r" =(?=\s|$)", "\n".join(line for _, line in lines), maxsplit=1)
            item.patterns |= names_in(left)
            text += " " + re.sub(r"(?<=[{;])\s*[^\s{};]+ =(?=\s)", " ", right)
    item.bound |= bound_in(text)
    item.cites = names_in(text)
    return item


class Spec:
    """A file of definitions: what it uses, its items, and the statement of each."""

    def __init__(self, file, text):
        self.file, self.uses, self.aliases, self.items, self.statements = file, {}, {}, [], {}
        self.modules, self.above, self.open, self.parts = [], set(), None, []
        for number, line in enumerate(text.splitlines(), 1):
            self.take(number, line, re.sub(r"(^|\s)--.*", "", line).rstrip())
        self.close()
        self.names = {}
        for item in self.items:
            for name in [*signs(item.name), *item.constructors]:
                self.names.setdefault(name, []).append(item)

    def take(self, number, whole, line):
        """One line; `line` is without its comment."""
        indent = len(whole) - len(whole.lstrip())
        if not whole:
            self.above = set()
        elif self.open and indent > self.open[0]:
            self.parts[-1][1].append((number, line))
        elif self.modules and self.modules[-1]["open"]:
            module = self.modules[-1]
            module["lines"].add(number)
            module["text"] += " " + line
            module["open"] = not line.endswith(" where")
        else:
            while self.modules and indent < self.modules[-1]["indent"]:
                self.modules.pop()
            self.begin(number, line.strip(), indent)

    def begin(self, number, line, indent):
        """A line at the margin of its module."""
        modifiers, kind, name, rest = DECLARATION.fullmatch(line).groups() if line else ("",) * 4
        if not line or line.startswith("infix"):
            self.above.add(number)
        elif line.startswith("use "):
            self.use(line)
        elif line.startswith("module "):
            above = self.close()
            whole = line.endswith(" where")
            self.modules.append({"indent": indent + 2, "lines": above | {number}, "text": line, "open": not whole})
        elif modifiers or kind or re.match(r"( \{[^}]*\})* :(\s|$)", rest):
            above = self.close()
            law = "law" if not set(modifiers.split()) & {"abbrev", "unfoldable"} else "definition"
            self.open = (indent, name, kind.strip() or law, above, list(self.modules))
            self.parts = [("head", [(number, line)])]
        elif self.open and line[0] in ")]}":
            self.parts[-1][1].append((number, line))
        elif self.open:
            kind = "unfolding" if line.startswith("unfolding ") else "equation"
            self.parts.append((kind, [(comment, "") for comment in sorted(self.above)] + [(number, line)]))
            self.above = set()

    def use(self, line):
        if found := re.fullmatch(r"use (\S+) as (\S+)", line) or re.fullmatch(r"use ((?:\S+\.)?([^\s.{}]+))", line):
            self.aliases[found[2]] = found[1]
        else:
            self.uses |= imported(*re.fullmatch(r"use (\S+)\.\{(.*)\}", line).groups())

    def close(self):
        """Keeps the item that was read up to here; gives the comment lines that stand directly above what comes."""
        above = self.above
        if self.open:
            _, name, kind, lines, modules = self.open
            lines = lines.union(*(module["lines"] for module in modules))
            outer = " ".join(re.sub(r"^module _|where$", "", module["text"]) for module in modules)
            self.items.append(filled(Item(self.file, name, kind, set(lines)), outer, self.parts))
            self.statements[name] = filled(Item(self.file, name, "theorem", set(lines)), outer, self.parts[:1])
        self.open, self.parts, self.above = None, [], set()
        return above
