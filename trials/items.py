"""Reads the items of the library's sources, with their doc comments, for `trials/api` and `trials/examples`.

A source is read token by token, for modules, imports by `use`, functions with their signatures, structs, enums, traits,
impls, aliases and macros. Tests are left out, and so are clauses, bodies and ghost items.
"""
import os, re
from dataclasses import dataclass, field

ROOT = os.path.realpath(f"{os.path.dirname(os.path.realpath(__file__))}/..")

# ---- tokens of a source

TOKEN = re.compile(
    r"""(?P<inner>//![^\n]*) | (?P<doc>///[^\n]*) | (?P<comment>//[^\n]*|/\*.*?\*/)
    | (?P<string>b?"(?:\\.|[^"\\])*") | (?P<char>b?'(?:\\(?:x..|u\{[^}]*\}|.)|[^'\\])')
    | (?P<word>\w+) | (?P<mark>->|::|=>|\S)""",
    re.X | re.S,
)
CLOSES = {"(": ")", "[": "]", "{": "}"}


@dataclass
class Token:
    kind: str
    text: str
    start: int
    end: int


def tokens_of(text):
    return [Token(it.lastgroup, it.group(), it.start(), it.end()) for it in TOKEN.finditer(text)]


# ---- items


@dataclass
class Item:
    kind: str
    name: str
    public: bool
    doc: list
    file: str
    line: int
    # a signature without clauses, and the bounds of its `where`
    head: str = ""
    bounds: str = ""
    members: list = field(default_factory=list)
    # of an impl, whose name is that of its type
    trait: str = ""


@dataclass(eq=False)
class Module:
    name: str
    parent: "Module"
    file: str
    doc: list = field(default_factory=list)
    public: bool = True
    items: list = field(default_factory=list)
    modules: dict = field(default_factory=dict)
    # the imports of `use`: the name, the path, and whether it is public
    uses: list = field(default_factory=list)

    def root(self):
        return self.parent.root() if self.parent else self

    def path(self):
        return f"{self.parent.path()}::{self.name}" if self.parent else self.name


class Reader:
    """Reads the items of a source."""

    def __init__(self, file):
        self.file = file
        with open(f"{ROOT}/{file}", encoding="utf-8") as it:
            self.text = it.read()
        self.tokens = [it for it in tokens_of(self.text) if it.kind != "comment"]
        self.at = 0

    def ends(self):
        return self.at >= len(self.tokens)

    def peek(self):
        return "" if self.ends() else self.tokens[self.at].text

    def take(self):
        self.at += 1
        return self.tokens[self.at - 1]

    def skip_group(self):
        """Skips a bracket, its contents, and the bracket that closes it."""
        closing = [CLOSES[self.take().text]]
        while closing:
            it = self.take()
            if it.kind == "mark" and it.text in CLOSES:
                closing.append(CLOSES[it.text])
            elif it.kind == "mark" and it.text == closing[-1]:
                closing.pop()

    def skip_to(self, *ends, angles=0):
        """Skips all tokens before one of these, outside of brackets (and of angles, if they count 1), and returns them as they are written, without comments."""
        start, depth = self.at, 0
        while not self.ends() and (depth > 0 or self.peek() not in ends):
            if self.peek() in CLOSES and self.tokens[self.at].kind == "mark":
                self.skip_group()
                continue
            depth += {"<": angles, ">": -angles}.get(self.peek(), 0)
            self.at += 1
        return self.written(start, self.at)

    def written(self, start, end):
        held = [it for it in self.tokens[start:end] if it.kind not in ("doc", "inner")]
        text, last = "", None
        for it in held:
            text += (" " if last is not None and last != it.start else "") + it.text
            last = it.end
        return text

    def line(self):
        return self.text.count("\n", 0, self.tokens[self.at].start) + 1


def clean(line):
    text = line[3:]
    return text[1:] if text.startswith(" ") else text


def read_use(reader, public, module):
    """A `use`, whose tree is spread into paths."""
    written = reader.skip_to(";")
    reader.take()
    spread(written.replace(" as ", "=").replace(" ", ""), [], public, module)


def spread(tree, before, public, module):
    """Adds the paths of a tree, as `a::{b, c::d}`, each after the path `before`, to the module's imports."""
    if tree.startswith("{"):
        for part in parts_of(tree[1:-1]):
            spread(part, before, public, module)
        return
    first, joined, rest = tree.partition("::")
    if joined:
        spread(rest, [*before, first], public, module)
        return
    name, _, alias = first.partition("=")
    if name != "*":
        path = before if name == "self" else [*before, name]
        module.uses.append((alias or path[-1], path, public))


def parts_of(text):
    """The parts of a text between commas outside of brackets."""
    parts, depth, last = [], 0, ""
    for it in text:
        depth += (it in "([{<") - (it in ")]}" or (it == ">" and last != "-"))
        if it == "," and depth == 0:
            parts.append("")
        else:
            parts.append((parts.pop() if parts else "") + it)
        last = it
    return [it.strip() for it in parts if it.strip()]


def read_bounds(reader, item):
    """The bounds of a signature whose head was read; its clauses are skipped."""
    if reader.peek() == "where":
        reader.take()
        item.bounds = reader.skip_to("requires", "ensures", "{", ";").strip().rstrip(",")
    while reader.peek() in ("requires", "ensures"):
        reader.skip_to("{")
        reader.skip_group()


def read_function(reader, item):
    item.head = reader.skip_to("where", "requires", "ensures", "{", ";")
    item.name = re.search(r"\bfn (\w+)", item.head).group(1)
    read_bounds(reader, item)
    if reader.peek() == "{":
        reader.skip_group()
    else:
        reader.take()


def read_struct(reader, item):
    """A struct, with its fields; those of a tuple if all are public."""
    item.head = reader.skip_to("where", "{", "(", ";", angles=1)
    item.name = re.search(r"\bstruct (\w+)", item.head).group(1)
    if reader.peek() == "where":
        reader.take()
        item.bounds = reader.skip_to("{", ";").strip().rstrip(",")
    if reader.peek() == "(":
        start = reader.at
        reader.skip_group()
        held = parts_of(reader.written(start + 1, reader.at - 1))
        if all(it.startswith("pub ") for it in held):
            item.head += f"({', '.join(it[4:] for it in held)})"
        item.bounds = reader.skip_to(";").removeprefix("where").strip() or item.bounds
        reader.take()
    elif reader.peek() == "{":
        item.members = read_group(reader, read_fields)
    else:
        reader.take()


def read_group(reader, read):
    """Returns the result of `read` on the tokens in brackets."""
    start = reader.at
    reader.skip_group()
    inside = Reader.__new__(Reader)
    inside.file, inside.text, inside.at = reader.file, reader.text, 0
    inside.tokens = reader.tokens[start + 1 : reader.at - 1]
    return read(inside)


def read_fields(reader):
    """Fields, or the variants of an enum."""
    fields = []
    while not reader.ends():
        doc, line = read_doc(reader), reader.line()
        ghost = reader.peek() == "ghost"
        head = skip_field(reader)
        public = head.startswith("pub ")
        name = re.match(r"(?:pub(?:\([^)]*\))? )?(\w+)", head).group(1)
        if not ghost:
            fields.append(Item("field", name, public, doc, reader.file, line, head=head.removeprefix("pub ")))
    return fields


def skip_field(reader):
    """A field, whose type may have commas between its angles."""
    start, depth = reader.at, 0
    while not reader.ends() and not (reader.peek() == "," and depth == 0):
        if reader.peek() in CLOSES:
            reader.skip_group()
            continue
        depth += {"<": 1, ">": -1}.get(reader.peek(), 0)
        reader.at += 1
    head = reader.written(start, reader.at)
    if not reader.ends():
        reader.take()
    return head


def read_enum(reader, item):
    item.head = reader.skip_to("where", "{")
    item.name = re.search(r"\benum (\w+)", item.head).group(1)
    reader.skip_to("{")
    item.members = read_group(reader, read_fields)


def read_trait(reader, item):
    item.head = reader.skip_to("where", "{")
    item.name = re.search(r"\btrait (\w+)", item.head).group(1)
    read_bounds(reader, item)
    item.members = read_group(reader, read_members)


def read_impl(reader, item):
    item.head = reader.skip_to("where", "{")
    read_bounds(reader, item)
    item.members = read_group(reader, read_members)
    trait, kind = split_for(re.sub(r"^impl\s*", "", item.head))
    item.trait, item.name = trait, kind


def split_for(head):
    """The trait and the type of an impl's head without `impl`; no trait if it has none."""
    depth, start = 0, 0
    for place, it in enumerate(head):
        depth += {"<": 1, ">": -1}.get(it, 0) if head[place - 1 : place] != "-" else 0
        if depth == 0 and head.startswith("<") and not start:
            start = place + 1
        if depth == 0 and head.startswith(" for ", place):
            return head[start:place].strip(), head[place + 5 :]
    return "", head[start:].strip()


def read_members(reader):
    """The functions and types of a trait or an impl."""
    members = []
    while not reader.ends():
        item = read_item(reader, None)
        if item:
            members.append(item)
    return members


def read_alias(reader, item):
    item.head = reader.skip_to(";").replace("( ", "(").replace(" )", ")")
    item.name = re.search(r"\b(?:type|const|static) (\w+)", item.head).group(1)
    reader.take()


def read_macro(reader, item):
    reader.take()
    reader.take()
    item.name = reader.take().text
    item.head = f"{item.name}!"
    reader.skip_group()


def read_doc(reader):
    """The doc comment before an item, past its attributes."""
    doc = []
    while not reader.ends():
        if reader.tokens[reader.at].kind == "doc":
            doc.append(clean(reader.take().text))
        elif reader.tokens[reader.at].kind == "inner":
            reader.take()
        elif reader.peek() == "#":
            reader.take()
            if reader.peek() == "!":
                reader.take()
            reader.skip_group()
        else:
            break
    return doc


READS = {"fn": read_function, "struct": read_struct, "enum": read_enum, "trait": read_trait, "impl": read_impl}
READS |= {"type": read_alias, "const": read_alias, "static": read_alias, "macro_rules": read_macro}


def read_visibility(reader):
    """Whether an item is public to all."""
    if reader.peek() != "pub":
        return False
    reader.take()
    if reader.peek() == "(":
        reader.skip_group()
        return False
    return True


def read_item(reader, module):
    """The next item; none where there is none to keep."""
    attributes = reader.at
    doc = read_doc(reader)
    if reader.ends():
        return None
    tested = "cfg(test)" in reader.written(attributes, reader.at).replace(" ", "")
    public = read_visibility(reader)
    words = [it.text for it in reader.tokens[reader.at : reader.at + 3]]
    kind = next((it for it in words if it in READS), words[0])
    if words[0] == "ghost":
        reader.skip_to(";")
        reader.take()
    elif words[0] == "use":
        reader.take()
        read_use(reader, public, module)
    elif words[0] == "mod":
        read_module_item(reader, public, module, tested)
    else:
        item = Item(kind, "", public, doc, reader.file, reader.line())
        READS[kind](reader, item)
        return None if tested else item
    return None


def read_module_item(reader, public, module, tested):
    reader.take()
    name = reader.take().text
    if reader.peek() == "{":
        inside = Module(name, module, reader.file, public=public)
        read_group(reader, lambda it: fill(it, inside))
    else:
        reader.take()
        inside = None if tested else read_module(name, module, public, file_of(module, name))
    if not tested:
        module.modules[name] = inside


def file_of(module, name):
    """The file of a submodule: beside the root file, or in the folder with the name of the module around it."""
    base = module.file.removesuffix(".rt")
    return f"{os.path.dirname(base) if base.endswith('/lib') else base}/{name}.rt"


def fill(reader, module):
    while not reader.ends():
        item = read_item(reader, module)
        if item:
            module.items.append(item)


def read_module(name, parent, public, file):
    reader = Reader(file)
    module = Module(name, parent, file, public=public)
    module.doc = [clean(it.text) for it in reader.tokens if it.kind == "inner"]
    fill(reader, module)
    return module


# ---- the meaning of names


def read_crates(top):
    """A crate and those that crates.txt lists below it, in the order of that list."""
    with open(f"{ROOT}/crates.txt", encoding="utf-8") as it:
        lines = [line.split(":") for line in it if line.strip() and not line.startswith("#")]
    below = {name.split()[0]: needs.split() for name, needs in lines}
    wanted = {top, *below[top]}
    return {name: read_module(name, None, True, f"crates/{name}/src/lib.rt") for name in below if name in wanted}


class Names:
    """Finds the items and the modules that a path names."""

    def __init__(self, crates):
        self.crates = crates

    def of_path(self, path, module, seen=()):
        first, rest = path[0], path[1:]
        if first in ("crate", "super", "self"):
            found = [{"crate": module.root(), "super": module.parent, "self": module}[first]]
        else:
            found = self.of_name(first, module, seen) or ([self.crates[first]] if first in self.crates else [])
        for name in rest:
            found = [it for inside in found if isinstance(inside, Module) for it in self.of_name(name, inside, seen)]
        return found

    def of_name(self, name, module, seen=()):
        """All meanings of a name in a module: an item, a module and a macro may share one."""
        if (name, module.path()) in seen:
            return []
        seen = (*seen, (name, module.path()))
        found = [it for it in module.items if it.name == name and it.kind not in ("impl", "macro_rules")]
        found += [module.modules[name]] if name in module.modules else []
        found += self.macro(name, module) if module.parent is None else []
        return found + [it for used, path, _ in module.uses if used == name for it in self.of_path(path, module, seen)]

    def macro(self, name, module):
        here = [it for it in module.items if it.kind == "macro_rules" and it.name == name]
        return here + [it for inside in module.modules.values() for it in self.macro(name, inside)]

    def modules(self):
        """Each module, after the one around it."""
        queue = list(self.crates.values())
        for module in queue:
            queue += module.modules.values()
        return queue


def offered(names, module):
    """The public names of a module, each with its item or module."""
    for name, inside in module.modules.items():
        if inside.public:
            yield name, inside
    for item in module.items:
        if item.public and item.kind != "macro_rules":
            yield item.name, item
    for name, path, public in module.uses:
        if public:
            targets = names.of_path(path, module)
            macros = [it for it in targets if isinstance(it, Item) and it.kind == "macro_rules"]
            yield from ((name, it) for it in macros or targets)
