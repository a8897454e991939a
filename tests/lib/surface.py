"""Lists the public items of the crate vt100, and compares docs/INTERFACE.md with them: see tests/surface."""
import glob
import re

from sources import BLOCK, Block, functions_in, one_line, read, without_comment, without_generics

ROOT_CRATE = "vt100"
ITEM = re.compile(r"^pub (?:unsafe )?(?P<kind>struct|enum|trait|union|type|const|static|mod) (?P<name>\w+)")
SECTION_END = re.compile(r"^#+ ", re.M)


def split_at_commas(text):
    """Returns the parts of a text between its commas, except for commas in parentheses and brackets."""
    parts, depth, part = [], 0, ""
    for at, it in enumerate(text):
        depth += (it in "([{<") - (it in ")]}" or (it == ">" and text[at - 1] != "-"))
        if it == "," and not depth:
            parts.append(part.strip())
            part = ""
        else:
            part += it
    return [it for it in [*parts, part.strip()] if it]


class File:
    """A source file, without its comments."""

    def __init__(self, path, module):
        self.text = read(path)
        self.module = module
        self.lines = [without_comment(it).rstrip() for it in self.text.split("\n")]
        self.functions = functions_in(module, self.text)

    def head(self, at):
        """Returns the text from a line to its body or semicolon, as one line."""
        end = next(it for it in range(at, len(self.lines)) if self.lines[it].endswith(("{", "}", ";", "where")))
        return re.sub(r"\s*(\{.*|;)$", "", one_line(" ".join(self.lines[at : end + 1])))

    def body(self, at):
        """Returns the lines between the braces of an item at the left edge."""
        if self.lines[at].endswith((";", "{}")):
            return []
        start = next(it for it in range(at, len(self.lines)) if self.lines[it].endswith("{"))
        return self.lines[start + 1 : self.lines.index("}", start)]

    def defines(self, name):
        """Returns whether the file defines a type with this name."""
        return re.search(rf"^(pub(\(.*\))? )?(struct|enum|union) {re.escape(name)}(?!\w)", self.text, re.M) is not None

    def derived(self, at):
        """Returns the traits that the attributes above an item derive."""
        found = []
        while at > 0 and re.match(r"#\[|///|$", self.text.split("\n")[at - 1]):
            at -= 1
            derive = re.match(r"#\[derive\((.*)\)\]", self.lines[at])
            found += split_at_commas(derive[1]) if derive else []
        return found


class Surface:
    """All public items of a crate, one line each, and its public functions by owner and name."""

    def __init__(self, root):
        self.lines, self.functions, self.items_of = set(), [], {}
        libraries = re.search(rf"^{ROOT_CRATE}: (.*)$", read(f"{root}/crates.txt"), re.M)[1].split()
        self.files = {}
        for crate in [ROOT_CRATE, *libraries]:
            for path in sorted(glob.glob(f"{root}/crates/{crate}/src/**/*.rt", recursive=True)):
                name = path[len(f"{root}/crates/") :]
                self.files[name] = File(path, name)
        self.names = {}
        self.read_module(f"{ROOT_CRATE}/src/lib.rt", "")
        for name in self.names:
            self.read_impls(name)

    def read_module(self, file, prefix):
        """Adds the items that a public module contains or re-exports."""
        source = self.files[file]
        for at, line in enumerate(source.lines):
            item = ITEM.match(line)
            if item and item["kind"] == "mod":
                self.lines.add(f"mod {prefix}{item['name']}")
                inner = f"{prefix}{item['name']}::"
                self.read_module(f"{ROOT_CRATE}/src/{inner[:-2].replace('::', '/')}.rt", inner)
            elif item:
                self.add_item(source, at, item, prefix)
            elif line.startswith("pub use "):
                text = " ".join(source.lines[at:]).partition(";")[0]
                self.read_use(one_line(text[len("pub use ") :]), prefix)
        for it in source.functions:
            if it.is_public and not it.block:
                self.add_function(it, prefix)

    def read_use(self, path, prefix):
        """Adds the items that a `pub use` re-exports."""
        path, _, group = path.partition("{")
        names = split_at_commas(group.rstrip("}")) if group else [path.rpartition("::")[2]]
        parts = path.split("::")[:-1]
        crate = parts[0] if f"{parts[0]}/src/lib.rt" in self.files else ROOT_CRATE
        modules = parts[1:] if crate == parts[0] else parts
        for name in names:
            found = list(self.defined(self.folder_of(crate, modules, name), name))
            if len(found) != 1:
                self.lines.add(f"use {prefix}{name}: {len(found)} items of {crate} have this name")
            for source, at, item in found:
                if item:
                    self.add_item(source, at, item, prefix, f" of {crate}")
                else:
                    self.add_function(at, prefix, f" of {crate}")

    def folder_of(self, crate, modules, name):
        """Returns the prefix of the paths of the files that can define a name exported by a crate or one of its
        modules.
        """
        if not modules:
            text = one_line(" ".join(self.files[f"{crate}/src/lib.rt"].lines))
            module = re.search(rf"pub use ([\w:]+)::(?:\{{[^}}]*\b{name}\b[^}}]*\}}|{name});", text)
            modules = module[1].split("::") if module else []
        return "/".join([crate, "src", *modules])

    def defined(self, folder, name):
        """Returns the public items with a name: the file, the line and its match, or for a function the function and
        None.
        """
        for file, source in self.files.items():
            if not file.startswith(folder):
                continue
            for at, line in enumerate(source.lines):
                item = ITEM.match(line)
                if item and item["name"] == name and item["kind"] != "mod":
                    yield source, at, item
            for it in source.functions:
                if it.name == name and it.is_public and not it.block:
                    yield source, it, None

    def add_function(self, function, prefix, of=""):
        """Adds a function, with the crate that defines it if it is re-exported."""
        self.functions.append((prefix, function))
        head = re.sub(r"^pub ", "", function.signature).replace("( ", "(").replace(", )", ")")
        self.lines.add(re.sub(r"\bfn (\w+)", rf"fn {prefix}\1", head, count=1) + of)

    def add_item(self, source, at, item, prefix, of=""):
        """Adds a type, a trait or a constant, with its variants, fields and associated items."""
        kind, name = item["kind"], item["name"]
        head = re.sub(rf"^pub (.*?)\b{name}\b", rf"\1{prefix}{name}", source.head(at))
        self.lines.add(head + of)
        if kind in ("struct", "enum", "trait", "union"):
            self.names[name] = source
            self.lines.update(f"impl {it} for {name}" for it in source.derived(at))
        body = source.body(at) if kind in ("struct", "enum", "trait", "union") else []
        if kind == "enum":
            text = re.sub(r"#\[[^\]]*\]", "", one_line(" ".join(body)))
            self.lines.update(f"variant {name}::{it}" for it in split_at_commas(text))
        elif kind == "trait":
            self.add_associated(name, body)
            for it in source.functions:
                if it.block and it.block.is_trait and it.owner == name:
                    self.add_function(it, f"{name}::")
        else:
            fields = (re.match(r"    pub (?:ghost )?(\w+: .*?),?$", it) for it in body)
            self.lines.update(f"field {name}::{it[1]}" for it in fields if it)

    def add_associated(self, owner, body):
        """Adds the types and the ghost items of a trait, or of an implementation of one."""
        for line in body:
            found = re.match(r"    (type \w+.*?|ghost \w+: .*?);?$", line)
            if found:
                kind, _, rest = found[1].partition(" ")
                self.lines.add(f"{kind} {owner}::{rest}")

    def read_impls(self, name):
        """Adds the functions and constants of a type, and the traits that it implements or that implement it."""
        for source in self.files.values():
            for at, line in enumerate(source.lines):
                if BLOCK.match(line) and not line.startswith("pub trait"):
                    self.read_impl(source, at, Block(source.head(at)), name)

    def read_impl(self, source, at, block, name):
        owner = block.owner
        own_trait = block.trait.rpartition("::")[2] == name
        if source is not self.names[name] and source.defines(name):
            return
        if block.trait and (owner == name or own_trait and self.is_public_type(owner)):
            self.lines.add(without_bounds(block.head))
            self.add_associated(owner, source.body(at) if owner == name else [])
        elif not block.trait and owner == name:
            last = at + 1 + len(source.body(at))
            for it in source.functions:
                if it.is_public and at < it.line <= last + 1:
                    self.add_function(it, f"{name}::")
            for line in source.body(at):
                found = re.match(r"    pub const (\w+: .*?);?$", line)
                if found:
                    self.lines.add(f"const {name}::{found[1]}")

    def is_public_type(self, name):
        """Returns whether a type belongs to the public items or to the language."""
        return name in self.names or not any(it.defines(name) for it in self.files.values())

    def failing_types(self):
        """Returns the iterators whose items are results."""
        found = (re.match(r"type (\w+)::Item = Result<.*, Error>", it) for it in self.lines)
        return {it[1] for it in found if it}


# Items that differ only in one name are written in one line, with bars between the names.
JOINED = re.compile(
    r"(impl )(.*?)( for .*)|(variant \w+::)(.*)()|(fn (?:\w+::)?)(\w+(?: \| \w+)*)(.*)"
    r"|(struct |enum )(.*?)( of \w+)|(type )(\w+(?: \| \w+)*)(::.*)"
)
LENGTH = 120


def parts_of(line):
    """Returns the text before the name or names in a line, these names, and the text after them."""
    found = JOINED.fullmatch(line)
    return [it for it in found.groups() if it is not None] if found else (line, "", "")


def joined(lines):
    """Returns the lines in order, with items joined up to a length of the line."""
    found = {}
    for line in sorted(lines):
        start, name, end = parts_of(line)
        texts = found.setdefault((start, end), [])
        if texts and len(start + texts[-1] + name + end) + 3 <= LENGTH:
            texts[-1] += f" | {name}"
        else:
            texts.append(name)
    return [f"{start}{text}{end}" for (start, end), texts in found.items() for text in texts]


def parted(lines):
    """Returns the items of lines in which some are joined."""
    return {start + name + end for start, names, end in map(parts_of, lines) for name in names.split(" | ")}


def without_bounds(head):
    """Returns the head of an implementation, without the parameters after `impl`."""
    return re.sub(r"^(unsafe )?impl<(?:[^<>]|<[^<>]*>)*> ", "impl ", head)


def parameters(function):
    """Returns the names and types of a function's parameters, except `self`."""
    inside = re.search(r"fn \w+(?:<(?:[^<>]|<[^<>]*>)*>)?\((.*?)\)(?: -> .*)?$", function.signature)[1]
    pairs = [it.partition(":") for it in split_at_commas(inside)]
    pairs = [(name.strip().lstrip("_"), of.strip()) for name, _, of in pairs]
    return [(name, of) for name, of in pairs if not re.search(r"\bself$", name)]


def fails(function, failing):
    """Returns whether a function returns a result with `Error`, or an iterator over such results."""
    result = function.signature.partition(" where ")[0].rpartition(" -> ")[2]
    return re.match(r"Result<.*, Error>$", result) is not None or without_generics(result) in failing


class Interface:
    """Compares docs/INTERFACE.md with the surface."""

    def __init__(self, surface, text):
        self.surface, self.text, self.faults = surface, text, []
        self.failing = surface.failing_types()

    def check(self):
        for line in sorted(self.surface.lines):
            found = re.match(r"(?:unsafe |const )*(?:fn|const) (\w+(?:::\w+)*)", line)
            if found and not re.search(rf"\b{found[1].rpartition('::')[2]}\b", self.text):
                self.faults.append(f"not in docs/INTERFACE.md: {found[1]}")
        for section in SECTION_END.split(self.text)[1:]:
            title = section.partition("\n")[0]
            for line in section.split("\n")[1:]:
                self.check_line(title, line)
        return self.faults

    def check_line(self, title, line):
        """Compares the arguments of each call that a line shows, and the **M** in a row of a table."""
        bullet = re.match(r"- `(\w+)`", line)
        owners = {bullet[1]} if bullet else set(re.findall(r"\w+", title))
        is_row = line.startswith("| ") and owners & set(self.surface.names)
        shown = line.split(" | ")[0] if is_row else line
        for name, inside in re.findall(r"`(\w+)\(([^`]*)\)`", shown):
            for prefix, it in self.surface.functions:
                if it.name == name and prefix.rstrip(":") in owners:
                    self.check_call(it, inside)
                    if is_row:
                        self.check_mark(it, "**M**" in line)

    def check_call(self, function, inside):
        shown, wanted = split_at_commas(inside), parameters(function)
        if len(shown) != len(wanted) or not all(map(is_shown_as, wanted, shown)):
            names = ", ".join(it for it, _ in wanted)
            self.faults.append(f"docs/INTERFACE.md: {function.name}({inside}) takes ({names})")

    def check_mark(self, function, is_marked):
        if fails(function, self.failing) != is_marked:
            word = "a mark that it must not have" if is_marked else "no mark"
            self.faults.append(f"docs/INTERFACE.md: {function.owner}::{function.name} has {word}")


def is_shown_as(parameter, shown):
    """Returns whether a document shows a parameter by its name or as a tuple."""
    name, of = parameter
    return of.startswith("(") if shown.startswith("(") else re.sub(r"^&(mut )?", "", shown) == name
