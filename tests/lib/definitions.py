"""Reads definition files, and follows names from clauses through imports to all definitions that they rest on."""
import functools
import os
import re

from sources import Sources, one_line, read, without_comment

NAME = re.compile(r"[A-Za-z_][A-Za-z0-9_.]*")
PREFIXES = ("abbrev", "unfoldable", "pub", "data", "record")


def defined_name(line):
    """Returns the name that a line at the left edge defines, if any, and whether it is a `data` type."""
    if not re.match(r"(abbrev|unfoldable|pub) ", line) or re.match(r"pub (mod|use) ", line):
        return "", False
    words = re.split(r"[ :]+", line)
    at = next(at for at, it in enumerate(words) if it not in PREFIXES)
    return words[at], words[at - 1] == "data"


class Imports:
    """The imports of a file: names, each with its module and its name there, and renamed modules."""

    def __init__(self):
        self.names, self.modules = {}, {}

    def add(self, line):
        line = re.sub(r"^\s*((ghost|pub) )*use ", "", line).partition(";")[0].strip()
        group = re.search(r"\.\{(.*)\}", line)
        if group:
            for item in re.split(r", *", group[1]):
                words = item.split(" ")
                self.names[words[-1]] = (line[: group.start()], words[0])
        elif " as " in line:
            module, _, alias = line.partition(" as ")
            self.modules[alias] = module


class Definitions:
    """The definitions in a file: the text of each by its name, and the definition of each constructor."""

    def __init__(self, text):
        self.imports, self.lines, self.holder = Imports(), {}, {}
        name, is_data = "", False
        for line in text.split("\n"):
            line = re.sub(r"--.*$", "", line)
            if re.match(r"(pub )?use ", line):
                self.imports.add(line)
                continue
            new, of_data = defined_name(line)
            if new:
                name, is_data = new, of_data
                self.holder[name] = name
            elif name and is_data and re.match(r"  [^ ]+ :", line):
                self.holder[line.split()[0]] = name
            if name:
                self.lines.setdefault(name, []).append(line)

    def text(self, name):
        return "\n".join(self.lines[name])

    @functools.cache
    def quotable(self, name):
        """Returns what may be quoted of a definition: its entries, and its first line."""
        return {*entries(self.lines[name]), *entries(self.lines[name][:1])}


def entries(lines):
    """Yields each line joined with the more deeply indented lines below it, without `pub` and similar words."""
    found = []
    for at, line in enumerate(lines):
        if not line.strip():
            continue
        depth = len(line) - len(line.lstrip())
        end = at + 1
        while end < len(lines) and (not lines[end].strip() or len(lines[end]) - len(lines[end].lstrip()) > depth):
            end += 1
        found.append(re.sub(r"^((abbrev|unfoldable|pub) )+", "", one_line(" ".join(lines[at:end]))))
    return found


class Walk:
    """Follows names to the definitions that they rest on. The files that another walk has read can be reused."""

    def __init__(self, root, other=None):
        self.root, self.sources = root, other.sources if other else Sources(root)
        self.files, self.above = (other.files, other.above) if other else ({}, {})
        self.without, self.faults = set(), []
        self.needed, self.pending, self.depth = {}, [], 0

    def definitions(self, file):
        if file not in self.files:
            self.files[file] = Definitions(read(f"{self.root}/crates/{file}"))
        return self.files[file]

    def file_of(self, module):
        """Returns the file of a module and the type that it belongs to, or None for a module of the kit."""
        parts = module.split(".")
        if len(parts) < 4 or parts[0] != "Rattle" or parts[1] not in self.sources.crates or parts[2] != "specs":
            return None
        if parts[3] != "declared":
            path = f"{parts[1]}/specs/{parts[3]}.antt"
            # (no such file: a module that the kit generates)
            return (path, "") if os.path.isfile(f"{self.root}/crates/{path}") else None
        for end in range(len(parts) - 1, 4, -1):
            path = f"{parts[1]}/src/{'/'.join(parts[4:end])}.rt"
            if path in self.sources.files:
                return path, parts[end]
        return None

    def need(self, file, name, owner=""):
        """Notes that a definition is needed."""
        if name in self.without:
            return
        if not owner:
            known = self.definitions(file)
            if name not in known.holder:
                if name in known.imports.names:
                    self.follow(known.imports, name)
                else:
                    self.faults.append(f"{file} does not define {name}")
                return
            name = known.holder[name]
        name = owner or name
        if name in self.without or (file, name) in self.needed:
            return
        self.needed[file, name] = self.depth
        self.pending.append((file, name))

    def follow(self, imports, name):
        module, original = imports.names[name]
        target = self.file_of(module)
        if target:
            self.need(target[0], original, target[1])

    def walk(self, text, imports, file=None):
        """Follows all names in a text from a file with these imports."""
        for found in NAME.finditer(text):
            if text[found.start() - 1 : found.start()] == ".":
                continue
            head, _, tail = found[0].partition(".")
            if tail and head in imports.modules:
                target = self.file_of(imports.modules[head] + ".")
                if target:
                    self.need(target[0], tail.partition(".")[0], target[1])
            elif head in imports.names:
                self.follow(imports, head)
            elif file and head in self.definitions(file).holder:
                self.need(file, head)

    def walk_on(self, limit):
        """Follows the names in needed definitions, through at most the given number of definitions."""
        while self.pending:
            file, name = self.pending.pop(0)
            self.depth = self.needed[file, name] + 1
            if file.endswith(".antt") and self.depth < limit:
                known = self.definitions(file)
                self.walk(known.text(name), known.imports, file)
        self.depth = 0

    def imports_above(self, function):
        """Returns the imports of a source file that stand above a function."""
        place = function.file, function.line
        if place not in self.above:
            self.above[place] = Imports()
            lines = read(f"{self.root}/crates/{function.file}").split("\n")
            for line in lines[: function.line]:
                if re.match(r"\s*ghost use ", line):
                    self.above[place].add(without_comment(line))
        return self.above[place]

    def walk_clauses(self, function, labels, limit=1000):
        """Follows the names in the `requires` of a function, and in the given ones of its clauses."""
        imports = self.imports_above(function)
        for kind, label, text in function.clauses:
            if kind == "requires" or label in labels:
                self.walk(text, imports)
        self.walk_on(limit)

    def quotable(self, functions):
        """Returns everything that may be quoted: clauses of the functions, and lines of the needed definitions."""
        found = {text for it in functions for _, _, text in it.clauses}
        for file, name in self.needed:
            if file.endswith(".antt"):
                found |= self.definitions(file).quotable(name)
        return found
