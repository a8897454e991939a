"""Reads Rattle sources: the functions of a crate, with their signatures and clauses.

This is not a parser of the language. It relies on the layout of `rt fmt`: items and their closing braces begin at
the left edge or four columns in, and each clause begins on its own line.
"""
import functools
import glob
import os
import re

FUNCTION = re.compile(
    r"^(?P<indent> *)(?P<public>pub(?:\([\w ]+\))? )?(?P<kind>(?:const |unsafe |extern \"C\" )*)fn (?P<name>\w+)"
)
BLOCK = re.compile(r"^(?:pub )?(?:unsafe )?(?P<kind>impl|trait)\b(?P<rest>.*)")
CLAUSE = re.compile(r"^\s+(?P<kind>requires|ensures)\*?\s+(?:(?P<label>\w+)\s+)?\{")


def read(path):
    with open(path, encoding="utf-8") as file:
        return file.read()


def one_line(text):
    """Returns the text with each run of blanks and line ends replaced by one space."""
    return " ".join(text.split())


def without_generics(text):
    """Returns the text without the parts in angle brackets."""
    text = text.replace("->", "\0")
    while re.search(r"<[^<>]*>", text):
        text = re.sub(r"<[^<>]*>", "", text)
    return text.replace("\0", "->")


def without_comment(line):
    return re.sub(r"(^|\s)//.*$", "", line)


class Block:
    """An `impl` or `trait` block: the type or trait that it belongs to, and the trait that it implements."""

    def __init__(self, line):
        found = BLOCK.match(line)
        self.is_trait = found["kind"] == "trait"
        self.head = one_line(line.rstrip(" {"))
        plain = without_generics(found["rest"].partition("{")[0]).partition(" where ")[0]
        trait, is_impl, owner = plain.rpartition(" for ")
        self.trait = trait.strip() if is_impl else ""
        self.owner = owner.partition(":")[0].strip() if self.is_trait else owner.strip()


class Function:
    """A function: where it is (its line, and the first and the last one with its attributes and its body), its
    signature, and its clauses by label (`""` for one without a label)."""

    def __init__(self, file, lines, at, found, block):
        self.file, self.line, self.block = file, at + 1, block
        ends = (found["indent"] + "}", found["indent"] + "{}")
        self.last = next((it + 1 for it in range(at, len(lines)) if lines[it] in ends), self.line)
        self.first = self.line
        while lines[self.first - 2].startswith(found["indent"] + "#["):
            self.first -= 1
        self.name, self.is_public = found["name"], found["public"] == "pub "
        self.owner = block.owner if block else ""
        self.signature = ""
        self.clauses = []

    def labels(self):
        return [label for kind, label, _ in self.clauses if kind == "ensures" and label]

    @functools.cache
    def module(self):
        """The crate and modules of the function, such as `vt100::laws`."""
        crate, _, inside = self.file.partition("/src/")
        path = re.sub(r"\.rt$", "", inside).replace("/", "::")
        return crate if path in ("lib", "main") else f"{crate}::{path}"

    @functools.cache
    def path(self):
        return "::".join(it for it in (self.module(), self.owner, self.name) if it)


def head_lines(lines, first, indent):
    """Returns the lines of a function from its `fn` to the last one before its body."""
    for at in range(first, len(lines)):
        line = without_comment(lines[at]).rstrip()
        if line in (indent + "{", indent + "{}"):
            return lines[first:at]
        is_clause = any(CLAUSE.match(it) for it in lines[first : at + 1])
        if line.endswith((";", "{}")) or (line.endswith("{") and not is_clause):
            return [*lines[first:at], re.sub(r"\s*(;|\{\}|\{)$", "", line)]
    return lines[first:]


def add_clauses(function, lines):
    """Splits the lines of a function's head into its signature and its clauses."""
    lines = [without_comment(it) for it in lines]
    starts = [at for at, it in enumerate(lines) if CLAUSE.match(it)]
    function.signature = one_line(" ".join(lines[: starts[0] if starts else None]))
    for at, end in zip(starts, [*starts[1:], len(lines)]):
        found = CLAUSE.match(lines[at])
        text = one_line(" ".join(lines[at:end]))
        function.clauses.append((found["kind"], found["label"] or "", text))


def functions_in(file, text):
    """Returns the functions of a source file, whose name begins with the name of its crate."""
    lines, block, found = text.split("\n"), None, []
    for at, line in enumerate(lines):
        if BLOCK.match(line):
            block = Block(line)
        elif line.startswith("}"):
            block = None
        head = FUNCTION.match(line)
        if head and len(head["indent"]) in (0, 4):
            function = Function(file, lines, at, head, block if head["indent"] else None)
            add_clauses(function, head_lines(lines, at, head["indent"]))
            found.append(function)
    return found


class Sources:
    """All source files in crates/, each of which is read when it is first needed."""

    def __init__(self, root):
        self.root = root
        names = glob.glob(f"{root}/crates/*/src/**/*.rt", recursive=True)
        self.files = sorted(os.path.relpath(it, f"{root}/crates") for it in names)
        self.crates = sorted({it.split("/")[0] for it in self.files})
        self.known = {}

    def functions(self, file):
        if file not in self.known:
            self.known[file] = functions_in(file, read(f"{self.root}/crates/{file}"))
        return self.known[file]

    def all_functions(self):
        return [it for file in self.files for it in self.functions(file)]

    def ghosts(self):
        """Returns the crate and the name of each ghost field, and of each ghost function of a trait."""
        texts = ((it.partition("/")[0], read(f"{self.root}/crates/{it}")) for it in self.files)
        ghost = re.compile(r"^    (?:pub )?ghost (\w+)(?:: | = )", re.M)
        return {(crate, name) for crate, text in texts for name in ghost.findall(text)}
