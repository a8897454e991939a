"""Checks docs/TRUST.md: see tests/trust."""
import collections
import re

from definitions import Walk, entries
from sources import read

ITEM = re.compile(r"^- `(vt\S*\.(?:antt|rt))` \(([^)]*)\)")
CLAUSES = re.compile(r"^Clauses of `([^`]*)` in `([^`]*)`: ")


def quoted(text):
    return re.findall(r"`([^`]*)`", text)


class Page:
    """docs/TRUST.md, read section by section, with what the previous sections have named."""

    def __init__(self, root):
        self.walk = Walk(root)
        self.told, self.faults, self.listed, self.items = {}, [], [], 0
        self.section, self.functions = "", []

    def fail(self, text):
        self.faults.append(f"{self.section}: {text}")

    def read_item(self, file, kind):
        """Records the definitions that an item names for a file."""
        self.items += 1
        names = quoted(kind)
        if kind.startswith("all"):
            for name in self.walk.definitions(file).lines:
                self.told[file, name] = True
            for name in names:
                self.told.pop((file, name), None)
        else:
            self.told.update({(file, name): True for name in names})

    def read_clauses(self, name, file, rest):
        """Follows the clauses of a function. Each of its clauses must be named, even if it is not needed."""
        parts = rest.split("; ")
        wanted = quoted(parts[0])
        passed = [it for part in parts if part.startswith("not needed: ") for it in quoted(part)]
        without = [it for part in parts if part.startswith("definitions not needed: ") for it in quoted(part)]
        self.walk.without.update(without)
        found = [it for it in self.walk.sources.functions(file) if it.path().endswith("::" + name)]
        if len(found) != 1:
            self.fail(f"{len(found)} functions are named {name} in {file}")
            return
        labels = found[0].labels()
        for label in [*wanted, *passed]:
            if label not in labels:
                self.fail(f"{name} has no clause {label}")
        for label in labels:
            if label not in wanted + passed:
                self.fail(f"{name} has a clause {label} that is not named")
        self.functions.append(found[0])
        self.walk.walk_clauses(found[0], wanted)

    def judge(self):
        """Compares the needed definitions with those that the page has named so far."""
        for file, name in self.walk.needed:
            if (file, name) not in self.told:
                self.fail(f"missing: {file} {name}")
        for file, name in self.told:
            if (file, name) not in self.walk.needed:
                self.fail(f"too much: {file} {name}")
        by_file = collections.defaultdict(list)
        for file, name in self.walk.needed:
            by_file[file].append(name)
        self.listed += [f"{self.section}: {it}: {' '.join(by_file[it])}" for it in sorted(by_file)]

    def judge_code(self, blocks):
        """Compares the code that the section shows with the sources."""
        known = self.walk.quotable(self.functions)
        for block in blocks:
            left = min((len(it) - len(it.lstrip()) for it in block if it.strip()), default=0)
            block = [it[left:] for it in block]
            starts = [at for at, it in enumerate(block) if it.strip() and it[0] != " "]
            for at, end in zip(starts, [*starts[1:], len(block)]):
                entry = entries(block[at:end])[0]
                if entry not in known:
                    self.fail(f"no such clause or line of a definition: {entry}")

    def judge_names(self, lines):
        """Looks up the names of clauses that stand alone in parentheses or are followed by `of` and a function."""
        fields = {it.split(" ")[0] for it in self.walk.quotable([]) if " : " in it}
        labels = {label for it in self.functions for label in it.labels()}
        for line in lines:
            for group in re.findall(r"\(((?:`[a-z_]+`(?:, | and )?)+)\)", line):
                for name in quoted(group):
                    if name not in labels | fields:
                        self.fail(f"no function of this section has a clause {name}")
            for label, path in re.findall(r"`(\w+)` of `(\w+::\w+)`", line):
                self.judge_label(label, path)

    def judge_label(self, label, path):
        found = [it for it in self.walk.sources.all_functions() if it.path().endswith("::" + path)]
        if found and not any(label in it.labels() for it in found):
            self.fail(f"{path} has no clause {label}")

    def read_section(self, title, lines):
        """Reads one section: first its code and text, then its items."""
        self.section, self.functions = title, []
        blocks, text = split_code(lines)
        for line in text:
            clauses, item = CLAUSES.match(line), ITEM.match(line)
            if clauses:
                self.read_clauses(clauses[1], clauses[2], line[clauses.end() :])
            elif item:
                self.read_item(item[1], item[2])
        if self.functions:
            self.judge()
            self.judge_code(blocks)
            self.judge_names([it for it in text if not CLAUSES.match(it) and not ITEM.match(it)])
        elif blocks and title:
            self.fail("shows code, and names no clauses")


def split_code(lines):
    """Returns the blocks of code without a language, and the lines outside of all blocks."""
    blocks, text, block = [], [], None
    for line in lines:
        if line.startswith("```"):
            if block is None:
                block, is_named = [], len(line) > 3
            else:
                blocks += [] if is_named else [block]
                block = None
        elif block is None:
            text.append(line)
        else:
            block.append(line)
    return blocks, text


def check(root, text=None):
    """Reads the page, or a given text instead."""
    page = Page(root)
    text = text or read(f"{root}/docs/TRUST.md")
    sections = re.split(r"^## ", text, flags=re.M)
    for section in sections[1:]:
        title, _, body = section.partition("\n")
        page.read_section(title, body.split("\n"))
    page.faults += page.walk.faults
    return page
