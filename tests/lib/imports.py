"""Finds unused imports for contracts, definitions and proofs."""
import re

from sources import BLOCK, CLAUSE, read

IMPORT = re.compile(r"^\s*(?:ghost )?use [\w.'@-]+(?:\.\{(?P<names>.*)\}| as (?P<alias>[\w'-]+));?$")
WORD = r"[\w'-]"
GHOST = re.compile(r"\bghost (?!use )|prove!")


def names_in(line):
    """Returns the names that an import introduces; none if the line is not an import, or is one that other files may
    use.
    """
    found = IMPORT.match(line)
    if not found:
        return []
    if found["alias"]:
        return [found["alias"]]
    return [it.split(" as ")[-1].strip() for it in re.split(r",\s*", found["names"])]


def is_used(name, text, words):
    """Returns whether a name occurs in a text with these words. An operator such as `◌+◌` occurs if each of its parts does."""
    if "◌" in name:
        return all(it in text for it in name.split("◌") if it)
    if not re.search(r"\w", name):
        return name in text
    if re.fullmatch(rf"{WORD}+", name):
        return name in words
    return re.search(rf"(?<!{WORD}){re.escape(name)}(?!{WORD})", text) is not None


def depth(line):
    """Returns how many braces, brackets and parentheses a line opens, minus those that it closes."""
    return sum(line.count(it) for it in "{[(") - sum(line.count(it) for it in ")]}")


def ghost_lines(lines):
    """Returns the lines of a source that can use a ghost import (clauses, ghost items and ghost code); others are
    empty.
    """
    kept, is_open, left = [], False, 0
    for line in lines:
        line = re.sub(r"(^|\s)//.*$", "", line)
        is_open = is_open or bool(CLAUSE.match(line) or GHOST.search(line))
        kept.append(line if is_open else "")
        left = left + depth(line) if is_open else 0
        is_open = is_open and left > 0
    return kept


def scope_of(lines, at):
    """Returns the range of lines in which an import in this line is visible: its block, or the whole file."""
    if not lines[at].startswith(" "):
        return 0, len(lines)
    first = next(it for it in range(at, -1, -1) if BLOCK.match(lines[it]))
    return first, next((it for it in range(at, len(lines)) if lines[it].startswith("}")), len(lines))


def unused(path):
    """Returns the unused imports of a file: the line number and the name of each."""
    lines = read(path).split("\n")
    is_source = path.endswith(".rt")
    imports = [(at, names_in(it)) for at, it in enumerate(lines) if "ghost use" in it or not is_source]
    imports = [(at, names) for at, names in imports if names]
    own = {at for at, _ in imports}
    text = ghost_lines(lines) if is_source else [re.sub(r"(^|\s)--(?![\w]).*$", "", it) for it in lines]
    text = ["" if at in own else it for at, it in enumerate(text)]
    served = {}
    for at, names in imports:
        first, last = scope_of(lines, at) if is_source else (0, len(lines))
        if (first, last) not in served:
            whole = "\n".join(text[first:last])
            served[first, last] = whole, set(re.findall(rf"{WORD}+", whole))
        for name in names:
            if not is_used(name, *served[first, last]):
                yield at + 1, name
