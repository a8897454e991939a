"""Looks up the contracts that docs/THEOREMS.md names for each promise.

A promise is a line of a list or table. Its contract consists of the names between backquotes after the dash, or in the
last column. They are read from left to right: one or more functions, and then clauses, each of which must be a clause
of one of those functions, or a field of a definition that their clauses name. After a semicolon, and in a line that
names no function, clauses may belong to any function named earlier in the section. An unqualified name is looked up
next to the function before it. A name that can be a clause or a function is a clause. Clauses of the kit's traits are
not looked up.
"""
import dataclasses
import re

from definitions import Walk
from sources import read

PROMISE = re.compile(r"^- (?P<said>.*?) — (?P<by>.*)$|^\|.*\|(?P<part>[^|]*)\|$")
PATH = re.compile(r"^[A-Za-z_]\w*(::[A-Za-z_]\w*)*$")
DEPTH = 3


def ends_with(path, parts):
    """Returns whether a path ends with these parts, some of which, except the last, may be omitted."""
    rest = iter(path[:-1])
    return path[-1:] == parts[-1:] and all(any(it == part for it in rest) for part in parts[:-1])


def crate_of(function):
    return function.file.partition("/")[0]


class Names:
    """Finds functions and places (crates, modules, types, traits) by the names that documents use."""

    def __init__(self, root):
        self.walk = Walk(root)
        self.functions = self.walk.sources.all_functions()
        self.ghosts = self.walk.sources.ghosts()
        self.fields_of, self.places, self.named = {}, {}, {}
        for it in self.functions:
            self.named.setdefault(it.name, []).append(it)

    def functions_at(self, path):
        parts = path.split("::")
        return [it for it in self.named.get(parts[-1], []) if ends_with(it.path().split("::"), parts)]

    def at_place(self, name):
        """Returns all functions of a place."""
        if name not in self.places:
            parts = name.split("::")
            found = [it for it in self.functions if name in (it.owner, crate_of(it), it.block and it.block.trait)]
            self.places[name] = found or [it for it in self.functions if ends_with(it.module().split("::"), parts)]
        return self.places[name]

    def fields(self, function, label):
        """Returns the names of the fields of the definitions that a clause names, directly or indirectly."""
        key = function.path(), label
        if key not in self.fields_of:
            walk = Walk(self.walk.root, self.walk)
            walk.walk_clauses(function, [label], DEPTH)
            self.fields_of[key] = {it.split(" ")[0] for it in walk.quotable([]) if " : " in it}
        return self.fields_of[key]

    def is_label_in_crate(self, near, name):
        crates = {crate_of(it) for it in near}
        return any(crate_of(it) in crates and name in it.labels() for it in self.functions)

    def subject(self, state, said):
        """Returns the state at the dash of a line, after the functions that the promise itself names by their paths."""
        named = [it for path in words_of(said) if "::" in path for it in self.functions_at(path)]
        return state.after_semicolon().with_functions(named) if named else state.after_semicolon()

    def has_field(self, functions, labels, name):
        """Returns whether a name is a field in one of these clauses of the functions, or in an unlabeled clause."""
        return any(name in self.fields(it, label) for it in functions for label in ("", *labels))


@dataclasses.dataclass(frozen=True)
class State:
    """The state of a reading: the functions whose clauses follow, with the clauses named so far, the functions named
    earlier, those next to which names are looked up, whether the section has named a function, not only types or
    modules, and whether a trait of the kit was named last."""

    functions: tuple = ()
    labels: tuple = ()
    earlier: tuple = ()
    near: tuple = ()
    is_named: bool = False
    is_at_kits: bool = False

    def after_semicolon(self):
        earlier = (*self.earlier, *self.functions)
        return dataclasses.replace(self, functions=(), labels=(), earlier=earlier, is_at_kits=False)

    def with_functions(self, found):
        return State((*self.functions, *found), (), self.earlier, tuple(found), True)


def beside(found, near):
    """Returns the functions that are in the same type, module, or at least crate as the previous functions."""
    owners = {(crate_of(it), it.owner) for it in near if it.owner}
    modules = {it.module() for it in near if not it.owner}
    inside = [it for it in found if (crate_of(it), it.owner) in owners or (it.module() in modules and not it.owner)]
    crates = {crate_of(it) for it in near}
    return inside or [it for it in found if it.is_public and crate_of(it) in crates]


def is_clause(names, state, name):
    """Returns whether a name can be a clause, or a field of a definition that clauses name."""
    functions = state.functions or state.earlier
    labels = {label for it in functions for label in it.labels()}
    return (
        name in labels
        or any((crate_of(it), name) in names.ghosts for it in state.near)
        or names.has_field(functions, state.labels if state.functions else labels, name)
        or state.is_at_kits
        or not state.functions and not state.is_named and names.is_label_in_crate(state.near, name)
    )


def after_name(names, state, name):
    """Returns the state after one more name, or None if the name fits nothing."""
    if is_clause(names, state, name):
        return dataclasses.replace(state, labels=(*state.labels, name))
    found = names.functions_at(name)
    if "::" not in name and state.near:
        found = beside(found, state.near) or ([] if state.functions else found)
    if found:
        return state.with_functions(found)
    place = tuple(names.at_place(name))
    if any(it.block and it.block.trait == name for it in place):
        return dataclasses.replace(state.after_semicolon(), is_at_kits=True)
    if place:
        return State((), (), (*state.earlier, *place), place, state.is_named)
    return state if name[0].isupper() else None


def read_line(names, state, words):
    """Returns the state after all words, or None and the first word that fits nothing."""
    for word in words:
        after = state.after_semicolon() if word == ";" else after_name(names, state, word)
        if after is None:
            return None, word
        state = after
    return state, None


def words_of(text):
    """Returns the names of a line, and its semicolons."""
    words = [it[1] or it[0] for it in re.findall(r"(;|`([^`]*)`)", text)]
    words = [re.sub(r"<[^>]*>|\(.*\)$", "", it) for it in words]
    return [it for it in words if it == ";" or PATH.match(it)]


def check(root, text=None):
    """Returns the faults of the document, or of a given text instead, and the number of names looked up."""
    names, faults, count, state = Names(root), [], 0, State()
    for number, line in enumerate((text or read(f"{root}/docs/THEOREMS.md")).split("\n"), 1):
        found = PROMISE.match(line)
        state = State() if line.startswith("## ") else state
        if found:
            words = words_of(found["by"] or found["part"])
            count += len(words) - words.count(";")
            after, fault = read_line(names, names.subject(state, found["said"] or ""), words)
            if fault:
                faults.append(f"docs/THEOREMS.md:{number}: no such clause: {fault}")
            state = after or state
    return faults, count
