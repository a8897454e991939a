"""Reads wrong edits of crates, and what the prover reports for them: see tests/wrong-edits."""
import glob
import os
import re
import subprocess

from sources import functions_in, read

FORM = re.compile(r"file: (?P<file>(?:src|specs)/\S+)(?P<pairs>(\nold: .*\nnew:.*)+)")
PAIR = re.compile(r"\nold: (.*)\nnew: ?(.*)")


def write(path, text):
    with open(path, "w", encoding="utf-8") as file:
        file.write(text)


class Edit:
    """A wrong edit: its pairs of texts, and whether it can be applied. An edit of a source changes functions; an edit of a
    definition changes what all functions of the crate state.
    """

    def __init__(self, folder, name, text):
        self.folder, self.name = folder, name
        lines = [it for it in text.split("\n") if it.strip() and not it.startswith("#")]
        form = FORM.fullmatch("\n".join(lines)) if name else None
        self.file = form["file"] if form else ""
        self.pairs = PAIR.findall(form["pairs"]) if form else []
        self.is_definition = self.file.startswith("specs/")
        is_file = form and os.path.exists(f"{folder}/{self.file}")
        can_apply = is_file and self.applied(self.source()) is not None
        self.functions = self.changed() if can_apply and not self.is_definition else []
        self.fits = bool(self.functions) or bool(can_apply) and self.is_definition

    def source(self):
        return read(f"{self.folder}/{self.file}")

    def applied(self, text):
        """Returns the text with the edit applied, or None if one of its texts does not occur there exactly once."""
        for old, new in self.pairs:
            if text.count(old) != 1:
                return None
            text = text.replace(old, new)
        return text

    def changed(self):
        """Returns the changed functions, or none if a text is outside of functions."""
        source = self.source()
        places = [source[: source.find(old)].count("\n") + 1 for old, _ in self.pairs if old in source]
        found = [[it for it in functions_in(self.file, source) if it.first <= at <= it.last] for at in places]
        return [it[-1] for it in found] if all(found) else []

    def paths(self):
        """Returns the argument of --only for each changed function: the end of its name as a check prints it, or
        its module if it is a method of a trait. An edit of a definition has none, so that everything is checked."""
        module = re.sub(r"^src/|\.rt$", "", self.file).replace("/", "::")
        for it in self.functions:
            if it.block and it.block.trait:
                yield module
            elif it.block:
                yield f"{it.owner}::{it.name}"
            else:
                yield it.name if module in ("lib", "main") else f"{module.split('::')[-1]}::{it.name}"

    def has(self, file, line):
        return file == self.file and any(it.first <= line <= it.last for it in self.functions)

    def meets(self, other):
        return self.is_definition or other.is_definition or any(other.has(self.file, it.first) for it in self.functions)

    def changes(self, function):
        """Returns whether the edit changes a function of a check, judging by the places that were named, or by its
        name and the first module of its path (a method is named in the module of its type)."""
        if self.is_definition:
            return True
        if function.places:
            return any(self.has(*it) for it in function.places)
        module = re.sub(r"^src/|\.rt$", "", self.file).split("/")[0]
        parts = function.name.split("::")[1:]
        own = [it.name for it in self.functions]
        return parts[-1] in own and (module in ("lib", "main") or parts[0] == module)


def in_file(folder):
    """Returns the edits in wrong-edits.txt of a crate. Lines before the first heading are an edit that does not fit."""
    path = f"{folder}/wrong-edits.txt"
    text = read(path) if os.path.exists(path) else ""
    before, *parts = re.split(r"^== ", text, flags=re.M)
    parts += ["\n" + before] if re.search(r"^[^#\n]", before, re.M) else []
    return [Edit(folder, name, lines) for name, _, lines in (it.partition("\n") for it in parts)]


def in_must_fail(folder):
    """Returns the edits of a crate that `rt ci` tries."""
    paths = sorted(glob.glob(f"{folder}/must-fail/*.edit"))
    return [Edit(folder, os.path.basename(it)[: -len(".edit")], read(it)) for it in paths]


def groups_of(edits):
    """Returns the edits in groups. No two edits of a group change the same function or interfere with each other. An edit
    of a definition is alone in its group.
    """
    groups = []
    for edit in edits:
        for group in groups:
            beside = [it for it in group if it.file == edit.file]
            text = edit.source()
            for it in [*beside, edit]:
                text = text and it.applied(text)
            if text and not any(it.meets(edit) for it in group):
                group.append(edit)
                break
        else:
            groups.append([edit])
    return groups


def renamed(text, old, new):
    """Returns the text of a proof file with a different name for a goal or a step."""
    return re.sub(rf"(?<![\w-]){re.escape(old)}(?![\w-])", new, text)


def run_check(folder, group, paths, jobs, renames=()):
    """Runs `rt check` of a crate with some edits, for the functions at these paths, or for all if there are none.

    A rename consists of the path of a function's proof files in proofs/, a name in these files, and the new name.
    """
    whole = {}

    def change(path, text):
        whole.setdefault(path, read(path))
        write(path, text)

    try:
        for edit in group:
            path = f"{folder}/{edit.file}"
            change(path, edit.applied(read(path)))
        for proof, old, new in renames:
            for path in glob.glob(f"{folder}/proofs/{proof}/*.antt"):
                change(path, renamed(read(path), old, new))
        words = ["rt", "check", "--jobs", str(jobs), *[it for path in paths for it in ("--only", path)]]
        return subprocess.run(
            words, cwd=folder, stdin=subprocess.DEVNULL, stdout=subprocess.PIPE,
            stderr=subprocess.STDOUT, universal_newlines=True, errors="replace", check=False,
        )
    finally:
        for path, text in whole.items():
            write(path, text)
