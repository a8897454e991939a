"""Reads what `rt check` reports for each function, and determines why a function is rejected.

A function is rejected for its meaning if a goal stays open, or if an answer in its proof files does not prove its goal.
If the search gave up at one of its limits for every goal that stays open, the function is told apart, since these goals
may hold. An edit of a definition is also rejected for its meaning if a lemma is no longer proved. It is not rejected for its meaning if only names in its proof files no longer match: a field that the edit
renamed, or a goal that now has another name. The goal of such an answer is reported as open under its new name, so one
open goal is ignored for each such answer, except goals that values show to be false. If the names were changed for a
second attempt, answers no longer count, but only goals that stay open. Nor is a function rejected for its meaning if a
loop of the edit has no measure or invariant, because the goals were then not tried.
"""
import re

FUNCTION = re.compile(r"fn (\S+): (.*)")
OPEN_GOAL = re.compile(r"note: src/(\S+?):(\d+):\d+: it is not proved.*?\(`([^`]*)`\)(.*)")
LEMMA_ERROR = re.compile(r"(?:\./)?proofs/\w+\.antt:\d+:\d+: error: (.*)")
PROOF_ERROR = re.compile(r"(?:\./)?proofs/(\S+)/\w+\.antt:\d+:\d+: error: (.*)")
SOURCE_ERROR = re.compile(r"(?:\./)?(src/\S+?):(\d+):\d+: error")
RENAMED_GOAL = re.compile(r"module `[^`]*\.(?:Goals|Given)` has no `([^`]*)`")
RENAMED_FIELD = re.compile(r"has no field `([^`]*)` \(nearest: \.([\w-]+)")
ASKS_FOR = re.compile(r"help: `\w+` has no `([^`]*)`; rattle asks for `([^`]*)`")
NAMES = re.compile(r"has no field|is not in scope|has no `|was not admitted|was rejected, were? not checked")

REFUSED = "refused"
PROVED = "NOT REFUSED"
NAMES_ONLY = "SHOWS NOTHING: only names in its proof files no longer fit, so change a value and keep the names"
NO_INVARIANT = "SHOWS NOTHING: its proof files have no measure or invariant for a loop"
NO_GOAL = "SHOWS NOTHING: no goal stays open"
AT_LIMIT = "AT A LIMIT: the search gave up at every goal that stays open"
CALLEE_ONLY = "NOT TRIED: a function that it calls is refused"
NOT_TOLD = "COULD NOT TELL"


def function_of(folder):
    """Returns the function whose proof files are in a directory. The directory of a recursive function begins with `+`.
    """
    return re.sub(r"(^|::)\+", r"\1", folder.replace("/", "::"))


def is_renamed(old, new):
    """Returns whether two names of steps or goals differ only in a condition, such as `if-a-lt7` and `if-a-lt8`, or
    `returns-then-a-lt7-clause-value` and `returns-then-a-lt8-clause-value`."""
    condition = re.compile(r"(^if|-then|-else|-in)-(?:(?!-clause-).)*")
    return condition.search(old) is not None and condition.sub(r"\1", old) == condition.sub(r"\1", new)


def is_about_names(error):
    """Returns whether an error in a proof file only says that names no longer match."""
    return bool(NAMES.search(re.sub(r"`[^`]*`", "``", error)))


def gave_up(goal):
    """Returns whether the search for a proof of a goal ended at one of its limits."""
    return "gave up" in goal[4]


class Function:
    """What a check reported for one function."""

    def __init__(self, name, words, notes, errors, has_renames):
        self.name, self.words, self.errors = name, words, errors
        goals = [it for it in map(OPEN_GOAL.match, notes) if it]
        self.places = [(f"src/{it[1]}", int(it[2])) for it in goals]
        renamed = [it for it in errors if RENAMED_GOAL.search(it)]
        is_false = [it for it in goals if "values at which this goal is false" in it[4]]
        others = sorted((it for it in goals if it not in is_false), key=gave_up)
        self.open = is_false + others[len(renamed) :]
        # (an answer to a goal about a condition that changed may not fit, though the goal holds)
        answers = [] if has_renames else errors
        self.wrong_answers = [it for it in answers if not is_about_names(it)]

    def why(self):
        """Returns why the function is rejected, or that it is not."""
        if self.words.startswith("proved"):
            return PROVED
        if self.words.startswith("could not tell"):
            return NOT_TOLD
        if self.wrong_answers or not all(map(gave_up, self.open)):
            return REFUSED
        if self.open:
            return AT_LIMIT
        if re.search(r"it calls|it passes|a call of|it waits", self.words):
            return CALLEE_ONLY
        if "Invariants.antt" in self.words:
            return NO_INVARIANT
        return NAMES_ONLY if self.errors else NO_GOAL


class Verdict:
    """What a check reported; it may have been made with other names in proof files."""

    def __init__(self, status, said, has_renames=False):
        self.said = said.split("\n")
        lines = [FUNCTION.match(it) for it in self.said]
        self.has_verdict = status in (0, 1, 3) and any(lines)
        self.has_no_path = status == 2
        self.functions = []
        lemmas = [it[1] for it in map(LEMMA_ERROR.match, self.said) if it]
        self.wrong_lemmas = [it for it in lemmas if not is_about_names(it)]
        errors = {}
        for it in map(PROOF_ERROR.match, self.said):
            if it:
                errors.setdefault(function_of(it[1]), []).append(it[2])
        start = 0
        for at, line in enumerate(lines):
            if line:
                own = errors.get(line[1].partition("::")[2], [])
                self.functions.append(Function(line[1], line[2], self.said[start:at], own, has_renames))
                start = at + 1

    def proposals(self):
        """Returns the goal that the check proposes for each missing goal, if all proposals agree."""
        found = {}
        for it in map(ASKS_FOR.match, self.said):
            if it:
                found.setdefault(it[1], set()).add(it[2])
        return {old: min(new) for old, new in found.items() if len(new) == 1}

    def renames(self, function):
        """Returns new names for those in a function's proof files that no longer match, as proposed by the check, if
        only a condition changed: the path of the files, the old name and the new one."""
        goals, path = self.proposals(), "/".join(function.name.split("::")[1:])
        for error in function.errors:
            goal, field = RENAMED_GOAL.search(error), RENAMED_FIELD.search(error)
            old, new = (goal[1], goals.get(goal[1], "")) if goal else (field[1], field[2]) if field else ("", "")
            if is_renamed(old, new):
                yield path, old, new

    def no_program(self):
        """Returns the places at which the edited text does not compile."""
        places = [SOURCE_ERROR.match(it) for it in self.said]
        return [(it[1], int(it[2])) for it in places if it]


def judge(verdict, edits):
    """Returns why each edit is rejected or not, and the functions that are rejected without being edited."""
    found, strays = {}, []
    for edit in edits:
        reasons = [it.why() for it in verdict.functions if edit.changes(it)]
        if edit.is_definition and verdict.wrong_lemmas and any(it != PROVED for it in reasons):
            reasons.append(REFUSED)
        order = (REFUSED, NOT_TOLD, AT_LIMIT, NAMES_ONLY, NO_INVARIANT, NO_GOAL, CALLEE_ONLY, PROVED)
        found[edit] = min(reasons, key=order.index) if reasons else PROVED
    for it in verdict.functions:
        if it.why() not in (PROVED, CALLEE_ONLY) and not any(edit.changes(it) for edit in edits):
            strays.append(it.name)
    return found, strays
