"""Tries wrong edits of a crate, group by group: see tests/wrong-edits."""
from edits import run_check
from verdicts import AT_LIMIT, CALLEE_ONLY, NAMES_ONLY, REFUSED, Verdict, judge

NO_PROGRAM = "NO PROGRAM"
ROUNDS = 3


class Trial:
    """The edits of one crate in a directory, the result of each, and the other functions that were rejected."""

    def __init__(self, folder, jobs, check=run_check):
        self.folder, self.jobs, self.check = folder, jobs, check
        self.found, self.strays, self.checks = {}, [], 0

    def run(self, group, paths, renames):
        self.checks += 1
        ran = self.check(self.folder, group, paths, self.jobs, renames)
        return Verdict(ran.returncode, ran.stdout, bool(renames))

    def verdict(self, group, renames):
        """Returns the verdict of a check of these edits; the check covers all functions if none has the requested path.
        """
        verdict = self.run(group, sorted({path for it in group for path in it.paths()}), renames)
        if not verdict.has_no_path or verdict.no_program():
            return verdict
        print("\n".join(verdict.said[-3:]), flush=True)
        return self.run(group, [], renames)

    def try_group(self, group, renames=(), rounds=ROUNDS):
        """Tries edits together. Those that show nothing next to the others are tried alone, and those that only
        change names in proof files are tried again with the new names."""
        verdict = self.verdict(group, renames)
        if not verdict.has_verdict:
            self.without_verdict(group, verdict)
            return
        found, strays = judge(verdict, group)
        self.strays += strays
        self.found.update(found)
        if len(group) > 1:
            for edit in [it for it in group if found[it] == CALLEE_ONLY]:
                self.try_group([edit], renames)
        again = [it for it in group if found[it] == NAMES_ONLY]
        functions = [it for it in verdict.functions if any(edit.changes(it) for edit in again)]
        new = [it for function in functions for it in verdict.renames(function)]
        if new and rounds:
            self.try_group(again, (*renames, *new), rounds - 1)

    def without_verdict(self, group, verdict):
        """Tries edits one by one after a check of all of them ended without a verdict."""
        places = verdict.no_program()
        bad = [it for it in group if any(it.has(*at) for at in places)]
        rest = [it for it in group if it not in bad]
        self.found.update((it, NO_PROGRAM) for it in bad)
        if bad and rest:
            self.try_group(rest)
        elif len(rest) > 1:
            for it in rest:
                self.try_group([it])
        elif rest:
            said = "\n".join(it[:300] for it in verdict.said[-8:])
            self.found[rest[0]] = NO_PROGRAM if places else f"no verdict:\n{said}"

    def wrong(self):
        """Returns the faults, each with the name of the edit or of the function."""
        found = [(edit.name, why) for edit, why in self.found.items() if why not in (REFUSED, AT_LIMIT)]
        return found + [(name, "REFUSED with no edit of its own") for name in self.strays]

    def at_limit(self):
        """Returns the edits that show less, because the search met a limit."""
        return [(edit.name, AT_LIMIT) for edit, why in self.found.items() if why == AT_LIMIT]
