"""Which edits were refused because an answer by hand became wrong, when they were last tried: a line for each crate.

A proof has answers by hand for some goals of its function, and the prover searches for proofs of the others. Where an answer
refuses an edit, these searches change nothing, so the next trial leaves them out. If the answers then are all right, the edit
is tried again with all searches: a wrong line here costs time and changes no verdict.

Behind the name of an edit stand the goals whose answers became wrong, which says which clause the edit breaks: the goal of
the clause `told` at a return is `returns-clause-told`, and `returns` where there is only one clause.
"""
import os

HEAD = "# Written by .ci/wrong-bodies: for each crate the wrong bodies that an answer by hand refuses, and for which goals.\n"
HEAD_OF_GOALS = "# Written by .ci/wrong-bodies: the goals that a wrong body leaves open, where there are several.\n"


def still_there(noted, crate_with_edits):
    """What was noted of the edits that a crate still has."""
    _, edits = crate_with_edits
    names = {it.name for it in edits}
    return {name: goals for name, goals in noted.items() if name in names}


class ByAnswer:
    """What the file says. Where the answers are not to be taken, a trial leaves out those that refused an edit."""

    def __init__(self, path, are_taken=True):
        self.path, self.names, self.are_taken = path, {}, are_taken
        if os.path.isfile(path):
            with open(path, encoding="utf-8") as file:
                rows = [line.split() for line in file if line.strip() and not line.startswith("#")]
            self.names = {crate: dict(self.parted(name) for name in names) for crate, *names in rows}

    @staticmethod
    def parted(word):
        """The name of an edit, and the goals behind it."""
        name, _, goals = word.partition(":")
        return name, tuple(goals.split(",")) if goals else ()

    def of(self, crate):
        return self.names.get(crate.name, {})

    def taken_of(self, crate):
        return self.of(crate) if self.are_taken else {}

    def left_out_of(self, crate):
        return {} if self.are_taken else self.of(crate)

    def enter(self, crate, results):
        """Notes of each edit that was tried whether an answer refused it, and for which goals."""
        tried = {it.edit.name for it in results}
        kept = {name: goals for name, goals in self.of(crate).items() if name not in tried}
        self.names[crate.name] = kept | {it.edit.name: it.answers for it in results if it.by_answer}

    def write(self, with_edits):
        """Writes a line for each crate, with those of its edits that are still there, in the order of their names."""
        with open(self.path, "w", encoding="utf-8") as file:
            file.write(HEAD)
            for crate in sorted(with_edits):
                known = sorted(still_there(self.names.get(crate, {}), with_edits[crate]).items())
                words = [":".join([name, ",".join(goals)] if goals else [name]) for name, goals in known]
                file.writelines([f"{' '.join([crate, *words])}\n"] if words else [])


class OpenGoals:
    """Which goals of its function an edit left open when it was last tried, if there were several: a line for each edit.

    One goal for which no search finds a proof is enough to refuse the edit, so the next trial searches only for the first. If
    this one is then proved, the edit is tried again with all searches: a wrong line here, too, changes no verdict.
    """

    def __init__(self, path):
        self.path, self.goals = path, {}
        if os.path.isfile(path):
            with open(path, encoding="utf-8") as file:
                rows = [line.split() for line in file if line.strip() and not line.startswith("#")]
            for crate, edit, *goals in rows:
                self.goals.setdefault(crate, {})[edit] = goals

    def of(self, crate):
        return self.goals.get(crate.name, {})

    def enter(self, crate, results):
        """Notes of each edit that was tried which goals it left open."""
        tried = {it.edit.name for it in results}
        kept = {edit: goals for edit, goals in self.of(crate).items() if edit not in tried}
        self.goals[crate.name] = kept | {it.edit.name: it.goals for it in results if it.is_refused() and len(it.goals) > 1}

    def write(self, with_edits):
        """Writes the lines of the edits that are still there, in the order of the names of crates and edits."""
        with open(self.path, "w", encoding="utf-8") as file:
            file.write(HEAD_OF_GOALS)
            for crate in sorted(with_edits):
                known = still_there(self.goals.get(crate, {}), with_edits[crate])
                file.writelines(f"{crate} {edit} {' '.join(goals)}\n" for edit, goals in sorted(known.items()))
