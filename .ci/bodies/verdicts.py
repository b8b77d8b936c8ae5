"""What a check says of each function, and what follows for the edits that stood in the checked text."""
import enum
import re

from kit import rt


class Verdict(enum.Enum):
    REFUSED = "refused"
    PASSES = "NOT REFUSED"
    UNJUDGED = "NOT JUDGED"


class Line(enum.Enum):
    PROVED = 1  # or nothing is open but the proof of a function that it calls, for which there is a hole
    FAILS = 2  # the function's own proof fails
    CALLS = 3  # only the proof of a function that it calls fails
    UNCLEAR = 4


# An error in a proof file that only says that a name is gone which the proof cites.
NAMES = re.compile(r"has no field|is not in scope|has no `|was not admitted|can be named from here|was not checked")


def answered_goals(rows):
    """The goals whose answers these rows say to be wrong, in their order."""
    found = [re.search(r": error: `([^`]+)`: ", row) for row in rows]
    return tuple(dict.fromkeys(at[1] for at in found if at))


def line_kind(said):
    if said.startswith(("proved", "no holes", "depends on a hole")):
        return Line.PROVED
    if said.startswith("not proved") or "`search` did not prove" in said:
        return Line.FAILS
    return Line.CALLS if said.startswith("no proof: it calls ") else Line.UNCLEAR


class Report:
    """What a check printed, taken apart."""

    def __init__(self, crate, status, text):
        self.crate, self.status, self.text = crate, status, text
        self.lines = text.rstrip("\n").split("\n")
        self.of_functions, self.above, rows = {}, {}, []
        for row in self.lines:
            found = re.match(r"fn (\S+): (.*)", row)
            if found:
                self.of_functions[found[1]], self.above[found[1]], rows = line_kind(found[2]), rows, []
            else:
                rows.append(row)

    def reached_the_prover(self):
        return bool(re.match(r"(logic|only)=", self.lines[-1])) and not rt.rtlib.STALE.search(self.text)

    def unread(self, texts):
        """The files of the edited texts that hold a line which the prover could not read."""
        bad = [row for row in self.lines if rt.unread(row, texts)]
        return {re.match(r"(?:\./)?(\S+?):", row)[1] for row in bad}

    def refused_by_the_front_end(self, edits, line_of):
        """The edits in whose functions the front end, which comes before the prover, found an error."""
        found = re.findall(r"(?m)^(?:\./)?(src/\S+?):(\d+):\d+: error", self.text)
        places = {(path, int(line)) for path, line in found}

        def holds(function):
            first, last = line_of(function.path, function.begin), line_of(function.path, function.end)
            return any(path == function.path and first <= line <= last for path, line in places)

        return [edit for edit in edits if any(holds(it) for it in edit.functions)]

    def names_of(self, function):
        return [it for it in self.of_functions if function.is_named(self.crate.name, it)]

    def kinds_of(self, edit):
        return {self.of_functions[name] for it in edit.functions for name in self.names_of(it)}

    def fails_alone(self, known):
        """The functions whose own proof fails besides those known, which have an edit or a hole for their proof."""
        names = {name for it in known for name in self.names_of(it)}
        return [it for it, kind in self.of_functions.items() if kind is Line.FAILS and it not in names]

    def refuses_lemmas(self, known):
        """Whether a file of definitions or lemmas has an error. Then functions may fail only because they cite it."""
        rows = re.findall(r"(?m)^(?:\./)?((?:specs|proofs)/\S+?):\d+:\d+: (?:error|`\S+` is not admitted)", self.text)
        own = tuple(f"{it.proofs()}/" for it in known)
        return any(not it.startswith(own) for it in rows)

    def reasons(self, edit):
        """The lines that say why the edit's functions fail, those that name more than what went away first."""
        told = []
        for function in edit.functions:
            names = self.names_of(function)
            folders = tuple("proofs/" + name.partition("::")[2].replace("::", "/") + "/" for name in names)
            above = {row for name in names for row in self.above[name]}
            for row in self.lines:
                at = re.match(r"(?:note: )?(?:\./)?(\S+?):(\d+):\d+: ?(.*)", row)
                if not at:
                    continue
                is_proof = bool(folders) and at[1].startswith(folders)
                is_code = at[1] == function.path and row in above
                if (is_proof and "error" in row) or is_code:
                    told.append((is_proof and bool(NAMES.search(row)), row))
        return [row for _, row in sorted(told, key=lambda it: it[0])], bool(told) and all(weak for weak, _ in told)

    def open_goals(self, edit):
        """The goals of the edit's functions for which no search found a proof."""
        rows = [row for it in edit.functions for name in self.names_of(it) for row in self.above[name]]
        found = [re.match(r"note: src/.*?: it is not proved that .*?\(`([^`]+)`\)", row) for row in rows]
        return list(dict.fromkeys(at[1] for at in found if at))

    def errors_in_proofs(self, edit):
        """The lines with an error in what was written by hand of the proofs of the edit's functions."""
        names = [name for it in edit.functions for name in self.names_of(it)]
        folders = tuple("proofs/" + name.partition("::")[2].replace("::", "/") + "/" for name in names)
        rows = [(row, re.match(r"(?:\./)?(\S+?):\d+:\d+: error", row)) for row in self.lines]
        return [row for row, at in rows if at and folders and at[1].startswith(folders)]

    def verdict(self, edit):
        """What the check says of an edit that lies in functions, or None where it has to be tried alone."""
        kinds = self.kinds_of(edit)
        if Line.FAILS in kinds:
            return Verdict.REFUSED
        return Verdict.PASSES if kinds == {Line.PROVED} else None

    def verdict_of_bare(self, copy):
        """Whether a copy of a function without an edit passes: all that it has to prove itself is proved. It may call a
        function whose edit stands in the same check, which says nothing of its own proof."""
        kinds = self.kinds_of(copy)
        return Verdict.PASSES if kinds and kinds <= {Line.PROVED, Line.CALLS} else Verdict.REFUSED

    def verdict_of_all(self, texts):
        """What a check of the whole crate says of the one edit that its text has."""
        if not self.reached_the_prover() or self.unread(texts):
            return Verdict.UNJUDGED
        if self.status == 0:
            return Verdict.PASSES
        fails = Line.FAILS in self.of_functions.values()
        return Verdict.REFUSED if fails and self.lines[-1].startswith("logic=not-proved") else Verdict.UNJUDGED
