"""The ledger of wrong bodies that were tried: a line for each function that has edits, with a sum over all that their
verdicts rest on, and the kits by which all of them were refused.

A function's proof cites of another function only what that one's contract states. So the sum is over the function's own
text, its own proofs and its edits, and over what the crate's functions share: the sources without the bodies of
functions, the definitions, the other proofs, and of each library below its interface and its definitions. Lines that
are only a comment count nowhere, and neither does a changed body of another function, or of a library below. Edits that
lie in no function have one line, whose sum is over the whole crate.
"""
import hashlib
import os
import re
from functools import cache

from copies import PROOFS
from functions import all_functions
from kit import KIT_NAME, rtlib, tokens_of

# What stands in place of a function in the line of the edits that lie in none.
NO_FUNCTION = "-"

HEAD = "# Written by .ci/wrong-bodies: crates, functions, sums, and the kits that refused all wrong bodies of a function.\n"


def files_below(folder):
    for at, folders, names in os.walk(folder):
        folders.sort()
        yield from (f"{at}/{name}" for name in sorted(names))


def lines_of_code(data, tokens):
    """The lines of a file of code or of definitions, which has these tokens, without those that are only a comment: of
    each where it begins, and its bytes."""
    if re.search(rb"/\*|\{-", data):
        # A comment of several lines may begin or end in a line that looks like one of its own.
        return [(0, data)]
    kept, at, left = [], 0, sorted(tokens, reverse=True)
    for line in data.splitlines(keepends=True):
        end = at + len(line)
        while left and left[-1][1] <= at:
            left.pop()
        # What begins like a comment may lie in a text of several lines, or be a doc comment that a macro reads.
        has_token = bool(left) and left[-1][0] < end
        if has_token or not re.match(rb"\s*(//|--)", line):
            kept.append((at, line))
        at = end
    return kept


@cache
def lines_below(folder, parts):
    """The lines of code of the files of some parts of a crate, by their paths in it."""
    paths = [file for part in parts for file in files_below(f"{folder}/{part}")]
    lines = {}
    for path, tokens in zip(paths, tokens_of(paths)):
        with open(path, "rb") as file:
            lines[path.removeprefix(f"{folder}/")] = lines_of_code(file.read(), tokens)
    return lines


def joined(lines):
    return b"".join(line for _, line in lines)


def outside(lines, spans):
    """The bytes of these lines that lie in none of the spans."""
    kept = []
    for at, line in lines:
        here, end = at, at + len(line)
        for begin, behind in sorted(spans):
            if begin < end and behind > here:
                kept.append(line[here - at : max(begin, here) - at])
                here = min(behind, end)
        kept.append(line[here - at :])
    return b"".join(kept)


def inside(lines, begin, behind):
    """The bytes of these lines that lie between the two places."""
    return b"".join(line[max(begin - at, 0) : max(behind - at, 0)] for at, line in lines)


def own_proofs(function, paths):
    """The files with the function's own proofs, which a copy of the crate lacks if the function has no edit."""
    folder = function.proofs()
    names = {f"{folder}/{name}.antt" for name in PROOFS}
    return [it for it in paths if it in names or it.startswith(f"{folder}/Proof/")]


class Sums:
    """The sums of the edits of a crate whose libraries below stand built."""

    def __init__(self, crate):
        self.crate = crate
        self.lines = lines_below(crate.folder, rtlib.PARTS)
        self.functions = [it for it in all_functions(crate) if it.end]
        self.shared = self.sum_of_shared()

    def sum_of_shared(self):
        """What all functions share: everything but their bodies and their own proofs."""
        proofs = {path for it in self.functions for path in own_proofs(it, self.lines)}
        total = hashlib.sha256()
        for path, lines in sorted(self.lines.items()):
            bodies = [(it.begin + 1, it.end - 1) for it in self.functions if it.path == path]
            if path not in proofs:
                total.update(repr((path, outside(lines, bodies))).encode())
        for below in sorted(self.crate.below(), key=lambda it: it.name):
            total.update(below.name.encode())
            for file in files_below(f"{below.rlib}/interface/lang/src"):
                with open(file, "rb") as it:
                    total.update(repr((file.removeprefix(below.rlib), it.read())).encode())
            specs = lines_below(below.folder, ("specs",))
            total.update(repr([(path, joined(lines)) for path, lines in sorted(specs.items())]).encode())
        return total.hexdigest()

    def of(self, functions, edits):
        """The sum of edits that lie in these functions, or in none."""
        total = hashlib.sha256(self.shared.encode())
        for it in functions or self.functions:
            total.update(repr((it.place(), inside(self.lines[it.path], it.start, it.end))).encode())
            total.update(repr([(path, joined(self.lines[path])) for path in own_proofs(it, self.lines)]).encode())
        for edit in sorted(edits, key=lambda it: it.name):
            with open(edit.file, "rb") as file:
                total.update(repr((edit.name, file.read())).encode())
        return total.hexdigest()[:32]


@cache
def sums_of(crate):
    return Sums(crate)


def functions_with(edits):
    """The edits by the functions in which they lie, as they are named in the ledger: those functions, and the edits."""
    found = {}
    for edit in edits:
        functions = sorted(edit.functions, key=lambda it: it.place()) if edit.is_inside else []
        name = "+".join(it.module_of_proofs() for it in functions) or NO_FUNCTION
        found.setdefault(name, (functions, []))[1].append(edit)
    return found


class Ledger:
    def __init__(self, path):
        self.path, self.lines = path, {}
        if os.path.isfile(path):
            with open(path, encoding="utf-8") as file:
                rows = [line.split() for line in file if line.strip() and not line.startswith("#")]
            self.lines = {(crate, function): (total, kits) for crate, function, total, *kits in rows}

    def lacks(self, crate, edits):
        """The edits of a crate that this kit has not yet been seen to refuse."""
        lacking = []
        for name, (functions, some) in functions_with(edits).items():
            total, kits = self.lines.get((crate.name, name), ("", []))
            if KIT_NAME not in kits or total != sums_of(crate).of(functions, some):
                lacking += some
        return lacking

    def enter(self, crate, edits, refused):
        """Notes of which functions this kit refused all of these edits, or takes out what was noted."""
        for name, (functions, some) in functions_with(edits).items():
            known, kits = self.lines.pop((crate.name, name), ("", []))
            if all(it.name in refused for it in some):
                total = sums_of(crate).of(functions, some)
                self.lines[crate.name, name] = total, sorted({KIT_NAME, *(kits if known == total else [])})

    def write(self, with_edits):
        """Writes the lines of the functions that have edits, in the order of their names."""
        names = {(it, name) for it, (_, edits) in with_edits.items() for name in functions_with(edits)}
        rows = [" ".join([*it, self.lines[it][0], *self.lines[it][1]]) for it in sorted(names & {*self.lines})]
        with open(self.path, "w", encoding="utf-8") as file:
            file.writelines([HEAD, *(f"{row}\n" for row in rows)])
