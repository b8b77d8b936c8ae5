"""Tries a crate's edits, many at a time: an edit changes a body and no contract, so that functions fail independently."""
import os
import shutil
import tempfile
from dataclasses import dataclass, replace

from copies import Copy, can_go_without_search, copies_of, copy_proofs, is_bare, leave_goals_open, leave_open
from copies import leave_out_answers, without_bodies, without_search
from edits import edited_texts, read
from joint import Joint
from kit import rtlib, run_prover, start_above, words_above
from verdicts import NAMES, Report, Verdict, answered_goals


@dataclass
class Result:
    edit: object
    verdict: Verdict
    why: str
    is_weak: bool = False  # refused only because a proof names what the edit took away
    by_answer: bool = False  # refused since an answer by hand is wrong now
    answers: tuple = ()  # the goals of these answers
    goals: tuple = ()  # the goals for which no search found a proof

    def is_refused(self):
        """Whether the edit is refused for its meaning."""
        return self.verdict is Verdict.REFUSED and not self.is_weak


def batches_of(edits):
    """Parts the edits into batches, in each of which no two lie in one function."""
    batches = []
    for edit in edits:
        free = (it for it in batches if not any(set(edit.functions) & set(other.functions) for other in it))
        room = next(free, None)
        if room is None:
            batches.append([edit])
        else:
            room.append(edit)
    return batches


def words_for(crate, edits):
    """The words by which a check takes apart the functions with edits and those that they call, and no others. Without
    edits it checks the whole crate."""
    functions = dict.fromkeys(function for edit in edits for function in edit.functions)
    names = [f"--only={'::'.join([crate.name, *it.place()])}" for it in functions]
    return [*names, "--allow-holes"] if edits else []


class Trial:
    """The checks of one crate with edits in it. The first may be made together with those of other crates."""

    def __init__(self, crate, functions, jobs, by_answer=(), goals=(), joint=None):
        self.crate, self.functions, self.jobs = crate, functions, jobs
        self.joint, self.is_first = joint or Joint([crate.name]), True
        self.by_answer = set(by_answer)  # the names of the edits that were refused so when they were last tried
        self.goals = dict(goals)  # by an edit's name the goals that were open then, if there were several
        self.without_answers = {}  # by an edit's name the goals of its function for which a search is made, and no answer taken
        self.seconds, self.checks = 0.0, 0
        self.kept = None

    def prepare(self, room, texts, edits, unsearched):
        """Copies the crate to a folder, with these texts. Where these have edits, there is a hole for the proof of each
        other function, and for each goal that is left out."""
        for part in rtlib.PARTS:
            if os.path.isdir(f"{self.crate.folder}/{part}"):
                shutil.copytree(f"{self.crate.folder}/{part}", f"{room}/{part}")
        start_above(room)
        for path, text in texts.items():
            with open(f"{room}/{path}", "w", encoding="utf-8") as file:
                file.write(text)
        for copy in (it for it in edits if isinstance(it, Copy)):
            copy_proofs(room, self.crate.name, copy)
        for function in self.without_edit(edits) if edits else []:
            leave_open(room, self.crate.name, function)
        for edit in (it for it in edits if it not in unsearched and self.leaves_out(it)):
            leave_goals_open(room, self.crate.name, edit.functions[0], self.goals[edit.name][1:])
        for edit in (it for it in edits if it.name in self.without_answers and not is_bare(it)):
            for function in edit.functions:
                leave_out_answers(room, function, self.without_answers[edit.name])

    def without_edit(self, edits):
        edited = {function for edit in edits for function in edit.functions}
        return [it for it in self.functions if it not in edited]

    def leaves_out(self, edit):
        """Whether a proof is searched only for the first of the edit's goals that were open when it was last tried."""
        return edit.name in self.goals and len(edit.functions) == 1 and not is_bare(edit)

    def check(self, texts, edits, unsearched=()):
        """Checks a copy of the crate with these texts, which have the edits, and proves nothing else. Where no edits are
        given, it proves the whole crate. The first check of edits is made together with those of other crates."""
        joint, only = self.joint, words_for(self.crate, edits)
        with tempfile.TemporaryDirectory(prefix="wrong-bodies-") as room:
            self.prepare(room, texts, edits, unsearched)
            told = joint.check(self.crate, self.jobs, room, only) if self.is_first and edits else None
            self.is_first = self.is_first and not edits
            if not told:
                words = words_above(self.crate, self.jobs) + only
                with joint.alone:
                    told = run_prover([*words, "--incremental", self.kept], room)
        status, text, seconds = told
        self.seconds += seconds
        self.checks += 1
        return Report(self.crate, status, text)

    def line_of(self, path, place):
        return read(f"{self.crate.folder}/{path}").encode()[:place].count(b"\n") + 1

    def refused(self, report, edit):
        rows, is_weak = report.reasons(edit)
        told = self.wrong_answers(report, edit)
        goals = () if told else tuple(self.goals.get(edit.name, report.open_goals(edit)))
        return Result(edit, Verdict.REFUSED, (told or rows or [""])[0], is_weak, bool(told), answered_goals(told), goals)

    def wrong_answers(self, report, edit):
        return [row for row in report.errors_in_proofs(edit) if not NAMES.search(row)]

    def unsearched(self, edits):
        """The edits for which only the answers by hand are checked: those that an answer refused when they were last tried,
        and the copies without an edit that stand beside no others."""
        rest = [it for it in edits if not is_bare(it)]
        some = [it for it in rest if it.name in self.by_answer and can_go_without_search(self.crate.folder, it)]
        searched = [it.of for it in rest if isinstance(it, Copy) and it not in some]
        return some + [it for it in edits if is_bare(it) and it.of not in searched and can_go_without_search(self.crate.folder, it)]

    def verdict_of_unsearched(self, report, edit):
        """What the answers by hand say of the edit, or None where they are all right."""
        if is_bare(edit):
            return Verdict.REFUSED if report.errors_in_proofs(edit) else Verdict.PASSES
        return Verdict.REFUSED if self.wrong_answers(report, edit) else None

    def try_batch(self, edits):
        """Tries the edits by one check. Returns the results, and the edits that have to be tried alone."""
        unsearched = self.unsearched(edits)
        changed = [without_search(it) if it in unsearched else it for it in edits]
        texts = edited_texts(self.crate.folder, [*changed, without_bodies(self.crate.folder, self.without_edit(edits))])
        report = self.check(texts, edits, unsearched)
        if not report.reached_the_prover() or report.unread(texts):
            has_copies = any(isinstance(it, Copy) for it in edits)
            bad = [] if has_copies else report.refused_by_the_front_end(edits, self.line_of)
            good = [it for it in edits if it not in bad]
            if not bad or not good:
                return [], edits
            results, alone = self.try_batch(good)
            return results, alone + bad
        known = [*self.without_edit(edits), *(function for it in edits for function in it.functions)]
        if report.fails_alone(known) or report.refuses_lemmas(known):
            return [], edits
        results, alone = [], []
        for edit in edits:
            if edit in unsearched:
                verdict = self.verdict_of_unsearched(report, edit)
                self.by_answer.discard(edit.name if verdict is None else "")
            elif self.leaves_out(edit) and self.goals[edit.name][0] not in report.open_goals(edit):
                verdict = None
                del self.goals[edit.name]
            else:
                verdict = report.verdict_of_bare(edit) if is_bare(edit) else report.verdict(edit)
            if verdict is Verdict.REFUSED:
                results.append(self.refused(report, edit))
            elif verdict is Verdict.PASSES:
                results.append(Result(edit, verdict, "its function is proved"))
            else:
                alone.append(edit)
        return results, alone

    def try_with_copies(self, first, further):
        """Tries by one check the edits of the first batch in place, and further ones in copies. Returns the results,
        those of the first batch that have to be tried alone, and those that it could not tell."""
        results, alone = self.try_batch([*first, *copies_of(self.crate.folder, further)])
        good = {it.edit.of for it in results if is_bare(it.edit) and it.verdict is Verdict.PASSES}
        told = [it for it in results if not isinstance(it.edit, Copy)]
        in_copies = [it for it in results if isinstance(it.edit, Copy) and it.edit.original and it.edit.of in good]
        told += [replace(it, edit=it.edit.original) for it in in_copies]
        left = [it for it in further if not any(it is other.edit for other in told)]
        if not results:
            return [], [], first + left
        return told, [it for it in alone if not isinstance(it, Copy)], left

    def try_alone(self, edit):
        """Tries an edit by a check that has no other one, and where that can't tell, by one of the whole crate."""
        results, _ = self.try_batch([edit]) if edit.is_inside else ([], [])
        return results[0] if results else self.try_with_all(edit)

    def try_with_all(self, edit):
        """Tries an edit by a check of the whole crate, with all proofs."""
        texts = edited_texts(self.crate.folder, [edit])
        report = self.check(texts, [])
        verdict = report.verdict(edit) if edit.is_inside else report.verdict_of_all(texts)
        if edit.is_inside and (not report.reached_the_prover() or report.unread(texts)):
            verdict = Verdict.UNJUDGED
        if verdict is Verdict.REFUSED and edit.is_inside:
            return self.refused(report, edit)
        if verdict is Verdict.PASSES:
            return Result(edit, verdict, "its function is proved")
        told = next((row for row in report.lines if "error" in row), report.lines[-1])
        return Result(edit, verdict or Verdict.UNJUDGED, told)

    def try_batches(self, edits):
        """Tries the edits by as few checks as have no two of one function. Returns what `try_batch` does."""
        results, alone = [], []
        for some in batches_of(edits):
            judged, left = self.try_batch(some)
            results += judged
            alone += left
        return results, alone

    def try_inside(self, edits):
        """The results of edits that lie in functions."""
        results, alone, left = [], [], edits
        batches = batches_of(edits)
        if len(batches) > 1:
            further = [it for some in batches[1:] for it in some]
            results, alone, left = self.try_with_copies(batches[0], further)
        more, others = self.try_batches(left)
        results, alone = results + more, alone + others
        if 1 < len(alone) < len(edits):
            # Most of these call a function whose edit stood in the same check, and which has no body in the next one.
            more, alone = self.try_batches(alone)
            results += more
        return results + [self.try_alone(it) for it in alone]

    def try_all(self, edits):
        """The result of each edit, in the order of their names."""
        results = [Result(it, Verdict.UNJUDGED, it.problem) for it in edits if it.problem]
        left = [it for it in edits if not it.problem]
        with tempfile.TemporaryDirectory(prefix="wrong-bodies-kept-") as self.kept:
            results += self.try_inside([it for it in left if it.is_inside])
            results += [self.try_alone(it) for it in left if not it.is_inside]
        return sorted(results, key=lambda it: it.edit.name)
