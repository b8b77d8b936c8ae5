"""Checks the copies of several crates by one run of the prover, which then reads the libraries below them only once.

None of the crates is below another, so each is checked over the same libraries as in a run of its own. What the run says
of a crate is taken apart from what it says of the others, with the paths as a run of its own prints them.
"""
import os
import re
import tempfile
import threading

from kit import run_prover, start_above, words_above_all

# What a check ends with that took functions apart. Otherwise the front end, which comes before the prover, has refused something.
REACHED = re.compile(r"\n(logic|only)=.*\n*\Z")


def text_of(name, text):
    """The lines that speak of one crate, and those that speak of none."""
    rows = []
    for row in text.split("\n"):
        of_crate = re.match(r"(?:note: )?(?:\./)?(\w+)/(?:src|specs|proofs)/|fn (\w+)::", row)
        if not of_crate or name in of_crate.groups():
            rows.append(row if not of_crate or of_crate[2] else row.replace(f"{name}/", "", 1))
    return "\n".join(rows)


class Joint:
    """The first check of each of several crates, made by one run, once all have asked for it or have ended without."""

    def __init__(self, names):
        self.awaited, self.asked, self.told = set(names), {}, None
        self.turn, self.alone = threading.Condition(), threading.Lock()

    def leave(self, name):
        """Has the others wait for this crate no longer."""
        with self.turn:
            self.awaited.discard(name)
            self.turn.notify_all()

    def check(self, crate, jobs, room, only):
        """What a run says of the crate whose copy lies in this folder, and of the functions named: its status, what it
        printed, and the crate's share of the seconds of a processor. None where the run came to nothing: then each crate
        needs a run of its own."""
        with self.turn:
            self.asked[crate.name] = crate, jobs, room, only
            self.leave(crate.name)
            self.turn.wait_for(lambda: not self.awaited)
            if self.told is None:
                self.told = self.run([*self.asked.values()]) if len(self.asked) > 1 else {}
            return self.told.get(crate.name)

    def others(self):
        """How many other crates were checked by the same run."""
        return max(len(self.told or {}) - 1, 0)

    def run(self, asked):
        with tempfile.TemporaryDirectory(prefix="wrong-bodies-") as room:
            for crate, _, copy, _ in asked:
                os.symlink(copy, f"{room}/{crate.name}")
            start_above(room)
            words = words_above_all([crate for crate, *_ in asked], max(jobs for _, jobs, *_ in asked))
            only = dict.fromkeys(word for *_, some in asked for word in some)
            status, text, seconds = run_prover([*words, *only], room)
        if not REACHED.search(text):
            return {}
        return {crate.name: (status, text_of(crate.name, text), seconds / len(asked)) for crate, *_ in asked}
