"""What deploy/replace and deploy/drain have in common as commands: rounds of moves until no layout has the old node,
the progress on standard error, and the summary."""
import sys
import threading
import time

import command_options
from cluster_nodes import BadArguments, numbers_of
from command_options import names, prefix, printed, say, say_unasked
from moving import Moves
from name_layouts import Survey

MOST_ROUNDS = 8  # so often names are moved that clients have written first while others moved


def check_member(cluster, number):
    """Refuses a node that is known to be none of the cluster."""
    members = cluster.members()
    if members is not None and number not in members:
        raise BadArguments(f"node {number} is none of the cluster, whose nodes are {' '.join(map(str, members))}")


class Command:
    """One run of a command: surveys and moves by turns, and what it says."""

    def __init__(self, cluster, plan, at_once):
        self.cluster, self.plan = cluster, plan
        self.moves, self.survey = Moves(cluster, plan, at_once), Survey(cluster)
        self.began, self.is_moving = time.monotonic(), False

    def go(self):
        """Moves names until no layout has the old node, or until each name whose layout has it was tried. Returns the
        status."""
        threading.Thread(target=self.show_progress, daemon=True).start()
        for _ in range(MOST_ROUNDS):
            self.look()
            due = [name for name in self.survey.names_on(self.plan.old) if name not in self.moves.tried]
            if not due or self.moves.stopped is not None:
                return self.summary()
            self.plan.prepare(self.cluster, self.survey.layouts)
            self.is_moving = True
            self.moves.run(due, self.survey.layouts)
        self.look()
        return self.summary()

    def look(self):
        """Looks at all names and layouts. Which nodes answer is known already at the first time."""
        self.is_moving = False
        if self.moves.tried:
            self.cluster.look()
        self.survey = Survey(self.cluster)
        self.survey.make()

    def show_progress(self):
        """Once a second, one line on standard error."""
        before = 0
        while True:
            time.sleep(1)
            done, left = self.moves.counts()
            text = f"{done} names done, {left} left, {done - before} names a second"
            if not self.is_moving:
                text = f"{len(self.survey.layouts)} names found so far; {text}" if done else \
                    f"{len(self.survey.layouts)} names found so far"
            print(f"{prefix()} {text}", file=sys.stderr, flush=True)
            before = done

    def summary(self):
        """Says what was done and what was not, and returns the status."""
        moves, old, seconds = self.moves, self.plan.old, time.monotonic() - self.began
        left = set(self.survey.names_on(old))
        done = moves.done - left
        gone = len(done & moves.gone)
        say(f"{names(len(done))} {self.plan.done} in {seconds:.1f} s, {len(done) / max(seconds, 0.001):.1f} names "
                 "a second" + (f"; {gone} of them by somebody else" if gone else ""))
        # A name that was tried and not done is told also if its layout no longer has the old node: a move that was
        # given up goes on, and nodes tell its layout before it ends.
        failed = sorted((left & moves.tried) | (moves.tried - moves.done))
        for name in failed:
            say(f"{printed(name)} was not moved: {self.reason(name, left)}")
        if untried := len(left - moves.tried):
            say(f"not tried: {names(untried)}; {moves.stopped or 'clients wrote them first meanwhile'}")
        unasked = say_unasked(self.cluster, self.survey, old)
        has = f"{len(left)} have" if len(left) > 1 else f"{len(left) or 'none'} has"
        say(f"of {names(len(self.survey.layouts))}, {has} node {old} in the last layout"
                 + (f"; not asked: {', '.join(unasked)}" if unasked else ""))
        return 1 if failed or left or unasked else 0

    def reason(self, name, left):
        """Why a name that was tried was not moved."""
        reason, old = self.moves.reasons.get(name), self.plan.old
        if reason is None:
            return f"it was moved, but its layout has node {old} again"
        if name in left:
            return reason
        return f"{reason} (its last layout has no node {old}, but that move may still go on)"

    def interrupted(self):
        done, left = self.moves.counts()
        say(f"interrupted: {names(done)} {self.plan.done}, {left} left; give the command again for the others")
        return 130


def main(make_plan, description, first):
    """Carries out a command whose first words are numbers of nodes, of which `make_plan` makes a plan."""
    def make_command(options, cluster):
        nodes = numbers_of([getattr(options, name) for name in first])
        for node in nodes:
            check_member(cluster, node)
        return Command(cluster, make_plan(*nodes), options.at_once)

    command_options.main(make_command, description, first)
