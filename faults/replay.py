"""Plays the stories, each step with each of its requests for memory refused."""
import re

from memory import NO_MEMORY
from stories import SPARING, STORIES


def play_stories(machine, cas):
    """Plays every story. Answers what was not as it should be, a line each."""
    found = []
    for name, (opening, steps) in STORIES.items():
        found += [f"{name}: {fault}" for fault in Story(machine, cas, opening, steps).play()]
    return found


def shows(positions, members, calls):
    """The commands that show all of the object."""
    banks = [f"bank a {position} {member}" for position in range(positions) for member in range(members)]
    return [f"show a {call}" for call in range(1, calls + 1)] + ["mail a", *banks, "account", "history a"]


def without_steps(text):
    """A text without the numbers of steps, which a resume makes greater."""
    return re.sub(r"(?m)^(\d+ (?:read|write|move)) \d+ (?:\d+|-)", r"\1", text)


class Story:
    """One story, with what it shows before each of its steps where memory is ample."""

    def __init__(self, machine, cas, opening, steps):
        self.machine, self.cas, self.opening, self.steps = machine, cas, opening, steps
        # The places that every layout of the story has.
        lines = opening + [step for step, _ in steps]
        self.members = min(len(line.split()) - 2 for line in lines if line.startswith("layout"))
        self.calls = sum(1 for step, _ in steps if re.match(r"call|read|write|move", step))

    def commands(self, upto):
        """The opening and the first steps."""
        return self.opening + [step for step, _ in self.steps[:upto]]

    def positions(self, upto):
        return 1 + sum(1 for step, _ in self.steps[:upto] if "move" in step.split())

    def view(self, commands, positions):
        """What the object shows after these commands."""
        before = self.machine.play(self.cas, commands).out
        return self.machine.play(self.cas, commands + shows(positions, self.members, self.calls)).out[len(before):]

    def play(self):
        found = []
        for place, (step, wanted) in enumerate(self.steps):
            line = self.printed(self.commands(place), step)
            if wanted is not None and line != wanted + "\n":
                found.append(f"{step}: {line!r} in place of {wanted!r}")
            else:
                found += [f"{step}: request {nth}: {fault}" for nth, fault in self.refuse(place, line)]
        return found

    def printed(self, commands, step):
        before = self.machine.play(self.cas, commands).out
        return self.machine.play(self.cas, commands + [step]).out[len(before):]

    def refuse(self, place, wanted):
        """Refuses each request of a step in turn. Answers each request at which something was wrong."""
        before, step = self.commands(place), self.steps[place][0]
        after = len(self.machine.play(self.cas, before).out)
        for nth, run in self.machine.refusals(self.cas, before + [step], after):
            line = run.out[after:]
            if run.status == 1:
                fault = None if not line and run.err == NO_MEMORY + "\n" else f"{line!r}, {run.err!r}"
            elif line == wanted:
                fault = None
            elif step.startswith(SPARING):
                fault = f"it asks for memory, and prints {line!r}"
            else:
                fault = Refused(self, place, after, nth, line.strip()).fault(wanted)
            if fault:
                yield nth, fault


class Refused:
    """A step of a story of which one request was refused, and which said so."""

    def __init__(self, story, place, after, nth, line):
        self.story, self.place, self.after, self.nth, self.line = story, place, after, nth, line
        self.before, self.step = story.commands(place), story.steps[place][0]

    def play(self, behind):
        """What the refused step and the commands behind it print."""
        story = self.story
        run = story.machine.play(story.cas, self.before + [self.step] + behind, self.after, self.nth)
        return run.out[self.after:].split("\n", 1)[1]

    def fault(self, wanted):
        """What is wrong with it, if anything is."""
        open_call = re.fullmatch(r"call (\d+) " + NO_MEMORY, self.line)
        if open_call:
            return self.went_on([f"resume a {open_call[1]}"], wanted, without_steps, "calls")
        if self.line != NO_MEMORY:
            return f"printed {self.line!r}"
        if self.step.startswith("deliver"):
            return self.delivered(wanted)
        return self.unchanged() or self.went_on([self.step], wanted, lambda text: text, "steps")

    def unchanged(self):
        """A refused step changes nothing that the object shows."""
        story, positions = self.story, self.story.positions(self.place)
        shown = self.play(shows(positions, story.members, story.calls))
        return None if shown == story.view(self.before, positions) else "the refused step changed what is shown"

    def went_on(self, mended, wanted, seen, counted):
        """Behind the mended step all comes out as it would have come."""
        story = self.story
        story.machine.counts[counted] += 1
        positions = story.positions(self.place + 1)
        look = shows(positions, story.members, story.calls)
        rest = [step for step, _ in story.steps[self.place + 1:]]
        ample = story.machine.play(story.cas, self.before + [self.step] + look + rest).out[self.after:]
        came = self.play(mended + look + rest)
        if not came.startswith(wanted):
            return f"{mended[0]} printed {came[:60]!r}"
        is_same = seen(came[len(wanted):]) == seen(ample[len(wanted):])
        return None if is_same else f"after {mended[0]} something else is shown"

    def delivered(self, wanted):
        """A delivery that is refused midway has handled a beginning, and made again it handles the rest."""
        story, positions = self.story, self.story.positions(self.place)
        look = shows(positions, story.members, story.calls)
        shown = self.play(look)
        commands, handled = list(self.before), 0
        while story.view(commands, positions) != shown:
            handled += 1
            step = self.next_step(commands)
            if step is None:
                return "the refused delivery handled no beginning"
            commands.append(step)
        whole = int(wanted.split()[1])
        story.machine.counts["deliveries"] += 1
        return self.went_on([self.step], f"handled {whole - handled}\n", lambda text: text, "steps")

    def next_step(self, commands):
        """The step that handles the first message, if one waits."""
        waiting = self.story.printed(commands, "mail a").split("\n")
        if len(waiting) < 3:
            return None
        return "serve a 0" if waiting[1].split()[1] == "request" else "take a 0"
