"""The history of a run: each object's calls, with the moments at which they began and ended."""
from check import INITIAL, NEVER, Call


class History:
    def __init__(self):
        self.moment = 0
        self.objects = {}
        self.answered_reads = 0
        self.answered_writes = 0
        self.given_up = 0
        self.moves = 0
        self.answered_of = {}

    def begin(self, name, value):
        """Begins a read, where the value is None, or a write. Returns a key of the call."""
        self.moment += 1
        calls = self.objects.setdefault(name, [])
        calls.append(Call("read" if value is None else "write", value, self.moment, NEVER))
        return name, len(calls) - 1

    def end(self, key, value):
        """Ends a call by its answer: the value of a read."""
        self.moment += 1
        name, place = key
        call = self.objects[name][place]
        if call.kind == "read":
            self.answered_reads += 1
            call = call._replace(value=value or INITIAL)
        else:
            self.answered_writes += 1
            self.answered_of[name] = self.writes_of(name) + 1
        self.objects[name][place] = call._replace(ended=self.moment)

    def writes_of(self, name):
        """How many writes of an object have been answered."""
        return self.answered_of.get(name, 0)

    def give_up(self, key):
        """A call was answered that it has no result: a write may still take effect, and a read says nothing."""
        self.given_up += 1

    def counts(self):
        begun = sum(len(calls) for calls in self.objects.values())
        return {"calls": begun, "reads answered": self.answered_reads, "writes answered": self.answered_writes,
                "given up": self.given_up, "moves": self.moves}

    def write(self, path):
        """Writes the history as the checker reads it. Only the number in front of a value is written."""
        with open(path, "w") as file:
            for name, calls in self.objects.items():
                for call in calls:
                    value = (call.value or INITIAL).split("-")[0] or INITIAL
                    ended = "-" if call.ended == NEVER else call.ended
                    print(name, call.kind, value, call.began, ended, file=file)
