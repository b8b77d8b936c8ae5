"""Clients of a live cluster: threads that read and write, and the history of their calls."""
import random
import threading
import time
from collections import namedtuple

from history import History

UNKNOWN = b"-ERR no quorum answered in time"
LONGEST_PADDING = 60000

# A call as a picture shows it: who made it at which node, and when, in seconds since the history began.
Drawn = namedtuple("Drawn", "client node name kind value began ended answered")


class LiveHistory(History):
    """A history that several threads write. A call without an answer stays open for good."""

    def __init__(self):
        super().__init__()
        self.lock = threading.Lock()
        self.lost, self.faults = 0, []
        self.drawn, self.intervals = [], []
        self.zero = time.monotonic()

    def now(self):
        return time.monotonic() - self.zero

    def begin(self, name, value):
        with self.lock:
            return super().begin(name, value)

    def end(self, key, value):
        with self.lock:
            super().end(key, value)

    def draw(self, call):
        with self.lock:
            self.drawn.append(call)

    def fault(self, text):
        with self.lock:
            self.faults.append(text)

    def note(self, what, node, began):
        """Something was so from that moment until now, say a node was down."""
        with self.lock:
            self.intervals.append((what, node, began, self.now()))

    def write_run(self, path):
        """Writes what deploy/picture draws."""
        with open(path, "w") as file:
            for what, node, began, ended in self.intervals:
                print(what, node, f"{began:.4f} {ended:.4f}", file=file)
            for call in self.drawn:
                print("call", call.client, call.node, call.name, call.kind, call.value, f"{call.began:.4f}",
                      f"{call.ended:.4f}", "answered" if call.answered else "unanswered", file=file)


class Names:
    """Hands out the names of calls. Few names are in use at a time, so that calls meet; a name that had its share of
    calls is replaced by a new one, so that no history is too long to be checked."""

    def __init__(self, active, calls):
        self.lock, self.calls, self.made = threading.Lock(), calls, 0
        self.active = [self.make() for _ in range(active)]

    def make(self):
        self.made += 1
        return [f"name-{self.made}", 0]

    def take(self, source):
        with self.lock:
            place = source.randrange(len(self.active))
            entry = self.active[place]
            entry[1] += 1
            if entry[1] == self.calls:
                self.active[place] = self.make()
            return entry[0]

    def all(self):
        with self.lock:
            return [f"name-{number}" for number in range(1, self.made + 1)]


class SameNames(Names):
    """The same names all the time, in turn, of which few are in use at a time."""

    def __init__(self, count, active, calls):
        super().__init__(count, None)
        self.at_once, self.calls_each, self.taken = active, calls, 0

    def take(self, source):
        with self.lock:
            self.taken += 1
            place = self.taken // self.calls_each + source.randrange(self.at_once)
            return self.active[place % len(self.active)][0]


class Values:
    """Values that are all different: a number and a padding that the number determines."""

    def __init__(self):
        self.lock, self.count = threading.Lock(), 0

    def next(self):
        with self.lock:
            self.count += 1
            return str(self.count)

    @staticmethod
    def bytes_of(number):
        source = random.Random(int(number))
        return f"{number}-".encode() + source.randbytes(source.choice([0, 20, 1000, LONGEST_PADDING]))


class Load:
    """Threads of clients that read and write at any node until they are told to stop."""

    def __init__(self, cluster, history, seed, clients, names, pace):
        self.cluster, self.history, self.values, self.names = cluster, history, Values(), names
        self.pace, self.stopped = pace, threading.Event()
        self.threads = [threading.Thread(target=self.run, args=[number, random.Random(f"{seed} {number}")])
                        for number in range(1, clients + 1)]

    def __enter__(self):
        for thread in self.threads:
            thread.start()
        return self

    def __exit__(self, *_):
        self.stop()

    def stop(self):
        self.stopped.set()
        for thread in self.threads:
            thread.join()

    def run(self, client, source):
        while not self.stopped.is_set():
            node = source.choice(list(self.cluster.numbers))
            try:
                connection = self.cluster.connect(node)
            except OSError:
                time.sleep(0.02)
                continue
            with connection:
                for _ in range(source.randint(1, 20)):
                    value = self.values.next() if source.random() < 0.5 else None
                    if self.stopped.is_set() or not self.call(connection, client, node, self.names.take(source), value):
                        break
                    time.sleep(source.random() * self.pace)

    def call(self, connection, client, node, name, value):
        """Makes a call. Whether the connection can be used further."""
        history, began = self.history, self.history.now()
        key = history.begin(name, value)
        words = [b"GET", name.encode()] if value is None else [b"SET", name.encode(), Values.bytes_of(value)]
        try:
            answer = connection.ask(*words)
        except OSError:
            answer = None
        read = note_answer(history, key, name, value, answer)
        history.draw(Drawn(client, node, name, "read" if value is None else "write", value or read or "-", began,
                           history.now(), read is not None))
        return answer is not None


def note_answer(history, key, name, value, answer):
    """Notes the answer of a call. The value that was read, `-` where none was written or read, or None without an answer."""
    if answer is None:
        with history.lock:
            history.lost += 1
    elif answer.startswith(UNKNOWN):
        with history.lock:
            history.give_up(key)
    elif value is not None and answer == b"+OK":
        history.end(key, None)
        return "-"
    elif value is None and not answer.startswith(b"-ERR"):
        number = answer.partition(b"-")[0].decode(errors="replace")
        if answer and (not number.isdigit() or answer != Values.bytes_of(number)):
            history.fault(f"a read of {name} returned bytes that nobody wrote: {answer[:40]}")
            return None
        history.end(key, number)
        return number or "-"
    else:
        history.fault(f"unexpected answer: {answer[:80]}")
    return None
