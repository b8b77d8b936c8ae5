"""A cluster of node programs on pipes. Nothing moves by itself: a frame is given to a node, which then handles it."""
import subprocess
from collections import namedtuple
from pathlib import Path

from frames import encode
from node_pipes import Node, NodeEnded

CLUSTER_FILE = Path(__file__).resolve().parent.parent.parent / "deploy" / "cluster-file"

# A frame on its way: the step from which on it may arrive, where it goes to and comes from, and how often the node to
# which it goes had been started, with how many calls since, when the frame was sent.
Flying = namedtuple("Flying", "due to sender strings starts begun")


class Cluster:
    """`due` gives the step from which on a frame that is sent may arrive; calls are given up after some ticks. With
    `own_mover`, a node more moves objects and keeps none; else node 1 moves them."""

    def __init__(self, words, count, ticks, folder, history, due, library=None, own_mover=False):
        self.file = file = Path(folder) / "cluster"
        self.members, self.mover = list(range(1, count + 1)), count + 1 if own_mover else 1
        with open(file, "wb") as output:
            option = ["--own-mover"] if own_mover else []
            subprocess.run([CLUSTER_FILE, *option, str(count), str(ticks)], check=True, stdout=output)
        self.nodes, self.history, self.due = {}, history, due
        self.flying = []   # frames between nodes, in the order in which they were sent
        self.open = {}     # the calls that are open: of a connection, its client, node and key in the history
        self.ended = []    # the clients whose calls have ended
        self.whole, self.held = None, None  # whole banks to compare with, and frames that are held back, if any are
        self.connections = 0
        self.starts = dict.fromkeys(range(1, count + 1 + own_mover), 0)  # how often a node was started
        self.begun = dict(self.starts)                       # how many calls a node was given since its last start
        for number in range(1, count + 1 + own_mover):
            (Path(folder) / str(number)).mkdir()
            self.nodes[number] = Node(words, number, Path(folder) / str(number), file, library)

    def set(self, setting, value):
        """Sets, before the first start, what the cluster file says of a setting, such as k."""
        lines = self.file.read_text().split("\n")
        written = (f"{setting} {value}" if line.startswith(f"{setting} ") else line for line in lines)
        self.file.write_text("\n".join(written))

    def unlike(self):
        """The replies that differed from those of whole banks, if these were compared."""
        return [] if self.whole is None else self.whole.faults

    def comparisons(self):
        """What was compared, and what was held back."""
        held = {} if self.held is None else {"held back": self.held.count}
        return held if self.whole is None else {**held, **self.whole.counts}

    def up(self):
        return [number for number, node in self.nodes.items() if node.process is not None]

    def down(self):
        return [number for number, node in self.nodes.items() if node.process is None]

    def start(self, number):
        self.starts[number], self.begun[number] = self.starts[number] + 1, 0
        self.read_log(number)
        self.take_written(number, [b"start"], self.nodes[number].start())

    def start_all(self):
        for number in self.down():
            self.start(number)

    def stop(self):
        for number in self.up():
            self.nodes[number].kill()

    def kill(self, number):
        """Kills a node between two frames. The calls of its clients stay open for good."""
        self.nodes[number].kill()
        for connection, (client, node, _) in list(self.open.items()):
            if node == number:
                del self.open[connection]
                self.ended.append(client)

    def kill_at_work(self, number, flying):
        """Gives a node a frame, and kills it at once. What it wrote meanwhile is lost with it."""
        self.nodes[number].write(encode([b"node %d" % flying.sender, *flying.strings]))
        self.kill(number)

    def stop_at_sync(self, number, waiting):
        """Gives a node the frames that wait for it, until it is to sync its log. Then its computer stops. What the node
        wrote before goes out. Returns whether there was a sync."""
        ended = False
        while waiting and not ended:
            self.flying.remove(flying := waiting.pop())
            came = [b"node %d" % flying.sender, *flying.strings]
            ended, written = self.nodes[number].stop_at_sync(came)
            self.take_written(number, came, written, is_whole=not ended)
        self.kill(number)
        return ended

    def deliver(self, flying):
        if self.nodes[flying.to].process is not None:
            self.give(flying.to, [b"node %d" % flying.sender, *flying.strings])

    def tick(self, number):
        self.give(number, [b"tick"])

    def give(self, number, frame):
        self.take_written(number, frame, self.nodes[number].give(frame))

    def take_written(self, number, came, written, is_whole=True):
        """The node handled a frame, and wrote these. What belongs to the frame is in its log, unless its computer stopped
        meanwhile."""
        if self.whole is not None:
            self.whole.compare(number, came, written, is_whole, self.log(number) if is_whole else None)
        self.route(number, written)

    def log(self, number):
        """The path of the node's log, or None where there is none yet."""
        log = self.nodes[number].folder / "log"
        return log if log.exists() else None

    def read_log(self, number):
        """The whole banks of the node serve what has come to its log."""
        log = self.log(number)
        if self.whole is not None and log is not None:
            self.whole.read_log(number, log)

    def route(self, sender, frames):
        for address, *strings in frames:
            kind, number = address.split()
            if kind == b"node":
                to = int(number)
                flying = Flying(self.due(), to, sender, strings, self.starts[to], self.begun[to])
                if self.held is None or not self.held.takes(flying):
                    self.flying.append(flying)
            elif kind == b"client":
                self.take_answer(int(number), b"".join(strings))
            else:
                raise NodeEnded(f"node {sender} wrote a frame with the address {address}")

    # Clients.

    def call(self, number, client, name, value):
        """A client reads a name, or writes it where a value is given."""
        self.connections += 1
        self.begun[number] += 1
        connection, key = self.connections, self.history.begin(name, value)
        self.open[connection] = client, number, key
        words = [b"GET", name.encode()] if value is None else [b"SET", name.encode(), value.encode()]
        self.give(number, [b"client %d" % connection, *words])

    def take_answer(self, connection, answer):
        if connection not in self.open:
            return
        client, _, key = self.open.pop(connection)
        self.ended.append(client)
        if key is None:
            self.take_move_answer(answer)
        elif answer == b"+OK\r\n":
            self.history.end(key, None)
        elif answer.startswith(b"$"):
            self.history.end(key, answer.partition(b"\r\n")[2][:-2].decode())
        elif answer.startswith(b"-ERR no quorum answered in time"):
            self.history.give_up(key)
        else:
            raise NodeEnded(f"unexpected answer: {answer[:80]}")

    def take_move_answer(self, answer):
        """A move that is still open, or that the node refuses because an earlier one is open, is no fault."""
        self.history.moves += answer == b"+OK\r\n"
        if not answer.startswith((b"+OK", b"-ERR another move of this name is under way", b"-ERR no quorum")):
            raise NodeEnded(f"unexpected answer: {answer[:80]}")

    def leave(self, connection):
        """A client closes its connection while its call is open."""
        client, number, _ = self.open.pop(connection)
        self.ended.append(client)
        self.give(number, [b"client %d" % connection])

    def move(self, source, name):
        """Asks the mover to move an object to some of the nodes that may keep objects."""
        if self.mover not in self.up():
            return
        members = sorted(source.sample(self.members, source.randint(1, len(self.members))))
        k = source.randint(1, len(members))
        self.connections += 1
        self.open[self.connections] = "administrator", self.mover, None
        words = [b"MOVE", name.encode(), b"%d" % k, *(b"%d" % member for member in members)]
        self.give(self.mover, [b"client %d" % self.connections, *words])

    def take_ended(self):
        """The clients that may call again."""
        ended, self.ended = self.ended, []
        return [client for client in ended if client not in ("administrator", "last")]

    def clients_with_calls(self):
        return list(self.open)
