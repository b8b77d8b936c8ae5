"""A cluster of node programs on pipes, in which each frame arrives at once if both nodes run."""
from pathlib import Path

from node_pipes import Node

MOST_TICKS = 200


class Cluster:
    """Nodes with one cluster file, and the connections of clients, each of which gives one command."""

    def __init__(self, program, folder):
        self.program, self.folder, self.file = program, Path(folder), Path(folder) / "cluster"
        self.nodes, self.connections, self.answers = {}, 0, {}
        self.frames = 0  # how many frames of nodes have arrived
        self.ticks = 0   # how many ticks the last answer took

    def start(self, *numbers):
        for number in numbers:
            (self.folder / str(number)).mkdir(exist_ok=True)
            self.nodes[number] = Node([self.program], number, self.folder / str(number), self.file)
            self.route(number, self.nodes[number].start())

    def stop(self, *numbers):
        for number in numbers:
            self.nodes.pop(number).kill()

    def route(self, sender, frames):
        """Brings frames to the nodes that run, and what these write, until nothing is on its way."""
        waiting = [(sender, frame) for frame in frames]
        while waiting:
            sender, (address, *strings) = waiting.pop(0)
            kind, number = address.split()
            if kind == b"client":
                self.answers[int(number)] = b"".join(strings)
            elif int(number) in self.nodes:
                self.frames += 1
                written = self.nodes[int(number)].give([b"node %d" % sender, *strings])
                waiting += [(int(number), frame) for frame in written]

    def ask(self, number, *words):
        """What the node answers to a command, with ticks at all nodes until it does."""
        self.connections += 1
        client = self.connections
        self.route(number, self.nodes[number].give([b"client %d" % client, *words]))
        for self.ticks in range(MOST_TICKS):
            if client in self.answers:
                return self.answers.pop(client)
            self.tick()
        raise AssertionError(f"node {number} does not answer {words}")

    def tick(self):
        """A tick at all nodes."""
        for number in list(self.nodes):
            self.route(number, self.nodes[number].give([b"tick"]))

    def pass_time(self):
        """Ticks at all nodes, at which they send again what has had no reply."""
        for _ in range(MOST_TICKS):
            self.tick()

    def info(self, number, setting):
        """What a line of a node's INFO tells."""
        lines = self.ask(number, b"INFO").decode().splitlines()
        return next(line.partition(":")[2] for line in lines if line.startswith(f"{setting}:"))
