"""Moves names from a node to others, many at a time, over as many connections to the mover."""
import threading
import time

from cluster_nodes import BadArguments, NoAnswer, shown, side_by_side, text_of
from name_layouts import layout_of

RETRY = 5  # seconds in which a connection to the mover that cannot be made is tried again
NOT_MOVER = b"-ERR only the mover moves objects"


class CannotMove(Exception):
    """Why a name has no layout to which it could move."""


class NotMover(Exception):
    """The node that was asked to move a name is not the mover."""


class Moves:
    """The moves of names whose layout has the node `plan.old`. The plan has a function `choose`, which returns the node
    that takes the old one's place in a layout or raises CannotMove, and `give_back`, for a node that did not get it."""

    def __init__(self, cluster, plan, at_once):
        self.cluster, self.plan, self.at_once = cluster, plan, at_once
        self.lock = threading.Lock()
        self.candidates = []  # the nodes of which one may be the mover; the first one is asked
        self.stopped = None   # why no further name is tried
        self.waiting, self.layouts = [], {}
        self.tried, self.done = set(), set()
        self.gone = set()  # of the done ones those that somebody else moved meanwhile
        self.reasons = {}  # why a name was not moved

    def run(self, names, layouts):
        """Moves these names, whose layouts are among the given ones."""
        self.waiting, self.layouts, self.candidates = list(reversed(names)), layouts, self.cluster.movers()
        if not self.candidates:
            self.stopped = self.no_mover("does not answer")
        side_by_side(lambda _: self.work(), range(min(self.at_once, len(names))))

    def no_mover(self, why):
        told = self.cluster.told("mover")
        return "no node that answers is the mover" if told is None else f"node {told[0]}, the mover, {why}"

    def next_name(self):
        with self.lock:
            if self.stopped is not None or not self.waiting:
                return None
            name = self.waiting.pop()
            self.tried.add(name)
            return name

    def work(self):
        """Moves names over one connection, as long as there are some."""
        client = None
        while (name := self.next_name()) is not None:
            client = self.try_name(client, name)
        if client is not None:
            client.close()

    def try_name(self, client, name):
        """Moves a name over the connection, or over a new one. Returns the connection if the next name can use it."""
        try:
            client = client or self.connect()
            self.note(name, self.move(client, name))
            return client
        except NoAnswer as fault:
            self.note(name, str(fault))
        except NotMover:
            self.pass_on(client.node, name)
        if client is not None:
            client.close()
        return None

    def pass_on(self, node, name):
        """This node is not the mover, so the next one is asked to move the name."""
        with self.lock:
            self.tried.discard(name)
            self.waiting.append(name)
            if self.candidates[:1] == [node]:
                self.candidates.pop(0)
            if not self.candidates:
                self.stopped = self.no_mover("says that it does not move objects")

    def note(self, name, reason):
        """Notes that a name was moved, or why it was not."""
        with self.lock:
            if reason is None:
                self.done.add(name)
            else:
                self.reasons[name] = reason

    def counts(self):
        """How many names are moved, and how many are not."""
        with self.lock:
            done = len(self.done)
            return done, len(self.tried) + len(self.waiting) - done

    def connect(self):
        """A connection to the mover, which may be starting again."""
        end, reason = time.monotonic() + RETRY, None
        while True:
            for node in self.candidates[:1]:
                try:
                    client = self.cluster.connect(node)
                    client.node = node
                    return client
                except NoAnswer as fault:
                    reason = f"the mover, at {shown(node.address)}, does not answer: {fault}"
            if self.stopped is None and time.monotonic() > end:
                self.stopped = reason
            if self.stopped is not None:
                raise NoAnswer(self.stopped)
            time.sleep(0.1)

    def move(self, client, name):
        """Moves a name. Returns why it was not moved, or None. The mover knows of all moves, so it is asked once more
        for the last layout: somebody else may have moved the name meanwhile."""
        layout = max(self.layouts[name], layout_of(client.ask(b"LAYOUT", name)))
        if self.plan.old not in layout.nodes:
            self.gone.add(name)
            return None
        try:
            new = self.plan.choose(layout)
        except CannotMove as fault:
            return str(fault)
        nodes = [new if node == self.plan.old else node for node in layout.nodes]
        try:
            answer = client.ask(b"MOVE", name, b"%d" % layout.k, *(b"%d" % node for node in nodes))
        except NoAnswer:
            self.plan.give_back(new)
            raise
        if answer == b"+OK":
            return None
        self.plan.give_back(new)
        if answer == NOT_MOVER:
            raise NotMover
        if answer == b"-ERR node %d is not in the cluster file" % new and not self.done:
            raise BadArguments(f"the mover says that node {new} is not in the cluster file")
        return text_of(answer)
