"""The names of a cluster and their layouts: all nodes that answer are asked by SCAN and LAYOUT."""
import re
import threading
from collections import namedtuple

from cluster_nodes import NoAnswer, side_by_side, text_of
from node_client import encode

SCANNED = b"1000"  # at how many names a node looks for one answer
ASKED = 200        # so many names are asked for before their answers are read
LINE = re.compile(rb"position (\d+) k (\d+) nodes((?: \d+)+)")

# How many moves there were before this layout, how many fragments restore a value, and the nodes that keep one each.
Layout = namedtuple("Layout", "position k nodes")


def layout_of(answer):
    """The layout that an answer to LAYOUT tells."""
    found = LINE.fullmatch(answer)
    if found is None:
        raise NoAnswer(text_of(answer))
    return Layout(int(found[1]), int(found[2]), tuple(int(word) for word in found[3].split()))


def names_at(client):
    """The names that a node keeps, as they come."""
    cursor = b"0"
    while True:
        client.send(encode([b"SCAN", cursor, b"COUNT", SCANNED]))
        answer = client.array()
        if not isinstance(answer, list) or len(answer) != 2 or not isinstance(answer[1], list):
            raise NoAnswer(text_of(answer))
        cursor = answer[0]
        yield from answer[1]
        if cursor == b"0":
            return


def layouts_at(client, names):
    """The last layout that a node knows of each name, as they come."""
    for first in range(0, len(names), ASKED):
        part = names[first:first + ASKED]
        client.send(b"".join(encode([b"LAYOUT", name]) for name in part))
        for name in part:
            yield name, layout_of(client.answer())


class Survey:
    """All names that the nodes of a cluster tell now, each with the layout of the greatest position that one tells. If
    a node fails meanwhile, it goes on with the others."""

    def __init__(self, cluster):
        self.cluster, self.lock = cluster, threading.Lock()
        self.layouts = {}  # of each name
        self.failed = {}   # why a node was not asked for all that it knows, by its number

    def make(self):
        self.find_names()
        names = list(self.layouts)
        self.at_all(lambda client: self.take_layouts(client, names))
        self.layouts = {name: layout for name, layout in self.layouts.items() if layout is not None}
        return self

    def find_names(self):
        """All names, whose layouts stay unknown."""
        self.at_all(self.take_names)

    def at_all(self, take):
        """Asks all nodes at the same time."""
        nodes = [node for number, node in self.cluster.nodes.items() if number not in self.failed]
        side_by_side(lambda node: self.at_one(node, take), nodes)

    def at_one(self, node, take):
        try:
            with self.cluster.connect(node) as client:
                take(client)
        except NoAnswer as fault:
            self.failed[node.number] = str(fault)

    def take_names(self, client):
        for name in names_at(client):
            self.layouts.setdefault(name, None)

    def take_layouts(self, client, names):
        for name, layout in layouts_at(client, names):
            with self.lock:
                known = self.layouts[name]
                if known is None or known.position < layout.position:
                    self.layouts[name] = layout

    def names_on(self, node):
        """The names whose layout has the node, in order."""
        return sorted(name for name, layout in self.layouts.items() if node in layout.nodes)
