"""A cluster whose objects move, for tests: nodes on pipes, between which each frame arrives at once if both nodes run.

A name has the nodes 1 to 5 at first, and a quorum of five nodes with k = 3 has four. The cluster file also has the
nodes 6 to 12, which join later."""
import tempfile
import unittest

from at_once import Cluster

FIRST = (1, 2, 3, 4, 5)
ALL = range(1, 13)
FILE = "nodes {first}\nn {count}\nk {k}\ndelta {delta}\nmover {mover}\nlater {later}\nticks {ticks}\n"
OK, NO_QUORUM = b"+OK\r\n", b"-ERR no quorum answered in time\r\n"
MIB = 1 << 20


def bulk(value):
    """The answer to a read of this value."""
    return b"$%d\r\n%s\r\n" % (len(value), value)


class MovedCase(unittest.TestCase):
    program = None

    def start(self, mover, *numbers, ticks=50, first=FIRST, k=3, delta=2):
        """A cluster of which these nodes run. Each name is moved by the given mover."""
        self.cluster = cluster = Cluster(self.program, self.enterContext(tempfile.TemporaryDirectory()))
        self.addCleanup(lambda: cluster.stop(*cluster.nodes))
        self.mover, self.written = mover, 0
        self.cluster.file.write_text(FILE.format(
            first=" ".join(map(str, first)), count=len(first), k=k, delta=delta, mover=mover,
            later=" ".join(str(number) for number in ALL if number not in first), ticks=ticks))
        self.cluster.start(*numbers)

    def gives(self, number, wanted, *words, ticks=None):
        """The answer of a node to a command, within so many ticks if they are given."""
        self.assertEqual(self.cluster.ask(number, *words), wanted, (number, words[:2]))
        if ticks is not None:
            self.assertLessEqual(self.cluster.ticks, ticks, (number, words[:2]))

    def move(self, *nodes, name=b"a", k=3):
        self.gives(self.mover, OK, b"MOVE", name, b"%d" % k, *(b"%d" % node for node in nodes))

    def start_again(self, *numbers):
        """These nodes, or all that run, are killed at once, and start again."""
        numbers = numbers or list(self.cluster.nodes)
        self.cluster.stop(*numbers)
        self.cluster.start(*numbers)
