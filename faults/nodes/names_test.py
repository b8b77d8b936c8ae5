#!/usr/bin/env python3
"""Tests what names cost a node that are read and were never written, or that are deleted: names_test.py PROGRAM.

The nodes are on pipes, and each frame arrives at once. INFO says how many objects a node keeps in memory."""
import sys
import tempfile
import unittest
from pathlib import Path

HERE = Path(__file__).resolve().parent
sys.path[:0] = [str(HERE), str(HERE.parents[1] / "deploy" / "test")]
sys.dont_write_bytecode = True

from at_once import Cluster  # noqa: E402

PROGRAM = sys.argv.pop(1)
NUMBERS = range(1, 7)
# A name has five members, so that one node keeps nothing of it.
FILE = "nodes 1 2 3 4 5 6\nn 5\nk 3\ndelta 8\nmover 1\nlater\nticks 10\n"
# So many names are read at each node, before and after a name is written.
FIRST, MORE = 400, 50
NIL, OK, VALUE = b"$-1\r\n", b"+OK\r\n", b"$5\r\nvalue\r\n"
NO_QUORUM = b"-ERR no quorum answered in time\r\n"


class Six(Cluster):
    """Six nodes."""

    def __init__(self, folder):
        super().__init__(PROGRAM, folder)
        self.file.write_text(FILE)
        self.start(*NUMBERS)

    def told(self, key):
        """What each node that runs tells behind a key of INFO."""
        lines = [self.ask(number, b"INFO").split(b"\r\n") for number in self.nodes]
        return [int(line.split(b":")[1]) for node in lines for line in node if line.startswith(key + b":")]

    def objects(self):
        """How many objects each node that runs keeps in memory."""
        return self.told(b"objects")


class Names(unittest.TestCase):
    def setUp(self):
        folder = self.enterContext(tempfile.TemporaryDirectory())
        self.cluster = Six(folder)
        self.addCleanup(lambda: self.cluster.stop(*self.cluster.nodes))

    def read_unwritten(self, names):
        for number in NUMBERS:
            for place in range(names):
                self.assertEqual(self.cluster.ask(number, b"GET", b"%d %d" % (number, place)), NIL)

    def test_reads_leave_nothing(self):
        """Names that were never written are read at each node, and no node keeps an object of them."""
        self.assertEqual(self.cluster.objects(), [0] * len(NUMBERS))
        self.read_unwritten(FIRST)
        self.assertEqual(self.cluster.objects(), [0] * len(NUMBERS))

    def test_written_name_stays(self):
        """A name that was written is one object at each of its members, and none at the other node, wherever it is
        written and read, also after reads of other names and after a start."""
        self.assertEqual(self.cluster.ask(1, b"SET", b"name", b"value"), OK)
        kept = self.cluster.objects()
        self.assertEqual(sorted(kept), [0, 1, 1, 1, 1, 1])
        self.read_unwritten(MORE)
        for number in NUMBERS:
            self.assertEqual(self.cluster.ask(number, b"GET", b"name"), VALUE)
        self.assertEqual(self.cluster.objects(), kept)
        self.cluster.stop(*NUMBERS)
        self.cluster.start(*NUMBERS)
        self.assertEqual(self.cluster.objects(), kept)
        for number in NUMBERS:
            self.assertEqual(self.cluster.ask(number, b"GET", b"name"), VALUE)

    def test_tags(self):
        """A bank knows the tags of the nine newest writes and the one with which each object begins, also after a
        start; each member of the name has one bank."""
        for write in range(1, 21):
            self.assertEqual(self.cluster.ask(write % 6 + 1, b"SET", b"name", b"%d" % write), OK)
            self.assertEqual(sorted(self.cluster.told(b"cluster_tags")), [0] + [min(write, 9) + 1] * 5)
        for _ in range(2):
            self.assertEqual(sorted(self.cluster.told(b"cluster_open_banks")), [0, 1, 1, 1, 1, 1])
            self.assertEqual(sorted(self.cluster.told(b"cluster_tags")), [0] + [10] * 5)
            self.cluster.stop(*NUMBERS)
            self.cluster.start(*NUMBERS)

    def test_given_up_read(self):
        """A read that no quorum answers is given up, and leaves nothing at the nodes that run."""
        self.cluster.stop(4, 5, 6)
        for number in self.cluster.nodes:
            self.assertEqual(self.cluster.ask(number, b"GET", b"name"), NO_QUORUM)
        self.assertEqual(self.cluster.objects(), [0, 0, 0])

    def test_deleted_names(self):
        """Names that were written and then deleted read as nil, and no node keeps a byte of their values, also after
        a start. They are objects and count as names still."""
        for name in (b"first", b"second", b"third"):
            self.assertEqual(self.cluster.ask(1, b"SET", name, b"x" * 3000), OK)
            self.assertEqual(self.cluster.ask(2, b"SET", name, b"y" * 3000), OK)
        kept = self.cluster.objects()
        # Two versions of three names, at five members each, with a third of 3,000 bytes in a fragment.
        self.assertGreaterEqual(sum(self.cluster.told(b"bytes_stored")), 2 * 3 * 5 * 1000)
        self.assertEqual(self.cluster.ask(3, b"DEL", b"first", b"second", b"third"), b":3\r\n")
        for _ in range(2):
            self.assertEqual(self.cluster.told(b"bytes_stored"), [0] * len(NUMBERS))
            self.assertEqual(self.cluster.objects(), kept)
            for number in NUMBERS:
                self.assertEqual(self.cluster.ask(number, b"GET", b"second"), NIL)
            self.cluster.stop(*NUMBERS)
            self.cluster.start(*NUMBERS)

    def test_deletion_without_a_quorum(self):
        """A DEL that no quorum answers is given up, with one error, and the next name keeps its value."""
        for name in (b"first", b"second"):
            self.assertEqual(self.cluster.ask(1, b"SET", name, b"value"), OK)
        self.cluster.stop(4, 5, 6)
        self.assertEqual(self.cluster.ask(1, b"DEL", b"first", b"second"), NO_QUORUM)
        self.cluster.start(4, 5, 6)
        self.assertEqual(self.cluster.ask(2, b"GET", b"second"), VALUE)


if __name__ == "__main__":
    unittest.main()
