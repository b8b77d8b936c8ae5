#!/usr/bin/env python3
"""Tests that the node which moves objects writes its log anew, and can then move the same objects again:
mover_test.py PROGRAM.

The nodes are on pipes, and each frame arrives at once. The mover's log is mostly fragments that were dropped, so it
becomes shorter when the mover starts again. The objects move to nodes of which the mover is none, so no request to its
banks says where they are; the log has entries for that."""
import sys
import tempfile
import unittest
from pathlib import Path

HERE = Path(__file__).resolve().parent
sys.path[:0] = [str(HERE), str(HERE.parents[1] / "deploy" / "test")]
sys.dont_write_bytecode = True

from at_once import Cluster  # noqa: E402
from frames import encode  # noqa: E402
from log_form import bodies_of  # noqa: E402

PROGRAM = sys.argv.pop(1)
# A name has all three nodes at first. Each keeps the fragment of the newest finished write alone, which is the value.
FILE = "nodes 1 2 3\nn 3\nk 1\ndelta 0\nmover 1\nlater\nticks 10\n"
MIB = 1 << 20
# A log is written anew only if it becomes shorter by at least half and 16 MiB.
WRITES = 20
OK, LARGE, SMALL, NEW = b"+OK\r\n", b"\xff" * MIB, b"2", b"new"


def bulk(value):
    """The answer to a read of this value."""
    return b"$%d\r\n%s\r\n" % (len(value), value)


def heard(position, name, *nodes):
    """The entry which says that an object has this position, with k = 1 and these nodes."""
    return encode([b"hear", b"%d" % position, name, bytes([1, *nodes])])


class Three(Cluster):
    """Three nodes, the first of which moves objects."""

    def __init__(self, folder):
        super().__init__(PROGRAM, folder)
        self.file.write_text(FILE)
        self.start(1, 2, 3)

    def log(self):
        """The mover's log."""
        return (self.folder / "1" / "log").read_bytes()

    def heard(self):
        """The entries of the mover's log which say that an object has a position."""
        return [body for body in bodies_of(self.log()) if body.startswith(b"*4\r\n$4\r\nhear\r\n")]

    def start_again(self):
        """The mover is killed, and starts from its log."""
        self.stop(1)
        self.start(1)


class Mover(unittest.TestCase):
    def setUp(self):
        folder = self.enterContext(tempfile.TemporaryDirectory())
        self.cluster = Three(folder)
        self.addCleanup(lambda: self.cluster.stop(*self.cluster.nodes))
        for number in range(WRITES - 1):
            self.assertEqual(self.cluster.ask(1, b"SET", b"large", bytes([number]) * MIB), OK)
        self.assertEqual(self.cluster.ask(1, b"SET", b"large", LARGE), OK)
        self.assertEqual(self.cluster.ask(1, b"SET", b"small", SMALL), OK)

    def move(self, name, *nodes):
        """The object moves to these nodes, with k = 1."""
        self.assertEqual(self.cluster.ask(1, b"MOVE", name, b"1", *(b"%d" % node for node in nodes)), OK)

    def values_are(self, **values):
        """These are the values of these names, at each node."""
        for name, value in values.items():
            for number in (1, 2, 3):
                self.assertEqual(self.cluster.ask(number, b"GET", name.encode()), bulk(value), (name, number))

    def log_becomes_short(self):
        """The log is long, and short once the mover starts again."""
        self.assertGreater(len(self.cluster.log()), 19 * MIB)
        self.cluster.start_again()
        self.assertLess(len(self.cluster.log()), 2 * MIB)

    def test_moved(self):
        """The log says where each object was moved to. The values stay, and the objects move on from where they are,
        also after the mover starts again from the short log, to which entries were added."""
        self.move(b"large", 2)
        self.move(b"large", 3)
        self.move(b"small", 2, 3)
        self.assertEqual(self.cluster.heard(), [])
        self.log_becomes_short()
        entries = [heard(1, b"large", 2), heard(1, b"small", 2, 3), heard(2, b"large", 3)]
        self.assertEqual(sorted(self.cluster.heard()), sorted(entries))
        self.values_are(large=LARGE, small=SMALL)
        self.move(b"large", 1, 2)
        self.values_are(large=LARGE)
        self.assertEqual(self.cluster.ask(2, b"SET", b"large", NEW), OK)
        self.cluster.start_again()
        self.values_are(large=NEW, small=SMALL)
        self.move(b"small", 1)
        self.move(b"large", 3)
        self.values_are(large=NEW, small=SMALL)

    def test_not_moved(self):
        """Without a move the log has no such entries."""
        self.log_becomes_short()
        self.assertEqual(self.cluster.heard(), [])
        self.values_are(large=LARGE, small=SMALL)

    def test_open_move(self):
        """The log stays as it is while a move is open, and becomes short at the first start behind the move's end."""
        self.cluster.stop(2)
        self.assertEqual(self.cluster.ask(1, b"MOVE", b"small", b"1", b"2")[:4], b"-ERR")
        self.cluster.start_again()
        self.assertGreater(len(self.cluster.log()), 19 * MIB)
        self.cluster.start(2)
        self.values_are(large=LARGE, small=SMALL)
        self.cluster.pass_time()
        self.log_becomes_short()
        self.assertEqual(self.cluster.heard(), [heard(1, b"small", 2)])
        self.values_are(large=LARGE, small=SMALL)
        self.move(b"small", 3)
        self.values_are(small=SMALL)


if __name__ == "__main__":
    unittest.main()
