#!/usr/bin/env python3
"""Tests what docs/nodes.md says of nodes that are lost and of nodes that join later: lost_test.py PROGRAM. The nodes are
on pipes, and each frame arrives at once if both nodes run."""
import subprocess
import sys
import tempfile
import unittest
from pathlib import Path

sys.dont_write_bytecode = True
sys.path.append(str(Path(__file__).resolve().parent.parent.parent / "deploy" / "test"))

from at_once import Cluster  # noqa: E402

PROGRAM = sys.argv.pop(1)
FILE = "nodes 1 2 3 4 5\nn 5\nk 3\ndelta 8\nmover {mover}\nlater {later}\nticks 10\n"
NO_QUORUM = b"-ERR no quorum answered in time\r\n"


class Five(Cluster):
    """Five nodes, and later ones. A quorum of five nodes with k = 3 has four."""

    def __init__(self, folder, later=""):
        super().__init__(PROGRAM, folder)
        self.write(later=later)
        self.start(1, 2, 3, 4, 5)

    def write(self, later="", mover=1):
        self.file.write_text(FILE.format(later=later, mover=mover))


class Lost(unittest.TestCase):
    def cluster(self, later=""):
        folder = tempfile.TemporaryDirectory()
        self.addCleanup(folder.cleanup)
        cluster = Five(folder.name, later)
        self.addCleanup(lambda: cluster.stop(*cluster.nodes))
        return cluster

    def test_moved_object_leaves_its_first_nodes(self):
        """Once an object has moved, it needs a quorum of the new nodes alone, also at a node that was started again."""
        cluster = self.cluster(later="6 7")
        cluster.start(6, 7)
        self.assertEqual(cluster.ask(2, b"SET", b"a", b"value"), b"+OK\r\n")
        self.assertEqual(cluster.ask(1, b"MOVE", b"a", b"3", b"1", b"2", b"3", b"6", b"7"), b"+OK\r\n")
        cluster.stop(4, 5)
        for number in (1, 2, 3, 6, 7):
            self.assertEqual(cluster.ask(number, b"GET", b"a"), b"$5\r\nvalue\r\n")
        self.assertEqual(cluster.ask(2, b"SET", b"a", b"other"), b"+OK\r\n")
        cluster.stop(6)
        self.assertEqual(cluster.ask(7, b"GET", b"a"), b"$5\r\nother\r\n")
        cluster.stop(7)
        for number in (1, 2, 3):
            self.assertEqual(cluster.ask(number, b"GET", b"a"), NO_QUORUM)
        cluster.start(6)
        self.assertEqual(cluster.ask(6, b"GET", b"a"), b"$5\r\nother\r\n")

    def test_layouts_before_the_last_one_need_no_quorum(self):
        """Of the nodes between the first and the last ones, too, none has to be up."""
        cluster = self.cluster(later="6 7 8 9")
        cluster.start(6, 7, 8, 9)
        self.assertEqual(cluster.ask(2, b"SET", b"a", b"value"), b"+OK\r\n")
        self.assertEqual(cluster.ask(1, b"MOVE", b"a", b"3", b"1", b"2", b"3", b"6", b"7"), b"+OK\r\n")
        self.assertEqual(cluster.ask(1, b"MOVE", b"a", b"3", b"1", b"2", b"3", b"8", b"9"), b"+OK\r\n")
        cluster.stop(6, 7)
        self.assertEqual(cluster.ask(2, b"GET", b"a"), b"$5\r\nvalue\r\n")
        cluster.stop(8)
        self.assertEqual(cluster.ask(3, b"GET", b"a"), b"$5\r\nvalue\r\n")
        cluster.stop(9)
        self.assertEqual(cluster.ask(2, b"GET", b"a"), NO_QUORUM)
        cluster.start(8)
        self.assertEqual(cluster.ask(2, b"GET", b"a"), b"$5\r\nvalue\r\n")

    def test_a_move_that_has_not_ended_needs_a_quorum_of_both_layouts(self):
        """A move waits for the new nodes, and so do all calls. Until it ends, the old nodes are needed too."""
        cluster = self.cluster(later="6 7")
        self.assertEqual(cluster.ask(2, b"SET", b"a", b"value"), b"+OK\r\n")
        self.assertEqual(cluster.ask(1, b"MOVE", b"a", b"3", b"1", b"2", b"3", b"6", b"7"), NO_QUORUM)
        for number in (1, 2, 5):
            self.assertEqual(cluster.ask(number, b"GET", b"a"), NO_QUORUM)
        cluster.stop(4, 5)
        cluster.start(6, 7)
        cluster.pass_time()
        self.assertEqual(cluster.ask(2, b"GET", b"a"), NO_QUORUM)
        cluster.start(5)
        cluster.pass_time()
        self.assertEqual(cluster.ask(2, b"GET", b"a"), b"$5\r\nvalue\r\n")
        cluster.stop(5)
        self.assertEqual(cluster.ask(7, b"GET", b"a"), b"$5\r\nvalue\r\n")

    def test_later_nodes_need_the_new_file_everywhere(self):
        """A node that has the old file does not hear a node that joined later."""
        cluster = self.cluster()
        self.assertEqual(cluster.ask(2, b"SET", b"a", b"value"), b"+OK\r\n")
        cluster.write(later="6")
        cluster.start(6)
        move = [b"MOVE", b"a", b"3", b"1", b"2", b"3", b"5", b"6"]
        self.assertEqual(cluster.ask(1, *move)[:4], b"-ERR")
        cluster.stop(1)
        cluster.start(1)
        self.assertEqual(cluster.ask(6, b"GET", b"a"), NO_QUORUM)
        cluster.stop(2, 3, 4, 5)
        cluster.start(2, 3, 4, 5)
        self.assertEqual(cluster.ask(6, b"GET", b"a"), b"$5\r\nvalue\r\n")
        self.assertEqual(cluster.ask(1, *move), b"+OK\r\n")
        cluster.stop(4)
        self.assertEqual(cluster.ask(6, b"GET", b"a"), b"$5\r\nvalue\r\n")

    def test_lost_mover(self):
        """Without the mover nothing can be moved, and all can be read and written. No file can name another mover."""
        cluster = self.cluster()
        self.assertEqual(cluster.ask(2, b"SET", b"a", b"value"), b"+OK\r\n")
        cluster.stop(1)
        self.assertEqual(cluster.ask(2, b"SET", b"a", b"other"), b"+OK\r\n")
        self.assertEqual(cluster.ask(3, b"GET", b"a"), b"$5\r\nother\r\n")
        self.assertEqual(cluster.ask(2, b"MOVE", b"a", b"3", b"2", b"3", b"4", b"5")[:4], b"-ERR")
        cluster.stop(2)
        cluster.write(mover=2)
        started = subprocess.run([PROGRAM, cluster.file, "2", cluster.folder / "2"], stdin=subprocess.DEVNULL,
                                 capture_output=True, timeout=60, check=False)
        self.assertEqual(started.returncode, 1)


if __name__ == "__main__":
    unittest.main()
