#!/usr/bin/env python3
"""Tests a mover that is none of the nodes which keep objects, as docs/nodes.md describes it: own_mover_test.py PROGRAM.

The nodes are on pipes, and each frame arrives at once if both nodes run. Nodes 1 to 5 keep objects. Node 6 moves them,
and stands in the line `later` of the cluster file, as do the nodes 7 and 8, which join later."""
import shutil
import subprocess
import sys
import tempfile
import unittest
from pathlib import Path

HERE = Path(__file__).resolve().parent
sys.path[:0] = [str(HERE), str(HERE.parents[1] / "deploy" / "test")]
sys.dont_write_bytecode = True

from at_once import Cluster  # noqa: E402
from log_form import bodies_of  # noqa: E402
from one_node import is_embedded  # noqa: E402

PROGRAM = sys.argv.pop(1)
FILE = "nodes 1 2 3 4 5\nn 5\nk 3\ndelta 2\nmover {mover}\nlater {later}\nticks 10\n"
DATA, MOVER = (1, 2, 3, 4, 5), 6
OK, NOT_MOVER = b"+OK\r\n", b"-ERR only the mover moves objects\r\n"


def bulk(value):
    """The answer to a read of this value."""
    return b"$%d\r\n%s\r\n" % (len(value), value)


def move(name, *nodes):
    """The command that moves a name to these nodes, with k = 3."""
    return [b"MOVE", name, b"3", *(b"%d" % node for node in nodes)]


class OwnMover(unittest.TestCase):
    def setUp(self):
        folder = self.enterContext(tempfile.TemporaryDirectory())
        self.cluster = Cluster(PROGRAM, folder)
        self.addCleanup(lambda: self.cluster.stop(*self.cluster.nodes))
        self.write_file()
        self.cluster.start(*DATA, MOVER)

    def write_file(self, later="6 7 8", mover=MOVER):
        self.cluster.file.write_text(FILE.format(later=later, mover=mover))

    def start_again(self, *numbers):
        """The nodes are killed, and start from their logs."""
        self.cluster.stop(*numbers)
        self.cluster.start(*numbers)

    def gives(self, number, wanted, *words):
        """The answer of a node to a command."""
        self.assertEqual(self.cluster.ask(number, *words), wanted, (number, words))

    def reads(self, name, value, numbers=DATA):
        for number in numbers:
            self.gives(number, bulk(value), b"GET", name)

    def fails_to_start(self, number, status):
        """What a node says that does not start with this cluster file."""
        started = subprocess.run([PROGRAM, self.cluster.file, str(number), self.cluster.folder / str(number)],
                                 stdin=subprocess.DEVNULL, capture_output=True, timeout=60, check=False)
        self.assertEqual(started.returncode, status, started.stderr)
        return started.stderr.decode()

    def test_moves(self):
        """Objects are written and read at any node. Only node 6 moves them, also after it was killed and has started
        again from its log. While it is down, reads and writes go on, and moves get the error of a node that moves
        nothing."""
        self.cluster.start(7, 8)
        for number in (*DATA, MOVER):
            self.gives(number, OK, b"SET", b"name-%d" % number, b"value-%d" % number)
        for number in DATA:
            self.gives(number, NOT_MOVER, *move(b"name-1", 1, 2, 3, 6, 7))
        self.gives(MOVER, OK, *move(b"name-1", 1, 2, 3, 7, 8))
        self.reads(b"name-1", b"value-1", (*DATA, MOVER, 7, 8))
        self.cluster.stop(MOVER)
        for number in DATA:
            self.gives(number, NOT_MOVER, *move(b"name-2", 1, 2, 3, 7, 8))
            self.gives(number, OK, b"SET", b"name-%d" % number, b"new-%d" % number)
        for number in DATA:
            self.reads(b"name-%d" % number, b"new-%d" % number)
        self.reads(b"name-6", b"value-6")
        self.cluster.start(MOVER)
        self.gives(MOVER, OK, *move(b"name-2", 1, 2, 3, 7, 8))
        self.gives(MOVER, OK, *move(b"name-1", 1, 4, 5, 7, 8))
        for number in (1, 2):
            self.reads(b"name-%d" % number, b"new-%d" % number, (*DATA, MOVER, 7, 8))
        self.gives(3, bulk(b"position 2 k 3 nodes 1 4 5 7 8"), b"LAYOUT", b"name-1")

    def test_open_move(self):
        """A move that was open when node 6 was killed goes on from its log, and other moves wait for its end."""
        self.gives(1, OK, b"SET", b"name", b"value")
        self.gives(MOVER, b"-ERR no quorum answered in time\r\n", *move(b"name", 1, 2, 3, 7, 8))
        self.start_again(MOVER)
        self.gives(MOVER, b"-ERR another move of this name is under way\r\n", *move(b"name", 1, 2, 3, 4, 5))
        self.cluster.start(7, 8)
        self.cluster.pass_time()
        self.reads(b"name", b"value", (*DATA, 7, 8))
        self.gives(MOVER, OK, *move(b"name", 1, 2, 3, 4, 5))
        self.reads(b"name", b"value", (*DATA, 7, 8))

    def test_folder(self):
        """Node 6 keeps no fragment of what was written, and no name, until an object moves to it. Its log has no
        entry of writes and reads, also of those that it carried out for clients; a move adds entries."""
        for number in DATA:
            self.gives(number, OK, b"SET", b"name", b"x" * 10_000)
        self.gives(MOVER, OK, b"SET", b"name", b"y" * 10_000)
        self.reads(b"name", b"y" * 10_000, (*DATA, MOVER))
        self.gives(MOVER, b":0\r\n", b"DBSIZE")
        self.assertEqual([self.cluster.info(MOVER, line) for line in ("bytes_stored", "objects")], ["0", "0"])
        log = self.cluster.folder / str(MOVER) / "log"
        self.assertEqual(len(bodies_of(log.read_bytes())), 2)
        self.assertGreater((self.cluster.folder / "1" / "log").stat().st_size, 10_000)
        self.gives(MOVER, OK, *move(b"name", 5, 4, 3, 2, 1))
        self.assertEqual(self.cluster.info(MOVER, "bytes_stored"), "0")
        self.assertGreater(len(bodies_of(log.read_bytes())), 2)

    def test_another_machine(self):
        """Node 6 goes on with its folder in another place, and moves what it had moved before."""
        self.gives(1, OK, b"SET", b"name", b"value")
        self.gives(MOVER, OK, *move(b"name", 5, 4, 3, 2, 1))
        self.cluster.stop(MOVER)
        folder, other = self.cluster.folder / str(MOVER), self.cluster.folder / "other"
        shutil.copytree(folder, other)
        shutil.rmtree(folder)
        other.rename(folder)
        self.cluster.start(MOVER)
        self.gives(MOVER, OK, *move(b"name", 1, 2, 3, 4, 5))
        self.gives(2, bulk(b"position 2 k 3 nodes 1 2 3 4 5"), b"LAYOUT", b"name")
        self.reads(b"name", b"value")

    def test_later_nodes_may_change(self):
        """The line `later` may get more nodes and lose others, as long as it has the mover: a file without it is none,
        and one that names another mover is that of another cluster."""
        self.gives(1, OK, b"SET", b"name", b"value")
        for later in ("6", "8 6 7 9"):
            self.write_file(later=later)
            self.start_again(*DATA, MOVER)
            self.reads(b"name", b"value", (*DATA, MOVER))
        self.cluster.start(9)
        self.gives(MOVER, OK, *move(b"name", 1, 2, 3, 7, 9))
        self.cluster.stop(*DATA, MOVER, 9)
        self.write_file(later="7 9")
        for number in (1, MOVER):
            self.assertIn("has a fault in line 5" if is_embedded(PROGRAM) else
                          "line 5, word 2: the mover is named neither under nodes nor under later",
                          self.fails_to_start(number, 2))
        self.write_file(later="6 7 9", mover=7)
        for number in (1, MOVER):
            self.fails_to_start(number, 1)
        self.write_file(later="6 7 9")
        self.cluster.start(*DATA, MOVER, 9)
        self.reads(b"name", b"value", (*DATA, MOVER, 9))

    def test_lost_folder(self):
        """Without the mover's folder, all can be read and written, and nothing can be moved."""
        self.gives(1, OK, b"SET", b"name", b"value")
        self.gives(MOVER, OK, *move(b"name", 5, 4, 3, 2, 1))
        self.cluster.stop(MOVER)
        shutil.rmtree(self.cluster.folder / str(MOVER))
        self.start_again(*DATA)
        self.reads(b"name", b"value")
        for number in DATA:
            self.gives(number, OK, b"SET", b"name", b"value-%d" % number)
            self.reads(b"name", b"value-%d" % number)
            self.gives(number, NOT_MOVER, *move(b"name", 1, 2, 3, 4, 5))


if __name__ == "__main__":
    unittest.main()
