#!/usr/bin/env python3
"""Tests which fragments stay after moves, as docs/nodes.md says: freed_test.py PROGRAM.

When a move has ended, the mover reads the object, and asks all nodes at once. So each node that runs hears of the
start, and closes its banks of the positions before it. A node that misses this does so when it hears of the start."""
import sys
import unittest
from pathlib import Path

HERE = Path(__file__).resolve().parent
sys.path[:0] = [str(HERE), str(HERE.parents[1] / "deploy" / "test")]
sys.dont_write_bytecode = True

import messages  # noqa: E402
from frames import Frames  # noqa: E402
from log_form import bodies_of  # noqa: E402
from moved_case import FIRST, MIB, NO_QUORUM, OK, MovedCase, bulk  # noqa: E402

VALUE, OTHER = b"x" * 3000, (1, 2, 3, 6, 7)
BYTES, OPEN, CLOSED = "bytes_stored", "cluster_open_banks", "closed_banks"
# A fragment of the value, of which k = 3 give it back.
PART = 1000


class Freed(MovedCase):
    def write_and_move(self, *down):
        """The value is written while the nodes 1 to 7 run, and 11, which moves objects. Then these nodes stop, and the
        name moves from the nodes 1 to 5 to 1, 2, 3, 6 and 7."""
        self.start(11, *FIRST, 6, 7, 11)
        self.gives(2, OK, b"SET", b"a", VALUE)
        self.tell(BYTES, [PART] * 5 + [0, 0, 0])
        self.cluster.stop(*down)
        self.move(*OTHER)

    def told(self, key):
        """What the nodes tell that run, in the order of their numbers."""
        return [int(self.cluster.info(number, key)) for number in sorted(self.cluster.nodes)]

    def tell(self, key, wanted):
        self.assertEqual(self.told(key), wanted, key)

    def stores(self, number, count):
        """A node stores so many bytes."""
        self.assertEqual(int(self.cluster.info(number, BYTES)), count, number)

    def last_entries(self, number):
        """The strings of the last two entries of a node's log."""
        log = (self.cluster.folder / str(number) / "log").read_bytes()
        return [Frames().take(body)[0] for body in bodies_of(log)[-2:]]

    def raises_and_closes(self, number):
        """The last entries of a node's log say that it raised the pointer of position 0 by itself, and closed its
        bank."""
        [[word, *strings], closed] = self.last_entries(number)
        it = messages.read(strings)
        self.assertEqual((word, it.kind, it.status, it.position), (b"serve", b"spread", b"final", 0))
        self.assertEqual((it.call, it.phase, it.start), (0, 0, (1, bytes([3, *OTHER]))))
        self.assertEqual(closed, [b"close", b"0", b"a"])

    def test_one_move(self):
        """All nodes run. After the move, they keep the fragments of the new layout alone, also once they have all been
        killed and have started again."""
        self.write_and_move()
        for _ in range(2):
            self.tell(BYTES, [PART, PART, PART, 0, 0, PART, PART, 0])
            self.tell(OPEN, [1, 1, 1, 0, 0, 1, 1, 0])
            self.tell(CLOSED, [1, 1, 1, 1, 1, 0, 0, 0])
            self.start_again()

    def test_forty_moves(self):
        """After each move, the nodes together store what they stored before the first one, and each layout that a node
        has left is one closed bank."""
        self.write_and_move()
        for _ in range(20):
            self.tell(BYTES, [PART, PART, PART, 0, 0, PART, PART, 0])
            self.move(*FIRST)
            self.tell(BYTES, [PART] * 5 + [0, 0, 0])
            self.move(*OTHER)
        self.tell(OPEN, [1, 1, 1, 0, 0, 1, 1, 0])
        self.tell(CLOSED, [41, 41, 41, 21, 21, 20, 20, 0])
        self.start_again()
        self.tell(BYTES, [PART, PART, PART, 0, 0, PART, PART, 0])
        self.gives(4, bulk(VALUE), b"GET", b"a")

    def test_a_node_that_was_down_and_reads(self):
        """Node 5 was down during the move, so its pointer is unset. It hears of the start from replies to a read of its
        own client, raises the pointer, and closes the bank."""
        self.write_and_move(5)
        self.cluster.start(5)
        self.stores(5, PART)
        self.gives(5, bulk(VALUE), b"GET", b"a", ticks=0)
        self.tell(BYTES, [PART, PART, PART, 0, 0, PART, PART, 0])
        self.tell(CLOSED, [1, 1, 1, 1, 1, 0, 0, 0])
        self.raises_and_closes(5)
        self.start_again(5)
        self.stores(5, 0)

    def test_a_node_that_was_down_and_is_asked(self):
        """It hears of the start from a request of another node, whose call finds no quorum and asks all nodes."""
        self.write_and_move(5)
        self.cluster.start(5)
        self.cluster.stop(6, 7)
        self.gives(2, NO_QUORUM, b"GET", b"a")
        self.stores(5, 0)
        self.raises_and_closes(5)

    def test_a_move_for_which_nobody_waits(self):
        """The client got the error that no quorum answers, so when the move ends, nobody reads the object. The mover
        alone has the start, and all old nodes keep their fragments until they hear of it: nodes 1, 2 and 3 from a call
        of node 4, and node 5 from its own call."""
        self.start(11, *FIRST, 11)
        self.gives(2, OK, b"SET", b"a", VALUE)
        self.gives(11, NO_QUORUM, b"MOVE", b"a", b"3", *(b"%d" % node for node in OTHER))
        self.cluster.start(6, 7)
        self.cluster.pass_time()
        self.tell(BYTES, [2 * PART] * 3 + [PART] * 4 + [0])
        self.gives(4, bulk(VALUE), b"GET", b"a")
        self.tell(BYTES, [PART, PART, PART, 0, PART, PART, PART, 0])
        self.gives(5, bulk(VALUE), b"GET", b"a")
        self.tell(BYTES, [PART, PART, PART, 0, 0, PART, PART, 0])

    def test_a_node_that_missed_two_moves(self):
        """Node 5 was down during two moves. The first nodes tell it the start, and position 1, as its client reads."""
        self.write_and_move(5)
        self.move(*OTHER)
        self.cluster.start(5)
        self.stores(5, PART)
        self.gives(5, bulk(VALUE), b"GET", b"a", ticks=0)
        self.stores(5, 0)

    def test_a_node_that_hears_of_a_later_position_alone(self):
        """Node 5 was down during two moves, and then hears of the start as the name moves once more, but not of
        position 1. So it cannot raise its pointer, and keeps its fragment; its calls begin at the start, where nobody
        tells it of that position. When it has started again, it has forgotten the start, so its call begins at position
        0."""
        self.write_and_move(5)
        self.move(*OTHER)
        self.cluster.start(5)
        self.move(*OTHER)
        for is_last in (False, True):
            self.stores(5, PART)
            self.gives(5, bulk(VALUE), b"GET", b"a")
            self.stores(5, 0 if is_last else PART)
            self.start_again(5)
        self.stores(5, 0)

    def test_logs_that_are_written_anew(self):
        """The name is at node 1 alone, then at node 2, and then at node 3. The logs of the nodes that it has left
        become short when these start again, and have no fragment."""
        self.start(9, 1, 2, 3, 9, first=(1,), k=1, delta=0)
        for node in 2, 3:
            for number in range(20):
                self.gives(9, OK, b"SET", b"a", bytes([number]) * MIB)
            self.move(node, k=1)
        for number in 1, 2:
            log = self.cluster.folder / str(number) / "log"
            self.assertGreater(log.stat().st_size, 19 * MIB)
            self.start_again(number)
            self.assertLess(log.stat().st_size, 4000)
        self.tell(BYTES, [0, 0, MIB, 0])
        for number in 1, 2, 3:
            self.gives(number, bulk(bytes([19]) * MIB), b"GET", b"a")


if __name__ == "__main__":
    Freed.program = sys.argv.pop(1)
    unittest.main()
