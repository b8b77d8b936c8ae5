#!/usr/bin/env python3
"""Tests how many rounds of messages a call takes, as docs/nodes.md says: rounds_test.py PROGRAM.

In a round, a node sends a frame to each other member, and each of them replies. A call ends early if what the replies
tell shows that its tag is held by more than n - k members."""
import sys
import unittest
from pathlib import Path

HERE = Path(__file__).resolve().parent
sys.path[:0] = [str(HERE), str(HERE.parents[1] / "deploy" / "test")]
sys.dont_write_bytecode = True

from moved_case import FIRST, OK, MovedCase, bulk  # noqa: E402


class Rounds(MovedCase):
    def costs(self, rounds, number, wanted, *words, others=4):
        """The node gives this answer at once, after so many rounds with so many other members that are up."""
        before = self.cluster.frames
        self.gives(number, wanted, *words, ticks=0)
        self.assertEqual(self.cluster.frames - before, 2 * others * rounds, (number, words))

    def test_five_nodes(self):
        """A read takes one round, and a write three: it reads the sequence of layouts and hears of the greatest tag, sends
        the pieces, and has them finalized. So it is for a name that was never written, and at each node."""
        self.start(1, *FIRST)
        for number in FIRST:
            name = b"name-%d" % number
            self.costs(1, number, b"$-1\r\n", b"GET", name)
            self.costs(3, number, OK, b"SET", name, b"value")
            for other in FIRST:
                self.costs(1, other, bulk(b"value"), b"GET", name)

    def test_a_node_that_is_down(self):
        """Without one of the five nodes, calls take as many rounds."""
        self.start(1, *FIRST)
        self.costs(3, 1, OK, b"SET", b"a", b"value")
        self.cluster.stop(5)
        self.costs(1, 2, bulk(b"value"), b"GET", b"a", others=3)
        self.costs(3, 2, OK, b"SET", b"a", b"another", others=3)

    def test_a_node_that_has_missed_a_write(self):
        """A node that was down during a write tells an older tag. The other four still agree, so if they reply first, a
        read takes one round."""
        self.start(1, *FIRST)
        self.cluster.stop(5)
        self.costs(3, 1, OK, b"SET", b"a", b"value", others=3)
        self.cluster.start(5)
        self.costs(1, 1, bulk(b"value"), b"GET", b"a")

    def test_three_nodes(self):
        """With k = 1, a quorum of three nodes has two members, and n - k is two. So no call ends early: a read takes three
        rounds, and a write four, as each reads the sequence of layouts once more in the end."""
        self.start(1, 1, 2, 3, first=(1, 2, 3), k=1)
        self.costs(4, 1, OK, b"SET", b"a", b"value", others=2)
        self.costs(3, 2, bulk(b"value"), b"GET", b"a", others=2)

    def test_after_a_move(self):
        """A node that knows the start of an object reads there in one round, too."""
        self.start(1, *FIRST, 6, 7)
        self.costs(3, 2, OK, b"SET", b"a", b"value")
        self.move(1, 2, 3, 6, 7)
        self.costs(1, 1, bulk(b"value"), b"GET", b"a")
        self.costs(3, 6, OK, b"SET", b"a", b"another")


if __name__ == "__main__":
    Rounds.program = str(Path(sys.argv.pop(1)).resolve())
    unittest.main()
