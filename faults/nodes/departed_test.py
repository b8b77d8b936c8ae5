#!/usr/bin/env python3
"""Tests that an object which has moved needs the nodes that it has left no more, as docs/nodes.md says:
departed_test.py PROGRAM.

A node that runs hears of the start when the move ends, as the mover then asks all nodes. What a node knows of starts
only from requests that it does not serve, from replies, or from its own calls, it forgets when it stops. So all nodes
are killed and started again before each node that is asked first."""
import sys
import unittest
from pathlib import Path

HERE = Path(__file__).resolve().parent
sys.path[:0] = [str(HERE), str(HERE.parents[1] / "deploy" / "test")]
sys.dont_write_bytecode = True

from moved_case import FIRST, MIB, NO_QUORUM, OK, MovedCase, bulk  # noqa: E402

# A call that finds no quorum asks all nodes for the start when it is this old, and when it next asks it goes on there.
ASKS_ALL, GOES_ON = 8, 16


class Departed(MovedCase):
    def write(self, number, **more):
        """Writes a new value at a node, and returns it."""
        self.written += 1
        value = b"value-%d" % self.written
        self.gives(number, OK, b"SET", b"a", value, **more)
        return value

    def each_reads_and_writes(self, value, ticks):
        """Each node that runs reads the value and writes a new one, within so many ticks. Returns the last one."""
        for number in self.cluster.nodes:
            self.gives(number, bulk(value), b"GET", b"a", ticks=ticks)
            value = self.write(number, ticks=ticks)
        return value

    def each_is_first(self, value):
        """Once all nodes were killed and started again, the first one that is asked answers a read, and a write,
        whichever it is. Returns the last value."""
        for number in list(self.cluster.nodes):
            self.start_again()
            self.gives(number, bulk(value), b"GET", b"a", ticks=GOES_ON)
            self.start_again()
            value = self.write(number, ticks=GOES_ON)
        return self.each_reads_and_writes(value, GOES_ON)

    def test_two_first_nodes_stop(self):
        """Two of the first nodes stop, so that there is no quorum of them. Each node that is up is asked as the first
        one after the move: it has heard of the start, and its calls begin there."""
        for number in (1, 2, 3, 6, 7):
            self.start(1, *FIRST, 6, 7)
            value = self.write(2)
            self.move(1, 2, 3, 6, 7)
            self.cluster.stop(4, 5)
            self.gives(number, bulk(value), b"GET", b"a", ticks=0)
            self.write(number, ticks=0)
        self.each_is_first(self.each_reads_and_writes(b"value-2", 0))

    def test_all_first_nodes_stop(self):
        """No node of the first layout is up, and the mover keeps no objects. Node 12 hears of the name when it first
        asks for it. Then the name moves on, and two of those nodes stop too."""
        self.start(11, *FIRST, 6, 7, 8, 9, 10, 11)
        value = self.write(2)
        self.move(6, 7, 8, 9, 10)
        self.cluster.stop(*FIRST)
        value = self.each_is_first(self.each_reads_and_writes(value, GOES_ON))
        self.cluster.start(12)
        self.gives(12, bulk(value), b"GET", b"a", ticks=GOES_ON)
        self.start_again()
        self.move(8, 9, 10, 11, 12)
        self.cluster.stop(6, 7)
        self.each_is_first(self.each_reads_and_writes(value, GOES_ON))

    def test_the_first_mover_stops(self):
        """The mover, which is one of the first nodes, moves the name away from all of them, and stops with them."""
        self.start(1, *FIRST, 6, 7, 8, 9, 10)
        value = self.write(2)
        self.move(6, 7, 8, 9, 10)
        self.cluster.stop(*FIRST)
        self.each_is_first(value)

    def test_a_node_that_comes_back(self):
        """Node 5 was down while the name moved twice, first away from it. It is the only one of the first nodes that is
        up again, and its own bank says that the name never moved; so it asks all nodes."""
        self.start(11, *FIRST, 6, 7, 8, 9, 10, 11, 12)
        value = self.write(2)
        self.cluster.stop(5)
        self.move(1, 2, 3, 6, 7)
        self.move(8, 9, 10, 11, 12)
        self.cluster.stop(1, 2, 3, 4, 6, 7)
        self.cluster.start(5)
        self.gives(5, bulk(value), b"GET", b"a", ticks=GOES_ON)
        self.gives(5, bulk(value), b"GET", b"a", ticks=0)
        self.each_is_first(value)

    def test_calls_that_are_given_up_early(self):
        """A call that is given up once it has asked all nodes has heard the start, so the next call is answered at
        once. One that is given up before asks nobody else. Node 12 was down during the move."""
        for ticks, later in ((ASKS_ALL, bulk(b"value-1")), (ASKS_ALL - 1, NO_QUORUM)):
            self.start(11, *FIRST, 6, 7, 8, 9, 10, 11, ticks=ticks)
            self.write(2)
            self.move(6, 7, 8, 9, 10)
            self.cluster.stop(*FIRST)
            self.cluster.start(12)
            self.gives(12, NO_QUORUM, b"GET", b"a")
            self.gives(12, later, b"GET", b"a")

    def test_names_that_were_never_written(self):
        """They have no start but their first layout, so they need a quorum of it, also to be written."""
        self.start(11, *FIRST, 6, 7, 8, 9, 10, 11)
        value = self.write(2)
        self.move(6, 7, 8, 9, 10)
        self.cluster.stop(4, 5)
        for number in (1, 6, 11):
            self.gives(number, bulk(value), b"GET", b"a")
            self.gives(number, NO_QUORUM, b"GET", b"new")
            self.gives(number, NO_QUORUM, b"SET", b"new", b"value")

    def test_what_calls_cost(self):
        """At a node that knows the start, a read and a write take as many frames after 40 moves as after none, and no
        tick. Nodes 2 and 3 are members of each layout; node 3 hears the start from others only."""
        def cost(number, *words):
            before = self.cluster.frames
            self.cluster.ask(number, *words)
            self.assertEqual(self.cluster.ticks, 0, (number, words))
            return self.cluster.frames - before

        def costs():
            return [cost(number, *words) for number in (2, 3) for words in ([b"GET", b"a"], [b"SET", b"a", b"x"])]

        self.start(1, *FIRST, 6, 7)
        self.write(2)
        before = costs()
        for _ in range(20):
            self.move(1, 2, 3, 6, 7)
            self.move(*FIRST)
        self.assertEqual(costs(), before)

    def test_logs_that_are_written_anew(self):
        """The name is at node 2 alone, whose log becomes short when it starts again: it still has the start. The mover,
        node 9, keeps nothing, and the first node is gone."""
        self.start(9, 1, 2, 3, 9, first=(1,), k=1, delta=0)
        self.gives(3, OK, b"SET", b"a", b"first")
        self.move(2, k=1)
        self.cluster.stop(1)
        for number in range(20):
            self.gives(2, OK, b"SET", b"a", bytes([number]) * MIB)
        log = self.cluster.folder / "2" / "log"
        self.assertGreater(log.stat().st_size, 19 * MIB)
        self.start_again()
        self.assertLess(log.stat().st_size, 2 * MIB)
        self.gives(3, bulk(bytes([19]) * MIB), b"GET", b"a", ticks=GOES_ON)
        self.gives(9, OK, b"SET", b"a", b"short", ticks=GOES_ON)
        self.start_again()
        self.move(3, k=1)
        self.cluster.stop(2)
        self.start_again()
        self.gives(9, bulk(b"short"), b"GET", b"a", ticks=GOES_ON)


if __name__ == "__main__":
    Departed.program = sys.argv.pop(1)
    unittest.main()
