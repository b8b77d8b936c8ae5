#!/usr/bin/env python3
"""Tests by which identity hosts know each other, and which nodes a tick names as heard: peers_test.py HOST."""
import shutil
import signal
import tempfile
import time
import unittest
from pathlib import Path

from frames import encode
from hosts import Host
from peers_case import ANOTHER, Case
from subjects import identity_of, subject


@unittest.skipUnless(shutil.which("nats-server"), "nats-server is missing")
class Strangers(Case):
    """Two nodes with one number."""

    def relay(self, host, *strings):
        """Has a node send a frame to node 1."""
        with host.connect() as client:
            client.send(encode([b"RELAY", encode([b"node 1", *strings])]))

    def test_two_hosts_with_one_number(self):
        third, first = self.start(1), self.start(2, "relay")
        self.wait("node 2 is not heard", (third.folder / "peers").exists)
        second = self.start(2, "relay")
        self.assertNotEqual(first.identity(), second.identity())
        second.wait_for(f"node 1 drops all frames from this node: it first heard node 2 under .* {first.identity()}")
        self.relay(second, b"from the second")
        self.relay(first, b"from the first")
        self.wait("a frame does not arrive", lambda: "node 2 from the first\n" in third.frames())
        first.wait_for(f"another process takes part as node 2, .* has the identity {second.identity()}")
        second.wait_for(f"another process takes part as node 2, .* has the identity {first.identity()}")
        third.wait_for(f"node 2 is heard under the identity {second.identity()}, but was first heard under "
                       f"{first.identity()}")
        time.sleep(2.5)
        self.assertEqual(self.ended(first).count("takes part as node 2"), 1)
        self.assertNotIn("drops all frames", first.said())
        dropped = "host of node 1: 1 frames of nodes were dropped so far\n"
        self.assertIn(dropped, self.ended(third))
        # The third knows the first one also when it starts again and hears only the second one.
        again = self.start(1, folder=third.folder)
        again.wait_for("node 2 is heard under the identity")
        self.relay(second, b"from the second again")
        time.sleep(1.5)
        said = self.ended(second)
        self.assertEqual([said.count("takes part as node 2"), said.count("node 1 drops all frames")], [1, 1])
        self.assertIn(dropped, self.ended(again))
        self.assertNotIn("from the second", again.frames())

    def test_node_with_an_empty_folder(self):
        """It says itself that others have heard its number before."""
        one, lost = self.start(1), self.start(2)
        self.wait("node 2 is not heard", (one.folder / "peers").exists)
        self.ended(lost)
        empty = self.start(2)
        empty.wait_for(f"node 1 drops all frames from this node: it first heard node 2 under the identity "
                       f"{lost.identity()}, and this node's folder has {empty.identity()}.*If a node is lost")
        one.wait_for(f"node 2 is heard under the identity {empty.identity()}, but was first heard under "
                     f"{lost.identity()}")
        self.assertNotIn("takes part as node 2", self.ended(empty))
        back = self.start(2, "relay", folder=lost.folder)
        self.relay(back, b"back")
        self.wait("a frame does not arrive", lambda: "node 2 back\n" in one.frames())
        self.ended(one)
        self.assertNotIn("drops", self.ended(back))

    def test_copy_of_a_folder(self):
        """The other process has the same identity, so that both hear more greetings of their own than they sent."""
        one = self.start(1)
        copy = Path(tempfile.mkdtemp())
        shutil.copy(one.folder / "identity", copy)
        other = Host("keep", "--nats", self.server.url, folder=copy)
        for host in (one, other):
            host.wait_for("another process takes part as node 1, this node's own number, with a copy of its folder")
        time.sleep(2)
        for host in (one, other):
            self.assertEqual(self.ended(host).count("another process"), 1)

    def test_stranger_is_told_at_most_once_a_second(self):
        host = self.start(1)
        self.meet(host, 2)
        began = time.monotonic()
        for _ in range(200):
            self.send(2, b"", ANOTHER, to="all")
            time.sleep(0.01)
        wanted, told = subject(1, 2, host.identity(), known=identity_of(2)), 0
        self.server.publish(b"cas.1.9.end")
        while (found := self.server.message()) != (b"cas.1.9.end", b""):
            self.assertEqual(found, (wanted, b""))
            told += 1
        self.assertTrue(1 <= told <= 1 + time.monotonic() - began, told)
        self.assertNotIn("dropped so far", self.ended(host))

    def test_many_strangers(self):
        """Eight identities of a number are named, and all are dropped."""
        host = self.start(1)
        self.meet(host, 2)
        for number in range(20):
            self.send(2, encode([b"strange"]) * 3, "%016x" % number)
            self.send(2, encode([b"strange"]) * 3, "%016x" % number)
        host.wait_for("further identities of node 2 are dropped without a message")
        self.send(3, encode([b"met"]))
        self.wait("a frame does not arrive", lambda: "node 3 met" in host.frames())
        said = self.ended(host)
        self.assertEqual(said.count("node 2 is heard under the identity"), 8)
        self.assertIn("host of node 1: 120 frames of nodes were dropped so far\n", said)
        self.assertNotIn("strange", host.frames())


@unittest.skipUnless(shutil.which("nats-server"), "nats-server is missing")
class Greetings(Case):
    def last_tick(self, host):
        return next((line for line in reversed(host.frames().splitlines()) if line.startswith("tick")), "")

    def test_ticks_name_the_nodes_that_were_heard(self):
        """Greetings suffice, since these nodes send no frames. A node that has stopped is named no longer than three
        seconds behind its last greeting, so in some thirty ticks."""
        one = self.start(1)
        self.wait("no tick", lambda: self.last_tick(one) == "tick 1")
        two, three = self.start(2), self.start(3)
        for host, wanted in ((one, "tick 1 2 3"), (two, "tick 2 1 3"), (three, "tick 3 1 2")):
            self.wait(f"no {wanted}", lambda host=host, wanted=wanted: self.last_tick(host) == wanted)
        three.process.send_signal(signal.SIGSTOP)
        self.addCleanup(three.process.send_signal, signal.SIGCONT)
        before = one.frames().count("tick 1 2 3\n")
        self.wait("a node that has stopped is still named", lambda: self.last_tick(one) == "tick 1 2")
        more = one.frames().count("tick 1 2 3\n") - before
        self.assertTrue(1 <= more <= 40, more)
        three.process.send_signal(signal.SIGCONT)
        self.wait("a node that goes on is not named", lambda: self.last_tick(one) == "tick 1 2 3")
        self.assertNotIn("node 2", one.said())
        for host in (one, two, three):
            self.assertNotIn("dropped", self.ended(host))
        for told in ("node 3 has not been heard for three seconds\n", "node 3 is heard again\n"):
            self.assertEqual(one.said().count(f"host of node 1: {told}"), 1, told)

    def test_a_quorum_that_is_missed(self):
        """Of three nodes with k = 1, two are a quorum: with node 3 alone missing, nothing is said."""
        kind = "keep\nnodes 1 2 3\nn 3\nk 1"
        one, two, three = (self.start(number, kind) for number in (1, 2, 3))
        self.wait("no tick names all", lambda: self.last_tick(one) == "tick 1 2 3")
        time.sleep(4)
        for host in (three, two):
            host.process.send_signal(signal.SIGSTOP)
            self.addCleanup(host.process.send_signal, signal.SIGCONT)
            one.wait_for(f"node {2 if host is two else 3} has not been heard for three seconds\n")
            self.assertEqual(one.said().count("quorum"), int(host is two))
        self.assertIn("fewer than a quorum of the nodes is heard, so calls are given up. Not heard: 2 3\n", one.said())
        time.sleep(1)
        two.process.send_signal(signal.SIGCONT)
        one.wait_for("a quorum of the nodes is heard again\n")
        three.process.send_signal(signal.SIGCONT)
        one.wait_for("node 3 is heard again\n")
        for host in (two, three):
            self.ended(host)
        self.assertEqual(self.ended(one).count("quorum"), 2)

    def test_strangers_are_not_named(self):
        one = self.start(1)
        self.meet(one, 2)
        self.wait("no tick names node 2", lambda: self.last_tick(one) == "tick 1 2")
        self.wait("node 2 is named for ever", lambda: self.last_tick(one) == "tick 1")
        for _ in range(20):
            self.send(2, b"", ANOTHER, to="all")
            time.sleep(0.1)
        self.assertEqual(self.last_tick(one), "tick 1")
        self.send(2, b"", to="all")
        self.wait("a greeting is not heard", lambda: self.last_tick(one) == "tick 1 2")
        self.ended(one)

    def test_greetings_come_once_a_second(self):
        one = self.start(1)
        wanted, began = (subject(1, "all", one.identity()), b""), time.monotonic()
        for _ in range(5):
            self.assertEqual(self.server.message(greetings=True), wanted)
        self.assertGreater(time.monotonic() - began, 2.5)
        self.assertNotIn("another process", self.ended(one))


if __name__ == "__main__":
    unittest.main()
