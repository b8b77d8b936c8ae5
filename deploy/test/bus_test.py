#!/usr/bin/env python3
"""Tests what the host of node 1 sends to other nodes over NATS, what it takes from them, and how it starts its child:
bus_test.py HOST."""
import os
import random
import re
import shutil
import time
import unittest
import unittest.mock
from pathlib import Path

from connection import PATIENCE
from frames import encode
from hosts import Host
from nats_server import Server
from subjects import subject

FULL_MESSAGE = 64 << 10  # a message of several frames has at most so many bytes


@unittest.skipUnless(shutil.which("nats-server"), "nats-server is missing")
class Bus(unittest.TestCase):
    def start(self, kind, *options, most_bytes=1 << 20):
        """A NATS server, and a host with a child of this kind, which has subscribed and then sent a greeting."""
        self.server = Server(f"max_payload: {most_bytes}\n")
        self.addCleanup(self.server.close)
        self.host = Host(kind, "--nats", self.server.url, *options)
        self.assertEqual(self.server.message(greetings=True), (self.to("all"), b""))
        self.client = self.host.connect()
        self.addCleanup(self.client.close)

    def lines(self, count):
        """The frames of nodes that the child got, each as a line, once there are `count` of them."""
        end, file = time.monotonic() + PATIENCE, self.host.folder / "frames"
        while True:
            text = file.read_text() if file.exists() else ""
            lines = [line for line in text.split("\n")[:-1] if line.startswith("node ")]
            if len(lines) >= count or time.monotonic() > end:
                return lines
            time.sleep(0.02)

    def wait_for_line(self, line):
        """Waits until the child has got this frame."""
        end = time.monotonic() + PATIENCE
        while f"{line}\n" not in self.host.frames():
            self.assertLess(time.monotonic(), end, f"{line} did not come")
            time.sleep(0.02)

    def test_frames_of_one_message_and_a_cut_frame(self):
        self.start("keep")
        frames = [encode([b"kind-%d" % n, b"text"]) for n in range(4)]
        self.server.publish(subject(3, 1), frames[0] + frames[1] + frames[2] + frames[3][:-1])
        self.server.publish(subject(4, 1), frames[3])
        wanted = [f"node 3 kind-{n} text" for n in range(3)] + ["node 4 kind-3 text"]
        self.assertEqual(self.lines(4), wanted)
        self.assertEqual(self.host.end(), 0)
        self.assertIn("host of node 1: 1 frames of nodes were dropped so far\n", self.host.said())

    def test_each_frame_of_a_dropped_message_counts(self):
        """Messages under a second identity, to all nodes, and without an identity. What is no frame counts as one."""
        self.start("keep")
        self.server.publish(subject(9, 1), encode([b"first"]))
        frame = encode([b"dropped", b"text"])
        for data in (10 * frame, 7 * frame + frame[:-1], b"hello", 3 * frame + b"hello"):
            self.server.publish(subject(9, 1, "f" * 16), data)
        for place in (subject(9, "all"), b"cas.9.1.0", b"cas.nine.1." + subject(9, 1).split(b".")[-1]):
            self.server.publish(place, 5 * frame)
        self.server.publish(subject(4, 1), frame)
        self.assertEqual(self.lines(2), ["node 9 first", "node 4 dropped text"])
        self.assertEqual(self.host.end(), 0)
        self.assertIn("host of node 1: 38 frames of nodes were dropped so far\n", self.host.said())

    def test_each_frame_that_the_child_does_not_take_counts(self):
        """On a busy machine the host may lose its connection, and with it messages that it never got. Then this begins
        anew, and does not ask the sanitizers: the library of NATS loses the memory of a message of which it had a
        part."""
        while not self.counts_what_the_child_does_not_take():
            self.host.process.kill()
            self.host.process.wait()

    def counts_what_the_child_does_not_take(self):
        """A child that reads nothing for a while gets 32 MiB or more, and each frame that it does not get counts. The
        host reports the count at each hundredth tick. False where the connection was lost."""
        self.start("late", "--tick", "20")
        sent = 0
        while "frames of nodes were dropped so far" not in self.host.said():
            self.server.publish(subject(3, 1), 10 * encode([b"part", b"p" * 100000]))
            sent += 10
            time.sleep(0.1)
            if "the connection to NATS is lost" in self.host.said():
                return False
        self.host.lets_go()
        self.assertEqual(self.client.ask(b"PING", b"x"), b"x")
        self.server.publish(subject(4, 1), encode([b"mark"]))
        self.wait_for_line("node 4 mark")
        got = self.host.frames().count("node 3 part ")
        self.assertEqual(self.host.end(), 0)
        dropped = int(re.findall(r"(\d+) frames of nodes were dropped so far\n", self.host.said())[-1])
        self.assertEqual(got + dropped, sent)
        self.assertGreaterEqual(got * 100000, 32 << 20)
        return True

    def test_many_messages(self):
        """More of them, and with more bytes, than the host keeps before it frees them."""
        self.start("keep")
        source, wanted = random.Random(3), []
        for number in range(600):
            counts = [source.choice((1, 10, 200)) for _ in range(source.randint(1, 3))]
            self.server.publish(subject(2, 1), b"".join(encode([b"%d" % number, b"x" * count]) for count in counts))
            wanted += [f"node 2 {number} {'x' * count}" for count in counts]
        for number in range(3):
            self.server.publish(subject(2, 1), encode([b"long-%d" % number, b"y" * 400000]))
            wanted.append(f"node 2 long-{number} {'y' * 400000}")
        self.assertTrue(self.lines(len(wanted)) == wanted)
        self.assertEqual(self.host.end(), 0)
        self.assertNotIn("dropped", self.host.said())

    def to(self, node):
        """The subject of the host's messages to a node."""
        return subject(1, node, self.host.identity())

    def send(self, frames):
        """Has the child write these frames at once, behind those that it was told before."""
        written = b"".join(encode([b"node %d" % node, *strings]) for node, *strings in frames)
        self.client.send(encode([b"RELAY", written]))

    def test_frames_that_are_ready_together_are_one_message_for_each_node(self):
        self.start("relay")
        self.send([(2, b"a", b"1"), (3, b"b"), (2, b"c", b""), (2, b"d"), (3, b"e")])
        found = dict(self.server.message() for _ in range(2))
        self.assertEqual(found, {self.to(2): encode([b"a", b"1"]) + encode([b"c", b""]) + encode([b"d"]),
                                 self.to(3): encode([b"b"]) + encode([b"e"])})
        self.assertEqual(self.host.end(), 0)

    def test_messages_of_several_frames_have_a_limit(self):
        self.start("relay")
        frames = [[b"%d" % n, b"z" * count] for n, count in enumerate([30000, 30000, 30000, 100000, 1, 65000, 500])]
        self.send([(2, *strings) for strings in frames])
        wanted, found, longest = b"".join(map(encode, frames)), b"", len(encode(frames[3]))
        while len(found) < len(wanted):
            place, data = self.server.message()
            self.assertEqual(place, self.to(2))
            self.assertTrue(len(data) <= FULL_MESSAGE or len(data) == longest, len(data))
            found += data
        self.assertTrue(found == wanted)
        self.assertEqual(self.host.end(), 0)

    def test_frame_longer_than_nats_takes(self):
        """It is dropped, and the next one arrives."""
        self.start("relay", most_bytes=100000)
        self.send([(2, b"too long", bytes(100000))])
        self.send([(3, b"good")])
        self.assertEqual(self.server.message(), (self.to(3), encode([b"good"])))
        self.assertEqual(self.host.end(), 0)
        self.assertIn("host of node 1: 1 frames of nodes were dropped so far\n", self.host.said())


class Start(unittest.TestCase):
    def test_memory_of_the_child(self):
        """The child's C library keeps more free memory at hand, unless its settings are given to the host."""
        wanted = {"": b"glibc.malloc.tcache_count=200", "glibc.malloc.perturb=1": b"glibc.malloc.perturb=1"}
        for given, setting in wanted.items():
            with unittest.mock.patch.dict(os.environ, {"GLIBC_TUNABLES": given} if given else {}):
                host = Host("echo")
            with host.connect() as client:
                self.assertEqual(client.ask(b"PING", b"x"), b"x")
            process = host.process.pid
            child = Path(f"/proc/{process}/task/{process}/children").read_text().strip()
            self.assertIn(b"GLIBC_TUNABLES=" + setting, Path(f"/proc/{child}/environ").read_bytes().split(b"\0"))
            self.assertEqual(host.end(), 0)


if __name__ == "__main__":
    unittest.main()
