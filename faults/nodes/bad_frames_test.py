#!/usr/bin/env python3
"""Gives a node program bad frames: bad_frames_test.py PROGRAM [COUNT].

Frames that are cut or changed, or have tags near the greatest one, from clients and from nodes; after them the node must
answer and keep its values. COUNT changed frames of nodes are drawn at random, 300 if not said otherwise."""
import random
import shlex
import sys
import tempfile
import unittest
from pathlib import Path

sys.path[:0] = [str(Path(__file__).resolve().parent), str(Path(__file__).resolve().parents[2] / "deploy" / "test")]
sys.dont_write_bytecode = True

from messages import Message, Telling, read  # noqa: E402
from node_pipes import Node  # noqa: E402
from one_node import CLUSTER  # noqa: E402

# Addresses that are none.
ADDRESSES = [b"", b"nobody", b"nobody 1", b"client", b"client ", b"client x", b"client -1", b"client 01", b"client 1 ",
             b"client 18446744073709551616", b"node", b"node x", b"node 256", b"node 01", b"tick 1", b"TICK", b"\0\xff"]
# Commands, and the errors that begin their answers.
WRONG = [([b"get"], b"-ERR wrong number of arguments for 'get' command"),
         ([b"GET", b"a", b"b"], b"-ERR wrong number of arguments for 'get' command"),
         ([b"SET", b"a"], b"-ERR wrong number of arguments for 'set' command"),
         ([b"\0\xff\r\n", b"x"], b"-ERR unknown command"), ([b""], b"-ERR unknown command"),
         ([b"MOVE", b"a", b"1"], b"-ERR"), ([b"MOVE", b"a", b"0", b"1"], b"-ERR"),
         ([b"MOVE", b"a", b"2", b"1"], b"-ERR"), ([b"MOVE", b"a", b"1", b"9"], b"-ERR"),
         ([b"MOVE", b"a", b"1", b"1", b"1"], b"-ERR"),
         ([b"MOVE", b"a", b"x", b"1"], b"-ERR"), ([b"MOVE", b"a", b"1", b"300"], b"-ERR"),
         ([b"GET"] + [b"x"] * 1022, b"-ERR"), ([b"LPUSH", b"a", b"b"], b"-ERR unknown command")]
# For what a frame is dropped.
CAUSES = [b"of_other_clusters", b"malformed", b"unreadable", b"not_admitted", b"not_heeded"]
NUMBERS = [b"", b"0", b"1", b"255", b"256", b"4294967296", b"18446744073709551615", b"18446744073709551616", b"-1",
           b"01"]


class BadFrames(unittest.TestCase):
    words, count = None, 300

    def start(self, cluster):
        home = Path(self.enterContext(tempfile.TemporaryDirectory()))
        (home / "cluster").write_text(cluster)
        (home / "1").mkdir()
        node = Node(self.words, 1, home / "1", home / "cluster")
        self.addCleanup(node.kill)
        node.start()
        return node

    def answer(self, node, *words):
        """What the node answers to a command of the connection 7, as one string."""
        [frame] = [frame for frame in node.give([b"client 7", *words]) if frame[0] == b"client 7"]
        return b"".join(frame[1:])

    def line(self, node, key):
        """The value of a line of INFO."""
        lines = self.answer(node, b"INFO").split(b"\r\n")
        return next(line.partition(b":")[2] for line in lines if line.startswith(key + b":"))

    def dropped(self, node):
        return int(self.line(node, b"frames_dropped"))

    def dropped_for(self, node, cause):
        return int(self.line(node, b"cluster_frames_" + cause))

    def test_addresses(self):
        node = self.start(CLUSTER)
        self.assertEqual(self.answer(node, b"SET", b"a", b"1"), b"+OK\r\n")
        for count, address in enumerate(ADDRESSES, 1):
            self.assertEqual(node.give([address, b"SET", b"a", b"2"]), [], address)
            self.assertEqual(self.dropped(node), count, address)
        self.assertEqual(node.give([]), [])
        self.assertEqual(self.answer(node, b"GET", b"a"), b"$1\r\n1\r\n")

    def test_commands(self):
        node = self.start(CLUSTER)
        self.assertEqual(self.answer(node, b"SET", b"a", b"1"), b"+OK\r\n")
        for words, begins in WRONG:
            self.assertTrue(self.answer(node, *words).startswith(begins), (words, begins))
            self.assertEqual(self.answer(node, b"GET", b"a"), b"$1\r\n1\r\n")
        self.assertEqual(node.give([b"client 7"]), [])

    def requests(self, node):
        """Frames that the node sends to another one, as a client writes and reads."""
        sent = node.give([b"client 8", b"SET", b"a", b"hello"]) + node.give([b"client 9", b"GET", b"a"])
        return [frame[1:] for frame in sent if frame[0] == b"node 2"]

    def test_frames_of_nodes(self):
        """Each string of a frame of nodes is taken away, doubled or changed, or one of its bytes; the node goes on."""
        node = self.start("nodes 1 2 3\nn 3\nk 2\ndelta 8\nmover 1\nlater\nticks 50\n")
        source, requests = random.Random(1), self.requests(node)
        self.assertGreater(len(requests), 1)
        self.assertEqual(node.give([b"node 9", *requests[0]]), [])
        self.assertEqual(self.dropped(node), 1)
        other = read(requests[0])
        other.digest = b"x" * 16
        self.assertEqual(node.give([b"node 2", *other.strings()]), [])
        self.assertEqual(self.dropped(node), 2)
        for _ in range(self.count):
            strings = list(source.choice(requests))
            for _ in range(source.choice([1, 1, 2])):
                self.spoil(source, strings)
            sent = node.give([source.choice([b"node 1", b"node 2", b"node 3"]), *strings])
            self.assertTrue(all(frame[0] in (b"node 1", b"node 2", b"node 3") for frame in sent), strings)
        self.assertGreater(self.dropped(node), self.count // 2)
        self.assertEqual(self.dropped(node), sum(self.dropped_for(node, cause) for cause in CAUSES))
        self.assertEqual(self.answer(node, b"PING"), b"+PONG\r\n")

    def test_tags_near_the_greatest(self):
        """A tag near the greatest one would block the object for good, since no write would find a greater one. Frames
        with a tag above the limit are dropped; one at the limit is not."""
        node = self.start(CLUSTER.replace("later", "later 2"))
        self.assertEqual(self.answer(node, b"SET", b"a", b"1"), b"+OK\r\n")
        digest = bytes.fromhex(self.line(node, b"cluster").decode())

        def message(name, kind, number, **more):
            return [b"node 2", *Message(digest, name, kind, tag=(number, 1), call=7, **more).strings()]

        great = [message(b"a", b"finalize", number) for number in (2**64 - 1, 2**62 + 1)]
        great += [message(b"a", b"pre-write", 2**64 - 1, piece=(0, 1, b"x")), message(b"a", b"fetch", 2**64 - 1),
                  message(b"a", b"query", 2**64 - 1, is_reply=True), message(b"a", b"finalize", 2**64 - 1, is_reply=True)]
        great += [message(b"a", b"finalize", 1, is_reply=True, told=Telling(b"unset", (number, 1)))
                  for number in (2**64 - 1, 2**62 + 1)]
        for count, frame in enumerate(great, 1):
            self.assertEqual(node.give(frame), [], frame)
            self.assertEqual(self.dropped(node), count, frame)
        self.assertEqual(self.answer(node, b"SET", b"a", b"2"), b"+OK\r\n")
        self.assertEqual(self.answer(node, b"GET", b"a"), b"$1\r\n2\r\n")
        sent = node.give(message(b"b", b"finalize", 2**62))
        self.assertEqual([frame[0] for frame in sent], [b"node 2"])
        self.assertEqual(self.dropped(node), len(great))

    def test_letters_that_are_not_heeded(self):
        """A letter with another layout than the node knows, or about a position of which the mover has not heard, is
        dropped and counts once, as one that is not heeded; so is one that tells a start with such a layout or position.
        One about a member that there is not, or with a start whose layout is not lawful, counts as unreadable; so does a
        request that tells of a member, and a reply that asks for a piece."""
        node = self.start(CLUSTER.replace("later", "later 2"))
        self.assertEqual(self.answer(node, b"SET", b"a", b"1"), b"+OK\r\n")
        digest = bytes.fromhex(self.line(node, b"cluster").decode())
        wrong = [{"layout": b"\x01\x02"}, {"position": 1}, {"start": (0, b"\x01\x02")}, {"start": (1, b"\x01\x01")}]
        for count, changed in enumerate(wrong, 1):
            self.assertEqual(node.give([b"node 2", *Message(digest, b"a", b"query", **changed).strings()]), [], changed)
            self.assertEqual((self.dropped(node), self.dropped_for(node, b"not_heeded")), (count, count), changed)
        sent = node.give([b"node 2", *Message(digest, b"a", b"query").strings()])
        self.assertEqual([frame[0] for frame in sent], [b"node 2"])
        self.assertEqual((self.dropped(node), self.dropped_for(node, b"not_heeded")), (len(wrong), len(wrong)))
        unlawful = [{"member": 1}, {"start": (1, b"\x02\x01")}, {"told": Telling(b"unset", (0, 0))},
                    {"is_reply": True, "asks_piece": True}]
        for count, changed in enumerate(unlawful, 1):
            self.assertEqual(node.give([b"node 2", *Message(digest, b"a", b"query", **changed).strings()]), [], changed)
            self.assertEqual((self.dropped(node), self.dropped_for(node, b"unreadable")), (len(wrong) + count, count))

    @staticmethod
    def spoil(source, strings):
        if not strings:
            return
        place = source.randrange(len(strings))
        kind = source.randrange(6)
        if kind == 0:
            del strings[place]
        elif kind == 1:
            strings.insert(place, strings[place])
        elif kind == 2:
            strings[place] = source.choice(NUMBERS)
        elif kind == 3:
            strings[place] = source.randbytes(source.choice([0, 1, 8, 16, 300]))
        elif kind == 4:
            strings[place] = strings[place][:-1]
        elif strings[place]:
            changed = bytearray(strings[place])
            changed[source.randrange(len(changed))] ^= source.randrange(1, 256)
            strings[place] = bytes(changed)


if __name__ == "__main__":
    BadFrames.words = shlex.split(sys.argv.pop(1))
    BadFrames.count = int(sys.argv.pop(1)) if len(sys.argv) > 1 else 300
    unittest.main()
