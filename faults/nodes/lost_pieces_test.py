#!/usr/bin/env python3
"""Tests what a node does whose fetches lack pieces: lost_pieces_test.py PROGRAM.

Another node finalizes a tag that nobody has written, so no piece of this tag exists. A read finds the tag and fetches its
pieces in vain. It may begin anew only when its requests are due again, 2, 4, 8, 16, 32 and 64 ticks after it began, and
then at each 64th tick; and the node goes on with everything else meanwhile."""
import shlex
import sys
import tempfile
import unittest
from dataclasses import replace
from pathlib import Path

sys.path[:0] = [str(Path(__file__).resolve().parent), str(Path(__file__).resolve().parents[2] / "deploy" / "test")]
sys.dont_write_bytecode = True

from messages import Message, read  # noqa: E402
from node_pipes import Node  # noqa: E402

# One of the two nodes keeps each object, and one piece gives its value back.
CLUSTER = "nodes 1 2\nn 1\nk 1\ndelta 8\nmover 1\nlater\nticks %d\n"
LATE = b"-ERR no quorum answered in time\r\n"
TAG = (1, 1)


class LostPieces(unittest.TestCase):
    words = None

    def start(self, ticks):
        """Node 1, a name whose object it keeps, and a read of an object that node 2 keeps, by its first request."""
        home = Path(self.enterContext(tempfile.TemporaryDirectory()))
        (home / "cluster").write_text(CLUSTER % ticks)
        (home / "1").mkdir()
        node = Node(self.words, 1, home / "1", home / "cluster")
        self.addCleanup(node.kill)
        node.start()
        own, request, count = None, None, 0
        while own is None or request is None:
            count += 1
            name = b"name %d" % count
            [frame] = node.give([b"client %d" % (100 + count), b"GET", name])
            if frame[0] == b"node 2":
                request = request or frame
            else:
                own = own or name
        return node, own, request

    def answer(self, node, *words):
        """What a client gets at once for a command, or None."""
        return self.told(node.give([b"client 7", *words]), b"client 7")

    @staticmethod
    def told(frames, client):
        """What these frames tell a client, or None."""
        answers = [b"".join(frame[1:]) for frame in frames if frame[0] == client]
        return answers[0] if answers else None

    def lose(self, node, request, name):
        """The node, which alone keeps the object of this name, finalizes a tag of which it has no piece."""
        self.ask(node, request, name, b"finalize")

    def ask(self, node, request, name, kind, piece=None):
        """Node 2 sends a request of this kind about the object of this name, and the node replies to it."""
        asked = Message(read(request[1:]).digest, name, kind, tag=TAG, piece=piece)
        [[_, *reply]] = node.give([b"node 2", *asked.strings()])
        self.assertEqual(replace(read(reply), told=None), Message(asked.digest, name, kind, tag=TAG, is_reply=True))

    def test_own_piece(self):
        """All letters of the read go to the node itself: it hears others meanwhile, and gives the read up in time."""
        node, own, request = self.start(70)
        self.lose(node, request, own)
        self.assertIsNone(self.answer(node, b"GET", own))
        self.assertEqual(node.give([b"client 8", b"PING"]), [[b"client 8", b"+PONG\r\n"]])
        told = [self.told(node.give([b"tick"]), b"client 7") for _ in range(71)]
        self.assertEqual(told, [None] * 70 + [LATE])
        # A write has a greater tag, whose piece is there.
        self.assertEqual(self.answer(node, b"SET", own, b"found"), b"+OK\r\n")
        self.assertEqual(self.answer(node, b"GET", own), b"$5\r\nfound\r\n")

    def comes_back(self, *words):
        """A call lacks a piece, which comes later. Returns what the call is told at the second tick, and the node."""
        node, own, request = self.start(70)
        self.lose(node, request, own)
        self.assertIsNone(self.answer(node, words[0], own, *words[1:]))
        self.assertEqual(node.give([b"client 8", b"PING"]), [[b"client 8", b"+PONG\r\n"]])
        self.ask(node, request, own, b"pre-write", (0, 5, b"found"))
        self.assertIsNone(self.told(node.give([b"tick"]), b"client 7"))
        told = self.told(node.give([b"tick"]), b"client 7")
        self.assertEqual(self.answer(node, b"GET", own), b"$5\r\nfound\r\n")
        return told

    def test_read_of_a_piece_that_comes(self):
        self.assertEqual(self.comes_back(b"GET"), b"$5\r\nfound\r\n")

    def test_move_of_a_piece_that_comes(self):
        self.assertEqual(self.comes_back(b"MOVE", b"1", b"1"), b"+OK\r\n")

    def settle(self, node, sent):
        """Node 2 answers at once: it has finalized the tag, and has no piece of it. Returns the kinds of all requests that
        came, until no more came, and the number of the last phase."""
        kinds, phase = [], 0
        while sent and len(kinds) < 100:
            [[address, *strings]] = sent
            it = read(strings)
            phase = it.phase
            kinds.append(it.kind)
            it.is_reply, it.asks_piece, it.tag = True, False, TAG if it.kind == b"query" else it.tag
            sent = node.give([address, *it.strings()])
        return kinds, phase

    def test_pauses(self):
        """Another node keeps the object and answers at once. The read asks it again only when requests are due."""
        node, _, request = self.start(300)
        kinds, phase = self.settle(node, [request])
        self.assertEqual(kinds, [b"next", b"query", b"fetch"])
        again = {}
        for tick in range(1, 200):
            sent = [frame for frame in node.give([b"tick"]) if read(frame[1:]).name == read(request[1:]).name]
            if sent:
                first = read(sent[0][1:]).phase
                again[tick], last = self.settle(node, sent)
                self.assertEqual((first, last), (phase, phase + 3))
                phase = last
        self.assertEqual(again, {tick: [b"fetch", *kinds] for tick in (2, 4, 8, 16, 32, 64, 128, 192)})


if __name__ == "__main__":
    LostPieces.words = shlex.split(sys.argv.pop(1))
    unittest.main()
