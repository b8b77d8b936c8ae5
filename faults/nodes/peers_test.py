#!/usr/bin/env python3
"""Tests what a node program does by what it knows of other nodes: peers_test.py PROGRAM. Its host tells at each tick
which nodes it hears, so that a move to nodes of which too few are heard is refused, and INFO says whether a quorum is
heard; and nodes with another cluster file are told of once and counted."""
import subprocess
import sys
import tempfile
import unittest
from pathlib import Path

sys.path[:0] = [str(Path(__file__).resolve().parent), str(Path(__file__).resolve().parents[2] / "deploy" / "test")]
sys.dont_write_bytecode = True

from frames import Frames, encode  # noqa: E402
from messages import FORM, FORMS_BEFORE, Message, old_strings  # noqa: E402
from node_pipes import Node  # noqa: E402
from one_node import CLUSTER, OneNode, command, is_embedded  # noqa: E402

# Node 1 moves objects and keeps all of them at first. The other nodes joined later.
MOVER = "nodes 1\nn 1\nk 1\ndelta 8\nmover 1\nlater 2 3 4 5 6 7\nticks 50\n"
FEW = b"-ERR fewer than a quorum of the new nodes answer: node %d is not heard\r\n"


def tick(*heard):
    """The frame of a tick, at which the host tells that it hears these nodes."""
    return [b"tick", *(b"%d" % node for node in heard)]


class Moves(unittest.TestCase):
    program = None

    def setUp(self):
        self.home = Path(self.enterContext(tempfile.TemporaryDirectory()))
        (self.home / "cluster").write_text(MOVER)
        self.connection = 0

    def start(self, number=1):
        folder = self.home / str(number)
        folder.mkdir(exist_ok=True)
        node = Node([self.program], number, folder, self.home / "cluster")
        self.addCleanup(lambda: node.process and node.kill())
        node.start()
        return node

    def move(self, node, name, k, *members):
        """What a new client gets at once for a move; nothing while the move is open."""
        self.connection += 1
        client = b"client %d" % self.connection
        words = [b"MOVE", name, b"%d" % k, *(b"%d" % member for member in members)]
        return b"".join(b"".join(frame[1:]) for frame in node.give([client, *words]) if frame[0] == client)

    def test_too_few_are_heard(self):
        """A quorum of four nodes with k = 2 is three of them; the node itself is heard."""
        node = self.start()
        self.assertEqual(node.give(tick(1, 2, 3)), [])
        for members, missing in ((1, 2, 6, 7), 6), ((2, 3, 6, 7), 6), ((7, 6, 3, 1), 7):
            self.assertEqual(self.move(node, b"a", 2, *members), FEW % missing)
        self.assertEqual(self.answer(node, b"SET", b"a", b"1"), b"+OK\r\n")
        self.assertEqual(self.answer(node, b"GET", b"a"), b"$1\r\n1\r\n")

    def test_nodes_outside_the_layout_do_not_count(self):
        node = self.start()
        node.give(tick(1, 2, 3, 4, 5))
        self.assertEqual(self.move(node, b"a", 1, 5, 6, 7), FEW % 6)
        self.assertEqual(self.move(node, b"a", 1, 6), FEW % 6)

    def test_a_quorum_is_heard(self):
        node = self.start()
        node.give(tick(3, 2))
        self.assertEqual(self.move(node, b"a", 2, 1, 2, 3, 7), b"")
        self.assertEqual(self.move(node, b"a", 2, 1, 2, 3, 7), b"-ERR another move of this name is under way\r\n")
        self.assertEqual(self.move(node, b"b", 1, 1), b"+OK\r\n")

    def test_the_last_tick_counts(self):
        node = self.start()
        node.give(tick(1, 2, 3))
        node.give(tick(1))
        self.assertEqual(self.move(node, b"a", 1, 2, 3), FEW % 2)
        node.give(tick(2, 3))
        self.assertEqual(self.move(node, b"a", 1, 2, 3), b"")

    def test_a_host_that_does_not_tell(self):
        """Nothing is checked before the first tick, and after a tick without numbers."""
        node = self.start()
        self.assertEqual(self.move(node, b"a", 1, 6, 7), b"")
        node.give(tick(1))
        self.assertEqual(self.move(node, b"b", 1, 6, 7), FEW % 6)
        node.give(tick())
        self.assertEqual(self.move(node, b"b", 1, 6, 7), b"")

    def test_order_of_refusals(self):
        node, other = self.start(), self.start(2)
        other.give(tick(2))
        self.assertEqual(self.move(other, b"a", 1, 6, 9), b"-ERR only the mover moves objects\r\n")
        node.give(tick(1))
        self.assertEqual(self.move(node, b"a", 1, 6, 9, 10), b"-ERR node 9 is not in the cluster file\r\n")
        self.assertEqual(self.move(node, b"a", 3, 6, 7), b"-ERR bad layout\r\n")
        node.give(tick(1, 6, 7))
        self.assertEqual(self.move(node, b"a", 1, 6, 7), b"")
        node.give(tick(1))
        self.assertEqual(self.move(node, b"a", 1, 6, 7), FEW % 6)

    def test_ticks_that_are_none(self):
        node = self.start()
        node.give(tick(1, 2))
        for count, words in enumerate([[b""], [b"x"], [b"01"], [b"256"], [b"1", b"-2"]], 1):
            self.assertEqual(node.give([b"tick", *words]), [])
            self.assertEqual(self.line(node, b"frames_dropped"), b"%d" % count)
        self.assertEqual(self.move(node, b"a", 1, 2), b"")

    def answer(self, node, *words):
        [frame] = [frame for frame in node.give([b"client 99", *words]) if frame[0] == b"client 99"]
        return b"".join(frame[1:])

    def line(self, node, key):
        lines = self.answer(node, b"INFO").split(b"\r\n")
        return next(line.partition(b":")[2] for line in lines if line.startswith(key + b":"))


class Readiness(unittest.TestCase):
    """INFO says which nodes are heard, and whether a quorum of each layout is that a name has before any move."""
    program = None

    def info(self, node, *heard):
        """The lines of INFO behind a tick, at which the host tells that it hears these nodes, if it tells of any."""
        if heard:
            node.give(tick(*heard))
        [frame] = [frame for frame in node.give([b"client 9", b"INFO"]) if frame[0] == b"client 9"]
        lines = b"".join(frame[1:]).decode().split("\r\n")
        return dict(line.split(":", 1) for line in lines if ":" in line)

    def silences(self, lines):
        """The ticks since each node was heard."""
        return {int(key.split("_")[2]): value for key, value in lines.items() if key.endswith("_ticks_since_heard")}

    def test_ticks_since_a_node_was_heard(self):
        """A tick that names a node counts as 0 ticks, and the node itself has no line."""
        node = self.start("1 2 3 4 5")
        self.assertEqual(self.silences(self.info(node)), dict.fromkeys((2, 3, 4, 5, 7, 8), "never"))
        self.info(node, 1, 2, 3, 9)
        self.info(node, 3, 7)
        found = self.silences(self.info(node, 1, 3))
        self.assertEqual(found, {2: "2", 3: "0", 4: "never", 5: "never", 7: "1", 8: "never"})
        for _ in range(300):
            node.give(tick())
        found = self.silences(self.info(node, 4))
        self.assertEqual(found, {2: "303", 3: "301", 4: "0", 5: "never", 7: "302", 8: "never"})

    def test_sections(self):
        node = self.start("1 2 3 4 5")

        def heads(*words):
            [frame] = [frame for frame in node.give([b"client 9", b"INFO", *words]) if frame[0] == b"client 9"]
            lines = b"".join(frame[1:]).decode().split("\r\n")
            return " ".join(line[2:] for line in lines if line.startswith("#"))
        everything = "Server Clients Memory Persistence Stats Replication Cluster Keyspace Node"
        for words in ([], [b"all"], [b"x", b"Everything"], [b"DEFAULT", b"node"], everything.encode().split()[::-1]):
            self.assertEqual(heads(*words), everything)
        for section in everything.split():
            self.assertEqual(heads(section.upper().encode()), section)
        self.assertEqual(heads(b"node", b"SERVER", b"stats", b"node", b"nodes"), "Server Stats Node")
        self.assertEqual(heads(b""), "")

    def start(self, nodes):
        home = Path(self.enterContext(tempfile.TemporaryDirectory()))
        (home / "cluster").write_text(f"nodes {nodes}\nn 5\nk 3\ndelta 2\nmover 1\nlater 7 8\nticks 50\n")
        (home / "1").mkdir()
        node = Node([self.program], 1, home / "1", home / "cluster")
        self.addCleanup(lambda: node.process and node.kill())
        node.start()
        return node

    def test_state(self):
        """A quorum of five nodes with k = 3 is four of them. Nodes of `later` keep no name before a move."""
        node = self.start("1 2 3 4 5")
        for heard, state, count in ((), "fail", 0), ((1, 2, 3, 4), "ok", 4), ((1, 2, 3), "fail", 3), \
                ((1, 2, 3, 7, 8), "fail", 5), ((5, 4, 3), "ok", 4), ((2, 3, 4, 5, 9), "ok", 5):
            info = self.info(node, *heard)
            self.assertEqual((info["cluster_state"], info["cluster_nodes_heard"]), (state, str(count)), heard)
        self.assertEqual((info["cluster_known_nodes"], info["nodes"].split(), info["later"].split()),
                         ("7", ["1", "2", "3", "4", "5"], ["7", "8"]))
        self.assertEqual({key: value for key, value in info.items()
                          if key.endswith("_heard") and not key.endswith("_since_heard")},
                         {"cluster_nodes_heard": "5", **{f"cluster_node_{node}_heard": "1" for node in range(1, 6)},
                          "cluster_node_7_heard": "0", "cluster_node_8_heard": "0"})

    def test_more_nodes_than_n(self):
        """Of six nodes one may be missing, since each name is at some five of them."""
        node = self.start("1 2 3 4 5 6")
        self.assertEqual(self.info(node, 1, 2, 3, 4, 6)["cluster_state"], "ok")
        self.assertEqual(self.info(node, 1, 2, 3, 4)["cluster_state"], "fail")

    def test_moves(self):
        """An open move is an open call too; it stays open, although a read is given up."""
        node = self.start("1 2 3 4 5")
        node.give(tick(1, 2, 3, 4, 5))
        node.give([b"client 1", b"MOVE", b"a", b"3", b"1", b"2", b"3", b"4", b"7"])
        node.give([b"client 2", b"GET", b"b"])
        info = self.info(node)
        self.assertEqual((info["cluster_calls_open"], info["cluster_moves_open"]), ("2", "1"))
        for _ in range(60):
            node.give(tick(1, 2))
        info = self.info(node)
        self.assertEqual((info["cluster_calls_open"], info["cluster_moves_open"]), ("1", "1"))
        self.assertEqual((info["cluster_calls_given_up"], info["calls_given_up"]), ("1", "1"))


class OtherClusters(unittest.TestCase):
    program = None

    def setUp(self):
        self.node = self.enterContext(OneNode(self.program, CLUSTER.replace("later", "later 2")))
        self.own = self.value(self.node.answers(command(b"INFO"))[0], b"cluster")

    @staticmethod
    def value(info, key):
        return next(line.partition(b":")[2] for line in info.split(b"\r\n") if line.startswith(key + b":"))

    @staticmethod
    def message(sender, digest):
        """The frame of a node that asks for a pointer, with the digest of its cluster file."""
        return encode([b"node %d" % sender, *Message(digest, b"a", b"next", call=7).strings()])

    def said(self, sender, digest):
        if is_embedded(self.program):
            return f"casd: node {sender} has another cluster file; its messages are dropped\n"
        return (f"casd: node {sender} has another cluster file: the digest of that file is {digest.hex()}, and that of "
                f"this node's file is {self.own.decode()}; its messages are dropped\n")

    def test_two_frames_and_one_line(self):
        other = b"0123456789abcdef"
        data = self.message(2, other) * 2 + command(b"INFO")
        status, written, text = self.node.run(data)
        # A node in the host says it with the frames that come next.
        self.assertEqual((status, text), (0, "" if is_embedded(self.program) else self.said(2, other)))
        [[_, *strings]] = [frame for frame in Frames().take(written) if frame[0] == b"client 1"]
        info = b"".join(strings)
        self.assertEqual(self.value(info, b"frames_of_other_clusters"), b"2")
        self.assertEqual(self.value(info, b"frames_dropped"), b"2")

    def test_messages_of_forms_before(self):
        """The node drops messages of forms 4 and 3, and those of form 2, also where their first byte is that of today's
        form."""
        own = bytes.fromhex(self.own.decode())
        messages = [old_strings(Message(digest, b"a", b"next")) for digest in (own, bytes([FORM]) + b"x" * 15)]
        messages += [Message(own, b"a", b"next").strings(form) for form in FORMS_BEFORE]
        data = b"".join(encode([b"node 2", *strings]) for strings in messages)
        status, written, text = self.node.run(data + command(b"INFO"))
        self.assertEqual((status, text), (0, ""))
        [[_, *strings]] = [frame for frame in Frames().take(written) if frame[0] == b"client 1"]
        info = b"".join(strings)
        self.assertEqual(self.value(info, b"frames_dropped"), b"4")
        self.assertEqual(self.value(info, b"frames_of_other_clusters"), b"0")

    def test_each_node_and_digest_once(self):
        """A node that is not in the cluster file is told of too, and a node of the same cluster file is not."""
        senders = [(2, b"x" * 16), (3, b"x" * 16), (2, b"y" * 16), (2, b"x" * 16)]
        with subprocess.Popen([self.program, self.node.file, "1", self.node.folder], stdin=subprocess.PIPE,
                              stdout=subprocess.PIPE, stderr=subprocess.PIPE, bufsize=0) as process:
            for sender, digest in [*senders, (2, bytes.fromhex(self.own.decode()))]:
                process.stdin.write(self.message(sender, digest) + command(b"PING"))
                frames, wanted = Frames(), [b"client 1", b"+PONG\r\n"]
                while wanted not in frames.take(process.stdout.read(1 << 16)):
                    pass
            _, text = process.communicate(encode([b"tick"]), timeout=60)
        self.assertEqual(text.decode(), "".join(self.said(*sender) for sender in senders[:3]))

    def test_standard_error_that_cannot_be_written(self):
        with open("/dev/full", "wb") as full:
            ended = subprocess.run([self.program, self.node.file, "1", self.node.folder], stdout=subprocess.PIPE,
                                   input=self.message(2, b"x" * 16) + command(b"PING"), stderr=full, check=False)
        self.assertEqual(ended.returncode, 0)
        self.assertIn([b"client 1", b"+PONG\r\n"], Frames().take(ended.stdout))


if __name__ == "__main__":
    Moves.program = Readiness.program = OtherClusters.program = str(Path(sys.argv.pop(1)).resolve())
    unittest.main()
