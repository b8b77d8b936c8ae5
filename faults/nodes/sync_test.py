#!/usr/bin/env python3
"""Tests what a node program has written when its computer stops at a sync: sync_test.py PROGRAM.

What is not synced is lost then. The sync is caught by lost_sync.c, so this needs a C compiler, and a program that calls
the C library."""
import subprocess
import sys
import tempfile
import unittest
from pathlib import Path

sys.path[:0] = [str(Path(__file__).resolve().parent), str(Path(__file__).resolve().parents[2] / "deploy" / "test")]
sys.dont_write_bytecode = True

from cluster import CLUSTER_FILE  # noqa: E402
from node_pipes import Node, library_in  # noqa: E402

WRITTEN = [b"client 1", b"+OK\r\n"]


class Syncs(unittest.TestCase):
    program = None

    def setUp(self):
        self.folder = Path(self.enterContext(tempfile.TemporaryDirectory()))
        self.library = library_in(self.folder)

    def start(self, count, *words):
        """So many nodes of a cluster in which one fragment gives a value back, by their numbers."""
        text = subprocess.run([CLUSTER_FILE, str(count), "50"], check=True, capture_output=True, text=True).stdout
        lines = ["k 1" if line.startswith("k ") else line for line in text.split("\n")]
        file = self.folder / "cluster"
        file.write_text("\n".join(lines))
        nodes = {}
        for number in range(1, count + 1):
            (self.folder / str(number)).mkdir()
            nodes[number] = Node([*words, self.program], number, self.folder / str(number), file, self.library)
            nodes[number].start()
            self.addCleanup(lambda node=nodes[number]: node.process and node.kill())
        return nodes

    def value(self, nodes, number):
        """The answer to a read at a node, with which the others exchange frames until it comes."""
        waiting = [(number, frame) for frame in nodes[number].give([b"client 2", b"GET", b"photo"])]
        while waiting:
            sender, (address, *strings) = waiting.pop(0)
            if address == b"client 2":
                return b"".join(strings)
            to = int(address.split()[1])
            waiting += [(to, frame) for frame in nodes[to].give([b"node %d" % sender, *strings])]
        return None

    def stop_in_a_write(self, *words):
        """A node alone answers a write, and its computer stops at the sync of the next one. What a read gives then."""
        nodes = self.start(1, *words)
        self.assertEqual(nodes[1].give([b"client 1", b"SET", b"photo", b"old"]), [WRITTEN])
        self.assertEqual(nodes[1].stop_at_sync([b"client 1", b"SET", b"photo", b"new"]), (True, []))
        nodes[1].kill()
        nodes[1].start()
        return self.value(nodes, 1)

    def test_what_was_answered(self):
        """A write that was answered is there, and one that was not synced was not answered."""
        self.assertEqual(self.stop_in_a_write(), b"$3\r\nold\r\n")

    def test_a_program_that_never_syncs(self):
        """This test notices a program that only seems to sync."""
        self.assertNotEqual(self.stop_in_a_write("env", "NEVER_SYNCS=1"), b"$3\r\nold\r\n")

    def test_requests_go_out_first(self):
        """A node that carries out a write sends the requests of a phase before it syncs its own entry. If its computer
        stops then, the cluster goes on, and all reads agree."""
        nodes = self.start(3)
        written, ended = nodes[1].give([b"client 1", b"SET", b"photo", b"new"]), False
        for _ in range(8):
            request = next(strings for address, *strings in written if address == b"node 2")
            if ended:
                break
            _, *reply = nodes[2].give([b"node 1", *request])[0]
            ended, written = nodes[1].stop_at_sync([b"node 2", *reply])
        self.assertTrue(ended)
        self.assertEqual(sorted(frame[0] for frame in written), [b"node 2", b"node 3"])
        nodes[1].kill()
        nodes[1].start()
        for _, *reply in nodes[2].give([b"node 1", *request]):
            self.assertEqual(nodes[1].give([b"node 2", *reply]), [])
        values = {self.value(nodes, number) for number in (2, 3, 1)}
        self.assertIn(values, ({b"$3\r\nnew\r\n"}, {b"$-1\r\n"}))


if __name__ == "__main__":
    Syncs.program = str(Path(sys.argv.pop(1)).resolve())
    unittest.main()
