#!/usr/bin/env python3
"""Tests how deploy/replace and deploy/drain find the nodes of a cluster, here a test double: addresses, folders,
cluster files, passwords, nodes that are down, and arguments that are refused."""
import socket
import unittest

from moving_case import MovingCase

FILE = """# a comment
nodes 1 2 3 4 5
n 5
k 3
delta 8
mover {mover}
later 6 7   # these joined later
ticks 50
"""


class Nodes(MovingCase):
    def setUp(self):
        self.cluster = self.layouts()
        self.fill(self.cluster, 60)
        self.due = self.cluster.names_on(5)

    def none_is_left(self):
        self.assertEqual((sorted(self.cluster.moved), self.cluster.names_on(5)), (self.due, []))

    def silent_cluster(self):
        """A cluster whose nodes do not tell which nodes there are, and its file."""
        self.cluster.tells = False
        file = self.folder() / "cluster"
        file.write_text(FILE.format(mover=1))
        return file

    def test_old_node_is_down(self):
        """The node that is replaced need not answer."""
        addresses = self.cluster.addresses()
        self.cluster.stop(5)
        said = self.replace(5, 6, *addresses)
        self.assertIn(f"the node at {addresses[4]} does not answer: Connection refused\n", said)
        self.none_is_left()

    def test_another_node_is_down(self):
        """All names are moved that the others tell. Since node 3 may know of more, the status is 1."""
        addresses = self.cluster.addresses()
        self.cluster.stop(3)
        said = self.replace(5, 6, *addresses, status=1)
        self.assertIn(f"the node at {addresses[2]} does not answer: Connection refused\n", said)
        self.assertIn("of 60 names, none has node 5 in the last layout; not asked: node 3\n", said)
        self.none_is_left()

    def test_address_that_was_left_out(self):
        said = self.replace(5, 6, *self.cluster.addresses(1, 2, 3, 5, 6, 7), status=1)
        self.assertIn("not asked: node 4\n", said)
        self.none_is_left()

    def test_node_that_hangs(self):
        """A node takes connections and does not answer."""
        with socket.create_server(("127.0.0.1", 0)) as server:
            address = f"127.0.0.1:{server.getsockname()[1]}"
            said = self.replace(5, 6, "--patience", 4, address, *self.cluster.addresses(1, 2, 4, 6, 7), status=1)
        self.assertIn(f"the node at {address} does not answer: no answer within 4 s\n", said)
        self.assertIn("not asked: node 3\n", said)
        self.none_is_left()

    def test_node_without_scan(self):
        """A node of an earlier program takes part, and does not tell its names."""
        scan = self.cluster.scan
        self.cluster.scan = lambda node, *words: b"-ERR unknown command\r\n" if node == 3 else scan(node, *words)
        said = self.replace(5, 6, *self.cluster.addresses(), status=1)
        self.assertIn("node 3 was not asked for all that it knows: ERR unknown command\n", said)
        self.assertIn("; not asked: node 3\n", said)
        self.none_is_left()

    def test_mover_is_down(self):
        addresses = self.cluster.addresses()
        self.cluster.stop(1)
        said = self.replace(5, 6, *addresses, status=1)
        self.assertIn(f"not tried: {len(self.due)} names; node 1, the mover, does not answer\n", said)
        self.assertEqual(self.cluster.moved, [])

    def test_mover_that_ends(self):
        """The mover ends after some moves. The others are tried once it runs again."""
        self.cluster.before_move = lambda name: len(self.cluster.moved) == 5 and self.cluster.stop(1)
        addresses = self.cluster.addresses()
        said = self.replace(5, 6, "--at-once", 1, *addresses, status=1)
        self.assertIn("was not moved: it ended the connection", said)
        self.assertIn(f" names; the mover, at {addresses[0]}, does not answer: Connection refused\n", said)
        self.cluster.before_move = lambda name: None
        self.cluster.start(1, int(addresses[0].split(":")[1]))
        self.replace(5, 6, *addresses)
        self.none_is_left()

    def test_no_node_answers(self):
        addresses = self.cluster.addresses()
        for node in self.cluster.servers:
            self.cluster.stop(node)
        said = self.run_command("replace", 5, 6, *addresses, status=1)[1]
        self.assertIn(f"deploy/replace: no node answers: {addresses[0]}: Connection refused; ", said)

    def test_folder(self):
        """The folder of a cluster that deploy/run has started has the addresses and the cluster file. A host that has
        started again has told its port twice."""
        self.silent_cluster()
        folder = self.folder()
        (folder / "cluster").write_text(FILE.format(mover=1))
        for node in self.cluster.servers:
            (folder / f"node-{node}.log").write_text(
                f"host of node {node}: listening on 127.0.0.1 port 9\n"
                f"host of node {node}: listening on 127.0.0.1 port {self.cluster.port(node)}\nmore\n")
        (folder / "node-1.log.old").write_text("host of node 1: listening on 127.0.0.1 port 9\n")
        self.cluster.stop(5)
        self.replace(5, 6, "--folder", folder)
        self.none_is_left()

    def test_file(self):
        """What INFO does not tell, the cluster file does."""
        file, addresses = self.silent_cluster(), self.cluster.addresses()
        self.cluster.stop(5)
        self.replace(5, 6, *addresses, "--file", file)
        self.none_is_left()

    def test_file_with_another_mover(self):
        self.silent_cluster().write_text(FILE.format(mover=2))
        file = self.folder() / "cluster"
        file.write_text(FILE.format(mover=2))
        said = self.replace(5, 6, *self.cluster.addresses(), "--file", file, status=1)
        self.assertIn(" names; node 2, the mover, says that it does not move objects\n", said)
        self.assertEqual(self.cluster.moved, [])

    def test_nothing_tells_the_mover(self):
        """Then the nodes are asked one after another to move names, which only the mover does. It need not be asked to
        move the first name."""
        self.cluster.tells, self.cluster.mover = False, 4
        self.cluster.names[self.due[0]] = [(1, [5, 6])]
        said = self.replace(5, 6, *self.cluster.addresses(), status=1)
        self.assertEqual((sorted(self.cluster.moved), self.cluster.names_on(5)), (self.due[1:], self.due[:1]))
        self.assertIn("1 has node 5 in the last layout\n", said)
        self.cluster.mover = 9
        said = self.drain(6, *self.cluster.addresses(), status=1)
        self.assertIn(" names; no node that answers is the mover\n", said)

    def test_password(self):
        self.cluster.password = b"word with spaces"
        file = self.folder() / "password"
        file.write_bytes(b"word with spaces\nmore\n")
        self.replace(5, 6, *self.cluster.addresses(), "--password-file", file)
        self.none_is_left()

    def refused(self, wanted, *words, command="replace"):
        """The command ends with status 2 and this message, and moves nothing."""
        said, error = self.run_command(command, *words, status=2)
        self.assertEqual((said, self.cluster.moved), ("", []))
        self.assertIn(f"deploy/{command}: {wanted}", error)

    def test_bad_words(self):
        addresses = self.cluster.addresses()
        self.refused("error: the following arguments are required: OLD, NEW")
        self.refused("give either addresses HOST:PORT or --folder", 5, 6)
        self.refused("give either addresses HOST:PORT or --folder", 5, 6, *addresses, "--folder", "/tmp")
        self.refused("the old node and the new one are the same", 5, 5, *addresses)
        self.refused("256 is no number of a node", 5, 256, *addresses)
        self.refused("node is no number of a node", "node", *addresses, command="drain")
        self.refused("node 8 is none of the cluster, whose nodes are 1 2 3 4 5 6 7", 5, 8, *addresses)
        self.refused("node 8 is none of the cluster, whose nodes are 1 2 3 4 5 6 7", 8, *addresses, command="drain")
        self.refused("7001 is no address HOST:PORT", 5, 6, "7001")
        self.refused("127.0.0.1:70000 is no address HOST:PORT", 5, 6, "127.0.0.1:70000")
        self.refused("--at-once is a number from 1 to 500", 5, 6, *addresses, "--at-once", 0)
        self.refused("--patience is a number of seconds, above 0", 5, 6, *addresses, "--patience", "0")
        self.refused("error: unrecognized arguments: --fast", 5, 6, *addresses, "--fast")

    def test_bad_files(self):
        addresses, folder = self.cluster.addresses(), self.folder()
        self.refused(f"{folder} is no folder of a cluster that deploy/run has started", 5, 6, "--folder", folder)
        self.refused(f"{folder}/none: No such file or directory", 5, 6, *addresses, "--file", folder / "none")
        self.refused(f"{folder}/none: No such file", 5, 6, *addresses, "--password-file", folder / "none")
        (folder / "file").write_text("nodes 1 2\n")
        self.refused(f"{folder}/file is no cluster file", 5, 6, *addresses, "--file", folder / "file")
        (folder / "file").write_text("nodes 1 two\nmover 1\n")
        self.refused(f"{folder}/file: two is no number of a node", 5, 6, *addresses, "--file", folder / "file")

    def test_wrong_passwords(self):
        addresses, file = self.cluster.addresses(), self.folder() / "password"
        file.write_text("wrong\n")
        self.cluster.password = b"right"
        self.refused(f"the node at {addresses[0]} says: NOAUTH", 5, 6, *addresses)
        self.refused(f"the node at {addresses[0]} says: WRONGPASS", 5, 6, *addresses, "--password-file", file)

    def test_other_clusters(self):
        other = self.layouts(nodes=(8, 9), later=())
        other.info = lambda node: b"$24\r\nnode:8\r\ncluster:decaf\r\n\r\n\r\n"
        self.refused("the addresses are those of nodes of different clusters", 5, 6, *self.cluster.addresses(),
                     *other.addresses())

    def test_unknown_node(self):
        """Where nothing tells the nodes of the cluster, the mover says that the new one is none of them."""
        self.cluster.tells = False
        self.refused("the mover says that node 8 is not in the cluster file", 5, 8, *self.cluster.addresses())


if __name__ == "__main__":
    unittest.main()
