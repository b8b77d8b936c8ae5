#!/usr/bin/env python3
"""Tests what copies of a cluster of deploy/run are good for: of all folders, of one node's folder, and of the values:
copies_test.py HOST. The variable CASD names another node program than the stand-in."""
import os
import shutil
import subprocess
import sys
import tempfile
import threading
import unittest
from pathlib import Path

from connection import PATIENCE, Connection
from run_cluster import DEPLOY, RunCluster

from backup_file import commands_of  # which connection.py lets Python find

HOST = sys.argv.pop(1)
NAMES = [b"name-%d" % number for number in range(20)] + [b"", b"*1\r\n", os.urandom(255)]


@unittest.skipUnless(shutil.which("nats-server"), "nats-server is missing")
class Copies(unittest.TestCase):
    def setUp(self):
        self.folder = Path(self.enterContext(tempfile.TemporaryDirectory()))
        self.cluster = self.started("cluster")

    def started(self, name):
        """A cluster that runs in a folder of this name."""
        (self.folder / f"{name}-files").mkdir(exist_ok=True)
        cluster = RunCluster(self.folder / f"{name}-files" / name, HOST)
        self.addCleanup(cluster.stop)
        cluster.start()
        return cluster

    def write(self, number, name, value):
        self.assertEqual(self.cluster.ask(number, b"SET", name, value), b"+OK")

    def read(self, number, name, cluster=None):
        return (cluster or self.cluster).ask(number, b"GET", name)

    def copy_of(self, folder):
        """A copy of what is in a folder."""
        copy = self.folder / f"copy-{folder.name}"
        shutil.copytree(folder, copy)
        return copy

    @staticmethod
    def put(copy, folder):
        """What is in the folder is removed, and the copy takes its place."""
        shutil.rmtree(folder)
        shutil.copytree(copy, folder)

    def nobody_notices(self):
        """No host takes a node for another one."""
        self.assertNotRegex(self.cluster.said(), "another process|identity")

    def test_all_folders(self):
        """All folders are copied while all nodes are stopped, and put back later. Each name has the value that it had
        then; what was written later is gone, and all goes on from there."""
        for place, name in enumerate(NAMES):
            self.write(place % 3 + 1, name, b"first %d" % place)
        self.cluster.stop()
        copy = self.copy_of(self.cluster.folder)
        self.cluster.start()
        for place, name in enumerate([*NAMES, b"later"]):
            self.write(place % 3 + 1, name, b"second")
        self.cluster.stop()
        self.put(copy, self.cluster.folder)
        self.cluster.start()
        for number in self.cluster.numbers:
            self.assertEqual([self.read(number, name) for name in [*NAMES, b"later"]],
                             [b"first %d" % place for place in range(len(NAMES))] + [b""])
        for number in self.cluster.numbers:
            self.write(number, b"name-1", b"third %d" % number)
            self.assertEqual(self.read(number % 3 + 1, b"name-1"), b"third %d" % number)
        self.nobody_notices()

    def test_node_that_moves(self):
        """A stopped node goes on from a copy of its folder in another place. What it had acknowledged with one other
        node is there, also if that one is down."""
        cluster = self.cluster
        cluster.stop_node(3)
        self.write(1, b"kept", b"by 1 and 2")
        cluster.stop_node(2)
        copy = self.copy_of(cluster.folder_of(2))
        cluster.start_node(2, copy)
        cluster.start_node(3)
        self.assertEqual(self.read(2, b"kept"), b"by 1 and 2")
        cluster.stop_node(1)
        self.assertEqual(self.read(3, b"kept"), b"by 1 and 2")
        self.write(2, b"kept", b"by 2 and 3")
        self.assertEqual(self.read(3, b"kept"), b"by 2 and 3")

    def test_old_copy(self):
        """What goes wrong where a node starts from an old copy while the others go on: a write is lost that had been
        answered, and no node notices it."""
        cluster = self.cluster
        self.write(1, b"lost", b"first")
        cluster.stop_node(1)
        copy = self.copy_of(cluster.folder_of(1))
        cluster.start_node(1)
        cluster.stop_node(3)
        self.write(1, b"lost", b"second")
        self.assertEqual(self.read(2, b"lost"), b"second")
        cluster.stop_node(1)
        cluster.stop_node(2)
        cluster.start_node(1, copy)
        cluster.start_node(3)
        self.assertEqual(self.read(3, b"lost"), b"first")
        self.nobody_notices()

    def run_command(self, command, *words):
        ran = subprocess.run([DEPLOY / command, *words], capture_output=True, text=True, timeout=PATIENCE, check=False)
        self.assertEqual(ran.returncode, 0, ran.stdout + ran.stderr)

    def has_values(self, cluster):
        self.assertEqual([self.read(place % 3 + 1, name, cluster) for place, name in enumerate(NAMES)],
                         [b"value %d" % place for place in range(len(NAMES))])

    def test_values(self):
        """The values are copied while the cluster runs, and then come into new ones: by deploy/restore, and by
        redis-cli."""
        for place, name in enumerate(NAMES):
            self.write(place % 3 + 1, name, b"value %d" % place)
        self.write(1, b"deleted", b"")
        file = self.folder / "backup"
        self.run_command("backup", file, "--folder", self.cluster.folder)
        other = self.started("other")
        self.run_command("restore", file, *other.addresses())
        self.has_values(other)
        self.assertEqual(self.read(1, b"deleted", other), b"")
        other.stop()
        if shutil.which("redis-cli"):
            third = self.started("third")
            said = subprocess.run(["redis-cli", "-p", str(third.port(1)), "--pipe"], input=file.read_bytes(),
                                  check=True, stdout=subprocess.PIPE, timeout=PATIENCE).stdout
            self.assertRegex(said, rb"errors: 0, replies: \d+\n$")
            self.has_values(third)

    def test_values_under_load(self):
        """A value that is overwritten all the time: the copy has one that was current while it was made."""
        begun, answered, ended = [0], [0], threading.Event()

        def write():
            with Connection(self.cluster.port(2)) as client:
                while not ended.is_set():
                    begun[0] += 1
                    if client.ask(b"SET", b"counter", b"%d" % begun[0]) == b"+OK":
                        answered[0] = begun[0]

        writer = threading.Thread(target=write)
        self.write(1, b"counter", b"0")
        writer.start()
        self.addCleanup(writer.join)
        self.addCleanup(ended.set)
        for number in range(5):
            file, least = self.folder / f"backup-{number}", answered[0]
            self.run_command("backup", file, "--folder", self.cluster.folder)
            values, most = {words[1]: words[-1] for words in commands_of(file)}, begun[0]
            self.assertTrue(least <= int(values[b"counter"]) <= most, (least, values[b"counter"], most))

    def test_values_after_a_loss(self):
        """All values can be copied while one node is lost. The command says that not all nodes were asked."""
        for place, name in enumerate(NAMES):
            self.write(place % 3 + 1, name, b"value %d" % place)
        file, addresses = self.folder / "backup", self.cluster.addresses()
        self.cluster.stop_node(2)
        shutil.rmtree(self.cluster.folder_of(2))
        ran = subprocess.run([DEPLOY / "backup", file, *addresses, "--file", self.cluster.folder / "cluster"],
                             capture_output=True, text=True, timeout=PATIENCE, check=False)
        self.assertEqual(ran.returncode, 1, ran.stdout + ran.stderr)
        self.assertIn("not all nodes were asked: not node 2\n", ran.stdout)
        other = self.started("other")
        self.run_command("restore", file, *other.addresses())
        self.has_values(other)


if __name__ == "__main__":
    unittest.main()
