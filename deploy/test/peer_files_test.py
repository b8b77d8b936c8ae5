#!/usr/bin/env python3
"""Tests the files in which a host keeps who the nodes are: peer_files_test.py HOST."""
import os
import shutil
import tempfile
import time
import unittest
from pathlib import Path

from frames import encode
from hosts import Host
from peers_case import ANOTHER, Case
from subjects import identity_of


@unittest.skipUnless(shutil.which("nats-server"), "nats-server is missing")
class Files(Case):
    """FOLDER/identity and FOLDER/peers."""

    def test_files_survive_a_restart(self):
        before = os.umask(0)
        self.addCleanup(os.umask, before)
        host = self.start(1)
        self.meet(host, 2)
        self.meet(host, 0)
        identity, peers = host.identity(), (host.folder / "peers").read_text()
        self.assertRegex(identity, "^[0-9a-f]{16}$")
        self.assertEqual(peers.splitlines()[:-1], [f"0 {identity_of(0)}", f"2 {identity_of(2)}"])
        for name in ("identity", "peers"):
            self.assertEqual((host.folder / name).stat().st_mode & 0o777, 0o600)
        self.ended(host)
        again = self.start(1, folder=host.folder)
        self.assertEqual((again.identity(), (host.folder / "peers").read_text()), (identity, peers))
        (host.folder / "frames").unlink()
        self.send(2, encode([b"strange"]), ANOTHER)
        self.meet(again, 2)
        self.assertNotIn("node 2 strange", again.frames())
        self.assertRegex(self.ended(again), f"node 2 is heard under the identity {ANOTHER}.*first .* {identity_of(2)}")

    def test_folders_have_different_identities(self):
        hosts = [self.start(number) for number in (1, 2, 3)]
        self.assertEqual(len({host.identity() for host in hosts}), 3)
        for host in hosts:
            self.ended(host)

    def test_damaged_files(self):
        host = self.start(1)
        self.meet(host, 2)
        self.meet(host, 17)
        self.ended(host)
        good = {name: (host.folder / name).read_bytes() for name in ("identity", "peers")}
        peers, identity = good["peers"], good["identity"]
        texts = [("identity", text) for text in (b"", identity[:-1], identity + b"x", b"G" + identity[1:])]
        texts += [("peers", peers[:length]) for length in range(len(peers))]
        texts += [("peers", peers[:at] + bytes([peers[at] ^ 1]) + peers[at + 1:]) for at in range(len(peers))]
        for number, (name, text) in enumerate(texts[:4] + texts[4::7]):
            folder = Path(tempfile.mkdtemp())
            for file, data in good.items():
                (folder / file).write_bytes(data)
            (folder / name).write_bytes(text)
            host = Host("keep", "--nats", self.server.url, folder=folder)
            self.assertEqual((number, text, host.status()), (number, text, 1))
            self.assertIn(f"{folder}/{name} is damaged", host.said())
            self.assertEqual((folder / name).read_bytes(), text)

    def test_peers_without_an_identity(self):
        host = self.start(1)
        self.meet(host, 2)
        self.ended(host)
        (host.folder / "identity").unlink()
        again = Host("keep", "--nats", self.server.url, folder=host.folder)
        self.assertEqual(again.status(), 1)
        self.assertIn("/identity is missing. The other nodes have this node's identity", again.said())
        self.assertFalse((host.folder / "identity").exists())

    def test_files_that_cannot_be_written(self):
        """A folder stands in the place of each new file."""
        folder = Path(tempfile.mkdtemp())
        (folder / "identity.new").mkdir()
        host = Host("keep", "--nats", self.server.url, folder=folder)
        self.assertEqual(host.status(), 1)
        self.assertIn("/identity: Is a directory", host.said())
        (folder / "identity.new").rmdir()
        (folder / "peers.new").mkdir()
        host = Host("keep", "--nats", self.server.url, folder=folder)
        while host.process.poll() is None:
            self.send(2, encode([b"met"]))
            time.sleep(0.05)
        self.assertEqual(host.status(), 1)
        self.assertIn("/peers: Is a directory", host.said())
        self.assertNotIn("node 2 met", host.frames())


if __name__ == "__main__":
    unittest.main()
