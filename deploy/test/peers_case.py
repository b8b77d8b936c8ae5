"""What the tests of the identities of folders have in common."""
import time
import unittest

from connection import PATIENCE
from frames import encode
from hosts import Host
from nats_server import Server
from subjects import subject

ANOTHER = "00000000000000ff"  # an identity that nobody has at first


class Case(unittest.TestCase):
    def setUp(self):
        self.server = Server()
        self.addCleanup(self.server.close)

    def start(self, number, kind="keep", folder=None):
        """A host that is connected. In the folder of an earlier host, what that one said goes to another file."""
        if folder is not None:
            (folder / "log").rename(folder / "log.old")
        host = Host(kind, "--node", str(number), "--nats", self.server.url, folder=folder)
        host.wait_for("connected to NATS")
        return host

    def wait(self, what, happened):
        end = time.monotonic() + PATIENCE
        while not happened():
            self.assertLess(time.monotonic(), end, what)
            time.sleep(0.02)

    def send(self, number, data, identity=None, to=1):
        """What a node sends to node 1. The server has taken it."""
        self.server.publish(subject(number, to, identity), data)

    def meet(self, host, number, identity=None):
        """Has node 1 hear another node for the first time, as soon as it has subscribed."""
        def is_heard():
            self.send(number, encode([b"met"]), identity)
            time.sleep(0.05)
            return f"node {number} met\n" in host.frames()
        self.wait(f"node {number} is not heard", is_heard)

    def ended(self, host):
        self.assertEqual(host.end(), 0)
        return host.said()
