"""What the tests of deploy/backup and deploy/restore have in common: a test double of a cluster that keeps values too."""
import random
import time

from answers import NIL, bulk
from layouts_double import OK, Layouts
from moving_case import MovingCase

NO_QUORUM = b"-ERR no quorum answered in time\r\n"


class Kept(Layouts):
    """Nodes that also answer GET and SET. All of them know each value at once."""

    def __init__(self, nodes):
        self.values = {}
        self.fails = lambda node, name: False  # whether the node finds no quorum for a call on the name
        self.asked = {node: [] for node in nodes}  # the names of the calls that a node got
        super().__init__(nodes)

    def put(self, name, value):
        self.names.setdefault(name, [(1, [random.choice(self.members)])])
        self.values[name] = value

    def answer(self, node, words):
        command = words[0].upper()
        if command not in (b"GET", b"SET"):
            return super().answer(node, words)
        time.sleep(self.delay)
        with self.lock:
            self.asked[node].append(words[1])
            if self.fails(node, words[1]):
                return NO_QUORUM
            if command == b"SET":
                self.put(words[1], words[2])
                return OK
            value = self.values.get(words[1])
            return bulk(value) if value else NIL


class BackupCase(MovingCase):
    def kept(self, count=0, nodes=(1, 2, 3)):
        """A cluster with so many names."""
        cluster = Kept(nodes)
        self.addCleanup(cluster.end)
        for number in range(count):
            cluster.put(b"name-%03d" % number, b"value %d" % number)
        return cluster

    def backup(self, *words, status=0):
        return self.run_command("backup", *words, status=status)[0]

    def restore(self, *words, status=0):
        return self.run_command("restore", *words, status=status)[0]

    def has(self, path, cluster, but=()):
        """The file has the values of the cluster, but for these names: they come into another cluster."""
        other = self.kept()
        self.restore(path, *other.addresses())
        self.assertEqual(other.values, {name: value for name, value in cluster.values.items() if value
                                        and name not in but})
