#!/usr/bin/python3
"""Tests a cluster by Python's library for Redis, Debian's python3-redis: library_test.py PORT PORT PORT. What is
expected is what the library's documentation says of a Redis server. A server of Redis is asked the same, and answers in
the same way."""
import shutil
import socket
import subprocess
import sys
import tempfile
import time
import unittest

import redis

PORTS = [int(word) for word in sys.argv[1:]]
del sys.argv[1:]


class Library(unittest.TestCase):
    def setUp(self):
        self.clients = [redis.Redis(port=port) for port in PORTS]
        self.client = self.clients[0]

    def tearDown(self):
        for client in self.clients:
            client.close()

    def test_ping_and_echo(self):
        self.assertIs(self.client.ping(), True)
        self.assertEqual(self.client.echo("a\r\nb"), b"a\r\nb")

    def test_set_and_get(self):
        self.assertIs(self.client.set("name", "value"), True)
        self.assertEqual([client.get("name") for client in self.clients], [b"value"] * len(PORTS))

    def test_bytes_and_numbers(self):
        value = bytes(range(256)) * 300
        self.assertIs(self.client.set(b"\0\r\n name", value), True)
        self.assertEqual(self.clients[1].get(b"\0\r\n name"), value)
        self.assertIs(self.client.set("number", 42), True)
        self.assertEqual(self.client.get("number"), b"42")

    def test_info(self):
        """The library reads the sections, and the only database as it reads those of Redis."""
        self.client.set("counted", "x")
        found = [client.info() for client in self.clients]
        self.assertEqual([info["node"] for info in found], [1, 2, 3])
        for info in found:
            self.assertEqual((info["cluster_state"], info["cluster_nodes_heard"]), ("ok", 3))
            self.assertGreaterEqual(info["connected_clients"], 1)
            self.assertEqual({**info["db0"], "keys": 0}, {"keys": 0, "expires": 0, "avg_ttl": 0})
        self.assertGreaterEqual(sum(info["db0"]["keys"] for info in found), 2)

    def test_sections_of_info(self):
        """A section that there is not tells nothing."""
        server = {"redis_version": "1.0.0", "redis_mode": "standalone"}
        for client in self.clients:
            self.assertEqual(client.info("server"), server)
            self.assertEqual(client.info("latencystats"), {})
            self.assertEqual([*client.info("Keyspace")], ["db0"])
            self.assertEqual({key.partition("_")[0] for key in client.info("cluster")}, {"cluster"})
            for words in (["all"], ["SERVER", "Everything"], ["default"]):
                self.assertEqual(client.info(*words).keys(), client.info().keys())
            self.assertEqual({**client.info("server", "keyspace"), "db0": 0}, {**server, "db0": 0})

    def test_pipeline(self):
        pipeline = self.client.pipeline(transaction=False)
        for n in range(50):
            pipeline.set(f"piped-{n}", n).get(f"piped-{n}")
        wanted = [answer for n in range(50) for answer in (True, b"%d" % n)]
        self.assertEqual(pipeline.execute(), wanted)

    def test_delete(self):
        """Deleted names read as nil at each node, and their number is told, whether they had values or not."""
        names = [f"deleted-{n}" for n in range(5)]
        for name in names:
            self.client.set(name, "value")
        self.assertEqual(self.client.delete(*names, "never written"), 6)
        self.assertEqual([client.get(name) for client in self.clients for name in names], [None] * 5 * len(PORTS))
        self.client.set(names[0], "again")
        self.assertEqual([client.get(names[0]) for client in self.clients], [b"again"] * len(PORTS))

    def test_delete_in_a_pipeline(self):
        """A command before a DEL sees the old value, and one behind it does not."""
        pipeline = self.client.pipeline(transaction=False)
        for n in range(10):
            pipeline.set(f"cut-{n}", n).get(f"cut-{n}").delete(f"cut-{n}").get(f"cut-{n}").ping()
        wanted = [answer for n in range(10) for answer in (True, b"%d" % n, 1, None, True)]
        self.assertEqual(pipeline.execute(), wanted)

    def test_unknown_command(self):
        with self.assertRaisesRegex(redis.ResponseError, "^unknown command"):
            self.client.lpush("list", 1)
        self.assertIs(self.client.ping(), True)

    def test_missing_names_and_lengths(self):
        self.assertIsNone(self.client.get("never written"))
        self.assertEqual((self.client.exists("never written"), self.client.strlen("never written")), (0, 0))
        self.client.set("length", "four")
        found = [(client.exists("length"), client.strlen("length")) for client in self.clients]
        self.assertEqual(found, [(1, 4)] * len(PORTS))

    def test_what_is_refused_changes_nothing(self):
        self.client.set("kept", "1")
        for refused in (lambda: self.client.setex("kept", 10, "2"), lambda: self.client.expire("kept", 10),
                        lambda: self.client.set("kept", "2", ex=10), lambda: self.client.set("kept", "2", nx=True),
                        lambda: self.client.setnx("kept", "2"), lambda: self.client.getset("kept", "2"),
                        lambda: self.client.incr("kept"), lambda: self.client.append("kept", "2"),
                        lambda: self.client.mset({"kept": "2"})):
            with self.assertRaisesRegex(redis.ResponseError, "nothing was"):
                refused()
        self.assertEqual(self.client.get("kept"), b"1")

    def test_too_long(self):
        with self.assertRaisesRegex(redis.ResponseError, "^value too long$"):
            self.client.set("too long", bytes((16 << 20) + 1))
        self.assertEqual(self.client.exists("too long"), 0)
        for words in (("GET", "n" * 256), ("STRLEN", "n" * 256), ("EXISTS", "n" * 256), ("SET", "n" * 256, "value"),
                      ("DEL", "short", "n" * 256)):
            with self.assertRaisesRegex(redis.ResponseError, "^name too long$"):
                self.client.execute_command(*words)

    def test_names(self):
        wanted = {b"scanned-%d" % n for n in range(40)}
        for name in wanted:
            self.client.set(name, "value")
        self.assertLessEqual(wanted, set().union(*(client.scan_iter(count=7) for client in self.clients)))
        for pattern, count in (("scanned-*", 40), ("scanned-3?", 10), ("*ed-17", 1), ("scanned", 0),
                               ("scanned\\-17", 1)):
            found = set().union(*(client.scan_iter(match=pattern, count=7) for client in self.clients))
            self.assertEqual((pattern, len(found)), (pattern, count))
        for client in self.clients:
            self.assertTrue(any(self.tells_as_many_as_it_counts(client) for _ in range(50)))

    def tells_as_many_as_it_counts(self, client):
        """Whether the node tells as many names as it counts. While requests of writes still come, it may not."""
        names = list(client.scan_iter(count=7))
        self.assertEqual(len(names), len(set(names)))
        time.sleep(0.1)
        return len(names) == client.dbsize()

    def test_layout(self):
        lines = {client.execute_command("LAYOUT", "never moved") for client in self.clients}
        self.assertEqual(len(lines), 1)
        self.assertRegex(lines.pop(), rb"^position 0 k \d+ nodes( \d+)+$")

    def test_connection_with_a_name(self):
        named = redis.Redis(port=PORTS[0], client_name="tester")
        self.assertIs(named.ping(), True)
        named.close()


# Commands that a node and Redis answer in the same way, one after another on one connection.
SAME = [
    ["SET", "same", "hello"], ["GET", "same"], ["GET", "missing"], ["STRLEN", "same"], ["STRLEN", "missing"],
    ["EXISTS", "same"], ["EXISTS", "missing"], ["exists", "same"], ["DEL"], ["PING"], ["ECHO", "text"],
    ["SELECT", "0"], ["SELECT", "99"], ["SELECT"], ["AUTH", "word"], ["AUTH", "default", "word"],
    ["AUTH", "nobody", "word"], ["AUTH"], ["STRLEN"], ["STRLEN", "same", "missing"], ["EXISTS"], ["HELLO", "9"],
    ["HELLO", "2", "AUTH", "nobody", "word"],
    ["DBSIZE", "same"], ["SCAN"], ["SCAN", "word"], ["SCAN", "0", "COUNT"], ["SCAN", "0", "COUNT", "0"],
    ["SCAN", "0", "COUNT", "word"], ["SCAN", "0", "WORD", "1"],
    ["CLIENT", "GETNAME"], ["CLIENT", "SETNAME", "tester"], ["SET", "same"], ["SET", "same", "value", "WORD"],
    ["GET", "same"], ["DEL", "same"], ["GET", "same"], ["EXISTS", "same"],
]
# The same for HELLO, whose answer has another server, version and number of the connection.
GREETINGS = [["HELLO"], ["HELLO", "2"], ["hello", "2", "setname", "tester"],
             ["HELLO", "2", "AUTH", "default", "word", "SETNAME", "tester"]]


def asked(connection, words):
    """What a command is answered: a value, or the text of the error."""
    connection.send_command(*words, check_health=False)
    try:
        return connection.read_response()
    except redis.RedisError as error:
        return f"{type(error).__name__}: {error}"


# Debian's redis-tools has the server too, under the name of a tool: the program looks at the name by which it is
# started.
SERVER = shutil.which("redis-server") or shutil.which("redis-check-rdb")


@unittest.skipUnless(SERVER, "redis-check-rdb is missing; install it by: apt-get install redis-tools")
class BesideRedis(unittest.TestCase):
    """A server of Redis is asked the same."""

    def setUp(self):
        folder = self.enterContext(tempfile.TemporaryDirectory())
        with socket.socket() as free:
            free.bind(("127.0.0.1", 0))
            port = free.getsockname()[1]
        words = ["redis-server", "--port", str(port), "--bind", "127.0.0.1", "--save", "", "--dir", folder]
        server = subprocess.Popen(words, executable=SERVER, stdout=subprocess.DEVNULL)
        self.addCleanup(server.wait)
        self.addCleanup(server.terminate)
        self.connections = [self.connected(port), self.connected(PORTS[0])]

    def connected(self, port):
        connection = redis.Connection(port=port)
        self.addCleanup(connection.disconnect)
        for _ in range(300):
            try:
                connection.connect()
                return connection
            except redis.ConnectionError:  # the server is not up yet
                time.sleep(0.1)
        return self.fail("no connection")

    def test_same_answers(self):
        for words in SAME:
            wanted, found = (asked(connection, words) for connection in self.connections)
            self.assertEqual((words, found), (words, wanted))

    def test_greetings(self):
        for words in GREETINGS:
            wanted, found = (asked(connection, words) for connection in self.connections)
            self.assertEqual((words, found[::2]), (words, wanted[::2]))
            for place in (5, 9, 11, 13):  # behind proto, mode, role and modules
                self.assertEqual((words, found[place]), (words, wanted[place]))
            self.assertEqual(found[1], b"casd")
            self.assertEqual(found[7], asked(self.connections[1], ["CLIENT", "ID"]))


if __name__ == "__main__":
    unittest.main()
