#!/usr/bin/env python3
"""Tests how much memory clients can take: memory_test.py HOST. The memory of a host that was built with sanitizers is
not looked at, since they keep what was freed."""
import os
import re
import resource
import select
import threading
import time
import unittest
import unittest.mock
from pathlib import Path

from connection import PATIENCE
from frames import encode
from hosts import HOST, Host

MIB = 1 << 20
IS_CHECKED = HOST.endswith("checked")
LONGEST = encode([b"SET", bytes(16 * MIB), bytes(16 * MIB - 100)])  # a command of nearly 32 MiB


def memory_of(host, key):
    """A line of the system's about the memory of the host, in bytes."""
    status = Path(f"/proc/{host.process.pid}/status").read_text()
    return int(re.search(rf"{key}:\s+(\d+) kB", status)[1]) << 10


class Senders:
    """Connections that send bytes beside each other, as far as the host takes them, and read nothing."""

    def __init__(self, host, count, data):
        self.left = {}
        for _ in range(count):
            client = host.connect()
            client.socket.setblocking(False)
            self.left[client] = memoryview(data)

    def __enter__(self):
        return self

    def __exit__(self, *_):
        for client in self.left:
            client.close()

    def send(self, seconds):
        """Sends for so long, or until all is sent. The bytes that were taken."""
        end, taken = time.monotonic() + seconds, 0
        while any(self.left.values()) and time.monotonic() < end:
            _, ready, _ = select.select([], [client.socket for client, left in self.left.items() if left], [], 0.1)
            for client, left in self.left.items():
                if left and client.socket in ready:
                    try:
                        count = client.socket.send(left[:MIB])
                    except OSError:
                        count = len(left)
                    self.left[client] = left[count:]
                    taken += count
        return taken


class Bounds(unittest.TestCase):
    def least(self, host, most):
        """The memory that the host has had at most is below this."""
        if not IS_CHECKED:
            self.assertLess(memory_of(host, "VmHWM") / MIB, most)
        self.assertEqual(host.end(), 0)

    def test_half_frames(self):
        """Forty clients send commands of 32 MiB short of their last byte. Others are served meanwhile and afterwards,
        also with a long command, and the host never has more than what it says."""
        host = Host("echo", "--client-memory", "64")
        with Senders(host, 40, LONGEST[:-1]) as senders, host.connect() as other:
            for _ in range(10):
                senders.send(0.2)
                self.assertEqual(other.ask(b"PING", b"small"), b"small")
            self.assertEqual(other.ask(b"PING", bytes(12 * MIB)), bytes(12 * MIB))
        self.least(host, 64 + 40 / 16 + 64)

    def test_clients_that_do_not_read(self):
        """Forty clients ask for 20 MiB each, and read nothing of it."""
        host = Host("big", "--client-memory", "64")
        with Senders(host, 40, encode([b"GET", b"x"]) * 20) as senders, host.connect() as other:
            for _ in range(10):
                senders.send(0.2)
                self.assertEqual(other.ask(b"GET", b"x"), bytes(MIB))
        self.least(host, 64 + 40 / 16 + 64)

    def test_unanswered_commands_of_one_client(self):
        """Of 600 commands of 64 KiB on one connection the child gets less than a mebibyte before it answers; in the end
        all are answered in order."""
        host, values = Host("holds"), [b"%d " % n + bytes(64 << 10) for n in range(600)]
        with host.connect() as client:
            sender = threading.Thread(target=client.send, args=[b"".join(encode([b"SET", value]) for value in values)])
            sender.start()
            time.sleep(2)
            self.assertIn(host.frames().count("SET"), range(1, 17))
            host.lets_go()
            self.assertTrue([client.answer() for _ in values] == values)
            sender.join()
        self.least(host, 128 + 64)

    def test_commands_whose_clients_have_gone(self):
        """Clients that send a long command and leave at once do not fill the child's memory."""
        host, data = Host("holds", "--client-memory", "64"), encode([b"SET", bytes(8 * MIB)])
        end, left = time.monotonic() + 4, 0
        while time.monotonic() < end:
            with Senders(host, 1, data) as sender:
                sender.send(0.2)
                time.sleep(0.1)
            left += 1
        self.assertGreater(left, 6)
        self.assertLess((host.folder / "frames").stat().st_size, (48 + 24) * MIB)
        self.least(host, 64 + 64)

    def test_memory_is_given_back(self):
        """Idle clients that have sent and got much hold next to nothing."""
        host, value = Host("echo"), bytes(8 * MIB)
        clients = [host.connect() for _ in range(20)]
        for client in clients:
            self.assertTrue(client.ask(b"PING", value) == value)
        if not IS_CHECKED:
            self.assertLess(memory_of(host, "VmRSS") / MIB, 16)
        for client in clients:
            client.close()
        self.assertEqual(host.end(), 0)


class Service(unittest.TestCase):
    """What well-behaved clients get while the memory of all is limited."""

    def test_more_long_commands_than_there_is_memory_for(self):
        """They wait for each other, and none is refused."""
        host, faults = Host("echo", "--client-memory", "64"), []

        def go(number):
            value = b"%d " % number + bytes(8 * MIB)
            with host.connect() as client:
                for _ in range(3):
                    if client.ask(b"PING", value) != value:
                        faults.append(number)

        threads = [threading.Thread(target=go, args=[number]) for number in range(20)]
        for thread in threads:
            thread.start()
        for thread in threads:
            thread.join(PATIENCE)
        self.assertEqual(faults, [])
        self.assertEqual(host.end(), 0)

    def test_clients_that_send_next_to_nothing_make_room(self):
        """Eight clients begin a command of 16 MiB and send a byte of it now and then. They are refused once another one
        has a long command, and not before."""
        host = Host("echo", "--client-memory", "64")
        clients = [host.connect() for _ in range(8)]
        for client in clients:
            client.send(b"*2\r\n$4\r\nPING\r\n$16777216\r\n")
        for _ in range(20):
            time.sleep(0.1)
            for client in clients[:3]:
                client.send(b"x")
        waits = select.select([client.socket for client in clients[:3]], [], [], 0)[0]
        with host.connect() as other:
            self.assertTrue(other.ask(b"PING", bytes(12 * MIB)) == bytes(12 * MIB))
        said = [client.answer() for client in clients[:1]] if not waits else []
        for client in clients:
            client.close()
        self.assertEqual(host.end(), 0)
        self.assertEqual((waits, said[0][:4]), ([], b"-ERR"))


@unittest.skipIf(IS_CHECKED, "sanitizers need much memory of their own")
class Refusals(unittest.TestCase):
    """The system gives the host no more memory."""

    def setUp(self):
        with unittest.mock.patch.dict(os.environ, MALLOC_ARENA_MAX="1"):
            self.host = Host("echo")

    def refuse(self):
        """Clients have been served before, so that the host has what it needs for short commands."""
        data = encode([b"PING", bytes(8 << 10)])
        with self.host.connect() as client:
            client.send(data * 20)
            self.assertEqual([client.answer() for _ in range(20)], [bytes(8 << 10)] * 20)
        resource.prlimit(self.host.process.pid, resource.RLIMIT_AS, (MIB, MIB))

    def test_room_for_a_command(self):
        """One client loses its connection, and another one is served."""
        self.refuse()
        with self.host.connect() as client:
            client.send(b"*2\r\n$4\r\nPING\r\n$16777216\r\n")
            time.sleep(0.2)
            client.send(b"x")
            self.assertEqual(client.rest(), b"-ERR out of memory\r\n")
        with self.host.connect() as other:
            self.assertEqual(other.ask(b"PING", b"still here"), b"still here")
        self.assertEqual(self.host.end(), 0)
        self.assertIn("host of node 1: out of memory\n", self.host.said())

    def test_room_for_answers(self):
        """The host may end, and says so, but not that the node program is at fault."""
        self.refuse()
        with Senders(self.host, 1, encode([b"PING", bytes(8 << 10)]) * 3000) as sender:
            sender.send(3)
            self.host.wait_for("host of node 1: out of memory\n")
        self.assertIn(self.host.end(), (0, 1))
        self.assertNotIn("the node program wrote", self.host.said())
        self.assertRegex(self.host.said(), "host of node 1: (told to end|cannot go on, and ends)\n$")


if __name__ == "__main__":
    unittest.main()
