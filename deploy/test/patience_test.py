#!/usr/bin/env python3
"""Tests how long clients can let the host wait: patience_test.py HOST."""
import contextlib
import time
import unittest

from connection import PATIENCE
from frames import encode
from hosts import Host

MIB = 1 << 20


class Times(unittest.TestCase):
    def test_idle_half_frames(self):
        """A thousand clients that begin a command and do not go on lose their places."""
        host, clients = Host("echo", "--client-timeout", "1"), []
        for number in range(1000):
            clients.append(host.connect())
            with contextlib.suppress(OSError):
                clients[-1].send(encode([b"PING", b"x"])[:1 + number % 20])
        end, answer = time.monotonic() + PATIENCE / 10, None
        while answer != b"y" and time.monotonic() < end:
            with host.connect() as client, contextlib.suppress(OSError):
                answer = client.ask(b"PING", b"y")
        self.assertEqual(answer, b"y")
        for client in clients:
            client.close()
        self.assertEqual(host.end(), 0)

    def test_what_a_client_is_told(self):
        """It gets the answers to what it sent before. A client that has begun nothing is not ended."""
        host = Host("echo", "--client-timeout", "1")
        with host.connect() as client, host.connect() as idle:
            self.assertEqual(idle.ask(b"PING", b"before"), b"before")
            client.send(encode([b"PING", b"whole"]) + b"*1\r\n$4\r\nPI")
            self.assertEqual(client.rest(), b"$5\r\nwhole\r\n-ERR timeout: the rest of the command did not come\r\n")
            time.sleep(1)
            self.assertEqual(idle.ask(b"PING", b"after"), b"after")
        self.assertEqual(host.end(), 0)
        self.assertIn("so far 1 clients were disconnected since they sent or took nothing for too long", host.said())

    def test_unread_answers(self):
        """A client that reads nothing of its answers is ended, although they are few."""
        host = Host("big", "--client-timeout", "1")
        with host.connect() as client:
            self.assertEqual(client.ask(b"GET", b"x"), bytes(MIB))  # the child has started
            client.send(encode([b"GET", b"x"]) * 20)
            time.sleep(4)
            read = 0
            with contextlib.suppress(ConnectionResetError):
                while count := len(client.socket.recv(MIB)):
                    read += count
            self.assertLess(read, 20 * MIB)
        self.assertEqual(host.end(), 0)

    def test_slow_clients(self):
        """A client that sends a byte now and then is served, and so is one that reads its answers slowly."""
        host = Host("big", "--client-timeout", "3")
        with host.connect() as client:
            for byte in b"GET x\r\n":
                client.send(bytes([byte]))
                time.sleep(0.6)
            self.assertEqual(client.answer(), bytes(MIB))
            client.send(encode([b"GET", b"x"]) * 24)
            for _ in range(12):
                time.sleep(0.5)
                self.assertTrue(client.file.read(MIB))
            left = 24 * (MIB + 12) - 12 * MIB
            self.assertEqual(len(client.file.read(left)), left)
        self.assertEqual(host.end(), 0)


if __name__ == "__main__":
    unittest.main()
