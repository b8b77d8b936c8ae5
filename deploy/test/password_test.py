#!/usr/bin/env python3
"""Tests the password that a host asks of its clients, with a child that keeps what it gets: password_test.py HOST."""
import os
import tempfile
import time
import unittest
from pathlib import Path

from connection import PATIENCE
from frames import encode
from hosts import Host

NO_AUTH = b"-NOAUTH Authentication required."
WRONG = b"-WRONGPASS invalid username-password pair or user is disabled."


class Password(unittest.TestCase):
    def setUp(self):
        self.file = Path(self.enterContext(tempfile.TemporaryDirectory())) / "password"
        self.file.touch(0o600)
        self.file.write_bytes(b"word of 14 b..\nmore\n")
        self.hosts = []
        self.addCleanup(lambda: [host.end() for host in self.hosts])

    def host(self, kind="keep"):
        self.hosts.append(Host(kind, "--client-password", self.file))
        return self.hosts[-1]

    def commands(self, host, count):
        """The commands that went to the child, without ticks and addresses."""
        end = time.monotonic() + PATIENCE
        while time.monotonic() < end:
            found = [line.split(" ", 2)[2:] for line in host.frames().splitlines() if line.startswith("client")]
            if len(found) >= count:
                return [words[0] if words else "" for words in found]
            time.sleep(0.02)
        raise AssertionError(host.frames())

    def test_nothing_goes_to_the_child_without_the_password(self):
        host = self.host()
        with host.connect() as client:
            for words in ([b"GET", b"a"], [b"SET", b"a", b"AUTH"], [b"PING"],
                          [b"auth", b"word of 14 b.."] + [b"x"] * 2):
                self.assertEqual(client.ask(*words), NO_AUTH)
            for words in ([b"AUTH", b"word"], [b"AUTH", b"word of 14 b.,"], [b"AUTH", b"word of 14 b..x"],
                          [b"AUTH", b""], [b"AUTH", b"nobody", b"word of 14 b.."],
                          [b"HELLO", b"2", b"AUTH", b"default", b"word"]):
                self.assertEqual((words, client.ask(*words)), (words, WRONG))
            self.assertTrue(client.ask(b"HELLO", b"2").startswith(b"-NOAUTH HELLO must be called"))
            self.assertEqual(client.ask(b"AUTH", b"word of 14 b.."), b"-")
        self.assertEqual(self.commands(host, 2), ["CLIENT SETNAME -", ""])

    def test_password(self):
        host = self.host()
        with host.connect() as client:
            login = encode([b"AUTH", b"default", b"word of 14 b.."])
            client.send(encode([b"GET", b"a"]) + login + encode([b"GET", b"b"]))
            self.assertEqual([client.answer() for _ in range(3)], [NO_AUTH, b"-", b"b"])
            client.send(encode([b"GET", b"c"]) + encode([b"AUTH", b"word"]) + encode([b"GET", b"d"]))
            self.assertEqual([client.answer() for _ in range(3)], [b"c", b"", b"d"])
        self.assertEqual(self.commands(host, 6), ["CLIENT SETNAME -", "GET b", "GET c", "AUTH nobody ", "GET d", ""])

    def test_hello(self):
        host = self.host()
        with host.connect() as client:
            self.assertEqual(client.ask(b"hello", b"3", b"auth", b"default", b"word of 14 b..", b"SETNAME", b"x"), b"x")
            self.assertEqual(client.ask(b"GET", b"a"), b"a")
        with host.connect() as other:
            self.assertEqual(other.ask(b"GET", b"a"), NO_AUTH)

    def test_without_a_password(self):
        host = Host("echo")
        self.hosts.append(host)
        with host.connect() as client:
            self.assertEqual(client.ask(b"AUTH", b"word"), b"word")

    def test_wrong_files(self):
        for content, mode, wanted in ((b"word", 0o640, "other users can read"),
                                      (b"word", 0o604, "other users can read"), (b"\n", 0o600, "has no byte"),
                                      (b"x" * 513, 0o600, "more than 512")):
            self.file.write_bytes(content)
            os.chmod(self.file, mode)
            host = Host("echo", "--client-password", self.file)
            self.assertEqual(host.status(), 1)
            self.assertIn(wanted, host.said())
        host = Host("echo", "--client-password", self.file / "none")
        self.assertEqual(host.status(), 1)
        self.assertIn("cannot read the password", host.said())


if __name__ == "__main__":
    unittest.main()
