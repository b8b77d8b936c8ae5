#!/usr/bin/env python3
"""Tests inline commands, which are lines of words in place of frames, as Redis reads them: inline_test.py HOST."""
import shutil
import subprocess
import time
import unittest

from frames import encode
from hosts import Host

PROTOCOL = b"-ERR protocol\r\n"
UNBALANCED = b"-ERR Protocol error: unbalanced quotes in request\r\n"
TOO_BIG = b"-ERR Protocol error: too big inline request\r\n"
WORDS = [  # a line, and the words that Redis finds in it
    (b"PING\r\n", [b"PING"]),
    (b"PING\n", [b"PING"]),
    (b"  SET\tname   value \r\n", [b"SET", b"name", b"value"]),
    (b'SET name "two words"\n', [b"SET", b"name", b"two words"]),
    (b"SET name 'two words'\n", [b"SET", b"name", b"two words"]),
    (b'SET "" \'\'\n', [b"SET", b"", b""]),
    (rb'ECHO "\x41\xfF\n\r\t\b\a\\\"\q\x4"' + b"\n", [b"ECHO", b'A\xff\n\r\t\b\a\\"qx4']),
    (rb"ECHO 'it\'s \n \\x'" + b"\n", [b"ECHO", rb"it's \n \\x"]),
    (rb"ECHO 'it\\'" + b"\n", None),
    (b"ECHO it's' \"no\n", None),
    (b'ECHO pre"fix"\n', [b"ECHO", b"prefix"]),
    (rb"ECHO a\nb \"" + b"\n", None),
    (rb"ECHO a\nb" + b"\n", [b"ECHO", rb"a\nb"]),
    (b'ECHO "open\n', None),
    (b"ECHO 'open\n", None),
    (b'ECHO "a"b\n', None),
    (b"ECHO 'a'b\n", None),
    (b"$4\r\n", [b"$4"]),
    (b"\xff\xfe\n", [b"\xff\xfe"]),
]


class Lines(unittest.TestCase):
    def setUp(self):
        self.host = Host("words")

    def tearDown(self):
        self.assertEqual(self.host.end(), 0)

    def said_to(self, data):
        with self.host.connect() as client:
            client.send(data)
            client.send_end()
            return client.rest()

    def test_words(self):
        for line, words in WORDS:
            self.assertEqual((line, self.said_to(line)), (line, UNBALANCED if words is None else encode(words)))

    def test_lines_and_frames(self):
        """They may follow one another, come byte by byte, and have empty lines between them."""
        data = b"\n  \r\nPING\r\n" + encode([b"ECHO", b"x\n"]) + b"\r\nGET name\n" + encode([b"PING"])
        wanted = encode([b"PING"]) + encode([b"ECHO", b"x\n"]) + encode([b"GET", b"name"]) + encode([b"PING"])
        self.assertEqual(self.said_to(data), wanted)
        with self.host.connect() as client:
            for byte in data:
                client.send(bytes([byte]))
                time.sleep(0.002)
            client.send_end()
            self.assertEqual(client.rest(), wanted)

    def test_what_comes_before_is_answered(self):
        self.assertEqual(self.said_to(b"GET a\nGET 'b\nGET c\n"), encode([b"GET", b"a"]) + UNBALANCED)

    def test_a_cut_line(self):
        self.assertEqual(self.said_to(b"PING\nSET name val"), encode([b"PING"]))

    def test_longest_line(self):
        name = b"x" * ((64 << 10) - 4)
        self.assertEqual(self.said_to(b"GET " + name + b"\r\n"), encode([b"GET", name]))
        self.assertEqual(self.said_to(b"GET x" + name + b"\r\n"), TOO_BIG)
        self.assertEqual(self.said_to(b"GET " + 3 * name), TOO_BIG)

    def test_most_words(self):
        self.assertEqual(self.said_to(b"x " * 1023 + b"\n"), encode([b"x"] * 1023))
        self.assertEqual(self.said_to(b"x " * 1024 + b"\n"), PROTOCOL)

    def test_a_browser(self):
        """A web page can have a browser send a request whose body holds lines. None of them is carried out."""
        for first in (b"POST / HTTP/1.1\r\n", b"post / HTTP/1.1\r\n"):
            self.assertEqual(self.said_to(first + b"Content-Length: 12\r\n\r\nSET name x\r\n"), PROTOCOL)
        said = self.said_to(b"GET / HTTP/1.1\r\nHost: 127.0.0.1\r\n\r\nSET name x\r\n")
        self.assertEqual(said, encode([b"GET", b"/", b"HTTP/1.1"]) + PROTOCOL)


@unittest.skipUnless(shutil.which("redis-benchmark"), "redis-benchmark is missing")
class Benchmark(unittest.TestCase):
    def test_pings(self):
        """Its first command is a line."""
        host = Host("pongs")
        words = ["redis-benchmark", "-p", str(host.port()), "-t", "ping_inline,ping_mbulk", "-n", "1000", "-q"]
        said = subprocess.run(words, stdout=subprocess.PIPE, stderr=subprocess.DEVNULL, text=True, timeout=300).stdout
        self.assertRegex(said, r"(?s)PING_INLINE: [1-9][0-9.]+ requests per second.*PING_\w+: [1-9][0-9.]+ requests")
        self.assertEqual(host.end(), 0)


if __name__ == "__main__":
    unittest.main()
