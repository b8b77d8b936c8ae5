#!/usr/bin/env python3
"""Tests that strings of all lengths go through the host unchanged, however they are cut: lengths_test.py HOST."""
import random
import threading
import unittest

from frames import encode
from hosts import Host

EDGES = [0, 1, 16 << 10, 48 << 10, 64 << 10, 80 << 10, 128 << 10, 512 << 10, 1 << 20]


def values(source, count):
    """Values whose lengths are near those at which the host does something else."""
    lengths = [max(0, source.choice(EDGES) + source.randint(-100, 100)) for _ in range(count)]
    return [source.randbytes(min(length, 4096)) + bytes(max(0, length - 4096)) for length in lengths]


class Lengths(unittest.TestCase):
    def send(self, client, data, source):
        """Sends the bytes in parts of random lengths."""
        while data:
            length = source.choice((1, 100, 16 << 10, 64 << 10, 1 << 20, 4 << 20))
            client.send(data[:length])
            data = data[length:]

    def exchange(self, host, seed, wanted_of, commands_of):
        """Sends commands on a connection beside reading its answers."""
        source = random.Random(seed)
        with host.connect() as client:
            for _ in range(3):
                commands = commands_of(source)
                data = memoryview(b"".join(map(encode, commands)))
                sender = threading.Thread(target=self.send, args=[client, data, source])
                sender.start()
                for words in commands:
                    wanted = wanted_of(words)
                    if client.file.read(len(wanted)) != wanted:
                        self.faults.append((seed, [len(word) for word in words]))
                        return
                sender.join()

    def go(self, kind, wanted_of, commands_of):
        host, self.faults = Host(kind), []
        threads = [threading.Thread(target=self.exchange, args=[host, seed, wanted_of, commands_of])
                   for seed in range(6)]
        for thread in threads:
            thread.start()
        for thread in threads:
            thread.join()
        self.assertEqual(self.faults, [])
        self.assertEqual(host.end(), 0)

    def test_one_value(self):
        """The answer is the value, in three strings."""
        self.go("echo", lambda words: b"$%d\r\n%b\r\n" % (len(words[-1]), words[-1]),
                lambda source: [[b"PING", value] for value in values(source, 12)])

    def test_several_values(self):
        """The answer is all strings of the command, as one."""
        self.go("words", encode, lambda source: [[b"ALL", *values(source, 3)] for _ in range(5)])


if __name__ == "__main__":
    unittest.main()
