#!/usr/bin/env python3
"""Tests a cluster that runs over NATS, by clients that send bytes: cluster_test.py FOLDER NATS PORT PORT PORT, where
FOLDER is the one that deploy/run was given, NATS is the port of its server, and the others are those of the nodes."""
import json
import os
import random
import sys
import threading
import time
import unittest
from pathlib import Path

from connection import PATIENCE, Connection
from frames import encode
from nonsense import MALFORMED, bad_messages, publish
from subjects import subject

FOLDER = Path(sys.argv[1])
NATS, *PORTS = [int(word) for word in sys.argv[2:]]
del sys.argv[1:]
REFUSED = b"-ERR protocol\r\n"


class BadInput(unittest.TestCase):
    def setUp(self):
        self.port = random.choice(PORTS)

    def said_to(self, data, then_end=False, tries=5):
        """All that a client gets that sends these bytes. The host ends a connection on which it has refused something
        two seconds later. If this test was slower than that, it tries again."""
        with Connection(self.port) as client:
            try:
                client.send(data)
                if then_end:
                    client.send_end()
            except (BrokenPipeError, ConnectionResetError):
                pass
            try:
                return client.rest()
            except ConnectionResetError:
                if tries == 1:
                    raise
        return self.said_to(data, then_end, tries - 1)

    def test_malformed_frames(self):
        for data in MALFORMED:
            self.assertEqual((data, self.said_to(data)), (data, REFUSED))

    def test_malformed_frame_behind_commands(self):
        """What came before is answered first, in order, although a write takes longer than a PING."""
        for data in MALFORMED:
            good = encode([b"SET", b"before", b"1"]) + encode([b"PING"]) + encode([b"GET", b"before"])
            self.assertEqual((data, self.said_to(good + data)), (data, b"+OK\r\n+PONG\r\n$1\r\n1\r\n" + REFUSED))

    def test_much_behind_a_malformed_frame(self):
        self.assertEqual(self.said_to(b"*1\r\n$x" + bytes(4 << 20)), REFUSED)

    def test_cut_frames(self):
        """A frame that is cut is not answered and has no effect."""
        data = encode([b"SET", b"cut", b"no"])
        for length in range(len(data)):
            self.assertEqual((length, self.said_to(data[:length], then_end=True)), (length, b""))
        with Connection(self.port) as client:
            self.assertEqual(client.ask(b"GET", b"cut"), b"")

    def test_commands_before_a_cut_are_answered(self):
        data = encode([b"SET", b"whole", b"yes"]) + encode([b"GET", b"whole"])
        for length in (1, 5, 20):
            said = self.said_to(data + data[:length], then_end=True)
            self.assertEqual(said, b"+OK\r\n$3\r\nyes\r\n")

    def test_random_bytes(self):
        """Each client that sends random bytes gets nothing but errors; another one notices nothing."""
        source = random.Random(7)
        with Connection(self.port) as other:
            for number in range(200):
                data = source.randbytes(source.choice([1, 10, 1000, 100000]))
                if source.random() < 0.5:
                    data = source.choice([b"*1\r\n", b"*3\r\n$3\r\nSET\r\n", b"*2\r\n$5\r\n"]) + data
                said = self.said_to(data, then_end=True).split(b"\r\n")
                self.assertEqual([line for line in said if line[:5] != b"-ERR "], [b""], said)
                if number % 10 == 0:
                    value = b"%d" % number
                    self.assertEqual(other.ask(b"SET", b"other", value), b"+OK")
                    self.assertEqual(other.ask(b"GET", b"other"), value)

    def test_changed_frames(self):
        """Good commands of which one byte was changed: nothing but answers, or a refusal, and then the end."""
        source = random.Random(8)
        good = encode([b"PING"]) + encode([b"ECHO", b"twelve bytes"]) + encode([b"PING", b"x"])
        for _ in range(200):
            place, byte = source.randrange(len(good)), source.randbytes(1)
            said = self.said_to(good[:place] + byte + good[place + 1:], then_end=True)
            first = said.split(b"\r\n")[0]
            self.assertTrue(said == b"" or first in (b"+PONG", REFUSED[:-2]) or first[:1] in b"$-", said)


def identity_in(number):
    """The identity of a node's folder."""
    return (FOLDER / f"node-{number}" / "identity").read_text().strip()


def publish_as(node, messages):
    """Sends messages to NATS with the login of a node."""
    user, password = (FOLDER / f"node-{node}.login").read_text().split()
    publish(NATS, messages, json.dumps({"verbose": False, "user": user, "pass": password}).encode())


class BadMessages(unittest.TestCase):
    """Messages that no node program sent, on the subjects of nodes, and with their identities."""

    def test_messages_that_are_no_frames(self):
        """They do no harm; host_nats_test.py counts how many frames a host drops of them. Those in the name of no node
        are not sent here, since NATS takes them from nobody."""
        publish_as(2, [message for message in bad_messages(identity_in(2)) if message[0].startswith(b"cas.2.")])
        with Connection(PORTS[0]) as client:
            for n in range(20):
                self.assertEqual(client.ask(b"SET", b"behind", b"%d" % n), b"+OK")
                self.assertEqual(client.ask(b"GET", b"behind"), b"%d" % n)

    def dropped(self, client):
        """How many frames the node program has dropped since it started, or None where it does not say so."""
        lines = dict(line.split(b":") for line in client.ask(b"INFO").split(b"\r\n") if b":" in line)
        return int(lines[b"frames_dropped"]) if b"frames_dropped" in lines else None

    def test_frames_of_one_message(self):
        """Three frames of one message reach the node program, and so does the whole one before a frame that is cut. It
        drops each, since it is from no node of its cluster."""
        frame = encode([b"stored", b"1.1.1"])
        with Connection(PORTS[1]) as client:
            before = self.dropped(client)
            if before is None:
                self.skipTest("the node program does not say how many frames it dropped")
            from_three = subject(3, 2, identity_in(3))
            publish_as(3, [(from_three, 3 * frame), (from_three, frame + frame[:-1])])
            end = time.monotonic() + PATIENCE
            while self.dropped(client) < before + 4 and time.monotonic() < end:
                time.sleep(0.05)
            self.assertEqual(self.dropped(client), before + 4)


class Sessions(unittest.TestCase):
    def test_bytes_one_by_one(self):
        data = encode([b"SET", b"slowly", b"a\r\nb"]) + encode([b"GET", b"slowly"])
        with Connection(PORTS[0]) as client:
            for place in range(len(data)):
                client.send(data[place:place + 1])
            self.assertEqual(client.answer(), b"+OK")
            self.assertEqual(client.answer(), b"a\r\nb")

    def test_empty_lines_and_empty_frames(self):
        """Redis gives no answer to an empty line, nor to an array without strings."""
        with Connection(PORTS[0]) as client:
            client.send(b"\r\n*0\r\n\r\n\r\n" + encode([b"PING"]) + b"*0\r\n\r\n" + encode([b"PING", b"x"]))
            self.assertEqual(client.answer(), b"+PONG")
            self.assertEqual(client.answer(), b"x")

    def test_answers_keep_the_order(self):
        with Connection(PORTS[1]) as client:
            client.send(b"".join(
                encode([b"SET", b"n%d" % (n % 7), b"%d" % n]) + encode([b"GET", b"n%d" % (n % 7)]) + encode([b"PING"])
                for n in range(300)))
            for n in range(300):
                self.assertEqual([client.answer() for _ in range(3)], [b"+OK", b"%d" % n, b"+PONG"])

    def test_quit(self):
        with Connection(PORTS[0]) as client:
            client.send(encode([b"PING"]) + encode([b"QUIT"]) + encode([b"PING"]))
            self.assertEqual(client.rest(), b"+PONG\r\n+OK\r\n")

    def test_any_node_reads_what_another_one_wrote(self):
        with Connection(PORTS[0]) as one, Connection(PORTS[1]) as two, Connection(PORTS[2]) as three:
            for n in range(20):
                self.assertEqual(one.ask(b"SET", b"shared", b"%d" % n), b"+OK")
                self.assertEqual(two.ask(b"GET", b"shared"), b"%d" % n)
                self.assertEqual(three.ask(b"GET", b"shared"), b"%d" % n)

    def test_longest_value(self):
        value = os.urandom(16 << 20)
        with Connection(PORTS[0]) as one, Connection(PORTS[2]) as other:
            self.assertEqual(one.ask(b"SET", b"long", value), b"+OK")
            self.assertTrue(other.ask(b"GET", b"long") == value)

    def test_many_clients_at_once(self):
        """Sixteen clients, each with a name of its own and one that all write: the last is one of theirs."""
        faults = []

        def go(number):
            with Connection(PORTS[number % 3]) as client:
                for n in range(20):
                    own = b"%d of %d" % (n, number)
                    good = client.ask(b"SET", b"own-%d" % number, own) == b"+OK"
                    good = good and client.ask(b"SET", b"all", own) == b"+OK"
                    if not good or client.ask(b"GET", b"own-%d" % number) != own:
                        faults.append(number)

        threads = [threading.Thread(target=go, args=[number]) for number in range(16)]
        for thread in threads:
            thread.start()
        for thread in threads:
            thread.join()
        self.assertEqual(faults, [])
        with Connection(PORTS[0]) as client:
            self.assertIn(client.ask(b"GET", b"all"), [b"19 of %d" % number for number in range(16)])

    def test_clients_that_leave(self):
        """Clients that leave while their calls are open do no harm."""
        for n in range(100):
            client = Connection(PORTS[n % 3])
            client.send(encode([b"SET", b"left", b"%d" % n]) * 5)
            client.close()
        with Connection(PORTS[0]) as client:
            self.assertEqual(client.ask(b"SET", b"left", b"end"), b"+OK")
            time.sleep(0.5)
            self.assertIn(client.ask(b"GET", b"left"), [b"end", *(b"%d" % n for n in range(100))])


if __name__ == "__main__":
    unittest.main()
