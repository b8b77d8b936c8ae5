#!/usr/bin/env python3
"""Tests the host by itself, with a child that behaves as each test needs it: host_test.py HOST."""
import os
import socket
import subprocess
import time
import unittest

from connection import PATIENCE
from frames import encode
from hosts import HOST, Host, processes_with


class Endings(unittest.TestCase):
    def ends(self, kind, wanted, status=1):
        host = Host(kind)
        self.assertEqual(host.status(), status)
        self.assertRegex(host.said(), wanted)

    def test_child_ends_with_a_status(self):
        self.ends("status", "the node program ended with status 4\n")

    def test_child_has_lost_its_log(self):
        """The unit of systemd does not start a host again that ends so."""
        self.ends("lost", "the node program ended with status 3\n", status=3)

    def test_child_ends_without_a_fault(self):
        self.ends("cut", "the node program ended with status 0\n")

    def test_child_is_killed(self):
        self.ends("signal", "the node program was ended by signal 9\n")

    def test_child_writes_no_frame(self):
        self.ends("garbage", "the node program wrote what is no frame")

    def test_child_writes_to_nobody(self):
        self.ends("nowhere", "the node program wrote what is no frame, or has no address")

    def test_there_is_no_program(self):
        host = Host("echo", "--program", "/nonexistent/casd")
        self.assertEqual(host.status(), 1)
        self.assertIn("cannot start /nonexistent/casd", host.said())

    def test_terminated_host_ends_its_child(self):
        for kind in ("echo", "deaf"):
            host = Host(kind)
            host.connect().close()
            self.assertEqual(host.end(), 0)
            self.assertEqual(processes_with(str(host.folder)), [])

    def test_killed_host_takes_its_child_along(self):
        host = Host("deaf")
        host.connect().close()
        host.process.kill()
        host.process.wait()
        end = time.monotonic() + PATIENCE
        while processes_with(str(host.folder)) and time.monotonic() < end:
            time.sleep(0.02)
        self.assertEqual(processes_with(str(host.folder)), [])

    def test_port_in_use(self):
        with socket.create_server(("127.0.0.1", 0)) as taken:
            host = Host("echo", "--port", str(taken.getsockname()[1]))
            self.assertEqual(host.status(), 1)
            self.assertIn("Address already in use", host.said())

    def test_wrong_options(self):
        good = ["--node", "1", "--cluster", "c", "--folder", "f"]
        wrong = [[], good[2:], good[:4], [*good, "--port", "70000"], [*good, "--tick", "0"], [*good, "--colour", "red"],
                 [*good, "more"], [*good, "--subject", "a.b"], [*good, "--nats-key", "k"], [*good[2:], "--node", "-1"],
                 [*good[2:], "--node", "256"]]
        for words in wrong:
            done = subprocess.run([HOST, *words], stderr=subprocess.PIPE, text=True)
            self.assertEqual((words, done.returncode), (words, 2))
            self.assertIn("usage: casd-host", done.stderr)


class Quorums(unittest.TestCase):
    """A host without NATS hears its own node alone."""
    MISSED = "host of node 1: fewer than a quorum of the nodes is heard, so calls are given up. Not heard:"

    def hosts(self, *files):
        return [Host(f"echo\n{text}") for text in files]

    def test_too_few_are_heard(self):
        """It says so once. With five nodes, n = 3 and k = 1, one node may be missing."""
        hosts = self.hosts("nodes 1 2 3\nn 3\nk 1", "nodes 3 1\t2 5 4  # all\r\nn 3 # of them\r\nk 1\r\nlater 6")
        for host, missed in zip(hosts, (" 2 3", " 2 3 4 5")):
            host.wait_for(f"{self.MISSED}{missed}\n")
        time.sleep(1)
        for host in hosts:
            self.assertEqual(host.end(), 0)
            self.assertEqual(host.said().count("quorum"), 1)

    def test_enough_are_heard(self):
        """A node that is alone is a quorum. Of a file that is no cluster file, the host says nothing."""
        hosts = self.hosts("nodes 1\nn 1\nk 1", "nodes 1 2\nn 2\nk 0", "nodes 1 2\nn 3\nk 1", "", "nodes 1 2 # n 2")
        time.sleep(5)
        for host in hosts:
            self.assertEqual(host.end(), 0)
            self.assertNotIn("quorum", host.said())


class Frames(unittest.TestCase):
    def lines_of(self, host, count):
        """What the child has got so far, except ticks, once that are `count` lines."""
        end, lines = time.monotonic() + PATIENCE, []
        while len(lines) < count and time.monotonic() < end:
            lines = [line for line in host.frames().splitlines() if not line.startswith("tick")]
            time.sleep(0.02)
        return lines

    def test_child_hears_of_frames_and_of_ends(self):
        host = Host("keep")
        with host.connect() as one, host.connect() as other, host.connect():
            self.assertEqual(one.ask(b"PING", b"one"), b"one")
            self.assertEqual(other.ask(b"PING", b"other"), b"other")
        lines = self.lines_of(host, 4)
        first, second = lines[0].split(" PING ")[0], lines[1].split(" PING ")[0]
        self.assertRegex(first, r"^client [1-9][0-9]*$")
        self.assertNotEqual(first, second)
        self.assertEqual(lines[:2], [first + " PING one", second + " PING other"])
        self.assertEqual(sorted(lines[2:]), sorted([first, second]))
        self.assertEqual(host.end(), 0)

    def test_child_closes_a_connection(self):
        """What the child answers behind the close is not written."""
        host = Host("quits")
        with host.connect() as one, host.connect() as other:
            one.send(encode([b"PING", b"one"]))
            self.assertEqual(one.rest(), b"$3\r\none\r\n")
            other.send(encode([b"PING", b"other"]))
            self.assertEqual(other.rest(), b"$5\r\nother\r\n")
        self.assertEqual(host.end(), 0)

    def test_answer_to_a_client_that_has_gone(self):
        """The next client has the place of the one before, and gets no answer to what that one asked."""
        host = Host("late")
        with host.connect() as gone:
            gone.send(encode([b"PING", b"gone"]))
            time.sleep(0.5)
            gone.reset()
        with host.connect() as next_one:
            next_one.send(encode([b"PING", b"next"]))
            time.sleep(0.5)
            host.lets_go()
            self.assertEqual(next_one.answer(), b"next")
        self.assertEqual(host.end(), 0)

    def test_ticks(self):
        """Ticks come, and not more of them than there was time for. Each names this node, which is the only one."""
        began = time.monotonic()
        host = Host("keep", "--tick", "50")
        while host.frames().count("tick 1\n") < 20 and time.monotonic() < began + PATIENCE:
            time.sleep(0.02)
        self.assertEqual(host.end(), 0)
        ticks, most = host.frames().splitlines().count("tick 1"), (time.monotonic() - began) / 0.05
        self.assertTrue(20 <= ticks <= most, (ticks, most))

    def test_no_ticks_pile_up(self):
        """A child that does not read for a second finds one tick, and not fifty."""
        host = Host("late", "--tick", "20")
        with host.connect() as client:
            time.sleep(1)
            client.send(encode([b"PING", b"x"]))
            time.sleep(0.1)
            host.lets_go()
            self.assertEqual(client.answer(), b"x")
        ticks = host.frames().split("client")[0].splitlines().count("tick 1")
        self.assertTrue(1 <= ticks <= 2, ticks)
        self.assertEqual(host.end(), 0)

    def test_most_strings(self):
        host = Host("echo")
        with host.connect() as client:
            self.assertEqual(client.ask(*[b"x"] * 1022, b"last"), b"last")
            client.send(encode([b"x"] * 1024))
            self.assertEqual(client.rest(), b"-ERR protocol\r\n")
        self.assertEqual(host.end(), 0)

    def test_longest_string(self):
        host, longest = Host("echo"), (16 << 20) + (64 << 10)
        value = os.urandom(1 << 16) * (longest >> 16)
        with host.connect() as client:
            client.send(encode([b"PING", value[:16 << 20]]))
            self.assertEqual(client.answer(), value[:16 << 20])
            client.send(b"*2\r\n$4\r\nPING\r\n$%d\r\n" % (longest + 1))
            self.assertEqual(client.rest(), b"-ERR protocol\r\n")
        self.assertEqual(host.end(), 0)

    def test_command_behind_a_long_answer(self):
        """A client that takes a long answer while the host writes it is read on as soon as it has taken the answer."""
        host, value = Host("echo"), os.urandom(1 << 16) * (16 << 4)
        with host.connect() as client:
            for _ in range(10):
                self.assertEqual(client.ask(b"PING", value), value)
                self.assertEqual(client.ask(b"PING", b"next"), b"next")
        self.assertEqual(host.end(), 0)

    def test_frame_too_long(self):
        """Each string is within its limit, but the frame is longer than 32 MiB."""
        host = Host("echo")
        with host.connect() as client:
            data = encode([b"PING", bytes(12 << 20), bytes(12 << 20), bytes(12 << 20)])
            try:
                client.send(data)
                said = client.rest()
            except ConnectionResetError:
                said = b"-ERR protocol\r\n"
            self.assertEqual(said, b"-ERR protocol\r\n")
        with host.connect() as client:
            self.assertEqual(client.ask(b"PING", b"still here"), b"still here")
        self.assertEqual(host.end(), 0)


class Load(unittest.TestCase):
    def test_many_commands_and_then_the_end(self):
        """All commands that came before the end of a client's input are answered."""
        host = Host("late")
        with host.connect() as client:
            client.send(b"".join(encode([b"PING", b"%d" % n]) for n in range(5000)))
            client.send_end()
            host.lets_go()
            self.assertEqual([client.answer() for _ in range(5000)], [b"%d" % n for n in range(5000)])
            self.assertEqual(client.rest(), b"")
        self.assertEqual(host.end(), 0)

    def test_slow_client_does_not_stop_others(self):
        host = Host("big")
        with host.connect() as slow, host.connect() as other:
            slow.send(encode([b"GET", b"x"]) * 200)
            for _ in range(5):
                self.assertEqual(other.ask(b"GET", b"x"), bytes(1 << 20))
            host.wait_for("client [0-9]+ does not take its answers, and is disconnected\n")
            self.assertEqual(other.ask(b"GET", b"x"), bytes(1 << 20))
        self.assertEqual(host.end(), 0)

    def test_client_of_a_child_that_reads_nothing(self):
        """The host takes a few MiB, and then no more; it still ends when it is told to."""
        host = Host("deaf")
        with host.connect() as client:
            client.socket.settimeout(2)
            sent, part = 0, encode([b"SET", b"x", bytes(1 << 16)])
            with self.assertRaises(TimeoutError):
                while sent < 256 << 20:
                    sent += client.socket.send(part)
            self.assertLess(sent, 64 << 20)
            self.assertEqual(host.end(), 0)

    def answer_of(self, host):
        """What the host answers a new client, once it has heard that another one has gone."""
        end, answer = time.monotonic() + PATIENCE, None
        while answer in (None, b"-ERR max number of clients reached") and time.monotonic() < end:
            with host.connect() as client:
                try:
                    answer = client.ask(b"PING", b"y")
                except OSError:
                    answer = None
        return answer

    def test_more_clients_than_the_host_takes(self):
        host, clients = Host("echo"), []
        try:
            for _ in range(1000):
                clients.append(host.connect())
                if len(clients) % 100 == 0:
                    self.assertEqual(clients[-1].ask(b"PING", b"x"), b"x")
            with host.connect() as client:
                self.assertEqual(client.rest(), b"-ERR max number of clients reached\r\n")
            clients.pop().close()
            self.assertEqual(self.answer_of(host), b"y")
        finally:
            for client in clients:
                client.close()
        self.assertEqual(host.end(), 0)


if __name__ == "__main__":
    unittest.main()
