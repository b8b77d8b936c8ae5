#!/usr/bin/env python3
"""Tests a node that runs in its host: embedded_test.py HOST [CASD]. Its disk is full or fails, its log is damaged or is
another node's, it is killed, and its log is written anew; and with a node program CASD, folders go from it to a host
and back. stop_calls.c of faults/nodes is preloaded to the host, which has no sanitizer then."""
import contextlib
import os
import random
import resource
import signal
import subprocess
import sys
import tempfile
import threading
import time
import unittest
from pathlib import Path

from connection import PATIENCE
from hosts import HOST, NO_NATS, STARTED, Host

FAULTS = Path(__file__).resolve().parents[2] / "faults" / "nodes"
sys.path.append(str(FAULTS))
from log_form import bodies_of, log_of  # noqa: E402

CASD = os.path.realpath(sys.argv.pop(1)) if len(sys.argv) > 1 and "/" in sys.argv[1] else None
CLUSTER = "nodes 1\nn 1\nk 1\ndelta 0\nmover 1\nlater\nticks 50\n"
MIB = 1 << 20
OK = b"+OK"


class Alone(Host):
    """A host with the node 1, or another one, of a cluster of one node."""

    def __init__(self, folder, *options, number=1, cluster=CLUSTER, line=(), **around):
        self.folder, self.log = folder, folder / "log"
        self.said_to = folder.parent / "said"
        (folder.parent / "cluster").write_text(cluster)
        words = [*line, HOST, "--node", str(number), "--cluster", folder.parent / "cluster", "--folder", folder,
                 "--port", "0", "--nats", NO_NATS, *options]
        with open(self.said_to, "w") as said:
            self.process = subprocess.Popen(words, stderr=said, **around)
        STARTED.append(self.process)

    def said(self):
        return self.said_to.read_text()

    def ask(self, *words):
        with self.connect() as client:
            return client.ask(*words)


def small_files(size):
    """Has the system refuse to let a file grow beyond this size, as a full disk would."""
    def limit():
        signal.signal(signal.SIGXFSZ, signal.SIG_IGN)
        resource.setrlimit(resource.RLIMIT_FSIZE, (size, size))
    return {"preexec_fn": limit}


class Nodes(unittest.TestCase):
    def setUp(self):
        self.home = Path(self.enterContext(tempfile.TemporaryDirectory()))
        self.folder = self.home / "1"
        self.folder.mkdir()
        self.log = self.folder / "log"

    def start(self, *options, **more):
        host = Alone(self.folder, *options, **more)
        self.addCleanup(host.process.kill)
        return host

    def write(self, *values):
        """A host writes these values to the name `a`, and ends."""
        host = self.start()
        for value in values:
            self.assertEqual(host.ask(b"SET", b"a", value), OK)
        self.assertEqual(host.end(), 0)

    def reads(self, value, **more):
        """A host reads this value of the name `a`, and ends."""
        host = self.start(**more)
        self.assertEqual(host.ask(b"GET", b"a"), value)
        self.assertEqual(host.end(), 0)
        return host.said()

    def ends(self, status, said, host):
        """The host ends with this status, and says why: at a start in its last line, and later in the line before."""
        why, end = f"host of node 1: {said}\n", f"host of node 1: the node ended with status {status}\n"
        self.assertEqual(host.status(), status, host.said())
        self.assertTrue(host.said().endswith((why, why + end)), host.said())


class Lives(Nodes):
    def test_one_process(self):
        """The host has no child, and other processes are kept out of the folder while it runs."""
        host = self.start()
        self.assertEqual(host.ask(b"SET", b"a", b"1"), OK)
        process = host.process.pid
        self.assertEqual(Path(f"/proc/{process}/task/{process}/children").read_text(), "")
        log = self.log.read_bytes()
        said = host.said()
        other = Alone(self.folder)
        self.ends(1, "another process runs in FOLDER", other)
        other.said_to.write_text(said)
        self.assertEqual((self.log.read_bytes(), host.ask(b"GET", b"a")), (log, b"1"))
        self.assertEqual(host.end(), 0)

    def test_kills(self):
        """What was answered is there after a kill, and what was being written is, or is not."""
        source, answered, begun = random.Random(1), [0], [0]
        for _ in range(6):
            host = self.start()
            with host.connect() as client:
                found = client.ask(b"GET", b"a")
                self.assertIn(int(found or b"0"), range(answered[0], begun[0] + 1))
                killer = threading.Timer(source.uniform(0.1, 0.5), host.process.kill)
                killer.start()
                try:
                    while True:
                        begun[0] += 1
                        if client.ask(b"SET", b"a", b"%d" % begun[0]) != OK:
                            break
                        answered[0] = begun[0]
                except OSError:
                    pass
                killer.join()
            host.process.wait()
        self.assertGreater(answered[0], 20)

    def test_long_values(self):
        """Values of all lengths, also to a client that takes its answers late."""
        host = self.start()
        for length in (1, 16383, 16384, 65536, 131072, MIB, 16 * MIB):
            value = os.urandom(length - 1) + b"x"
            self.assertEqual(host.ask(b"SET", b"a", value), OK)
            with host.connect() as late, host.connect() as other:
                late.send(b"*2\r\n$3\r\nGET\r\n$1\r\na\r\n" * 2)
                time.sleep(0.2)
                self.assertEqual(other.ask(b"GET", b"a"), value)
                self.assertEqual([late.answer(), late.answer()], [value, value])
        self.assertEqual(host.end(), 0)

    def test_log_that_is_written_anew(self):
        """While the node runs, and at a start. All values are there, and nothing is left of the second log."""
        host = self.start()
        for number in range(40):
            self.assertEqual(host.ask(b"SET", b"a", bytes([number + 1]) * MIB), OK)
        self.assertEqual(host.ask(b"SET", b"b", b"small"), OK)
        self.assertLess(self.log.stat().st_size, 36 * MIB)
        self.assertEqual(host.end(), 0)
        self.assertNotIn("anew", host.said())
        self.reads(bytes([40]) * MIB)
        self.assertFalse((self.folder / "log.new").exists())
        self.assertEqual(self.log.stat().st_mode & 0o777, 0o600)

    def test_closed_streams(self):
        """With closed streams, none of the host's files takes their numbers: what it says would go into the log."""
        self.write(b"1")
        for closed in ("<&-", "2>&-", "<&- >&- 2>&-"):
            host = self.start(line=["sh", "-c", f'exec "$0" "$@" {closed}'])
            time.sleep(1)
            host.process.terminate()
            self.assertEqual(host.process.wait(PATIENCE), 0)
            self.assertNotIn("cut off", self.reads(b"1"))

    @unittest.skipUnless(CASD, "there is no node program")
    def test_folders_of_a_program(self):
        """A folder goes from hosts with the node program to hosts that have the node, and back."""
        for number in range(6):
            host = self.start(*(["--program", CASD] if number % 2 == 0 else []))
            with host.connect() as client:
                self.assertEqual(client.ask(b"GET", b"a"), b"%d" % (number - 1) if number else b"")
                self.assertEqual(client.ask(b"SET", b"a", b"%d" % number), OK)
                self.assertEqual(client.ask(b"SET", b"long", os.urandom(MIB)), OK)
            host.process.send_signal(signal.SIGTERM if number < 3 else signal.SIGKILL)
            self.assertEqual(host.status(), 0 if number < 3 else -signal.SIGKILL)
            self.wait_for_lock()

    def wait_for_lock(self):
        """Until a node program that ends with its host has ended."""
        self.assertEqual(subprocess.run(["flock", self.folder, "true"], check=False).returncode, 0)


class Refusals(Nodes):
    """What casd refuses, and how: the log stays as it is."""

    def test_cluster_file(self):
        self.ends(2, "the cluster file has a fault in line 2", self.start(cluster=CLUSTER.replace("n 1", "n 2")))
        host = Alone(self.folder, number=2)
        self.assertEqual(host.status(), 2)
        self.assertIn("host of node 2: the cluster file has no node 2\n", host.said())
        host = Alone(self.folder, "--cluster", "/nowhere")
        self.ends(2, "cannot read the cluster file: No such file or directory (os error 2)", host)

    def test_folders(self):
        host = self.start("--folder", "/nowhere")
        self.ends(1, "FOLDER is not there", host)
        self.log.mkdir()
        self.ends(1, "cannot open the log: Is a directory (os error 21)", self.start())

    def is_refused(self, said, log, **more):
        self.log.write_bytes(log)
        (self.folder / "log.new").write_bytes(b"left")
        self.ends(1, said, self.start(**more))
        self.assertEqual((self.log.read_bytes(), (self.folder / "log.new").read_bytes()), (log, b"left"))

    def test_logs(self):
        self.write(b"1", b"2")
        log, other = self.log.read_bytes(), "that of another node, or of another cluster: a setting that is fixed at " \
            "the first start differs in the cluster file"
        self.is_refused(f"the log, from byte 0: it is damaged, or {other}", log,
                        cluster=CLUSTER.replace("delta 0", "delta 1"))
        self.is_refused(f"the log, from byte 0: it is damaged, or {other}", b"no log" * 9)
        self.is_refused("the log has an older form; deploy/convert-log FOLDER writes it in today's form",
                        log_of(bodies_of(log), form=2))
        last = len(log_of(bodies_of(log)[:-1]))
        self.is_refused(f"the log, from byte {last}: it is damaged", log[:-1] + bytes([log[-1] ^ 1]))
        self.log.write_bytes(log + b"\x00" * 9)
        self.assertIn("the log's last entry was cut short; 9 bytes were cut off\n", self.reads(b"2"))


class Disks(Nodes):
    def test_full_disk(self):
        """A write for which the log has no room is not answered, and what was answered before is there later."""
        self.write(b"before")
        length = self.log.stat().st_size
        for room in (600, 700, 1000):
            host = self.start(**small_files(self.log.stat().st_size + room))
            with host.connect() as client, contextlib.suppress(OSError):
                self.assertIsNone(client.ask(b"SET", b"a", b"x" * 2000))
            self.ends(3, "cannot write the log: File too large (os error 27)", host)
            self.assertGreater(self.log.stat().st_size, length)
            self.reads(b"before")

    def disturbed(self, nth=0, how=""):
        """A host that writes a value twice, of whose calls on its folder this one is disturbed. What it was answered,
        and the calls."""
        calls = self.home / "calls"
        calls.unlink(missing_ok=True)
        host = self.start(env={**os.environ, "LD_PRELOAD": str(self.library()), "STOP_FOLDER": str(self.folder),
                               "STOP_LIST": str(calls), "STOP_NTH": str(nth), "STOP_HOW": how})
        answered = []
        try:
            with host.connect() as client:
                answered = [client.ask(b"SET", b"a", value) for value in (b"1", b"2")]
        except (OSError, AssertionError):
            pass
        return host, [answer for answer in answered if answer], calls.read_text().splitlines()

    def library(self):
        library = self.home / "stop_calls.so"
        if not library.exists():
            subprocess.run(["cc", "-shared", "-fPIC", "-O1", "-o", library, FAULTS / "stop_calls.c"], check=True)
        return library

    def test_calls_that_fail(self):
        """Each write and sync of the log fails. The node ends, and syncs nothing more; the client gets no answer."""
        self.write(b"0")
        host, answered, calls = self.disturbed()
        self.assertEqual((answered, host.end()), ([OK, OK], 0))
        self.assertGreater(calls.count("fdatasync log"), 3)
        for nth, call in enumerate(calls, 1):
            if call not in ("write log", "fdatasync log", "fsync ."):
                continue
            for how, text in (("fail", "Input/output error (os error 5)"),
                              ("full", "No space left on device (os error 28)")):
                host, answered, found = self.disturbed(nth, how)
                self.ends(3, f"cannot write the log: {text}", host)
                self.assertEqual(len(found), nth, (call, found))
                self.assertIn(answered, ([], [OK]))
                with self.start().connect() as client:
                    self.assertIn(client.ask(b"GET", b"a"), (b"0", b"1", b"2")[len(answered):])
                    self.assertEqual(client.ask(b"SET", b"a", b"0"), OK)
                STARTED[-1].terminate()
                STARTED[-1].wait()

    def test_short_writes(self):
        """A write may write less than it is given."""
        self.write(b"0")
        _, _, calls = self.disturbed()
        STARTED[-1].terminate()
        STARTED[-1].wait()
        for nth, call in enumerate(calls, 1):
            if call == "write log":
                host, answered, _ = self.disturbed(nth, "short")
                self.assertEqual((answered, host.end()), ([OK, OK], 0))
                self.assertNotIn("cut off", self.reads(b"2"))


if __name__ == "__main__":
    unittest.main()
