#!/usr/bin/env python3
"""Tests deploy/run: who can use the cluster that it starts and read what it writes, which node moves objects, and what
it says where a program does not start; and deploy/cluster-file: start_test.py HOST. The variable CASD names another
node program than the stand-in."""
import contextlib
import os
import re
import shutil
import socket
import stat
import subprocess
import tempfile
import time
import unittest
from pathlib import Path

from connection import PATIENCE, Connection
from hosts import HOST, processes_with
from nats_client import Nats
from ports import is_free

DEPLOY = Path(__file__).resolve().parent.parent
CASD = os.environ.get("CASD", str(DEPLOY / "test" / "standin.py"))
NODES = (1, 2, 3)


def start(folder, *options, **variables):
    """Runs deploy/run for three nodes under a mask that takes nothing from anybody. Its status, and what it said."""
    environment = {**os.environ, "CASD": CASD, "CASD_HOST": os.path.abspath(HOST), "FIRST_PORT": "0", **variables}
    with subprocess.Popen([DEPLOY / "run", *options, "3", folder], env=environment, umask=0, stdout=subprocess.PIPE,
                          stderr=subprocess.STDOUT, text=True) as run:
        said, _ = run.communicate(timeout=PATIENCE)
        return run.returncode, said


def stop(folder):
    subprocess.run([DEPLOY / "stop", folder], check=True)


@unittest.skipUnless(shutil.which("nats-server"), "nats-server is missing")
class Strangers(unittest.TestCase):
    """Three nodes that deploy/run has started, and other users of the machine."""

    @classmethod
    def setUpClass(cls):
        cls.folder = Path(tempfile.mkdtemp()) / "above" / "cluster"
        status, said = start(cls.folder)
        if status != 0:
            raise AssertionError(said)
        cls.addClassCleanup(stop, cls.folder)
        cls.take_ports(said)

    @classmethod
    def take_ports(cls, said):
        cls.ports = [int(port) for port in re.findall(r"node \d: 127.0.0.1 port (\d+)\n", said)]
        cls.nats = int(re.search(r"NATS: nats://127.0.0.1:(\d+)\n", said)[1])

    def login(self, node):
        """The words by which a node logs in."""
        user, password = (self.folder / f"node-{node}.login").read_text().split()
        return {"user": user, "pass": password}

    def passwords(self):
        return [self.login(node)["pass"] for node in NODES]

    def test_modes(self):
        """Nobody but the user who started the cluster can use what is in the folder, and the folder itself."""
        paths = [self.folder, *self.folder.rglob("*")]
        found = {str(path.relative_to(self.folder)): stat.filemode(path.stat().st_mode) for path in paths}
        wanted = {name: "drwx------" if (self.folder / name).is_dir() else "-rw-------" for name in found}
        self.assertEqual(found, wanted)
        for name in (".", "cluster", "nats.conf", "nats.log", "node-1", "node-1.log", "node-1/log", "node-1.login"):
            self.assertIn(name, found)

    def test_secrets(self):
        """Each node has a password of 256 bits, which no command line, no environment and no log shows."""
        passwords = self.passwords()
        self.assertEqual(len(set(passwords)), len(NODES))
        self.assertEqual([password for password in passwords if not re.fullmatch("[0-9a-f]{64}", password)], [])
        shown = [*Path("/proc").glob("[0-9]*/cmdline"), *Path("/proc").glob("[0-9]*/environ"),
                 *self.folder.glob("*.log")]
        looked_at = b""
        for file in shown:
            with contextlib.suppress(OSError):
                looked_at += file.read_bytes()
        self.assertIn(str(self.folder / "nats.conf").encode(), looked_at)
        self.assertIn(str(self.folder / "node-1.login").encode(), looked_at)
        self.assertEqual([password for password in passwords if password.encode() in looked_at], [])

    def test_no_login(self):
        """Without a login, or with that of somebody else, NATS takes nobody."""
        first, second = self.login(1), self.login(2)
        for login in ({}, {"user": "node1"}, {"user": "node1", "pass": ""}, {"user": "node1", "pass": second["pass"]},
                      {"user": "node4", "pass": first["pass"]}, {"auth_token": first["pass"]},
                      {"user": "", "pass": ""}):
            with Nats(self.nats, **login) as client:
                self.assertIn("-ERR 'Authorization Violation'", client.said() or client.said(), login)

    def test_own_name(self):
        """A node may send in its own name, and hears what is sent to it and to all."""
        with Nats(self.nats, **self.login(1)) as one, Nats(self.nats, **self.login(2)) as two:
            one.send(b"SUB cas.*.1.> 1\r\nSUB cas.*.all.> 2")
            self.assertEqual(one.said(), [])
            two.send(b"PUB cas.2.1.x 5\r\nhello\r\nPUB cas.2.all.x 3\r\nyou")
            self.assertEqual(two.said(), [])
            lines = []
            while "you" not in lines:
                lines += one.said()
            self.assertIn("MSG cas.2.1.x 1 5 hello", " ".join(lines))
            self.assertIn("MSG cas.2.all.x 2 3 you", " ".join(lines))

    def test_another_name(self):
        """With node 1's login nobody can send in the name of another node, or hear what is sent to another one."""
        with Nats(self.nats, **self.login(1)) as one:
            for subject in ("cas.2.1.x", "cas.2.1", "cas.2.3.x", "cas.3.all.x", "cas.11.1.x", "cas", "other", "$SYS.x"):
                one.send(b"PUB %b 5\r\nwrong" % subject.encode())
                self.assertEqual(one.said(), [f"-ERR 'Permissions Violation for Publish to \"{subject}\"'"])
            for subject in (">", "cas.>", "cas.*.>", "cas.*.*", "cas.*.*.>", "cas.*.2", "cas.*.2.>", "cas.1.2.x",
                            "cas.2.3.*", "*.*.*.*", "$SYS.>", "_INBOX.>"):
                one.send(b"SUB %b 1" % subject.encode())
                self.assertEqual(one.said(), [f"-ERR 'Permissions Violation for Subscription to \"{subject}\"'"])

    def ask(self, port, *words):
        with Connection(port) as client:
            return client.ask(*words)

    @unittest.skipUnless(os.getuid() == 0, "only root can give a folder to another user")
    def test_folder_of_another_user(self):
        folder = Path(tempfile.mkdtemp()) / "cluster"
        folder.mkdir(0o700)
        os.chown(folder, 65534, 65534)
        self.assertEqual(start(folder), (1, f"deploy/run: the folder {folder} belongs to another user\n"))
        self.assertEqual(list(folder.iterdir()), [])

    def test_open_folder(self):
        """A folder that other users can use is refused, and stays as it is. Once it is theirs no longer, the cluster
        starts with its data and with new passwords."""
        before = self.passwords()
        self.assertEqual(self.ask(self.ports[0], b"SET", b"kept", b"value"), b"+OK")
        stop(self.folder)
        for mode in (0o701, 0o710, 0o755, 0o777):
            self.folder.chmod(mode)
            wanted = (f"deploy/run: other users can use the folder {self.folder}; take it from them by: "
                      f"chmod -R go= {self.folder}\n")
            self.assertEqual(start(self.folder), (1, wanted))
            self.assertEqual(stat.S_IMODE(self.folder.stat().st_mode), mode)
        self.folder.chmod(0o700)
        status, said = start(self.folder)
        self.assertEqual(status, 0, said)
        self.take_ports(said)
        self.assertEqual(self.ask(self.ports[2], b"GET", b"kept"), b"value")
        self.assertEqual(set(before) & set(self.passwords()), set())
        self.test_modes()


@unittest.skipUnless(shutil.which("nats-server"), "nats-server is missing")
class OwnMovers(unittest.TestCase):
    """Three nodes that keep objects, and a fourth one that moves them."""

    def nodes_of(self, folder, *options):
        """Starts the cluster and ends it. The ports of its nodes, each of which has answered a write."""
        status, said = start(folder, *options)
        self.assertEqual(status, 0, said)
        try:
            ports = {int(node): int(port) for node, port in re.findall(r"node (\d+): 127.0.0.1 port (\d+)\n", said)}
            for node, port in ports.items():
                with Connection(port) as client:
                    self.assertEqual(client.ask(b"SET", b"node", b"%d" % node), b"+OK")
        finally:
            stop(folder)
        return sorted(ports)

    def test_starts(self):
        """Later starts need no option, and keep the cluster file."""
        folder = Path(tempfile.mkdtemp()) / "cluster"
        self.assertEqual(self.nodes_of(folder, "--own-mover"), [1, 2, 3, 4])
        before = (folder / "cluster").read_text()
        self.assertEqual(settings_in(before), {"nodes": "1 2 3", "n": "3", "k": "1", "delta": "2", "mover": "4",
                                               "later": "4", "ticks": "50"})
        self.assertEqual(self.nodes_of(folder), [1, 2, 3, 4])
        self.assertEqual(self.nodes_of(folder, "--own-mover"), [1, 2, 3, 4])
        self.assertEqual((folder / "cluster").read_text(), before)

    def test_another_mover(self):
        """A cluster that has another mover keeps it."""
        folder = Path(tempfile.mkdtemp()) / "cluster"
        self.assertEqual(self.nodes_of(folder), [1, 2, 3])
        wanted = f"deploy/run: the mover of {folder}/cluster is node 1, and a cluster keeps its mover\n"
        self.assertEqual(start(folder, "--own-mover"), (1, wanted))


def settings_in(text):
    """The settings of a cluster file."""
    lines = [line.partition("#")[0].split() for line in text.splitlines()]
    return {words[0]: " ".join(words[1:]) for words in lines if words}


class ClusterFiles(unittest.TestCase):
    def run_it(self, *words):
        return subprocess.run([DEPLOY / "cluster-file", *words], capture_output=True, text=True, check=False)

    def test_settings(self):
        five = {"nodes": "1 2 3 4 5", "n": "5", "k": "3", "delta": "2", "mover": "1", "later": "", "ticks": "50"}
        self.assertEqual(settings_in(self.run_it("5").stdout), five)
        self.assertEqual(settings_in(self.run_it("5", "600").stdout), {**five, "ticks": "600"})
        own = {**five, "mover": "6", "later": "6"}
        self.assertEqual(settings_in(self.run_it("--own-mover", "5").stdout), own)
        self.assertEqual(settings_in(self.run_it("--own-mover", "5", "7").stdout), {**own, "ticks": "7"})

    def test_wrong_words(self):
        for words in ([], ["--own-mover"], ["5", "50", "6"]):
            ran = self.run_it(*words)
            usage = "usage: deploy/cluster-file [--own-mover] N [TICKS]\n"
            self.assertEqual((ran.returncode, ran.stdout, ran.stderr), (2, "", usage))


@unittest.skipUnless(shutil.which("nats-server"), "nats-server is missing")
class Failures(unittest.TestCase):
    """What deploy/run says where a program does not start. A message that names the program comes at once; it would be
    another one after a minute of waiting."""

    def setUp(self):
        self.folder = Path(tempfile.mkdtemp()) / "cluster"

    def fails(self, wanted, **variables):
        """deploy/run ends with this message, and leaves no process behind."""
        began = time.monotonic()
        status, said = start(self.folder, **variables)
        self.assertEqual(status, 1, said)
        self.assertRegex(said, wanted)
        self.assertLess(time.monotonic() - began, 55)
        self.assertFalse((self.folder / "processes").exists())
        for word in (self.folder / "nats.conf", self.folder / "cluster"):
            self.assertEqual(processes_with(str(word)), [])

    def ended(self, who, log, *lines):
        """A message that begins with the program that has ended, and that has these of its last lines."""
        first = rf"^deploy/run: {who} has ended with status 1; its last lines, in {self.folder}/{log}, are:\n"
        return first + "(.*\n)*" + "(.*\n)*".join(line + "\n" for line in lines)

    def program(self, text):
        path = self.folder.with_name("program")
        path.write_text(f"#!/bin/sh\n{text}\n")
        path.chmod(0o755)
        return str(path)

    def taken_port(self):
        """A socket that listens on a port; the port before it is free."""
        taken = socket.create_server(("127.0.0.1", 0))
        if is_free(taken.getsockname()[1] - 1):
            return taken
        taken.close()
        return self.taken_port()

    def test_port_of_a_node_is_taken(self):
        with self.taken_port() as taken:
            port = taken.getsockname()[1]
            self.fails(self.ended("the host of node 2", "node-2.log",
                                  f"host of node 2: cannot listen on 127.0.0.1 port {port}: Address already in use"),
                       FIRST_PORT=str(port - 1))

    def test_port_of_nats_is_taken(self):
        with self.taken_port() as taken:
            port = taken.getsockname()[1]
            self.fails(self.ended("the NATS server", "nats.log", f".*127.0.0.1:{port}: bind: address already in use.*"),
                       NATS_PORT=str(port))

    def test_node_program_that_ends_at_once(self):
        self.fails(self.ended("the host of node [123]", r"node-[123]\.log", "it cannot start today",
                              "host of node [123]: the node program ended with status 7"),
                   CASD=self.program("echo it cannot start today >&2\nexit 7"))

    def test_node_program_that_ends_soon(self):
        """The hosts listen already, and deploy/run waits for the answer to its write."""
        self.fails(self.ended("the host of node [123]", r"node-[123]\.log",
                              "host of node [123]: the node program ended with status 8"),
                   CASD=self.program("sleep 2\nexit 8"))

    def test_no_cluster(self):
        """A cluster file that is none: the node program says so."""
        wrong = self.folder.with_name("wrong")
        wrong.write_text("nonsense\n")
        if CASD.endswith("standin.py"):
            self.skipTest("the stand-in reads no cluster file so closely")
        status = 1 if CASD else 2  # where the node runs in its host
        self.fails(rf"the host of node [123] has ended with status {status}(.*\n)*.*line 1", CLUSTER=str(wrong))


if __name__ == "__main__":
    unittest.main()
