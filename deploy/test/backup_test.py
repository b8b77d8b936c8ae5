#!/usr/bin/env python3
"""Tests deploy/backup and deploy/restore with a test double of a cluster."""
import os
import random
import re
import signal
import stat
import subprocess
import time
import unittest

from backup_case import BackupCase
from connection import PATIENCE
from frames import Frames
from moving_case import DEPLOY


class Backup(BackupCase):
    def setUp(self):
        self.cluster = self.kept(100)
        self.path = self.folder() / "backup"

    def left(self):
        """The files that are there."""
        return sorted(path.name for path in self.path.parent.iterdir())

    def test_all(self):
        """All names, with any bytes in names and values; but for the empty value, which is none."""
        strange = [b"", b"*2\r\n$1\r\n", b"-ERR no", b"$-1\r\n", b"+OK", b"\r\n", b"\0\xff", random.randbytes(255)]
        for place, name in enumerate(strange):
            self.cluster.put(name, strange[place - 1] or b"first")
        self.cluster.put(b"long", random.randbytes(1 << 20))
        self.cluster.put(b"deleted", b"")
        said = self.backup(self.path, *self.cluster.addresses())
        self.assertRegex(said, rf"^deploy/backup: 109 names with 1\.0 MB in {self.path}, in [\d.]+ s; 1 of the names "
                               r"found has no value\n$")
        self.has(self.path, self.cluster)
        self.assertEqual(self.left(), ["backup"])
        self.assertEqual(stat.S_IMODE(self.path.stat().st_mode), 0o600)
        self.assertTrue(all(self.cluster.asked.values()))

    def test_form(self):
        """The file is commands of Redis's protocol."""
        self.backup(self.path, *self.cluster.addresses())
        *frames, last = Frames().take(self.path.read_bytes())
        self.assertEqual(sorted(frames), sorted([b"SET", name, value] for name, value in self.cluster.values.items()))
        self.assertRegex(last[1], rb"^end of a backup: names 100, sha256 [0-9a-f]{64}$")

    def test_empty_cluster(self):
        empty = self.kept()
        self.assertIn("deploy/backup: 0 names with 0.0 MB", self.backup(self.path, *empty.addresses()))
        self.has(self.path, empty)

    def test_node_is_down(self):
        """The others tell their names. Since there may be more, the status is 1."""
        addresses, gone = self.cluster.addresses(), self.cluster.names_on(3)
        self.cluster.stop(3)
        said = self.backup(self.path, *addresses, status=1)
        self.assertIn(f"the node at {addresses[2]} does not answer: Connection refused\n", said)
        self.assertIn("names may be missing, because not all nodes were asked: not node 3\n", said)
        self.has(self.path, self.cluster, but=gone)

    def test_call_is_made_again(self):
        """Where one node finds no quorum, others are asked."""
        self.cluster.fails = lambda node, name: node == 2
        self.backup(self.path, *self.cluster.addresses())
        self.has(self.path, self.cluster)

    def test_node_that_ends(self):
        """From its fifth call on, a node ends connections in place of an answer. The others are asked."""
        def fails(node, name):
            if node == 2 and len(self.cluster.asked[2]) >= 5:
                raise OSError
            return False

        self.cluster.fails = fails
        self.backup(self.path, *self.cluster.addresses())
        self.has(self.path, self.cluster)

    def test_name_that_cannot_be_read(self):
        """The file has the others."""
        self.cluster.fails = lambda node, name: name == b"name-007"
        said = self.backup(self.path, *self.cluster.addresses(), status=1)
        self.assertIn("deploy/backup: name-007 was not read: ERR no quorum answered in time\n", said)
        self.assertEqual([names.count(b"name-007") for names in self.cluster.asked.values()], [1, 1, 1])
        self.cluster.fails = lambda node, name: False
        self.has(self.path, self.cluster, but=[b"name-007"])

    def test_file_that_exists(self):
        self.path.write_text("a backup of before")
        said = self.run_command("backup", self.path, *self.cluster.addresses(), status=2)
        self.assertEqual(said, ("", f"deploy/backup: {self.path} exists already\n"))
        self.assertEqual(self.path.read_text(), "a backup of before")

    def test_no_folder(self):
        path = self.path / "backup"
        said = self.run_command("backup", path, *self.cluster.addresses(), status=1)
        self.assertEqual(said, ("", f"deploy/backup: {path} was not written: No such file or directory\n"))

    def test_full_disk(self):
        """What could not be written whole is not left behind."""
        self.cluster.put(b"long", random.randbytes(1 << 16))
        words = ["bash", "-c", 'ulimit -f 1 && exec "$0" "$@"', DEPLOY / "backup", self.path, *self.cluster.addresses()]
        ran = subprocess.run(words, capture_output=True, text=True, timeout=PATIENCE, check=False)
        self.assertEqual((ran.returncode, ran.stdout, ran.stderr),
                         (1, "", f"deploy/backup: {self.path} was not written: File too large\n"))
        self.assertEqual(self.left(), [])

    def interrupt(self, command, number, count):
        """Gives the command, and interrupts it after so many calls. What it said."""
        # A shell starts what runs beside it so that it ignores this signal, and so would the command.
        signal.signal(signal.SIGINT, signal.default_int_handler)
        words = [DEPLOY / command, self.path, "--at-once", "2", *self.cluster.addresses()]
        with subprocess.Popen(words, stdout=subprocess.PIPE, stderr=subprocess.PIPE, text=True) as process:
            end = time.monotonic() + PATIENCE
            while sum(map(len, self.cluster.asked.values())) < count and time.monotonic() < end:
                time.sleep(0.01)
            process.send_signal(number)
            said, _ = process.communicate(timeout=PATIENCE)
        self.assertEqual(process.returncode, 130)
        return said

    def test_interruption(self):
        """An interrupted backup leaves no file, and can be given again."""
        self.cluster.delay = 0.2  # long enough for a signal to come before the end, also on a busy machine
        for number in (signal.SIGINT, signal.SIGTERM):
            count = sum(map(len, self.cluster.asked.values())) + 5
            said = self.interrupt("backup", number, count)
            self.assertEqual(said, "deploy/backup: interrupted: there is no backup\n")
            self.assertEqual(self.left(), [])
        self.cluster.delay = 0
        self.path.with_name("backup.part").write_text("of a backup that was killed")
        self.backup(self.path, *self.cluster.addresses())
        self.has(self.path, self.cluster)

    def test_interrupted_restore(self):
        """Given again, it writes all names."""
        self.backup(self.path, *self.cluster.addresses())
        full, self.cluster = self.cluster, self.kept()
        self.cluster.delay = 0.2
        self.assertRegex(self.interrupt("restore", signal.SIGINT, 5),
                         r"^deploy/restore: interrupted: \d+ names written, \d+ left; give the command again\n$")
        self.assertLess(len(self.cluster.values), 100)
        self.cluster.delay = 0
        self.assertIn("100 names written in ", self.restore(self.path, *self.cluster.addresses()))
        self.assertEqual(self.cluster.values, full.values)

    def test_name_that_cannot_be_written(self):
        """All others are written. Once nothing is in the way, the same command writes this one too."""
        self.backup(self.path, *self.cluster.addresses())
        other = self.kept()
        other.put(b"another", b"stays")
        other.put(b"name-001", b"newer")
        other.fails = lambda node, name: name == b"name-007"
        said = self.restore(self.path, *other.addresses(), status=1)
        self.assertIn("deploy/restore: name-007 was not written: ERR no quorum answered in time\n", said)
        other.fails = lambda node, name: False
        self.restore(self.path, *other.addresses())
        self.assertEqual(other.values, {**self.cluster.values, b"another": b"stays"})

    def test_damaged_file(self):
        """A file that was cut or changed is refused, and nothing is written."""
        self.cluster = self.kept(3)
        self.backup(self.path, *self.cluster.addresses())
        whole, other = self.path.read_bytes(), self.kept()
        bad = [whole[:cut] for cut in (0, 1, 40, len(whole) // 2, len(whole) - 1)] + [whole + b"*", whole + whole]
        bad += [whole.replace(b"value 1", b"value 7"), whole.replace(b"names 3", b"names 2"), whole[37:],
                b"*99999999\r\n" + whole, b"*1\r\n$99999999\r\n" + whole, os.urandom(1000)]
        for data in bad:
            self.path.write_bytes(data)
            said, error = self.run_command("restore", self.path, *other.addresses(), status=2)
            self.assertEqual((said, other.values), ("", {}))
            self.assertRegex(error, "is no whole backup: behind [0-3] names it ends|its checksum is wrong\n$")
        self.path.unlink()
        error = self.run_command("restore", self.path, *other.addresses(), status=2)[1]
        self.assertEqual(error, f"deploy/restore: {self.path}: No such file or directory\n")

    def test_progress(self):
        """Once a second, one line says how many names are done and left."""
        self.cluster.delay = 0.1
        for command in ("backup", "restore"):
            said = self.run_command(command, self.path, "--at-once", 4, *self.cluster.addresses())[1]
            line = rf"^deploy/{command}: (\d+) names done, (\d+) left, \d+ names a second$"
            lines = re.findall(line, said, re.MULTILINE)
            self.assertGreaterEqual(len(lines), 2, said)
            self.assertEqual({int(done) + int(left) for done, left in lines}, {100})

    def test_no_node_answers(self):
        addresses = self.cluster.addresses()
        for node in self.cluster.servers:
            self.cluster.stop(node)
        error = self.run_command("backup", self.path, *addresses, status=1)[1]
        self.assertIn(f"deploy/backup: no node answers: {addresses[0]}: Connection refused; ", error)
        self.assertEqual(self.left(), [])


if __name__ == "__main__":
    unittest.main()
