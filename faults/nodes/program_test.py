#!/usr/bin/env python3
"""Tests a node program by itself, with a cluster of one node: program_test.py PROGRAM. Its words, its cluster file and
its folder are wrong in each way that its page names; its streams are closed, and its disk is full."""
import os
import resource
import signal
import subprocess
import sys
import unittest
from pathlib import Path

sys.path[:0] = [str(Path(__file__).resolve().parent), str(Path(__file__).resolve().parents[2] / "deploy" / "test")]
sys.dont_write_bytecode = True

from frames import encode  # noqa: E402
from one_node import CLUSTER, OneNode, command, is_embedded  # noqa: E402

PING = command(b"PING")
MIB = 1 << 20


class Program(unittest.TestCase):
    program = None

    def setUp(self):
        self.node = self.enterContext(OneNode(self.program))

    def fails(self, status, text, *words, data=b"", **options):
        found, _, said = self.node.run(data, words or None, **options)
        self.assertEqual((found, said), (status, f"casd: {text}\n"))


class Words(Program):
    def setUp(self):
        if is_embedded(self.program):
            self.skipTest("the host has words of its own")
        super().setUp()

    def test_usage(self):
        usage = "usage: casd FILE NODE FOLDER"
        for words in ([""], ["a", "1"], ["a", "1", "b", "c"], ["--what"]):
            self.fails(2, usage, *words)
        found = subprocess.run([self.program], capture_output=True, check=False)
        self.assertEqual((found.returncode, found.stderr), (2, f"casd: {usage}\n".encode()))

    def test_numbers(self):
        for number in ("", "x", "256", "-1", "+1", "1 "):
            self.fails(2, "NODE is no number from 0 to 255", self.node.file, number, self.node.folder)

    def test_words_that_are_no_text(self):
        found = subprocess.run([self.program, b"\xff", b"1", b"x"], capture_output=True, check=False)
        self.assertEqual((found.returncode, found.stderr), (2, b"casd: an argument is no text\n"))

    def test_help_and_version(self):
        status, written, text = self.node.run(words=["--help"])
        self.assertEqual((status, text), (0, ""))
        self.assertTrue(written.startswith(b"usage: casd FILE NODE FOLDER\n"))
        self.assertEqual(self.node.run(words=["--version"]), (0, b"casd 1\n", ""))
        with open("/dev/full", "wb") as full:
            self.fails(1, "cannot write the output: No space left on device (os error 28)", "--help", stdout=full)


class Files(Program):
    def test_cluster_file(self):
        missing = "cannot read the cluster file: No such file or directory (os error 2)"
        self.fails(2, missing, "/nowhere", "1", self.node.folder)
        self.fails(2, "the cluster file has no node 2", self.node.file, "2", self.node.folder)
        self.node.file.write_text(CLUSTER.replace("n 1", "n 2"))
        self.fails(2, "the cluster file has a fault in line 2" if is_embedded(self.program) else
                   "the cluster file, line 2, word 2: n is not from 1 to the number of nodes")

    def test_folder(self):
        self.fails(1, "FOLDER is not there", self.node.file, "1", "/nowhere")
        self.fails(1, "cannot open the log: Not a directory (os error 20)", self.node.file, "1", self.node.file)
        self.node.log.mkdir()
        self.fails(1, "cannot open the log: Is a directory (os error 21)")

    def test_log_of_another_node(self):
        self.node.file.write_text(CLUSTER.replace("nodes 1", "nodes 1 2"))
        self.assertEqual(self.node.answers(PING), [b"+PONG\r\n"])
        log = self.node.log.read_bytes()
        fixed = "of another cluster: a setting that is fixed at the first start differs in the cluster file"
        either = f"it is damaged, or that of another node, or {fixed}"
        embedded = is_embedded(self.program)
        self.fails(1, f"the log, from byte 0: {either if embedded else 'the log is that of node 1'}", self.node.file, "2",
                   self.node.folder)
        self.node.file.write_text(CLUSTER)
        self.fails(1, f"the log, from byte 0: {either if embedded else f'the log is {fixed}'}")
        self.assertEqual(self.node.log.read_bytes(), log)

    def test_modes(self):
        """Nobody but the owner may read a log, whatever the umask, also one that was written anew."""
        for umask in (0o000, 0o022, 0o077):
            self.node.log.unlink(missing_ok=True)
            status, _, said = self.node.run(PING, preexec_fn=lambda mask=umask: os.umask(mask))
            self.assertEqual((status, said, self.node.log.stat().st_mode & 0o777), (0, "", 0o600))

    def test_second_process(self):
        """A second process in the same folder ends at once and changes nothing, however long the log is, and the first
        one goes on. Once that was killed, the folder is free."""
        self.node.file.write_text(CLUSTER.replace("delta 8", "delta 0"))
        writes = [command(b"SET", b"a", bytes([number]) * MIB) for number in range(20)]
        self.node.answers(*writes, command(b"SET", b"b", b"1"))
        long_log = self.node.log.read_bytes()
        self.assertGreater(len(long_log), 19 * MIB)
        self.node.log.write_bytes(b"")
        with self.node.running() as is_alive:
            self.node.log.write_bytes(long_log)
            for data in (b"", PING):
                self.fails(1, "another process runs in FOLDER", data=data)
                self.assertEqual([file.name for file in self.node.folder.iterdir()], ["log"])
                self.assertEqual(self.node.log.read_bytes(), long_log)
                self.assertTrue(is_alive())
        self.assertEqual(self.node.answers(command(b"GET", b"b")), [b"$1\r\n1\r\n"])

    def test_what_may_change(self):
        self.assertEqual(self.node.answers(PING), [b"+PONG\r\n"])
        self.node.file.write_text(CLUSTER.replace("later", "later 7").replace("50", "60"))
        self.assertEqual(self.node.answers(PING), [b"+PONG\r\n"])


class Streams(Program):
    def test_input(self):
        self.assertEqual(self.node.answers(PING), [b"+PONG\r\n"])
        self.assertEqual(self.node.answers(PING, PING[:-1]), [b"+PONG\r\n"])
        why = "" if is_embedded(self.program) else ": unknown type byte"
        self.fails(1, f"the input is no frame{why}", data=b"hello\r\n")

    def test_output(self):
        with open("/dev/full", "wb") as full:
            self.fails(1, "cannot write the output: No space left on device (os error 28)", data=PING, stdout=full)
        reading, writing = os.pipe()
        os.close(reading)
        with open(writing, "wb") as closed:
            self.fails(1, "cannot write the output: Broken pipe (os error 32)", data=PING, stdout=closed)

    def test_closed_streams(self):
        """With a closed stream, no file of the program may take its number: its frames would go into the log."""
        self.assertEqual(self.node.answers(command(b"SET", b"a", b"1")), [b"+OK\r\n"])
        for closed in ("<&-", ">&-", "2>&-", "<&- >&-", "<&- >&- 2>&-"):
            line = f'printf "%s" "$INPUT" | "$0" "$@" {closed}'
            subprocess.run(["sh", "-c", line, self.program, str(self.node.file), "1", str(self.node.folder)],
                           env={**os.environ, "INPUT": PING.decode()}, capture_output=True, timeout=60, check=False)
            self.assertEqual(self.node.answers(command(b"GET", b"a")), [b"$1\r\n1\r\n"], closed)


def small_files(size):
    """Has the system refuse to let a file grow beyond this size, as a full disk would."""
    def limit():
        signal.signal(signal.SIGXFSZ, signal.SIG_IGN)
        resource.setrlimit(resource.RLIMIT_FSIZE, (size, size))
    return limit


class Disk(Program):
    def test_full_disk(self):
        """A write for which the log has no room is not answered; what was answered before is there later."""
        self.assertEqual(self.node.answers(command(b"SET", b"a", b"1")), [b"+OK\r\n"])
        length = self.node.log.stat().st_size
        self.assertEqual(self.node.answers(PING), [b"+PONG\r\n"])
        start = self.node.log.stat().st_size - length
        text = "cannot write the log: File too large (os error 27)"
        for room in (100, 101, 150, 300):
            frames = command(b"SET", b"a", b"x" * 1000)
            length = self.node.log.stat().st_size
            status, written, said = self.node.run(frames, preexec_fn=small_files(length + room))
            self.assertEqual((status, written, said), (3, b"", f"casd: {text}\n"), room)
            self.assertEqual(self.node.answers(command(b"GET", b"a"), cut=room - start), [b"$1\r\n1\r\n"])

    def test_no_room_for_the_start(self):
        self.fails(3, "cannot write the log: File too large (os error 27)", preexec_fn=small_files(10))
        self.assertEqual(self.node.answers(PING, cut=10), [b"+PONG\r\n"])


if __name__ == "__main__":
    Program.program = str(Path(sys.argv.pop(1)).resolve())
    unittest.main()
