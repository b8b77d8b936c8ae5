#!/usr/bin/env python3
"""Tests that a node writes its log anew when it starts, and while it runs: rewriting_test.py PROGRAM.

Most of a log is fragments that were dropped. When the node is started again, its log becomes shorter, and each value is
the same. stop_calls.c is a library that is preloaded to the program. By it, the program is killed at each of its calls
that change a file of the folder, and each of these calls fails, as with a full disk."""
import os
import subprocess
import sys
import tempfile
import unittest
from pathlib import Path

HERE = Path(__file__).resolve().parent
sys.path[:0] = [str(HERE), str(HERE.parents[1] / "deploy" / "test")]
sys.dont_write_bytecode = True

from frames import Frames  # noqa: E402
from one_node import CLUSTER, OneNode, command, is_embedded  # noqa: E402

# The node keeps the fragments of the newest finished write alone.
DROPPING = CLUSTER.replace("delta 8", "delta 0")
MIB = 1 << 20
# A log is written anew only if it becomes shorter by at least half and 16 MiB.
WRITES = 20
VALUES = {b"large": b"\xff" * MIB, b"small": b"2", b"empty": b""}
QUESTIONS = [command(b"GET", name) for name in VALUES]
# The empty value reads as nil.
ANSWERS = [b"$%d\r\n%s\r\n" % (len(value), value) if value else b"$-1\r\n" for value in VALUES.values()]
# The calls that change the folder at a start in which the log is written anew. The new log is written in two parts, and
# the large value, which is in one of them, is written by itself, as are the bytes before it and behind it.
CALLS = ["open .", *["open log"] * 3, "fdatasync log", "fsync .", "unlink log.new", "open log.new",
         *["write log.new"] * 4, "fdatasync log.new", "rename log.new", "fsync .", "write log", "fdatasync log"]
# A node in the host writes all of the new log at once, behind the entries of the start.
EMBEDDED_CALLS = ["open .", "open log", "unlink log.new", "fdatasync log", "fsync .", "write log", "fdatasync log",
                  "open log.new", "write log.new", "fdatasync log.new", "rename log.new", "fsync ."]


class Rewriting(unittest.TestCase):
    program, library, long_log, start_length, calls = None, None, None, None, CALLS

    def writing(self):
        """The places of the calls that write the new log."""
        return range(self.calls.index("open log.new"), self.calls.index("rename log.new"))

    def exchange(self):
        """The places of those that put it in the place of the old one."""
        first = self.calls.index("rename log.new")
        return range(first, self.calls.index("fsync .", first) + 1)

    def setUp(self):
        self.node = self.enterContext(OneNode(self.program, DROPPING))
        self.list = Path(self.node.home.name) / "calls"
        if self.long_log is None:
            Rewriting.long_log = self.make_log()
        self.reset()

    def make_log(self):
        """The log of a node that wrote a large value often, and other values. Sets the length of what a start adds."""
        self.node.answers()
        first = self.node.log.stat().st_size
        self.node.answers()
        Rewriting.start_length = self.node.log.stat().st_size - first
        large = [bytes([number]) * MIB for number in range(WRITES - 1)] + [VALUES[b"large"]]
        writes = [(b"large", value) for value in large] + [(b"small", b"1"), (b"small", b"2"), (b"empty", b"")]
        self.assertEqual(self.node.answers(*(command(b"SET", *write) for write in writes)), [b"+OK\r\n"] * len(writes))
        return self.node.log.read_bytes()

    def reset(self):
        """The folder has the long log alone."""
        for file in self.node.folder.iterdir():
            file.unlink()
        self.node.log.write_bytes(self.long_log)
        self.list.unlink(missing_ok=True)

    def start(self, nth=0, how="", frames=QUESTIONS):
        """Starts the node with the library, which disturbs this call in this way, and reads all values."""
        disturbs = {"LD_PRELOAD": self.library, "STOP_FOLDER": str(self.node.folder), "STOP_LIST": str(self.list),
                    "STOP_NTH": str(nth), "STOP_HOW": how}
        return self.node.run(b"".join(frames), env={**os.environ, **disturbs})

    def values_are_there(self, note=None, cut=0):
        """The node starts again, without the library, and all values are there. So many bytes of its log are cut off."""
        self.assertEqual(self.node.answers(*QUESTIONS, cut=cut), ANSWERS, note)

    def is_short(self, note=None):
        """The folder has a short log, and nothing else."""
        self.assertEqual([file.name for file in self.node.folder.iterdir()], ["log"], note)
        self.assertLess(self.node.log.stat().st_size, 2 * MIB, note)

    def test_short_log(self):
        """The log becomes shorter at a start, and later starts leave it. The values stay, also after further writes."""
        self.assertGreater(len(self.long_log), 19 * MIB)
        self.values_are_there()
        self.is_short()
        length = self.node.log.stat().st_size
        for starts in range(1, 4):
            self.values_are_there(starts)
            self.assertEqual(self.node.log.stat().st_size, length + starts * self.start_length)
        self.assertEqual(self.node.answers(command(b"SET", b"small", b"3")), [b"+OK\r\n"])
        self.assertEqual(self.node.answers(command(b"GET", b"small")), [b"$1\r\n3\r\n"])
        self.assertEqual(self.node.answers(*QUESTIONS)[::2], ANSWERS[::2])

    def test_calls(self):
        """The new log is whole and synced before it gets the name of the old one; nothing is appended to it before the
        folder is synced."""
        status, _, said = self.start()
        self.assertEqual((status, said), (0, ""))
        self.assertEqual(self.list.read_text().splitlines(), self.calls)

    def test_kills(self):
        """The program is killed before each call, and after half of each write."""
        for how in ("kill", "half"):
            for nth, call in enumerate(self.calls, 1):
                if how == "half" and not call.startswith("write"):
                    continue
                self.reset()
                status, written, _ = self.start(nth, how)
                self.assertEqual((status, written), (-9, b""), (how, call))
                self.assertEqual(len(self.list.read_text().splitlines()), nth)
                cut = (self.start_length + 1) // 2 if (how, call) == ("half", "write log") else 0
                self.values_are_there((how, call), cut)
                self.is_short((how, call))

    def test_short_writes(self):
        """A write may write less than it is given."""
        for nth, call in enumerate(self.calls, 1):
            if call.startswith("write"):
                self.reset()
                status, _, said = self.start(nth, "short")
                self.assertEqual((status, said), (0, ""), call)
                self.values_are_there(call)
                self.is_short(call)

    def test_second_log_fails(self):
        """The disk is full, or fails, while the new log is written: the node goes on with the old one."""
        for how, text in (("full", "No space left on device (os error 28)"), ("fail", "Input/output error (os error 5)")):
            for place in self.writing():
                self.reset()
                status, written, said = self.start(place + 1, how)
                self.assertEqual((status, said), (0, f"casd: the log was not written anew: {text}\n"), self.calls[place])
                self.assertEqual(written.count(b"client 1"), len(QUESTIONS))
                self.assertEqual([file.name for file in self.node.folder.iterdir()], ["log"])
                now = self.node.log.read_bytes()
                self.assertTrue(now.startswith(self.long_log), self.calls[place])
                self.assertEqual(len(now), len(self.long_log) + self.start_length)
                self.values_are_there(self.calls[place])
                self.is_short(self.calls[place])

    def test_exchange_fails(self):
        """If the new log cannot be put in the place of the old one, or the folder cannot be synced, the node stops. It
        does not know which log is there after the machine stops."""
        for place in self.exchange():
            self.reset()
            found = self.start(place + 1, "fail")
            text = "casd: cannot exchange the log: Input/output error (os error 5)\n"
            self.assertEqual(found, (3, b"", text), self.calls[place])
            self.values_are_there(self.calls[place])
            self.is_short(self.calls[place])

    def test_running(self):
        """The log becomes shorter while the node runs. What was written before and after that is there."""
        self.node.log.unlink()
        writes = [command(b"SET", b"large", bytes([number]) * MIB) for number in range(60)]
        writes += [command(b"SET", b"small", b"2"), command(b"SET", b"large", VALUES[b"large"])]
        status, written, said = self.start(frames=[*writes, *QUESTIONS])
        self.assertEqual((status, said), (0, ""))
        self.assertEqual([b"".join(strings[1:]) for strings in Frames().take(written)], [b"+OK\r\n"] * len(writes) + ANSWERS)
        self.assertIn("rename log.new", self.list.read_text().splitlines())
        self.assertLess(self.node.log.stat().st_size, 50 * MIB)
        self.values_are_there()

    def test_running_kills(self):
        """The program is killed before each call by which it writes its log anew while it runs. What it answered is there."""
        writes = [command(b"SET", b"large", bytes([number]) * MIB) for number in range(40)]
        self.node.log.unlink()
        self.start(frames=writes)
        calls = self.list.read_text().splitlines()
        begin, end = calls.index("open log.new"), calls.index("fsync .", calls.index("rename log.new"))
        for nth in range(begin, end + 1):
            self.reset()
            self.node.log.unlink()
            status, written, _ = self.start(nth + 1, "kill", writes)
            answered = len(Frames().take(written))
            self.assertEqual(status, -9, calls[nth])
            [value] = self.node.answers(command(b"GET", b"large"))
            body = value.split(b"\r\n")[1]
            self.assertTrue(answered > 0 and body[0] >= answered - 1 and body == body[:1] * MIB, (calls[nth], answered))

    def test_left_files(self):
        """A second log that was left is removed, also if the log need not be written anew; but not if the log is
        damaged, because then nothing is changed."""
        left = self.node.folder / "log.new"
        left.write_bytes(self.long_log[:MIB])
        self.values_are_there()
        self.is_short()
        left.write_bytes(b"anything")
        self.values_are_there()
        self.is_short()
        left.write_bytes(b"anything")
        self.node.log.write_bytes(b"no log" * 9)
        self.assertEqual(self.node.run()[0], 1)
        self.assertEqual((left.read_bytes(), self.node.log.read_bytes()), (b"anything", b"no log" * 9))


if __name__ == "__main__":
    Rewriting.program = str(Path(sys.argv.pop(1)).resolve())
    if is_embedded(Rewriting.program):
        Rewriting.calls = EMBEDDED_CALLS
    with tempfile.TemporaryDirectory() as folder:
        Rewriting.library = f"{folder}/stop_calls.so"
        subprocess.run(["cc", "-shared", "-fPIC", "-O1", "-o", Rewriting.library, HERE / "stop_calls.c"], check=True)
        unittest.main()
