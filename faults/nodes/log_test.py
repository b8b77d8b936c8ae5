#!/usr/bin/env python3
"""Tests what a node program has again from a log that was cut or changed: log_test.py PROGRAM [EVERY].

A node writes a log. Then the log is cut at every byte of its last three entries, also with zeros behind the cut, and
each of their bytes is changed. Each entry is left out, doubled, or put behind the next one. With a number EVERY,
only one place in EVERY is tried."""
import resource
import subprocess
import sys
import unittest
from pathlib import Path

sys.path[:0] = [str(Path(__file__).resolve().parent), str(Path(__file__).resolve().parents[2] / "deploy" / "test")]
sys.dont_write_bytecode = True

from frames import Frames, encode  # noqa: E402
from log_form import FORM, HEAD, bodies_of, log_of, old_log_of, said_of, shifted, split  # noqa: E402
from messages import FORMS_BEFORE, old_strings, read  # noqa: E402
from one_node import OneNode, command  # noqa: E402

QUESTIONS = command(b"GET", b"a") + command(b"GET", b"b")
# Each byte is changed to these: other digits, and others.
CHANGES = (lambda byte: byte ^ 1, lambda byte: byte ^ 8, lambda byte: 57 if byte != 57 else 0)
CONVERT = Path(__file__).resolve().parents[2] / "deploy" / "convert-log"
LONGEST_BODY = (1 << 56) - 1


def places(log):
    """The places at which entries begin, and the end of the last one."""
    found = [0]
    for entry in split(log):
        found.append(found[-1] + len(entry))
    return found


def old_bodies(bodies, form):
    """The bodies of the same entries, with messages as in a log of this form."""
    changed = []
    for body in bodies:
        [[word, *strings]] = Frames().take(body)
        if word in (b"serve", b"take"):
            it = read(strings)
            body = encode([word, *(it.strings(form) if form in FORMS_BEFORE else old_strings(it))])
        changed.append(body)
    return changed


class Logs(unittest.TestCase):
    program, every, memory = None, 1, 64 << 20

    def setUp(self):
        self.node = self.enterContext(OneNode(self.program))
        self.writes = [(name, b"%d" % number) for number in range(1, 4) for name in (b"a", b"b")]
        for write in self.writes:
            self.assertEqual(self.node.answers(command(b"SET", *write)), [b"+OK\r\n"])
        self.whole = self.node.log.read_bytes()
        self.places = places(self.whole)
        self.assertEqual(self.whole, log_of(bodies_of(self.whole)))

    def read(self, log, cut=0):
        """What a node with this log answers, and its log afterwards. So many bytes are cut off."""
        self.node.log.write_bytes(log)
        return self.node.answers(QUESTIONS, cut=cut), self.node.log.read_bytes()

    def last_entries(self):
        """Where each of the last three entries begins and ends."""
        return zip(self.places[-4:-1], self.places[-3:])

    def test_cut_logs(self):
        """A log that is cut within an entry gives back what the entries before it give, and no more stays in it. So
        does one that has zeros in place of the bytes that are missing, and more of them."""
        self.assertEqual(self.read(self.whole)[0], [b"$1\r\n3\r\n", b"$1\r\n3\r\n"])
        cuts = 0
        for begin, end in self.last_entries():
            answers, after = self.read(self.whole[:begin])
            self.assertEqual(answers[0], b"$1\r\n3\r\n")
            self.assertIn(answers[1], [b"$1\r\n2\r\n", b"$1\r\n3\r\n"])
            start = after[begin:]
            for cut in range(begin, end, self.every):
                for zeros in (0, 1, end - cut, 5000):
                    found, now = self.read(self.whole[:cut] + bytes(zeros), cut - begin + zeros)
                    self.assertEqual((found, now[:begin]), (answers, self.whole[:begin]), (cut, zeros))
                    self.assertEqual(len(now), begin + len(start), (cut, zeros))
                    cuts += 1
        print(f"log: {cuts} cuts, three in four with zeros behind them")

    def is_reported(self, log, begin):
        """The node says at which byte the damaged entry begins, answers nothing, and leaves the log as it is."""
        self.node.log.write_bytes(log)
        status, written, said = self.node.run(QUESTIONS)
        self.assertEqual((status, written, self.node.log.read_bytes()), (1, b"", log))
        self.assertRegex(said, rf"^casd: the log, from byte {begin}: ")

    def test_changed_bytes(self):
        """Each changed byte is reported at the first byte of its entry."""
        changed = 0
        for begin, end in self.last_entries():
            for place in range(begin, end, self.every):
                for change in CHANGES:
                    log = bytearray(self.whole)
                    log[place] = change(log[place])
                    self.is_reported(bytes(log), begin)
                    changed += 1
        print(f"log: {changed} changed bytes were reported")

    def test_damage_before_other_bytes(self):
        """Zeros are no end where another byte stands behind them: a page that was not written, say."""
        begin, end = self.places[-4], self.places[-3]
        for first in range(begin, end, self.every):
            self.is_reported(self.whole[:first] + bytes(end - first) + self.whole[end:], begin)

    def test_entries_in_other_places(self):
        """Each entry that is left out is reported at the entry that follows, each that is doubled at the second one, and
        each that is behind the next one at that one. What is left out at the end of a log nobody can know."""
        self.node.answers(*(command(b"SET", b"a", b"%d" % number) for number in range(8)))
        whole = self.node.log.read_bytes()
        entries, found = split(whole), places(whole)
        self.assertGreater(len(entries), 24)
        for place, begin in enumerate(found[:-2]):
            before, entry, following, behind = entries[:place], *entries[place:place + 2], entries[place + 2:]
            for damaged, log in ((begin, [*before, following, *behind]),
                                 (found[place + 1], [*before, entry, entry, following, *behind]),
                                 (begin, [*before, following, entry, *behind])):
                self.is_reported(b"".join(log), damaged)
        self.is_reported(whole + entries[-1], found[-1])
        self.assertTrue(self.read(whole[:found[-2]])[1].startswith(whole[:found[-2]]))
        print(f"log: each of {len(entries)} entries was left out, doubled, and put behind the next one")

    def test_other_logs(self):
        """Bytes before the first entry, a log behind itself, and entries that no node makes."""
        end, bodies = len(self.whole), bodies_of(self.whole)
        for log, begin in ((b"x" + self.whole, 0), (self.whole * 2, end),
                           (self.whole + log_of([b"*0\r\n"], bodies), end), (self.whole + log_of([b"no frame"], bodies), end)):
            self.is_reported(log, begin)

    def test_lengths_beyond_the_end(self):
        """A head with a right checksum, and with a length beyond the end of the log, costs no memory: the entry is cut off."""
        bodies = bodies_of(self.whole)
        chain = shifted(0xFFFFFFFF, b"".join(said_of(body) for body in bodies))
        for length in (100, 1 << 24, 1 << 34, LONGEST_BODY):
            says = bytes([FORM]) + length.to_bytes(7, "big") + bytes(4)
            head = says + (shifted(chain, says) ^ 0xFFFFFFFF).to_bytes(4, "big")
            self.node.log.write_bytes(self.whole + head + b"x" * 50)
            answers = self.node.answers(QUESTIONS, cut=HEAD + 50, **limited(self.memory))
            self.assertEqual(answers, [b"$1\r\n3\r\n", b"$1\r\n3\r\n"], length)
            self.assertTrue(self.node.log.read_bytes().startswith(self.whole))

    def test_logs_of_older_forms(self):
        """Frames without heads, of the oldest form, are damage."""
        for form in (1, 2, 3, 4):
            self.is_converted(form)
        self.is_reported(encode([b"cluster", bytes(16), b"1", bytes(8)]), 0)

    def is_converted(self, form):
        """A log of an older form is left as it is, and the message names the program that converts it, which keeps it,
        cuts off its end, and refuses damage."""
        def old_log(bodies):
            return old_log_of(bodies) if form == 1 else log_of(bodies, form=form)

        bodies, before_today = bodies_of(self.whole), old_bodies(bodies_of(self.whole), form)
        old, end = old_log(before_today), len(old_log(before_today[:-1]))
        text = "casd: the log has an older form; deploy/convert-log FOLDER writes it in today's form\n"
        for log in (old, old_log(before_today[:1]), old + b"x" * 20):
            self.node.log.write_bytes(log)
            self.assertEqual(self.node.run(QUESTIONS), (1, b"", text))
            self.assertEqual(self.node.log.read_bytes(), log)
        before = self.node.folder / "log.before"
        for log, kept in ((old, bodies), (old[:-1], bodies[:-1]), (old[:end + 10], bodies[:-1]),
                          (old[:end + 10] + bytes(500), bodies[:-1]), (old + bytes(9), bodies), (b"", [])):
            self.node.log.write_bytes(log)
            self.assertEqual(self.convert(), (0, ""))
            self.assertEqual((self.node.log.read_bytes(), before.read_bytes()), (log_of(kept), log))
            self.assertEqual(self.node.log.stat().st_mode & 0o777, 0o600)
            before.unlink()
        self.node.log.write_bytes(log_of(bodies))
        self.assertEqual(self.node.answers(QUESTIONS), [b"$1\r\n3\r\n", b"$1\r\n3\r\n"])

    def convert(self):
        """The status of the program that converts the log, and what it says of its failure."""
        ended = subprocess.run([CONVERT, self.node.folder], capture_output=True, text=True, check=False)
        return ended.returncode, ended.stderr

    def test_logs_that_are_not_converted(self):
        """A log of today's form, damaged ones, one with an entry that no node writes, and one of a node that runs stay as
        they are."""
        bodies = old_bodies(bodies_of(self.whole), 2)
        old, end = bytearray(log_of(bodies, form=2)), len(log_of(bodies[:-1], form=2))
        old[end + 30] ^= 1
        said_of_strange = f"entry {len(bodies)} of the log is none that a node writes"
        strange = [log_of([*old_bodies(bodies_of(self.whole), form), encode([b"serve", b"x", b"y"])], form=form)
                   for form in (2, 3, 4)]
        for log, said in ((self.whole, "the log has today's form already"),
                          (bytes(old), f"the log, from byte {end}: wrong checksum"),
                          *((log, said_of_strange) for log in strange)):
            self.node.log.write_bytes(log)
            self.assertEqual(self.convert(), (1, f"convert-log: {said}\n"))
            self.assertEqual(([file.name for file in self.node.folder.iterdir()], self.node.log.read_bytes()), (["log"], log))
        self.node.log.write_bytes(self.whole)
        with self.node.running():
            self.assertEqual(self.convert(), (1, f"convert-log: a process runs in {self.node.folder}; stop the node first\n"))


def limited(memory):
    """Options that limit the memory of a program to this number of bytes."""
    return {"preexec_fn": lambda: resource.setrlimit(resource.RLIMIT_AS, (memory, memory))} if memory else {}


if __name__ == "__main__":
    Logs.program = str(Path(sys.argv.pop(1)).resolve())
    Logs.every = int(sys.argv.pop(1)) if len(sys.argv) > 1 else 1
    unittest.main()
