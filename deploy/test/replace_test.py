#!/usr/bin/env python3
"""Tests deploy/replace with a test double of a cluster."""
import copy
import re
import signal
import subprocess
import time
import unittest

from connection import PATIENCE
from moving_case import DEPLOY, MovingCase

NO_QUORUM = b"ERR no quorum answered in time"
UNDER_WAY = b"ERR another move of this name is under way"


class Replace(MovingCase):
    def setUp(self):
        self.cluster = self.layouts()
        self.fill(self.cluster, 200)
        self.before = copy.deepcopy(self.cluster.names)
        self.due = self.cluster.names_on(5)

    def wanted(self, name, old=5, new=6):
        k, nodes = self.before[name][-1]
        return k, [new if node == old else node for node in nodes]

    def all_moved(self, but=()):
        """Each name has the layout that it had before, with node 6 in the place of node 5."""
        for name in self.before:
            wanted = self.before[name][-1] if name in but else self.wanted(name)
            self.assertEqual((name, self.cluster.last(name)), (name, wanted))

    def test_all(self):
        """All names are moved, each once, many at a time; others are not touched."""
        self.cluster.delay = 0.02
        said = self.replace(5, 6, *self.cluster.addresses())
        self.all_moved()
        self.assertEqual(sorted(self.cluster.moved), self.due)
        self.assertTrue(2 <= self.cluster.most_open <= 16, self.cluster.most_open)
        self.assertRegex(said, rf"^deploy/replace: {len(self.due)} names moved from node 5 to node 6 in [\d.]+ s, "
                               r"[\d.]+ names a second\n"
                               "deploy/replace: of 200 names, none has node 5 in the last layout\n$")

    def test_at_once(self):
        self.cluster.delay = 0.01
        self.replace(5, 6, "--at-once", 3, *self.cluster.addresses())
        self.assertEqual(self.cluster.most_open, 3)
        self.all_moved()

    def test_nothing_to_do(self):
        said = self.replace(7, 6, *self.cluster.addresses())
        self.assertIn("deploy/replace: 0 names moved from node 7 to node 6", said)
        self.assertEqual(self.cluster.moved, [])

    def test_strange_names(self):
        """Names may have any bytes; what is told of them can be shown by a terminal."""
        strange = [b"*2\r\n$1\r\n", b"", b"-ERR", b"\xff\x1b[2J", b"a b"]
        for name in strange:
            self.cluster.names[name] = [(1, [5, 4])]
        self.cluster.refusals[strange[3]] = self.cluster.refusals[b""] = UNDER_WAY
        said = self.replace(5, 6, *self.cluster.addresses(), status=1)
        self.assertIn(r"'\\xff\x1b[2J' was not moved: ERR another move", said)
        self.assertIn("'' was not moved: ERR another move", said)
        self.assertEqual([self.cluster.last(name) for name in (strange[0], strange[2], strange[4])], [(1, [6, 4])] * 3)

    def test_one_is_refused(self):
        """One name is not moved: it is told with its reason, and all others are moved. Once nothing is in the way, the
        same command moves this one alone."""
        self.cluster.refusals[self.due[3]] = UNDER_WAY
        said = self.replace(5, 6, *self.cluster.addresses(), status=1)
        self.all_moved(but=self.due[3:4])
        self.assertEqual(len(self.cluster.moved), len(self.due) - 1)
        self.assertIn(f"deploy/replace: {self.due[3].decode()} was not moved: {UNDER_WAY.decode()}\n", said)
        self.assertIn("of 200 names, 1 has node 5 in the last layout", said)
        self.cluster.refusals.clear()
        said = self.replace(5, 6, *self.cluster.addresses())
        self.assertIn("deploy/replace: 1 name moved", said)
        self.all_moved()
        self.assertEqual(len(self.cluster.moved), len(self.due))

    def test_new_node_is_in_the_layout(self):
        self.cluster.names[self.due[0]] = [(2, [5, 6, 1])]
        self.before[self.due[0]] = [(2, [5, 6, 1])]
        said = self.replace(5, 6, *self.cluster.addresses(), status=1)
        self.assertIn(f"{self.due[0].decode()} was not moved: its layout has node 6 already\n", said)
        self.all_moved(but=self.due[:1])

    def test_move_without_an_answer(self):
        self.cluster.hanging.add(self.due[1])
        said = self.replace(5, 6, "--patience", 4, "--at-once", 1, *self.cluster.addresses(), status=1)
        self.assertIn(f"{self.due[1].decode()} was not moved: no answer within 4 s\n", said)
        self.all_moved(but=self.due[1:2])

    def test_move_that_is_given_up(self):
        """A move that is given up goes on. Nodes tell its layout before it ends, so it does not count as moved."""
        name = self.due[2]
        self.cluster.refusals[name] = NO_QUORUM
        self.cluster.before_move = lambda moved: moved == name and self.cluster.names[name].append(self.wanted(name))
        said = self.replace(5, 6, *self.cluster.addresses(), status=1)
        self.assertIn(f"{name.decode()} was not moved: {NO_QUORUM.decode()} (its last layout has no node 5, but that "
                      "move may still go on)\n", said)
        self.assertIn("of 200 names, none has node 5 in the last layout\n", said)
        self.all_moved()

    def test_greatest_position(self):
        """A node may know only an earlier layout of a name. The one of the greatest position counts, if a node that is
        reached tells it, and what the mover knows when the name's turn comes."""
        gone, kept, back = self.due[:3]
        self.cluster.names[gone] = [(2, [5, 1, 2]), (1, [3, 4])]
        self.cluster.names[kept] = [(2, [1, 2, 3]), (1, [4, 5])]
        self.cluster.names[back] = [(2, [5, 1, 2]), (3, [1, 2, 4, 5])]
        self.before = copy.deepcopy(self.cluster.names)
        self.cluster.ignorant = {(node, name): 0 for node in (2, 3, 5, 6) for name in (gone, kept, back)}
        self.cluster.ignorant[1, kept] = 0
        self.replace(5, 6, *self.cluster.addresses())
        self.all_moved()
        self.assertNotIn(gone, self.cluster.moved)

    def test_moved_meanwhile(self):
        """Somebody else moves names after the command has looked at their layouts: one away from the old node, and one
        to another layout that has it. The last layout counts."""
        gone, other = self.due[-1], self.due[-2]

        def meanwhile(name):
            if name == self.due[0]:
                self.cluster.names[gone].append((1, [1, 2]))
                self.cluster.names[other].append((1, [5, 7]))

        self.cluster.before_move = meanwhile
        said = self.replace(5, 6, "--at-once", 1, *self.cluster.addresses())
        self.assertIn("1 of them by somebody else", said)
        self.assertEqual(self.cluster.last(gone), (1, [1, 2]))
        self.assertEqual(self.cluster.last(other), (1, [6, 7]))

    def test_new_names(self):
        """A client writes a name meanwhile, whose first layout has the old node. It is moved, too."""
        self.cluster.before_move = lambda name: self.cluster.names.setdefault(b"late", [(2, [1, 5, 3])])
        self.replace(5, 6, *self.cluster.addresses())
        self.assertEqual(self.cluster.last(b"late"), (2, [1, 6, 3]))

    def test_interruption(self):
        """The command is interrupted. Given again, it moves the names that are left, and none twice."""
        self.cluster.delay = 1  # long enough for a signal to come before the end, also on a busy machine
        # A shell starts what runs beside it so that it ignores this signal, and so would the command.
        signal.signal(signal.SIGINT, signal.default_int_handler)
        for number in (signal.SIGINT, signal.SIGTERM):
            words = [DEPLOY / "replace", "5", "6", "--at-once", "4", *self.cluster.addresses()]
            count = len(self.cluster.moved)
            with subprocess.Popen(words, stdout=subprocess.PIPE, stderr=subprocess.PIPE, text=True) as process:
                end = time.monotonic() + PATIENCE
                while len(self.cluster.moved) < count + 5 and time.monotonic() < end:
                    time.sleep(0.01)
                process.send_signal(number)
                said, _ = process.communicate(timeout=PATIENCE)
            self.assertEqual(process.returncode, 130)
            self.assertRegex(said, r"^deploy/replace: interrupted: \d+ names moved from node 5 to node 6, \d+ left; "
                                   "give the command again for the others\n$")
            self.assertLess(len(self.cluster.moved), len(self.due))
            time.sleep(2)  # until the moves that were sent have ended
        self.cluster.delay = 0
        self.replace(5, 6, *self.cluster.addresses())
        self.all_moved()
        self.assertEqual(sorted(self.cluster.moved), self.due)

    def test_progress(self):
        """Once a second, one line says how many names are done and left. The sum of what was done in each second is
        what was done in all."""
        self.cluster.delay = 0.1
        _, said = self.run_command("replace", 5, 6, "--at-once", 4, *self.cluster.addresses())
        lines = re.findall(r"^deploy/replace: (?:\d+ names found so far; )?(\d+) names done, (\d+) left, (\d+) names a "
                           "second$", said, re.MULTILINE)
        self.assertGreaterEqual(len(lines), 2, said)
        numbers = [[int(number) for number in line] for line in lines]
        self.assertEqual({done + left for done, left, _ in numbers}, {len(self.due)})
        self.assertEqual(numbers[-1][0], sum(rate for _, _, rate in numbers))


if __name__ == "__main__":
    unittest.main()
