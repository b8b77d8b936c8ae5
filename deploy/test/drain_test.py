#!/usr/bin/env python3
"""Tests deploy/drain with a test double of a cluster."""
import copy
import unittest

from moving_case import MovingCase


class Drain(MovingCase):
    def counts(self, cluster):
        return {node: len(cluster.names_on(node)) for node in cluster.servers}

    def test_all(self):
        """Each name that the node had is at another node, with its other nodes and k as before; others are not touched.
        The two nodes that joined later have the fewest names, and share them evenly."""
        cluster = self.layouts()
        self.fill(cluster, 300)
        before, due = copy.deepcopy(cluster.names), cluster.names_on(4)
        said = self.drain(4, *cluster.addresses())
        self.assertEqual(sorted(cluster.moved), due)
        for name, layouts in before.items():
            (k, nodes), (now_k, now) = layouts[-1], cluster.last(name)
            changed = [place for place, node in enumerate(nodes) if now[place] != node]
            self.assertEqual((now_k, len(now), len(set(now))), (k, len(nodes), len(nodes)))
            self.assertEqual([nodes[place] for place in changed], [4] if name in due else [])
        counts = self.counts(cluster)
        self.assertEqual(counts.pop(4), 0)
        new = [counts.pop(node) for node in (6, 7)]
        self.assertLessEqual(max(new) - min(new), 1, new)
        self.assertEqual(sum(new), len(due))
        self.assertIn(f"deploy/drain: {len(due)} names moved away from node 4 in ", said)
        self.assertIn("deploy/drain: of 300 names, none has node 4 in the last layout\n", said)

    def test_mover_of_its_own(self):
        """A mover that is none of `nodes` is asked to move the names, and gets none of them. Node 6, which joined later
        too, gets names."""
        cluster = self.layouts(mover=7)
        self.fill(cluster, 100)
        due = cluster.names_on(4)
        self.drain(4, *cluster.addresses())
        self.assertEqual(sorted(cluster.moved), due)
        self.assertEqual((cluster.names_on(4), cluster.names_on(7)), ([], []))
        self.assertNotEqual(cluster.names_on(6), [])

    def test_evenness(self):
        """Without newcomers, the nodes with fewer names get more. Here node 1 has 40 names more than the others."""
        cluster = self.layouts(later=())
        self.fill(cluster, 300)
        for number in range(40):
            cluster.names[b"more-%d" % number] = [(1, [1])]
        self.drain(5, "--at-once", 8, *cluster.addresses())
        counts = self.counts(cluster)
        self.assertEqual(counts.pop(5), 0)
        self.assertLessEqual(max(counts.values()) - min(counts.values()), 3, counts)

    def test_nodes_that_do_not_get_names(self):
        """A node that does not answer gets no name, nor does one that is in the layout already."""
        cluster = self.layouts()
        self.fill(cluster, 100)
        cluster.names[b"full"] = [(2, [1, 2, 3, 4, 5, 6])]
        addresses = cluster.addresses()
        cluster.stop(7)
        said = self.drain(4, *addresses, status=1)
        self.assertEqual(cluster.names_on(7), [])
        self.assertEqual(cluster.names_on(4), [b"full"])
        self.assertIn("full was not moved: each node that answers is in its layout already\n", said)
        self.assertIn("; not asked: node 7\n", said)

    def test_refused_moves_do_not_count(self):
        """Twenty names can only move to node 5, and are refused. So node 5 gets as many of the other names as makes all
        nodes even. Once nothing is in the way, the same command moves the twenty."""
        cluster = self.layouts(nodes=(1, 2, 3), later=(4, 5))
        for number in range(60):
            cluster.names[b"%03d" % number] = [(1, [3] if number >= 20 else [4, 3, 2, 1])]
            if number < 20:
                cluster.refusals[b"%03d" % number] = b"ERR another move of this name is under way"
        self.drain(3, "--at-once", 1, *cluster.addresses(), status=1)
        self.assertEqual(self.counts(cluster), {1: 25, 2: 25, 3: 20, 4: 25, 5: 25})
        cluster.refusals.clear()
        self.drain(3, *cluster.addresses())
        self.assertEqual(self.counts(cluster), {1: 25, 2: 25, 3: 0, 4: 25, 5: 45})


if __name__ == "__main__":
    unittest.main()
