#!/usr/bin/env python3
"""Tests what the whole banks beside nodes say of starts, of pointers that nodes raise by themselves, and of banks that
they close and keep, by small lists of messages, and of entries of logs."""
import sys
import tempfile
import unittest
from dataclasses import replace
from pathlib import Path

HERE = Path(__file__).resolve().parent
sys.path[:0] = [str(HERE), str(HERE.parents[1] / "deploy" / "test")]
sys.dont_write_bytecode = True

from frames import encode  # noqa: E402
from log_form import log_of  # noqa: E402
from whole import WholeBanks  # noqa: E402
from whole_test import LAYOUT, NEXT, answer, asked, closed, finals, frame  # noqa: E402

# Any two of these three nodes are a quorum; and a layout of one node.
WIDE, ALONE = bytes([1, 1, 2, 3]), bytes([1, 3])


class Starts(unittest.TestCase):
    """Two of three nodes are a quorum of LAYOUT, with k = 2 all three; two are one of NEXT."""

    def told(self, banks, start):
        """The faults that there are once node 3 tells a start."""
        it = replace(asked("Q"), position=start[0], layout=start[1], call=77)
        banks.compare(3, [b"tick"], [frame(2, replace(it, start=start))])
        return banks.faults

    def test_told_starts(self):
        """A start may be told once the pointer of each position before it is final at a quorum."""
        wrong = "node 3 tells the start %d of x; by the whole banks it is 0"
        self.assertEqual(self.told(finals(WholeBanks(0)), (1, NEXT)), [])
        for banks in (WholeBanks(0), finals(WholeBanks(0), members=(1, 2)), finals(WholeBanks(0), status=b"pending")):
            self.assertEqual(self.told(banks, (1, NEXT))[:1], [wrong % 1])
        both = finals(finals(WholeBanks(0)), (2, 3), 1, NEXT, LAYOUT)
        self.assertEqual(self.told(both, (2, LAYOUT)), [])
        second = finals(WholeBanks(0), (2, 3), 1, NEXT, LAYOUT)
        self.assertEqual(self.told(second, (2, LAYOUT))[:1], [wrong % 2])

    def test_starts_in_replies(self):
        """A reply may tell another start than the request; but all nodes have one layout for its position."""
        banks = closed(finals(WholeBanks(0)))
        it = asked("Q")
        for start in (None, (1, NEXT)):
            banks.compare(2, frame(3, it), [frame(3, replace(answer(it, "0"), start=start))])
        self.assertEqual(banks.faults, [])
        banks.compare(2, frame(3, it), [frame(3, replace(answer(it, "0"), start=(1, LAYOUT)))])
        self.assertEqual(banks.faults, ["x has two layouts at position 1"])

    def asks(self, banks, *positions, call=77, node=3):
        """The faults that there are once a call of a node has asked at these positions, telling no start."""
        for position in positions:
            layout = (LAYOUT, NEXT)[position % 2]
            banks.compare(node, [b"tick"], [frame(2, replace(asked("N"), position=position, layout=layout, call=call))])
        return banks.faults

    def test_calls(self):
        """A call begins at a start, goes on at the next position or at a start, and may go back."""
        self.assertEqual(self.asks(WholeBanks(0), 0, 0, 1, 2, 1, 3), [])
        self.assertEqual(self.asks(finals(WholeBanks(0)), 1, 2), [])
        said = "a call of node 3 %s position %d of x; by the whole banks the start is %d"
        self.assertEqual(self.asks(WholeBanks(0), 1), [said % ("begins at", 1, 0)])
        both = finals(finals(WholeBanks(0)), (2, 3), 1, NEXT, LAYOUT)
        self.assertEqual(self.asks(both, 0, 2), [])
        self.assertEqual(self.asks(finals(WholeBanks(0)), 0, 2), [said % ("goes from position 0 to", 2, 1)])

    def test_other_calls(self):
        """Where a call has asked says nothing of another call, nor of one with this id at another node."""
        banks = WholeBanks(0)
        self.assertEqual(self.asks(banks, 0), [])
        self.assertEqual(len(self.asks(banks, 1, call=78)), 1)
        self.assertEqual(len(self.asks(banks, 1, node=1)), 2)

    def test_positions_that_a_node_has_alone(self):
        """What a node asks of itself alone is in no frame."""
        alone = bytes([1, 3])
        for node, count in ((3, 0), (1, 1)):
            banks = WholeBanks(0)
            banks.learn(b"x", 0, alone)
            self.assertEqual(len(self.asks(banks, 1, node=node)), count)


def spread(status, **more):
    """A request that tells node 2 that the pointer has this status."""
    return replace(asked("S", next=NEXT, status=status), **more)


# With this, node 2 asks itself to raise the pointer, where any two nodes are a quorum.
RAISE = spread(b"final", layout=WIDE, call=0, phase=0)
CLOSE = [b"close", b"0", b"x"]


class Closing(unittest.TestCase):
    def log(self, *entries):
        """The path of a log with these entries."""
        path = Path(self.enterContext(tempfile.TemporaryDirectory())) / "log"
        path.write_bytes(log_of([encode(entry) for entry in entries]))
        return path

    def read(self, banks, *entries):
        """The faults that there are once the log of node 2 has these entries."""
        banks.read_log(2, self.log(*entries))
        return banks.faults

    def test_closed_banks(self):
        """A node closes a bank only before a start, and once the bank's pointer is final. What the log has before the
        entry counts."""
        closes = "node 2 closes its bank of x at position 0"
        for statuses, others, said in (([b"pending", b"final"], (1, 3), None), ([b"final"], (1, 3), None),
                                       ([b"pending"], (1, 3), f"{closes}, whose pointer is pending"),
                                       ([], (1, 3), f"{closes}, whose pointer is unset"),
                                       ([b"final"], (1,), f"{closes}; by the whole banks the start is 0")):
            banks = finals(WholeBanks(0), others)
            served = [[b"serve", *spread(status).strings()] for status in statuses]
            self.assertEqual(self.read(banks, *served, CLOSE), [said] if said else [])
            self.assertEqual(banks.counts["banks closed"], 1)

    def test_raised_pointers(self):
        """A node raises a pointer by itself only before a start. Where the pointer is final, it does nothing."""
        raised = [b"serve", *RAISE.strings()]
        said = "node 2 raises the pointer of x at position 0 by itself; by the whole banks the start is 0"
        for others, wanted in ((1, 3), []), ((1,), [said]), ((), [said]):
            banks = finals(WholeBanks(0), others, layout=WIDE)
            self.assertEqual(self.read(banks, raised, *[CLOSE] * (others == (1, 3))), wanted)
            self.assertEqual(banks.counts["pointers raised"], 1)
        for others in (2,), (1, 2):
            banks = finals(WholeBanks(0), others, layout=WIDE)
            self.assertEqual((self.read(banks, raised), banks.counts["pointers raised"]), ([], 0))

    def test_replies_come_before_the_pointer_is_raised(self):
        """A node that a request tells of a start replies as its bank is, and then raises the pointer, and closes the
        bank."""
        ask = replace(asked("N", start=(1, NEXT)), layout=WIDE)
        for status, count in (b"pending", 0), (b"final", 1):
            banks = finals(finals(WholeBanks(0), (1, 3), layout=WIDE), (2,), layout=WIDE, status=b"pending")
            made = replace(answer(ask, status=status), next=NEXT, start=(1, NEXT))
            banks.compare(2, frame(3, ask), [frame(3, made)], log=self.log([b"serve", *RAISE.strings()], CLOSE))
            self.assertEqual((len(banks.faults), banks.counts["pointers raised"]), (count, 1))

    def handled(self, served, came, *written, **more):
        """The faults that there are once node 2, whose bank has served this request, if any, has handled what came from
        node 3, and has sent this there. The start is 2."""
        banks = finals(finals(WholeBanks(0), (1, 3), layout=WIDE, after=ALONE), (3,), 1, ALONE, LAYOUT)
        if served is not None:
            banks.compare(2, frame(9, served), [frame(9, answer(served, "0" if served.kind == b"query" else None))])
        banks.compare(2, frame(3, came), [frame(3, made) for made in written], **more)
        return banks.faults

    def test_kept_banks(self):
        """After a message, a node has no open bank before the start that a request told it, or that it tells then. It
        may have one whose pointer is unset, if it may not have heard of the next position."""
        pending, final = (spread(status, layout=WIDE, next=ALONE) for status in (b"pending", b"final"))
        query, write = replace(asked("Q"), layout=WIDE), replace(asked("Pa"), layout=WIDE)
        for start in (1, ALONE), (2, LAYOUT):
            kept = [f"node 2 keeps its bank of x at position 0; it knows the start {start[0]}"]
            for served, faults in ((final, kept), (pending, kept), (write, kept if start[0] == 1 else []), (query, []),
                                   (None, [])):
                with self.subTest(start=start, served=served):
                    reply = answer(query, "0")
                    self.assertEqual(self.handled(served, replace(query, start=start), reply), faults)
                    self.assertEqual(self.handled(served, query, replace(reply, start=start)), faults)

    def test_banks_that_may_stay(self):
        """A reply may be to no call that is open, and then the node hears of nothing. A frame that the node may not have
        handled, and a tick, show nothing either."""
        query, tells = replace(asked("Q"), layout=WIDE), {"start": (1, ALONE)}
        final, reply = spread(b"final", layout=WIDE, next=ALONE), replace(answer(query, "0"), **tells)
        asks = replace(asked("N"), position=1, layout=ALONE, member=0, **tells)
        self.assertEqual(self.handled(final, reply), [])
        self.assertEqual(len(self.handled(final, reply, asks)), 1)
        self.assertEqual(self.handled(final, replace(query, **tells), is_whole=False), [])
        banks = finals(WholeBanks(0), layout=WIDE, after=ALONE)
        banks.compare(2, [b"tick"], [frame(3, asks)])
        self.assertEqual(banks.faults, [])


if __name__ == "__main__":
    unittest.main()
