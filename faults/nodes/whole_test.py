#!/usr/bin/env python3
"""Tests the whole banks beside nodes: by small lists of requests whose answers were derived by hand, and by replies that
differ from them."""
import sys
import tempfile
import unittest
from dataclasses import replace
from pathlib import Path

HERE = Path(__file__).resolve().parent
sys.path[:0] = [str(HERE), str(HERE.parents[1] / "deploy" / "test")]
sys.dont_write_bytecode = True

from frames import encode  # noqa: E402
from log_form import log_of  # noqa: E402
from messages import Message, Telling  # noqa: E402
from whole import WholeBanks  # noqa: E402

LAYOUT, NEXT = bytes([2, 1, 2, 3]), bytes([1, 2, 3])
TAGS = {"a": (1, 10), "b": (2, 20), "c": (3, 30), "d": (4, 40), "0": (0, 0)}
PIECES = {letter: (1, 2, letter.encode()) for letter in "abcd"} | {"0": (1, 0, b"")}

# A list of requests, each with the answer of a bank with this delta: P tag pre-writes, F tag finalizes, G tag fetches,
# Q asks for the greatest finalized tag. The answers to G are the tag of the piece, or "-" for none.
LISTS = [
    (0, "a new bank has the opening tag and the empty piece", "Q=0 G0=0"),
    (0, "what was only pre-written is not told", "Pa Q=0 Fa Q=a"),
    (0, "a fetch finalizes", "Pb Gb=b Q=b"),
    (0, "a fetch of a tag whose piece never came", "Gb=- Q=b"),
    (0, "at delta 0 one greater tag makes a fetch none", "Pa Fa Pb Fb Ga=- Gb=b Q=b"),
    (0, "a greater tag that was only pre-written does not count", "Pa Fa Pb Ga=a"),
    (0, "a pre-write that comes after a greater tag was finalized", "Pb Fb Pa Ga=- Q=b"),
    (0, "a finalize that comes after a greater one", "Pa Pb Fb Fa Q=b Ga=- Gb=b"),
    (1, "at delta 1 the tag before the newest one is still kept", "Pa Fa Pb Fb Ga=a Gb=b"),
    (1, "two greater tags make it none", "Pa Fa Pb Fb Pc Fc Ga=- Gb=b Gc=c"),
    (1, "a late finalize counts as one of two", "Pa Fa Pb Pc Fc Ga=a Fb Ga=- Gb=b"),
    (1, "a fetch counts as a finalize", "Pa Fa Pb Pc Gc=c Ga=a Gb=b Ga=-"),
    (1, "the same finalize counts once", "Pa Fa Pb Fb Fb Fb Ga=a"),
    (2, "at delta 2 three greater tags are needed", "Pa Fa Pb Fb Pc Fc Ga=a Pd Fd Ga=- Gb=b"),
    (2, "the piece of the opening tag goes like any other", "Fa Fb G0=0 Fc G0=-"),
    (None, "without a delta all pieces are kept", "Pa Fa Pb Fb Pc Fc Pd Fd Ga=a Gb=b G0=0 Q=d"),
]
KINDS = {"P": b"pre-write", "F": b"finalize", "G": b"fetch", "Q": b"query", "N": b"next", "S": b"spread"}


def asked(word, **more):
    """The request that a word names."""
    kind = KINDS[word[0]]
    tag = TAGS[word[1]] if word[1:2] else (0, 0)
    piece = PIECES[word[1]] if kind == b"pre-write" else None
    return Message(b"d" * 16, b"x", kind, LAYOUT, tag=tag, piece=piece, member=1, **more)


def answer(request, told=None, **more):
    """The reply that tells this tag, or the piece of it."""
    made = replace(request, is_reply=True, piece=None, next=b"", **more)
    if request.kind == b"query":
        return replace(made, tag=TAGS[told])
    return made if told in (None, "-") else replace(made, piece=PIECES[told])


def frame(node, it):
    return [b"node %d" % node, *it.strings()]


def finals(banks, members=(1, 2, 3), position=0, layout=LAYOUT, after=NEXT, status=b"final"):
    """The banks, once these members of x have served that its pointer has this status at a position."""
    for node in members:
        it = replace(asked("S"), position=position, layout=layout, next=after, status=status,
                     member=layout[1:].index(node))
        banks.compare(node, frame(9, it), [frame(9, answer(it))])
    return banks


def closed(banks, members=(1, 2, 3), position=0):
    """The banks, once these members of x have closed theirs at a position."""
    for node in members:
        banks.close(node, b"x", position)
    return banks


class Answers(unittest.TestCase):
    def play(self, banks, words):
        """Node 2 replies to node 3 as the words say."""
        for word in words.split():
            request, _, told = word.partition("=")
            it = asked(request)
            banks.compare(2, frame(3, it), [frame(3, answer(it, told or None))])

    def test_lists(self):
        for delta, why, words in LISTS:
            with self.subTest(delta=delta, why=why):
                banks = WholeBanks(delta)
                self.play(banks, words)
                self.assertEqual((banks.faults, banks.counts["replies compared"]), ([], len(words.split())))

    def test_each_other_answer_is_a_fault(self):
        """The answer to each fetch and each query of the lists, changed: none for a piece, a piece for none, another
        tag."""
        for delta, why, words in LISTS:
            for place, word in enumerate(words.split()):
                request, is_told, told = word.partition("=")
                if not is_told:
                    continue
                others = set("0ab-") - {told} - ({"-"} if request == "Q" else set())
                for other in others:
                    with self.subTest(why=why, word=word, other=other):
                        banks = WholeBanks(delta)
                        self.play(banks, " ".join([*words.split()[:place], f"{request}={other}"]))
                        self.assertEqual(len(banks.faults), 1)

    def test_pointers(self):
        """A bank's pointer rises and never falls; with it comes the next layout."""
        banks = WholeBanks(0)
        steps = [("N", b"unset"), ("S", b"pending"), ("N", b"pending"), ("S", b"final"), ("S", b"pending"), ("N", b"final")]
        for word, status in steps:
            it = asked(word, next=NEXT, status=status) if word == "S" else asked(word)
            told = {} if word == "S" else {"status": status}
            made = answer(it, **told)
            if word == "N" and status != b"unset":
                made = replace(made, next=NEXT)
            banks.compare(2, frame(3, it), [frame(3, made)])
        self.assertEqual(banks.faults, [])
        fallen = replace(answer(asked("N"), status=b"pending"), next=NEXT)
        banks.compare(2, frame(3, asked("N")), [frame(3, fallen)])
        self.assertIn("its whole bank replies: final", banks.faults[0])

    def test_what_came_late_is_counted(self):
        banks = WholeBanks(0)
        self.play(banks, "Pb Fb Pa Fa Ga=- Gb=b Q=b")
        self.assertEqual([banks.counts[f"late {kind}"] for kind in ("pre-writes", "finalizes", "fetches")], [1, 1, 1])


# Requests that came before, as in the lists; then a request, with "?" if it asks for the piece; and what the reply to it
# tells: the status of the pointer, the greatest tag, and the piece.
TOLD = [
    ("a new bank", "", "Q", Telling(b"unset", (0, 0))),
    ("the piece of a new bank", "", "Q?", Telling(b"unset", (0, 0), PIECES["0"])),
    ("what was only pre-written is not told", "", "Pa?", Telling(b"unset", (0, 0), PIECES["0"])),
    ("what the request itself has changed is told", "Pa", "Fa?", Telling(b"unset", TAGS["a"], PIECES["a"])),
    ("a smaller tag is not told", "Pa Pb Fb", "Fa?", Telling(b"unset", TAGS["b"], PIECES["b"])),
    ("a piece that never came", "", "Fb?", Telling(b"unset", TAGS["b"])),
    ("a piece for which nobody asks", "Pa", "Fa", Telling(b"unset", TAGS["a"])),
]


class Tellings(unittest.TestCase):
    def tells(self, banks, request, telling):
        """The faults that there are once node 2 has told this with its reply to node 3."""
        it = asked(request.rstrip("?"), asks_piece="?" in request)
        made = replace(answer(it, "0" if request[0] == "Q" else None), asks_piece=False, told=telling)
        banks.compare(2, frame(3, it), [frame(3, made)])
        return banks.faults

    def test_what_is_told(self):
        """Each other status, tag or piece is a fault; a reply may tell nothing."""
        for why, words, request, telling in TOLD:
            other_piece = None if telling.piece else PIECES["d"]
            others = (replace(telling, status=b"pending"), replace(telling, greatest=TAGS["d"]),
                      replace(telling, piece=other_piece))
            for told, count in ((telling, 0), (None, 0), *((it, 1) for it in others)):
                with self.subTest(why=why, told=told):
                    banks = WholeBanks(0)
                    Answers.play(self, banks, words)
                    self.assertEqual(len(self.tells(banks, request, told)), count)

    def test_pointers(self):
        """The reply to a request that raises the pointer tells it as it is then; a closed bank tells nothing."""
        final = Telling(b"final", (0, 0))
        banks = finals(WholeBanks(0), status=b"pending")
        self.assertEqual(self.tells(banks, "Q", replace(final, status=b"pending")), [])
        self.assertEqual(self.tells(finals(banks), "Q", final), [])
        said = ("node 2 tells with its reply to query of x at position 0: final, the greatest tag (0, 0), none; its whole "
                "bank tells: nothing")
        self.assertEqual(self.tells(closed(banks), "Q", final), [said])


class Frames(unittest.TestCase):
    def test_a_request_without_a_reply(self):
        """A computer may stop before the node replies. Then the whole bank does not serve the request."""
        banks = WholeBanks(0)
        banks.compare(2, frame(3, asked("Pa")), [], is_whole=False)
        banks.compare(2, frame(3, asked("Ga")), [frame(3, answer(asked("Ga"), "-"))])
        self.assertEqual((banks.faults, banks.counts["requests without a reply"]), ([], 0))

    def test_declined_requests(self):
        """A node declines fetches once it has closed its bank, and nothing else."""
        banks = WholeBanks(0)
        banks.compare(2, frame(3, asked("G0")), [])
        said = "node 2 declines fetch of x at position 0; its log does not say that its bank is closed"
        self.assertEqual(banks.faults, [said])
        banks = finals(WholeBanks(0))
        banks.close(2, b"x", 0)
        banks.compare(2, frame(3, asked("G0")), [])
        self.assertEqual((banks.faults, banks.counts["requests without a reply"]), ([], 1))
        banks.compare(2, frame(3, asked("Q")), [])
        self.assertEqual(len(banks.faults), 1)

    def test_replies_that_belong_to_no_request(self):
        """A reply to another node, a second reply, and one without a request."""
        it = asked("Q")
        made = answer(it, "0")
        for came, written in ((frame(3, it), [frame(1, made)]), (frame(3, it), [frame(3, made), frame(3, made)]),
                              ([b"tick"], [frame(3, made)]), (frame(3, made), [frame(3, made)])):
            banks = WholeBanks(0)
            banks.compare(2, came, written)
            self.assertEqual(banks.faults, ["node 2 replies to no request: the greatest tag is (0, 0)"])

    def test_each_part_of_a_reply(self):
        """A reply is that of the request's call, phase, position, member, layout and name, whatever it answers."""
        it = asked("Q")
        for part in ({"call": 2}, {"phase": 2}, {"position": 1}, {"member": 2}, {"layout": NEXT}, {"name": b"y"}, {"step": 1},
                     {"kind": b"next", "tag": (0, 0)}):
            banks = WholeBanks(0)
            banks.compare(2, frame(3, it), [frame(3, replace(answer(it, "0"), **part))])
            self.assertEqual(len(banks.faults), 1, part)

    def test_nodes_names_and_positions_have_banks_of_their_own(self):
        banks = WholeBanks(0)
        banks.compare(2, frame(3, asked("Fa")), [frame(3, answer(asked("Fa")))])
        for node, it in ((1, replace(asked("Q"), member=0)), (2, replace(asked("Q"), name=b"y")), (2, replace(asked("Q"), position=1))):
            banks.compare(node, frame(3, it), [frame(3, answer(it, "0"))])
        self.assertEqual(banks.faults, [])
        banks.compare(2, frame(3, asked("Q")), [frame(3, answer(asked("Q"), "0"))])
        self.assertEqual(len(banks.faults), 1)

    def test_requests_for_another_node(self):
        """A node replies to none. It sends one back, to the node from which it came, with a later start, or does
        nothing. Its whole bank does not serve it."""
        banks = closed(finals(WholeBanks(0)))
        other = replace(asked("Fa"), member=2)
        banks.compare(2, frame(3, other), [frame(3, replace(other, start=(1, NEXT)))])
        banks.compare(2, frame(3, other), [])
        banks.compare(2, frame(3, asked("Q")), [frame(3, answer(asked("Q"), "0"))])
        self.assertEqual((banks.faults, banks.counts["requests without a reply"]), ([], 0))
        banks.compare(2, frame(3, other), [frame(3, answer(other))])
        self.assertEqual(banks.faults, ["node 2 replies to no request: done, for the tag (1, 10)"])

    def test_requests_that_are_sent_back_for_nothing(self):
        """One that tells the same start already, and one that is at the start."""
        known, late = replace(asked("Fa"), member=2, start=(1, NEXT)), replace(asked("Fa"), layout=NEXT, position=1)
        for it in (known, late):
            banks = closed(finals(WholeBanks(0)))
            banks.compare(1, frame(3, it), [frame(3, replace(it, start=(1, NEXT)))])
            said = f"node 1 sends a request about x at position {it.position} back, and tells no later start"
            self.assertEqual(banks.faults, [said])

    def test_two_layouts_of_a_position(self):
        banks = WholeBanks(0)
        banks.compare(2, frame(3, asked("Q")), [frame(3, answer(asked("Q"), "0"))])
        other = replace(asked("Q"), layout=bytes([1, 1, 2]))
        banks.compare(2, frame(3, other), [frame(3, answer(other, "0"))])
        self.assertEqual(banks.faults, ["x has two layouts at position 0"])


class Log(unittest.TestCase):
    def test_what_a_node_served_by_itself(self):
        """Requests in the log count as served, each once its entry is whole; replies that were taken do not."""
        entries = [[b"cluster", b"d" * 16, b"2"], [b"start"], [b"serve", *asked("Pa").strings()],
                   [b"take", *answer(asked("Fb")).strings()], [b"serve", *asked("Fa").strings()]]
        log = log_of([encode(entry) for entry in entries])
        with tempfile.TemporaryDirectory() as folder:
            path, banks = Path(folder) / "log", WholeBanks(0)
            for length in (len(log) - 1, len(log)):
                path.write_bytes(log[:length])
                banks.read_log(2, path)
                told = "0" if length < len(log) else "a"
                banks.compare(2, frame(3, asked("Q")), [frame(3, answer(asked("Q"), told))])
            banks.compare(2, frame(3, asked("Ga")), [frame(3, answer(asked("Ga"), "a"))])
            self.assertEqual(banks.faults, [])

    def test_a_log_that_became_shorter(self):
        """What a node had synced, and what others rely on, may not be missing when it starts."""
        log = log_of([encode([b"start"])])
        with tempfile.TemporaryDirectory() as folder:
            path, banks = Path(folder) / "log", WholeBanks(0)
            path.write_bytes(log)
            banks.read_log(2, path)
            path.write_bytes(log[:-1])
            banks.read_log(2, path)
        said = f"the log of node 2 lacks entries: it had {len(log)} bytes, and has {len(log) - 1}"
        self.assertEqual(banks.faults, [said])


if __name__ == "__main__":
    unittest.main()
