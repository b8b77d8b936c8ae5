"""Whole banks, which forget nothing, beside the nodes of a test cluster: each reply of a node has to be that of its
whole bank, and what a node tells and does of starts, which pointers it raises by itself, and which banks it closes or
keeps, has to be what these banks and the messages allow.

A node has a whole bank for each position of each name (whole_bank.py). The bank serves what the node serves: the
requests in frames that the node replies to, and those in the node's log, where it also writes what it asks of itself.
Serving a request twice changes nothing more, and the order changes no state, so it does not matter that the log has
requests which also came as frames. But a node raises a pointer by itself after it has replied, so what the whole bank
replies is found before the log is read. A request of a node to itself that its log does not have names a tag that the
node forgets; no answer depends on it. A frame that is lost, or that meets a node which is killed before it logs it,
reaches neither bank.

A start is a position such that, at each position before it, the pointer is final at a quorum (crates/starts). A call
begins at a start, and later asks at the next position or at another start. A node closes a bank only before a start,
and only if the bank's pointer is final. It may raise the pointer for that. Its log says both, and only a closed bank
declines a fetch. After a node has handled a message, it has no open bank before the start that it then tells, or that a
request told it, unless it could not raise the pointer, since it had not heard of the next position."""
import os
from dataclasses import replace

import messages
from frames import frame_at
from log_form import HEAD
from whole_bank import (FINAL, WITH_TAG, WholeBank, is_for, is_message, is_of_the_node_itself, is_sent_back, message_in,
                        messages_in, said, start_in, told)

MOST_FAULTS = 3


class WholeBanks:
    """The whole banks of all nodes, what they found, and how many replies were compared."""

    def __init__(self, delta):
        self.delta = delta
        self.banks, self.layouts, self.read = {}, {}, {}
        self.passed = {}     # of each name the latest start
        self.reached = {}    # of each call the last position at which it asked
        self.closed = set()  # the banks that nodes have closed: node, name and position
        self.faults = []
        self.counts = {"replies compared": 0, "tellings compared": 0, "requests without a reply": 0, "late pre-writes": 0,
                       "late finalizes": 0, "late fetches": 0, "starts told": 0, "calls begun at a start": 0,
                       "requests sent back": 0, "pointers raised": 0, "banks closed": 0}

    def fault(self, text):
        if len(self.faults) < MOST_FAULTS:
            self.faults.append(text)

    def bank(self, node, it):
        key = node, it.name, it.position
        if key not in self.banks:
            self.banks[key] = WholeBank(it.member, self.delta)
        return self.banks[key]

    def hear(self, it):
        """All nodes have one layout for each position of a name."""
        self.learn(it.name, it.position, it.layout)
        self.learn(it.name, it.position + 1, it.next)
        self.hear_start(it)

    def hear_start(self, it):
        """A message may tell a start, which has the layout of its position."""
        self.learn(it.name, *(it.start or (0, b"")))

    def learn(self, name, position, layout):
        if layout and self.layouts.setdefault((name, position), layout) != layout:
            self.fault(f"{name.decode()} has two layouts at position {position}")

    def start_of(self, name):
        """The latest start: at each position before it, the pointer is final at a quorum of the members."""
        position = self.passed.get(name, 0)
        while self.is_final(name, position):
            position += 1
        self.passed[name] = position
        return position

    def is_final(self, name, position):
        """Whether the pointer is final at a quorum of the position, if anybody has told its layout."""
        k, *members = self.layouts.get((name, position), bytes(1))
        finals = sum((node, name, position) in self.banks and self.banks[node, name, position].status == FINAL
                     for node in members)
        return finals > 0 and 2 * finals >= len(members) + k

    def tell(self, node, made):
        """A node may tell a start in each message that it sends. Layouts in its replies are compared."""
        (self.hear_start if made.is_reply else self.hear)(made)
        self.counts["starts told"] += start_in(made) > 0
        if start_in(made) > self.start_of(made.name):
            self.fault(f"node {node} tells the start {start_in(made)} of {made.name.decode()}; by the whole banks it "
                       f"is {self.start_of(made.name)}")

    def ask(self, node, made):
        """A call of a node asks at a position: at a start, or at most one behind those at which it has asked. What the
        node asked of itself alone was not seen."""
        call = node, made.name, made.call
        reached = self.reached.get(call, -1)
        self.counts["calls begun at a start"] += reached < 0 < made.position
        first = made.position
        while first > reached + 1 and self.layouts.get((made.name, first - 1), b"")[1:] == bytes([node]):
            first -= 1
        if first > reached + 1 and first > self.start_of(made.name):
            where = f"goes from position {reached} to" if call in self.reached else "begins at"
            self.fault(f"a call of node {node} {where} position {made.position} of {made.name.decode()}; by the whole "
                       f"banks the start is {self.start_of(made.name)}")
        self.reached[call] = max(reached, made.position)

    def send_back(self, node, asked, made):
        """A node sends a request back with a start that is later, and later than the request's position."""
        self.counts["requests sent back"] += 1
        if start_in(made) <= max(start_in(asked), asked.position):
            self.fault(f"node {node} sends a request about {made.name.decode()} at position {made.position} back, and "
                       "tells no later start")

    def raises(self, node, asked):
        """A node asks itself to raise the pointer of its bank to final."""
        if self.bank(node, asked).status == FINAL:
            return
        self.counts["pointers raised"] += 1
        if asked.position >= self.start_of(asked.name):
            self.fault(f"node {node} raises the pointer of {asked.name.decode()} at position {asked.position} by "
                       f"itself; by the whole banks the start is {self.start_of(asked.name)}")

    def close(self, node, name, position):
        """A node closes its bank."""
        bank = self.banks.get((node, name, position))
        status = 0 if bank is None else bank.status
        what = f"node {node} closes its bank of {name.decode()} at position {position}"
        if status != FINAL:
            self.fault(f"{what}, whose pointer is {messages.STATUSES[status].decode()}")
        elif position >= self.start_of(name):
            self.fault(f"{what}; by the whole banks the start is {self.start_of(name)}")
        self.closed.add((node, name, position))
        self.counts["banks closed"] += 1

    def must_have_closed(self, node, name, start):
        """A node that has handled a message knows this start. It keeps a bank before it only if the bank's pointer is
        unset, and the node may not have heard of the next position."""
        for position in range(start):
            bank = self.banks.get((node, name, position))
            if bank is None or not bank.is_changed or (node, name, position) in self.closed:
                continue
            if bank.status > 0 or position + 1 == start:
                self.fault(f"node {node} keeps its bank of {name.decode()} at position {position}; it knows the start "
                           f"{start}")

    def decline(self, node, asked, is_whole):
        """A node does not reply to a request: to a fetch, since its bank is closed, or because its computer stopped."""
        self.counts["requests without a reply"] += is_whole
        if is_whole and (asked.kind != b"fetch" or (node, asked.name, asked.position) not in self.closed):
            self.fault(f"node {node} declines {asked.kind.decode()} of {asked.name.decode()} at position "
                       f"{asked.position}; its log does not say that its bank is closed")

    def serve(self, node, asked):
        self.hear(asked)
        self.bank(node, asked).serve(asked)

    def read_log(self, node, log):
        """Serves the requests of the entries that have come to the log since it was last read."""
        place = self.read.get(node, 0)
        with open(log, "rb") as file:
            length = file.seek(0, os.SEEK_END)
            if length < place:
                self.fault(f"the log of node {node} lacks entries: it had {place} bytes, and has {length}")
            file.seek(place)
            data = file.read()
        at = 0
        while at + HEAD <= len(data) and (found := frame_at(data, at + HEAD)) is not None:
            strings, at = found
            if strings[0] == b"serve" and is_message(strings[1:]):
                asked = messages.read(strings[1:])
                if is_of_the_node_itself(asked):
                    self.raises(node, asked)
                self.serve(node, asked)
            elif strings[0] == b"close":
                self.close(node, strings[2], int(strings[1]))
        self.read[node] = place + at

    def compare(self, node, came, written, is_whole=True, log=None):
        """The node handled a frame, and wrote these, or its computer stopped meanwhile. Each reply among them has to be
        that to the request that came. What the node did is in its log, if this is given."""
        it, sent = message_in(came), messages_in(written)
        asked, expected, telling = None if it is None or it.is_reply else it, None, None
        if asked is not None and is_for(node, asked):
            bank = self.bank(node, asked)
            is_late = bank.forgets(asked)
            expected = bank.reply_to(asked, self.layouts.get((asked.name, asked.position + 1), b""))
            is_closed = (node, asked.name, asked.position) in self.closed
            telling = None if is_closed else bank.telling_after(asked)
        if log is not None:
            self.read_log(node, log)
        if self.compare_messages(node, came[0], asked, sent, expected):
            self.compare_tellings(node, asked, sent, telling)
            self.serve(node, asked)
            self.counts["replies compared"] += 1
            if is_late:
                self.counts[f"late {asked.kind.decode()}{'es' if asked.kind == b'fetch' else 's'}"] += 1
        elif expected is not None:
            self.decline(node, asked, is_whole)
        if it is not None and is_whole:
            told = [start_in(made) for _, made in sent if made.name == it.name]
            self.must_have_closed(node, it.name, max([start_in(asked) if asked else 0, *told]))

    def compare_messages(self, node, sender, asked, sent, expected):
        """Compares what a node sent when this request came, if it was one, with the reply of its whole bank, if it has
        to reply, and with the starts that there are. Returns whether it replied as it has to."""
        replies = 0
        for address, made in sent:
            self.tell(node, made)
            if is_sent_back(made, asked) and address == sender:
                self.send_back(node, asked, made)
                continue
            if not made.is_reply:
                self.ask(node, made)
                continue
            replies += 1
            if expected is None or replies > 1 or address != sender:
                self.fault(f"node {node} replies to no request: {said(made)}")
            elif replace(made, start=None, told=None) != expected:
                what = f"{asked.kind.decode()}{f' {asked.tag}' if asked.kind in WITH_TAG else ''}"
                self.fault(f"node {node} replies to {what} of {asked.name.decode()} at position {asked.position}: "
                           f"{said(made)}; its whole bank replies: {said(expected)}")
        return expected is not None and replies > 0

    def compare_tellings(self, node, asked, sent, telling):
        """What a node tells with a reply, if it tells anything, is what its bank is like once it has served the request.
        The reply of a closed bank tells nothing."""
        for made in (it for _, it in sent if it.is_reply):
            self.counts["tellings compared"] += made.told is not None
            if made.told not in (None, telling):
                self.fault(f"node {node} tells with its reply to {asked.kind.decode()} of {asked.name.decode()} at position "
                           f"{asked.position}: {told(made.told)}; its whole bank tells: {told(telling)}")
