"""A whole bank, which forgets nothing, and what messages say that a node gets and writes.

What a bank does is in crates/bank/specs: `served_bank` and `answer_to` of Serve.antt, `fetched_piece` of Collect.antt,
and `is_forgotten` of Floor.antt. A node keeps a bank from the first request on that changes it."""
import bisect
import copy
from dataclasses import replace

import messages

OPENING = (0, 0)
FINAL = messages.STATUSES.index(b"final")
WITH_TAG = (b"pre-write", b"finalize", b"fetch")


class WholeBank:
    """The bank of the member with this number, counted from 0 in its layout, for one object at one position. `delta` is
    a number, or None where all pieces are kept."""

    def __init__(self, member, delta):
        self.delta, self.status = delta, 0
        self.finals = [OPENING]                     # the finalized tags, in rising order
        self.pieces = {OPENING: (member, 0, b"")}   # of each tag the first piece that came
        self.is_changed = False                     # whether a request has changed it

    def is_below(self, tag):
        """Whether `delta` + 1 greater tags are finalized."""
        return self.delta is not None and len(self.finals) - bisect.bisect_right(self.finals, tag) > self.delta

    def forgets(self, asked):
        """Whether a node may have forgotten the tag that this request names."""
        return asked.kind in WITH_TAG and asked.tag != OPENING and self.is_below(asked.tag)

    def size(self):
        """What grows with each request that changes the bank."""
        return self.status, len(self.finals), len(self.pieces)

    def serve(self, asked):
        before = self.size()
        if asked.kind == b"spread":
            self.status = max(self.status, messages.STATUSES.index(asked.status))
        elif asked.kind == b"pre-write":
            self.pieces.setdefault(asked.tag, asked.piece)
        elif asked.kind in (b"finalize", b"fetch"):
            place = bisect.bisect_left(self.finals, asked.tag)
            if self.finals[place:place + 1] != [asked.tag]:
                self.finals.insert(place, asked.tag)
        self.is_changed |= self.size() != before

    def reply_to(self, asked, next_layout):
        """The reply to a request, but for what it tells. `next_layout` is that of the next position, if the bank has heard
        of one."""
        made = replace(asked, is_reply=True, piece=None, next=b"", step=0, start=None, asks_piece=False)
        if asked.kind == b"next":
            return replace(made, status=messages.STATUSES[self.status], next=next_layout if self.status else b"")
        if asked.kind == b"query":
            return replace(made, tag=self.finals[-1])
        if asked.kind == b"fetch" and not self.is_below(asked.tag):
            return replace(made, piece=self.pieces.get(asked.tag))
        return made

    def telling(self, asks_piece):
        """What a reply tells of the bank as it is now."""
        piece = self.pieces.get(self.finals[-1]) if asks_piece else None
        return messages.Telling(messages.STATUSES[self.status], self.finals[-1], piece)

    def telling_after(self, asked):
        """What the reply to a request tells: how the bank is once it has served the request."""
        after = copy.deepcopy(self)
        after.serve(asked)
        return after.telling(asked.asks_piece)


def is_message(strings):
    return len(strings) > 1 and strings[0][:1] == bytes([messages.FORM])


def message_in(frame):
    """The message in a frame that came to a node, or None."""
    return messages.read(frame[1:]) if frame[0].startswith(b"node ") and is_message(frame[1:]) else None


def messages_in(frames):
    """The messages to other nodes in frames that a node wrote, each with its address."""
    return [(address, messages.read(strings)) for address, *strings in frames
            if address.startswith(b"node ") and is_message(strings)]


def is_for(node, asked):
    """Whether the node is the member that a request names. A node replies to no other request; it sends it back."""
    return asked.layout[1 + asked.member] == node


def is_sent_back(made, asked):
    """Whether a message is a request that a node sends back: it differs from the one that came in its start alone."""
    return asked is not None and replace(made, start=asked.start) == asked


def is_of_the_node_itself(asked):
    """Whether a node has asked this of itself to raise a pointer: it is the request of no call."""
    return asked.kind == b"spread" and (asked.call, asked.phase) == (0, 0)


def start_in(it):
    """The position of the start that a message tells."""
    return it.start[0] if it.start else 0


def said(it):
    """What a reply answers, in words."""
    return {b"next": f"{it.status.decode()} {list(it.next)}", b"query": f"the greatest tag is {it.tag}",
            b"fetch": said_of_piece(it.piece)}.get(it.kind, f"done, for the tag {it.tag}")


def said_of_piece(piece):
    return "none" if piece is None else f"the piece of point {piece[0]} and {len(piece[2])} bytes"


def told(telling):
    """What a reply tells besides, in words."""
    if telling is None:
        return "nothing"
    return f"{telling.status.decode()}, the greatest tag {telling.greatest}, {said_of_piece(telling.piece)}"
