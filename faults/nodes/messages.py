"""Messages between nodes, for tests: their strings, today and in forms before.

Today a message is a head, the object's name, the bytes of a piece if it has one, and the bytes of a piece that it tells
besides, if it tells one. The head is the form, 5; the call, the phase, the position and the member (8, 4, 4 and 1 bytes);
0 for a request or 1 for a reply; the kind; the status; a tag (8 and 8 bytes); the step of a reply (8 bytes); whether
there is a piece, its point, and the length of its value (1, 1 and 4 bytes); the mark, which is 1 if a request asks for
the member's piece, 2 if a reply tells of its member, 3 if it also tells a piece, and else 0; the status, the greatest tag
(8 and 8 bytes), the point and the length of the value that are told; the digest of the cluster file; the layouts, each as
the number of its members, k and the members; and the start that the message tells, if it tells one: its position (4
bytes) and its layout. Numbers have their high byte first. What a message does not have is zero. In form 4, the form
before, no message tells of its member, and in form 3 none tells a start either."""
from dataclasses import dataclass

FORM, FORMS_BEFORE = 5, (3, 4)
KINDS = [b"next", b"spread", b"query", b"pre-write", b"finalize", b"fetch"]
STATUSES = [b"unset", b"pending", b"final"]
WIDTHS = {"form": 1, "call": 8, "phase": 4, "position": 4, "member": 1, "is_reply": 1, "kind": 1, "status": 1, "number": 8,
          "tag_call": 8, "step": 8, "is_piece": 1, "point": 1, "len": 4}
TOLD_WIDTHS = {"mark": 1, "told_status": 1, "told_number": 8, "told_call": 8, "told_point": 1, "told_len": 4}
ASKS, TELLS, TELLS_PIECE = 1, 2, 3
DIGEST = 16


@dataclass
class Telling:
    """What a reply tells of its member: the status of its pointer, its greatest finalized tag, and a piece."""
    status: bytes
    greatest: tuple
    piece: tuple = None


@dataclass
class Message:
    """What a message says. Layouts are k and the members, as bytes; a tag is two numbers; a start is its position and its
    layout."""
    digest: bytes
    name: bytes
    kind: bytes
    layout: bytes = b"\x01\x01"
    is_reply: bool = False
    status: bytes = b"unset"
    tag: tuple = (0, 0)
    step: int = 0
    piece: tuple = None
    call: int = 1
    phase: int = 1
    position: int = 0
    member: int = 0
    next: bytes = b""
    start: tuple = None
    asks_piece: bool = False
    told: Telling = None

    def names_next(self):
        """Whether the message says that the pointer is pending or final, so that it has the next layout."""
        return self.status != b"unset" and self.kind == (b"next" if self.is_reply else b"spread")

    def strings(self, form=FORM):
        """The strings of the message: a piece is its point, the length of its value, and its bytes."""
        point, length, *last = self.piece or (0, 0)
        said = (form, self.call, self.phase, self.position, self.member, self.is_reply, KINDS.index(self.kind),
                STATUSES.index(self.status), *self.tag, self.step, self.piece is not None, point, length)
        numbers = numbers_of(said, WIDTHS)
        if form == FORM:
            told, piece = self.said_besides()
            numbers, last = numbers + numbers_of(told, TOLD_WIDTHS), [*last, *piece]
        layouts = b"".join(layout_bytes(it) for it in (self.layout, self.next) if it)
        start = self.start[0].to_bytes(4, "big") + layout_bytes(self.start[1]) if self.start else b""
        return [numbers + self.digest + layouts + start, self.name, *last]

    def said_besides(self):
        """What the head says of what the message asks and tells besides, and the bytes of the told piece."""
        if not self.told:
            return (ASKS if self.asks_piece else 0, 0, 0, 0, 0, 0), []
        point, length, *last = self.told.piece or (0, 0)
        mark = TELLS_PIECE if self.told.piece else TELLS
        return (mark, STATUSES.index(self.told.status), *self.told.greatest, point, length), last


def numbers_of(said, widths):
    return b"".join(it.to_bytes(width, "big") for it, width in zip(said, widths.values()))


def layout_bytes(layout):
    """The number of members, k and the members."""
    return bytes([len(layout) - 1]) + layout


def layout_in(data):
    """The layout in the first bytes, and the bytes behind it."""
    end = 2 + data[0]
    assert len(data) >= end
    return data[1:end], data[end:]


def read(strings):
    """The message of these strings."""
    head, name, *last = strings
    said, place = {}, 0
    for word, width in {**WIDTHS, **TOLD_WIDTHS}.items():
        said[word] = int.from_bytes(head[place:place + width], "big")
        place += width
    layout, rest = layout_in(head[place + DIGEST:])
    it = Message(head[place:place + DIGEST], name, KINDS[said["kind"]], layout, bool(said["is_reply"]),
                 STATUSES[said["status"]], (said["number"], said["tag_call"]), said["step"],
                 (said["point"], said["len"], last.pop(0)) if said["is_piece"] else None, said["call"], said["phase"],
                 said["position"], said["member"], asks_piece=said["mark"] == ASKS)
    if said["mark"] >= TELLS:
        piece = (said["told_point"], said["told_len"], last.pop(0)) if said["mark"] == TELLS_PIECE else None
        it.told = Telling(STATUSES[said["told_status"]], (said["told_number"], said["told_call"]), piece)
    if it.names_next():
        it.next, rest = layout_in(rest)
    if rest:
        layout, behind = layout_in(rest[4:])
        it.start, rest = (int.from_bytes(rest[:4], "big"), layout), behind
    assert said["form"] == FORM and not rest and not last
    return it


def old_strings(it):
    """The strings of a message in form 2, in which all numbers were strings of decimal digits, and nothing was told."""
    status = [it.status]
    tag = [b"%d" % number for number in it.tag]
    rest = {b"spread": status, b"pre-write": tag, b"finalize": tag, b"fetch": tag}.get(it.kind, [])
    piece = [b"%d" % it.piece[0], b"%d" % it.piece[1], it.piece[2]] if it.piece else []
    if it.is_reply:
        answers = {b"next": status, b"query": tag, b"fetch": [b"piece", *piece] if it.piece else [b"none"]}
        piece = [b"%d" % it.step, *answers.get(it.kind, [])]
    numbers = [b"%d" % number for number in (it.call, it.phase, it.position, it.member)]
    return [it.digest, it.name, it.layout, *numbers, b"reply" if it.is_reply else b"request", it.kind, *rest, *piece,
            *([it.next] if it.next else [])]
