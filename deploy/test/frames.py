"""Frames, in Python: arrays of bulk strings, for the stand-in and for the tests."""
import re
import sys
from pathlib import Path

sys.path.append(str(Path(__file__).resolve().parent.parent))

from node_client import encode  # noqa: E402, F401

MOST_STRINGS = 1024
LONGEST_STRING = (16 << 20) + (64 << 10)
# A line with a number of at most eight digits, as most are.
LINES = {kind: re.compile(re.escape(kind) + rb"(0|[1-9][0-9]{0,7})\r\n") for kind in (b"*", b"$")}


class BadFrame(Exception):
    """The bytes begin no frame."""


def number_at(data, at, kind, most):
    """The number in a line such as "$5\r\n", and the place behind the line; None where bytes are missing."""
    if (line := LINES[kind].match(data, at)) and (number := int(line[1])) <= most:
        return number, line.end()
    end = data.find(b"\r\n", at, at + 12)
    if end < 0:
        if len(data) - at >= 12:
            raise BadFrame("no end of a line")
        return None
    digits = data[at + 1:end]
    if data[at:at + 1] != kind or not digits.isdigit() or digits != b"%d" % int(digits) or int(digits) > most:
        raise BadFrame("a line that is none of a frame")
    return int(digits), end + 2


def frame_at(data, at):
    """The strings of the frame at a place, and the place behind it; None where bytes are missing."""
    found = number_at(data, at, b"*", MOST_STRINGS)
    if found is None:
        return None
    count, at = found
    strings = []
    for _ in range(count):
        found = number_at(data, at, b"$", LONGEST_STRING)
        if found is None or len(data) < found[1] + found[0] + 2:
            return None
        length, at = found
        strings.append(bytes(data[at:at + length]))
        at += length + 2
        if data[at - 2:at] != b"\r\n":
            raise BadFrame("no end of a string")
    return strings, at


class Frames:
    """Takes bytes as they come, and gives the frames that are whole."""

    def __init__(self):
        self.data = bytearray()

    def take(self, more):
        self.data += more
        at, frames = 0, []
        while (found := frame_at(self.data, at)) is not None:
            frames.append(found[0])
            at = found[1]
        del self.data[:at]
        return frames
