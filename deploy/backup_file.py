"""The file of a backup: a SET for each name, as nodes read it, so that redis-cli --pipe can send the file too. The last
frame, an ECHO, says how many names there are, and the checksum of all bytes before it."""
import hashlib
import os
import re
import threading
from pathlib import Path

from cluster_nodes import BadArguments
from node_client import encode

END = re.compile(rb"end of a backup: names (\d+), sha256 ([0-9a-f]{64})")
LINES = {kind: re.compile(re.escape(kind) + rb"(0|[1-9][0-9]{0,7})\r\n") for kind in (b"*", b"$")}


class NewBackup:
    """A backup that is being written. Until it is whole, the file has a name that ends in .part."""

    def __init__(self, path):
        self.path, self.part = Path(path), Path(f"{path}.part")
        self.lock, self.sum, self.names, self.bytes = threading.Lock(), hashlib.sha256(), 0, 0
        self.file = None
        if os.path.lexists(self.path):
            raise BadArguments(f"{path} exists already")

    def begin(self):
        self.part.unlink(missing_ok=True)
        self.file = open(os.open(self.part, os.O_WRONLY | os.O_CREAT | os.O_EXCL, 0o600), "wb")

    def add(self, name, value):
        frame = encode([b"SET", name, value])
        with self.lock:
            self.file.write(frame)
            self.sum.update(frame)
            self.names += 1
            self.bytes += len(value)

    def finish(self):
        """Gives the file its name, once all its bytes are on the disk."""
        end = b"end of a backup: names %d, sha256 %b" % (self.names, self.sum.hexdigest().encode())
        self.file.write(encode([b"ECHO", end]))
        self.file.flush()
        os.fsync(self.file.fileno())
        self.file.close()
        self.part.rename(self.path)
        folder = os.open(self.path.parent, os.O_RDONLY)
        os.fsync(folder)
        os.close(folder)

    def drop(self):
        """There will be no backup."""
        self.part.unlink(missing_ok=True)


def number_in(file, kind):
    """The number of the line that comes next, or None where no such line comes."""
    line = LINES[kind].fullmatch(file.readline(16))
    return int(line[1]) if line else None


def next_frame(file):
    """The strings of the frame that comes next, or None where no whole one comes."""
    strings = []
    for _ in range(number_in(file, b"*") or 0):
        length = number_in(file, b"$")
        data = b"" if length is None else file.read(length + 2)
        if length is None or len(data) != length + 2 or data[-2:] != b"\r\n":
            return None
        strings.append(data[:-2])
    return strings or None


def commands_of(path):
    """The commands of a backup, without what follows the first frame that is none of it."""
    with open(path, "rb") as file:
        while (frame := next_frame(file)) is not None and frame[0] == b"SET" and len(frame) == 3:
            yield frame
        if frame is not None and len(frame) == 2 and frame[0] == b"ECHO" and not file.read(1):
            yield frame


def check_backup(path):
    """How many names a backup has. Refuses a file that is not whole."""
    names, found, end = 0, hashlib.sha256(), None
    try:
        for frame in commands_of(path):
            if frame[0] == b"SET":
                names += 1
                found.update(encode(frame))
            else:
                end = END.fullmatch(frame[1])
    except OSError as fault:
        raise BadArguments(f"{path}: {fault.strerror}") from None
    if end is None:
        raise BadArguments(f"{path} is no whole backup: behind {names} names it ends, or has something else")
    if (int(end[1]), end[2]) != (names, found.hexdigest().encode()):
        raise BadArguments(f"{path} was changed after it was written: its checksum is wrong")
    return names
