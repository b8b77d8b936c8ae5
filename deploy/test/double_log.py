"""The log of the test double `standin.py`."""
import fcntl
import os
import sys

from frames import Frames, encode


def lock(folder):
    """Locks the folder, as the node program does, or ends."""
    try:
        fcntl.flock(os.open(folder, os.O_RDONLY), fcntl.LOCK_EX | fcntl.LOCK_NB)
    except BlockingIOError:
        print("standin: another process runs in FOLDER", file=sys.stderr)
        sys.exit(1)


class Log:
    """The folder's log: frames, of which the last may be cut short."""

    def __init__(self, folder, forgets):
        lock(folder)
        path = os.path.join(folder, "log")
        self.entries = []
        if forgets or not os.path.exists(path):
            open(path, "wb").close()
        with open(path, "r+b") as file:
            frames = Frames()
            self.entries = frames.take(file.read())
            file.truncate(file.seek(0, os.SEEK_END) - len(frames.data))
        self.file = open(path, "ab")
        self.dirty = False

    def add(self, *strings):
        self.file.write(encode(strings))
        self.dirty = True

    def sync(self):
        if self.dirty:
            self.file.flush()
            os.fsync(self.file.fileno())
            self.dirty = False
