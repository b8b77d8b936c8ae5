"""A node program on pipes: it is given one frame after another, and what it writes is read until it has handled each."""
import os
import select
import subprocess
from pathlib import Path

from frames import Frames, encode

PATIENCE = 180  # seconds; a busy machine may let a node wait for long
BARRIER = b"client 0"


class NodeEnded(Exception):
    """A node program ended by itself, wrote what is no frame, or did not answer in time."""


def library_in(folder):
    """The library that is loaded into node programs whose computers stop at a sync, built in this folder."""
    library, source = Path(folder) / "lost_sync.so", Path(__file__).resolve().parent / "lost_sync.c"
    subprocess.run(["cc", "-O1", "-shared", "-fPIC", "-o", library, source, "-ldl"], check=True)
    return library


class Node:
    """One node program. After each frame it is sent a PING, whose answer says that it has handled the frame."""

    def __init__(self, words, number, folder, file, library=None):
        self.words, self.number, self.folder, self.file = words, number, folder, file
        self.mark, self.library = Path(folder) / "lost-sync", library
        self.process = None

    def start(self):
        arguments = [*self.words, str(self.file), str(self.number), str(self.folder)]
        around = dict(os.environ)
        if self.library is not None:
            around.update(LD_PRELOAD=str(self.library), LOST_SYNC=str(self.mark))
        try:
            self.process = subprocess.Popen(arguments, stdin=subprocess.PIPE, stdout=subprocess.PIPE, bufsize=0,
                                            env=around)
        except OSError as fault:
            raise NodeEnded(f"node {self.number} does not start: {fault}") from None
        self.frames = Frames()
        return self.give(None)

    def kill(self):
        self.process.kill()
        self.process.wait()
        self.process.stdin.close()
        self.process.stdout.close()
        self.process = None

    def give(self, frame):
        """Gives the node a frame, and returns all frames that it wrote until it had handled it."""
        given = b"" if frame is None else encode(frame)
        self.write(given + encode([BARRIER, b"PING"]))
        written = []
        while not any(frame[0] == BARRIER for frame in written):
            written += self.frames.take(self.read())
        return [frame for frame in written if frame[0] != BARRIER]

    def stop_at_sync(self, frame):
        """Gives the node a frame; when it is to sync its log, its computer stops, and what was not synced is lost.
        Returns whether it stopped so, and the frames that it wrote. A frame may need no sync."""
        self.mark.touch()
        self.write(encode(frame) + encode([BARRIER, b"PING"]))
        written, ended = [], False
        while not ended and not any(frame[0] == BARRIER for frame in written):
            try:
                written += self.frames.take(self.read())
            except NodeEnded as fault:
                try:
                    ended = self.process.wait(PATIENCE) == 0
                except subprocess.TimeoutExpired:
                    raise fault from None
                if not ended:
                    raise
        self.mark.unlink()
        return ended, [frame for frame in written if frame[0] != BARRIER]

    def write(self, data):
        """Writes while the node reads: a frame can be longer than the pipe, but the node reads it whole."""
        view = memoryview(data)
        try:
            while view:
                view = view[os.write(self.process.stdin.fileno(), view):]
        except BrokenPipeError:
            raise NodeEnded(f"node {self.number} ended") from None

    def read(self):
        output = self.process.stdout.fileno()
        ready, _, _ = select.select([output], [], [], PATIENCE)
        data = os.read(output, 1 << 20) if ready else b""
        if not data:
            raise NodeEnded(f"node {self.number} ended, or was silent for {PATIENCE} s")
        return data
