"""A host by itself, for tests: the first word of their command line is its program."""
import atexit
import os
import re
import signal
import subprocess
import sys
import tempfile
import time
from pathlib import Path

from connection import PATIENCE, Connection

CHILD = str(Path(__file__).resolve().parent / "child.py")
HOST = sys.argv.pop(1)
NO_NATS = "nats://127.0.0.1:9"
STARTED = []  # the hosts and servers that the tests have started


def kill_all():
    """Leaves no process behind where a test fails before its host has ended."""
    for process in STARTED:
        process.kill()


def end_at_once(*_):
    kill_all()
    os._exit(1)


atexit.register(kill_all)
signal.signal(signal.SIGTERM, end_at_once)


class Host:
    """A host with a child of this kind, in a folder of its own, without NATS."""

    def __init__(self, kind, *options, folder=None):
        self.folder = Path(folder or tempfile.mkdtemp())
        (self.folder / "cluster").write_text(kind + "\n")
        words = ["--node", "1", "--cluster", self.folder / "cluster", "--folder", self.folder, "--port", "0",
                 "--program", CHILD, "--nats", NO_NATS, *options]
        with open(self.folder / "log", "a") as log:
            self.process = subprocess.Popen([HOST, *words], stderr=log)
        STARTED.append(self.process)

    def said(self):
        return (self.folder / "log").read_text()

    def identity(self):
        """The identity of the host's folder."""
        return (self.folder / "identity").read_text().strip()

    def frames(self):
        """What a child that keeps frames has got so far."""
        file = self.folder / "frames"
        return file.read_text() if file.exists() else ""

    def wait_for(self, wanted):
        """Waits until the host says this, and returns the match."""
        end = time.monotonic() + PATIENCE
        while time.monotonic() < end:
            if found := re.search(wanted, self.said()):
                return found
            time.sleep(0.02)
        raise AssertionError(f"the host did not say: {wanted}\n{self.said()}")

    def lets_go(self):
        """A child that is late begins to read."""
        (self.folder / "go").touch()

    def port(self):
        return int(self.wait_for(r"listening on 127.0.0.1 port (\d+)\n")[1])

    def connect(self):
        return Connection(self.port())

    def end(self):
        """Tells the host to end, and gives its status."""
        self.process.send_signal(signal.SIGTERM)
        return self.status()

    def status(self):
        """The status with which the host ends, once it has: no sanitizer has found anything."""
        status = self.process.wait(PATIENCE)
        if "Sanitizer" in self.said():
            raise AssertionError(self.said())
        return status


def processes_with(word):
    """The processes with this word on their command line."""
    found = []
    for folder in Path("/proc").glob("[0-9]*"):
        try:
            if word.encode() in (folder / "cmdline").read_bytes().split(b"\0"):
                found.append(int(folder.name))
        except OSError:
            pass
    return found
