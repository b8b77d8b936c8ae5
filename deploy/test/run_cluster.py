"""A cluster that deploy/run starts in a folder, whose nodes a test ends and starts by themselves."""
import fcntl
import os
import re
import signal
import subprocess
import time
from pathlib import Path

from connection import PATIENCE, Connection

DEPLOY = Path(__file__).resolve().parent.parent
CASD = os.environ.get("CASD", str(DEPLOY / "test" / "standin.py"))
LISTENS = re.compile(r"listening on 127.0.0.1 port (\d+)$", re.MULTILINE)
NO_QUORUM = b"-ERR no quorum answered in time"


def wait_for_end(folder):
    """Waits until no node program runs in the folder of a node: it has locked the folder."""
    number = os.open(folder, os.O_RDONLY)
    fcntl.flock(number, fcntl.LOCK_EX)
    os.close(number)


class RunCluster:
    """Nodes 1 to `count` in a folder, with the host at this path. Calls are given up after a minute."""

    def __init__(self, folder, host, count=3):
        self.folder, self.host, self.numbers = Path(folder), os.path.abspath(host), range(1, count + 1)
        self.words = {}  # of each node the command that started it
        self.children = []

    def start(self):
        file = self.folder.with_name("cluster-file")
        file.write_bytes(subprocess.run([DEPLOY / "cluster-file", str(len(self.numbers)), "600"], check=True,
                                        stdout=subprocess.PIPE).stdout)
        environment = {**os.environ, "CASD": CASD, "CASD_HOST": self.host, "FIRST_PORT": "0", "CLUSTER": str(file)}
        subprocess.run([DEPLOY / "run", str(len(self.numbers)), self.folder], env=environment, check=True,
                       stdout=subprocess.DEVNULL, timeout=PATIENCE)
        for number, process in zip(self.numbers, self.processes()):
            self.words[number] = Path(f"/proc/{process}/cmdline").read_text().split("\0")[:-1]

    def processes(self):
        """The hosts that were started, as deploy/stop finds them."""
        lines = [line.split() for line in (self.folder / "processes").read_text().splitlines()]
        return [int(process) for name, process in lines if name == Path(self.host).name]

    def stop(self):
        if (self.folder / "processes").exists():
            subprocess.run([DEPLOY / "stop", self.folder], check=True, timeout=PATIENCE)
        for child in self.children:
            child.wait(PATIENCE)
        if any(word in self.said() for word in ("Sanitizer", "runtime error", "panicked")):
            raise AssertionError(self.said())

    def folder_of(self, number):
        return Path(self.words[number][self.words[number].index("--folder") + 1])

    def stop_node(self, number):
        """Ends a node, and waits until it has ended."""
        for process in self.processes():
            try:
                words = Path(f"/proc/{process}/cmdline").read_text().split("\0")[:-1]
            except OSError:
                continue
            if words == self.words[number]:
                os.kill(process, signal.SIGTERM)
        wait_for_end(self.folder_of(number))

    def start_node(self, number, folder=None):
        """Starts a node that has been stopped, also in another folder."""
        words = self.words[number]
        words[words.index("--folder") + 1] = str(folder or self.folder_of(number))
        log = self.folder / f"node-{number}.log"
        log.rename(log.with_suffix(".log.before"))
        with open(log, "wb") as said:
            self.children.append(subprocess.Popen(words, stdout=said, stderr=said, start_new_session=True))
        with open(self.folder / "processes", "a") as file:
            print(Path(self.host).name, self.children[-1].pid, file=file)

    def port(self, number):
        """The port of a node, once it listens."""
        log, end = self.folder / f"node-{number}.log", time.monotonic() + PATIENCE
        while (found := LISTENS.search(log.read_text(errors="replace"))) is None:
            if time.monotonic() > end:
                raise AssertionError(f"node {number} does not listen: {log.read_text(errors='replace')}")
            time.sleep(0.02)
        return int(found[1])

    def said(self):
        """What the hosts and node programs have said since the last start of all, of each node since its last start."""
        return "".join(log.read_text(errors="replace") for log in self.folder.glob("node-*.log"))

    def addresses(self):
        return [f"127.0.0.1:{self.port(number)}" for number in self.numbers]

    def ask(self, number, *words):
        """The answer of a node, which is asked again while no quorum answers in time."""
        answer, end = NO_QUORUM, time.monotonic() + PATIENCE
        while answer == NO_QUORUM and time.monotonic() < end:
            with Connection(self.port(number)) as client:
                answer = client.ask(*words)
        return answer
