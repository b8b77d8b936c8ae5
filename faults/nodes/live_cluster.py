"""A cluster over NATS in real time: the processes of its nodes and of its NATS servers, which a test kills and starts."""
import fcntl
import os
import shutil
import signal
import subprocess
import sys
import time
from pathlib import Path

TOP = Path(__file__).resolve().parent.parent.parent
sys.path.append(str(TOP / "deploy" / "test"))

from connection import Connection  # noqa: E402
from ports import LOOPBACK, free_ports  # noqa: E402

PATIENCE = 180

SERVER = """server_name: nats{number}
host: {address}
port: {port}
max_payload: 33554432
max_pending: 134217728
ping_interval: "1s"
ping_max: 3
write_deadline: "5s"
"""
ROUTES = """cluster {{
    name: live
    host: {address}
    port: 6222
    no_advertise: true
    routes: [{routes}]
}}
"""


class Broken(Exception):
    """A process did what no fault of the test explains."""


class Process:
    """A process that can be started again; what it says goes to the end of a file."""

    def __init__(self, words, said):
        self.words, self.said, self.child = [str(word) for word in words], Path(said), None

    def start(self):
        with open(self.said, "ab") as said:
            self.child = subprocess.Popen(self.words, stdin=subprocess.DEVNULL, stdout=said, stderr=said)

    def end(self, number=signal.SIGKILL):
        if self.child is not None:
            self.child.send_signal(number)
            self.wait()
            self.child = None

    def wait(self):
        """Waits until the process has ended."""
        try:
            self.child.wait(PATIENCE)
        except subprocess.TimeoutExpired:
            raise Broken(f"{Path(self.words[0]).name} has not ended within {PATIENCE} s") from None

    def runs(self):
        return self.child is not None and self.child.poll() is None


class LiveCluster:
    """Nodes 1 to `count`, all on loopback addresses with one NATS server between them; the last ones, `later` of them,
    keep no names at first. With `own_mover` the first of these moves objects, and else node 1. Another network may give
    each node a machine of its own: `address_of` and `words_on` say where it is and how a command runs there."""

    def __init__(self, options, folder, network=None, ticks=50, later=0, own_mover=False):
        self.count, self.folder, self.network = options.nodes + later, Path(folder), network
        self.program, self.host = options.program, options.host  # what nodes start with
        self.numbers = range(1, self.count + 1)  # those that have not been stopped for good
        self.file = self.folder / "cluster"
        self.members = list(self.numbers[:options.nodes])
        self.mover = options.nodes + 1 if own_mover else 1
        option = ["--own-mover"] if own_mover else []
        said = subprocess.run([TOP / "deploy" / "cluster-file", *option, str(options.nodes), str(ticks)], check=True,
                              stdout=subprocess.PIPE, text=True).stdout
        joined = " ".join(str(number) for number in self.numbers[options.nodes + own_mover:])
        self.file.write_text(said.replace("\nlater ", f"\nlater {joined} "))
        if network is None:
            *ports, nats_port = free_ports(self.count + 1)
            self.nats_ports, self.ports = [nats_port], dict(zip(self.numbers, ports))
        else:
            self.nats_ports = [4222] * self.count
            self.ports = dict.fromkeys(self.numbers, 7000)
        self.relays = {}  # of a node, the port through which it reaches its NATS server
        self.servers = [self.make_server(index) for index in range(len(self.nats_ports))]
        self.nodes = {}

    def address_of(self, number):
        return LOOPBACK if self.network is None else self.network.address_of(number)

    def words_on(self, number):
        return [] if self.network is None else self.network.words_on(number)

    def make_server(self, index):
        number = index + 1
        text = SERVER.format(number=number, address=self.address_of(number), port=self.nats_ports[index])
        if self.network is not None:
            others = [f"nats://{self.address_of(other)}:6222" for other in self.numbers if other != number]
            text += ROUTES.format(address=self.address_of(number), routes=", ".join(others))
        path = self.folder / f"nats-{number}.conf"
        path.write_text(text)
        return Process([*self.words_on(number), "nats-server", "-c", path], self.folder / f"nats-{number}.log")

    def make_node(self, number):
        (self.folder / f"node-{number}").mkdir(exist_ok=True)
        index = 0 if self.network is None else number - 1
        port = self.relays.get(number, self.nats_ports[index])
        program = ["--program", self.program] if self.program else []
        return Process([*self.words_on(number), self.host, "--node", number, "--cluster", self.file,
                        "--folder", self.folder / f"node-{number}", *program,
                        "--listen", self.address_of(number), "--port", self.ports[number],
                        "--nats", f"nats://{self.address_of(number)}:{port}"], self.folder / f"node-{number}.log")

    def start(self):
        for server in self.servers:
            server.start()
        for number in self.numbers:
            self.nodes[number] = self.make_node(number)
            self.nodes[number].start()

    def stop(self):
        for process in [*self.nodes.values(), *self.servers]:
            process.end(signal.SIGTERM)

    def kill(self, number, how=signal.SIGKILL):
        """Kills the host; the system then kills the node program, if there is one. The lock on the folder says when the
        node has ended. With another signal, the host ends both."""
        self.nodes[number].end(how)
        folder = os.open(self.folder / f"node-{number}", os.O_RDONLY)
        fcntl.flock(folder, fcntl.LOCK_EX)
        os.close(folder)

    def retire(self, number):
        """Kills a node for good."""
        self.kill(number)
        self.numbers = [other for other in self.numbers if other != number]

    def programs_of(self, number):
        """The processes of the node program that a host has started, if it has."""
        host = self.nodes[number].child
        return [int(child) for child in Path(f"/proc/{host.pid}/task/{host.pid}/children").read_text().split()]

    def kill_program(self, number):
        """Kills the node program; the host then ends by itself. If there is none, the host is killed."""
        programs = self.programs_of(number)
        for child in programs:
            os.kill(child, signal.SIGKILL)
        if programs:
            self.nodes[number].wait()
        self.kill(number)

    def start_node(self, number):
        self.nodes[number].start()

    def has_ended(self, number):
        """Whether the node has ended by itself."""
        return not self.nodes[number].runs()

    def connect(self, number):
        return Connection(self.ports[number], self.address_of(number))

    def wait_for_answer(self, number, words=(b"PING",), wanted=None):
        """Asks the node until it answers, and with `wanted` until it answers that."""
        end, answer = time.monotonic() + PATIENCE, None
        while time.monotonic() < end:
            try:
                with self.connect(number) as client:
                    answer = client.ask(*words)
            except OSError:
                answer = None
            if answer is not None and wanted in (None, answer):
                return answer
            time.sleep(0.1)
        raise Broken(f"node {number} does not answer {words[0].decode()} as it should within {PATIENCE} s: {answer}")

    def wait_for_all(self):
        """Until a write through each node succeeds."""
        for number in self.numbers:
            self.wait_for_answer(number, (b"SET", b"started", b"%d" % number), b"+OK")

    def said_by(self, number):
        return self.nodes[number].said.read_text(errors="replace")

    def faults_said(self):
        """What a sanitizer or the node program said that no fault of a test explains."""
        words = ("Sanitizer", "runtime error", "panicked", "the log, from byte")
        said = [line for number in self.nodes for line in self.said_by(number).split("\n")]
        return [line for line in said if any(word in line for word in words)]

    def remove(self):
        shutil.rmtree(self.folder, ignore_errors=True)
