"""The two stores on machines: a cluster of nodes, of which each has a NATS server beside it, and etcd.

Clients of both connect to the loopback address of a machine.
"""
import os
import re
import signal
import subprocess
from pathlib import Path

from live_cluster import ROUTES, SERVER, Process

TOP = Path(__file__).resolve().parent.parent.parent
LOOPBACK = "127.0.0.1"
CLUSTER_PORT, PEER_PORT = 6222, 2380
ROOM = 8 << 30  # that etcd's database may take
# What deploy/run sets for a NATS server and for a host.
FOR_SERVER = {"GOMAXPROCS": "1", "GOGC": "400"}
FOR_HOST = {"GLIBC_TUNABLES": "glibc.malloc.tcache_count=200"}


class Store:
    """The processes of a store, all of which have been started, and where clients connect on each machine."""

    def __init__(self, name, folder, machines):
        self.name, self.folder, self.machines = name, folder, machines
        self.processes = []
        self.folder.mkdir()

    def start(self, number, name, words, settings):
        """Starts a program on a machine, with more variables."""
        given = ["env", *(f"{key}={value}" for key, value in settings.items())]
        process = Process([*self.machines.words_on(number), *given, *words], self.folder / f"{name}-{number}.log")
        process.start()
        self.processes.append(process)

    def stop(self):
        for process in reversed(self.processes):
            process.end(signal.SIGTERM)


class Nodes(Store):
    """Nodes with the settings of deploy/run, and NATS servers that form a cluster as in deploy/three-machines.md, but
    without TLS. A sync of a node's log takes a while."""
    protocol, port = "resp", 7000

    def __init__(self, name, folder, machines, options):
        super().__init__(name, folder, machines)
        said = subprocess.run([TOP / "deploy" / "cluster-file", str(len(machines.numbers))], check=True,
                              stdout=subprocess.PIPE).stdout
        (self.folder / "cluster").write_bytes(said)
        for number in machines.numbers:
            self.start(number, "nats", ["nats-server", "-c", self.settings_of(number)], FOR_SERVER)
        slow = {"LD_PRELOAD": options.slow_sync, "SLOW_SYNC": round(1000 * options.sync)} if options.sync else {}
        for number in machines.numbers:
            own = self.folder / f"node-{number}"
            own.mkdir()
            program = ["--program", options.program] if name == "casd" else []
            words = [options.host, "--node", number, "--cluster", self.folder / "cluster", "--folder", own, *program,
                     "--port", self.port, "--nats", f"nats://{LOOPBACK}:4222"]
            self.start(number, "node", words, {**FOR_HOST, **slow})

    def settings_of(self, number):
        """Writes the settings of a machine's NATS server."""
        address_of = self.machines.address_of
        routes = ", ".join(f"nats://{address_of(other)}:{CLUSTER_PORT}" for other in self.machines.numbers
                           if other != number)
        path = self.folder / f"nats-{number}.conf"
        path.write_text(SERVER.format(number=number, address=LOOPBACK, port=4222)
                        + ROUTES.format(address=address_of(number), routes=routes))
        return path

    def places(self):
        """Where a single client may be: what is said of the place, and its machine."""
        return {self.name: 1}


class Etcd(Store):
    """Members with etcd's own settings but for the room that they may take. Leaders send a heartbeat each 100 ms, or
    where a round trip takes longer, once in a round trip."""
    protocol, port = "grpc", 2379

    def __init__(self, name, folder, machines, _):
        super().__init__(name, folder, machines)
        peers = {number: f"http://{machines.address_of(number)}:{PEER_PORT}" for number in machines.numbers}
        cluster, own = ",".join(f"m{number}={peer}" for number, peer in peers.items()), f"http://{LOOPBACK}:{self.port}"
        beat = max(100, round(machines.round_trip))
        for number, peer in peers.items():
            words = ["etcd", "--name", f"m{number}", "--data-dir", self.folder / f"m{number}",
                     "--listen-client-urls", own, "--advertise-client-urls", own,
                     "--listen-peer-urls", peer, "--initial-advertise-peer-urls", peer, "--initial-cluster", cluster,
                     "--quota-backend-bytes", ROOM, "--heartbeat-interval", beat, "--election-timeout", 10 * beat]
            self.start(number, "etcd", words, {})

    def leader(self):
        """The machine of the member that became the leader last."""
        terms = {}
        for number in self.machines.numbers:
            said = (self.folder / f"etcd-{number}.log").read_text(errors="replace")
            terms[number] = max(map(int, re.findall(r"became leader at term (\d+)", said)), default=0)
        return max(terms, key=terms.get)

    def places(self):
        leader = self.leader()
        other = next(number for number in self.machines.numbers if number != leader)
        return {f"{self.name}, at the leader": leader, f"{self.name}, at a follower": other}


def store_of(name, folder, machines, options):
    return (Etcd if name == "etcd" else Nodes)(name, Path(os.path.realpath(folder)) / name, machines, options)
