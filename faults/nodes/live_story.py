#!/usr/bin/env python3
"""Runs one story over one cluster: live_story.py STORY OPTIONS, as `live` starts it, with its options as JSON."""
import json
import random
import shutil
import subprocess
import sys
import tempfile
import threading
import time
from argparse import Namespace
from pathlib import Path

import live_network
from check import is_atomic
from live_clients import LiveHistory, Load, Names, SameNames, Values, note_answer
from live_cluster import PATIENCE, Broken, LiveCluster
from live_stories import ON_LOOPBACK, ON_MACHINES
from relay import Relays

PASSED, FAILED, SKIPPED, NOT_SET_UP = 0, 1, 3, 4
GIVE_UP_SOON = {"nats", "cuts", "delays"}
LATER = {"replacement": 2, "mover": 1}  # how many nodes are in no first layout, where there are some
OWN_MOVER = {"mover", "departure"}  # where the first of these moves objects
ACTIVE = {"replacement": 120}  # how many names are in use at a time, where they are not four
LEAST_NAMES = 40  # of `departure`, which has one more for each second
MOST_READ_AGAIN = 60


def later_nodes(name, options):
    """How many nodes are in no first layout: in `departure` the mover, and one for each of the first nodes."""
    return options.nodes + 1 if name == "departure" else LATER.get(name, 0)


def names_of(name, options):
    """The names that clients use. A name has a few hundred calls at most, so that its history can be checked."""
    if name == "departure":
        return SameNames(LEAST_NAMES + int(options.seconds), 4, 15)
    return Names(ACTIVE.get(name, 4), 60)


class Test:
    """One story over one cluster: its clients, its history, and what it counted."""

    def __init__(self, name, options, folder):
        self.name, self.options, self.folder = name, options, Path(folder)
        self.source = self.choices_of(name)
        self.history, self.names, self.counts, self.why = LiveHistory(), names_of(name, options), {}, None
        self.lock, self.ends, self.wires, self.mounted = threading.Lock(), 0, None, []
        network = live_network.Network(options.nodes) if name in ON_MACHINES else None
        # Where nodes are often apart, calls are given up soon, so that histories have such calls too.
        self.cluster = LiveCluster(options, folder, network, ticks=15 if name in GIVE_UP_SOON else 50,
                                   later=later_nodes(name, options), own_mover=name in OWN_MOVER)
        self.load = Load(self.cluster, self.history, options.seed, options.clients, self.names, 0.02)
        if name == "upgrade":
            self.cluster.program, self.cluster.host = options.before, options.host_before
        if name == "relays":
            self.wires = Relays(self.cluster.numbers, self.cluster.nats_ports[0])
            self.cluster.relays = self.wires.ports()

    def choices_of(self, what):
        return random.Random(f"{self.options.seed} {self.name} {what}")

    def goes_on(self, until=None):
        """Whether the story goes on. On a slow machine it may take longer until what it needs has been counted."""
        late = PATIENCE if until is not None and not self.counts.get(until) else 0
        return time.monotonic() < self.ends + late and not self.history.faults

    def wait_for(self, what, happened):
        """Waits until that has happened."""
        end = time.monotonic() + PATIENCE
        while not happened():
            if time.monotonic() > end:
                raise Broken(f"{what} within {PATIENCE} s")
            time.sleep(0.05)

    def sleep(self, least, most):
        time.sleep(least + self.source.random() * (most - least))

    def count(self, what, count=1):
        with self.lock:
            self.counts[what] = self.counts.get(what, 0) + count

    def needs(self, what):
        if not self.counts.get(what):
            raise Broken(f"there were no {what}")

    def skip(self, why):
        self.why = why

    def go(self):
        """Runs the story under load, and then everything must be whole."""
        cluster = self.cluster
        cluster.start()
        cluster.wait_for_all()
        self.ends = time.monotonic() + self.options.seconds
        with self.load:
            {**ON_LOOPBACK, **ON_MACHINES}[self.name](self)
        if self.why is None:
            cluster.wait_for_all()
            self.read_again()
            self.check()

    def read_again(self):
        """Reads names once more, each at one of the nodes, until it is answered."""
        names, nodes = self.names.all(), self.cluster.numbers
        for place, name in enumerate(self.source.sample(names, min(len(names), MOST_READ_AGAIN))):
            node = nodes[place % len(nodes)]
            self.wait_for(f"node {node} does not answer a read of {name}, though everything is whole,",
                          lambda node=node, name=name: self.answers(node, name))

    def answers(self, node, name, value=None):
        """Whether the node answers a read, or a write where a value is given."""
        words = [b"GET", name.encode()] if value is None else [b"SET", name.encode(), Values.bytes_of(value)]
        with self.cluster.connect(node) as client:
            key = self.history.begin(name, value)
            return note_answer(self.history, key, name, value, client.ask(*words)) is not None

    def check(self):
        history, faults = self.history, [*self.history.faults, *self.cluster.faults_said()]
        faults += [f"no register has the history of {name}" for name, calls in history.objects.items()
                   if not is_atomic(calls)]
        if not history.answered_reads or not history.answered_writes:
            faults.append("no read or no write was answered")
        if faults:
            raise Broken("; ".join(faults[:5]))

    def stop(self):
        self.cluster.stop()
        for folder in self.mounted:
            subprocess.run(["umount", folder], check=True)
        if self.wires is not None:
            self.wires.stop()

    def keep(self, folder):
        Path(folder).mkdir(parents=True, exist_ok=True)
        self.history.write(Path(folder) / f"history-{self.name}")
        self.history.write_run(Path(folder) / f"run-{self.name}")
        for said in self.folder.glob("*.log"):
            shutil.copy(said, Path(folder) / f"{self.name}-{said.name}")

    def line(self):
        history = self.history
        begun = sum(len(calls) for calls in history.objects.values())
        done = ", ".join(f"{count} {what}" for what, count in sorted(self.counts.items()))
        return (f"{self.name}: {done}; {begun} calls, {history.answered_reads} reads and {history.answered_writes} "
                f"writes answered, {history.given_up} given up, {history.lost} without an answer; "
                f"{len(history.objects)} histories")


def run(test):
    """Runs the test and ends its processes. Its status."""
    try:
        try:
            test.go()
        finally:
            test.stop()
    except (Broken, OSError, subprocess.SubprocessError) as fault:
        print(f"{test.name}: FAILED: {fault}\n{test.line()}")
        for said in sorted(test.folder.glob("*.log")):
            print(f"{said.name}: {said.read_text(errors='replace')[-600:]}")
        return FAILED
    if test.why is not None:
        print(f"{test.name}: SKIPPED: {test.why}")
        return SKIPPED
    print(f"{test.line()}, all atomic")
    return PASSED


def main(name, options):
    options = Namespace(**json.loads(options))
    with tempfile.TemporaryDirectory(prefix="live-", ignore_cleanup_errors=True) as folder:
        try:
            live_network.prepare()
            test = Test(name, options, folder)
        except (OSError, subprocess.SubprocessError) as fault:
            print(f"{name}: its machines could not be made: {fault}")
            return NOT_SET_UP
        try:
            return run(test)
        finally:
            if options.keep:
                test.keep(options.keep)


if __name__ == "__main__":
    sys.exit(main(*sys.argv[1:]))
