"""Reads or writes many names through the nodes of a cluster, many at a time."""
import itertools
import sys
import threading
import time

from cluster_nodes import NoAnswer, side_by_side, text_of
from command_options import prefix
from node_client import encode

TRIES = 3  # so often a call is made, each time at another node if there are so many


class Copying:
    """Calls of clients, one for each name, over connections that are spread over the nodes that answer. `take` gets
    each name, with its value if the call reads."""

    def __init__(self, cluster, at_once, take):
        self.cluster, self.at_once, self.take = cluster, at_once, take
        self.lock, self.commands = threading.Lock(), iter(())
        self.done, self.total = 0, 0
        self.reasons = {}  # why a call failed, by its name

    def run(self, commands, total):
        """Makes these calls, of which there are `total`."""
        self.commands, self.total = iter(commands), total
        side_by_side(self.work, range(min(self.at_once, total)))

    def next_command(self):
        with self.lock:
            return next(self.commands, None)

    def work(self, place):
        """Makes calls over one connection, as long as there are some. Each worker begins at another node."""
        nodes = [node for _, node in sorted(self.cluster.nodes.items())]
        turns, client = itertools.cycle(nodes[place % len(nodes):] + nodes[:place % len(nodes)]), None
        while (words := self.next_command()) is not None:
            client = self.call(client, words, turns)
        if client is not None:
            client.close()

    def call(self, client, words, turns):
        """Makes a call over the connection, or over new ones. Returns the connection if the next call can use it."""
        for _ in range(TRIES):
            try:
                client = client or self.cluster.connect(next(turns))
                value = self.ask(client, words)
                self.take(words[1], value)
                with self.lock:
                    self.done += 1
                return client
            except NoAnswer as fault:
                reason = str(fault)
                if client is not None:
                    client.close()
                client = None
        with self.lock:
            self.reasons[words[1]] = reason
        return None

    @staticmethod
    def ask(client, words):
        """The value that a read gets; None for a write. A value may look like an error, so the line before it tells."""
        client.send(encode(words))
        line = client.line()
        if line[:1] == b"$":
            return client.bulk(int(line[1:]))
        if line != b"+OK":
            raise NoAnswer(text_of(line))
        return None

    def show_progress(self, survey=None):
        """Once a second, one line on standard error. Before the calls begin, it tells the names found so far."""
        def show():
            before = 0
            while True:
                time.sleep(1)
                done, left = self.done, self.total - self.done
                text = f"{done} names done, {left} left, {done - before} names a second"
                if survey is not None and self.total == 0:
                    text = f"{len(survey.layouts)} names found so far"
                print(f"{prefix()} {text}", file=sys.stderr, flush=True)
                before = done
        threading.Thread(target=show, daemon=True).start()
