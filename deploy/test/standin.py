#!/usr/bin/python3
"""A test double of the node program `casd`: standin.py [OPTION] FILE NODE FOLDER.

It exists so that the host, the driver of the test cluster and the checker of histories can be tried before there is
the real node. It is not proved, it codes nothing, and no user should keep data in it. It speaks the same frames on
standard input and output, and keeps a register for each name by the plain protocol of majorities: every node keeps the
whole value with its tag, and a call asks a majority for its greatest tag and then stores at a majority. A tag is a
number and the id of the write, which holds the node, its start count and a counter, so that no two writes share one.

Each option breaks it in one way, so that one can see the checker find it:
--forgets             a node starts with nothing each time
--forgets-starts      a node keeps its values but not its start count, so that ids of calls come again
--reads-in-one-phase  a read does not store what it found before it answers
"""
import os
import sys
from collections import deque

from answers import READINGS, answer_about_names, plain_answer
from double_log import Log
from frames import Frames, encode

NEVER_WRITTEN = ((0, 0, 0, 0), b"")


def tag_bytes(tag):
    return b".".join(b"%d" % part for part in tag)


def tag_of(text):
    return tuple(int(part) for part in text.split(b"."))


class Call:
    """A read or a write that is open: its first phase asks for tags, its second one stores."""

    def __init__(self, client, name, value, wanted, deletes):
        self.client, self.name, self.value, self.wanted, self.deletes = client, name, value, wanted, deletes
        self.request, self.found, self.replied = None, NEVER_WRITTEN, set()
        self.phase, self.age = 1, 0


class Connection:
    """A client's connection: the commands that wait, whether one is being carried out, and whether it has quit."""

    def __init__(self):
        self.waiting, self.is_open, self.has_quit = deque(), False, False


class Node:
    def __init__(self, file, node, folder, options):
        lines = [line.partition("#")[0].split() for line in open(file)]
        settings = {words[0]: [int(word) for word in words[1:] if word != "none"] for words in lines if words}
        self.nodes, [self.patience] = settings["nodes"] + settings["later"], settings["ticks"]
        self.number, self.in_one_phase = node, "--reads-in-one-phase" in options
        self.log = Log(folder, "--forgets" in options)
        self.kept, starts = {}, 0
        for entry in self.log.entries:
            if entry[0] == b"start":
                starts += 1
            elif entry[0] == b"keep":
                self.kept[entry[1]] = (tag_of(entry[2]), entry[3])
        self.log.add(b"start")
        self.start, self.counter, self.answered = starts + 1, 0, 0
        if "--forgets-starts" in options:
            self.start = 1
        if "--forgets" in options:
            self.start = time_of_start()
        self.calls, self.clients, self.out = {}, {}, []
        self.heard = []  # the numbers of the nodes that the host hears
        self.ready = deque()  # connections whose open call has ended

    # Between nodes.

    def send(self, to, *strings):
        if to == self.number:
            self.take_from_node(to, list(strings))
        else:
            self.out.append(encode([b"node %d" % to, *strings]))

    def take_from_node(self, sender, frame):
        kind = frame[0]
        if kind == b"query":
            tag, value = self.kept.get(frame[2], NEVER_WRITTEN)
            self.send(sender, b"state", frame[1], tag_bytes(tag), value)
        elif kind == b"store":
            self.keep(frame[2], tag_of(frame[3]), frame[4])
            self.send(sender, b"stored", frame[1])
        elif kind in (b"state", b"stored"):
            self.take_reply(sender, frame)

    def keep(self, name, tag, value):
        if tag > self.kept.get(name, NEVER_WRITTEN)[0]:
            self.kept[name] = (tag, value)
            self.log.add(b"keep", name, tag_bytes(tag), value)

    def take_reply(self, sender, frame):
        call = self.calls.get(frame[1])
        if call is None or call.phase != (1 if frame[0] == b"state" else 2):
            return
        call.replied.add(sender)
        if call.phase == 1:
            call.found = max(call.found, (tag_of(frame[2]), frame[3]))
        if len(call.replied) > len(self.nodes) // 2:
            self.go_on(frame[1], call)

    def go_on(self, number, call):
        """A majority has replied: goes to the second phase, or answers."""
        if call.phase == 2 or (call.value is None and self.in_one_phase):
            self.answered += 1
            if call.deletes and self.delete_next(number, call):
                return
            self.end_call(number, b":%d\r\n" % call.deletes[1] if call.deletes else b"+OK\r\n"
                          if call.value is not None else READINGS[call.wanted](call.found[1]))
            return
        if call.value is not None:
            call.found = ((call.found[0][0] + 1, *(int(part) for part in number.split(b"."))), call.value)
        call.phase, call.replied = 2, set()
        call.request = [b"store", number, call.name, tag_bytes(call.found[0]), call.found[1]]
        self.ask(call)

    def ask(self, call):
        """Sends the request of the current phase to all that have not replied to it, and to itself last, since with
        its own reply the call may go on."""
        phase = call.phase
        for to in sorted(self.nodes, key=lambda number: number == self.number):
            if to not in call.replied and call.phase == phase:
                self.send(to, *call.request)

    def delete_next(self, number, call):
        """The write of the empty value to a name of a DEL has ended: whether the one to the next name begins."""
        names, count = call.deletes
        if not names or call.client not in self.clients:
            return False
        del self.calls[number]
        self.begin(call.client, names[0], b"", deletes=(names[1:], count))
        return True

    def begin(self, client, name, value, wanted=b"GET", deletes=None):
        self.counter += 1
        number = b"%d.%d.%d" % (self.number, self.start, self.counter)
        call = self.calls[number] = Call(client, name, value, wanted, deletes)
        call.request = [b"query", number, name]
        self.ask(call)

    def tick(self):
        for number, call in list(self.calls.items()):
            call.age += 1
            if call.age > self.patience:
                self.end_call(number, b"-ERR no quorum answered in time\r\n")
            elif number in self.calls:
                self.ask(call)

    # Clients: the commands of one connection are carried out one after another.

    def take_from_client(self, client, frame):
        if not frame:
            self.clients.pop(client, None)
            return
        self.clients.setdefault(client, Connection()).waiting.append(frame)
        self.serve(client)

    def serve(self, client):
        """Carries out the next commands of a connection, until one of them stays open."""
        connection = self.clients[client]
        while connection.waiting and not connection.is_open and not connection.has_quit:
            connection.is_open = True
            self.carry_out(client, connection.waiting.popleft())

    def answer(self, client, answer):
        connection = self.clients.get(client)
        if connection is not None:
            self.out.append(encode([b"client %d" % client, answer]))
            connection.is_open = False

    def end_call(self, number, answer):
        client = self.calls.pop(number).client
        self.answer(client, answer)
        if client in self.clients:
            self.ready.append(client)

    def carry_out(self, client, frame):
        command, words = frame[0].upper(), frame[1:]
        is_call = (command, len(words)) in ((b"GET", 1), (b"STRLEN", 1), (b"EXISTS", 1), (b"SET", 2))
        if is_call and (len(words[0]) > 255 or len(words[-1]) > 16 << 20):
            self.answer(client, b"-ERR name too long\r\n" if len(words[0]) > 255 else b"-ERR value too long\r\n")
        elif command in READINGS and len(words) == 1:
            self.begin(client, words[0], None, command)
        elif command == b"SET" and len(words) == 2:
            self.begin(client, words[0], words[1])
        elif command == b"DEL" and words and max(map(len, words)) > 255:
            self.answer(client, b"-ERR name too long\r\n")
        elif command == b"DEL" and words:
            self.begin(client, words[0], b"", deletes=(words[1:], len(words)))
        else:
            layout = b"position 0 k 1 nodes %b" % b" ".join(b"%d" % node for node in self.nodes)
            self.answer(client, answer_about_names(command, words, list(self.kept), layout)
                        or plain_answer(client, command, words, self.info))
        if command == b"QUIT":
            self.out.append(encode([b"client %d" % client]))
            self.clients[client].has_quit = True

    def info(self, wanted):
        """The sections that are wanted."""
        stored = sum(len(value) for _, value in self.kept.values())
        has_quorum = len(self.heard) > len(self.nodes) // 2
        sections = {
            "Server": {"redis_version": "1.0.0", "redis_mode": "standalone"},
            "Clients": {"connected_clients": len(self.clients)},
            "Stats": {"total_commands_processed": self.answered},
            "Cluster": {"cluster_state": "ok" if has_quorum else "fail", "cluster_known_nodes": len(self.nodes),
                        "cluster_nodes_heard": len(self.heard)},
            "Keyspace": {"db0": f"keys={len(self.kept)},expires=0,avg_ttl=0"},
            "Node": {"program": "stand-in", "node": self.number, "objects": len(self.kept), "bytes_stored": stored,
                     "calls_open": len(self.calls), "bytes_of_the_log": self.log.file.tell()}}
        if not wanted or wanted & {b"all", b"everything", b"default"}:
            wanted = {name.lower().encode() for name in sections}
        return "".join(f"# {name}\r\n" + "".join(f"{key}:{value}\r\n" for key, value in lines.items()) + "\r\n"
                       for name, lines in sections.items() if name.lower().encode() in wanted).encode()

    def take(self, frame):
        address = frame[0].split()
        if address[0] == b"tick":
            self.heard = frame[1:]
            self.tick()
        elif address[0] == b"node":
            self.take_from_node(int(address[1]), frame[1:])
        elif address[0] == b"client":
            self.take_from_client(int(address[1]), frame[1:])
        while self.ready:
            if (client := self.ready.popleft()) in self.clients:
                self.serve(client)


def time_of_start():
    """A number that no other start has, for a node that forgets how often it started."""
    return int.from_bytes(os.urandom(6), "big")


def main(words):
    options = [word for word in words if word.startswith("--")]
    file, node, folder = [word for word in words if not word.startswith("--")]
    node, frames = Node(file, int(node), folder, options), Frames()
    while data := os.read(0, 1 << 20):
        for frame in frames.take(data):
            node.take(frame)
        node.log.sync()
        view = memoryview(b"".join(node.out))
        node.out.clear()
        while view:
            view = view[os.write(1, view):]


if __name__ == "__main__":
    main(sys.argv[1:])
