#!/usr/bin/env python3
"""Three nodes of a cluster in one process, by the shared library casnode. A client writes a value at node 1; node 2 is
closed, and opened again from its log's bytes; a client reads the value at node 2.

    nodes.py LIBRARY       such as ~/.local/lib/libcasnode.so

The logs are kept in memory, where a sync has nothing to do. A node whose log has to outlast its process needs a file.
"""
import collections
import ctypes
import re
import sys

CLUSTER = b"nodes 1 2 3\nn 3\nk 1\ndelta 1\nmover 1\nlater\nticks 50\n"
DONE, SEND, APPEND, SYNC, CUT = 0, 1, 2, 3, 4


class Handle(ctypes.Structure):
    _fields_ = [("private_pointer", ctypes.c_void_p), ("private_flag", ctypes.c_bool)]


def frame_of(strings):
    return b"*%d\r\n" % len(strings) + b"".join(b"$%d\r\n%s\r\n" % (len(it), it) for it in strings)


def frames_in(data):
    """The strings of each frame."""
    at = 0
    while at < len(data):
        count = re.compile(rb"\*(\d+)\r\n").match(data, at)
        at, strings = count.end(), []
        for _ in range(int(count[1])):
            length = re.compile(rb"\$(\d+)\r\n").match(data, at)
            strings.append(data[length.end():length.end() + int(length[1])])
            at = length.end() + int(length[1]) + 2
        yield strings


class Node:
    def __init__(self, library, number, log=b""):
        self.library, self.number, self.handle = library, number, Handle()
        self.log, where = bytearray(log), ctypes.c_uint64()
        self.call("open", CLUSTER, ctypes.c_size_t(len(CLUSTER)), ctypes.c_uint8(number), bytes(log),
                  ctypes.c_size_t(len(log)), ctypes.byref(where))

    def call(self, name, *words):
        function = self.library[f"casnode_{name}"]
        function.restype = ctypes.c_uint8
        if (answer := function(ctypes.byref(self.handle), *words)) != DONE:
            raise RuntimeError(f"casnode_{name} answers {answer}")

    def carry_out(self):
        """Carries out the tasks, and returns the frames to be sent."""
        sent, kind, count = [], ctypes.c_uint8(), ctypes.c_uint64()
        for place in map(ctypes.c_size_t, range(1 << 30)):
            self.call("task", place, ctypes.byref(kind), ctypes.byref(count))
            if kind.value == 0:
                return sent
            if kind.value == CUT:
                del self.log[count.value:]
            if kind.value in (SEND, APPEND):
                room = ctypes.create_string_buffer(count.value or 1)
                self.call("bytes", place, room, ctypes.c_size_t(count.value))
                if kind.value == SEND:
                    sent += frames_in(room.raw[:count.value])
                else:
                    self.log += room.raw[:count.value]

    def handle_frames(self, data):
        """Hands over frames, all of which are whole, and returns the frames to be sent."""
        sent, used, other = [], ctypes.c_size_t(), ctypes.c_uint16()
        while data:
            self.call("handle", data, ctypes.c_size_t(len(data)), ctypes.byref(used), ctypes.byref(other))
            sent, data = sent + self.carry_out(), data[used.value:]
        return sent

    def close(self):
        self.library.casnode_close(ctypes.byref(self.handle))


def ask(nodes, number, *command):
    """A client's command comes to a node; all frames are brought where they go. Returns the answer."""
    waiting, answer = collections.deque([(number, frame_of(command))]), b""
    while waiting:
        receiver, data = waiting.popleft()
        for address, *strings in nodes[receiver].handle_frames(data):
            kind, to = address.split()
            if kind == b"client":
                answer = b"".join(strings)
            else:
                waiting.append((int(to), frame_of([b"node %d" % receiver, *strings])))
    return answer


def main(path):
    library = ctypes.CDLL(path)
    nodes = {number: Node(library, number) for number in (1, 2, 3)}
    for node in nodes.values():
        node.carry_out()
    print("node 1 answers:", ask(nodes, 1, b"client 1", b"SET", b"name", b"hello").decode().strip())
    nodes[2].close()
    nodes[2] = Node(library, 2, bytes(nodes[2].log))
    nodes[2].carry_out()
    print("node 2 answers:", ask(nodes, 2, b"client 2", b"GET", b"name").decode().strip())
    for node in nodes.values():
        node.close()


if __name__ == "__main__":
    main(*sys.argv[1:])
