"""A test double of a whole cluster, for the tests of deploy/replace and deploy/drain: nodes that keep in memory which
name has which layout, and answer INFO, SCAN, LAYOUT and MOVE. It keeps no values. A test says what goes wrong."""
import contextlib
import socket
import socketserver
import threading
import time

from answers import bulk
from frames import Frames
from ports import LOOPBACK, free_ports

OK = b"+OK\r\n"
PAGE = 20  # at so many names a SCAN looks at most


class Layouts:
    """Nodes, each with a port of its own, and the layouts that each name has had, the last one last."""

    def __init__(self, nodes, later=(), mover=1, tells=True):
        self.members, self.later, self.mover, self.tells = list(nodes), list(later), mover, tells
        self.names = {}       # of a name its layouts: pairs of k and a list of nodes
        self.ignorant = {}    # of a node and a name the position up to which the node knows the layouts
        self.refusals = {}    # of a name what a MOVE gets
        self.hanging = set()  # names whose MOVE is not answered
        self.password, self.delay = None, 0
        self.before_move = lambda name: None
        self.moved, self.open, self.most_open = [], set(), 0
        self.lock, self.ended = threading.RLock(), threading.Event()
        self.servers = {}
        numbers = [*self.members, *self.later]
        for node, port in zip(numbers, free_ports(len(numbers))):
            self.start(node, port)

    def start(self, node, port):
        server = Server((LOOPBACK, port), Handler)
        server.layouts, server.node, server.sockets = self, node, set()
        self.servers[node] = server
        threading.Thread(target=server.serve_forever, args=[0.01], daemon=True).start()

    def stop(self, node):
        """The node is down: it closes its connections, and its port."""
        server = self.servers[node]
        server.shutdown()
        server.server_close()
        for one in list(server.sockets):
            with contextlib.suppress(OSError):
                one.shutdown(socket.SHUT_RDWR)

    def end(self):
        self.ended.set()
        for node in self.servers:
            self.stop(node)

    def port(self, node):
        return self.servers[node].server_address[1]

    def addresses(self, *nodes):
        return [f"{LOOPBACK}:{self.port(node)}" for node in nodes or self.servers]

    def last(self, name):
        """The last layout of a name: its k and its nodes."""
        return self.names[name][-1]

    def names_on(self, node):
        with self.lock:
            return sorted(name for name in self.names if node in self.last(name)[1])

    # Commands.

    def info(self, node):
        lines = ["program:double", f"node:{node}", "cluster:c0ffee"]
        if self.tells:
            lines += ["nodes:" + "".join(f" {node}" for node in self.members),
                      "later:" + "".join(f" {node}" for node in self.later), f"mover:{self.mover}"]
        return bulk("".join(line + "\r\n" for line in lines).encode())

    def scan(self, node, cursor, count):
        """Looks at so many names, or at fewer, and tells those that the node keeps. Cursors say how many names are
        left."""
        with self.lock:
            names = sorted(self.names)
            left = min(int(cursor) or len(names), len(names))
            after = max(left - min(int(count), PAGE), 0)
            told = [name for name in names[after:left] if node in self.last(name)[1]]
        return b"*2\r\n" + bulk(b"%d" % after) + b"*%d\r\n" % len(told) + b"".join(bulk(name) for name in told)

    def layout(self, node, name):
        with self.lock:
            known = self.names[name][:self.ignorant.get((node, name), 9999) + 1]
        k, nodes = known[-1]
        return bulk(f"position {len(known) - 1} k {k} nodes {' '.join(map(str, nodes))}".encode())

    def move(self, node, name, k, nodes):
        if node != self.mover:
            return b"-ERR only the mover moves objects\r\n"
        for stranger in [member for member in nodes if member not in self.members + self.later]:
            return b"-ERR node %d is not in the cluster file\r\n" % stranger
        with self.lock:
            if name in self.open:
                return b"-ERR another move of this name is under way\r\n"
            self.open.add(name)
            self.most_open = max(self.most_open, len(self.open))
        time.sleep(self.delay)
        if name in self.hanging:
            self.ended.wait()
        with self.lock:
            self.open.remove(name)
            self.before_move(name)
            if name in self.refusals:
                return b"-" + self.refusals[name] + b"\r\n"
            self.names[name].append((k, nodes))
            self.moved.append(name)
        return OK

    def answer(self, node, words):
        command = words[0].upper()
        if command == b"INFO":
            return self.info(node)
        if command == b"SCAN":
            return self.scan(node, words[1], words[3] if words[2:] else b"10")
        if command == b"LAYOUT":
            return self.layout(node, words[1])
        if command == b"MOVE":
            return self.move(node, words[1], int(words[2]), [int(word) for word in words[3:]])
        return b"-ERR unknown command\r\n"


class Server(socketserver.ThreadingTCPServer):
    daemon_threads, block_on_close, allow_reuse_address, request_queue_size = True, False, True, 200


class Handler(socketserver.BaseRequestHandler):
    """A client's connection."""

    def handle(self):
        frames, layouts, is_known = Frames(), self.server.layouts, self.server.layouts.password is None
        self.server.sockets.add(self.request)
        try:
            while data := self.request.recv(1 << 16):
                for words in frames.take(data):
                    if words[0].upper() == b"AUTH":
                        is_known = words[1:] == [b"default", layouts.password]
                        answer = OK if is_known else b"-WRONGPASS invalid username-password pair\r\n"
                    else:
                        answer = layouts.answer(self.server.node, words) if is_known else \
                            b"-NOAUTH Authentication required.\r\n"
                    self.request.sendall(answer)
        except OSError:
            pass
        finally:
            self.server.sockets.discard(self.request)
