"""What no client and no node sends: bytes that are no command, and messages of NATS that are none of a node."""
import random
import socket

from connection import PATIENCE
from frames import encode
from subjects import identity_of, subject

LINES = [  # a client may send these
    b"PING\r\n", b"GET photo\r\n", b"\n", b"\r\r", b"\0", b"hello", b"$4\r\nPING\r\n", b"+PING\r\n",
]
MALFORMED = [
    b"*\r\n", b"*-1\r\n", b"*+1\r\n", b"*01\r\n", b"*1x\r\n", b"*1\rx", b"*1\n", b"*1024\r\n",
    b"*99999999999999999999\r\n",
    b"*1\r\n+PING\r\n", b"*1\r\n:1\r\n", b"*1\r\n*1\r\n$4\r\nPING\r\n",
    b"*1\r\n$\r\n", b"*1\r\n$-1\r\n", b"*1\r\n$04\r\nPING\r\n", b"*1\r\n$4\rxPING", b"*1\r\n$4\r\nPINGx",
    b"*1\r\n$4\r\nPING\rx",
    b"*1\r\n$16842753\r\n", b"*1\r\n$99999999999999999999\r\n", b"*2\r\n$3\r\nGET\r\nphoto\r\n",
]


def bad_messages(identity=identity_of(2)):
    """Messages to node 1, each with its subject. Most are in the name of node 2, which has this identity. The host of
    node 1 drops a frame of each, and two of the last one: 46 in all."""
    source, good = random.Random(9), encode([b"stored", b"1.1.1"])
    datas = [b"", b"hello", good[:-1], good + b"x", source.randbytes(100000), *LINES, *MALFORMED]
    nobody = [subject(name, 1, identity) for name in ("x", "02", "-2", "256", "99999999999999999999")]
    nobody += [subject(2, 1, name) for name in ("x", "0" * 15, "G" * 16, f"{identity}.x", f"{identity}.{identity}.x")]
    return [(subject(2, 1, identity), data) for data in datas] + [(name, good) for name in nobody] + [
        (subject(2, "all", identity), good + good)]


def publish(port, messages, options=b'{"verbose":false}'):
    """Sends messages by the protocol of NATS. The server answers a PING once it has taken what came before."""
    with socket.create_connection(("127.0.0.1", port), timeout=PATIENCE) as nats:
        lines = nats.makefile("rb")
        if not lines.readline().startswith(b"INFO "):
            raise AssertionError("the NATS server does not begin with INFO")
        nats.sendall(b"CONNECT %b\r\n" % options)
        for subject, data in messages:
            nats.sendall(b"PUB %b %d\r\n%b\r\n" % (subject, len(data), data))
        nats.sendall(b"PING\r\n")
        # The server sends a PING of its own where a client is slow.
        while (line := lines.readline()) == b"PING\r\n":
            nats.sendall(b"PONG\r\n")
        if line != b"PONG\r\n":
            raise AssertionError(f"the NATS server said {line}")
