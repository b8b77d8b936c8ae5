#!/usr/bin/env python3
"""What somebody can do with the key of a certificate on the port where NATS servers join: thief.py CERTIFICATE
ROUTE_PORT NODE_PORT NODE_CERTIFICATE NATS_PORT. The node's port is where clients of node 1 connect; the node's
certificate, on the port of NATS, is that of node 1. Prints `refused`, with the reason, or whether the thief heard a
message of nodes, and whether node 1 would have heard one that the thief sent in the name of node 2."""
import ssl
import sys
import time

from connection import PATIENCE, Connection
from nats_client import Nats, Route, tls

MOST_TRIES = 10


def is_heard(listener, speak, wanted):
    """Whether the listener hears a line that begins so, while somebody speaks again and again."""
    end = time.monotonic() + PATIENCE
    while time.monotonic() < end:
        speak()
        if any(line.startswith(wanted) for line in listener.said()):
            return True
        time.sleep(0.05)
    return False


def join(port, certificate):
    """A connection by which the thief has joined, and why there is none. An alert of TLS is a refusal. A busy server
    may also end a connection that did not finish its handshake in time, so the thief tries again."""
    why = None
    for _ in range(MOST_TRIES):
        try:
            thief = Route(port, tls(certificate))
            said = thief.said()
            if any(line.startswith("INFO ") for line in said):
                return thief, None
            why = str(said)
        except (ssl.SSLError, ConnectionError) as fault:
            why = str(getattr(fault, "reason", fault))
        if "ALERT" in why:
            break
    return None, why


def main(certificate, route_port, node_port, node_certificate, nats_port):
    thief, why = join(int(route_port), certificate)
    if thief is None:
        return f"refused: {why}"
    with thief, Connection(int(node_port)) as client, Nats(int(nats_port), tls(node_certificate)) as node:
        thief.send(b"RS+ $G >")
        heard = is_heard(thief, lambda: client.ask(b"SET", b"overheard", b"value"), "RMSG $G cas.")
        node.send(b"SUB cas.*.1.> 1")
        node.said()
        spoke = is_heard(node, lambda: thief.send(b"RMSG $G cas.2.1.thief 5\r\nwrong"), "MSG cas.2.1.thief ")
    return f"joined; heard nodes: {heard}; was heard as node 2: {spoke}"


if __name__ == "__main__":
    print(main(*sys.argv[1:]))
