#!/usr/bin/env python3
"""Ports of the loopback address for servers that a test stops and starts again: ports.py COUNT prints COUNT of them.

They lie below those that the system gives to connections. Otherwise a client's own connection could get the port of a
server that is down, which then could not start again. Processes that look for ports at the same time find different
ones, because each begins to look at a place of its own.
"""
import os
import socket
import sys

LOOPBACK = "127.0.0.1"
LOWEST, HIGHEST = 10000, 65535
MOST = 16  # ports that a process looks for


def first_given():
    """The lowest port that the system gives to connections."""
    with open("/proc/sys/net/ipv4/ip_local_port_range") as file:
        return int(file.read().split()[0])


def is_free(port):
    try:
        with socket.create_server((LOOPBACK, port)):
            return True
    except OSError:
        return False


def free_ports(count):
    """So many different ports that nobody uses now."""
    top = first_given() - 1
    size = (top if top > LOWEST + 1000 else HIGHEST) - LOWEST
    places = (os.getpid() * MOST + place for place in range(size))
    found = (port for port in (LOWEST + place % size for place in places) if is_free(port))
    return [next(found) for _ in range(count)]


if __name__ == "__main__":
    print(*free_ports(int(sys.argv[1])))
