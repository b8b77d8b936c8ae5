#!/usr/bin/python3
"""A child for tests of the host by itself: child.py FILE NODE FOLDER. The first word of FILE says how it behaves:

echo     answers each frame of a client with its last string as a bulk string
keep     the same, and writes each frame that it gets, a tick too, as a line into FOLDER/frames
late     the same, but begins to read once there is a file FOLDER/go
holds    the same as keep, but answers nothing until there is a file FOLDER/go
pongs    answers each frame of a client with +PONG
words    answers each frame of a client with all its strings, as a frame
quits    answers a command as echo does, closes the connection, and answers once more
big      answers each frame of a client with a bulk string of 1 MiB
relay    writes the last string of each frame of a client as it is, by one write
deaf     reads nothing
status   ends at once with status 4
lost     ends at once with status 3
signal   ends at once by SIGKILL
garbage  writes what is no frame
nowhere  writes a frame whose address the host does not know
cut      writes a part of a frame and ends with status 0
"""
import os
import signal
import sys
import time

from frames import Frames, encode


def at_once(kind):
    if kind == "status":
        sys.exit(4)
    if kind == "lost":
        sys.exit(3)
    if kind == "signal":
        os.kill(os.getpid(), signal.SIGKILL)
    if kind == "cut":
        os.write(1, encode([b"client 1", b"+OK\r\n"])[:-1])
        sys.exit(0)
    written = {"garbage": b"hello\r\n", "nowhere": encode([b"nobody 1", b"x"])}
    os.write(1, written.get(kind, b""))
    if kind in ("garbage", "nowhere", "deaf"):
        time.sleep(600)


def answer_to(kind, frame):
    """What the child writes for a frame of a client."""
    if kind == "pongs":
        return encode([frame[0], b"+PONG\r\n"])
    if kind == "words":
        return encode([frame[0], encode(frame[1:])])
    value = bytes(1 << 20) if kind == "big" else frame[-1]
    answer = encode([frame[0], b"$%d\r\n" % len(value), value, b"\r\n"])
    return answer + encode([frame[0]]) + answer if kind == "quits" else answer


def write(data):
    view = memoryview(data)
    while view:
        view = view[os.write(1, view):]


def serve(kind, folder):
    go = os.path.join(folder, "go")
    while kind == "late" and not os.path.exists(go):
        time.sleep(0.02)
    frames, held = Frames(), []
    log = open(os.path.join(folder, "frames"), "ab", buffering=0)
    while data := os.read(0, 1 << 20):
        for frame in frames.take(data):
            if kind in ("keep", "late", "holds"):
                log.write(b" ".join(frame) + b"\n")
            if not frame[0].startswith(b"client ") or len(frame) == 1:
                continue
            held.append(frame[-1] if kind == "relay" else answer_to(kind, frame))
        if kind != "holds" or os.path.exists(go):
            write(b"".join(held))
            held.clear()


def main(file, _node, folder):
    with open(file) as lines:
        kind = lines.read().split()[0]
    at_once(kind)
    serve(kind, folder)


if __name__ == "__main__":
    main(*sys.argv[1:])
