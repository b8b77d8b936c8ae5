#!/usr/bin/env python3
"""A node program that is broken on purpose: broken.py KIND PROGRAM FILE NODE FOLDER. It starts PROGRAM and stands
between it and its pipes, or changes its log before it starts. `try` requires that the checker of histories finds `hasty`,
`skips` and `stale`, and that whole banks find the others but `forgets`, whose runs take minutes, because its reads may
never end:

forgets  at a start, no request that it served is in the log, as where none was written before the answers went out
hasty    a write is answered before the node hears of it
skips    every third write is answered and not carried out
stale    a read is answered with the value that the node read or wrote last under that name, where there is one
none     every third fetch of another node that has a piece as its answer is answered without a piece
old      another node is told the greatest tag of before, with each reply, until it asks again
early    another node that asks for a pointer which is pending is told that calls may begin at the next position
shut     a fetch of another node gets no reply where the pointer of the bank is pending, as if the bank were closed
closes   at a start, the log says that each bank was closed whose pointer is pending
soon     at a start, the log says that each bank was closed whose pointer is final, whatever the start of the object is
keeps    a message of another node comes without the start that it tells, so the node keeps its banks before that
unset    each reply tells that the pointer of the bank is unset, so that calls end early beside a move
ahead    each reply tells the greatest tag of a write of which a piece has come, as if it were finalized
"""
import ctypes
import fcntl
import os
import signal
import subprocess
import sys
import threading
from dataclasses import replace
from pathlib import Path

sys.path[:0] = [str(Path(__file__).resolve().parents[2] / "deploy" / "test")]
sys.dont_write_bytecode = True

import messages  # noqa: E402
from frames import Frames, encode, frame_at  # noqa: E402
from log_form import HEAD, log_of  # noqa: E402


def forget(log):
    """Leaves only the entries of starts in the log, and the one that names the cluster: no request that was served."""
    data, kept, place = log.read_bytes() if log.exists() else b"", [], 0
    while place < len(data) and (entry := frame_at(data, place + HEAD)) is not None:
        if entry[0][0] in (b"cluster", b"start"):
            kept.append(data[place + HEAD:entry[1]])
        place = entry[1]
    log.write_bytes(log_of(kept))


def close(log, is_final):
    """Adds an entry to the log for each open bank whose pointer is final, or pending, which says that the node closed
    it."""
    data, kept, place, told = log.read_bytes() if log.exists() else b"", [], 0, {}
    while place < len(data) and (entry := frame_at(data, place + HEAD)) is not None:
        if entry[0][0] == b"serve" and (asked := messages.read(entry[0][1:])).kind == b"spread":
            told.setdefault((asked.position, asked.name), set()).add(asked.status)
        if entry[0][0] == b"close":
            told.pop((int(entry[0][1]), entry[0][2]), None)
        kept.append(data[place + HEAD:entry[1]])
        place = entry[1]
    kept += [encode([b"close", b"%d" % position, name]) for (position, name), all_told in told.items()
             if (b"final" in all_told) == is_final]
    log.write_bytes(log_of(kept))


def wait_for(folder):
    """Waits until no program has the folder locked: one that was killed may not have ended yet."""
    locked = os.open(folder, os.O_RDONLY)
    fcntl.flock(locked, fcntl.LOCK_EX)
    os.close(locked)


class Between:
    """Hands frames on in both directions, and answers some of them itself."""

    def __init__(self, kind, child):
        self.kind, self.child = kind, child
        self.values, self.asked, self.answered, self.writes = {}, {}, set(), 0
        self.fetched, self.greatest, self.pending, self.came = 0, {}, set(), {}
        self.lock = threading.Lock()

    def write(self, data):
        with self.lock:
            view = memoryview(data)
            while view:
                try:
                    view = view[os.write(1, view):]
                except BrokenPipeError:
                    os._exit(1)

    def arrive(self, frame):
        """A frame for the node. Returns whether the node gets it."""
        client, words = frame[0], [word.upper() for word in frame[1:2]]
        if self.kind == "shut" and client.startswith(b"node "):
            return self.is_answered(messages.read(frame[1:]))
        if self.kind == "keeps" and client.startswith(b"node "):
            frame[1:] = replace(messages.read(frame[1:]), start=None).strings()
        if self.kind == "ahead" and client.startswith(b"node "):
            self.note_piece(messages.read(frame[1:]))
        if words == [b"SET"] and len(frame) == 4:
            self.values[frame[2]], self.writes = frame[3], self.writes + 1
            if self.kind == "skips" and self.writes % 3 == 0:
                self.write(encode([client, b"+OK\r\n"]))
                return False
            if self.kind == "hasty":
                self.answered.add(client)
                self.write(encode([client, b"+OK\r\n"]))
        if words == [b"GET"] and len(frame) == 3:
            self.asked[client] = frame[2]
            if self.kind == "stale" and frame[2] in self.values:
                value = self.values[frame[2]]
                self.write(encode([client, b"$%d\r\n" % len(value), value, b"\r\n"]))
                return False
        return True

    def is_answered(self, asked):
        """Whether a message of another node is no fetch from a bank whose pointer is pending, by other messages."""
        bank = asked.name, asked.position
        if asked.kind == b"spread" and not asked.is_reply:
            (self.pending.add if asked.status == b"pending" else self.pending.discard)(bank)
        return asked.is_reply or asked.kind != b"fetch" or bank not in self.pending

    def note_piece(self, asked):
        """Notes the greatest tag of which a piece has come to a bank."""
        if asked.kind == b"pre-write" and not asked.is_reply:
            bank = asked.name, asked.position
            self.came[bank] = max(self.came.get(bank, (asked.tag, asked.piece)), (asked.tag, asked.piece))

    def leave(self, frame):
        """A frame from the node. Returns whether it goes on; a reply to another node may be changed."""
        client = frame[0]
        if client.startswith(b"node "):
            if self.kind in ("none", "old", "early", "unset", "ahead"):
                frame[1:] = self.changed(messages.read(frame[1:])).strings()
            return True
        if len(frame) == 4 and client in self.asked:
            self.values[self.asked[client]] = frame[2]
        if client in self.answered and len(frame) > 1:
            self.answered.remove(client)
            return False
        return True

    def changed(self, made):
        """A reply to a fetch without its piece, one that answers with the greatest tag of before, one that tells a start
        too early, or one that tells a false pointer or tag."""
        if self.kind == "none" and made.is_reply and made.kind == b"fetch" and made.piece:
            self.fetched += 1
            return replace(made, piece=None, told=None) if self.fetched % 3 == 0 else made
        if self.kind == "old" and made.is_reply and made.told:
            return self.outdated(made)
        if self.kind == "early" and made.is_reply and made.kind == b"next" and made.status == b"pending":
            return replace(made, start=(made.position + 1, made.next))
        if self.kind == "unset" and made.told:
            return replace(made, told=replace(made.told, status=b"unset"))
        if self.kind == "ahead" and made.told:
            tag, piece = self.came.get((made.name, made.position), (made.told.greatest, made.told.piece))
            if tag > made.told.greatest:
                return replace(made, told=replace(made.told, greatest=tag, piece=made.told.piece and piece))
        return made

    def outdated(self, made):
        """A reply that tells, or answers with, the greatest tag that the last one told."""
        bank, greatest = (made.name, made.position), made.told.greatest
        told = self.greatest.get(bank, greatest)
        self.greatest[bank] = greatest
        if made.kind == b"query":
            made = replace(made, tag=told)
        return made if told == greatest else replace(made, told=replace(made.told, greatest=told, piece=None))

    def pass_output(self):
        frames = Frames()
        while data := os.read(self.child.stdout.fileno(), 1 << 20):
            kept = [encode(frame) for frame in frames.take(data) if self.leave(frame)]
            self.write(b"".join(kept))
        os._exit(self.child.wait())

    def pass_input(self):
        frames = Frames()
        while data := os.read(0, 1 << 20):
            for frame in frames.take(data):
                if self.arrive(frame):
                    self.child.stdin.write(encode(frame))
        self.child.stdin.close()


def end_with_parent():
    """Linux ends the program by SIGKILL when this process ends, so that two never write one log."""
    ctypes.CDLL(None).prctl(1, signal.SIGKILL)


def main(kind, program, *words):
    wait_for(words[2])
    at_start = {"forgets": forget, "closes": lambda log: close(log, False), "soon": lambda log: close(log, True)}
    if kind in at_start:
        at_start[kind](Path(words[2]) / "log")
        os.execv(program, [program, *words])
    child = subprocess.Popen([program, *words], stdin=subprocess.PIPE, stdout=subprocess.PIPE, bufsize=0,
                             preexec_fn=end_with_parent)
    between = Between(kind, child)
    threading.Thread(target=between.pass_output, daemon=True).start()
    between.pass_input()
    child.wait()


if __name__ == "__main__":
    main(*sys.argv[1:])
