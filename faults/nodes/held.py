"""Requests that the network holds back past many writes, until a node may have forgotten the tags that they name."""
import random

import messages
from whole import WITH_TAG, is_message


class HeldBack:
    """Holds back some of the requests that name a tag, each until its object has had some more answered writes: up to
    twice as many as make a node forget, and one. Half of them are on their way at once as well, so that they come
    twice."""

    def __init__(self, seed, delta, history):
        self.source, self.history = random.Random(f"held back {seed}"), history
        self.share = self.source.choice([0, 0.02, 0.1])
        self.most = 2 * ((delta or 0) + 1) + 1
        self.frames, self.count, self.seen = [], 0, 0
        self.rests = False  # whether it holds nothing back for now, as while each node has to answer reads

    def takes(self, flying):
        """Whether a frame that is sent now waits here alone."""
        if self.rests or self.source.random() >= self.share or not is_message(flying.strings):
            return False
        asked = messages.read(flying.strings)
        if asked.is_reply or asked.kind not in WITH_TAG:
            return False
        name = asked.name.decode()
        self.frames.append((name, self.history.writes_of(name) + self.source.randint(1, self.most), flying))
        self.count += 1
        return self.source.random() < 0.5

    def released(self):
        """The frames for which this was the last write that they waited for."""
        if self.seen == self.history.answered_writes:
            return []
        self.seen = self.history.answered_writes
        due = [flying for name, until, flying in self.frames if self.history.writes_of(name) >= until]
        self.frames = [it for it in self.frames if self.history.writes_of(it[0]) < it[1]]
        return due

    def rest(self):
        """All that still wait."""
        frames, self.frames = [flying for _, _, flying in self.frames], []
        return frames
