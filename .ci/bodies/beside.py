"""What a run of `rt ci` has printed so far: which crates it has proved, and whether it has ended.

A crate's wrong bodies need the libraries below it and nothing else, so they can be tried while `rt ci` still proves others.
"""
import os
import re
import sys
import time
from functools import cache

# What an earlier run on this machine proved is said to be kept.
PROVED = re.compile(r"(?m)^rt: (\w+) (?:proved$|is kept: )")
ENDED = re.compile(r"(?m)^\d+ passed, \d+ failed$")
PAUSE = 2.0  # seconds between two looks at what was printed, and at the free memory


@cache
def below(crate):
    return crate.below()


class Built:
    """All libraries are built before the first trial, and the free memory is for the trials alone."""

    def is_ready(self, _crate):
        return True

    def share(self):
        return 0.85

    def lanes(self, most):
        return most


class Beside:
    """A run of `rt ci`, whose output goes into a file."""

    def __init__(self, path):
        self.path = path
        self.look()

    def look(self):
        with open(self.path, encoding="utf-8", errors="replace") as file:
            said = file.read()
        self.proved, self.has_ended, self.looked = set(PROVED.findall(said)), bool(ENDED.search(said)), time.monotonic()

    def look_again(self):
        if not self.has_ended and time.monotonic() > self.looked + PAUSE:
            self.look()

    def is_ready(self, crate):
        """Whether all libraries below the crate are proved and stand built."""
        self.look_again()
        is_proved = self.has_ended or all(it.name in self.proved for it in below(crate))
        return is_proved and all(os.path.isdir(it.rlib) for it in below(crate))

    def share(self):
        """The part of the free memory that trials may take: as long as `rt ci` runs, it counts on it too."""
        self.look_again()
        return 0.85 if self.has_ended else 0.45

    def lanes(self, most):
        """How many trials may run at a time: as long as `rt ci` runs, half of the most, since it uses processors too."""
        self.look_again()
        return most if self.has_ended else max(1, most // 2)

    def wait_for(self, crate):
        """Waits a little, where nothing can be tried, or ends the program where `rt ci` will not prove what is lacking."""
        self.look()
        if self.has_ended and not self.is_ready(crate):
            sys.exit(f"wrong-bodies: rt ci has ended without the libraries below {crate.name}")
        if not self.has_ended:
            time.sleep(PAUSE)
