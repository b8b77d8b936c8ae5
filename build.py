#!/usr/bin/env python3
"""Proves the crates that a program stands on, side by side where none stands on another, and builds the program.

    build.py PROGRAM CPU CALLER    does so; what the prover says of a crate goes to out/proving/CRATE.log
    build.py PROGRAM               prints the folders of the crates, the program's too, a line each

It is `./cas` or `./trace` that calls this, and holds the lock meanwhile; its name begins each line that is said. A crate
that is proved already is only compared, by `rt`.
"""
import os
import pathlib
import signal
import subprocess
import sys
import time

ROOT = pathlib.Path(__file__).resolve().parent
LOGS = ROOT / "out" / "proving"
MEMORY = 3 << 30  # what has to be free for one more crate beside another
FIRST = {  # the words that a program is run on once it is built
    "cas": ["fragments", "1", "1", "."],
    "cas_coding": ["fragments", "1", "1", "."],
    "trace": ["costs", str(ROOT / "examples" / "a_write_and_a_read.cas"), "a"],
}


def crates_below(program):
    """The crates that the program stands on, itself too, each with those that its line names."""
    lines = {}
    for line in (ROOT / "crates.txt").read_text().splitlines():
        head, colon, rest = line.partition("#")[0].partition(":")
        if colon:
            lines[head.split()[0]] = rest.split()
    found, waiting = {}, [program]
    while waiting:
        name = waiting.pop()
        if name not in found:
            found[name] = [below for below in lines[name] if below in lines]
            waiting += found[name]
    return found


def heights(crates):
    """For each crate the number of crates on the longest way from it up to the program."""
    found = {}

    def height(name):
        if name not in found:
            found[name] = 1 + max((height(above) for above in crates if name in crates[above]), default=0)
        return found[name]

    for name in crates:
        height(name)
    return found


def has_memory():
    """Whether one more crate may be proved beside those that are under way."""
    for line in pathlib.Path("/proc/meminfo").read_text().splitlines():
        if line.startswith("MemAvailable:"):
            return int(line.split()[1]) * 1024 >= MEMORY
    return True


class Build:
    def __init__(self, program, cpu, caller):
        self.program, self.cpu, self.caller = program, cpu, caller
        self.crates = crates_below(program)
        self.heights = heights(self.crates)
        self.processors = len(os.sched_getaffinity(0))
        self.done, self.running = set(), {}
        self.began = time.monotonic()
        self.on_terminal = sys.stderr.isatty()

    def ready(self):
        """The crates that may be proved next, those with the longest way up first."""
        names = [
            name
            for name, below in self.crates.items()
            if name not in self.done and name not in self.running and self.done.issuperset(below)
        ]
        return sorted(names, key=lambda name: -self.heights[name])

    def start(self, name, jobs):
        words = ["rt", "lib", "--jobs", str(jobs)]
        if name == self.program:
            words = ["rt", "run", "--jobs", str(jobs), f"--cpu={self.cpu}", "--", *FIRST[name]]
        with open(LOGS / f"{name}.log", "wb") as log:
            # The lock of `./cas` stays open in each of these, so that no second build begins beside what is left of one.
            self.running[name] = subprocess.Popen(
                words,
                cwd=ROOT / "crates" / name,
                stdin=subprocess.DEVNULL,
                stdout=log,
                stderr=log,
                close_fds=False,
                start_new_session=True,
            )

    def start_all(self):
        ready = self.ready()
        for at, name in enumerate(ready):
            free = self.processors - len(self.running)
            if free <= 0 or (self.running and not has_memory()):
                return
            self.start(name, max(1, min(4, free // (len(ready) - at))))

    def say(self, text):
        print(f"{self.caller}: {text}", file=sys.stderr, flush=True)

    def show(self, name=None):
        """The line that moves on a terminal; elsewhere a line for each crate that is done."""
        seconds = int(time.monotonic() - self.began)
        clock = f"{seconds // 60}:{seconds % 60:02}"
        count = f"{len(self.done)} of {len(self.crates)}"
        if self.on_terminal:
            line = f"{self.caller}: proved {count}; proving {', '.join(self.running)}, {clock}"
            print(f"\r{line[:100]:100}", end="", file=sys.stderr, flush=True)
        elif name:
            self.say(f"proved {count}: {name}, {clock}")

    def finish(self):
        """Notes the crates that are done. False where one was not proved."""
        for name, prover in list(self.running.items()):
            if prover.poll() is None:
                continue
            del self.running[name]
            if prover.returncode:
                if self.on_terminal:
                    print(file=sys.stderr)
                self.say(f"{name} was not proved or not built; what the prover says: {LOGS / name}.log")
                return False
            self.done.add(name)
            self.show(name)
        return True

    def stop(self):
        for prover in self.running.values():
            try:
                os.killpg(prover.pid, signal.SIGTERM)
            except ProcessLookupError:
                pass
        for prover in self.running.values():
            prover.wait()

    def run(self):
        LOGS.mkdir(parents=True, exist_ok=True)
        self.say(
            f"{self.program} stands on {len(self.crates) - 1} crates. They are proved first, up to {self.processors} at"
            f" a time, and then it is built for {self.cpu}; the first time takes minutes"
        )
        try:
            while len(self.done) < len(self.crates):
                self.start_all()
                self.show()
                time.sleep(0.2)
                if not self.finish():
                    return 1
        finally:
            self.stop()
        if self.on_terminal:
            print(file=sys.stderr)
        return 0


def interrupted(number, _frame):
    sys.exit(128 + number)


for number in (signal.SIGINT, signal.SIGTERM, signal.SIGHUP):
    signal.signal(number, interrupted)
if len(sys.argv) == 2:
    print("\n".join(f"crates/{name}" for name in sorted(crates_below(sys.argv[1]))))
else:
    sys.exit(Build(*sys.argv[1:]).run())
