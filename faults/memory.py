"""Runs a program of which one request for memory is refused."""
import collections
import os
import pathlib
import subprocess

NO_MEMORY = "refused 1 NoMemory"

Run = collections.namedtuple("Run", "out err status was_refused")


class Machine:
    """The shim `refuse.c`, built, and a folder to run programs in."""

    def __init__(self, source, folder):
        self.folder = folder
        self.shim = folder / "refuse.so"
        self.log = folder / "refused"
        self.script = folder / "story.cas"
        self.counts = collections.Counter()
        compiler = os.environ.get("CC", "cc")
        subprocess.run([compiler, "-O2", "-shared", "-fPIC", "-o", str(self.shim), str(source)], check=True)

    def run(self, words, after=None, nth=0):
        """Runs `words`. Behind the first `after` bytes of output, the request `nth` is refused, if there is one."""
        environment = {"PATH": os.environ.get("PATH", "")}
        if after is not None:
            environment |= {"LD_PRELOAD": str(self.shim), "REFUSE_AFTER": str(after), "REFUSE_NTH": str(nth),
                            "REFUSE_LOG": str(self.log)}
        self.log.unlink(missing_ok=True)
        done = subprocess.run(words, capture_output=True, text=True, env=environment, timeout=60)
        was_refused = self.log.exists()
        self.counts["requests"] += was_refused
        return Run(done.stdout, done.stderr, done.returncode, was_refused)

    def play(self, cas, commands, after=None, nth=0):
        """Plays a script of these commands."""
        pathlib.Path(self.script).write_text("\n".join(commands) + "\n")
        return self.run([cas, "run", str(self.script)], after, nth)

    def refusals(self, cas, commands, after):
        """The runs of a script with the first, the second, .. request refused, up to the first that meets none."""
        nth = 1
        while True:
            run = self.play(cas, commands, after, nth)
            if not run.was_refused:
                return
            yield nth, run
            nth += 1
