"""Runs a program of which calls fail, and compares what it does with what is wanted."""
import collections
import dataclasses
import os
import pathlib
import subprocess
import tempfile

# The name of the script in each run.
NAME = "a story"

Run = collections.namedtuple("Run", "out err status has_failed")


@dataclasses.dataclass(frozen=True)
class Trial:
    """What is run, what fails, and what is wanted."""
    words: list
    script: str | None = None
    # The calls that fail (`open`, `read`, `out` or `err`), the first of them that does, and the number of the error.
    call: str | None = None
    nth: int = 1
    error: int = 0
    # The settings of `streams.c` that are on.
    settings: tuple = ()
    # The descriptor that standard output goes to.
    to: int = subprocess.PIPE
    # Whether a call fails, or the program makes fewer of them.
    has_failed: bool = True
    # Standard output gets the first characters of `lines`: at least `least` of them, and at most `most`.
    lines: str = ""
    least: int = 0
    most: int = 0
    # What standard error gets, and the exit status.
    err: str = ""
    status: int = 0

    def is_met_by(self, run):
        is_first_of_lines = self.least <= len(run.out) <= self.most and self.lines.startswith(run.out)
        return is_first_of_lines and run[1:] == (self.err, self.status, self.has_failed)


class Machine:
    """The program, and the shim `streams.c`, built in this folder."""

    def __init__(self, cas, source, folder):
        self.cas = cas
        self.shim = pathlib.Path(folder, "streams.so")
        compiler = os.environ.get("CC", "cc")
        subprocess.run([compiler, "-O2", "-shared", "-fPIC", "-o", str(self.shim), str(source)], check=True)

    def run(self, trial):
        """Runs the program in a new folder."""
        with tempfile.TemporaryDirectory() as folder:
            if trial.script is not None:
                pathlib.Path(folder, NAME).write_text(trial.script)
            log = pathlib.Path(folder, "failed")
            environment = {"LD_PRELOAD": str(self.shim), "STREAMS_FILE": NAME, "STREAMS_LOG": str(log)}
            environment |= {f"STREAMS_{setting}": "1" for setting in trial.settings}
            if trial.call:
                environment |= {"STREAMS_CALL": trial.call, "STREAMS_NTH": str(trial.nth),
                                "STREAMS_ERROR": str(trial.error)}
            done = subprocess.run([self.cas, *trial.words], cwd=folder, env=environment, stdin=subprocess.DEVNULL,
                                  stdout=trial.to, stderr=subprocess.PIPE, timeout=60)
            out, err = ((text or b"").decode(errors="backslashreplace") for text in (done.stdout, done.stderr))
            return Run(out, err, done.returncode, log.exists())

    def fault(self, trial):
        """What is not as wanted, if anything is."""
        run = self.run(trial)
        if trial.is_met_by(run):
            return None
        return f"wanted: {shown(dataclasses.asdict(trial))}\ncame: {shown(run._asdict())}"


def shown(parts):
    """The parts of a trial or of a run, of each its first characters."""
    return ", ".join(f"{name} {repr(part)[:200]}" for name, part in parts.items())
