"""Runs of one node program by itself, for tests: a cluster of one node, whose folder and log the test sees."""
import contextlib
import subprocess
import tempfile
from pathlib import Path

from frames import Frames, encode

CLUSTER = "nodes 1\nn 1\nk 1\ndelta 8\nmover 1\nlater\nticks 50\n"


def is_embedded(program):
    """Whether this is piped.c, a node as the host has it in its process. The library says where an error lies, and not
    which one it is, and its calls of the system come in another order at a start."""
    return Path(program).name == "piped"


def command(*words):
    """The frame of a command of the connection 1."""
    return encode([b"client 1", *words])


class OneNode:
    """The node program, a cluster file with one node, and that node's folder."""

    def __init__(self, program, cluster=CLUSTER):
        self.program = program
        self.home = tempfile.TemporaryDirectory()
        self.file, self.folder = Path(self.home.name) / "cluster", Path(self.home.name) / "1"
        self.log = self.folder / "log"
        self.file.write_text(cluster)
        self.folder.mkdir()

    def __enter__(self):
        return self

    def __exit__(self, *_):
        self.home.cleanup()

    def run(self, data=b"", words=None, **options):
        """Runs the program until its input ends. Returns its status, what it wrote, and the text of its error."""
        words = [self.file, "1", self.folder] if words is None else words
        options = {"stdout": subprocess.PIPE, **options}
        ended = subprocess.run([self.program, *map(str, words)], input=data, stderr=subprocess.PIPE, timeout=60,
                               check=False, **options)
        return ended.returncode, ended.stdout, ended.stderr.decode()

    @contextlib.contextmanager
    def running(self):
        """The program while it runs, as a function that asks whether it answers. It is killed in the end."""
        words = [self.program, self.file, "1", self.folder]
        with subprocess.Popen(words, stdin=subprocess.PIPE, stdout=subprocess.PIPE, bufsize=0) as process:
            def is_alive():
                process.stdin.write(command(b"PING"))
                wanted = encode([b"client 1", b"+PONG\r\n"])
                return process.stdout.read(len(wanted)) == wanted
            try:
                if not is_alive():
                    raise AssertionError("no answer")
                yield is_alive
            finally:
                process.kill()

    def answers(self, *frames, cut=0, **options):
        """Returns what the program answers to frames of clients, each as the bytes that a client gets. On standard error
        the program has to say that it cut `cut` bytes off its log, and nothing else."""
        says = f"casd: the log's last entry was cut short; {cut} bytes were cut off\n" if cut else ""
        status, written, text = self.run(b"".join(frames), **options)
        if (status, text) != (0, says):
            raise AssertionError(f"status {status}: {text}")
        return [b"".join(strings[1:]) for strings in Frames().take(written)]
