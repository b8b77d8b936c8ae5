"""A NATS server of a test, and a connection to it that speaks its protocol."""
import re
import signal
import socket
import subprocess
import tempfile
import time
from pathlib import Path

from connection import PATIENCE
from hosts import STARTED
from subjects import ALL


class Server:
    """A NATS server with these settings, on a free port. The connection hears what node 1 sends."""

    def __init__(self, settings="", login=b""):
        folder = Path(tempfile.mkdtemp())
        self.settings = folder / "settings"
        self.settings.write_text(f'host: 127.0.0.1\nport: -1\nports_file_dir: "{folder}"\n{settings}')
        self.process = subprocess.Popen(["nats-server", "-c", self.settings], stderr=subprocess.DEVNULL)
        STARTED.append(self.process)
        self.url = self.wait_for_url(folder / f"nats-server_{self.process.pid}.ports")
        self.socket = socket.create_connection(("127.0.0.1", int(self.url.rpartition(":")[2])), timeout=PATIENCE)
        self.file = self.socket.makefile("rb")
        self.file.readline()
        self.socket.sendall(b'CONNECT {"verbose":false%b}\r\nSUB cas.1.> 1\r\n' % login)
        self.wait_until_taken()

    def wait_for_url(self, ports):
        end = time.monotonic() + PATIENCE
        while time.monotonic() < end:
            if ports.exists() and (found := re.search(r'"(nats://[^"]*)"', ports.read_text())):
                return found[1]
            time.sleep(0.02)
        raise AssertionError("the NATS server did not start")

    def wait_until_taken(self):
        """The server answers a PING once it has taken what came before."""
        self.socket.sendall(b"PING\r\n")
        while (line := self.file.readline()) != b"PONG\r\n":
            if not line:
                raise AssertionError("the NATS server has closed the connection")

    def change(self, text, other):
        """Changes a text of its settings, and has the server read them."""
        self.settings.write_text(self.settings.read_text().replace(text, other))
        self.process.send_signal(signal.SIGHUP)

    def publish(self, subject, data=b""):
        self.socket.sendall(b"PUB %b %d\r\n%b\r\n" % (subject, len(data), data))

    def message(self, greetings=False):
        """The subject and the bytes of the next message of node 1 to one node, or of its next greeting to all."""
        while True:
            line = self.file.readline()
            if line == b"PING\r\n":
                self.socket.sendall(b"PONG\r\n")
            elif not line:
                raise AssertionError("the NATS server has closed the connection")
            elif line.startswith(b"MSG "):
                words = line.split()
                data = self.file.read(int(words[-1]) + 2)[:-2]
                if greetings == (words[1].split(b".")[2] == ALL):
                    return words[1], data

    def close(self):
        self.file.close()
        self.socket.close()
        self.process.kill()
        self.process.wait()
