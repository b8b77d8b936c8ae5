"""A client's connection, for tests: it sends bytes, and reads answers of the Redis protocol one by one."""
import socket
import struct
import sys
from pathlib import Path

sys.path.append(str(Path(__file__).resolve().parent.parent))

from node_client import Client  # noqa: E402

PATIENCE = 300  # seconds, which only a test that fails waits in full


class Connection(Client):
    def __init__(self, port, address="127.0.0.1"):
        super().__init__(address, port, PATIENCE)

    def reset(self):
        """Ends the connection at once, so that the other side hears of it."""
        self.socket.setsockopt(socket.SOL_SOCKET, socket.SO_LINGER, struct.pack("ii", 1, 0))
        self.close()

    def send_end(self):
        self.socket.shutdown(socket.SHUT_WR)

    def rest(self):
        """All bytes until the other side ends the connection."""
        return self.file.read()
