"""A client's connection to a node, by the protocol of Redis: it sends commands, and reads their answers one by one.

The tests have a connection of their own on top of it, in deploy/test/connection.py."""
import socket


def encode(strings):
    """The bytes of the frame of these strings."""
    parts = [b"*%d\r\n" % len(strings)]
    for string in strings:
        parts += [b"$%d\r\n" % len(string), string, b"\r\n"]
    return b"".join(parts)


class Client:
    """A connection that waits at most `patience` seconds for each part of an answer."""

    def __init__(self, address, port, patience):
        self.socket = socket.create_connection((address, port), timeout=patience)
        self.file = self.socket.makefile("rb")

    def __enter__(self):
        return self

    def __exit__(self, *_):
        self.close()

    def close(self):
        self.file.close()
        self.socket.close()

    def send(self, data):
        self.socket.sendall(data)

    def ask(self, *words):
        self.send(encode(words))
        return self.answer()

    def answer(self):
        """The next answer as it came, without the last line end; a bulk string as its bytes, and nil as none of them;
        None where the connection ended before the whole answer came."""
        line = self.line()
        return line if line is None or line[:1] != b"$" else self.bulk(int(line[1:]))

    def array(self):
        """The next answer, as `answer` gives it, but an array as the list of its elements."""
        line = self.line()
        if line is not None and line[:1] == b"*":
            return [self.array() for _ in range(int(line[1:]))]
        return line if line is None or line[:1] != b"$" else self.bulk(int(line[1:]))

    def line(self):
        """The next line without its end; None where the connection ended before."""
        line = self.file.readline()
        return line[:-2] if line[-1:] == b"\n" else None

    def bulk(self, length):
        """The bytes of a bulk string of this length; None where the connection ended before."""
        if length < 0:
            return b""
        data = self.file.read(length + 2)
        return data[:-2] if len(data) == length + 2 else None
