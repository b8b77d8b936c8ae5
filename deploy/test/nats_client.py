"""Clients of a NATS server, for tests: they speak the server's protocols by themselves, without a library."""
import contextlib
import json
import socket
import ssl

from connection import PATIENCE


def tls(certificate):
    """What a client needs that shows this certificate, whose key lies beside it, and that trusts every server."""
    context = ssl.SSLContext(ssl.PROTOCOL_TLS_CLIENT)
    context.check_hostname, context.verify_mode = False, ssl.CERT_NONE
    context.load_cert_chain(certificate, certificate.removesuffix(".pem") + ".key")
    return context


class Nats:
    """A client's connection to a server, with these words of CONNECT."""

    def __init__(self, port, context=None, **words):
        self.socket = socket.create_connection(("127.0.0.1", port), timeout=PATIENCE)
        self.begin()
        if context is not None:
            self.socket = context.wrap_socket(self.socket)
        self.file = self.socket.makefile("rb")
        self.send(b"CONNECT %b" % json.dumps({"verbose": False, "pedantic": False, **words}).encode())

    def begin(self):
        """The server says INFO in clear text first."""
        self.socket.makefile("rb", 0).readline()

    def __enter__(self):
        return self

    def __exit__(self, *_):
        self.file.close()
        self.socket.close()

    def send(self, line):
        self.socket.sendall(line + b"\r\n")

    def said(self):
        """What the server says until it has taken all that came before, or ends the connection."""
        lines = []
        with contextlib.suppress(ConnectionError):
            self.send(b"PING")
            while (line := self.file.readline()) and line != b"PONG\r\n":
                if line == b"PING\r\n":
                    self.send(b"PONG")
                else:
                    lines.append(line.decode(errors="replace").strip())
        return lines


class Route(Nats):
    """A connection by which a server joins another one. It uses TLS from its first byte on."""

    def begin(self):
        pass

    def __init__(self, port, context):
        super().__init__(port, context, name="THIEF", cluster="cas", tls_required=True)
        about = {"server_id": "THIEF", "server_name": "thief", "version": "2.9.10", "proto": 1, "host": "127.0.0.1",
                 "port": 1, "max_payload": 1 << 20, "cluster": "cas", "tls_required": True, "tls_verify": True}
        self.send(b"INFO %b" % json.dumps(about).encode())
