"""The subjects under which nodes send messages over NATS."""

ALL = b"all"  # stands in a subject for all nodes


def identity_of(number):
    """The identity of a node's folder, where a test stands for that node and names no other one."""
    return "%016x" % (0xABC000 + number)


def subject(sender, to, identity=None, known=None):
    """The subject of a message from a node to a node, or to `all`. A node that knows the other one under another
    identity names it at the end."""
    parts = ["cas", sender, to, identity or identity_of(sender), *([known] if known else [])]
    return ".".join(str(part) for part in parts).encode()
