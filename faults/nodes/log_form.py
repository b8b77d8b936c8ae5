"""The form of a node's log, for tests: entries, each a head of 16 bytes and a body.

The head's first byte is the form, 5; the next seven are the length of the body, and four are its CRC-32C; the last four
are the CRC-32C of the first twelve bytes of all heads up to this one. Numbers have their high byte first."""
HEAD, SAYS, FORM = 16, 12, 5
ALL_BITS = 0xFFFFFFFF


def shifted(state, data):
    """The state of the CRC-32C after more bytes, one bit after another."""
    for byte in data:
        state ^= byte
        for _ in range(8):
            state = state >> 1 ^ (0x82F63B78 if state & 1 else 0)
    return state


def crc32c(data):
    return shifted(ALL_BITS, data) ^ ALL_BITS


def said_of(body, form=FORM):
    """What a head says of a body."""
    return bytes([form]) + len(body).to_bytes(7, "big") + crc32c(body).to_bytes(4, "big")


def log_of(bodies, behind=(), form=FORM):
    """The bytes of entries with these bodies, behind those with other bodies."""
    state, log = ALL_BITS, b""
    for body in behind:
        state = shifted(state, said_of(body, form))
    for body in bodies:
        state = shifted(state, said_of(body, form))
        log += said_of(body, form) + (state ^ ALL_BITS).to_bytes(4, "big") + body
    return log


def old_log_of(bodies):
    """The same in form 1: the length has eight bytes, and each head's checksum is of that head alone."""
    log = b""
    for body in bodies:
        says = len(body).to_bytes(8, "big") + crc32c(body).to_bytes(4, "big")
        log += says + crc32c(says).to_bytes(4, "big") + body
    return log


def split(log):
    """The entries of a whole log, each with its head. No checksum is checked."""
    entries = []
    while log:
        end = HEAD + int.from_bytes(log[1:8], "big")
        entries.append(log[:end])
        log = log[end:]
    return entries


def bodies_of(log):
    """The bodies of the entries of a whole log."""
    return [entry[HEAD:] for entry in split(log)]
