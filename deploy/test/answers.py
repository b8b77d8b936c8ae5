"""What the test double `standin.py` answers to commands, as `casd` does."""
import re


def bulk(value):
    return b"$%d\r\n%b\r\n" % (len(value), value)


NIL = b"$-1\r\n"
# What the commands that read a name answer for its value. The empty value counts as none.
READINGS = {b"GET": lambda value: bulk(value) if value else NIL, b"STRLEN": lambda value: b":%d\r\n" % len(value),
            b"EXISTS": lambda value: b":1\r\n" if value else b":0\r\n"}
EXPIRING = {b"SETEX", b"PSETEX", b"EXPIRE", b"PEXPIRE", b"EXPIREAT", b"PEXPIREAT", b"GETEX"}
CONDITIONAL = {b"SETNX", b"GETSET", b"GETDEL", b"APPEND", b"INCR", b"DECR", b"INCRBY", b"DECRBY", b"SETRANGE"}
GREETING = (b"*14\r\n$6\r\nserver\r\n$4\r\ncasd\r\n$7\r\nversion\r\n$5\r\n1.0.0\r\n$5\r\nproto\r\n:2\r\n"
            b"$2\r\nid\r\n:%d\r\n$4\r\nmode\r\n$10\r\nstandalone\r\n"
            b"$4\r\nrole\r\n$6\r\nmaster\r\n$7\r\nmodules\r\n*0\r\n")
WRONG_USER = b"-WRONGPASS invalid username-password pair or user is disabled.\r\n"
NO_PASSWORD = (b"-ERR AUTH <password> called without any password configured for the default user. "
               b"Are you sure your configuration is correct?\r\n")


def plain_answer(client, command, words, info):
    """The answer to a command that neither reads nor writes a name."""
    if command == b"PING" and len(words) < 2:
        return bulk(words[0]) if words else b"+PONG\r\n"
    if command == b"ECHO" and len(words) == 1:
        return bulk(words[0])
    if command == b"INFO":
        return bulk(info({word.lower() for word in words}))
    if command == b"COMMAND":
        return b":18\r\n" if words and words[0].upper() == b"COUNT" else b"*0\r\n"
    if command == b"CLIENT" and words and words[0].upper() in (b"ID", b"GETNAME"):
        return b":%d\r\n" % client if words[0].upper() == b"ID" else NIL
    if command == b"CLIENT" or command == b"QUIT":
        return b"+OK\r\n"
    return answer_to_connection(client, command, words) or error_answer(command, words)


def parts_of(pattern):
    """The pattern as a regular expression."""
    parts = re.findall(rb"\\.|.", pattern, re.DOTALL)
    return b"".join({b"*": b".*", b"?": b"."}.get(part) or re.escape(part[-1:]) for part in parts)


def answer_about_names(command, words, names, layout):
    """The answer to a command about the names that the node keeps, if it is one."""
    if command == b"DBSIZE" and not words:
        return b":%d\r\n" % len(names)
    if command == b"LAYOUT" and len(words) == 1:
        return bulk(layout)
    return page(words, names) if command == b"SCAN" and words else None


def page(words, names):
    """The answer to a SCAN, which walks through the names from the last one to the first."""
    if not words[0].isdigit():
        return b"-ERR invalid cursor\r\n"
    count, pattern = 10, b"*"
    for option, value in zip(words[1::2], words[2::2] + [None]):
        if option.upper() == b"MATCH" and value is not None:
            pattern = value
            continue
        if option.upper() != b"COUNT" or value in (None, b"0"):
            return b"-ERR syntax error\r\n"
        if not value.isdigit():
            return b"-ERR value is not an integer or out of range\r\n"
        count = min(int(value), 1000)
    end = min(int(words[0]) or len(names), len(names))
    told = [name for name in names[max(end - count, 0):end] if re.fullmatch(parts_of(pattern), name, re.DOTALL)]
    return b"*2\r\n" + bulk(b"%d" % max(end - count, 0)) + b"*%d\r\n" % len(told) + b"".join(map(bulk, told))


def answer_to_connection(client, command, words):
    """The answer to a command about the connection, if it is one."""
    if command == b"SELECT" and len(words) == 1:
        return b"+OK\r\n" if words[0] == b"0" else b"-ERR DB index is out of range\r\n"
    if command == b"AUTH" and 0 < len(words) < 3:
        return NO_PASSWORD if len(words) == 1 else b"+OK\r\n" if words[0] == b"default" else WRONG_USER
    if command == b"HELLO" and words[:1] in ([], [b"2"]):
        is_login = len(words) > 3 and words[1].upper() == b"AUTH"
        return WRONG_USER if is_login and words[2] != b"default" else GREETING % client
    return b"-NOPROTO unsupported protocol version\r\n" if command == b"HELLO" else None


def error_answer(command, words):
    """The error that answers a command with wrong words, or one that nodes do not have."""
    option = words[2].upper() if command == b"SET" and len(words) > 2 else b""
    if command in EXPIRING or option in (b"EX", b"PX", b"EXAT", b"PXAT", b"KEEPTTL"):
        return b"-ERR values do not expire in this store; nothing was changed\r\n"
    if command in CONDITIONAL or option in (b"NX", b"XX", b"GET"):
        return b"-ERR a write does not depend on the value before it in this store; nothing was changed\r\n"
    if command in (b"MGET", b"MSET", b"MSETNX") or (command == b"EXISTS" and words):
        return b"-ERR a command has one name in this store; nothing was done\r\n"
    if option:
        return b"-ERR syntax error\r\n"
    if command in (b"SET", b"PING", b"ECHO", b"SELECT", b"AUTH", b"DBSIZE", b"LAYOUT", b"SCAN", b"DEL", *READINGS):
        return b"-ERR wrong number of arguments for '%s' command\r\n" % command.lower()
    return b"-ERR unknown command\r\n"
