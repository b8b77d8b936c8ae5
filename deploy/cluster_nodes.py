"""The nodes of a cluster, as deploy/replace and deploy/drain reach them: which node answers at which address, what the
cluster file says, and connections to nodes."""
import re
import threading
from collections import namedtuple
from pathlib import Path

from node_client import Client

MOST_NODE = 255  # the greatest number of a node
LISTENS = re.compile(r"listening on (\S+) port (\d+)$", re.MULTILINE)

# A node that answers: its number, its address as host and port, and the lines of its INFO.
Node = namedtuple("Node", "number address info")


class BadArguments(Exception):
    """What is wrong with the words of the command. Nothing was changed."""


class NoAnswer(Exception):
    """Why a node gave no answer that can be used."""


class WrongPassword(NoAnswer):
    """The node's host refuses the password, or wants one."""


def side_by_side(function, items):
    """The results of a function for all items, each of which has a thread of its own. The threads do not keep the
    process from ending."""
    results, faults = [None] * len(items), {}

    def run(place, item):
        try:
            results[place] = function(item)
        except Exception as fault:
            faults[place] = fault

    threads = [threading.Thread(target=run, args=[place, item], daemon=True) for place, item in enumerate(items)]
    for thread in threads:
        thread.start()
    for thread in threads:
        thread.join()
    if faults:
        raise faults[min(faults)]
    return results


def shown(address):
    host, port = address
    return f"[{host}]:{port}" if ":" in host else f"{host}:{port}"


def text_of(answer):
    """The text of an answer, also of one that is an error."""
    if isinstance(answer, list):
        return f"an array of {len(answer)} strings"
    return answer.removeprefix(b"-").decode(errors="backslashreplace")


class NodeClient(Client):
    """A connection to the client port of a node. Whatever goes wrong with it is a NoAnswer."""

    def __init__(self, address, password, patience):
        self.patience = patience
        try:
            super().__init__(*address, patience)
        except OSError as fault:
            raise NoAnswer(self.reason(fault)) from None
        if password is not None and (answer := self.ask(b"AUTH", b"default", password)) != b"+OK":
            self.close()
            raise WrongPassword(text_of(answer))

    def reason(self, fault):
        if isinstance(fault, TimeoutError):
            return f"no answer within {self.patience:g} s"
        return getattr(fault, "strerror", None) or str(fault)

    def guarded(self, action, *words):
        """What the action returns."""
        try:
            result = action(*words)
        except (OSError, ValueError) as fault:
            raise NoAnswer(self.reason(fault)) from None
        if result is None:
            raise NoAnswer("it ended the connection")
        return result

    def send(self, data):
        self.guarded(lambda: super(NodeClient, self).send(data) or True)

    def line(self):
        return self.guarded(super().line)

    def bulk(self, length):
        return self.guarded(super().bulk, length)


# How nodes are reached: the password of their hosts, if they have one, and the seconds to wait for an answer.
Access = namedtuple("Access", "password patience")


def node_at(address, access):
    """The node at an address."""
    with NodeClient(address, *access) as client:
        answer = client.ask(b"INFO")
    if answer.startswith((b"-NOAUTH", b"-WRONGPASS")):
        raise WrongPassword(text_of(answer))
    info = dict(line.split(":", 1) for line in text_of(answer).splitlines() if ":" in line)
    if not info.get("node", "").isdigit():
        raise BadArguments(f"what answers at {shown(address)} is no node: {text_of(answer)[:60]}")
    return Node(int(info["node"]), address, info)


class Cluster:
    """The nodes at the given addresses. `settings` are those of a cluster file, for what INFO does not tell."""

    def __init__(self, addresses, settings, access):
        self.addresses, self.settings, self.access = addresses, settings, access
        self.nodes = {}   # the nodes that answer, by their numbers
        self.silent = {}  # why there is no answer, by the address
        self.look()

    def look(self):
        """Finds out which nodes answer now."""
        self.nodes, self.silent = {}, {}
        for address, found in zip(self.addresses, side_by_side(self.try_node, self.addresses)):
            if isinstance(found, Node):
                self.nodes.setdefault(found.number, found)
            else:
                self.silent[address] = found
        if len({node.info.get("cluster") for node in self.nodes.values()}) > 1:
            raise BadArguments("the addresses are those of nodes of different clusters")

    def try_node(self, address):
        """The node at an address, or why there is no answer."""
        try:
            return node_at(address, self.access)
        except WrongPassword as fault:
            raise BadArguments(f"the node at {shown(address)} says: {fault}") from None
        except NoAnswer as fault:
            return str(fault)

    def told(self, setting):
        """The numbers of a setting, as the nodes tell them, or else the cluster file; None where neither does."""
        for node in self.nodes.values():
            if setting in node.info:
                return numbers_of(node.info[setting].split(), f"the setting {setting} of node {node.number}")
        return self.settings.get(setting)

    def members(self):
        """The numbers of all nodes of the cluster, or None where nothing tells them."""
        nodes = self.told("nodes")
        return None if nodes is None else sorted({*nodes, *(self.told("later") or [])})

    def takers(self):
        """The numbers of the nodes that may get names, or None where nothing tells them: not that of a mover which is
        there to move objects alone, since no name has it in its first layout."""
        members, nodes, mover = self.members(), self.told("nodes"), self.told("mover")
        if members is None or mover is None or mover[0] in nodes:
            return members
        return [number for number in members if number not in mover]

    def movers(self):
        """The nodes that answer of which one may be the mover: one of them, where something tells it."""
        mover = self.told("mover")
        return [node for _, node in sorted(self.nodes.items()) if mover is None or mover == [node.number]]

    def unasked(self, old):
        """What was not asked, besides the old node."""
        members = self.members()
        if members is None:
            return [f"the node at {shown(address)}" for address in self.silent]
        return [f"node {number}" for number in members if number not in self.nodes and number != old]

    def connect(self, node):
        return NodeClient(node.address, *self.access)


def numbers_of(words, where=""):
    """The numbers of nodes that these words are."""
    for word in words:
        if not (word.isascii() and word.isdigit()) or int(word) > MOST_NODE:
            raise BadArguments(f"{where and where + ': '}{word} is no number of a node")
    return [int(word) for word in words]


def address_of(word):
    """The host and the port that HOST:PORT names."""
    host, colon, port = word.rpartition(":")
    if not (colon and host and port.isascii() and port.isdigit() and 0 < int(port) < 65536):
        raise BadArguments(f"{word} is no address HOST:PORT")
    return host.removeprefix("[").removesuffix("]"), int(port)


def addresses_in(folder):
    """The addresses of the nodes that deploy/run started in a folder: the last ones that their hosts' logs tell."""
    found = []
    try:
        for log in sorted(Path(folder).glob("node-*.log")):
            if told := LISTENS.findall(log.read_text(errors="replace")):
                found.append((told[-1][0], int(told[-1][1])))
    except OSError as fault:
        raise BadArguments(f"{fault.filename}: {fault.strerror}") from None
    if not found:
        raise BadArguments(f"{folder} is no folder of a cluster that deploy/run has started")
    return found


def settings_of(file):
    """The settings of a cluster file that say which nodes there are."""
    try:
        lines = [line.partition("#")[0].split() for line in Path(file).read_text(errors="replace").splitlines()]
    except OSError as fault:
        raise BadArguments(f"{file}: {fault.strerror}") from None
    found = {words[0]: words[1:] for words in lines if words}
    if not found.get("nodes") or len(found.get("mover", [])) != 1:
        raise BadArguments(f"{file} is no cluster file: it does not name the nodes and the mover")
    return {setting: numbers_of(found.get(setting, []), file) for setting in ("nodes", "later", "mover")}
