"""Machines of a test as network namespaces: each has one node and one NATS server, and each two of them a link.

The namespaces, the links and what is mounted belong to the story's own namespaces: nothing outside sees them, and they
are gone when the story ends, however it ends. All processes of the story end with them.
"""
import json
import os
import shutil
import subprocess
import sys

ENTERED = "LIVE_TEST_HAS_NAMESPACES"


def words_to_enter():
    """The words in front of a command that is to run in namespaces of its own, or None where that is not allowed."""
    words = ["unshare", *([] if os.getuid() == 0 else ["--user", "--map-root-user"]), "--net", "--mount", "--pid",
             "--fork", "--kill-child", "--mount-proc"]
    if shutil.which("unshare") is None or shutil.which("ip") is None:
        print("live: unshare or ip is missing; install them by: apt-get install util-linux iproute2", file=sys.stderr)
        return None
    tried = subprocess.run([*words, "sh", "-c", "mount -t tmpfs none /run && mkdir /run/netns && ip netns add tried && "
                            "ip link add one type veth peer name two"], capture_output=True, text=True, check=False)
    if tried.returncode != 0:
        print(f"live: no namespaces can be made here: {tried.stderr.strip()}", file=sys.stderr)
        return None
    return ["env", f"{ENTERED}=yes", *words]


def prepare():
    """Makes ready the namespaces in which this program was started, if it was."""
    if os.environ.get(ENTERED):
        run("mount", "-t", "tmpfs", "none", "/run")
        os.makedirs("/run/netns")
        run("ip", "link", "set", "lo", "up")


def enter():
    """Starts this program again in namespaces of its own. Where that is not allowed, says why and returns False."""
    if os.environ.get(ENTERED):
        prepare()
        return True
    words = words_to_enter()
    if words is not None:
        os.execvp(words[0], [*words, sys.executable, *sys.argv])
    return False


def run(*words):
    subprocess.run([str(word) for word in words], check=True)


def ip(namespace, *words):
    run("ip", *(["-n", namespace] if namespace else []), *words)


class Network:
    """Machines 1 to `count`, and the clients' machine, where this program runs. Machine N has the address 10.77.0.N."""

    def __init__(self, count):
        self.count = count
        self.down = set()  # the links that are cut, as pairs of machines
        self.delayed = False
        for number in range(1, count + 1):
            run("ip", "netns", "add", self.name(number))
            ip(self.name(number), "link", "set", "lo", "up")
            ip(self.name(number), "address", "add", f"{self.address_of(number)}/32", "dev", "lo")
        run("ip", "address", "add", f"{self.address_of(0)}/32", "dev", "lo")
        for number in range(1, count + 1):
            for other in range(number):
                self.link(other, number)

    @staticmethod
    def name(number):
        return f"machine-{number}" if number else ""

    @staticmethod
    def address_of(number):
        return f"10.77.0.{number or 200}"

    def words_on(self, number):
        return ["ip", "netns", "exec", self.name(number)]

    def links(self):
        """The links between nodes."""
        return [(one, other) for other in range(1, self.count + 1) for one in range(1, other)]

    def link(self, one, other):
        """Lays a link between two machines; its end at a machine has the name of the other one."""
        place = ["netns", self.name(one)] if one else []
        ip(self.name(other), "link", "add", f"to-{one}", "type", "veth", "peer", "name", f"to-{other}",
           *(place or ["netns", str(os.getpid())]))
        self.bring_up(one, other)

    def bring_up(self, one, other):
        for here, there in ((one, other), (other, one)):
            ip(self.name(here), "link", "set", f"to-{there}", "up")
        for here, there in ((one, other), (other, one)):
            ip(self.name(here), "route", "replace", f"{self.address_of(there)}/32", "dev", f"to-{there}", "src",
               self.address_of(here))

    def cut(self, links):
        """Exactly these links are cut from now on."""
        for one, other in self.down - set(links):
            self.bring_up(one, other)
        for one, other in set(links) - self.down:
            ip(self.name(one), "link", "set", f"to-{other}", "down")
        self.down = set(links)

    def has_rules_of(self, kind):
        """Whether tc and the kernel have rules of this kind: `netem` or `tbf`."""
        if shutil.which("tc") is None:
            return False
        rule = {"netem": ["delay", "1ms"], "tbf": ["rate", "1mbit", "burst", "16kb", "limit", "16kb"]}[kind]
        words = ["tc", "-n", self.name(1), "qdisc", "replace", "dev", "to-2", "root", kind, *rule]
        return subprocess.run(words, stderr=subprocess.DEVNULL, check=False).returncode == 0

    def rule(self, *rule):
        """From now on each link between nodes has this rule of tc, in both directions; without words, it has none."""
        for one, other in self.links():
            for here, there in ((one, other), (other, one)):
                words = ["tc", "-n", self.name(here), "qdisc", "replace" if rule else "del", "dev", f"to-{there}", "root"]
                run(*words, *rule)

    def lost(self):
        """How many packets the rules have lost so far."""
        lost = 0
        for number in range(1, self.count + 1):
            words = ["tc", "-n", self.name(number), "-s", "-j", "qdisc", "show"]
            said = subprocess.run(words, check=True, stdout=subprocess.PIPE).stdout
            lost += sum(one.get("drops", 0) for one in json.loads(said) if one.get("kind") in ("netem", "tbf"))
        return lost
