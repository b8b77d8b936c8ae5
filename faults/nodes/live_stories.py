"""What goes wrong while clients read and write: each story is a function of a test, which runs until its time is over.

A story leaves everything whole: all nodes run, no link is cut, and nothing is held back. It counts what it did.
"""
import subprocess
import sys
from pathlib import Path

from live_cluster import Broken
from live_departure import departure
from live_moves import mover, moves
from live_replacement import replacement
from live_upgrade import upgrade

sys.path.append(str(Path(__file__).resolve().parent.parent.parent / "deploy" / "test"))
from frames import encode  # noqa: E402


def restart(test, node):
    """A killed node comes back with its log."""
    test.cluster.start_node(node)
    test.cluster.wait_for_answer(node)


def kills(test):
    """Nodes are killed by SIGKILL, one after another and sometimes two at once, and started again."""
    cluster, source = test.cluster, test.source
    while test.goes_on():
        began = {}
        for node in source.sample(list(cluster.numbers), source.choice([1, 1, 1, 2])):
            began[node] = test.history.now()
            source.choice([cluster.kill, cluster.kill_program])(node)
            test.count("kills")
        test.sleep(0.1, 1.5)
        for node in began:
            restart(test, node)
            test.history.note("down", node, began[node])
        test.sleep(0.1, 1)
    test.needs("kills")


def nats(test):
    """The NATS server is killed by SIGKILL and started again."""
    [server] = test.cluster.servers
    while test.goes_on():
        began = test.history.now()
        server.end()
        test.count("kills of NATS")
        test.sleep(0.1, 2)
        server.start()
        test.history.note("nats", 0, began)
        test.sleep(1, 3)
    test.needs("kills of NATS")


def cuts(test):
    """Links between machines are cut: one machine is alone, two are apart from three, or single links are cut. Each
    machine has a NATS server of its own, which forms a cluster with the others."""
    network, source, cluster = test.cluster.network, test.source, test.cluster
    while test.goes_on():
        kind, links = source.randrange(3), network.links()
        if kind < 2:
            apart = set(source.sample(list(cluster.numbers), kind + 1))
            links = [link for link in links if len(apart & set(link)) == 1]
        else:
            links = source.sample(links, source.randint(1, 4))
        began = test.history.now()
        network.cut(links)
        test.count("cuts")
        test.sleep(0.5, 5)
        network.cut([])
        for one, other in links:
            test.history.note(f"cut-{one}-{other}", one, began)
        test.sleep(0.5, 2)
    test.needs("cuts")


def delays(test):
    """Links between machines delay, lose, repeat and reorder packets, where the kernel has netem. Where it has tbf, they
    let few bytes pass a second, so that packets wait, and are lost where more would wait."""
    network, source = test.cluster.network, test.source
    kinds = [kind for kind in ("netem", "tbf") if network.has_rules_of(kind)]
    if not kinds:
        test.skip("tc is missing, or the kernel has neither netem nor tbf for it")
        return
    while test.goes_on():
        kind, began = source.choice(kinds), test.history.now()
        network.rule(kind, *rule_of(kind, source))
        test.sleep(1, 3)
        test.count(f"rules of {kind}")
        test.count("packets lost", network.lost())
        network.rule()
        test.history.note(f"slow-by-{kind}", 0, began)
        test.sleep(0.2, 1)


def rule_of(kind, source):
    if kind == "netem":
        return ["delay", f"{source.choice([1, 10, 50])}ms", f"{source.choice([1, 10])}ms", "loss",
                f"{source.choice([0, 2, 10])}%", "duplicate", "2%", "reorder", "10%"]
    return ["rate", f"{source.choice([200, 1000, 5000])}kbit", "burst", "16kb", "limit",
            f"{source.choice([20, 60, 200])}kb"]


def relays(test):
    """Between each node and the NATS server stands a relay, which holds bytes back, stops, and breaks connections."""
    source, wires = test.source, test.wires
    while test.goes_on():
        node, kind, began = source.choice(list(test.cluster.numbers)), source.randrange(3), test.history.now()
        if kind == 0:
            wires.delay(node, source.choice([0.005, 0.05, 0.3]))
            test.sleep(0.2, 1)
            wires.delay(node, 0)
        elif kind == 1:
            wires.hold(node)
            test.sleep(0.2, 3)
            wires.let_pass(node)
        else:
            wires.break_all(node)
        test.count("disturbances")
        test.history.note(["slow", "held", "broken"][kind], node, began)
        test.sleep(0.1, 0.5)
    test.needs("disturbances")


def disk(test):
    """The disk of one node is full. The node stops, the others go on; it starts again when there is room."""
    cluster, node = test.cluster, cluster_with_small_disk(test)
    if node is None:
        test.skip("no file system can be mounted here")
        return
    began = test.history.now()
    test.wait_for("the disk did not become full", lambda: cluster.has_ended(node))
    if "No space left on device" not in cluster.said_by(node):
        raise Broken(f"node {node} does not say that its disk is full: {cluster.said_by(node)[-200:]}")
    enough = test.history.answered_writes + 10
    test.wait_for("no ten writes were answered while the disk was full",
                  lambda: test.history.answered_writes >= enough or test.history.faults)
    mount(test, node, "remount,size=1g")
    cluster.kill(node)
    restart(test, node)
    test.history.note("down", node, began)
    test.count("full disks")
    test.sleep(1, 2)


def cluster_with_small_disk(test):
    """A node whose folder lies on a disk that its log fills soon, or None."""
    node = test.source.choice(list(test.cluster.numbers))
    test.cluster.kill(node)
    if not mount(test, node, "size=300k"):
        restart(test, node)
        return None
    restart(test, node)
    return node


def mount(test, node, options):
    """Mounts a file system in memory over a node's folder. The node's files come with it."""
    folder = test.cluster.folder / f"node-{node}"
    kept = {} if options.startswith("remount") else {file: file.read_bytes() for file in folder.iterdir()}
    mounted = subprocess.run(["mount", "-t", "tmpfs", "-o", options, "none", folder], capture_output=True, check=False)
    if mounted.returncode == 0 and kept:
        for file, data in kept.items():
            file.write_bytes(data)
        test.mounted.append(folder)
    return mounted.returncode == 0


def noise(test):
    """Some clients send random bytes, cut frames and endless numbers; the others notice nothing."""
    source = test.source
    heads = [b"", b"*1\r\n", b"*3\r\n$3\r\nSET\r\n", b"*2\r\n$5\r\n", b"*1023\r\n", b"*1\r\n$16842752\r\n"]
    while test.goes_on():
        data = source.choice(heads) + source.randbytes(source.choice([1, 10, 1000, 100000]))
        if source.random() < 0.2:
            good = encode([b"SET", b"noise", b"x"])
            data = good + good[:source.randrange(len(good))]
        with test.cluster.connect(source.choice(list(test.cluster.numbers))) as client:
            try:
                client.send(data)
                client.send_end()
                client.rest()
            except OSError:
                pass
        test.count("noises")
        test.sleep(0, 0.02)
    test.needs("noises")
    if test.history.lost > 0:
        raise Broken(f"{test.history.lost} calls of other clients lost their connections")


# The stories in which each node has a machine of its own, and those in which all nodes have loopback addresses.
ON_MACHINES = {"cuts": cuts, "delays": delays}
ON_LOOPBACK = {"kills": kills, "nats": nats, "relays": relays, "disk": disk, "moves": moves, "mover": mover,
               "noise": noise, "replacement": replacement, "departure": departure, "upgrade": upgrade}
NEED_NAMESPACES = {"cuts", "delays", "disk"}
